//! Every cell of the row and sort-entry stores, past the counts too.

use super::*;
use calls::DEAD;

#[test]
fn cells_past_the_counts() {
    let mut table = opened([2, 1, 1, 1, 4, 0]);
    for cells in [[1, 10], [2, 11], [3, 12]] {
        insert(&mut table, &cells);
    }
    merge(&mut table);
    assert_eq!(table.expected().rows, [1, 10, 2, 11, 3, 12]);
    assert_eq!(table.expected().sorts, [10, 0, 11, 1, 12, 2]);
    remove_key(&mut table, &[1]);
    merge(&mut table);
    // A row that dies keeps its other cells.
    assert_eq!(table.expected().rows, [DEAD, 10, 2, 11, 3, 12]);
    table.call(&LENT, &Call::Compact);
    // The third row and the third entry are as just before.
    assert_eq!(table.expected().rows, [2, 11, 3, 12, 3, 12]);
    assert_eq!(table.expected().sorts, [11, 0, 12, 1, 12, 2]);
    assert_eq!(table.expected().header.rows, 2);
    // Neither a clear nor an opening writes a cell; an opening of other columns goes on from there.
    table.call(&LENT, &Call::Clear);
    table.call(&LENT, &Call::Open(numbers([3, 1, 1, 1, 4, 0])));
    assert_eq!(table.expected().rows, [2, 11, 3, 12, 3, 12]);
    insert(&mut table, &[7, 8, 9]);
    merge(&mut table);
    assert_eq!(table.expected().rows, [7, 8, 9, 12, 3, 12]);
    assert_eq!(table.expected().sorts, [8, 0, 12, 1, 12, 2]);
}

/// "Its merge's earlier writes included": a merge that compacts leaves what it had appended past its new counts.
#[test]
fn writes_of_a_merge_that_compacts() {
    let mut table = with_dead(17, 17);
    insert(&mut table, &[50, 6]);
    insert(&mut table, &[51, 7]);
    assert_eq!(merge(&mut table), compacted(true, 2, 17));
    let expected = table.expected();
    assert_eq!(expected.header.rows, 2);
    assert_eq!(expected.rows[..4], [50, 6, 51, 7]);
    assert_eq!(expected.rows[4..6], [DEAD, 5]);
    assert_eq!(expected.rows[34..], [50, 6, 51, 7]);
    assert_eq!(expected.sorts, [6, 0, 7, 1, 7, 18]);
}

#[test]
fn a_stop_writes_nothing() {
    let mut table = opened([2, 1, 1, 1, 1, 0]);
    insert(&mut table, &[1, 10]);
    insert(&mut table, &[2, 11]);
    assert_eq!(merge(&mut table), merged(8, 1, true));
    assert_eq!(table.expected().rows, [1, 10]);
    assert_eq!(table.expected().sorts, [10, 0]);
    // The records stay where they were staged; none of them is in use.
    assert_eq!(table.expected().pending.len(), 8);
    assert_eq!(table.expected().header.pending, 0);
}

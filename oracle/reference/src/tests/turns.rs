//! The wrong turns, the stops and the rules.

use super::*;
use calls::DEAD;

#[test]
fn removed_and_staged_again() {
    let mut table = with_dead(3, 0);
    merge(&mut table);
    insert(&mut table, &[1, 6]);
    remove_key(&mut table, &[1]);
    assert_eq!(merge(&mut table), merged(0, 0, true));
    assert_eq!(lookup(&table, &[1]), Answer::Row(3, vec![1, 6]));
    insert(&mut table, &[2, 6]);
    remove_row(&mut table, 2, &[2]);
    assert_eq!(merge(&mut table), merged(0, 0, true));
    assert_eq!(lookup(&table, &[2]), Answer::Row(4, vec![2, 6]));
}

#[test]
fn dead_last_row_of_sort_column_0() {
    let mut table = opened([1, 1, 0, 0, 16, 0]);
    insert(&mut table, &[8]);
    merge(&mut table);
    remove_key(&mut table, &[8]);
    insert(&mut table, &[7]);
    assert_eq!(merge(&mut table), merged(9, 0, false));
    insert(&mut table, &[9]);
    assert_eq!(merge(&mut table), merged(0, 0, true));
    assert_eq!(table.contents().sort_entries, [(8, 0), (9, 1)]);
}

/// A table that held stamps 5 and 9; the row of 9 is gone.
fn without_the_newest() -> Reference {
    let mut table = opened([2, 1, 1, 0, 16, 0]);
    insert(&mut table, &[1, 5]);
    insert(&mut table, &[2, 9]);
    merge(&mut table);
    remove_key(&mut table, &[2]);
    merge(&mut table);
    table.call(&LENT, &Call::Compact);
    table
}

#[test]
fn old_stamps_stay_out_after_a_compaction() {
    let mut table = without_the_newest();
    assert_eq!(table.contents().sort_entries, [(5, 0)]);
    assert_eq!(table.header().largest, Some(9));
    insert(&mut table, &[3, 8]);
    assert_eq!(merge(&mut table), merged(9, 0, false));
    insert(&mut table, &[3, 9]);
    assert_eq!(merge(&mut table), merged(0, 0, true));
    assert_eq!(table.contents().sort_entries, [(5, 0), (9, 1)]);
}

#[test]
fn clears_and_the_largest_value() {
    let mut table = without_the_newest();
    // The rows go, and a clear of what is left, which has none, changes nothing but pending.
    remove_key(&mut table, &[1]);
    merge(&mut table);
    table.call(&LENT, &Call::Compact);
    assert_eq!(table.call(&LENT, &Call::Clear), Answer::Done);
    assert_eq!(table.header().largest, Some(9));
    insert(&mut table, &[1, 8]);
    assert_eq!(merge(&mut table), merged(9, 0, false));
    insert(&mut table, &[1, 9]);
    merge(&mut table);
    // One that empties rows, here a dead one, begins anew.
    remove_key(&mut table, &[1]);
    merge(&mut table);
    assert_eq!(table.call(&LENT, &Call::Clear), Answer::Done);
    assert_eq!(table.header().largest, None);
    insert(&mut table, &[1, 0]);
    assert_eq!(merge(&mut table), merged(0, 0, true));
    assert_eq!(table.header().largest, Some(0));
}

#[test]
fn rows_before_a_stop_count() {
    let mut table = opened([2, 1, 1, 0, 16, 0]);
    for cells in [[1, 5], [2, 9], [3, 8]] {
        insert(&mut table, &cells);
    }
    assert_eq!(merge(&mut table), merged(9, 2, true));
    assert_eq!(table.header().largest, Some(9));
}

#[test]
fn full_before_order() {
    let mut table = opened([2, 1, 1, 1, 2, 0]);
    for cells in [[DEAD, 0], [1, 5], [DEAD, 0], [2, 6], [3, 4], [1, 9]] {
        insert(&mut table, &cells);
    }
    // Skipped inserts have a place too; what came before is kept, the rest is dropped.
    assert_eq!(merge(&mut table), merged(8, 4, true));
    assert_eq!(live(&table), [(0, vec![1, 5]), (1, vec![2, 6])]);
    assert_eq!(merge(&mut table), merged(0, 0, false));
}

#[test]
fn old_row_of_a_stop_lives() {
    let mut table = opened([3, 1, 2, 1, 16, 0]);
    insert(&mut table, &[1, 7, 12]);
    merge(&mut table);
    insert(&mut table, &[1, 8, 11]);
    assert_eq!(merge(&mut table), merged(9, 0, false));
    assert_eq!(live(&table), [(0, vec![1, 7, 12])]);
}

#[test]
fn no_compaction_after_a_stop() {
    let mut table = with_dead(20, 17);
    insert(&mut table, &[50, 4]);
    assert_eq!(merge(&mut table), merged(9, 0, false));
    assert_eq!(table.contents().rows, 20);
    // The next merge compacts, even an empty one.
    assert_eq!(merge(&mut table), compacted(false, 3, 17));
    assert_eq!(table.contents().rows, 3);
}

#[test]
fn removals_by_row() {
    let mut table = with_dead(4, 2);
    merge(&mut table);
    // Wrong key, dead row, and a row that a compaction has moved.
    remove_row(&mut table, 2, &[3]);
    remove_row(&mut table, 0, &[0]);
    remove_row(&mut table, 0, &[DEAD]);
    remove_row(&mut table, 2, &[2]);
    table.call(&LENT, &Call::Compact);
    merge(&mut table);
    assert_eq!(live(&table), [(0, vec![2, 5]), (1, vec![3, 5])]);
    remove_row(&mut table, 1, &[3]);
    remove_key(&mut table, &[3]);
    merge(&mut table);
    assert_eq!(table.contents().dead, 1);
}

/// One known key, old cells 5 and 5 with stamp 1, new cells 4 and 6 with stamp 2.
fn after_rule(rule: u32) -> Vec<(u32, Vec<u32>)> {
    let mut table = opened([4, 1, 3, rule, 16, 0]);
    insert(&mut table, &[1, 5, 5, 1]);
    insert(&mut table, &[1, 4, 6, 2]);
    merge(&mut table);
    live(&table)
}

#[test]
fn rules() {
    assert_eq!(after_rule(0), [(0, vec![1, 5, 5, 1])]);
    assert_eq!(after_rule(1), [(1, vec![1, 4, 6, 2])]);
    assert_eq!(after_rule(2), [(1, vec![1, 4, 5, 2])]);
    assert_eq!(after_rule(3), [(1, vec![1, 5, 6, 2])]);
}

/// One known key, old level 5, new level minus one; then the least level.
fn after_negative_levels(rule: u32) -> Vec<(u32, Vec<u32>)> {
    let mut table = opened([3, 1, 2, rule, 16, 0]);
    for level in [5, u32::MAX, 0x8000_0000] {
        insert(&mut table, &[1, level, 1]);
    }
    merge(&mut table);
    live(&table)
}

#[test]
fn levels_below_zero() {
    assert_eq!(after_negative_levels(2), [(2, vec![1, 0x8000_0000, 1])]);
    assert_eq!(after_negative_levels(3), [(0, vec![1, 5, 1])]);
}

#[test]
fn last_generation() {
    let mut table = opened([2, 1, 1, 0, 32, u32::MAX]);
    assert_eq!(table.call(&LENT, &Call::Clear), Answer::Done);
    for key in 0..17 {
        insert(&mut table, &[key, 5]);
    }
    merge(&mut table);
    (0..17).for_each(|key| remove_key(&mut table, &[key]));
    assert_eq!(merge(&mut table), merged(0, 0, false));
    assert_eq!(table.contents().dead, 17);
    assert_eq!(table.call(&LENT, &Call::Compact), Answer::Refused(10));
    assert_eq!(table.call(&LENT, &Call::Clear), Answer::Refused(10));
    assert_eq!(table.contents().rows, 17);
}

#[test]
fn clear_empties_pending() {
    let mut table = opened([2, 1, 1, 0, 32, 7]);
    insert(&mut table, &[1, 1]);
    assert_eq!(table.call(&LENT, &Call::Clear), Answer::Done);
    assert_eq!(merge(&mut table), merged(0, 0, false));
    assert_eq!(table.contents().generation, 7);
    insert(&mut table, &[1, 1]);
    merge(&mut table);
    assert_eq!(table.call(&LENT, &Call::Clear), Answer::Done);
    assert_eq!((table.contents().generation, table.contents().rows), (8, 0));
}

#[test]
fn dead_mark_in_queries() {
    let mut table = with_dead(3, 1);
    merge(&mut table);
    assert_eq!(lookup(&table, &[DEAD]), Answer::None);
    assert_eq!(lookup(&table, &[0]), Answer::None);
    insert(&mut table, &[4, DEAD]);
    merge(&mut table);
    let cell = Query::Cell(vec![4], 1);
    assert_eq!(table.query(&LENT, &cell), Answer::Cell(DEAD));
    let all = Query::Page {
        subset: Subset::Range(0, 4),
        start: 0,
        n: u64::MAX,
        conditions: vec![],
        output: 4,
    };
    let live = Answer::Page {
        ids: vec![1, 2, 3],
        dead: 1,
        next: None,
    };
    assert_eq!(table.query(&LENT, &all), live);
}

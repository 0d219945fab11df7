//! Before comes first: which rows fail which pairs.

use super::*;

/// Two key columns, place and kind, a level and a stamp; kinds 1 before and 2 after.
fn levels(rows: &[[u32; 4]]) -> Reference {
    let mut table = opened([4, 2, 3, 1, 64, 0]);
    rows.iter().for_each(|row| insert(&mut table, row));
    merge(&mut table);
    table
}

fn check(table: &Reference, column: u32, pairs: &[u32]) -> Answer {
    table.query(&LENT, &precedence(column, pairs))
}

#[test]
fn the_level_before_is_on_file() {
    let table = levels(&[
        [7, 1, 160, 10],
        [7, 2, 148, 10],
        [8, 1, 161, 11],
        [8, 2, 150, 12],
    ]);
    assert_eq!(check(&table, 1, &[2, 1]), Answer::None);
    // The other way round only the rows of one stamp do.
    assert_eq!(check(&table, 1, &[1, 2]), Answer::Fails(2, 0));
    // No row has the second value.
    assert_eq!(check(&table, 1, &[2, 3]), Answer::Fails(1, 0));
    // No row has the first.
    assert_eq!(check(&table, 1, &[3, 1]), Answer::None);
    // Another place's level does not count.
    let table = levels(&[[7, 1, 160, 10], [8, 2, 150, 12]]);
    assert_eq!(check(&table, 1, &[2, 1]), Answer::Fails(1, 0));
}

#[test]
fn several_pairs() {
    let table = levels(&[[7, 1, 0, 1], [7, 2, 0, 2], [7, 3, 0, 3]]);
    assert_eq!(check(&table, 1, &[3, 1, 3, 2, 2, 1]), Answer::None);
    // The lowest row, whatever the order of pairs, and the first pair that it fails.
    assert_eq!(check(&table, 1, &[3, 9, 2, 1, 2, 3]), Answer::Fails(1, 2));
    assert_eq!(check(&table, 1, &[3, 2, 3, 8, 3, 9]), Answer::Fails(2, 1));
}

#[test]
fn equal_values_and_the_dead_mark() {
    let table = levels(&[[7, 1, 0, 1], [7, 2, 0, 2]]);
    assert_eq!(check(&table, 1, &[1, 1, 2, 2]), Answer::None);
    assert_eq!(check(&table, 0, &[7, u32::MAX]), Answer::Fails(0, 0));
    assert_eq!(check(&table, 0, &[u32::MAX, 7]), Answer::None);
    // In another column the dead mark is a value like others.
    let table = levels(&[[7, u32::MAX, 0, 1], [7, 2, 0, 2]]);
    assert_eq!(check(&table, 1, &[2, u32::MAX]), Answer::None);
}

#[test]
fn the_sort_column_among_the_keys() {
    // Key columns 0 and 1, the stamp in column 1.
    let mut table = opened([2, 2, 1, 0, 64, 0]);
    [[5, 3], [6, 3], [5, 4]]
        .iter()
        .for_each(|row| insert(&mut table, row));
    merge(&mut table);
    assert_eq!(check(&table, 1, &[4, 3]), Answer::None);
    assert_eq!(check(&table, 1, &[3, 4]), Answer::Fails(0, 0));
    assert_eq!(check(&table, 0, &[6, 5]), Answer::None);
    assert_eq!(check(&table, 0, &[5, 6]), Answer::Fails(2, 0));
}

#[test]
fn a_later_correction_of_the_earlier_row() {
    let mut table = levels(&[[7, 1, 160, 10], [7, 2, 148, 10]]);
    assert_eq!(check(&table, 1, &[2, 1]), Answer::None);
    insert(&mut table, &[7, 1, 163, 12]);
    merge(&mut table);
    assert_eq!(check(&table, 1, &[2, 1]), Answer::Fails(1, 0));
    remove_key(&mut table, &[7, 2]);
    merge(&mut table);
    assert_eq!(check(&table, 1, &[2, 1]), Answer::None);
}

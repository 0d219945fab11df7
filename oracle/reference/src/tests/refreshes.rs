//! Refreshing the rows that mention a value: which are staged, how, and what comes of them at the merge.

use super::*;
use calls::{Before, DEAD, Index, Refresh, Restamped};

pub fn of(columns: &[u32], values: &[u32], stamp: u32) -> Refresh {
    Refresh {
        index: Index {
            store: 0,
            before: Before::Nothing,
        },
        columns: columns.to_vec(),
        values: values.to_vec(),
        stamp,
    }
}

fn refresh(table: &mut Reference, columns: &[u32], values: &[u32], stamp: u32) -> Answer {
    table.call(&LENT, &Call::Refresh(of(columns, values, stamp)))
}

/// The numbers of the rows that a refresh returned as staged.
fn rows(answer: Answer) -> Vec<u32> {
    match answer {
        Answer::Refreshed(yes, rows) => {
            assert_eq!(yes, !rows.is_empty());
            rows.iter().map(|of| of.row).collect()
        }
        other => panic!("{other:?}"),
    }
}

/// Modem, diplexer type, stamp: types 40, 41, 40, 42, and the row of type 42 is dead.
fn types() -> Reference {
    let mut table = opened([3, 1, 2, 1, 8, 0]);
    for row in [[7, 40, 10], [8, 41, 10], [9, 40, 11], [6, 42, 11]] {
        insert(&mut table, &row);
    }
    merge(&mut table);
    remove_key(&mut table, &[6]);
    merge(&mut table);
    table
}

#[test]
fn removal_and_insert_in_rising_order() {
    let mut table = types();
    let restamped = |row: u32, cells: [u32; 3]| Restamped {
        row,
        key: vec![cells[0]],
        cells: cells.to_vec(),
    };
    let all = vec![restamped(0, [7, 40, 12]), restamped(2, [9, 40, 12])];
    assert_eq!(
        refresh(&mut table, &[1], &[40], 12),
        Answer::Refreshed(true, all)
    );
    // 4 + 5 words for each.
    assert_eq!(table.header().pending, 18);
    let hash = |key: u32| crate::key_hash(&[key]);
    let words = [
        2,
        hash(7),
        0,
        7,
        0,
        hash(7),
        7,
        40,
        12,
        2,
        hash(9),
        2,
        9,
        0,
        hash(9),
        9,
        40,
        12,
    ];
    assert_eq!(table.expected().pending[..18], words);
    merge(&mut table);
    let stamps: Vec<u32> = live(&table).iter().map(|row| row.1[2]).collect();
    assert_eq!(stamps, [10, 12, 12]);
}

#[test]
fn which_rows() {
    let mut table = types();
    let mut rows = |columns: &[u32], values: &[u32]| rows(refresh(&mut table, columns, values, 11));
    assert_eq!(rows(&[1], &[41, 40]), [0, 1, 2]);
    // Once however often it is found, by whatever names it.
    assert_eq!(rows(&[1, 1, 0], &[40, 7, 40]), [0, 2]);
    assert_eq!(rows(&[2, 0], &[11, 8]), [1, 2]);
    // Of a dead row, of none, in another column.
    assert_eq!(rows(&[1], &[42]), []);
    assert_eq!(rows(&[1], &[43, DEAD]), []);
    assert_eq!(rows(&[0], &[40]), []);
    // "An empty value or column list, if nothing is refused, answers no."
    assert_eq!(rows(&[], &[40]), []);
    assert_eq!(rows(&[1], &[]), []);
    // A row already at the stamp is staged too.
    assert_eq!(rows(&[2], &[11]), [2]);
}

#[test]
fn the_greatest_number_is_a_value_like_others() {
    let mut table = opened([2, 1, 1, 1, 8, 0]);
    insert(&mut table, &[7, DEAD]);
    merge(&mut table);
    assert_eq!(rows(refresh(&mut table, &[1], &[DEAD], DEAD)), [0]);
    assert_eq!(rows(refresh(&mut table, &[0], &[DEAD], DEAD)), []);
}

#[test]
fn refusals_in_order() {
    let mut table = types();
    let mut refused = |lent: Lengths, of: Refresh| match table.call(&lent, &Call::Refresh(of)) {
        Answer::Refused(number) => number,
        _ => 0,
    };
    let exact = |pending: usize, index: usize, rows: usize| Lengths {
        rows,
        pending,
        index,
        ..LENT
    };
    let nine = [9; 9];
    let index = |columns: usize| 16 + 3 * 8 * columns;
    assert_eq!(refused(exact(0, 0, 23), of(&nine, &[], 0)), 2);
    assert_eq!(refused(exact(0, 0, 24), of(&nine, &[], 0)), 12);
    assert_eq!(refused(exact(0, 0, 24), of(&[1, 3], &[], 0)), 6);
    assert_eq!(refused(exact(0, index(2) - 1, 24), of(&[1, 1], &[], 0)), 2);
    assert_eq!(refused(exact(0, 15, 24), of(&[], &[], 0)), 2);
    // 9 comes even where nothing would be staged.
    assert_eq!(refused(exact(0, 16, 24), of(&[], &[], 10)), 9);
    assert_eq!(refused(exact(0, index(1), 24), of(&[1], &[40], 10)), 9);
    assert_eq!(refused(exact(17, index(1), 24), of(&[1], &[40], 11)), 7);
    assert_eq!(refused(exact(18, index(1), 24), of(&[1], &[40], 11)), 0);
    // The words in use count.
    assert_eq!(refused(exact(26, index(1), 24), of(&[1], &[41], 11)), 7);
    assert_eq!(refused(exact(27, index(1), 24), of(&[1], &[41], 11)), 0);
    assert_eq!(refused(exact(26, 0, 0), of(&nine, &[], 0)), 1);
}

#[test]
fn rows_that_the_merge_loses() {
    // In a full table.
    let mut table = opened([2, 1, 1, 1, 1, 0]);
    insert(&mut table, &[7, 1]);
    merge(&mut table);
    assert_eq!(rows(refresh(&mut table, &[0], &[7], 2)), [0]);
    assert_eq!(merge(&mut table), merged(8, 0, false));
    assert!(live(&table).is_empty());
    // Behind a larger stamp staged earlier.
    let mut table = opened([2, 1, 1, 1, 8, 0]);
    insert(&mut table, &[7, 1]);
    merge(&mut table);
    insert(&mut table, &[8, 3]);
    assert_eq!(rows(refresh(&mut table, &[0], &[7], 2)), [0]);
    assert_eq!(merge(&mut table), merged(9, 1, true));
    // The greatest stamp in sort column 0 is the dead mark.
    let mut table = opened([1, 1, 0, 1, 8, 0]);
    insert(&mut table, &[1]);
    merge(&mut table);
    assert_eq!(rows(refresh(&mut table, &[0], &[1], DEAD)), [0]);
    assert_eq!(merge(&mut table), merged(0, 0, false));
    assert!(live(&table).is_empty());
    // The sort column is a key column: two rows become one.
    let mut table = opened([2, 1, 0, 0, 8, 0]);
    insert(&mut table, &[1, 5]);
    insert(&mut table, &[2, 5]);
    merge(&mut table);
    assert_eq!(rows(refresh(&mut table, &[1], &[5], 3)), [0, 1]);
    assert_eq!(merge(&mut table), merged(0, 0, true));
    assert_eq!(live(&table), [(2, vec![3, 5])]);
}

/// Over an unsound index store the table is fed what was staged, if that may be.
#[test]
fn feeding() {
    let refresh = of(&[1], &[40], 12);
    let all = types().mentioning(&refresh);
    let returned = |yes: bool, rows: &[Restamped]| Answer::Refreshed(yes, rows.to_vec());
    let fed = |lent: &Lengths, returned: &Answer| {
        let mut table = types();
        let fed = table.feed(lent, &refresh, returned);
        fed.is_ok().then_some(table.header().pending)
    };
    assert_eq!(fed(&LENT, &returned(true, &all)), Some(18));
    assert_eq!(fed(&LENT, &returned(true, &all[1..])), Some(9));
    assert_eq!(fed(&LENT, &returned(false, &[])), Some(0));
    // Falling, twice, changed, with the wrong answer, refused.
    let falling = [all[1].clone(), all[0].clone()];
    let twice = [all[0].clone(), all[0].clone()];
    let mut changed = all.clone();
    changed[0].cells[1] = 41;
    for rows in [&falling[..], &twice, &changed] {
        assert_eq!(fed(&LENT, &returned(true, rows)), None, "{rows:?}");
    }
    assert_eq!(fed(&LENT, &returned(false, &all)), None);
    assert_eq!(fed(&LENT, &returned(true, &[])), None);
    assert_eq!(fed(&LENT, &Answer::Refused(7)), None);
    // 7 may be returned, and need not be, where not all fit.
    let short = Lengths {
        pending: 17,
        ..LENT
    };
    assert_eq!(fed(&short, &Answer::Refused(7)), Some(0));
    assert_eq!(fed(&short, &returned(true, &all[..1])), Some(9));
    assert_eq!(fed(&short, &returned(true, &all)), None);
}

//! The paper's examples (b) to (l), the example of `levels`. Example (a) is about hashes, which the reference model does not have.

use super::*;

fn intersect(first: Subset, second: Subset) -> Answer {
    let output = 16;
    let query = Query::Intersect {
        first,
        second,
        output,
    };
    Reference::new().query(&LENT, &query)
}

#[test]
fn b_list_with_range() {
    let first = Subset::List(vec![1, 3, 5, 8]);
    assert_eq!(intersect(first, Subset::Range(3, 8)), list(&[3, 5]));
}

#[test]
fn c_ranges_that_do_not_meet() {
    assert_eq!(
        intersect(Subset::Range(2, 6), Subset::Range(6, 9)),
        range(6, 6)
    );
    assert_eq!(
        intersect(Subset::Range(6, 9), Subset::Range(2, 4)),
        range(6, 6)
    );
}

#[test]
fn d_range_with_list() {
    let second = Subset::List(vec![1, 6]);
    assert_eq!(intersect(Subset::Range(4, 6), second.clone()), range(0, 0));
    assert_eq!(intersect(second, Subset::Range(4, 6)), list(&[]));
}

/// Four live rows of keys 0 to 3.
fn four_rows() -> Reference {
    let mut table = with_dead(4, 0);
    merge(&mut table);
    table
}

#[test]
fn e_forms_of_refining() {
    let mut table = opened([3, 1, 1, 0, 16, 0]);
    for (key, mark) in [(0, 7), (1, 8), (2, 8), (3, 7)] {
        insert(&mut table, &[key, 5, mark]);
    }
    merge(&mut table);
    let subset = Subset::Range(0, 4);
    let one = Query::RefineOne {
        subset: subset.clone(),
        condition: condition(1, 2, 8),
        output: 4,
    };
    let by_list = Query::RefineList {
        subset,
        conditions: vec![condition(1, 2, 8)],
        output: 4,
    };
    assert_eq!(table.query(&LENT, &one), range(1, 3));
    assert_eq!(table.query(&LENT, &by_list), list(&[1, 2]));
}

#[test]
fn e_empty_and_scattered() {
    let table = four_rows();
    let one = |start, end, value| {
        table.query(
            &LENT,
            &Query::RefineOne {
                subset: Subset::Range(start, end),
                condition: condition(value, 0, 1),
                output: 4,
            },
        )
    };
    // Keys above 1 of an empty range, keys equal to 1 where there is none, keys not above 1.
    assert_eq!(one(3, 3, 3), range(0, 0));
    assert_eq!(one(2, 4, 1), range(0, 0));
    assert_eq!(one(0, 4, 4), range(0, 2));
    let same = Query::RefineList {
        subset: Subset::Range(3, 3),
        conditions: vec![],
        output: 0,
    };
    assert_eq!(table.query(&LENT, &same), range(3, 3));
}

fn next_place(table: &Reference, subset: Subset, start: u32, n: u64) -> Option<u32> {
    let page = Query::Page {
        subset,
        start,
        n,
        conditions: vec![],
        output: 10,
    };
    match table.query(&LENT, &page) {
        Answer::Page { next, .. } => next,
        other => panic!("not a page: {other:?}"),
    }
}

#[test]
fn f_next_place() {
    let mut table = with_dead(10, 0);
    merge(&mut table);
    assert_eq!(next_place(&table, Subset::Range(0, 10), 4, 5), Some(9));
    assert_eq!(next_place(&table, Subset::Range(0, 10), 4, 6), None);
}

#[test]
fn g_page_of_none() {
    let table = four_rows();
    let ids = Subset::List(vec![0, 1, 3]);
    assert_eq!(next_place(&table, ids.clone(), 1, 0), Some(1));
    assert_eq!(next_place(&table, ids, 3, 0), None);
}

#[test]
fn h_when_a_merge_compacts() {
    let stays = merged(0, 0, false);
    for (count, dead, answer, left, generation) in [
        (32, 16, stays.clone(), 32, 0),
        (16, 16, stays, 16, 0),
        (33, 17, compacted(false, 16, 17), 16, 1),
        (17, 17, compacted(false, 0, 17), 0, 1),
    ] {
        let mut table = with_dead(count, dead);
        assert_eq!(merge(&mut table), answer);
        let contents = table.contents();
        assert_eq!((contents.rows, contents.generation), (left, generation));
    }
}

#[test]
fn i_new_numbers() {
    let mut table = with_dead(6, 0);
    merge(&mut table);
    for key in [1, 3, 4] {
        remove_key(&mut table, &[key]);
    }
    merge(&mut table);
    assert_eq!(lookup(&table, &[5]), Answer::Row(5, vec![5, 5]));
    assert_eq!(table.call(&LENT, &Call::Compact), Answer::Done);
    assert_eq!(lookup(&table, &[5]), Answer::Row(2, vec![5, 5]));
}

/// Entries 10 at 0, 12 at 2, count 3.
fn two_entries() -> Reference {
    let mut table = opened([2, 1, 1, 1, 16, 0]);
    for cells in [[1, 10], [2, 10], [3, 12]] {
        insert(&mut table, &cells);
    }
    merge(&mut table);
    table
}

#[test]
fn j_sorted_ranges() {
    let table = two_entries();
    assert_eq!(table.contents().sort_entries, [(10, 0), (12, 2)]);
    assert_eq!(fast(&table, 2, 1, 11), range(0, 2));
    assert_eq!(fast(&table, 5, 1, 13), range(3, 3));
    let of_10 = [1, 2, 3, 4, 5].map(|kind| fast(&table, kind, 1, 10));
    let expected = [(0, 2), (0, 0), (2, 3), (0, 2), (0, 3)];
    assert_eq!(of_10, expected.map(|(start, end)| range(start, end)));
    let of_11 = [1, 2, 3, 4, 5].map(|kind| fast(&table, kind, 1, 11));
    let expected = [(0, 0), (0, 2), (2, 3), (0, 2), (2, 3)];
    assert_eq!(of_11, expected.map(|(start, end)| range(start, end)));
}

#[test]
fn k_last_value() {
    let mut table = two_entries();
    insert(&mut table, &[4, 11]);
    assert_eq!(merge(&mut table), merged(9, 0, false));
    insert(&mut table, &[4, 12]);
    assert_eq!(merge(&mut table), merged(0, 0, true));
    assert_eq!(lookup(&table, &[4]), Answer::Row(3, vec![4, 12]));
}

#[test]
fn l_equal_cells_lower_stamp() {
    let mut table = opened([3, 1, 2, 1, 16, 0]);
    insert(&mut table, &[1, 7, 12]);
    merge(&mut table);
    insert(&mut table, &[1, 7, 3]);
    assert_eq!(merge(&mut table), merged(0, 0, false));
    assert_eq!(live(&table), [(0, vec![1, 7, 12])]);
}

#[test]
fn levels() {
    let mut table = opened([4, 2, 3, 1, 100, 0]);
    insert(&mut table, &[7, 1, 160, 10]);
    insert(&mut table, &[7, 2, 148, 10]);
    assert_eq!(merge(&mut table), merged(0, 0, true));
    insert(&mut table, &[7, 1, 163, 12]);
    remove_key(&mut table, &[7, 2]);
    assert_eq!(merge(&mut table), merged(0, 0, true));
    assert_eq!(fast(&table, 1, 3, 10), range(0, 2));
    let version = Answer::Version {
        generation: 0,
        rows: 3,
    };
    assert_eq!(table.query(&LENT, &Query::Version), version);
    assert_eq!(live(&table), [(2, vec![7, 1, 163, 12])]);
}

//! Each refusal of each call, and the order of two that meet.

use super::*;

fn call(table: &mut Reference, lent: Lengths, call: Call) -> Answer {
    let before = format!("{table:?}");
    let answer = table.call(&lent, &call);
    if matches!(answer, Answer::Refused(_)) {
        assert_eq!(before, format!("{table:?}"), "a refusal changes nothing");
    }
    answer
}

fn refused(number: u32) -> Answer {
    Answer::Refused(number)
}

#[test]
fn openings() {
    let good = [3, 2, 1, 3, 64, 9];
    let bad: [(usize, &[u32]); 5] = [
        (0, &[0, 1, 9]),
        (1, &[0, 4]),
        (2, &[3]),
        (3, &[4]),
        (4, &[0, 65_537]),
    ];
    for (place, values) in bad {
        for &value in values {
            let mut numbers_of = good;
            numbers_of[place] = value;
            let opening = Call::Open(numbers(numbers_of));
            let mut table = opened(good);
            assert_eq!(call(&mut table, LENT, opening), refused(1));
        }
    }
}

/// Lengths exactly as long as a table of 3 columns and capacity 65 needs.
const EXACT: Lengths = Lengths {
    rows: 195,
    keys: 130,
    sort_entries: 130,
    pending: 0,
    live_words: 2,
    base_words: 2,
    index: 16 + 3 * 65 * 2,
};

/// `EXACT` with one store a word short: rows, keys, sort entries, live words, base words.
fn short(store: usize) -> Lengths {
    let mut lent = EXACT;
    match store {
        0 => lent.rows -= 1,
        1 => lent.keys -= 1,
        2 => lent.sort_entries -= 1,
        3 => lent.live_words -= 1,
        _ => lent.base_words -= 1,
    }
    lent
}

/// Which of the five stores, a word short, make the call refuse 2.
fn stores_tested(tested: &Call) -> Vec<usize> {
    let mut table = opened([3, 1, 0, 0, 65, 0]);
    assert!(!matches!(table.call(&EXACT, tested), Answer::Refused(_)));
    (0..5)
        .filter(|&store| call(&mut table, short(store), tested.clone()) == refused(2))
        .collect()
}

#[test]
fn short_stores_of_calls() {
    let open = Call::Open(numbers([3, 1, 0, 0, 65, 0]));
    assert_eq!(stores_tested(&open), [0, 1, 2]);
    assert_eq!(stores_tested(&Call::Merge), [0, 1, 2, 3, 4]);
    assert_eq!(stores_tested(&Call::Compact), [0, 1, 2, 3, 4]);
    assert_eq!(stores_tested(&Call::Clear), [1]);
}

/// A query of each kind that a fresh table accepts, with the stores that it is lent.
fn queries() -> Vec<(Query, Vec<usize>)> {
    let subset = Subset::Range(0, 0);
    let conditions = vec![condition(1, 0, 0)];
    vec![
        (Query::Lookup(vec![1]), vec![0, 1]),
        (Query::Cell(vec![1], 0), vec![0, 1]),
        (Query::FastRange(condition(1, 0, 0)), vec![2]),
        (Query::Version, vec![]),
        (Query::RowsSince(0), vec![]),
        (Query::RowsSinceNote(0, 0), vec![]),
        (precedence(0, &[1, 1]), vec![0, 1]),
        (
            Query::RefineOne {
                subset: subset.clone(),
                condition: conditions[0],
                output: 0,
            },
            vec![0],
        ),
        (
            Query::RefineList {
                subset: subset.clone(),
                conditions: conditions.clone(),
                output: 0,
            },
            vec![0],
        ),
        (
            Query::AnyMatch {
                subset: subset.clone(),
                conditions: conditions.clone(),
            },
            vec![0],
        ),
        (page(subset, (0, 0), &conditions, 0), vec![0]),
    ]
}

fn page(subset: Subset, (start, n): (u32, u64), of: &[Condition], output: usize) -> Query {
    Query::Page {
        subset,
        start,
        n,
        conditions: of.to_vec(),
        output,
    }
}

#[test]
fn short_stores_of_queries() {
    let table = opened([3, 1, 0, 0, 65, 0]);
    for (query, stores) in queries() {
        assert!(!matches!(table.query(&EXACT, &query), Answer::Refused(_)));
        let tested = (0..5).filter(|&store| table.query(&short(store), &query) == refused(2));
        assert_eq!(tested.collect::<Vec<_>>(), stores, "{query:?}");
    }
}

#[test]
fn before_an_opening() {
    let mut table = Reference::new();
    for refused_call in [
        Call::Insert(vec![]),
        Call::RemoveKey(vec![]),
        Call::RemoveRow(0, vec![]),
        Call::Merge,
        Call::Compact,
        Call::Clear,
        Call::Refresh(refreshes::of(&[], &[], 0)),
    ] {
        assert_eq!(call(&mut table, LENT, refused_call), refused(1));
    }
    for (query, _) in queries() {
        assert_eq!(table.query(&LENT, &query), refused(1));
    }
}

fn pending(words: usize) -> Lengths {
    Lengths {
        pending: words,
        ..LENT
    }
}

#[test]
fn staging() {
    let mut table = opened([3, 2, 0, 0, 8, 0]);
    insert(&mut table, &[1, 1, 1]);
    merge(&mut table);
    let mut stage = |words, staging: Call| call(&mut table, pending(words), staging);
    assert_eq!(stage(0, Call::Insert(vec![1, 2])), refused(3));
    assert_eq!(stage(0, Call::RemoveKey(vec![1])), refused(3));
    assert_eq!(stage(0, Call::RemoveRow(9, vec![1, 2, 3])), refused(3));
    assert_eq!(stage(0, Call::RemoveRow(1, vec![1, 2])), refused(5));
    assert_eq!(stage(4, Call::Insert(vec![1, 2, 3])), refused(7));
    assert_eq!(stage(5, Call::Insert(vec![1, 2, 3])), Answer::Done);
    assert_eq!(stage(8, Call::RemoveKey(vec![1, 2])), refused(7));
    assert_eq!(stage(9, Call::RemoveKey(vec![1, 2])), Answer::Done);
    assert_eq!(stage(13, Call::RemoveRow(0, vec![1, 2])), refused(7));
    assert_eq!(stage(14, Call::RemoveRow(0, vec![1, 2])), Answer::Done);
    // "Pending words used above the pending store" is 1, before all else.
    assert_eq!(stage(13, Call::Insert(vec![])), refused(1));
    assert_eq!(stage(13, Call::Merge), refused(1));
    assert_eq!(stage(13, Call::Compact), Answer::Done);
    assert_eq!(stage(14, Call::Merge), merged(0, 0, true));
}

/// Three rows of three columns.
fn three_rows() -> Reference {
    let mut table = opened([3, 1, 0, 0, 8, 0]);
    (1..4).for_each(|cell| insert(&mut table, &[cell, cell, cell]));
    merge(&mut table);
    table
}

#[test]
fn keys_columns_rows() {
    let table = three_rows();
    let query = |query| table.query(&LENT, &query);
    assert_eq!(query(Query::Lookup(vec![])), refused(3));
    assert_eq!(query(Query::Cell(vec![1, 1], 3)), refused(3));
    assert_eq!(query(Query::Cell(vec![1], 3)), refused(6));
    assert_eq!(query(Query::RowsSince(4)), refused(5));
    assert_eq!(query(Query::RowsSince(3)), range(3, 3));
    assert_eq!(query(Query::RowsSinceNote(0, 4)), refused(18));
    assert_eq!(query(Query::RowsSinceNote(1, 3)), refused(18));
    assert_eq!(query(Query::RowsSinceNote(0, 3)), range(3, 3));
    assert_eq!(query(Query::RowsSinceNote(0, 1)), range(1, 3));
    assert_eq!(query(precedence(1, &[])), refused(6));
    assert_eq!(query(precedence(0, &[])), refused(14));
    assert_eq!(query(precedence(0, &[1, 1, 1])), refused(14));
    assert_eq!(query(precedence(0, &[1; 34])), refused(14));
    assert_eq!(query(precedence(0, &[1; 32])), Answer::None);
    assert_eq!(fast(&table, 6, 0, 0), refused(6));
    assert_eq!(fast(&table, 1, 3, 0), refused(6));
    assert_eq!(fast(&table, 0, 0, 3), refused(6));
    assert_eq!(fast(&table, 0, 0, 2), Answer::None);
    assert_eq!(fast(&table, 1, 1, 0), Answer::None);
}

#[test]
fn subsets() {
    let table = three_rows();
    let query = |subset, kind, output| {
        let condition = condition(kind, 0, 1);
        table.query(
            &LENT,
            &Query::RefineOne {
                subset,
                condition,
                output,
            },
        )
    };
    let long = Subset::List((0..65_537).collect());
    assert_eq!(query(Subset::Range(5, 4), 9, 0), refused(4));
    assert_eq!(query(Subset::List(vec![2, 2]), 9, 0), refused(4));
    assert_eq!(query(Subset::List(vec![9, 2]), 9, 0), refused(4));
    assert_eq!(query(long, 9, 0), refused(4));
    assert_eq!(query(Subset::Range(4, 4), 9, 0), refused(5));
    assert_eq!(query(Subset::List(vec![u32::MAX]), 9, 0), refused(5));
    assert_eq!(query(Subset::List(vec![3]), 9, 0), refused(5));
    assert_eq!(query(Subset::List(vec![2]), 9, 0), refused(6));
    assert_eq!(query(Subset::List(vec![1, 2]), 1, 1), refused(2));
    assert_eq!(query(Subset::Range(0, 3), 1, 2), refused(2));
    assert_eq!(query(Subset::Range(0, 3), 1, 3), range(0, 1));
    assert_eq!(query(Subset::List(vec![]), 1, 0), list(&[]));
}

#[test]
fn pages() {
    let table = three_rows();
    let bad = [condition(0, 0, 3)];
    let query = |place, of: &[Condition], output| {
        table.query(&LENT, &page(Subset::Range(0, 3), place, of, output))
    };
    assert_eq!(query((4, 0), &bad, 0), refused(5));
    assert_eq!(query((3, 1), &bad, 0), refused(6));
    assert_eq!(query((1, u64::MAX), &[], 1), refused(2));
    assert_eq!(query((0, 2), &[], 1), refused(2));
    let last = Answer::Page {
        ids: vec![1, 2],
        dead: 0,
        next: None,
    };
    assert_eq!(query((1, u64::MAX), &[], 2), last);
}

#[test]
fn intersections() {
    let query = |first: &Subset, second: &Subset, output| {
        let query = Query::Intersect {
            first: first.clone(),
            second: second.clone(),
            output,
        };
        Reference::new().query(&LENT, &query)
    };
    let bad = Subset::List(vec![3, 3]);
    let two = Subset::List(vec![1, u32::MAX]);
    let all = Subset::Range(0, u32::MAX);
    assert_eq!(query(&bad, &all, 0), refused(4));
    assert_eq!(query(&two, &bad, 0), refused(4));
    assert_eq!(query(&two, &all, 1), refused(2));
    assert_eq!(query(&all, &two, 1), refused(2));
    assert_eq!(query(&all, &two, 2), list(&[1]));
    assert_eq!(query(&two, &two, 2), list(&[1, u32::MAX]));
    assert_eq!(query(&all, &all, 0), range(0, u32::MAX));
}

//! The paper's examples, its wrong turns and each refusal, on the reference model; what its stores hold, and what is sound.

mod answers;
mod columns;
mod examples;
mod images;
mod precedence;
mod refreshes;
mod refusals;
mod sound;
mod stores;
mod turns;

use crate::Reference;
use calls::{Answer, Call, Condition, Implementation, Lengths, Opening, Query, Subset};

/// Stores long enough for every table here.
const LENT: Lengths = Lengths {
    rows: 8 * 128,
    keys: 2 * 128,
    sort_entries: 2 * 128,
    pending: 1024,
    live_words: 2,
    base_words: 2,
    index: 16 + 3 * 128 * 8,
};

fn numbers(of: [u32; 6]) -> Opening {
    let [columns, keys, sort, rule, capacity, generation] = of;
    Opening {
        columns,
        keys,
        sort,
        rule,
        capacity,
        generation,
    }
}

fn opened(of: [u32; 6]) -> Reference {
    let mut table = Reference::new();
    let answer = table.call(&LENT, &Call::Open(numbers(of)));
    assert_eq!(answer, Answer::Done);
    table
}

fn insert(table: &mut Reference, cells: &[u32]) {
    let answer = table.call(&LENT, &Call::Insert(cells.to_vec()));
    assert_eq!(answer, Answer::Done);
}

fn remove_key(table: &mut Reference, key: &[u32]) {
    let answer = table.call(&LENT, &Call::RemoveKey(key.to_vec()));
    assert_eq!(answer, Answer::Done);
}

fn remove_row(table: &mut Reference, row: u32, key: &[u32]) {
    let answer = table.call(&LENT, &Call::RemoveRow(row, key.to_vec()));
    assert_eq!(answer, Answer::Done);
}

fn merge(table: &mut Reference) -> Answer {
    table.call(&LENT, &Call::Merge)
}

fn merged(status: u32, place: u32, added: bool) -> Answer {
    Answer::Merged {
        status,
        place,
        added,
        kept: 0,
        dropped: 0,
    }
}

/// A merge that did not stop, and compacted.
fn compacted(added: bool, kept: u32, dropped: u32) -> Answer {
    Answer::Merged {
        status: 0,
        place: 0,
        added,
        kept,
        dropped,
    }
}

/// Numbers and cells of the live rows.
fn live(table: &Reference) -> Vec<(u32, Vec<u32>)> {
    table.contents().live
}

fn condition(kind: u32, a: u32, b: u32) -> Condition {
    Condition { kind, a, b }
}

fn range(start: u32, end: u32) -> Answer {
    Answer::Subset(Subset::Range(start, end))
}

fn list(ids: &[u32]) -> Answer {
    Answer::Subset(Subset::List(ids.to_vec()))
}

fn fast(table: &Reference, kind: u32, a: u32, b: u32) -> Answer {
    table.query(&LENT, &Query::FastRange(condition(kind, a, b)))
}

fn lookup(table: &Reference, key: &[u32]) -> Answer {
    table.query(&LENT, &Query::Lookup(key.to_vec()))
}

fn precedence(column: u32, pairs: &[u32]) -> Query {
    let pairs = pairs.to_vec();
    Query::Precedence { column, pairs }
}

/// `count` rows of one key column and one sort column, of which the first `dead` are then removed.
fn with_dead(count: u32, dead: u32) -> Reference {
    let mut table = opened([2, 1, 1, 0, 128, 0]);
    for key in 0..count {
        insert(&mut table, &[key, 5]);
    }
    merge(&mut table);
    for key in 0..dead {
        remove_key(&mut table, &[key]);
    }
    table
}

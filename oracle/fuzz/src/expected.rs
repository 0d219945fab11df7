//! The result that a call must have: its number, by the reference model's checks, and, where the paper defines them, the answer's
//! words, the output, the header and the stores. For sound stores it defines all of them; for any stores those of an opening, a
//! staging, a version and a query on rows. A refusal changes nothing. For a refresh see `refreshes`.

use crate::acts::Act;
use crate::stores::Stores;
use calls::{Answer, Call, Implementation, Query, Subset};
use random::Rng;
use reference::{Reference, Staged};

pub struct Expected {
    pub number: u32,
    /// The answer's words, where they are known.
    pub words: Option<Vec<u32>>,
    /// The ids at the output's start; the rest of it is unchanged.
    pub ids: Vec<u32>,
    /// The reference model after a call on sound stores.
    pub reference: Option<Reference>,
}

pub fn name(act: &Act) -> &'static str {
    match act {
        Act::Call(Call::Open(_)) => "mouldgrey_open_table",
        Act::Call(Call::Insert(_)) => "mouldgrey_stage_insert",
        Act::Call(Call::RemoveKey(_)) => "mouldgrey_stage_remove",
        Act::Call(Call::RemoveRow(..)) => "mouldgrey_stage_remove_row",
        Act::Call(Call::Merge) => "mouldgrey_merge",
        Act::Call(Call::Compact) => "mouldgrey_compact",
        Act::Call(Call::Clear) => "mouldgrey_clear",
        Act::Call(Call::Refresh(_)) => "mouldgrey_refresh_rows_for_values",
        Act::IsSound => "mouldgrey_is_sound",
        Act::Query(Query::Lookup(_)) => "mouldgrey_get_row",
        Act::Query(Query::Cell(..)) => "mouldgrey_get_row_column",
        Act::Query(Query::FastRange(_)) => "mouldgrey_fast_subset",
        Act::Query(Query::Version) => "mouldgrey_table_version",
        Act::Query(Query::RowsSince(_)) => "mouldgrey_updates_since",
        Act::Query(Query::RowsSinceNote(..)) => "mouldgrey_rows_since_version",
        Act::Query(Query::Precedence { .. }) => "mouldgrey_check_precedence",
        Act::Query(Query::RefineOne { .. }) => "mouldgrey_refine_one",
        Act::Query(Query::RefineList { .. }) => "mouldgrey_refine_ref",
        Act::Query(Query::AnyMatch { .. }) => "mouldgrey_contains_match",
        Act::Query(Query::Page { .. }) => "mouldgrey_read_page",
        Act::Query(Query::Intersect { .. }) => "mouldgrey_intersect",
        Act::IntersectRanges(_) => "mouldgrey_intersect_ranges",
    }
}

/// How many words the function's answer takes.
fn words_of(act: &Act) -> usize {
    match act {
        Act::Call(Call::Merge) => 5,
        Act::Call(Call::Refresh(_)) => 1,
        Act::Call(_) => 0,
        Act::IsSound | Act::Query(Query::AnyMatch { .. }) => 1,
        Act::Query(Query::Lookup(_) | Query::Cell(..) | Query::Version) => 2,
        Act::Query(Query::Page { .. }) => 4,
        Act::Query(_) | Act::IntersectRanges(_) => 3,
    }
}

/// Random words for the answer to be written over.
pub fn answer_before(rng: &mut Rng, act: &Act) -> Vec<u32> {
    (0..words_of(act)).map(|_| rng.number()).collect()
}

/// Two ranges as a query of the reference model; it writes no id.
fn of_ranges([first, second]: [(u32, u32); 2]) -> Query {
    Query::Intersect {
        first: Subset::Range(first.0, first.1),
        second: Subset::Range(second.0, second.1),
        output: 0,
    }
}

/// The number by the reference model's own checks, on any header; 0 if the call is accepted.
fn number(act: &Act, stores: &Stores) -> u32 {
    let (h, lent) = (stores.numbers(), stores.lengths());
    let test = match act {
        Act::Call(call) => reference::test_call(&h, &lent, call),
        Act::Query(query) => reference::test_query(&h, &lent, query),
        Act::IntersectRanges(ranges) => reference::test_query(&h, &lent, &of_ranges(*ranges)),
        Act::IsSound => reference::test_soundness(&h, &lent),
    };
    test.err().unwrap_or(0)
}

/// The result of a call that is lent these words for its answer.
pub fn expected(
    act: &Act,
    stores: &Stores,
    words: &[u32],
    reference: Option<&Reference>,
) -> Expected {
    let number = number(act, stores);
    let mut expected = Expected {
        number,
        words: None,
        ids: Vec::new(),
        reference: None,
    };
    if number != 0 {
        expected.words = Some(words.to_vec());
        return expected;
    }
    match act {
        Act::IsSound => {
            let sound = reference::is_sound(&stores.held()) == Ok(true);
            expected.words = Some(vec![u32::from(sound)]);
        }
        Act::Call(call) => {
            let mut table = reference.cloned();
            let answer = table
                .as_mut()
                .map(|table| table.call(&stores.lengths(), call));
            if let Some(Answer::Merged {
                status,
                place,
                added,
                kept,
                dropped,
            }) = answer
            {
                expected.words = Some(vec![status, place, u32::from(added), kept, dropped]);
            }
            expected.reference = table;
        }
        Act::Query(query) => {
            let Some(answer) = answer(query, stores, reference) else {
                return expected;
            };
            expected.words = Some(answer_words(act, &answer));
            if let Answer::Subset(Subset::List(ids)) | Answer::Page { ids, .. } = answer {
                expected.ids = ids;
            }
        }
        Act::IntersectRanges(ranges) => {
            let answer = answer(&of_ranges(*ranges), stores, reference);
            expected.words = answer.map(|answer| answer_words(act, &answer));
        }
    }
    expected
}

/// The answer to a query that is not refused, where the paper defines one: on sound stores, or from header and rows alone.
fn answer(query: &Query, stores: &Stores, reference: Option<&Reference>) -> Option<Answer> {
    let lent = stores.lengths();
    let h = stores.numbers();
    match (query, reference) {
        (Query::Intersect { .. }, _) => Some(Reference::new().query(&lent, query)),
        (_, Some(table)) => Some(table.query(&lent, query)),
        (Query::Version, _) => Some(Answer::Version {
            generation: h.generation,
            rows: h.rows,
        }),
        (Query::RowsSince(row) | Query::RowsSinceNote(_, row), _) => {
            Some(Answer::Subset(Subset::Range(*row, h.rows)))
        }
        (
            Query::RefineOne { .. }
            | Query::RefineList { .. }
            | Query::AnyMatch { .. }
            | Query::Page { .. },
            _,
        ) => Some(Reference::with_rows_of(&stores.held()).query(&lent, query)),
        _ => None,
    }
}

fn answer_words(act: &Act, answer: &Answer) -> Vec<u32> {
    match answer {
        Answer::Row(row, _) => vec![1, *row],
        Answer::Cell(cell) => vec![1, *cell],
        Answer::Version { generation, rows } => vec![*generation, *rows],
        Answer::Subset(Subset::Range(start, end)) => vec![1, *start, *end],
        Answer::Subset(Subset::List(ids)) => vec![0, 0, ids.len() as u32],
        Answer::Match(yes) => vec![u32::from(*yes)],
        Answer::Fails(row, place) => vec![1, *row, *place],
        Answer::Page { ids, dead, next } => {
            let (more, place) = next.map_or((0, 0), |place| (1, place));
            vec![ids.len() as u32, *dead, more, place]
        }
        _ => vec![0; words_of(act)],
    }
}

/// The first difference of header and stores from what an accepted call must leave.
pub fn wrong(act: &Act, before: &Stores, after: &Stores, expected: &Expected) -> Option<String> {
    let Act::Call(call) = act else {
        return None;
    };
    if expected.number != 0 {
        return None;
    }
    if let Some(why) = written_past(call, before, after) {
        return Some(why);
    }
    match &expected.reference {
        Some(reference) => wrong_of_sound(call, before, after, reference),
        None => wrong_of_any(call, before, after),
    }
}

/// Slots past the key store's and compaction words past those needed are never written.
fn written_past(call: &Call, before: &Stores, after: &Stores) -> Option<String> {
    let capacity = match call {
        Call::Open(o) => o.capacity as usize,
        _ => before.numbers().capacity as usize,
    };
    let words = capacity.div_ceil(64);
    for (name, was, is, from) in [
        ("slots", &before.keys, &after.keys, 2 * capacity),
        ("live words", &before.live, &after.live, 2 * words),
        ("base words", &before.base, &after.base, words),
    ] {
        if was.get(from..) != is.get(from..) {
            return Some(format!("{name} past those needed are written"));
        }
    }
    None
}

/// Sound stores stay sound, and every cell is the reference model's.
fn wrong_of_sound(
    call: &Call,
    before: &Stores,
    after: &Stores,
    reference: &Reference,
) -> Option<String> {
    let expected = reference.expected();
    if after.header != expected.header.words() {
        return Some(format!(
            "header {:?}, not {:?}",
            after.header, expected.header
        ));
    }
    for (name, is, cells) in [
        ("rows", &after.rows, expected.rows),
        ("sort entries", &after.sorts, expected.sorts),
        ("pending words", &after.pending, expected.pending),
    ] {
        if let Some(place) = (0..is.len()).find(|&at| cells.get(at) != Some(&is[at])) {
            return Some(format!("{name} have {} at {place}", is[place]));
        }
    }
    let compacted = after.header[9] != before.header[9] && *call != Call::Clear;
    if !compacted && (after.live != before.live || after.base != before.base) {
        return Some("compaction words are written where nothing is compacted".to_string());
    }
    let sound = reference::is_sound(&after.held());
    (sound != Ok(true)).then(|| format!("the stores are left unsound: {sound:?}"))
}

fn staged(call: &Call) -> Staged {
    match call {
        Call::RemoveKey(key) => Staged::RemoveKey(key.clone()),
        Call::RemoveRow(row, key) => Staged::RemoveRow(*row, key.clone()),
        Call::Insert(cells) => Staged::Insert(cells.clone()),
        _ => panic!("not a staging: {call:?}"),
    }
}

/// Of any stores: what an opening and a staging leave.
fn wrong_of_any(call: &Call, before: &Stores, after: &Stores) -> Option<String> {
    let mut header = before.numbers();
    match call {
        Call::Open(o) => {
            let slots = reference::slots_in_use(o.capacity, 0);
            let mut opened = Reference::new();
            opened.call(&before.lengths(), call);
            header = opened.header();
            if after.keys[..slots].iter().any(|&word| word != 0) {
                return Some("a slot is not free".to_string());
            }
        }
        Call::Insert(_) | Call::RemoveKey(_) | Call::RemoveRow(..) => {
            let record = reference::record(header.keys, &staged(call));
            let from = header.pending as usize;
            let mut pending = before.pending.clone();
            pending[from..from + record.len()].copy_from_slice(&record);
            if after.pending != pending {
                return Some("another record is staged".to_string());
            }
            header.pending += record.len() as u32;
        }
        Call::Merge | Call::Compact | Call::Clear | Call::Refresh(_) => return None,
    }
    (after.header != header.words()).then(|| format!("header {:?}, not {header:?}", after.header))
}

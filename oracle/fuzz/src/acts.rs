//! Calls and queries aimed at the limits of whatever header is at hand.

use crate::stores::{Stores, fuzz_number};
use calls::{Before, Call, Condition, DEAD, Header, Index, Opening, Query, Refresh, Subset};
use random::Rng;

/// One call of a C function that is shipped.
#[derive(Clone, Debug)]
pub enum Act {
    Call(Call),
    Query(Query),
    /// Two ranges, each with its ends, by the name that takes nothing else.
    IntersectRanges([(u32, u32); 2]),
    IsSound,
}

/// An opening whose numbers are within their bounds.
pub fn good_opening(rng: &mut Rng) -> Opening {
    let columns = rng.within(1, 8);
    Opening {
        columns,
        keys: rng.within(1, columns),
        sort: rng.below(columns),
        rule: rng.below(4),
        capacity: match rng.below(20) {
            0 => rng.within(60, 70),
            1 => rng.within(120, 135),
            _ => rng.within(1, 40),
        },
        generation: rng.pick(&[0, 0, 7, u32::MAX - 1, u32::MAX]),
    }
}

/// An opening's numbers, one of them anything now and then.
pub fn opening(rng: &mut Rng, stores: &Stores) -> Opening {
    let h = stores.numbers();
    // Of a table that the stores at hand are long enough for, mostly.
    let mut o = match rng.percent(60) {
        true => h.opening(),
        false => good_opening(rng),
    };
    o.rule = rng.below(4);
    if rng.percent(40) {
        let wild = fuzz_number(rng, &stores.header);
        match rng.below(6) {
            0 => o.columns = wild,
            1 => o.keys = wild,
            2 => o.sort = wild,
            3 => o.rule = wild,
            4 => o.capacity = wild,
            _ => o.generation = wild,
        }
    }
    o
}

/// A cell: small, of a row that is there, the dead mark, anything.
fn cell(rng: &mut Rng, stores: &Stores) -> u32 {
    match rng.below(12) {
        0 => DEAD,
        1 => fuzz_number(rng, &stores.header),
        2..=4 if !stores.rows.is_empty() => stores.rows[rng.place(stores.rows.len())],
        _ => rng.below(6),
    }
}

/// So many cells, or nearly: those of a row that is there, or others.
fn cells(rng: &mut Rng, stores: &Stores, wanted: u32) -> Vec<u32> {
    let h = stores.numbers();
    let wanted = wanted.min(9) as usize;
    let from = rng.below(h.rows.min(65_536)) as usize * h.columns.min(9) as usize;
    let mut cells = match stores.rows.get(from..from + wanted) {
        Some(row) if rng.percent(40) => row.to_vec(),
        _ => (0..wanted).map(|_| cell(rng, stores)).collect(),
    };
    match rng.below(20) {
        0 => drop(cells.pop()),
        1 => cells.push(3),
        2 => cells.clear(),
        _ => {}
    }
    cells
}

/// Cells to insert: a sort value not below the last entry's, mostly.
fn row_to_insert(rng: &mut Rng, stores: &Stores, h: &Header) -> Vec<u32> {
    let mut row = cells(rng, stores, h.columns);
    let last = match (h.entries as usize).checked_sub(1) {
        Some(last) => stores.sorts.get(2 * last).copied().unwrap_or(0),
        None => 0,
    };
    if let Some(cell) = row.get_mut(h.sort as usize)
        && rng.percent(80)
    {
        *cell = last.saturating_add(rng.below(2));
    }
    row
}

fn row_number(rng: &mut Rng, stores: &Stores) -> u32 {
    match rng.percent(60) {
        true => rng.below(stores.numbers().rows),
        false => fuzz_number(rng, &stores.header),
    }
}

fn condition(rng: &mut Rng, stores: &Stores) -> Condition {
    let h = stores.numbers();
    let wild = |rng: &mut Rng, below: u32| match rng.percent(85) {
        true => rng.below(below),
        false => fuzz_number(rng, &stores.header),
    };
    let kind = wild(rng, 6);
    let a = match rng.percent(40) {
        true => h.sort,
        false => wild(rng, h.columns),
    };
    let b = match kind {
        0 => wild(rng, h.columns),
        _ => cell(rng, stores),
    };
    Condition { kind, a, b }
}

/// Some rising ids below a bound.
fn ids(rng: &mut Rng, bound: u32) -> Vec<u32> {
    let share = rng.pick(&[5, 50, 100]);
    (0..bound.min(200)).filter(|_| rng.percent(share)).collect()
}

/// A range's ends: among the rows, one or both anything now and then.
fn range(rng: &mut Rng, stores: &Stores) -> (u32, u32) {
    let end = rng.below(stores.numbers().rows.saturating_add(1));
    let start = rng.below(end.saturating_add(1));
    let mut wild = |number: u32| match rng.percent(85) {
        true => number,
        false => fuzz_number(rng, &stores.header),
    };
    (wild(start), wild(end))
}

pub fn subset(rng: &mut Rng, stores: &Stores) -> Subset {
    if rng.percent(50) {
        let (start, end) = range(rng, stores);
        return Subset::Range(start, end);
    }
    let mut list = ids(rng, stores.numbers().rows);
    match rng.below(400) {
        0 => list = (0..rng.within(65_535, 65_537)).collect(),
        1..=39 => list.push(fuzz_number(rng, &stores.header)),
        40..=69 if !list.is_empty() => {
            let place = rng.place(list.len());
            list[place] = fuzz_number(rng, &stores.header);
        }
        _ => {}
    }
    Subset::List(list)
}

/// An output as long as needed, or nearly.
fn output(rng: &mut Rng, needed: usize) -> usize {
    match rng.below(10) {
        0 => needed.saturating_sub(1),
        1 => needed + rng.place(4),
        2 => rng.place(needed + 1),
        _ => needed,
    }
}

fn size(subset: &Subset) -> usize {
    match subset {
        Subset::Range(start, end) => end.saturating_sub(*start).min(66_000) as usize,
        Subset::List(ids) => ids.len(),
    }
}

/// A list of conditions: short, or none.
fn conditions(rng: &mut Rng, stores: &Stores) -> Vec<Condition> {
    let count = rng.pick(&[0, 1, 1, 2, 3, 9]);
    (0..count).map(|_| condition(rng, stores)).collect()
}

fn page(rng: &mut Rng, stores: &Stores) -> Query {
    let subset = subset(rng, stores);
    let size = size(&subset);
    let start = match rng.below(10) {
        0 => size as u32,
        1 => size as u32 + 1,
        2 => fuzz_number(rng, &stores.header),
        _ => rng.below(size as u32 + 1),
    };
    let remains = size.saturating_sub(start as usize);
    let n = match rng.below(10) {
        0 => 0,
        1 => remains as u64,
        2 => remains as u64 + 1,
        3 => u64::MAX - rng.next_u64() % 3,
        4 => (1 << 32) + rng.next_u64() % 3,
        _ => rng.below(remains as u32 + 1).into(),
    };
    let needed = remains.min(n as usize);
    Query::Page {
        conditions: conditions(rng, stores),
        output: output(rng, needed),
        subset,
        start,
        n,
    }
}

/// Pairs of values in a key column, or nearly.
fn precedence(rng: &mut Rng, stores: &Stores) -> Query {
    let h = stores.numbers();
    let column = match rng.percent(90) {
        true => rng.below(h.keys),
        false => fuzz_number(rng, &stores.header),
    };
    let count = match rng.below(8) {
        0 => rng.below(40),
        1 => rng.pick(&[0, 32, 33, 34]),
        _ => 2 * rng.within(1, 4),
    };
    Query::Precedence {
        column,
        pairs: (0..count).map(|_| cell(rng, stores)).collect(),
    }
}

/// A query, or two ranges as often as each of the rarer ones.
fn query_act(rng: &mut Rng, stores: &Stores) -> Act {
    match rng.below(17) {
        0 => Act::IntersectRanges([range(rng, stores), range(rng, stores)]),
        _ => Act::Query(query(rng, stores)),
    }
}

fn query(rng: &mut Rng, stores: &Stores) -> Query {
    let h = stores.numbers();
    match rng.below(16) {
        0 => Query::Lookup(cells(rng, stores, h.keys)),
        1 => {
            let column = match rng.percent(80) {
                true => rng.below(h.columns),
                false => fuzz_number(rng, &stores.header),
            };
            Query::Cell(cells(rng, stores, h.keys), column)
        }
        2 => Query::FastRange(condition(rng, stores)),
        3 => Query::Version,
        4 => Query::RowsSince(row_number(rng, stores)),
        5 => {
            let generation = match rng.percent(70) {
                true => h.generation,
                false => fuzz_number(rng, &stores.header),
            };
            Query::RowsSinceNote(generation, row_number(rng, stores))
        }
        6 | 7 => {
            let subset = subset(rng, stores);
            Query::RefineOne {
                condition: condition(rng, stores),
                output: output(rng, size(&subset)),
                subset,
            }
        }
        8 | 9 => {
            let subset = subset(rng, stores);
            Query::RefineList {
                conditions: conditions(rng, stores),
                output: output(rng, size(&subset)),
                subset,
            }
        }
        10 => Query::AnyMatch {
            subset: subset(rng, stores),
            conditions: conditions(rng, stores),
        },
        11 | 12 => page(rng, stores),
        13 | 14 => precedence(rng, stores),
        _ => {
            let (first, second) = (subset(rng, stores), subset(rng, stores));
            let needed = match (&first, &second) {
                (Subset::Range(..), Subset::Range(..)) => 0,
                (Subset::Range(..), Subset::List(ids)) | (Subset::List(ids), _) => ids.len(),
            };
            Query::Intersect {
                output: output(rng, needed),
                first,
                second,
            }
        }
    }
}

/// The columns that the index store names, mostly, if they are there; else others, one of them anything now and then.
fn named_columns(rng: &mut Rng, stores: &Stores) -> Vec<u32> {
    let columns = stores.numbers().columns;
    let count = stores
        .index
        .get(3)
        .map_or(0, |&count| count.min(9) as usize);
    let named = stores.index.get(4..4 + count).unwrap_or(&[]);
    let are_there = named.iter().all(|&column| column < columns);
    if !named.is_empty() && rng.percent(if are_there { 70 } else { 10 }) {
        return named.to_vec();
    }
    let count = rng.pick(&[0, 1, 1, 2, 2, 3, 8, 9]);
    let mut named: Vec<u32> = (0..count).map(|_| rng.below(columns)).collect();
    if count > 0 && rng.percent(10) {
        let place = rng.place(count);
        named[place] = fuzz_number(rng, &stores.header);
    }
    named
}

/// A refresh of values that rows have, or others, with a stamp about the kept one.
pub fn refresh(rng: &mut Rng, stores: &Stores) -> Call {
    let largest = stores.numbers().largest.unwrap_or(0);
    let count = match rng.below(60) {
        0 => rng.within(1_023, 1_026),
        _ => rng.pick(&[0, 1, 1, 2, 3, 20]),
    };
    Call::Refresh(Refresh {
        index: Index {
            store: 0,
            before: Before::Nothing,
        },
        columns: named_columns(rng, stores),
        values: (0..count).map(|_| cell(rng, stores)).collect(),
        stamp: match rng.below(6) {
            0 => fuzz_number(rng, &stores.header),
            1 => largest.saturating_sub(1),
            _ => largest.saturating_add(rng.below(2)),
        },
    })
}

/// Keys whose home slots are near each other, at the end of the ring.
pub fn crowded_keys(rng: &mut Rng, keys: u32) -> Vec<Vec<u32>> {
    let mut crowded = Vec::new();
    while crowded.len() < 12 {
        let key: Vec<u32> = (0..keys).map(|_| rng.below(1 << 12)).collect();
        if reference::key_hash(&key) >> 29 == 7 {
            crowded.push(key);
        }
    }
    crowded
}

/// A staging, with one of these keys, if there are any.
pub fn staging(rng: &mut Rng, stores: &Stores, keys: &[Vec<u32>]) -> Call {
    let h = stores.numbers();
    let mut call = match rng.below(6) {
        0 => Call::RemoveKey(cells(rng, stores, h.keys)),
        1 => Call::RemoveRow(row_number(rng, stores), cells(rng, stores, h.keys)),
        _ => Call::Insert(row_to_insert(rng, stores, &h)),
    };
    if keys.is_empty() || rng.percent(20) {
        return call;
    }
    let key = &keys[rng.place(keys.len())];
    match &mut call {
        // The sort cell stays, where it is no key cell.
        Call::Insert(row) if row.len() >= key.len() => row[..key.len()].copy_from_slice(key),
        Call::RemoveKey(own) => own.clone_from(key),
        _ => {}
    }
    call
}

pub fn act(rng: &mut Rng, stores: &Stores) -> Act {
    match rng.below(22) {
        0 => Act::Call(Call::Open(opening(rng, stores))),
        1..=4 => Act::Call(staging(rng, stores, &[])),
        5..=8 => Act::Call(Call::Merge),
        9 | 10 => Act::Call(Call::Compact),
        11 => Act::Call(Call::Clear),
        12 => Act::IsSound,
        13 | 14 => Act::Call(refresh(rng, stores)),
        _ => query_act(rng, stores),
    }
}

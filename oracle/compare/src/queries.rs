//! Random queries about the present table.

use crate::generate::{EDGES, Writer};
use crate::history::{needed_output, with_output};
use crate::lists;
use calls::{Condition, Query, Subset};

/// How many kinds of query there are.
pub const KINDS: u32 = 12;

/// How many of them the recorded list has: the program that replays it checks no precedence.
pub const RECORDED_KINDS: u32 = 11;

/// Writes one query of this kind.
pub fn write(w: &mut Writer, kind: u32) {
    let query = match kind {
        0 => Query::Lookup(key(w)),
        1 => Query::Cell(key(w), column(w)),
        2 => Query::FastRange(range_condition(w)),
        3 => Query::Version,
        4 => Query::RowsSince(row_number(w)),
        5 => Query::RefineOne {
            subset: subset(w),
            condition: condition(w),
            output: 0,
        },
        6 => Query::RefineList {
            subset: subset(w),
            conditions: conditions(w),
            output: 0,
        },
        7 => Query::AnyMatch {
            subset: subset(w),
            conditions: conditions(w),
        },
        8 => page(w),
        9 => note(w),
        10 => lists::intersection(&mut w.rng, w.manner.loose),
        _ => precedence(w),
    };
    let output = output(w, needed_output(&query));
    w.query(with_output(query, output));
}

/// The version, the live rows page by page, and two of them by their keys.
pub fn query_every_row(w: &mut Writer) {
    w.query(Query::Version);
    let count = w.seen.rows;
    for start in (0..count).step_by(20) {
        let page = Query::Page {
            subset: Subset::Range(0, count),
            start,
            n: 20,
            conditions: vec![],
            output: 20.min(count - start) as usize,
        };
        w.query(page);
    }
    for _ in 0..2 {
        if let Some((_, cells)) = w.a_live_row() {
            w.query(Query::Lookup(cells[..w.opening.keys as usize].to_vec()));
        }
    }
}

/// An output as long as needed, mostly; else longer, or a word short.
fn output(w: &mut Writer, needed: usize) -> usize {
    if !w.manner.loose {
        return needed;
    }
    match w.rng.below(10) {
        0 => needed.saturating_sub(1),
        1 => needed + 5,
        _ => needed,
    }
}

fn key(w: &mut Writer) -> Vec<u32> {
    let keys = w.opening.keys as usize;
    let mut key = match w.a_live_row() {
        Some((_, cells)) if w.rng.percent(50) => cells[..keys].to_vec(),
        _ => w.key(),
    };
    match w.rng.below(30) {
        0 => key.push(1),
        1 if w.manner.loose || key.len() > 1 => drop(key.pop()),
        2 => key[0] = u32::MAX,
        _ => {}
    }
    key
}

fn column(w: &mut Writer) -> u32 {
    match w.rng.below(25) {
        0 => w.opening.columns,
        1 => u32::MAX,
        _ => w.rng.below(w.opening.columns),
    }
}

fn row_number(w: &mut Writer) -> u32 {
    let rows = w.seen.rows;
    match w.rng.below(8) {
        0 => rows,
        1 => rows + 1,
        2 => u32::MAX,
        _ => w.rng.below(rows + 1),
    }
}

/// A version: one that the table had, or nearly; at times of another table.
fn note(w: &mut Writer) -> Query {
    let (generation, rows) = (w.seen.generation, w.seen.rows);
    let (generation, rows) = match w.rng.below(8) {
        0 => (generation, rows + 1),
        1 => (generation, row_number(w)),
        2 => (generation.wrapping_add(1), w.rng.below(rows + 1)),
        3 => (generation.wrapping_sub(1), w.rng.below(rows + 1)),
        _ => w.an_earlier_version(),
    };
    Query::RowsSinceNote(generation, rows)
}

/// Pairs of values in a key column, mostly such that rows have them; now and then another column, or not 1 to 16 pairs.
fn precedence(w: &mut Writer) -> Query {
    let keys = w.opening.keys;
    let column = match w.rng.below(25) {
        0 => keys,
        1 => u32::MAX,
        _ => w.rng.below(keys),
    };
    let count = match w.rng.below(30) {
        0 => 0,
        1 => 17,
        2 => 16,
        _ => w.rng.pick(&[1, 1, 2, 3, 6]),
    };
    let mut pairs = Vec::new();
    for _ in 0..count {
        let pair = pair(w, column);
        pairs.extend(pair);
    }
    if w.rng.below(40) == 0 {
        pairs.pop();
    }
    Query::Precedence { column, pairs }
}

/// A value of a live row and one of a row beside it, which has the same other key cells, if there is one; or twice the same; or
/// any two.
fn pair(w: &mut Writer, column: u32) -> [u32; 2] {
    let first = value(w, column);
    let beside = w.a_live_row().and_then(|(_, cells)| {
        let other = w.a_row_beside(&cells, column as usize)?;
        Some([*cells.get(column as usize)?, other])
    });
    match (w.rng.below(8), beside) {
        (0..=4, Some(pair)) => pair,
        (5, _) => [first, first],
        (6, _) => [first, u32::MAX],
        _ => [first, value(w, column)],
    }
}

/// A value to compare with: a cell of that column, one beside it, an edge, a small number.
fn value(w: &mut Writer, column: u32) -> u32 {
    let cell = w
        .a_live_row()
        .and_then(|row| row.1.get(column as usize).copied());
    match (w.rng.below(10), cell) {
        (0..=3, Some(cell)) => cell,
        (4, Some(cell)) => cell.saturating_add(1),
        (5, Some(cell)) => cell.saturating_sub(1),
        (6, _) => w.rng.pick(&EDGES),
        _ => w.rng.below(12),
    }
}

fn condition(w: &mut Writer) -> Condition {
    let kind = match w.rng.below(30) {
        0 => 6,
        1 => u32::MAX,
        _ => w.rng.below(6),
    };
    let a = column(w);
    let b = if kind == 0 { column(w) } else { value(w, a) };
    Condition { kind, a, b }
}

/// A condition that is mostly about the sort column, with values at and around those of its entries.
fn range_condition(w: &mut Writer) -> Condition {
    if w.rng.percent(25) {
        return condition(w);
    }
    let a = w.opening.sort;
    let place = w.rng.place(w.seen.sort_entries.len());
    let b = match w.seen.sort_entries.get(place) {
        Some(&(value, _)) => value.saturating_add(w.rng.below(3)).saturating_sub(1),
        None => w.rng.below(12),
    };
    let kind = w.rng.within(1, 5);
    Condition { kind, a, b }
}

fn conditions(w: &mut Writer) -> Vec<Condition> {
    let count = w.rng.pick(&[0, 0, 1, 1, 2, 3]);
    (0..count).map(|_| condition(w)).collect()
}

/// A subset of the table's rows, or not quite one.
fn subset(w: &mut Writer) -> Subset {
    let rows = w.seen.rows;
    if w.rng.percent(50) {
        return range(w, rows);
    }
    let mut ids = some_rows(w, rows);
    match w.rng.below(24) {
        0 => ids.push(rows),
        1 => ids.push(u32::MAX),
        2 if !ids.is_empty() => ids.push(ids[0]),
        3 if ids.len() > 1 => ids.swap(0, 1),
        4 if w.manner.loose && w.rng.percent(2) => ids = (0..65_537).collect(),
        _ => {}
    }
    Subset::List(ids)
}

fn range(w: &mut Writer, rows: u32) -> Subset {
    let end = w.rng.below(rows + 1);
    let start = w.rng.below(end + 1);
    match w.rng.below(16) {
        0..=3 => Subset::Range(0, rows),
        4 => Subset::Range(start, rows),
        5 => Subset::Range(end, end),
        6 => Subset::Range(start, rows + 1),
        7 => Subset::Range(rows + 2, rows + 2),
        8 => Subset::Range(end + 1, end),
        9 => Subset::Range(start, u32::MAX),
        _ => Subset::Range(start, end),
    }
}

/// Rows, rising, thinly or thickly taken; few of them where lines are to be short.
fn some_rows(w: &mut Writer, rows: u32) -> Vec<u32> {
    let share = w.rng.pick(&[5, 30, 60, 95, 100]);
    let mut ids: Vec<u32> = (0..rows).filter(|_| w.rng.percent(share)).collect();
    if !w.manner.loose {
        ids.truncate(20);
    }
    ids
}

fn page(w: &mut Writer) -> Query {
    let subset = subset(w);
    let size = crate::history::size(&subset) as u32;
    let start = match w.rng.below(8) {
        0 => size,
        1 => size.saturating_add(1),
        2..=4 => 0,
        _ => w.rng.below(size),
    };
    let remains = size.saturating_sub(start);
    let n = match w.rng.below(10) {
        0 => 0,
        1 => 1,
        2 => remains,
        3 => remains.saturating_add(1),
        4 => remains.saturating_sub(1),
        5 => u32::MAX,
        _ => w.rng.below(remains.saturating_add(1)),
    };
    // It does not fit in 32 bits.
    let n = match u64::from(n) {
        n if n == u64::from(u32::MAX) && w.manner.loose => {
            w.rng.pick(&[n, 1 << 32, (1 << 32) + 1, u64::MAX])
        }
        n => n,
    };
    let conditions = conditions(w);
    Query::Page {
        subset,
        start,
        n,
        conditions,
        output: 0,
    }
}

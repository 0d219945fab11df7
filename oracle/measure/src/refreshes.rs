//! Refreshes beside the carried-over Rust's, whose index is a hash map from value to rising rows. Rows have a type in column 2, of
//! which there are so many that six rows have each, and another in column 4. What is staged is dropped on both sides.

use crate::chosen;
use crate::report::Report;
use crate::tables::{Both, row};
use calls::Call;
use mouldgrey::{ValueIndex, lent};

const CAPACITY: u32 = 65_536;
const ROWS: u32 = 60_000;
const TYPES: u32 = 10_000;
const STAMP: u32 = 100;
/// Rows that come between two refreshes.
const BATCH: u32 = 1_000;
/// Values chosen to collide.
const CHOSEN: u32 = 1_024;

fn typed(i: u32) -> Call {
    let mut cells = row(i, 5, 0, STAMP);
    cells[2] = i.wrapping_mul(0x9e37_79b1) % TYPES;
    cells[4] = i % TYPES;
    Call::Insert(cells)
}

/// So many types, spread.
fn types(count: u32) -> Vec<u32> {
    (0..count).map(|i| i * 97 % TYPES).collect()
}

/// Both tables, with our index store and room for what is staged.
struct Indexed {
    both: Both,
    index: Vec<u32>,
    pending: Vec<u32>,
    columns: Vec<u32>,
}

impl Indexed {
    fn new(rows: u32, columns: &[u32]) -> Indexed {
        Indexed::of((0..rows).map(typed), columns)
    }

    /// These rows, after a compaction: there the Rust's index starts afresh by sorting.
    fn of(rows: impl Iterator<Item = Call>, columns: &[u32]) -> Indexed {
        let calls = rows.chain([Call::Merge, Call::Compact]);
        Indexed {
            both: Both::opened(5, ROWS).staged(calls),
            index: vec![0; ValueIndex::words_needed(CAPACITY, columns.len())],
            pending: vec![0; ROWS as usize * 12],
            columns: columns.to_vec(),
        }
    }

    fn ours(&mut self, values: &[u32]) -> bool {
        let s = self.both.ours.stores();
        let mut header = s.header;
        let returned = lent::refresh_rows_for_values(
            &mut header,
            &s.rows,
            &mut self.pending,
            &mut self.index,
            &self.columns,
            values,
            STAMP,
        );
        returned.expect("a fit refresh")
    }

    fn theirs(&mut self, values: &[u32]) -> bool {
        self.both
            .theirs
            .refresh_and_unstage(&self.columns, values, STAMP)
    }

    fn forget(&mut self) {
        self.index[0] = 0;
        self.both.theirs.forget_index();
    }

    fn append(&mut self, first: u32) {
        let rows = (first..first + BATCH).map(typed);
        self.both.stage(rows.chain([Call::Merge]));
    }
}

fn afresh(report: &mut Report) {
    for (name, columns) in [("one column", &[2][..]), ("two columns", &[2, 4])] {
        report.compare_along(
            &format!("refresh: 60,000 rows indexed afresh by {name}, each row"),
            ROWS as usize,
            &mut Indexed::new(ROWS, columns),
            |both, _| both.forget(),
            |both| both.ours(&[TYPES]),
            |both| both.theirs(&[TYPES]),
        );
    }
}

fn catching_up(report: &mut Report) {
    let first = 20_000;
    report.compare_along(
        "refresh: 1,000 rows more indexed by one column, each row",
        BATCH as usize,
        &mut Indexed::new(first, &[2]),
        |both, round| {
            both.ours(&[]);
            both.theirs(&[TYPES]);
            both.append(first + round * BATCH);
        },
        |both| both.ours(&[TYPES]),
        |both| both.theirs(&[TYPES]),
    );
}

fn finding(report: &mut Report) {
    for (name, count) in [
        ("6 rows of 60,000 found by one value, whole", 1),
        ("600 rows of 60,000 found by a hundred values, whole", 100),
        (
            "6,000 rows of 60,000 found by a thousand values, whole",
            1_000,
        ),
    ] {
        let values = types(count);
        report.compare_along(
            &format!("refresh: {name}"),
            1,
            &mut Indexed::new(ROWS, &[2]),
            |both, _| {
                both.ours(&[]);
                both.theirs(&[TYPES]);
            },
            |both| both.ours(&values),
            |both| both.theirs(&values),
        );
    }
}

/// As many values as rows, none of which a row has, and one value again and again, which six rows have.
fn many_values(report: &mut Report) {
    let absent: Vec<u32> = (TYPES..TYPES + ROWS).collect();
    let again = vec![types(1)[0]; 1_000];
    for (name, columns) in [("one column", &[2][..]), ("two columns", &[2, 4])] {
        for (of, values) in [
            ("60,000 values", &absent),
            ("one value 1,000 times", &again),
        ] {
            report.compare_along(
                &format!("refresh: unseen 60,000, {of}, {name}, each row"),
                ROWS as usize,
                &mut Indexed::new(ROWS, columns),
                |both, _| both.forget(),
                |both| both.ours(values),
                |both| both.theirs(values),
            );
        }
    }
}

/// One value that no row has: over an index that is up to date, and behind one new row.
fn nothing(report: &mut Report) {
    report.compare_along(
        "refresh: up to date, 60,000 rows, one absent value, whole",
        1,
        &mut Indexed::new(ROWS, &[2]),
        |both, _| {
            both.ours(&[]);
            both.theirs(&[TYPES]);
        },
        |both| both.ours(&[TYPES]),
        |both| both.theirs(&[TYPES]),
    );
    let first = 40_000;
    report.compare_along(
        "refresh: 40,000 rows seen, one new, one absent value, whole",
        1,
        &mut Indexed::new(first, &[2]),
        |both, round| {
            both.ours(&[]);
            both.theirs(&[TYPES]);
            both.both
                .stage([typed(first + round), Call::Merge].into_iter());
        },
        |both| both.ours(&[TYPES]),
        |both| both.theirs(&[TYPES]),
    );
}

/// Full of rows, of which so many have the values, in turn, in column 2.
fn holding(values: &[u32], rows: u32) -> Indexed {
    let valued = |i: u32| match typed(i) {
        Call::Insert(mut cells) if i < rows => {
            cells[2] = values[i as usize % values.len()];
            Call::Insert(cells)
        }
        other => other,
    };
    Indexed::of((0..ROWS).map(valued), &[2])
}

/// Values that share a bucket of our index, and beside them values that collide in the Rust's; each side's table has its own.
fn one_bucket(report: &mut Report) {
    let values = chosen::values(CHOSEN);
    let theirs = chosen::values_there(CHOSEN as usize);
    for (name, rows) in [
        ("one row of each", CHOSEN),
        ("in half of the rows", ROWS / 2),
    ] {
        let mut tables = holding(&values, rows);
        tables.both.theirs = holding(&theirs, rows).both.theirs;
        report.compare_along(
            &format!("refresh: 1,024 values that collide, {name}, whole"),
            1,
            &mut tables,
            |both, _| {
                both.ours(&[]);
                both.theirs(&[TYPES]);
            },
            |both| both.ours(&values),
            |both| both.theirs(&theirs),
        );
    }
}

pub fn refreshes(report: &mut Report) {
    afresh(report);
    catching_up(report);
    finding(report);
    many_values(report);
    nothing(report);
    one_bucket(report);
}

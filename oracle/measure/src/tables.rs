//! Whole operations beside the carried-over Rust's. Staging is counted by itself: the Rust's merge finds its rows in a buffer,
//! ours in the pending store.

use crate::offsets::size;
use crate::report::Report;
use calls::{Call, Condition, Subset};
use library_table::{borrowed, constraint};
use mouldgrey::raw::Constraint;
use mouldgrey::{Opening, Rule, SubsetRef, Table, lent};
use random::Rng;
use rust_table::{RustSubset, RustTable};

const CAPACITY: u32 = 65_536;
const SORT: u32 = 3;
const SEED: u64 = 5;

/// The key of row `i`, in an order that no store follows.
pub fn key(i: u32) -> [u32; 2] {
    let mixed = i.wrapping_mul(0x85eb_ca6b) % (1 << 30);
    [mixed / 2, 1 + mixed % 2]
}

pub fn row(i: u32, columns: u32, level: u32, stamp: u32) -> Vec<u32> {
    let mut cells = vec![level; columns as usize];
    cells[..2].copy_from_slice(&key(i));
    cells[SORT as usize] = stamp;
    cells
}

/// The same table twice. Copies of both leave what is staged last in the caches: ours has no more room for it than it needs.
#[derive(Clone)]
pub struct Both {
    pub ours: Table,
    pub theirs: RustTable,
}

fn play(table: &mut Table, call: &Call) {
    let done = match call {
        Call::Open(_) => unreachable!("made open"),
        Call::Insert(cells) => table.stage_insert(cells),
        Call::RemoveKey(key) => table.stage_remove(key),
        Call::RemoveRow(row, key) => table.stage_remove_row(*row, key),
        Call::Merge => {
            assert!(table.merge().is_ok());
            Ok(())
        }
        Call::Compact => table.compact(),
        Call::Clear => table.clear(),
        Call::Refresh(_) => unreachable!("measured by itself"),
    };
    assert_eq!(done, Ok(()));
}

impl Both {
    /// An empty table of these columns, with room for so many staged inserts.
    pub fn opened(columns: u32, inserts: u32) -> Both {
        Both::opened_with(CAPACITY, columns, inserts)
    }

    pub fn opened_with(capacity: u32, columns: u32, inserts: u32) -> Both {
        let opening = Opening {
            columns,
            keys: 2,
            sort: SORT,
            rule: Rule::TakeNew,
            capacity,
            generation: 0,
        };
        let same = calls::Opening {
            columns,
            keys: 2,
            sort: SORT,
            rule: 1,
            capacity,
            generation: 0,
        };
        let pending = inserts * (columns + 2);
        let mut theirs = RustTable::new();
        theirs.play(&Call::Open(same));
        Both {
            ours: Table::new(&opening, pending as usize).expect("an opening within its bounds"),
            theirs,
        }
    }

    pub fn staged(mut self, calls: impl Iterator<Item = Call>) -> Both {
        self.stage(calls);
        self
    }

    pub fn stage(&mut self, calls: impl Iterator<Item = Call>) {
        for call in calls {
            play(&mut self.ours, &call);
            self.theirs.play(&call);
        }
    }

    pub fn merged(self) -> Both {
        self.staged(std::iter::once(Call::Merge))
    }

    /// Calls on copies, for each of so many rows.
    pub fn once(&self, report: &mut Report, name: &str, rows: u32, calls: &[Call]) {
        report.compare_anew(
            name,
            rows as usize,
            (&self.ours, play_all(calls)),
            (&self.theirs, play_all_there(calls)),
        );
    }
}

pub fn play_all(calls: &[Call]) -> impl Fn(&mut Table) {
    move |table| calls.iter().for_each(|call| play(table, call))
}

pub fn play_all_there(calls: &[Call]) -> impl Fn(&mut RustTable) {
    move |table| {
        for call in calls {
            table.play(call);
        }
    }
}

pub fn inserts(count: u32, columns: u32, level: u32) -> impl Iterator<Item = Call> {
    (0..count).map(move |i| Call::Insert(row(i, columns, level, 100 * level + i / 1_000)))
}

pub fn removal(i: u32) -> Call {
    Call::RemoveKey(key(i).to_vec())
}

fn stagings(report: &mut Report) {
    let calls: Vec<Call> = inserts(60_000, 4, 1).collect();
    Both::opened(4, 60_000).once(report, "stage: 60,000 inserts, each", 60_000, &calls);
}

fn merges(report: &mut Report) {
    let mut merge = |name: &str, rows: u32, before: Both| {
        before.once(report, &format!("merge: {name}"), rows, &[Call::Merge]);
    };
    let new = Both::opened(4, 60_000).staged(inserts(60_000, 4, 1));
    merge("60,000 new keys, each", 60_000, new);
    let half = Both::opened(4, 30_000)
        .staged(inserts(30_000, 4, 1))
        .merged();
    let known = half.clone().staged(inserts(30_000, 4, 2));
    merge("30,000 known keys, each", 30_000, known);
    let kept = half.clone().staged(inserts(30_000, 4, 1));
    merge("30,000 rows kept, each", 30_000, kept);
    let removed = half.staged((0..15_000).map(|i| removal(2 * i)));
    merge("15,000 removals by key, each", 15_000, removed);
    let few = Both::opened(4, 32).staged(inserts(32, 4, 1)).merged();
    let dying = few.staged((0..17).map(removal));
    merge("17 removals of 32 rows, compacting, whole", 1, dying);
}

/// A full table of 8 columns, 32,768 random rows of it dead, which is not yet more than half.
fn compactions(report: &mut Report) {
    let full = Both::opened(8, CAPACITY)
        .staged(inserts(CAPACITY, 8, 1))
        .merged();
    let mut order: Vec<u32> = (0..CAPACITY).collect();
    let mut rng = Rng::new(SEED);
    for i in 0..CAPACITY as usize {
        order.swap(i, i + rng.place(CAPACITY as usize - i));
    }
    let dying = order[..32_768].iter().map(|&i| removal(i));
    full.staged(dying).merged().once(
        report,
        "compact: 65,536 rows, 32,768 random rows dead, each row",
        CAPACITY,
        &[Call::Compact],
    );
}

fn lookups(report: &mut Report, both: &Both) {
    let (ours, theirs) = (&both.ours, &both.theirs);
    for (name, from) in [("one cell: hit", 0), ("one cell: miss", 1_000_000)] {
        let keys: Vec<[u32; 2]> = (0..8_192).map(|i| key(from + i * 7)).collect();
        report.compare(
            name,
            keys.len(),
            || {
                keys.iter()
                    .filter_map(|key| ours.get_row_column(key, 2).expect("a fit key"))
                    .fold(0, u32::wrapping_add)
            },
            || {
                keys.iter()
                    .filter_map(|key| theirs.cell(key, 2))
                    .fold(0, u32::wrapping_add)
            },
        );
    }
    let s = ours.stores();
    report.compare(
        "fast range",
        60,
        || {
            (100..160)
                .filter_map(|value| {
                    let c = mouldgrey::Condition::ge(SORT, value);
                    lent::fast_subset(&s.header, &s.sorts, c).expect("a known condition")
                })
                .map(|(start, end)| (end - start) as usize)
                .sum::<usize>()
        },
        || {
            (100..160)
                .filter_map(|b| {
                    theirs.fast_range_size(&Condition {
                        kind: 5,
                        a: SORT,
                        b,
                    })
                })
                .sum::<usize>()
        },
    );
}

/// 60,000 rows, in column 2 a 1 or, at random, a 2; the level of all is 1 in column 4.
fn rows_by_chance() -> Both {
    let mut rng = Rng::new(SEED);
    let calls = (0..60_000).map(|i| {
        let mut cells = row(i, 5, 1, 100 + i / 1_000);
        cells[2] = rng.within(1, 2);
        Call::Insert(cells)
    });
    Both::opened(5, 60_000).staged(calls).merged()
}

fn is(column: u32, value: u32) -> Condition {
    Condition {
        kind: 1,
        a: column,
        b: value,
    }
}

fn refines(report: &mut Report, both: &Both) {
    let s = both.ours.stores();
    let mut output = vec![0; 60_000];
    let all = Subset::Range(0, 60_000);
    let list = Subset::List((0..60_000).collect());
    for (of, subset) in [("a range", &all), ("a list", &list)] {
        let same = RustSubset::new(subset);
        for (kept, condition) in [
            ("all", is(4, 1)),
            ("every other", is(1, 2)),
            ("random half", is(2, 1)),
            ("none", is(4, 9)),
        ] {
            let c = constraint(&condition);
            report.compare(
                &format!("refine {of} of 60,000: {kept} kept"),
                1,
                || {
                    size(lent::refine_one(
                        &s.header,
                        &s.rows,
                        borrowed(subset),
                        c,
                        &mut output,
                    ))
                },
                || both.theirs.refined_size(&same, &condition),
            );
        }
    }
}

fn scans(report: &mut Report, both: &Both) {
    let s = both.ours.stores();
    let mut output = vec![0; 60_000];
    let range = SubsetRef::Range(0, 60_000);
    let same = RustSubset::new(&Subset::Range(0, 60_000));
    let conditions = [is(2, 1), is(4, 1)];
    let ours: Vec<Constraint> = conditions.iter().map(constraint).collect();
    report.compare(
        "refine by two conditions, of 60,000: random half kept",
        1,
        || {
            size(lent::refine_ref(
                &s.header,
                &s.rows,
                range,
                &ours,
                &mut output,
            ))
        },
        || both.theirs.refined_by_all_size(&same, &conditions),
    );
    let nowhere = [is(4, 9)];
    let none: Vec<Constraint> = nowhere.iter().map(constraint).collect();
    report.compare(
        "any match of 60,000: none",
        1,
        || lent::contains_match(&s.header, &s.rows, range, &none).expect("a fit query"),
        || both.theirs.contains_match(&same, &nowhere),
    );
    let mut ids = Vec::with_capacity(1_000);
    let places = || (0..60).map(|page| 1_000 * page);
    report.compare(
        "pages of 1,000 through 60,000: random half written, each page",
        60,
        || {
            places()
                .map(|at| lent::read_page(&s.header, &s.rows, range, at, 1_000, &ours, &mut output))
                .map(|page| page.expect("a fit query").written)
                .sum::<usize>()
        },
        || {
            let mut page = |at: u32| {
                ids.clear();
                both.theirs.page(&same, at, 1_000, &conditions, &mut ids);
                ids.len()
            };
            places().map(&mut page).sum::<usize>()
        },
    );
}

pub fn operations(report: &mut Report) {
    stagings(report);
    merges(report);
    compactions(report);
    let both = Both::opened(4, 60_000)
        .staged(inserts(60_000, 4, 1))
        .merged();
    lookups(report, &both);
    let both = rows_by_chance();
    refines(report, &both);
    scans(report, &both);
}

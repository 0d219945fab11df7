//! Histories of the largest tables: cleared of few rows, filled with 65,536 rows, with half of them dead, compacted, filled
//! again and stopped; and on the way refined, paged and intersected with lists of 65,536 ids, which are refused with one more. In
//! one more history rows are refreshed, by an index that catches up and starts afresh.

use crate::history::{Act, Step, needed, with_exact_output, with_output};
use calls::{Before, Call, Condition, Index, Lengths, Opening, Query, Refresh, Subset};
use random::Rng;

/// How many such histories there are.
pub const COUNT: u64 = 5;
/// The one with refreshes.
const REFRESHED: u64 = 4;

const ROWS: u32 = 65_536;
const FEW: u32 = 1_000;

/// A table's numbers and how its rows are made.
struct Shape {
    opening: Opening,
    /// So many rows have one sort value.
    rows_per_value: u32,
}

fn shape(number: u64) -> Shape {
    let (columns, keys, sort, rule) = match number {
        0 | REFRESHED => (8, 2, 3, 1),
        1 => (8, 8, 0, 0),
        2 => (8, 1, 7, 3),
        _ => (1, 1, 0, 2),
    };
    Shape {
        opening: Opening {
            columns,
            keys,
            sort,
            rule,
            capacity: ROWS,
            generation: if number == 2 { u32::MAX - 2 } else { 0 },
        },
        rows_per_value: match number {
            0 | REFRESHED => 1_000,
            _ => 1,
        },
    }
}

struct Writer {
    shape: Shape,
    lent: Lengths,
    steps: Vec<Step>,
}

/// A history: number 0 to `COUNT`, not included.
pub fn history(number: u64) -> Vec<Step> {
    let shape = shape(number);
    let lent = needed(
        &shape.opening,
        66_000 * (shape.opening.columns as usize + 3),
    );
    let mut writer = Writer {
        shape,
        lent,
        steps: Vec::new(),
    };
    let w = &mut writer;
    w.call(Call::Open(w.shape.opening));
    if number == REFRESHED {
        w.refresh_rows();
        return writer.steps;
    }
    // Few rows among many slots, some of which meet, are cleared; the last generations are kept for later.
    if number != 2 {
        w.insert(0..FEW);
        w.merge_and_query();
        w.call(Call::Clear);
        w.query();
    }
    // Filled at once, or in two batches.
    match number {
        0 => w.insert(0..ROWS),
        _ => {
            w.insert(0..ROWS / 2);
            w.merge_and_query();
            w.insert(ROWS / 2..ROWS);
        }
    }
    w.merge_and_query();
    w.reload();
    w.intersect();
    w.kill(number, ROWS / 2);
    w.merge_and_query();
    if number == 1 {
        w.call(Call::Compact);
    } else {
        // One more is too many.
        w.kill(number, ROWS / 2 + 1);
        w.call(Call::Merge);
    }
    w.query();
    // Full again, with other keys; then a row too many behind one that is kept.
    w.insert(ROWS..ROWS + ROWS / 2 + 1);
    w.merge_and_query();
    let kept = w.cells(ROWS);
    w.call(Call::Insert(kept));
    w.insert(3 * ROWS..3 * ROWS + 2);
    w.merge_and_query();
    w.call(Call::Compact);
    w.call(Call::Clear);
    w.query();
    // A batch of one row too many; then more than half of the table dies, which the merge drops.
    w.insert(0..ROWS + 1);
    w.merge_and_query();
    w.kill(number, ROWS / 2 + 1);
    w.merge_and_query();
    writer.steps
}

impl Writer {
    fn call(&mut self, call: Call) {
        let (lent, act) = (self.lent, Act::Call(call));
        self.steps.push(Step { lent, act });
    }

    fn reload(&mut self) {
        let (lent, act) = (self.lent, Act::Reload(0));
        self.steps.push(Step { lent, act });
    }

    fn query_one(&mut self, query: Query) {
        let (lent, act) = (self.lent, Act::Query(query));
        self.steps.push(Step { lent, act });
    }

    /// Half of the table, of which a quarter and then another is refreshed by one column; then by all columns, with too little space
    /// for the records at first; then the table is compacted, filled, and refreshed once more, where the merge has no space.
    fn refresh_rows(&mut self) {
        let all: Vec<u32> = (0..8).collect();
        let one = self.cells(777)[0];
        self.insert(0..ROWS / 2);
        self.call(Call::Merge);
        for value in 1..3 {
            self.refresh(0, &[4], &[value, 9], 33);
            self.call(Call::Merge);
        }
        let pending = self.lent.pending;
        self.lent.pending = ROWS as usize / 2 * 15 - 1;
        self.refresh(1, &all, &[0, 1, 2, 3], 33);
        self.lent.pending = pending;
        self.refresh(1, &all, &[one], 33);
        self.call(Call::Merge);
        self.call(Call::Compact);
        self.refresh(0, &[4], &[1], 34);
        self.call(Call::Merge);
        self.insert(34_000..34_000 + ROWS * 3 / 8);
        self.call(Call::Merge);
        self.refresh(0, &[4], &[9], 80);
        self.refresh(1, &all, &[one, u32::MAX], 80);
        self.refresh(1, &all, &[one], 80);
        self.call(Call::Merge);
    }

    /// A refresh over the index store of this number, as the last left it.
    fn refresh(&mut self, store: usize, columns: &[u32], values: &[u32], stamp: u32) {
        let before = Before::Nothing;
        self.call(Call::Refresh(Refresh {
            index: Index { store, before },
            columns: columns.to_vec(),
            values: values.to_vec(),
            stamp,
        }));
    }

    /// The cells of row `i` of those ever made: its key is its own, its sort cell rises with it.
    fn cells(&self, i: u32) -> Vec<u32> {
        let o = &self.shape.opening;
        let mut cells: Vec<u32> = (0..o.columns).map(|column| i >> (2 * column) & 3).collect();
        // A key in an order that no store follows, unless it is the sort cell.
        cells[0] = i.wrapping_mul(0x9e37_79b1) & 0x7fff_ffff;
        cells[o.sort as usize] = i / self.shape.rows_per_value;
        if o.keys == 1 && o.sort == 0 {
            cells[0] = i;
        }
        cells
    }

    fn insert(&mut self, which: std::ops::Range<u32>) {
        for i in which {
            let cells = self.cells(i);
            self.call(Call::Insert(cells));
        }
    }

    /// Stages removals, by key and by row in turn, of so many of the first rows, spread randomly. Those that are dead already
    /// are staged again, by key.
    fn kill(&mut self, seed: u64, count: u32) {
        let mut order: Vec<u32> = (0..ROWS).collect();
        let mut rng = Rng::new(seed);
        for place in (1..order.len()).rev() {
            order.swap(place, rng.place(place + 1));
        }
        let keys = self.shape.opening.keys as usize;
        for &i in &order[..count as usize] {
            let key = self.cells(i)[..keys].to_vec();
            self.call(match i % 2 {
                0 => Call::RemoveKey(key),
                _ => Call::RemoveRow(i, key),
            });
        }
    }

    fn merge_and_query(&mut self) {
        self.call(Call::Merge);
        self.query();
    }

    fn query(&mut self) {
        self.query_keys();
        self.query_precedence();
        self.query_rows();
    }

    fn query_keys(&mut self) {
        let o = self.shape.opening;
        for i in [0, 1, 777, ROWS / 2, ROWS - 1, ROWS, ROWS + 5, 9 * ROWS] {
            let cells = self.cells(i);
            let key = cells[..o.keys as usize].to_vec();
            self.query_one(Query::Lookup(key.clone()));
            self.query_one(Query::Cell(key, o.columns - 1));
            for kind in 1..=5 {
                let b = cells[o.sort as usize];
                let condition = Condition { kind, a: o.sort, b };
                self.query_one(Query::FastRange(condition));
            }
        }
        self.query_one(Query::Version);
        for row in [0, ROWS / 2 - 1, ROWS / 2, ROWS - 1, ROWS, ROWS + 1] {
            self.query_one(Query::RowsSince(row));
            for rise in 0..3 {
                let generation = o.generation.wrapping_add(rise);
                self.query_one(Query::RowsSinceNote(generation, row));
            }
        }
    }

    /// Pairs that name few rows each: a row's neighbour in the order of making, itself, and a value that no live row has.
    fn query_precedence(&mut self) {
        for i in [1, 777, ROWS / 2, ROWS - 1, ROWS + 5] {
            let [own, neighbour] = [i, i ^ 1].map(|i| self.cells(i)[0]);
            for pairs in [
                vec![own, own, own, neighbour],
                vec![neighbour, own],
                [own, own].repeat(16),
                [own, own].repeat(17),
                vec![own, own, own, u32::MAX],
            ] {
                self.query_one(Query::Precedence { column: 0, pairs });
            }
        }
    }

    /// Refines, looks for matches and pages over ranges and lists up to the longest, and over one that is too long.
    fn query_rows(&mut self) {
        let o = self.shape.opening;
        let last = o.columns - 1;
        let conditions = [
            Condition {
                kind: 5,
                a: 0,
                b: 0,
            },
            Condition {
                kind: 2,
                a: 0,
                b: 1 << 30,
            },
            Condition {
                kind: 1,
                a: last,
                b: 77,
            },
            Condition {
                kind: 0,
                a: 0,
                b: last,
            },
        ];
        for subset in [
            Subset::Range(0, ROWS),
            Subset::Range(0, ROWS / 2 - 1),
            Subset::List((0..ROWS).collect()),
            Subset::List((0..=ROWS).collect()),
            Subset::List((0..ROWS / 2 - 1).collect()),
            Subset::Range(0, ROWS + 1),
        ] {
            for condition in conditions {
                self.query_exactly(Query::RefineOne {
                    subset: subset.clone(),
                    condition,
                    output: 0,
                });
                self.query_exactly(Query::RefineList {
                    subset: subset.clone(),
                    conditions: vec![condition, conditions[0]],
                    output: 0,
                });
                self.query_one(Query::AnyMatch {
                    subset: subset.clone(),
                    conditions: vec![condition],
                });
            }
            let all = u64::from(ROWS);
            for (start, n) in [(0, all), (40_000, 30_000), (40_000, 1 << 40), (ROWS, 1)] {
                for conditions in [&conditions[..2], &conditions[..1]] {
                    self.query_exactly(Query::Page {
                        subset: subset.clone(),
                        start,
                        n,
                        conditions: conditions.to_vec(),
                        output: 0,
                    });
                }
            }
        }
    }

    /// Queries with an output just long enough, and with one a word shorter.
    fn query_exactly(&mut self, query: Query) {
        let exact = with_exact_output(query);
        let length = crate::history::needed_output(&exact);
        if length > 0 {
            self.query_one(with_output(exact.clone(), length - 1));
        }
        self.query_one(exact);
    }

    fn intersect(&mut self) {
        let every = |step: u32, count: u32, from: u32| {
            Subset::List((0..count).map(|i| from + i * step).collect())
        };
        let lists = [
            every(1, ROWS, 0),
            every(3, ROWS, 1),
            every(65_535, ROWS, 0),
            every(1, ROWS + 1, 0),
            every(7_000, 9, 0),
            Subset::Range(100, 60_000),
        ];
        for first in &lists {
            for second in &lists {
                self.query_exactly(Query::Intersect {
                    first: first.clone(),
                    second: second.clone(),
                    output: 0,
                });
            }
        }
    }
}

//! The monthly seal: a full table of 65,536 rows and eight columns, 32,769 of them dead at random, is compacted, by the proved
//! library and by plain Rust that does the same work on vectors: the rows close up, sort entries are rebuilt, the key store's
//! rows are renumbered by the same rank words. The two leave the same cells, which is tested first.

use mouldgrey::{DEAD, Header, Merge, Opening, Rule, lent};
use random::Rng;
use std::time::Instant;

const CAPACITY: usize = 65_536;
const COLUMNS: usize = 8;
const KEYS: usize = 2;
const SORT: usize = 3;
const KILLED: usize = 32_769;
const RUNS: usize = 100;
const SEED: u64 = 6;
/// The most that the proved library's median may be, in medians of the Rust program.
const LIMIT: f64 = 2.0;

/// A slot's word has a row's number plus 1 in its low 17 bits (docs/FORMAT.md).
const ROW_RANGE: u32 = 1 << 17;

#[derive(Clone, PartialEq)]
struct Table {
    header: Header,
    rows: Vec<u32>,
    keys: Vec<u32>,
    sorts: Vec<u32>,
    live: Vec<u64>,
    base: Vec<u32>,
}

impl Table {
    fn copy_from(&mut self, other: &Table) {
        self.header = other.header;
        self.rows.copy_from_slice(&other.rows);
        self.keys.copy_from_slice(&other.keys);
        self.sorts.copy_from_slice(&other.sorts);
        self.live.copy_from_slice(&other.live);
        self.base.copy_from_slice(&other.base);
    }

    fn merge(&mut self, pending: &[u32]) -> Merge {
        lent::merge(
            &mut self.header,
            &mut self.rows,
            &mut self.keys,
            &mut self.sorts,
            pending,
            &mut self.live,
            &mut self.base,
        )
        .expect("the stores are long enough")
    }

    fn compact_proved(&mut self) {
        lent::compact(
            &mut self.header,
            &mut self.rows,
            &mut self.keys,
            &mut self.sorts,
            &mut self.live,
            &mut self.base,
        )
        .expect("the stores are long enough");
    }

    fn compact_rust(&mut self) {
        self.close_up();
        self.renumber();
    }

    /// Live rows move down; a word marks those of each 64, with the new number of the first beside it.
    fn close_up(&mut self) {
        let columns = self.header.columns as usize;
        let sort = self.header.sort as usize;
        let (mut kept, mut entries) = (0, 0);
        for row in 0..self.header.rows as usize {
            if row % 64 == 0 {
                self.live[row / 64] = 0;
                self.base[row / 64] = kept as u32;
            }
            let at = row * columns;
            if self.rows[at] == DEAD {
                continue;
            }
            self.live[row / 64] |= 1 << (row % 64);
            let value = self.rows[at + sort];
            self.rows.copy_within(at..at + columns, kept * columns);
            if entries == 0 || value > self.sorts[2 * entries - 2] {
                self.sorts[2 * entries] = value;
                self.sorts[2 * entries + 1] = kept as u32;
                entries += 1;
            }
            kept += 1;
        }
        self.header.rows = kept as u32;
        self.header.dead = 0;
        self.header.entries = entries as u32;
        self.header.generation += 1;
    }

    /// Each slot's row gets its new number: the word's base plus the count of ones below the row's bit.
    fn renumber(&mut self) {
        for word in &mut self.keys[..2 * self.header.capacity as usize] {
            let number = *word % ROW_RANGE;
            if number != 0 {
                let row = number - 1;
                let at = (row / 64) as usize;
                let below = self.live[at] & ((1u64 << (row % 64)) - 1);
                *word = *word / ROW_RANGE * ROW_RANGE + self.base[at] + below.count_ones() + 1;
            }
        }
    }
}

/// The key of row `i`, in an order that no store follows.
fn key(i: u32) -> [u32; KEYS] {
    let mixed = i.wrapping_mul(0x85eb_ca6b) % (1 << 30);
    [mixed / 2, 1 + mixed % 2]
}

fn row(i: u32) -> [u32; COLUMNS] {
    let mut cells = [1; COLUMNS];
    cells[..KEYS].copy_from_slice(&key(i));
    cells[SORT] = 100 + i / 1_000;
    cells
}

/// The table to be sealed. Its last merge removes the rows and then stops at an insert, for which a full table has no place, so
/// that no compaction follows.
fn full() -> Table {
    let opening = Opening {
        columns: COLUMNS as u32,
        keys: KEYS as u32,
        sort: SORT as u32,
        rule: Rule::TakeNew,
        capacity: CAPACITY as u32,
        generation: 0,
    };
    let mut table = Table {
        header: Header::default(),
        rows: vec![0; CAPACITY * COLUMNS],
        keys: vec![0; 2 * CAPACITY],
        sorts: vec![0; 2 * CAPACITY],
        live: vec![0; CAPACITY / 64],
        base: vec![0; CAPACITY / 64],
    };
    let mut pending = vec![0; CAPACITY * (COLUMNS + 2)];
    lent::open_table(
        &opening,
        &mut table.header,
        &table.rows,
        &mut table.keys,
        &table.sorts,
        &pending,
    )
    .expect("an opening within its bounds");
    for i in 0..CAPACITY as u32 {
        lent::stage_insert(&mut table.header, &mut pending, &row(i)).expect("room for all rows");
    }
    assert!(table.merge(&pending).accepted().is_ok());
    let mut order: Vec<u32> = (0..CAPACITY as u32).collect();
    let mut rng = Rng::new(SEED);
    for i in 0..KILLED {
        let other = i + rng.place(CAPACITY - i);
        order.swap(i, other);
        lent::stage_remove(&mut table.header, &mut pending, &key(order[i])).expect("room");
    }
    lent::stage_insert(&mut table.header, &mut pending, &row(CAPACITY as u32)).expect("room");
    let merge = table.merge(&pending);
    assert!(merge.stop.is_some() && table.header.dead as usize == KILLED);
    table
}

fn microseconds(work: impl FnOnce()) -> f64 {
    let start = Instant::now();
    work();
    start.elapsed().as_nanos() as f64 / 1_000.0
}

fn median(mut times: Vec<f64>) -> f64 {
    times.sort_by(f64::total_cmp);
    times[times.len() / 2]
}

/// Compacts the table a hundred times with each, in turn, and prints both medians; an error above the limit.
pub fn seal() -> Result<(), String> {
    let before = full();
    let (mut ours, mut theirs) = (before.clone(), before.clone());
    ours.compact_proved();
    theirs.compact_rust();
    if ours != theirs {
        return Err("the proved library and the Rust program leave different cells".to_string());
    }
    let (mut our_times, mut their_times) = (Vec::new(), Vec::new());
    for _ in 0..RUNS {
        ours.copy_from(&before);
        our_times.push(microseconds(|| ours.compact_proved()));
        theirs.copy_from(&before);
        their_times.push(microseconds(|| theirs.compact_rust()));
    }
    let (ours, theirs) = (median(our_times), median(their_times));
    let ratio = ours / theirs;
    println!(
        "compaction of 65,536 rows, 32,769 dead: proved {ours:.1} us, Rust {theirs:.1} us, ratio of medians {ratio:.2} (limit {LIMIT:.1})"
    );
    if ratio > LIMIT {
        return Err(format!("the ratio is above {LIMIT:.1}"));
    }
    Ok(())
}

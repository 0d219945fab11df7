//! The key index beside the Rust's way: std's HashMap, which is hashbrown, from the Rust's own compact hash to a row, placed
//! by the hash's probe, the key compared in the row store. 4 columns, 2 of them keys, capacity 65,536, half full and full.
//! Ours is called through C functions that test a table's numbers and take its widths at run time; so do the Rust's functions
//! here. A time is for one key.

use crate::report::Report;
use single_parts::Keyed;
use std::collections::HashMap;
use std::collections::hash_map::Entry;
use std::hash::{BuildHasherDefault, Hasher};

const CAPACITY: u32 = 65_536;
const COLUMNS: u32 = 4;
const BATCH: usize = 8_192;

/// Places a compact hash by its probe.
#[derive(Default)]
struct Probe(u64);

impl Hasher for Probe {
    fn write(&mut self, _bytes: &[u8]) {
        unreachable!("only compact hashes are placed here");
    }

    fn write_u32(&mut self, hash: u32) {
        self.0 = rust_table::probe(hash);
    }

    fn finish(&self) -> u64 {
        self.0
    }
}

type Key = [u32; 2];
type Map = HashMap<u32, u32, BuildHasherDefault<Probe>>;

/// Key number `i`, in an order that no store follows.
fn key(i: u32) -> Key {
    let mixed = i.wrapping_mul(0x85eb_ca6b) % (1 << 30);
    [mixed / 2, 1 + mixed % 2]
}

/// Both indexes over the same rows.
struct Both {
    table: Keyed,
    rows: Vec<u32>,
    store: Vec<u32>,
    map: Map,
}

impl Both {
    fn filled(count: u32) -> Both {
        let table = Keyed {
            columns: COLUMNS,
            keys: 2,
            capacity: CAPACITY,
            rows: count,
        };
        let mut rows = vec![0; (CAPACITY * COLUMNS) as usize];
        for (row, cells) in rows.chunks_mut(COLUMNS as usize).enumerate() {
            cells[..2].copy_from_slice(&key(row as u32));
        }
        let mut both = Both {
            table,
            rows,
            store: vec![0; 2 * CAPACITY as usize],
            map: Map::default(),
        };
        both.map.reserve(CAPACITY as usize);
        both.put_store(count);
        both.put_map(count);
        both
    }

    fn put_store(&mut self, count: u32) {
        self.store.fill(0);
        for row in 0..count {
            single_parts::put(CAPACITY, &mut self.store, &key(row), row);
        }
    }

    fn put_map(&mut self, count: u32) {
        self.map.clear();
        for row in 0..count {
            insert(CAPACITY, &mut self.map, &key(row), row);
        }
    }

    /// Takes a row's slot out and puts the row back.
    fn swap(&mut self, row: u32) {
        if let Some((_, slot)) = single_parts::find(self.table, &self.rows, &self.store, &key(row))
        {
            single_parts::take_out(self.table, &self.rows, &mut self.store, slot);
            single_parts::put(CAPACITY, &mut self.store, &key(row), row);
        }
    }

    /// The same in the map.
    fn swap_map(&mut self, row: u32) {
        if remove(self.table, &self.rows, &mut self.map, &key(row)).is_some() {
            insert(CAPACITY, &mut self.map, &key(row), row);
        }
    }
}

fn order(count: u32) -> Vec<Key> {
    (0..BATCH as u32)
        .map(|i| key(i.wrapping_mul(40_503) % count))
        .collect()
}

fn finds(both: &Both, keys: &[Key]) -> u32 {
    let found = |key: &Key| single_parts::find(both.table, &both.rows, &both.store, key);
    keys.iter()
        .map(|key| found(key).map_or(0, |(row, _)| row))
        .fold(0, u32::wrapping_add)
}

/// The tests that our functions make of a table's numbers.
fn fits(t: Keyed, rows: &[u32], key: &[u32]) -> bool {
    let widths = 1 <= t.columns && t.columns <= 8 && 1 <= t.keys && t.keys <= t.columns;
    let capacity = 1 <= t.capacity && t.capacity <= 65_536 && t.rows <= t.capacity;
    let rows = (t.capacity * t.columns) as usize <= rows.len();
    widths && capacity && rows && key.len() == t.keys as usize
}

/// The row of a key, by its hash and then by its cells.
#[inline(never)]
fn get(t: Keyed, rows: &[u32], map: &Map, key: &[u32]) -> Option<u32> {
    assert!(fits(t, rows, key), "{t:?} does not fit");
    let row = *map.get(&rust_table::key_hash(key))?;
    let at = (row * t.columns) as usize;
    (rows[at..at + key.len()] == *key).then_some(row)
}

#[inline(never)]
fn insert(capacity: u32, map: &mut Map, key: &[u32], row: u32) {
    assert!(1 <= capacity && row < capacity && capacity <= 65_536);
    map.insert(rust_table::key_hash(key), row);
}

/// The row of a key, which is taken out.
#[inline(never)]
fn remove(t: Keyed, rows: &[u32], map: &mut Map, key: &[u32]) -> Option<u32> {
    assert!(fits(t, rows, key), "{t:?} does not fit");
    let Entry::Occupied(entry) = map.entry(rust_table::key_hash(key)) else {
        return None;
    };
    let at = (*entry.get() * t.columns) as usize;
    (rows[at..at + key.len()] == *key).then(|| entry.remove())
}

fn gets(both: &Both, keys: &[Key]) -> u32 {
    let got = |key: &Key| get(both.table, &both.rows, &both.map, key);
    keys.iter()
        .map(|key| got(key).unwrap_or(0))
        .fold(0, u32::wrapping_add)
}

fn at(report: &mut Report, name: &str, count: u32) {
    let mut both = Both::filled(count);
    let hits = order(count);
    let misses: Vec<Key> = (0..BATCH as u32).map(|i| key(CAPACITY + i)).collect();
    let label = |what: &str| format!("key index, {name}: {what}");
    for (what, keys) in [("find hit", &hits), ("find miss", &misses)] {
        report.compare(
            &label(what),
            BATCH,
            || finds(&both, keys),
            || gets(&both, keys),
        );
    }
    let (mut ours, mut theirs) = (Both::filled(count), Both::filled(count));
    report.compare(
        &label("put, from empty"),
        count as usize,
        || ours.put_store(count),
        || theirs.put_map(count),
    );
    let rows: Vec<u32> = (0..BATCH as u32)
        .map(|i| i.wrapping_mul(40_503) % count)
        .collect();
    report.compare(
        &label("take out and put back"),
        BATCH,
        || rows.iter().for_each(|&row| ours.swap(row)),
        || rows.iter().for_each(|&row| theirs.swap_map(row)),
    );
    for i in 0..1_000_000u32 {
        both.swap(i.wrapping_mul(40_503) % count);
    }
    let fresh = Both::filled(count);
    report.compare(
        &label("miss after a million removals, to a fresh one"),
        BATCH,
        || finds(&both, &misses),
        || finds(&fresh, &misses),
    );
}

pub fn index(report: &mut Report) {
    at(report, "half full", CAPACITY / 2);
    at(report, "full", CAPACITY);
}

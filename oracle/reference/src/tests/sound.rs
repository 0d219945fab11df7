//! The reference model's own soundness check: each part of the paper's sentence broken by itself.

use super::*;
use crate::layout::{home, slot_word};
use crate::{is_sound, key_hash};
use calls::{DEAD, Header, Held};

/// Stores of a table's own length.
#[derive(Clone)]
struct Stores {
    header: Header,
    rows: Vec<u32>,
    keys: Vec<u32>,
    sorts: Vec<u32>,
    pending: Vec<u32>,
}

impl Stores {
    /// Those that show a plain table, each live row in the first free slot from its home on.
    fn of(table: &Reference) -> Stores {
        let expected = table.expected();
        let slots = 2 * expected.header.capacity as usize;
        let mut keys = vec![0; slots];
        for (key, &row) in &table.index {
            let from = home(key, slots);
            let mut way = (0..slots).map(|step| (from + step) % slots);
            let slot = way.find(|&slot| keys[slot] == 0);
            keys[slot.expect("a free slot")] = slot_word(key, row);
        }
        let at_length = |cells: &[u32], length: usize| {
            let mut store = cells.to_vec();
            store.resize(length, 99);
            store
        };
        Stores {
            header: expected.header,
            rows: at_length(expected.rows, slots / 2 * expected.header.columns as usize),
            keys,
            sorts: at_length(expected.sorts, slots),
            pending: at_length(expected.pending, 64),
        }
    }

    fn held(&self) -> Held<'_> {
        Held {
            header: self.header,
            rows: &self.rows,
            keys: &self.keys,
            sorts: &self.sorts,
            pending: &self.pending,
        }
    }

    fn is_sound(&self) -> Result<bool, u32> {
        is_sound(&self.held())
    }
}

/// Five rows of three columns in which row 1 is dead, sort values 10, 10, 12, 12, 15, and three records.
fn table() -> Reference {
    let mut table = opened([3, 1, 2, 1, 8, 7]);
    for cells in [[1, 5, 10], [2, 5, 10], [3, 5, 12], [4, 5, 12], [5, 5, 15]] {
        insert(&mut table, &cells);
    }
    remove_key(&mut table, &[9]);
    merge(&mut table);
    remove_key(&mut table, &[2]);
    merge(&mut table);
    insert(&mut table, &[DEAD, 1, 1]);
    remove_key(&mut table, &[77]);
    remove_row(&mut table, 4, &[5]);
    table
}

#[test]
fn stores_of_a_table_are_sound() {
    assert_eq!(Stores::of(&table()).is_sound(), Ok(true));
    assert_eq!(Stores::of(&opened([1, 1, 0, 0, 1, 0])).is_sound(), Ok(true));
}

/// Whether the stores are sound after a change.
fn after(change: impl Fn(&mut Stores)) -> Result<bool, u32> {
    let mut stores = Stores::of(&table());
    change(&mut stores);
    stores.is_sound()
}

#[test]
fn headers() {
    assert_eq!(after(|s| s.header.generation = u32::MAX), Ok(true));
    assert_eq!(after(|s| s.header.rule = 3), Ok(true));
    assert_eq!(after(|s| s.header.rule = 4), Err(1));
    assert_eq!(after(|s| s.header.rows = 9), Err(1));
    assert_eq!(after(|s| s.header.dead = 6), Err(1));
    assert_eq!(after(|s| s.header.entries = 6), Err(1));
    assert_eq!(after(|s| s.header.pending = 65), Err(1));
    assert_eq!(after(|s| s.header.capacity = 9), Err(2));
    assert_eq!(after(|s| s.rows.truncate(23)), Err(2));
    assert_eq!(after(|s| s.keys.truncate(15)), Err(2));
    assert_eq!(after(|s| s.sorts.truncate(15)), Err(2));
    assert_eq!(after(|s| s.pending.truncate(12)), Ok(true));
    assert_eq!(after(|s| s.pending.truncate(11)), Err(1));
}

#[test]
fn dead_rows() {
    assert_eq!(after(|s| s.header.dead = 0), Ok(false));
    assert_eq!(after(|s| s.header.dead = 2), Ok(false));
    // A dead row's other cells, and cells past the rows, mean nothing.
    assert_eq!(after(|s| s.rows[4] = 1), Ok(true));
    assert_eq!(after(|s| s.rows[5] = 1), Ok(true));
    assert_eq!(after(|s| s.rows[15] = DEAD), Ok(true));
    assert_eq!(after(|s| s.rows[3] = 2), Ok(false));
}

#[test]
fn keys_differ() {
    // Row 2 gets row 0's key, and a slot of its own that leads to it.
    let twice = |s: &mut Stores| {
        s.rows[6] = 1;
        let slots = s.keys.len();
        s.keys.retain(|&word| word % (1 << 17) != 3);
        s.keys.resize(slots, 0);
        let mut way = (0..slots).map(|step| (home(&[1], slots) + step) % slots);
        let free = way.find(|&slot| s.keys[slot] == 0);
        s.keys[free.expect("a free slot")] = slot_word(&[1], 2);
    };
    assert_eq!(after(twice), Ok(false));
}

#[test]
fn sort_entries() {
    let entries = Stores::of(&table()).sorts[..6].to_vec();
    assert_eq!(entries, [10, 0, 12, 2, 15, 4]);
    assert_eq!(after(|s| s.sorts[0] = 9), Ok(false));
    assert_eq!(after(|s| s.sorts[1] = 1), Ok(false));
    assert_eq!(after(|s| s.sorts[2] = 10), Ok(false));
    // Row 1 is dead: its sort cell is recorded either way.
    assert_eq!(after(|s| s.sorts[3] = 1), Ok(true));
    assert_eq!(after(|s| s.sorts[3] = 3), Ok(false));
    assert_eq!(after(|s| s.sorts[5] = 5), Ok(false));
    assert_eq!(after(|s| s.sorts[6] = 0), Ok(true));
    assert_eq!(after(|s| s.header.entries = 2), Ok(false));
    assert_eq!(after(|s| s.header.entries = 0), Ok(false));
    assert_eq!(after(|s| s.rows[2] = 11), Ok(false));
}

#[test]
fn largest_value() {
    assert_eq!(Stores::of(&table()).header.largest, Some(15));
    assert_eq!(after(|s| s.header.largest = Some(16)), Ok(true));
    assert_eq!(after(|s| s.header.largest = Some(u32::MAX)), Ok(true));
    assert_eq!(after(|s| s.header.largest = Some(14)), Ok(false));
    assert_eq!(after(|s| s.header.largest = None), Ok(false));
    // Without a sort entry there may be one or not.
    let mut empty = Stores::of(&opened([1, 1, 0, 0, 1, 0]));
    assert_eq!(empty.is_sound(), Ok(true));
    empty.header.largest = Some(7);
    assert_eq!(empty.is_sound(), Ok(true));
}

#[test]
fn key_store() {
    let slot_of = |s: &Stores, row: u32| {
        let slot = s.keys.iter().position(|&word| word % (1 << 17) == row + 1);
        slot.expect("a slot")
    };
    let change = |row: u32, to: &dyn Fn(u32) -> u32| {
        after(|s| {
            let slot = slot_of(s, row);
            s.keys[slot] = to(s.keys[slot]);
        })
    };
    assert_eq!(change(0, &|_| 0), Ok(false));
    assert_eq!(change(0, &|word| word ^ 1 << 17), Ok(false));
    assert_eq!(change(0, &|word| word ^ 1 << 31), Ok(false));
    assert_eq!(change(4, &|word| word + 1), Ok(false));
    assert_eq!(change(4, &|word| word & !0x1_ffff), Ok(false));
    // The dead row, and a second slot for a live one.
    let free = |s: &Stores| s.keys.iter().position(|&word| word == 0).expect("a slot");
    assert_eq!(
        after(|s| {
            let slot = free(s);
            s.keys[slot] = slot_word(&[2], 1);
        }),
        Ok(false)
    );
    assert_eq!(
        after(|s| {
            let slot = free(s);
            s.keys[slot] = slot_word(&[1], 0);
        }),
        Ok(false)
    );
}

/// A row behind a free slot is not found; one behind taken slots is.
#[test]
fn ways_to_slots() {
    let mut table = opened([1, 1, 0, 0, 4, 0]);
    insert(&mut table, &[6]);
    merge(&mut table);
    let stores = Stores::of(&table);
    let own = home(&[6], 8);
    for step in 1..8 {
        let mut moved = stores.clone();
        moved.keys.swap(own, (own + step) % 8);
        assert_eq!(moved.is_sound(), Ok(false), "{step}");
    }
    // Two keys of one home may be in either order.
    let other = (7..).find(|&key| home(&[key], 8) == own);
    insert(&mut table, &[other.expect("a key")]);
    merge(&mut table);
    let mut stores = Stores::of(&table);
    assert_eq!(stores.is_sound(), Ok(true));
    stores.keys.swap(own, (own + 1) % 8);
    assert_eq!(stores.is_sound(), Ok(true));
}

#[test]
fn records() {
    let stores = Stores::of(&table());
    let words = [0, key_hash(&[DEAD]), DEAD, 1, 1, 1, key_hash(&[77]), 77, 2];
    assert_eq!(stores.pending[..9], words);
    assert_eq!(stores.header.pending, 12);
    for (place, word) in [
        (0, 1),
        (0, 3),
        (1, 5),
        (2, 5),
        (5, 0),
        (5, 2),
        (7, 8),
        (11, 6),
    ] {
        assert_eq!(after(|s| s.pending[place] = word), Ok(false), "{place}");
    }
    // Cells that are no keys, a row's number, words past those in use.
    for place in [3, 4, 10, 12] {
        assert_eq!(after(|s| s.pending[place] = u32::MAX), Ok(true), "{place}");
    }
    for pending in [1, 4, 6, 11, 13] {
        assert_eq!(after(|s| s.header.pending = pending), Ok(false));
    }
    for pending in [0, 5, 8, 12] {
        assert_eq!(after(|s| s.header.pending = pending), Ok(true));
    }
}

/// Sound stores show the table that they were made of.
#[test]
fn shown() {
    let table = table();
    let stores = Stores::of(&table);
    let mut again = Reference::shown(&stores.held()).expect("a sound table");
    assert_eq!(again.contents(), table.contents());
    assert_eq!(again.header(), table.header());
    let mut table = table;
    assert_eq!(merge(&mut again), merge(&mut table));
    assert_eq!(again.contents(), table.contents());
    let mut spoiled = stores.clone();
    spoiled.header.dead = 0;
    assert!(Reference::shown(&spoiled.held()).is_none());
}

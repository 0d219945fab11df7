//! The key index: long sequences of put, replace, take out, find and renumber beside a map, up to the full capacity, with
//! keys that meet often.

use random::Rng;
use single_parts::Keyed;
use std::collections::HashMap;

const GUARD: u32 = 0xdead_beef;

/// A table's rows and key store, and a map of what they should lead to.
struct Table {
    numbers: Keyed,
    rows: Vec<u32>,
    store: Vec<u32>,
    map: HashMap<Vec<u32>, u32>,
}

impl Table {
    fn new(capacity: u32, columns: u32, keys: u32) -> Table {
        let mut store = vec![0; 2 * capacity as usize + 2];
        store[2 * capacity as usize..].fill(GUARD);
        let numbers = Keyed {
            columns,
            keys,
            capacity,
            rows: 0,
        };
        let rows = vec![0; (capacity * columns) as usize];
        Table {
            numbers,
            rows,
            store,
            map: HashMap::new(),
        }
    }

    fn full(&self) -> bool {
        self.numbers.rows == self.numbers.capacity
    }

    /// Writes a row of this key after the others.
    fn append(&mut self, key: &[u32]) -> u32 {
        let row = self.numbers.rows;
        let at = (row * self.numbers.columns) as usize;
        self.rows[at..at + key.len()].copy_from_slice(key);
        self.numbers.rows += 1;
        row
    }

    fn kill(&mut self, row: u32) {
        self.rows[(row * self.numbers.columns) as usize] = u32::MAX;
    }

    /// The key gets a row: its first, or another in place of the one it has.
    fn insert(&mut self, key: &[u32]) -> Result<(), String> {
        let found = self.check(key)?;
        if self.full() {
            return Ok(());
        }
        let row = self.append(key);
        match found {
            Some((old, slot)) => {
                single_parts::replace(&mut self.store, slot, key, row);
                self.kill(old);
            }
            None if single_parts::put(self.numbers.capacity, &mut self.store, key, row) => {}
            None => return Err(format!("no free slot for {key:?}")),
        }
        self.map.insert(key.to_vec(), row);
        Ok(())
    }

    fn remove(&mut self, key: &[u32]) -> Result<(), String> {
        if let Some((row, slot)) = self.check(key)? {
            single_parts::take_out(self.numbers, &self.rows, &mut self.store, slot);
            self.kill(row);
            self.map.remove(key);
        }
        Ok(())
    }

    /// Looks a key up, which must give what the map has.
    fn check(&self, key: &[u32]) -> Result<Option<(u32, u32)>, String> {
        let found = single_parts::find(self.numbers, &self.rows, &self.store, key);
        let expected = self.map.get(key).copied();
        if found.map(|(row, _)| row) != expected {
            return Err(format!(
                "capacity {}: {key:?} is found at {found:?}, not {expected:?}",
                self.numbers.capacity
            ));
        }
        Ok(found)
    }

    /// Every key of the map, the number of taken slots, and the words past the slots.
    fn check_all(&self) -> Result<(), String> {
        for key in self.map.keys() {
            self.check(key)?;
        }
        let slots = 2 * self.numbers.capacity as usize;
        let taken = self.store[..slots]
            .iter()
            .filter(|&&word| word != 0)
            .count();
        if taken != self.map.len() || self.store[slots..].iter().any(|&word| word != GUARD) {
            return Err(format!(
                "{taken} slots for {} keys, or a word past the slots",
                self.map.len()
            ));
        }
        Ok(())
    }

    /// Drops the dead rows and closes up the others; the slots follow by the rank words.
    fn compact(&mut self) {
        let (width, count) = (self.numbers.columns as usize, self.numbers.rows as usize);
        let words = (self.numbers.capacity as usize).div_ceil(64);
        let (mut live, mut base) = (vec![0u64; words], vec![0u32; words]);
        let mut next = 0;
        for row in 0..count {
            if self.rows[row * width] == u32::MAX {
                continue;
            }
            if live[row / 64] == 0 {
                base[row / 64] = next as u32;
            }
            live[row / 64] |= 1 << (row % 64);
            self.rows
                .copy_within(row * width..(row + 1) * width, next * width);
            next += 1;
        }
        single_parts::renumber(
            self.numbers.capacity,
            self.numbers.rows,
            &mut self.store,
            &live,
            &base,
        );
        self.numbers.rows = next as u32;
        for row in self.map.values_mut() {
            let (word, bit) = (*row as usize / 64, *row % 64);
            *row = base[word] + (live[word] & ((1 << bit) - 1)).count_ones();
        }
    }
}

/// Keys of this width, some of which share a home slot with many others.
fn keys(rng: &mut Rng, capacity: u32, width: usize) -> Vec<Vec<u32>> {
    let wanted = 3 * capacity as usize / 2 + 2;
    let crowded = rng.below(3) == 0 && capacity <= 1_024;
    let mut keys = Vec::new();
    while keys.len() < wanted {
        let mut key: Vec<u32> = (0..width).map(|_| rng.below(1 << 20)).collect();
        key[0] %= u32::MAX;
        if !crowded || single_parts::compact_hash(&key) >> 30 == 3 {
            keys.push(key);
        }
    }
    keys
}

fn sequence(rng: &mut Rng, capacity: u32, steps: u64) -> Result<u64, String> {
    let columns = 1 + rng.below(8);
    let width = 1 + rng.below(columns);
    let keys = keys(rng, capacity, width as usize);
    let mut table = Table::new(capacity, columns, width);
    for step in 0..steps {
        let key = &keys[rng.place(keys.len())];
        match rng.below(8) {
            0..=3 => table.insert(key)?,
            4..=6 => table.remove(key)?,
            _ => {
                table.check(key)?;
            }
        }
        if table.full() {
            table.compact();
        }
        if step % 997 == 0 {
            table.check_all()?;
        }
    }
    table.check_all()?;
    Ok(steps)
}

pub fn index() -> Result<String, String> {
    let mut rng = Rng::new(8);
    let mut steps = 0;
    for capacity in [1, 2, 3, 63, 64, 65, 1_024] {
        for _ in 0..30 {
            steps += sequence(&mut rng, capacity, 4_000)?;
        }
    }
    steps += sequence(&mut rng, 65_536, 600_000)?;
    Ok(format!("key index: {steps} steps beside a map"))
}

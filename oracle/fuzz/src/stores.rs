//! A header and stores, sound or not, and ways to damage them.

use calls::{DEAD, HEADER_WORDS, Header, Held, Lengths};
use random::Rng;

/// Everything that a call may be lent of a table. A live word is two words here.
#[derive(Clone, Default)]
pub struct Stores {
    pub header: [u32; HEADER_WORDS],
    pub rows: Vec<u32>,
    pub keys: Vec<u32>,
    pub sorts: Vec<u32>,
    pub pending: Vec<u32>,
    pub live: Vec<u32>,
    pub base: Vec<u32>,
    /// The index store of refreshes.
    pub index: Vec<u32>,
}

/// Numbers at the edges of something.
const LIMITS: [u32; 26] = [
    0,
    1,
    2,
    3,
    7,
    8,
    9,
    15,
    16,
    17,
    63,
    64,
    65,
    255,
    65_534,
    65_535,
    65_536,
    65_537,
    131_071,
    131_072,
    131_073,
    (1 << 31) - 1,
    1 << 31,
    (1 << 31) + 1,
    u32::MAX - 1,
    u32::MAX,
];

/// Any number, or one at an edge, or one about those of the header.
pub fn fuzz_number(rng: &mut Rng, header: &[u32]) -> u32 {
    match rng.below(8) {
        0..=3 => rng.pick(&LIMITS),
        4 | 5 if !header.is_empty() => {
            let near = rng.pick(header).wrapping_mul(rng.within(1, 2));
            near.wrapping_add(rng.below(3)).wrapping_sub(1)
        }
        6 => rng.below(12),
        _ => rng.next_u64() as u32,
    }
}

/// One word changed: one bit, by one, to a number from `fuzz_number`, or to another word of the same store.
fn changed(rng: &mut Rng, store: &[u32], at: usize, header: &[u32]) -> u32 {
    let word = store[at];
    match rng.below(6) {
        0 => word ^ 1 << rng.below(32),
        1 => word.wrapping_add(1),
        2 => word.wrapping_sub(1),
        3 => store[rng.place(store.len())],
        4 => 0,
        _ => fuzz_number(rng, header),
    }
}

pub const STORES: [&str; 5] = ["header", "rows", "keys", "sort entries", "pending"];

impl Stores {
    /// Stores for a table of these numbers, a few words longer now and then, full of `filler`.
    pub fn sized(rng: &mut Rng, h: &Header, pending: usize, filler: u32) -> Stores {
        let capacity = h.capacity.min(65_537) as usize;
        let columns = h.columns.min(9) as usize;
        let words = capacity.div_ceil(64);
        let named = rng.pick(&[0, 1, 1, 2, 2, 3]);
        let mut more = || if rng.percent(20) { rng.place(5) } else { 0 };
        let mut index =
            vec![filler; reference::index_words(h.capacity.min(65_537), named) + more()];
        index[0] = 0;
        Stores {
            header: h.words(),
            rows: vec![filler; (capacity * columns + more()).min(8 * 65_536)],
            keys: vec![filler; 2 * capacity + more()],
            sorts: vec![filler; 2 * capacity + more()],
            pending: vec![filler; pending],
            live: vec![filler; 2 * (words + more())],
            base: vec![filler; words + more()],
            index,
        }
    }

    /// The header's numbers.
    pub fn numbers(&self) -> Header {
        Header::from_words(&self.header)
    }

    pub fn held(&self) -> Held<'_> {
        Held {
            header: self.numbers(),
            rows: &self.rows,
            keys: &self.keys,
            sorts: &self.sorts,
            pending: &self.pending,
        }
    }

    pub fn lengths(&self) -> Lengths {
        Lengths {
            rows: self.rows.len(),
            keys: self.keys.len(),
            sort_entries: self.sorts.len(),
            pending: self.pending.len(),
            live_words: self.live.len() / 2,
            base_words: self.base.len(),
            index: self.index.len(),
        }
    }

    fn store_mut(&mut self, store: usize) -> &mut [u32] {
        match store {
            0 => &mut self.header,
            1 => &mut self.rows,
            2 => &mut self.keys,
            3 => &mut self.sorts,
            _ => &mut self.pending,
        }
    }

    /// Changes one word of one store to another. Returns the place of the store in `STORES`.
    pub fn flip(&mut self, rng: &mut Rng) -> usize {
        loop {
            let store = rng.pick(&[0, 1, 1, 1, 1, 2, 2, 2, 2, 3, 3, 3, 4, 4]);
            let header = self.header;
            let used = self.words_used(store);
            let words = self.store_mut(store);
            if words.is_empty() {
                continue;
            }
            // Mostly among the words that mean something.
            let at = match used > 0 && rng.percent(85) {
                true => rng.place(used.min(words.len())),
                false => rng.place(words.len()),
            };
            let word = changed(rng, words, at, &header);
            if word != words[at] {
                words[at] = word;
                return store;
            }
        }
    }

    /// How many words of a store mean something.
    fn words_used(&self, store: usize) -> usize {
        let h = self.numbers();
        match store {
            0 => 10,
            1 => h.rows as usize * h.columns as usize,
            2 => reference::slots_in_use(h.capacity, h.rows),
            3 => 2 * h.entries as usize,
            _ => h.pending as usize,
        }
    }

    /// Exchanges two words of a store, often near each other. Returns the place of the store in `STORES`.
    pub fn exchange(&mut self, rng: &mut Rng) -> usize {
        let store = rng.pick(&[1, 2, 2, 2, 3, 4]);
        let used = self.words_used(store);
        let words = self.store_mut(store);
        let used = used.min(words.len());
        if used > 1 {
            // A slot that is taken, if one comes soon.
            let places: Vec<usize> = (0..6).map(|_| rng.place(used)).collect();
            let taken = places.iter().copied().find(|&at| words[at] != 0);
            let one = taken.unwrap_or(places[0]);
            let other = match rng.percent(60) {
                true => (one + rng.within(1, 4) as usize) % used,
                false => rng.place(used),
            };
            words.swap(one, other);
        }
        store
    }

    /// Makes one store shorter or longer than it was.
    pub fn resize(&mut self, rng: &mut Rng) {
        let word = rng.next_u64() as u32;
        let (store, unit) = match rng.below(8) {
            0 | 1 => (&mut self.rows, 1),
            2 => (&mut self.keys, 1),
            3 => (&mut self.sorts, 1),
            4 => (&mut self.pending, 1),
            5 => (&mut self.live, 2),
            6 => (&mut self.base, 1),
            _ => (&mut self.index, 1),
        };
        let length = store.len() / unit;
        let length = match rng.below(6) {
            0 => 0,
            1 => rng.place(length),
            2 => length + rng.within(1, 5) as usize,
            _ => length.saturating_sub(1),
        };
        store.resize(length * unit, word);
    }

    /// Fills the stores with arbitrary words, or nearly valid ones.
    pub fn fill_with_garbage(&mut self, rng: &mut Rng) {
        let header = self.header;
        let h = self.numbers();
        let manner = rng.below(4);
        let any = |rng: &mut Rng| match manner {
            0 => 0,
            1 => DEAD,
            2 => rng.next_u64() as u32,
            _ => fuzz_number(rng, &header),
        };
        for store in [&mut self.rows, &mut self.live, &mut self.base] {
            store.fill_with(|| any(rng));
        }
        if rng.percent(50) {
            // Few different cells, so that keys meet.
            self.rows.fill_with(|| rng.below(4));
        }
        self.fill_keys(rng, &h, &header);
        self.fill_sorts(rng, &h, &header);
        self.fill_pending(rng, &h, &header);
        self.fill_index(rng, &h);
    }

    /// An arbitrary index, or a new one, or one with a word changed.
    pub fn fill_index(&mut self, rng: &mut Rng, h: &Header) {
        let named = (0..rng.below(4))
            .map(|_| rng.below(h.columns))
            .collect::<Vec<_>>();
        let numbers = (h.capacity, h.generation, h.rows);
        match rng.below(4) {
            0 => self.index.fill(0),
            1 if !self.index.is_empty() => {
                let place = rng.place(self.index.len());
                self.index[place] = fuzz_number(rng, &self.header);
            }
            _ => library_table::fill_index(rng, &mut self.index, &named, numbers),
        }
    }

    /// Slots that name rows, some with the bits of their key's hash, some free.
    fn fill_keys(&mut self, rng: &mut Rng, h: &Header, header: &[u32]) {
        let free = rng.pick(&[0, 10, 50, 90]);
        let width = h.columns as usize;
        for at in 0..self.keys.len() {
            let row = rng.below(h.rows.saturating_add(2).min(65_600)) as usize;
            let cells = self
                .rows
                .get(row * width..row * width + h.keys.min(8) as usize);
            self.keys[at] = match (rng.below(10), cells) {
                _ if rng.percent(free) => 0,
                (0, _) | (_, None) => fuzz_number(rng, header),
                (1, _) => rng.next_u64() as u32 & !0x1_ffff | (row as u32 + 1),
                (_, Some(key)) => (reference::key_hash(key) & 0x7fff) << 17 | (row as u32 + 1),
            };
        }
    }

    /// Pairs that rise, mostly.
    fn fill_sorts(&mut self, rng: &mut Rng, h: &Header, header: &[u32]) {
        let (mut value, mut row) = (rng.below(5), 0);
        for pair in self.sorts.chunks_mut(2) {
            pair[0] = value;
            if pair.len() == 2 {
                pair[1] = row;
            }
            value = value.wrapping_add(rng.below(4));
            row = row.wrapping_add(rng.below(4)) % h.rows.saturating_add(2);
            if rng.percent(10) {
                pair[0] = fuzz_number(rng, header);
            }
        }
    }

    /// Records, mostly whole.
    fn fill_pending(&mut self, rng: &mut Rng, h: &Header, header: &[u32]) {
        let mut at = 0;
        while at < self.pending.len() {
            let kind = rng.below(4);
            let (before, cells) = match kind {
                0 => (2, h.columns),
                1 => (2, h.keys),
                _ => (3, h.keys),
            };
            let mut cells: Vec<u32> = (0..cells.min(8)).map(|_| rng.below(4)).collect();
            if rng.percent(10) {
                cells.fill_with(|| fuzz_number(rng, header));
            }
            let key = &cells[..cells.len().min(h.keys as usize)];
            let mut record = vec![kind, reference::key_hash(key)];
            if before == 3 {
                record.push(rng.below(h.rows.saturating_add(2)));
            }
            record.extend(cells);
            if rng.percent(5) {
                let place = rng.place(record.len());
                record[place] = fuzz_number(rng, header);
            }
            let count = record.len().min(self.pending.len() - at);
            self.pending[at..at + count].copy_from_slice(&record[..count]);
            at += count;
        }
    }
}

//! A table's header and stores, and what a call may write of them.

use crate::{Header, UNWRITTEN, is_staging};
use calls::{Call, Expected, Lengths};
use std::ops::Range;

#[derive(Clone, Default)]
pub struct Stores {
    pub header: Header,
    pub rows: Vec<u32>,
    pub keys: Vec<u32>,
    pub sorts: Vec<u32>,
    pub pending: Vec<u32>,
    pub live: Vec<u64>,
    pub base: Vec<u32>,
}

/// The first words of each store that a call may have written.
#[derive(Default)]
struct Writable {
    rows: usize,
    keys: usize,
    sorts: usize,
    pending: Range<usize>,
    words: usize,
}

/// What a call may write, and the header it found and left.
fn writable(call: &Call, before: &Header, after: &Header) -> Writable {
    let capacity = after.capacity as usize;
    let mut parts = Writable::default();
    match call {
        Call::Open(_) | Call::Clear => parts.keys = 2 * capacity,
        Call::Merge | Call::Compact => {
            // The reference model's stores have which of these cells are written, and with what.
            parts.rows = capacity * after.columns as usize;
            parts.keys = 2 * capacity;
            parts.sorts = 2 * capacity;
            // "Unchanged where nothing is compacted."
            if after.generation != before.generation {
                parts.words = capacity.div_ceil(64);
            }
        }
        _ => parts.pending = before.pending as usize..after.pending as usize,
    }
    parts
}

/// A store with room for what is lent and a word behind it.
fn grow<T: Copy>(store: &mut Vec<T>, lent: usize, filler: T) {
    if store.len() <= lent {
        store.resize(lent + 1, filler);
    }
}

/// Whether all words outside a part are the same.
fn kept_outside<T: PartialEq>(now: &[T], then: &[T], part: Range<usize>) -> bool {
    now[..part.start] == then[..part.start] && now[part.end..] == then[part.end..]
}

/// Cells from the start are these, and past them none was ever written.
fn holds(store: &[u32], cells: &[u32]) -> bool {
    store.starts_with(cells) && store[cells.len()..].iter().all(|&word| word == UNWRITTEN)
}

/// Stores with more words than these are looked at as a whole only now and then between two merges.
const MANY_WORDS: usize = 1 << 12;

impl Stores {
    pub fn are_small(&self) -> bool {
        self.rows.len() + self.pending.len() <= MANY_WORDS
    }

    pub fn lend(&mut self, lent: &Lengths) {
        grow(&mut self.rows, lent.rows, UNWRITTEN);
        grow(&mut self.keys, lent.keys, UNWRITTEN);
        grow(&mut self.sorts, lent.sort_entries, UNWRITTEN);
        grow(&mut self.pending, lent.pending, UNWRITTEN);
        grow(&mut self.live, lent.live_words, u64::from(UNWRITTEN));
        grow(&mut self.base, lent.base_words, UNWRITTEN);
    }

    pub fn is_long_enough(&self, lent: &Lengths) -> bool {
        lent.rows <= self.rows.len()
            && lent.keys <= self.keys.len()
            && lent.sort_entries <= self.sorts.len()
            && lent.pending <= self.pending.len()
            && lent.live_words <= self.live.len()
            && lent.base_words <= self.base.len()
    }

    /// What a call has written that it may not: past what it was lent or needs, what it was not lent to write, or, where it was
    /// refused, anything. After a staging all stores are compared if `look` is true, else only the words about its record.
    pub fn wrongly_written(
        &self,
        then: &Stores,
        call: &Call,
        refused: bool,
        look: bool,
    ) -> Option<String> {
        if refused && self.header != then.header {
            return Some("a refusal has changed the header".to_string());
        }
        let part = match refused {
            true => Writable::default(),
            false => writable(call, &then.header, &self.header),
        };
        let seen = self.seen(call, look);
        let pending = &self.pending[seen.clone()];
        let record = part.pending.start.max(seen.start) - seen.start
            ..part.pending.end.max(seen.start) - seen.start;
        if !kept_outside(pending, &then.pending[seen], record) {
            return Some("the pending store is written outside the record".to_string());
        }
        if !look {
            return None;
        }
        let kept = [
            ("rows", kept_outside(&self.rows, &then.rows, 0..part.rows)),
            ("keys", kept_outside(&self.keys, &then.keys, 0..part.keys)),
            (
                "sort entries",
                kept_outside(&self.sorts, &then.sorts, 0..part.sorts),
            ),
            (
                "live words",
                kept_outside(&self.live, &then.live, 0..part.words),
            ),
            (
                "base words",
                kept_outside(&self.base, &then.base, 0..part.words),
            ),
        ];
        let wrong = kept.iter().find(|(_, kept)| !kept);
        wrong.map(|(store, _)| format!("the store of {store} is written where it may not be"))
    }

    /// The pending words that are looked at after a call: all of them, or those about the last record.
    fn seen(&self, call: &Call, look: bool) -> Range<usize> {
        if look || !is_staging(call) {
            return 0..self.pending.len();
        }
        let used = self.header.pending as usize;
        used.saturating_sub(64)..self.pending.len().min(used + 64)
    }

    /// Becomes what a call has left, as far as it has been looked at.
    pub fn follow(&mut self, now: &Stores, call: &Call, look: bool) {
        self.header = now.header;
        let seen = now.seen(call, look);
        self.pending[seen.clone()].copy_from_slice(&now.pending[seen]);
        if look && !is_staging(call) {
            self.rows.copy_from_slice(&now.rows);
            self.keys.copy_from_slice(&now.keys);
            self.sorts.copy_from_slice(&now.sorts);
            self.live.copy_from_slice(&now.live);
            self.base.copy_from_slice(&now.base);
        }
    }

    /// What is otherwise than expected.
    pub fn unlike(&self, expected: &Expected, whole: bool) -> Option<String> {
        if self.header.words() != expected.header.words() {
            return Some(format!("header {:?}", self.header));
        }
        if !whole {
            let used = self.header.pending as usize;
            let last = used.saturating_sub(16)..used;
            let same = self.pending[last.clone()] == expected.pending[last];
            return (!same).then(|| "another record in the pending store".to_string());
        }
        let stores = [
            ("rows", &self.rows, expected.rows),
            ("sort entries", &self.sorts, expected.sorts),
            ("pending", &self.pending, expected.pending),
        ];
        let wrong = stores
            .iter()
            .find(|(_, store, cells)| !holds(store, cells))?;
        let (name, store, cells) = wrong;
        let place = (0..store.len())
            .find(|&at| store[at] != cells.get(at).copied().unwrap_or(UNWRITTEN))
            .unwrap_or(0);
        Some(format!(
            "the store of {name} has {} at {place}, not {:?}",
            store[place],
            cells.get(place)
        ))
    }
}

//! The index stores of refreshes: as they are lent, and what a refresh may write of them.

use crate::UNWRITTEN;
use calls::{Before, INDEX_STORES, Refresh};
use mouldgrey::{Header, ValueIndex};
use random::Rng;

#[derive(Clone, Default)]
pub struct Indexes {
    stores: [Vec<u32>; INDEX_STORES],
}

impl Indexes {
    /// The store that a refresh is lent, made long enough, after what another has done to it. A store that was never written is
    /// new; its other words are of no meaning.
    pub fn prepare(&mut self, lent: usize, refresh: &Refresh, header: &Header) {
        let number = refresh.index.store;
        if let Before::Copy(other) = refresh.index.before {
            self.stores[number] = self.stores[other].clone();
        }
        let store = &mut self.stores[number];
        if store.is_empty() {
            store.push(0);
        }
        if store.len() <= lent {
            store.resize(lent + 1, UNWRITTEN);
        }
        match refresh.index.before {
            Before::Nothing | Before::Copy(_) => {}
            Before::Renew => {
                store.fill(UNWRITTEN);
                store[0] = 0;
            }
            Before::Fill(seed) => {
                let numbers = (header.capacity, header.generation, header.rows);
                let mut rng = Rng::new(seed.into());
                fill_index(&mut rng, store, &refresh.columns, numbers);
            }
            Before::Change(place, word) => {
                if let Some(own) = store.get_mut(place as usize) {
                    *own = word;
                }
            }
        }
    }

    pub fn store(&self, refresh: &Refresh) -> &[u32] {
        &self.stores[refresh.index.store]
    }

    pub fn store_mut(&mut self, refresh: &Refresh) -> &mut [u32] {
        &mut self.stores[refresh.index.store]
    }
}

/// Words that may pass for an index by these columns of a table with these numbers, its links random; now and then not quite.
/// The first is not 0.
pub fn fill_index(
    rng: &mut Rng,
    store: &mut [u32],
    columns: &[u32],
    (capacity, generation, rows): (u32, u32, u32),
) {
    let count = columns.len() as u32;
    let (room, entries) = (capacity.wrapping_mul(count), rows.wrapping_mul(count));
    let link = |rng: &mut Rng| match rng.below(8) {
        0 => rng.number(),
        1 => room.wrapping_add(rng.below(3)).wrapping_sub(1),
        2 => 0,
        _ => rng.below(entries.saturating_add(2)),
    };
    store.fill_with(|| link(rng));
    let most = room.wrapping_mul(2);
    let buckets = match rng.below(3) {
        0 => most,
        1 => entries,
        _ => most.wrapping_add(rng.below(3)).wrapping_sub(1),
    };
    let seen = rng.below(rows.saturating_add(1));
    let mut head = [&[1, generation, seen, count], columns].concat();
    head.resize(12, 0);
    head.push(buckets);
    for (word, own) in store.iter_mut().zip(head) {
        *word = own;
    }
    if rng.percent(30) {
        let place = rng.place(store.len().min(13));
        if let Some(word) = store.get_mut(place) {
            *word = rng.number();
        }
    }
    if let Some(first) = store.first_mut() {
        *first = 1.max(*first);
    }
}

/// What a refresh has left of its index store that it may not: a refusal anything else than it found; any other a 0 as its first
/// word, or another word past those that it needs.
pub fn wrongly_left(
    before: &[u32],
    after: &[u32],
    refresh: &Refresh,
    capacity: u32,
    refused: bool,
) -> Option<&'static str> {
    if refused {
        return (before != after).then_some("a refusal has changed the index store");
    }
    if after[0] == 0 {
        return Some("the index store passes for a new one");
    }
    let needed = ValueIndex::words_needed(capacity, refresh.columns.len());
    let kept = before[needed..] == after[needed..];
    (!kept).then_some("the index store is written past what is needed")
}

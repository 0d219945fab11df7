//! Stands for the crate indexmap: maps and sets that keep the order of insertion, a list of entries with a hash table of
//! places beside it, as there.

use hashbrown::HashTable;
use map::{Entry, OccupiedEntry, VacantEntry};
use std::hash::{BuildHasher, Hash};
use std::ops::RangeFull;

#[derive(Clone)]
struct Bucket<K, V> {
    hash: u64,
    key: K,
    value: V,
}

#[derive(Clone)]
pub struct IndexMap<K, V, S> {
    entries: Vec<Bucket<K, V>>,
    places: HashTable<usize>,
    build: S,
}

impl<K, V, S: Default> Default for IndexMap<K, V, S> {
    fn default() -> Self {
        IndexMap {
            entries: Vec::new(),
            places: HashTable::new(),
            build: S::default(),
        }
    }
}

impl<K, V, S> IndexMap<K, V, S> {
    pub fn clear(&mut self) {
        self.entries.clear();
        self.places.clear();
    }

    pub fn capacity(&self) -> usize {
        self.entries.capacity()
    }

    pub fn len(&self) -> usize {
        self.entries.len()
    }

    pub fn is_empty(&self) -> bool {
        self.entries.is_empty()
    }

    pub fn iter(&self) -> impl Iterator<Item = (&K, &V)> {
        self.entries
            .iter()
            .map(|bucket| (&bucket.key, &bucket.value))
    }

    pub fn drain(&mut self, all: RangeFull) -> impl Iterator<Item = (K, V)> {
        self.places.clear();
        self.entries
            .drain(all)
            .map(|bucket| (bucket.key, bucket.value))
    }
}

impl<K: Hash + Eq, V, S: BuildHasher> IndexMap<K, V, S> {
    fn place(&self, hash: u64, key: &K) -> Option<usize> {
        self.places
            .find(hash, |place| self.entries[*place].key == *key)
            .copied()
    }

    pub fn get_full(&self, key: &K) -> Option<(usize, &K, &V)> {
        let place = self.place(self.build.hash_one(key), key)?;
        let bucket = &self.entries[place];
        Some((place, &bucket.key, &bucket.value))
    }

    pub fn get(&self, key: &K) -> Option<&V> {
        self.get_full(key).map(|(_, _, value)| value)
    }

    pub fn entry(&mut self, key: K) -> Entry<'_, K, V, S> {
        let hash = self.build.hash_one(&key);
        match self.place(hash, &key) {
            Some(place) => Entry::Occupied(OccupiedEntry { map: self, place }),
            None => Entry::Vacant(VacantEntry {
                map: self,
                hash,
                key,
            }),
        }
    }

    pub fn insert(&mut self, key: K, value: V) -> Option<V> {
        match self.entry(key) {
            Entry::Occupied(mut entry) => Some(std::mem::replace(entry.get_mut(), value)),
            Entry::Vacant(entry) => {
                entry.insert(value);
                None
            }
        }
    }
}

pub mod map {
    use super::{Bucket, IndexMap};

    pub enum Entry<'a, K, V, S> {
        Occupied(OccupiedEntry<'a, K, V, S>),
        Vacant(VacantEntry<'a, K, V, S>),
    }

    pub struct OccupiedEntry<'a, K, V, S> {
        pub(super) map: &'a mut IndexMap<K, V, S>,
        pub(super) place: usize,
    }

    pub struct VacantEntry<'a, K, V, S> {
        pub(super) map: &'a mut IndexMap<K, V, S>,
        pub(super) hash: u64,
        pub(super) key: K,
    }

    impl<'a, K, V, S> Entry<'a, K, V, S> {
        pub fn or_insert_with(self, make: impl FnOnce() -> V) -> &'a mut V {
            match self {
                Entry::Occupied(entry) => &mut entry.map.entries[entry.place].value,
                Entry::Vacant(entry) => entry.insert(make()),
            }
        }
    }

    impl<K, V, S> OccupiedEntry<'_, K, V, S> {
        pub fn get_mut(&mut self) -> &mut V {
            &mut self.map.entries[self.place].value
        }
    }

    impl<'a, K, V, S> VacantEntry<'a, K, V, S> {
        pub fn insert(self, value: V) -> &'a mut V {
            let VacantEntry { map, hash, key } = self;
            let place = map.entries.len();
            map.entries.push(Bucket { hash, key, value });
            let entries = &map.entries;
            map.places
                .insert_unique(hash, place, |place| entries[*place].hash);
            &mut map.entries[place].value
        }
    }
}

/// Only ever empty here.
pub struct IndexSet<T, S> {
    entries: IndexMap<T, (), S>,
}

impl<T, S: Default> Default for IndexSet<T, S> {
    fn default() -> Self {
        IndexSet {
            entries: IndexMap::default(),
        }
    }
}

impl<T, S> IndexSet<T, S> {
    pub fn clear(&mut self) {
        self.entries.clear();
    }

    pub fn capacity(&self) -> usize {
        self.entries.capacity()
    }
}

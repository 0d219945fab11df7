//! Replaces the crate egglog-numeric-id: numbers with a type of their own, and lists indexed by them.

use std::fmt::Debug;
use std::hash::Hash;
use std::marker::PhantomData;
use std::ops::{Index, IndexMut};

pub trait NumericId: Copy + Ord + Hash + Debug {
    type Rep;
    fn new(rep: Self::Rep) -> Self;
    /// Panics if the number does not fit.
    fn from_usize(index: usize) -> Self;
    fn index(self) -> usize;
    fn rep(self) -> Self::Rep;
    fn inc(self) -> Self {
        Self::from_usize(self.index() + 1)
    }
}

impl NumericId for usize {
    type Rep = usize;
    fn new(rep: usize) -> usize {
        rep
    }
    fn from_usize(index: usize) -> usize {
        index
    }
    fn index(self) -> usize {
        self
    }
    fn rep(self) -> usize {
        self
    }
}

macro_rules! define_id {
    ($visibility:vis $name:ident, $rep:ty, $meaning:literal $(, pretty $short:literal)?) => {
        #[doc = $meaning]
        #[derive(Copy, Clone, Debug, PartialEq, Eq, PartialOrd, Ord, Hash)]
        #[repr(transparent)]
        $visibility struct $name {
            rep: $rep,
        }

        #[allow(dead_code)]
        impl $name {
            #[inline]
            $visibility const fn new_const(rep: $rep) -> Self {
                $name { rep }
            }

            #[inline]
            $visibility fn range(low: Self, high: Self) -> impl Iterator<Item = Self> {
                (low.rep..high.rep).map($name::new_const)
            }
        }

        impl $crate::numeric_id::NumericId for $name {
            type Rep = $rep;
            #[inline]
            fn new(rep: $rep) -> Self {
                $name { rep }
            }
            #[inline]
            fn from_usize(index: usize) -> Self {
                assert!(index <= <$rep>::MAX as usize, concat!(stringify!($name), " too large: {}"), index);
                $name { rep: index as $rep }
            }
            #[inline]
            fn index(self) -> usize {
                self.rep as usize
            }
            #[inline]
            fn rep(self) -> $rep {
                self.rep
            }
        }
    };
}
pub(crate) use define_id;

/// A list with gaps.
#[derive(Clone)]
pub struct DenseIdMap<K, V> {
    items: Vec<Option<V>>,
    key: PhantomData<K>,
}

impl<K, V> Default for DenseIdMap<K, V> {
    fn default() -> Self {
        DenseIdMap {
            items: Vec::new(),
            key: PhantomData,
        }
    }
}

impl<K: NumericId, V> DenseIdMap<K, V> {
    pub fn new() -> Self {
        Self::default()
    }

    pub fn with_capacity(capacity: usize) -> Self {
        DenseIdMap {
            items: Vec::with_capacity(capacity),
            key: PhantomData,
        }
    }

    pub fn capacity(&self) -> usize {
        self.items.capacity()
    }

    pub fn clear(&mut self) {
        self.items.clear();
    }

    /// One above the largest key that was ever put in.
    pub fn n_ids(&self) -> usize {
        self.items.len()
    }

    fn place(&mut self, key: K) -> &mut Option<V> {
        if self.items.len() <= key.index() {
            self.items.resize_with(key.index() + 1, || None);
        }
        &mut self.items[key.index()]
    }

    pub fn insert(&mut self, key: K, value: V) {
        *self.place(key) = Some(value);
    }

    pub fn get(&self, key: K) -> Option<&V> {
        self.items.get(key.index())?.as_ref()
    }

    pub fn get_or_insert(&mut self, key: K, make: impl FnOnce() -> V) -> &mut V {
        self.place(key).get_or_insert_with(make)
    }

    pub fn take(&mut self, key: K) -> Option<V> {
        self.items.get_mut(key.index())?.take()
    }

    pub fn iter(&self) -> impl Iterator<Item = (K, &V)> {
        self.items
            .iter()
            .enumerate()
            .filter_map(|(index, item)| Some((K::from_usize(index), item.as_ref()?)))
    }
}

impl<K: NumericId, V> Index<K> for DenseIdMap<K, V> {
    type Output = V;

    fn index(&self, key: K) -> &V {
        self.get(key).expect("no such key")
    }
}

/// A list without gaps.
#[derive(Clone)]
pub struct IdVec<K, V> {
    items: Vec<V>,
    key: PhantomData<K>,
}

impl<K, V> Default for IdVec<K, V> {
    fn default() -> Self {
        Self::with_capacity(0)
    }
}

impl<K, V> IdVec<K, V> {
    pub fn with_capacity(capacity: usize) -> Self {
        IdVec {
            items: Vec::with_capacity(capacity),
            key: PhantomData,
        }
    }

    pub fn capacity(&self) -> usize {
        self.items.capacity()
    }

    pub fn clear(&mut self) {
        self.items.clear();
    }

    pub fn len(&self) -> usize {
        self.items.len()
    }

    pub fn push(&mut self, value: V) {
        self.items.push(value);
    }

    pub fn resize_with(&mut self, length: usize, make: impl FnMut() -> V) {
        self.items.resize_with(length, make);
    }
}

impl<K: NumericId, V> IdVec<K, V> {
    pub fn iter(&self) -> impl Iterator<Item = (K, &V)> {
        (0..).map(K::from_usize).zip(&self.items)
    }

    pub fn iter_mut(&mut self) -> impl Iterator<Item = (K, &mut V)> {
        (0..).map(K::from_usize).zip(&mut self.items)
    }

    pub fn drain(&mut self) -> impl Iterator<Item = (K, V)> {
        (0..).map(K::from_usize).zip(self.items.drain(..))
    }
}

impl<K: NumericId, V> Index<K> for IdVec<K, V> {
    type Output = V;

    fn index(&self, key: K) -> &V {
        &self.items[key.index()]
    }
}

impl<K: NumericId, V> IndexMut<K> for IdVec<K, V> {
    fn index_mut(&mut self, key: K) -> &mut V {
        &mut self.items[key.index()]
    }
}

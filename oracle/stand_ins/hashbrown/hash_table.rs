//! A table of open slots with a control byte for each: the low bits of a hash give the first group to look at, its top
//! seven bits stand in the control byte, and the walk goes on by growing strides until a group has an empty slot.

use crate::group::{Group, WIDTH};
use std::mem::{self, MaybeUninit};

const EMPTY: u8 = 0xFF;
/// A slot that was emptied but that a walk may have passed over.
const REMOVED: u8 = 0x80;

pub struct HashTable<T> {
    /// A byte for each slot, then the first group again, so that a group may start at any slot.
    control: Box<[u8]>,
    slots: Box<[MaybeUninit<T>]>,
    len: usize,
    /// How many empty slots may still be filled before the table must grow.
    room: usize,
}

#[inline]
fn tag(hash: u64) -> u8 {
    (hash >> 57) as u8
}

/// The entries that so many slots may hold: seven eighths.
fn load(slots: usize) -> usize {
    slots / 8 * 7
}

/// The first slots of the groups on the walk of a hash. Strides grow by a group, so every slot is reached.
struct Walk {
    start: usize,
    stride: usize,
    mask: usize,
}

impl Walk {
    #[inline]
    fn step(&mut self) {
        self.stride += WIDTH;
        self.start = (self.start + self.stride) & self.mask;
    }

    #[inline]
    fn slot(&self, bits: u16) -> usize {
        (self.start + bits.trailing_zeros() as usize) & self.mask
    }
}

impl<T> HashTable<T> {
    pub fn new() -> Self {
        HashTable {
            control: Box::default(),
            slots: Box::default(),
            len: 0,
            room: 0,
        }
    }

    fn with_slots(slots: usize) -> Self {
        HashTable {
            control: vec![EMPTY; slots + WIDTH].into_boxed_slice(),
            slots: Box::new_uninit_slice(slots),
            len: 0,
            room: load(slots),
        }
    }

    pub fn len(&self) -> usize {
        self.len
    }

    pub fn is_empty(&self) -> bool {
        self.len == 0
    }

    pub fn capacity(&self) -> usize {
        self.len + self.room
    }

    #[inline]
    fn group(&self, start: usize) -> Group {
        debug_assert!(start + WIDTH <= self.control.len());
        // SAFETY: `start` is a slot, and a whole group follows the last slot's byte.
        Group::load(unsafe { &*self.control.as_ptr().add(start).cast::<[u8; WIDTH]>() })
    }

    #[inline]
    fn walk(&self, hash: u64) -> Walk {
        let mask = self.slots.len() - 1;
        Walk {
            start: hash as usize & mask,
            stride: 0,
            mask,
        }
    }

    /// # Safety
    /// The slot must be full.
    #[inline]
    unsafe fn full(&self, slot: usize) -> &T {
        unsafe { self.slots.get_unchecked(slot).assume_init_ref() }
    }

    #[inline]
    fn set_control(&mut self, slot: usize, byte: u8) {
        let mirror = (slot.wrapping_sub(WIDTH) & (self.slots.len() - 1)) + WIDTH;
        self.control[slot] = byte;
        self.control[mirror] = byte;
    }

    #[inline]
    fn position(&self, hash: u64, mut same: impl FnMut(&T) -> bool) -> Option<usize> {
        if self.len == 0 {
            return None;
        }
        let mut walk = self.walk(hash);
        loop {
            let group = self.group(walk.start);
            let mut alike = group.equal(tag(hash));
            while alike != 0 {
                let slot = walk.slot(alike);
                // SAFETY: a control byte without its top bit belongs to a full slot.
                if same(unsafe { self.full(slot) }) {
                    return Some(slot);
                }
                alike &= alike - 1;
            }
            if group.equal(EMPTY) != 0 {
                return None;
            }
            walk.step();
        }
    }

    #[inline]
    fn free_slot(&self, hash: u64) -> usize {
        let mut walk = self.walk(hash);
        loop {
            let free = self.group(walk.start).top_bit();
            if free != 0 {
                return walk.slot(free);
            }
            walk.step();
        }
    }

    #[inline]
    fn fill(&mut self, slot: usize, tag: u8, value: T) {
        self.room -= usize::from(self.control[slot] == EMPTY);
        self.set_control(slot, tag);
        self.slots[slot].write(value);
        self.len += 1;
    }

    #[inline]
    fn take(&mut self, slot: usize) -> T {
        let before = self.group(slot.wrapping_sub(WIDTH) & (self.slots.len() - 1));
        let after = self.group(slot);
        let run = before.equal(EMPTY).leading_zeros() + after.equal(EMPTY).trailing_zeros();
        // Where an empty slot lies within every group that holds this one, no walk has gone on past it.
        if (run as usize) < WIDTH {
            self.set_control(slot, EMPTY);
            self.room += 1;
        } else {
            self.set_control(slot, REMOVED);
        }
        self.len -= 1;
        // SAFETY: callers take full slots only, and the control byte no longer says full.
        unsafe { self.slots[slot].assume_init_read() }
    }

    #[inline]
    pub fn reserve(&mut self, additional: usize, hasher: impl Fn(&T) -> u64) {
        if additional > self.room {
            self.rebuild(additional, hasher);
        }
    }

    #[cold]
    fn rebuild(&mut self, additional: usize, hasher: impl Fn(&T) -> u64) {
        let wanted = self.len + additional;
        let limit = load(self.slots.len());
        let slots = if wanted <= limit / 2 {
            // Removed slots took the room: the same size will do.
            self.slots.len()
        } else {
            let wanted = wanted.max(limit + 1);
            (wanted * 8).div_ceil(7).next_power_of_two().max(WIDTH)
        };
        let mut old = mem::replace(self, HashTable::with_slots(slots));
        // What is moved below is no longer the old table's to drop.
        old.len = 0;
        for slot in Places::new(&old.control) {
            // SAFETY: `Places` gives each full slot once.
            let value = unsafe { old.slots[slot].assume_init_read() };
            let hash = hasher(&value);
            let free = self.free_slot(hash);
            self.fill(free, tag(hash), value);
        }
    }

    #[inline]
    pub fn find(&self, hash: u64, same: impl FnMut(&T) -> bool) -> Option<&T> {
        // SAFETY: `position` gives full slots.
        self.position(hash, same)
            .map(|slot| unsafe { self.full(slot) })
    }

    #[inline]
    pub fn find_entry(
        &mut self,
        hash: u64,
        same: impl FnMut(&T) -> bool,
    ) -> Result<OccupiedEntry<'_, T>, AbsentEntry> {
        match self.position(hash, same) {
            Some(slot) => Ok(OccupiedEntry { table: self, slot }),
            None => Err(AbsentEntry),
        }
    }

    #[inline]
    pub fn entry(
        &mut self,
        hash: u64,
        same: impl FnMut(&T) -> bool,
        hasher: impl Fn(&T) -> u64,
    ) -> Entry<'_, T> {
        self.reserve(1, hasher);
        match self.position(hash, same) {
            Some(slot) => Entry::Occupied(OccupiedEntry { table: self, slot }),
            None => Entry::Vacant(VacantEntry {
                slot: self.free_slot(hash),
                table: self,
                tag: tag(hash),
            }),
        }
    }

    #[inline]
    pub fn insert_unique(
        &mut self,
        hash: u64,
        value: T,
        hasher: impl Fn(&T) -> u64,
    ) -> OccupiedEntry<'_, T> {
        self.reserve(1, hasher);
        let slot = self.free_slot(hash);
        self.fill(slot, tag(hash), value);
        OccupiedEntry { table: self, slot }
    }

    pub fn iter(&self) -> impl Iterator<Item = &T> {
        // SAFETY: `Places` gives full slots.
        Places::new(&self.control).map(|slot| unsafe { self.full(slot) })
    }

    pub fn iter_mut(&mut self) -> impl Iterator<Item = &mut T> {
        let slots = self.slots.as_mut_ptr();
        // SAFETY: `Places` gives each full slot once, so no two of these references meet.
        Places::new(&self.control).map(move |slot| unsafe { (*slots.add(slot)).assume_init_mut() })
    }

    pub fn drain(&mut self) -> impl Iterator<Item = T> {
        let values: Vec<T> = Places::new(&self.control)
            // SAFETY: each full slot is read once, and then forgotten.
            .map(|slot| unsafe { self.slots[slot].assume_init_read() })
            .collect();
        self.forget_all();
        values.into_iter()
    }

    pub fn clear(&mut self) {
        self.drop_values();
        self.forget_all();
    }

    fn drop_values(&mut self) {
        if mem::needs_drop::<T>() && self.len != 0 {
            self.iter_mut()
                // SAFETY: each value is dropped once; the callers then forget them all.
                .for_each(|value| unsafe { std::ptr::drop_in_place(value) });
        }
    }

    fn forget_all(&mut self) {
        self.control.fill(EMPTY);
        self.len = 0;
        self.room = load(self.slots.len());
    }
}

impl<T> Default for HashTable<T> {
    fn default() -> Self {
        HashTable::new()
    }
}

impl<T> Drop for HashTable<T> {
    fn drop(&mut self) {
        self.drop_values();
    }
}

impl<T: Clone> Clone for HashTable<T> {
    fn clone(&self) -> Self {
        let mut slots = Box::new_uninit_slice(self.slots.len());
        for slot in Places::new(&self.control) {
            // SAFETY: `Places` gives full slots.
            slots[slot].write(unsafe { self.full(slot) }.clone());
        }
        HashTable {
            control: self.control.clone(),
            slots,
            len: self.len,
            room: self.room,
        }
    }
}

/// The full slots, rising.
struct Places<'a> {
    control: &'a [u8],
    start: usize,
    bits: u16,
}

impl<'a> Places<'a> {
    fn new(control: &'a [u8]) -> Places<'a> {
        let mut places = Places {
            control: &control[..control.len().saturating_sub(WIDTH)],
            start: 0,
            bits: 0,
        };
        places.read();
        places
    }

    #[inline]
    fn read(&mut self) {
        if let Some(bytes) = self.control[self.start..].first_chunk() {
            self.bits = !Group::load(bytes).top_bit();
        }
    }
}

impl Iterator for Places<'_> {
    type Item = usize;

    #[inline]
    fn next(&mut self) -> Option<usize> {
        while self.bits == 0 {
            if self.start == self.control.len() {
                return None;
            }
            self.start += WIDTH;
            self.read();
        }
        let slot = self.start + self.bits.trailing_zeros() as usize;
        self.bits &= self.bits - 1;
        Some(slot)
    }
}

pub enum Entry<'a, T> {
    Occupied(OccupiedEntry<'a, T>),
    Vacant(VacantEntry<'a, T>),
}

pub struct OccupiedEntry<'a, T> {
    table: &'a mut HashTable<T>,
    slot: usize,
}

impl<'a, T> OccupiedEntry<'a, T> {
    #[inline]
    pub fn get(&self) -> &T {
        // SAFETY: an occupied entry's slot is full.
        unsafe { self.table.full(self.slot) }
    }

    #[inline]
    pub fn get_mut(&mut self) -> &mut T {
        // SAFETY: as above.
        unsafe { self.table.slots[self.slot].assume_init_mut() }
    }

    #[inline]
    pub fn remove(self) -> (T, VacantEntry<'a, T>) {
        let OccupiedEntry { table, slot } = self;
        let tag = table.control[slot];
        let value = table.take(slot);
        (value, VacantEntry { table, slot, tag })
    }
}

pub struct VacantEntry<'a, T> {
    table: &'a mut HashTable<T>,
    slot: usize,
    tag: u8,
}

impl<'a, T> VacantEntry<'a, T> {
    #[inline]
    pub fn insert(self, value: T) -> OccupiedEntry<'a, T> {
        let VacantEntry { table, slot, tag } = self;
        table.fill(slot, tag, value);
        OccupiedEntry { table, slot }
    }
}

/// No such entry.
pub struct AbsentEntry;

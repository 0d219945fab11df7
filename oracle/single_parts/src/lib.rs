//! Single parts of the library, exported for comparing and measuring alone: they are no part of what is shipped. A safe
//! function over each.

pub mod raw;

use calls::Condition;

#[inline]
pub fn is_stale(first: u32) -> bool {
    unsafe { raw::mouldgrey_is_stale(first) }
}

#[inline]
pub fn from_full(full: u64) -> u32 {
    unsafe { raw::mouldgrey_from_full(full) }
}

#[inline]
pub fn probe(hash: u32) -> u64 {
    unsafe { raw::mouldgrey_probe(hash) }
}

#[inline]
pub fn key_hash(key: &[u32]) -> u64 {
    unsafe { raw::mouldgrey_key_hash(key.as_ptr(), key.len()) }
}

#[inline]
pub fn compact_hash(key: &[u32]) -> u32 {
    unsafe { raw::mouldgrey_compact_hash(key.as_ptr(), key.len()) }
}

#[inline]
pub fn known(condition: &Condition, columns: u32) -> bool {
    unsafe { raw::mouldgrey_known(condition.kind, condition.a, condition.b, columns) }
}

#[inline]
pub fn meets(condition: &Condition, row: &[u32]) -> bool {
    unsafe {
        raw::mouldgrey_meets(
            condition.kind,
            condition.a,
            condition.b,
            row.as_ptr(),
            row.len(),
        )
    }
}

/// What a rule makes of an old and a new row of equal length, if it does not keep the old one.
#[inline]
pub fn merge_rule(rule: u32, keys: u32, sort: u32, old: &[u32], new: &[u32]) -> Option<Vec<u32>> {
    let (old_at, new_at) = (old.as_ptr(), new.as_ptr());
    let changes =
        unsafe { raw::mouldgrey_changes(rule, keys, sort, old_at, old.len(), new_at, new.len()) };
    let mut out = vec![0; old.len()];
    let made = unsafe {
        raw::mouldgrey_make(
            rule,
            keys,
            sort,
            old_at,
            old.len(),
            new_at,
            new.len(),
            out.as_mut_ptr(),
            out.len(),
        )
    };
    assert!(made, "rows of unequal length");
    changes.then_some(out)
}

/// The row that survives under rule 0 or 1, each row standing somewhere in its store.
#[inline]
pub fn surviving_row(rule: u32, keys: u32, sort: u32, old: &[u32], new: &[u32]) -> Vec<u32> {
    let rows: Vec<u32> = [&[7, 7, 7], old].concat();
    let pending: Vec<u32> = [&[9], new, &[9]].concat();
    let mut out = vec![0; old.len()];
    let copied = unsafe {
        raw::mouldgrey_surviving_row(
            rule,
            keys,
            sort,
            old.len(),
            rows.as_ptr(),
            rows.len(),
            3,
            pending.as_ptr(),
            pending.len(),
            1,
            out.as_mut_ptr(),
            out.len(),
        )
    };
    assert!(copied, "a row outside its store");
    out
}

#[inline]
pub fn rank(live: u64, base: u32, bit: u32) -> u32 {
    unsafe { raw::mouldgrey_rank(live, base, bit) }
}

/// A table's numbers that its key index uses.
#[derive(Clone, Copy, Debug)]
pub struct Keyed {
    pub columns: u32,
    pub keys: u32,
    pub capacity: u32,
    pub rows: u32,
}

const UNFIT: u64 = u64::MAX;
const NONE: u64 = u64::MAX - 1;

/// The row of a key and its slot.
#[inline]
pub fn find(table: Keyed, rows: &[u32], store: &[u32], key: &[u32]) -> Option<(u32, u32)> {
    let Keyed {
        columns,
        keys,
        capacity,
        rows: count,
    } = table;
    let found = unsafe {
        raw::mouldgrey_find(
            columns,
            keys,
            capacity,
            count,
            rows.as_ptr(),
            rows.len(),
            store.as_ptr(),
            store.len(),
            key.as_ptr(),
            key.len(),
        )
    };
    assert_ne!(found, UNFIT, "{table:?} does not fit");
    (found != NONE).then_some((found as u32, (found >> 32) as u32))
}

/// A new row of a key that has no slot; whether a slot was free.
#[inline]
pub fn put(capacity: u32, store: &mut [u32], key: &[u32], row: u32) -> bool {
    let (at, len) = (store.as_mut_ptr(), store.len());
    let put = unsafe { raw::mouldgrey_put(capacity, at, len, key.as_ptr(), key.len(), row) };
    assert_ne!(
        put, UNFIT,
        "a store of {len} words does not fit capacity {capacity}"
    );
    put == 1
}

/// The slot of a row takes another row of the same key.
#[inline]
pub fn replace(store: &mut [u32], slot: u32, key: &[u32], row: u32) {
    let (at, len) = (store.as_mut_ptr(), store.len());
    let done = unsafe { raw::mouldgrey_replace(at, len, slot, key.as_ptr(), key.len(), row) };
    assert_eq!(done, 1, "no slot {slot} in a store of {len} words");
}

/// The slot of a row that dies is freed.
#[inline]
pub fn take_out(table: Keyed, rows: &[u32], store: &mut [u32], slot: u32) {
    let Keyed {
        columns,
        keys,
        capacity,
        rows: count,
    } = table;
    let done = unsafe {
        raw::mouldgrey_take_out(
            columns,
            keys,
            capacity,
            count,
            rows.as_ptr(),
            rows.len(),
            store.as_mut_ptr(),
            store.len(),
            slot,
        )
    };
    assert_eq!(done, 1, "{table:?} does not fit");
}

/// Every slot gets its row's number after a compaction with these words.
#[inline]
pub fn renumber(capacity: u32, count: u32, store: &mut [u32], live: &[u64], base: &[u32]) {
    let done = unsafe {
        raw::mouldgrey_renumber(
            capacity,
            count,
            store.as_mut_ptr(),
            store.len(),
            live.as_ptr(),
            live.len(),
            base.as_ptr(),
            base.len(),
        )
    };
    assert_eq!(done, 1, "stores do not fit capacity {capacity}");
}

/// The fast range of a condition on the sort column: start and end.
#[inline]
pub fn fast_range(sorts: &[u32], entries: u32, rows: u32, kind: u32, value: u32) -> (u32, u32) {
    let range = unsafe {
        raw::mouldgrey_fast_range(sorts.as_ptr(), sorts.len(), entries, rows, kind, value)
    };
    (range as u32, (range >> 32) as u32)
}

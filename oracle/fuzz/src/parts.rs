//! The single parts of the library on any numbers and stores.

use crate::acts::good_opening;
use crate::session::{Session, Slot};
use crate::stores::{Stores, fuzz_number};
use crate::watch;
use calls::{DEAD, Header};
use random::Rng;
use single_parts::raw;

/// What a part that takes a table's numbers answers where they do not fit its stores.
const UNFIT: u64 = u64::MAX;

pub fn calls(session: &mut Session, rng: &mut Rng) -> Result<(), String> {
    let stores = stores(rng);
    for _ in 0..rng.within(8, 40) {
        let h = numbers(rng, &stores);
        let located = |why: String| format!("{why}\n  at {}", watch::place());
        single(session, rng, &stores, &h).map_err(located)?;
    }
    Ok(())
}

/// Stores of no meaning, of which slots and entries nearly have some.
pub fn stores(rng: &mut Rng) -> Stores {
    let opening = good_opening(rng);
    let rows = rng.below(opening.capacity + 1);
    let h = Header {
        columns: opening.columns,
        keys: opening.keys,
        sort: opening.sort,
        rule: opening.rule,
        capacity: opening.capacity,
        rows,
        dead: rng.below(rows + 1),
        entries: rng.below(rows + 1),
        pending: 0,
        generation: 0,
        largest: None,
    };
    let mut stores = Stores::sized(rng, &h, 40, 0);
    stores.fill_with_garbage(rng);
    stores
}

/// The header's numbers, one of them arbitrary now and then.
fn numbers(rng: &mut Rng, stores: &Stores) -> Header {
    let mut words = stores.header;
    if rng.percent(30) {
        let place = rng.place(words.len());
        words[place] = fuzz_number(rng, &stores.header);
    }
    Header::from_words(&words)
}

/// Some cells of a store, or none.
fn part(rng: &mut Rng, store: &[u32], most: usize) -> Vec<u32> {
    let length = rng.place(most + 1).min(store.len());
    let from = rng.place(store.len() - length + 1);
    store[from..from + length].to_vec()
}

/// A place in a store, or any number.
fn place(rng: &mut Rng, store: &[u32]) -> usize {
    match rng.below(8) {
        0 => rng.next_u64() as usize,
        1 => usize::MAX - rng.place(3),
        2..=5 => 0,
        _ => rng.place(store.len() + 2),
    }
}

fn agree<T: PartialEq + std::fmt::Debug>(name: &str, is: T, must: T) -> Result<(), String> {
    if is == must {
        return Ok(());
    }
    Err(format!("{name} gives {is:?}, not {must:?}"))
}

fn single(session: &mut Session, rng: &mut Rng, stores: &Stores, h: &Header) -> Result<(), String> {
    match rng.below(17) {
        0..=4 => hashes(session, rng, stores, h),
        5 | 6 => conditions(session, rng, stores, h),
        7..=9 => rules(session, rng, stores, h),
        10 => rank(session, rng),
        11..=15 => slots(session, rng, stores, h),
        _ => fast_range(session, rng, stores, h),
    }
}

fn hashes(session: &mut Session, rng: &mut Rng, stores: &Stores, h: &Header) -> Result<(), String> {
    let number = fuzz_number(rng, &stores.header);
    let full = (u64::from(number) << rng.below(33)) ^ (rng.next_u64() >> rng.within(0, 63));
    let compact = |full: u64| (((full >> 57) << 25) | (full % (1 << 25))) as u32;
    let name = match rng.below(5) {
        0 => {
            watch::call("mouldgrey_is_stale");
            let stale = unsafe { raw::mouldgrey_is_stale(number) };
            agree("mouldgrey_is_stale", stale, number == DEAD)?;
            "mouldgrey_is_stale"
        }
        1 => {
            watch::call("mouldgrey_from_full");
            let hash = unsafe { raw::mouldgrey_from_full(full) };
            agree("mouldgrey_from_full", hash, compact(full))?;
            "mouldgrey_from_full"
        }
        2 => {
            watch::call("mouldgrey_probe");
            let probe = unsafe { raw::mouldgrey_probe(number) };
            agree("mouldgrey_probe", compact(probe), number)?;
            "mouldgrey_probe"
        }
        3 => {
            watch::call("mouldgrey_key_hash");
            let key = part(rng, &stores.rows, h.columns.min(40) as usize);
            let lent = session.read(rng, Slot::Cells, &key);
            let hash = unsafe { raw::mouldgrey_key_hash(lent.0, lent.1) };
            let half = u64::from(reference::key_hash(&key));
            agree("mouldgrey_key_hash", hash, half << 32 | half)?;
            "mouldgrey_key_hash"
        }
        _ => {
            watch::call("mouldgrey_compact_hash");
            let key = part(rng, &stores.rows, 40);
            let lent = session.read(rng, Slot::Cells, &key);
            let hash = unsafe { raw::mouldgrey_compact_hash(lent.0, lent.1) };
            agree("mouldgrey_compact_hash", hash, reference::key_hash(&key))?;
            "mouldgrey_compact_hash"
        }
    };
    session.close(name, 0)
}

fn conditions(
    session: &mut Session,
    rng: &mut Rng,
    stores: &Stores,
    h: &Header,
) -> Result<(), String> {
    let small = |rng: &mut Rng| match rng.percent(80) {
        true => rng.below(9),
        false => rng.number(),
    };
    let (kind, column, value) = (small(rng), small(rng), small(rng));
    if rng.percent(50) {
        let columns = h.columns;
        watch::call("mouldgrey_known");
        let known = unsafe { raw::mouldgrey_known(kind, column, value, columns) };
        let must = kind <= 5 && column < columns && (kind > 0 || value < columns);
        agree("mouldgrey_known", known, must)?;
        return session.close("mouldgrey_known", 0);
    }
    let row = part(rng, &stores.rows, 9);
    let lent = session.read(rng, Slot::Cells, &row);
    watch::call("mouldgrey_meets");
    let meets = unsafe { raw::mouldgrey_meets(kind, column, value, lent.0, lent.1) };
    let is_dead = row.first() == Some(&DEAD);
    agree("mouldgrey_meets of a dead row", meets && is_dead, false)?;
    session.close("mouldgrey_meets", 0)
}

fn rules(session: &mut Session, rng: &mut Rng, stores: &Stores, h: &Header) -> Result<(), String> {
    let old = part(rng, &stores.rows, 9);
    let mut new = match rng.percent(70) {
        true => old.clone(),
        false => part(rng, &stores.rows, 9),
    };
    if let Some(last) = new.last_mut() {
        *last = rng.number();
    }
    let rule = match rng.percent(80) {
        true => rng.below(4),
        false => rng.number(),
    };
    let (keys, sort) = (h.keys, h.sort);
    let one = session.read(rng, Slot::Ids, &old);
    let other = session.read(rng, Slot::OtherIds, &new);
    let out = vec![rng.number(); rng.place(12)];
    match rng.below(3) {
        0 => {
            watch::call("mouldgrey_changes");
            unsafe {
                raw::mouldgrey_changes(rule, keys, sort, one.0, one.1, other.0, other.1);
            }
            session.close("mouldgrey_changes", 0)
        }
        1 => {
            let lent = session.write(rng, Slot::Output, &out);
            watch::call("mouldgrey_make");
            let made = unsafe {
                raw::mouldgrey_make(
                    rule, keys, sort, one.0, one.1, other.0, other.1, lent.0, lent.1,
                )
            };
            let fits = old.len() == new.len() && old.len() <= out.len();
            agree("mouldgrey_make", made, fits)?;
            session.close("mouldgrey_make", u32::from(!made))
        }
        _ => {
            let width = match rng.percent(80) {
                true => rng.place(old.len().min(new.len()).min(out.len()) + 1),
                false => rng.next_u64() as usize,
            };
            let (from, new_from) = (place(rng, &old), place(rng, &new));
            let lent = session.write(rng, Slot::Output, &out);
            watch::call("mouldgrey_surviving_row");
            let copied = unsafe {
                raw::mouldgrey_surviving_row(
                    rule, keys, sort, width, one.0, one.1, from, other.0, other.1, new_from,
                    lent.0, lent.1,
                )
            };
            let is_within =
                |at: usize, length: usize| at.checked_add(width).is_some_and(|end| end <= length);
            let fits = rule <= 1
                && is_within(from, old.len())
                && is_within(new_from, new.len())
                && width <= out.len();
            agree("mouldgrey_surviving_row", copied, fits)?;
            session.close("mouldgrey_surviving_row", u32::from(!copied))
        }
    }
}

fn rank(session: &mut Session, rng: &mut Rng) -> Result<(), String> {
    let live = rng.next_u64() & rng.next_u64();
    let base = match rng.percent(70) {
        true => rng.below(65_537),
        false => rng.number(),
    };
    let bit = match rng.percent(70) {
        true => rng.below(64),
        false => rng.number(),
    };
    watch::call("mouldgrey_rank");
    let rank = unsafe { raw::mouldgrey_rank(live, base, bit) };
    let must = match bit < 64 && base <= 65_536 {
        true => base + (live & ((1 << bit) - 1)).count_ones(),
        false => 0,
    };
    agree("mouldgrey_rank", rank, must)?;
    session.close("mouldgrey_rank", 0)
}

/// Whether a table's numbers fit stores of these lengths.
fn fits(h: &Header, rows: usize, slots: usize) -> bool {
    (1..=8).contains(&h.columns)
        && (1..=h.columns).contains(&h.keys)
        && (1..=65_536).contains(&h.capacity)
        && h.rows <= h.capacity
        && rows >= h.capacity as usize * h.columns as usize
        && slots >= 2 * h.capacity as usize
}

/// A table's numbers with stores that may be a word short, a key, a row and a slot, any of them anything now and then.
struct Indexed<'a> {
    h: &'a Header,
    rows: Vec<u32>,
    keys: Vec<u32>,
    key: Vec<u32>,
    row: u32,
    slot: u32,
}

fn slots(session: &mut Session, rng: &mut Rng, stores: &Stores, h: &Header) -> Result<(), String> {
    let mut cut = |store: &[u32]| {
        let short = rng.percent(10) && !store.is_empty();
        store[..store.len() - usize::from(short)].to_vec()
    };
    let (rows, keys) = (cut(&stores.rows), cut(&stores.keys));
    let width = match rng.percent(80) {
        true => h.keys.min(9) as usize,
        false => rng.place(9),
    };
    let from = rng.place(rows.len().saturating_sub(width) + 1);
    let key = rows.get(from..from + width).unwrap_or(&[]).to_vec();
    let row = match rng.percent(80) {
        true => rng.below(h.rows),
        false => fuzz_number(rng, &stores.header),
    };
    let slot = match rng.percent(80) {
        true => rng.below(keys.len() as u32),
        false => fuzz_number(rng, &stores.header),
    };
    let of = &Indexed {
        h,
        rows,
        keys,
        key,
        row,
        slot,
    };
    let (name, answer, fit) = match rng.below(5) {
        0 => find(session, rng, of),
        1 => put(session, rng, of),
        2 => replace(session, rng, of),
        3 => take_out(session, rng, of),
        _ => renumber(session, rng, of, stores),
    };
    agree(name, answer != UNFIT, fit)?;
    session.close(name, u32::from(!fit))
}

/// A part's name, its answer, and whether what it was given fits.
type Fitted = (&'static str, u64, bool);

fn find(session: &mut Session, rng: &mut Rng, of: &Indexed) -> Fitted {
    let h = of.h;
    let rows = session.read(rng, Slot::Rows, &of.rows);
    let keys = session.read(rng, Slot::Keys, &of.keys);
    let key = session.read(rng, Slot::Cells, &of.key);
    watch::call("mouldgrey_find");
    let found = unsafe {
        raw::mouldgrey_find(
            h.columns, h.keys, h.capacity, h.rows, rows.0, rows.1, keys.0, keys.1, key.0, key.1,
        )
    };
    let fit = fits(h, rows.1, keys.1) && key.1 == h.keys as usize;
    ("mouldgrey_find", found, fit)
}

fn put(session: &mut Session, rng: &mut Rng, of: &Indexed) -> Fitted {
    let capacity = of.h.capacity;
    let keys = session.write(rng, Slot::Keys, &of.keys);
    let key = session.read(rng, Slot::Cells, &of.key);
    watch::call("mouldgrey_put");
    let put = unsafe { raw::mouldgrey_put(capacity, keys.0, keys.1, key.0, key.1, of.row) };
    let fit =
        (1..=65_536).contains(&capacity) && keys.1 >= 2 * capacity as usize && of.row <= 65_535;
    ("mouldgrey_put", put, fit)
}

fn replace(session: &mut Session, rng: &mut Rng, of: &Indexed) -> Fitted {
    let keys = session.write(rng, Slot::Keys, &of.keys);
    let key = session.read(rng, Slot::Cells, &of.key);
    watch::call("mouldgrey_replace");
    let done = unsafe { raw::mouldgrey_replace(keys.0, keys.1, of.slot, key.0, key.1, of.row) };
    let fit = (of.slot as usize) < keys.1 && of.row <= 65_535;
    ("mouldgrey_replace", done, fit)
}

fn take_out(session: &mut Session, rng: &mut Rng, of: &Indexed) -> Fitted {
    let h = of.h;
    let rows = session.read(rng, Slot::Rows, &of.rows);
    let keys = session.write(rng, Slot::Keys, &of.keys);
    watch::call("mouldgrey_take_out");
    let done = unsafe {
        raw::mouldgrey_take_out(
            h.columns, h.keys, h.capacity, h.rows, rows.0, rows.1, keys.0, keys.1, of.slot,
        )
    };
    let fit = fits(h, rows.1, keys.1) && (of.slot as usize) < 2 * h.capacity as usize;
    ("mouldgrey_take_out", done, fit)
}

fn renumber(session: &mut Session, rng: &mut Rng, of: &Indexed, stores: &Stores) -> Fitted {
    let h = of.h;
    let keys = session.write(rng, Slot::Keys, &of.keys);
    let live = session.read(rng, Slot::Live, &stores.live);
    let base = session.read(rng, Slot::Base, &stores.base);
    watch::call("mouldgrey_renumber");
    let done = unsafe {
        raw::mouldgrey_renumber(
            h.capacity,
            h.rows,
            keys.0,
            keys.1,
            live.0.cast(),
            live.1 / 2,
            base.0,
            base.1,
        )
    };
    let words = (h.capacity as usize).div_ceil(64);
    let fit = h.rows <= h.capacity
        && h.capacity <= 65_536
        && keys.1 >= 2 * h.capacity as usize
        && live.1 / 2 >= words
        && base.1 >= words;
    ("mouldgrey_renumber", done, fit)
}

fn fast_range(
    session: &mut Session,
    rng: &mut Rng,
    stores: &Stores,
    h: &Header,
) -> Result<(), String> {
    let sorts = session.read(rng, Slot::Sorts, &stores.sorts);
    let kind = match rng.percent(80) {
        true => rng.below(6),
        false => rng.number(),
    };
    let value = rng.number();
    watch::call("mouldgrey_fast_range");
    let range =
        unsafe { raw::mouldgrey_fast_range(sorts.0, sorts.1, h.entries, h.rows, kind, value) };
    let fit = h.entries <= 65_536 && sorts.1 >= 2 * h.entries as usize;
    if !fit {
        agree("mouldgrey_fast_range", range, UNFIT)?;
    }
    session.close("mouldgrey_fast_range", u32::from(!fit))
}

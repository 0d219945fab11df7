//! Trials: each has a seed of its own, makes a table or arbitrary words, and calls the functions on them.

use crate::acts::{Act, act, crowded_keys, good_opening, refresh, staging};
use crate::answers;
use crate::columns;
use crate::listings;
use crate::lists;
use crate::parts;
use crate::report::Change;
use crate::sequences;
use crate::session::Session;
use crate::stores::{Stores, fuzz_number};
use calls::{Call, Header, Opening};
use random::Rng;
use reference::Reference;

/// What a table has that is about to be opened.
fn unopened(o: &Opening) -> Header {
    Header {
        columns: o.columns,
        keys: o.keys,
        sort: o.sort,
        rule: o.rule,
        capacity: o.capacity,
        ..Header::default()
    }
}

pub fn trial(session: &mut Session, seed: u64) -> Result<(), String> {
    let mut rng = Rng::new(seed);
    let rng = &mut rng;
    if rng.below(3_000) == 0 {
        return large(session, rng);
    }
    match rng.below(26) {
        0..=10 => one_word(session, rng),
        11..=13 => many_words(session, rng),
        14..=16 => garbage(session, rng),
        17 => fuzzed_header(session, rng),
        18 => columns::calls(session, rng),
        19 | 20 => lists::calls(session, rng),
        21 => sequences::calls(session, rng),
        22 => listings::calls(session, rng),
        23 => answers::calls(session, rng),
        _ => parts::calls(session, rng),
    }
}

/// A sound table by a short history, each call of it compared in full.
fn sound(session: &mut Session, rng: &mut Rng) -> Result<Stores, String> {
    let opening = good_opening(rng);
    let keys = match rng.percent(30) {
        true => crowded_keys(rng, opening.keys),
        false => Vec::new(),
    };
    let pending = rng.pick(&[0, 11, 40, 120]);
    let filler = rng.next_u64() as u32;
    let mut stores = Stores::sized(rng, &unopened(&opening), pending, filler);
    stores = session.perform_whole(rng, &stores, &Act::Call(Call::Open(opening)))?;
    for round in 0..=rng.below(5) {
        if round > 0 {
            stores = session.perform_whole(rng, &stores, &Act::Call(Call::Merge))?;
        }
        for _ in 0..rng.below(12) {
            let call = staging(rng, &stores, &keys);
            stores = session.perform_whole(rng, &stores, &Act::Call(call))?;
        }
        if rng.percent(30) {
            let call = refresh(rng, &stores);
            stores = session.perform_whole(rng, &stores, &Act::Call(call))?;
        }
    }
    Ok(stores)
}

/// A sound table of a capacity above the key store's first size class: within that class, so that some slots are not in use, or grown
/// past it by the last inserts.
fn grown(session: &mut Session, rng: &mut Rng) -> Result<Stores, String> {
    let mut opening = good_opening(rng);
    opening.capacity = rng.within(130, 160);
    let pending = 150 * (opening.columns as usize + 2);
    let filler = rng.next_u64() as u32;
    let mut stores = Stores::sized(rng, &unopened(&opening), pending, filler);
    stores = session.perform_whole(rng, &stores, &Act::Call(Call::Open(opening)))?;
    let keys: Vec<Vec<u32>> = (0..140)
        .map(|i| (0..opening.keys).map(|_| i).collect())
        .collect();
    let batches = [&keys[..rng.within(120, 128) as usize], &keys];
    for batch in &batches[..rng.within(1, 2) as usize] {
        for key in *batch {
            let mut row = vec![rng.below(3); opening.columns as usize];
            row[opening.sort as usize] = 7;
            row[..key.len()].copy_from_slice(key);
            stores = session.perform_whole(rng, &stores, &Act::Call(Call::Insert(row)))?;
        }
        stores = session.perform_whole(rng, &stores, &Act::Call(Call::Merge))?;
    }
    Ok(stores)
}

impl Session {
    /// One call, on stores that may be sound.
    fn perform_whole(
        &mut self,
        rng: &mut Rng,
        stores: &Stores,
        act: &Act,
    ) -> Result<Stores, String> {
        let reference = Reference::shown(&stores.held());
        self.perform(rng, stores, act, reference.as_ref())
    }
}

/// A sound table with a single word changed, or two exchanged: the check returns what the reference model's own
/// returns, and other calls follow.
fn one_word(session: &mut Session, rng: &mut Rng) -> Result<(), String> {
    let whole = match rng.below(60) {
        0 => grown(session, rng)?,
        _ => sound(session, rng)?,
    };
    for _ in 0..rng.within(4, 16) {
        let mut stores = whole.clone();
        let change = match rng.percent(80) {
            true => Change::Word(stores.flip(rng)),
            false => Change::Pair(stores.exchange(rng)),
        };
        let checked = reference::is_sound(&stores.held());
        let reference = Reference::shown(&stores.held());
        session.perform(rng, &stores, &Act::IsSound, reference.as_ref())?;
        session.report.change(change, checked);
        let h = whole.numbers();
        if h.rows > 128 {
            session.report.grown += 1;
        } else if h.capacity > 128 {
            session.report.spare += 1;
        }
        for _ in 0..rng.within(1, 2) {
            let act = act(rng, &stores);
            session.perform(rng, &stores, &act, reference.as_ref())?;
        }
    }
    Ok(())
}

/// A few calls, each on what the last one left, with a store of another length now and then.
fn chain(session: &mut Session, rng: &mut Rng, mut stores: Stores) -> Result<(), String> {
    for _ in 0..rng.within(4, 24) {
        if rng.percent(10) {
            let h = stores.numbers();
            stores.fill_index(rng, &h);
        }
        let act = act(rng, &stores);
        if rng.percent(25) {
            let mut other = stores.clone();
            other.resize(rng);
            session.perform_whole(rng, &other, &act)?;
        } else {
            stores = session.perform_whole(rng, &stores, &act)?;
        }
    }
    Ok(())
}

/// A sound table, several of its words changed or exchanged.
fn many_words(session: &mut Session, rng: &mut Rng) -> Result<(), String> {
    let mut stores = sound(session, rng)?;
    for _ in 0..rng.below(8) {
        match rng.percent(50) {
            true => stores.flip(rng),
            false => stores.exchange(rng),
        };
    }
    chain(session, rng, stores)
}

/// A header whose numbers fit together.
fn plausible(rng: &mut Rng) -> Header {
    let mut h = unopened(&good_opening(rng));
    h.rows = rng.below(h.capacity + 1);
    h.dead = rng.below(h.rows + 1);
    h.entries = rng.below(h.rows + 1);
    h.generation = rng.pick(&[0, u32::MAX - 1, u32::MAX]);
    h
}

/// A header that passes the checks, over arbitrary words.
fn garbage(session: &mut Session, rng: &mut Rng) -> Result<(), String> {
    let mut h = plausible(rng);
    let pending = rng.pick(&[0, 12, 60, 200]);
    h.pending = rng.below(pending as u32 + 1);
    let mut stores = Stores::sized(rng, &h, pending, 0);
    stores.fill_with_garbage(rng);
    // A largest sort value, or a number where there is none.
    if rng.percent(50) {
        stores.header[10..].copy_from_slice(&[rng.below(2), rng.number()]);
    }
    chain(session, rng, stores)
}

/// Any numbers at all in the header.
fn fuzzed_header(session: &mut Session, rng: &mut Rng) -> Result<(), String> {
    let mut h = plausible(rng);
    h.pending = rng.below(60);
    let mut stores = Stores::sized(rng, &h, 50, 0);
    stores.fill_with_garbage(rng);
    for _ in 0..rng.within(4, 24) {
        let mut fuzzed = stores.clone();
        for _ in 0..rng.within(1, 3) {
            let place = rng.place(10);
            fuzzed.header[place] = fuzz_number(rng, &stores.header);
        }
        if rng.percent(20) {
            fuzzed.resize(rng);
        }
        let act = act(rng, &fuzzed);
        session.perform_whole(rng, &fuzzed, &act)?;
    }
    Ok(())
}

/// The largest tables, full of garbage.
fn large(session: &mut Session, rng: &mut Rng) -> Result<(), String> {
    let mut h = plausible(rng);
    h.capacity = rng.within(65_535, 65_537);
    h.rows = h.capacity - rng.below(3);
    h.pending = rng.below(40);
    h.dead = rng.below(h.rows);
    h.entries = rng.below(h.rows);
    let mut stores = Stores::sized(rng, &h, 60, 0);
    stores.fill_with_garbage(rng);
    for _ in 0..12 {
        let act = act(rng, &stores);
        stores = session.perform_whole(rng, &stores, &act)?;
    }
    Ok(())
}

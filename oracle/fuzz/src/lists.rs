//! Lists of calls and of queries on arbitrary numbers and stores; their own words are arbitrary too. What an accepted opening and the
//! calls after it leave is compared in full with the reference model, since the contract covers any stores.

use crate::acts::{opening, subset};
use crate::parts;
use crate::session::{Session, Slot};
use crate::stores::{Stores, fuzz_number};
use crate::watch;
use calls::{Answer, Before, Call, Implementation, Index, Refresh, Subset};
use mouldgrey::raw;
use random::Rng;
use reference::Reference;

pub fn calls(session: &mut Session, rng: &mut Rng) -> Result<(), String> {
    let stores = parts::stores(rng);
    for _ in 0..rng.within(4, 12) {
        let located = |why: String| format!("{why}\n  at {}", watch::place());
        match rng.percent(50) {
            true => replay(session, rng, &stores).map_err(located)?,
            false => query(session, rng, &stores).map_err(located)?,
        }
    }
    Ok(())
}

/// Words of frames, mostly whole.
fn words(rng: &mut Rng, stores: &Stores, kinds: u32, cells: &[usize]) -> Vec<u32> {
    let mut words = Vec::new();
    for _ in 0..rng.below(12) {
        let kind = match rng.percent(95) {
            true => rng.below(kinds + 1),
            false => fuzz_number(rng, &stores.header),
        };
        let count = match rng.percent(80) {
            true => cells.get(kind as usize).copied().unwrap_or(0),
            false => rng.place(6),
        };
        words.extend([kind, count as u32]);
        for _ in 0..count {
            words.push(match rng.percent(70) {
                true => rng.below(6),
                false => fuzz_number(rng, &stores.header),
            });
        }
    }
    if rng.percent(15) {
        words.truncate(rng.place(words.len() + 1));
    }
    if rng.percent(5) && !words.is_empty() {
        let place = rng.place(words.len());
        words[place] = fuzz_number(rng, &stores.header);
    }
    words
}

/// The calls that the words encode, by include/mouldgrey.h.
fn decoded(mut words: &[u32]) -> Vec<Call> {
    let mut calls = Vec::new();
    while let [kind, count, rest @ ..] = words {
        let Some((cells, behind)) = rest.split_at_checked(*count as usize) else {
            break;
        };
        match (kind, cells) {
            (0, _) => calls.push(Call::Insert(cells.to_vec())),
            (1, _) => calls.push(Call::RemoveKey(cells.to_vec())),
            (2, [row, key @ ..]) => calls.push(Call::RemoveRow(*row, key.to_vec())),
            (3, _) => calls.push(Call::Merge),
            (4, _) => calls.push(Call::Compact),
            (5, _) => calls.push(Call::Clear),
            (6, [columns, words @ ..]) => calls.extend(refresh(*columns as usize, words)),
            _ => {}
        }
        words = behind;
    }
    calls
}

/// A refresh by so many columns: these, the stamp, the values; none without a stamp.
fn refresh(columns: usize, words: &[u32]) -> Option<Call> {
    let (columns, behind) = words.split_at_checked(columns)?;
    let (stamp, values) = behind.split_first()?;
    Some(Call::Refresh(Refresh {
        index: Index {
            store: 0,
            before: Before::Nothing,
        },
        columns: columns.to_vec(),
        values: values.to_vec(),
        stamp: *stamp,
    }))
}

fn replay(session: &mut Session, rng: &mut Rng, stores: &Stores) -> Result<(), String> {
    const NAME: &str = "mouldgrey_replay";
    let o = opening(rng, stores);
    let (columns, keys) = (o.columns.min(9) as usize, o.keys.min(9) as usize);
    let refresh = rng.within(2, 6) as usize;
    let list = words(rng, stores, 7, &[columns, keys, keys + 1, 0, 0, 0, refresh]);
    let mut reference = Reference::new();
    let lent = stores.lengths();
    let expected = match reference.call(&lent, &Call::Open(o)) {
        Answer::Refused(number) => number,
        _ => 0,
    };
    watch::call(NAME);
    let opening = session.opening(rng, &o);
    let header = session.answer(rng, Slot::Header, &stores.header);
    let calls = session.read(rng, Slot::Cells, &list);
    let rows = session.write(rng, Slot::Rows, &stores.rows);
    let keys = session.write(rng, Slot::Keys, &stores.keys);
    let sorts = session.write(rng, Slot::Sorts, &stores.sorts);
    let pending = session.write(rng, Slot::Pending, &stores.pending);
    let live = session.write(rng, Slot::Live, &stores.live);
    let base = session.write(rng, Slot::Base, &stores.base);
    let index = session.write(rng, Slot::Index, &stores.index);
    // SAFETY: each pointer goes with the length of what was lent, in an area of its own.
    let number = unsafe {
        raw::mouldgrey_replay(
            opening,
            header,
            calls.0,
            calls.1,
            rows.0,
            rows.1,
            keys.0,
            keys.1,
            sorts.0,
            sorts.1,
            pending.0,
            pending.1,
            live.0.cast(),
            live.1 / 2,
            base.0,
            base.1,
            index.0,
            index.1,
        )
    };
    if number != expected {
        return Err(format!("{NAME} gives {number}, not {expected}"));
    }
    if number == 0 {
        let calls = decoded(&list);
        let is_refreshed = |call: &Call| matches!(call, Call::Refresh(_));
        // Over an index store that is not new the refreshes may stage fewer records.
        if stores.index.first() == Some(&0) || !calls.iter().any(is_refreshed) {
            for call in calls {
                reference.call(&lent, &call);
            }
            same(session, stores, &reference)?;
            session.report.compared += 1;
        }
        same_past(session, stores, o.capacity)?;
    }
    session.close(NAME, number)
}

/// Header, rows, sort entries and pending are the reference model's; cells that it did not write are unchanged.
fn same(session: &Session, before: &Stores, reference: &Reference) -> Result<(), String> {
    let expected = reference.expected();
    if session.left(Slot::Header) != Some(&expected.header.words()[..]) {
        return Err(format!(
            "mouldgrey_replay: header, not {:?}",
            expected.header
        ));
    }
    for (slot, was, cells) in [
        (Slot::Rows, &before.rows, expected.rows),
        (Slot::Sorts, &before.sorts, expected.sorts),
        (Slot::Pending, &before.pending, expected.pending),
    ] {
        let is = session.left(slot).unwrap_or(&[]);
        if is.get(..cells.len()) != Some(cells) || is[cells.len()..] != was[cells.len()..] {
            return Err(format!("mouldgrey_replay: cells of {slot:?}"));
        }
    }
    Ok(())
}

/// Words of the index store past those that a refresh may need are unchanged.
fn same_past(session: &Session, before: &Stores, capacity: u32) -> Result<(), String> {
    let is = session.left(Slot::Index).unwrap_or(&[]);
    let most = reference::index_words(capacity, 8).min(is.len());
    if is[most..] == before.index[most..] {
        return Ok(());
    }
    Err("mouldgrey_replay: words of the index store".to_string())
}

/// How many queries the words encode, by include/mouldgrey.h.
fn query_count(mut words: &[u32]) -> u32 {
    let mut queries = 0;
    while let [kind, count, rest @ ..] = words {
        let Some((cells, behind)) = rest.split_at_checked(*count as usize) else {
            break;
        };
        queries += match (kind, cells.len()) {
            (0 | 4, 3) | (2, _) | (3, 2) => 1,
            (1, length) if length % 3 == 0 && length <= 48 => 1,
            _ => 0,
        };
        words = behind;
    }
    queries
}

fn query(session: &mut Session, rng: &mut Rng, stores: &Stores) -> Result<(), String> {
    const NAME: &str = "mouldgrey_run_queries";
    let conditions = 3 * rng.pick(&[0, 1, 2, 3, 16, 17]);
    let list = words(rng, stores, 5, &[3, conditions, 4, 2, 3]);
    let subset = subset(rng, stores);
    watch::call(NAME);
    let header = session.given(rng, Slot::Header, &stores.header);
    let rows = session.read(rng, Slot::Rows, &stores.rows);
    let sorts = session.read(rng, Slot::Sorts, &stores.sorts);
    let dense = matches!(subset, Subset::Range(..));
    let (subset, ids) = session.pass(rng, (Slot::Subset, Slot::Ids), &subset);
    let queries = session.read(rng, Slot::Cells, &list);
    let lengths = [rng.place(300), rng.place(300)];
    let first = session.write(rng, Slot::Output, &vec![7; lengths[0]]);
    let second = session.write(rng, Slot::OtherIds, &vec![7; lengths[1]]);
    let answer = session.answer(rng, Slot::Words, &[7; 7]);
    // SAFETY: as above.
    let number = unsafe {
        raw::mouldgrey_run_queries(
            header, rows.0, rows.1, sorts.0, sorts.1, subset, ids.0, ids.1, queries.0, queries.1,
            first.0, first.1, second.0, second.1, answer,
        )
    };
    if number != 0 {
        return Err(format!("{NAME} gives {number}, not 0"));
    }
    if number == 0 {
        let left = session.left(Slot::Words).unwrap_or(&[]);
        let length = lengths[0].min(lengths[1]);
        let fits = match left {
            [1, _, _, 0, 0, 0 | 1, _] => true,
            [0, 0, 0, count, 1 | 2, 0 | 1, _] => *count as usize <= length,
            // Nothing was accepted: the starting list.
            [0, _, _, 0, 0, 0, _] => !dense,
            _ => false,
        };
        if !fits || left.last() != Some(&query_count(&list)) {
            return Err(format!("{NAME} leaves {left:?}"));
        }
        for (slot, lent) in [(Slot::Output, lengths[0]), (Slot::OtherIds, lengths[1])] {
            let is = session.left(slot).unwrap_or(&[]);
            if is.len() != lent || is[length..].iter().any(|&id| id != 7) {
                return Err(format!("{NAME} writes past {length} to {slot:?}"));
            }
        }
    }
    session.close(NAME, number)
}

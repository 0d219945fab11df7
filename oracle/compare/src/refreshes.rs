//! Random refreshes of the present table.

use crate::generate::{EDGES, Writer};
use crate::origins::Origin;
use calls::{Answer, Before, Call, DEAD, INDEX_STORES, Index, Lengths, Refresh};
use reference::index_words;

/// So many values the library takes at once where it looks for rows that the index has not seen.
const AT_ONCE: usize = 1_024;

/// Writes one refresh, wrong in some way now and then.
pub fn refresh(w: &mut Writer) {
    let store = w.rng.pick(&[0, 0, 0, 1, 1, 2, 3]);
    let columns = columns(w, store);
    let needed = index_words(w.opening.capacity, columns.len());
    let before = before(w, store, needed);
    let refresh = Refresh {
        index: Index { store, before },
        values: values(w, &columns),
        stamp: stamp(w),
        columns,
    };
    let lent = lent(w, &refresh, needed);
    w.origins.take(&refresh.index);
    let answer = w.call_with(lent, Call::Refresh(refresh.clone()));
    if matches!(answer, Answer::Refreshed(..)) {
        let version = (w.seen.generation, w.seen.rows);
        w.origins.written(&refresh.index, &refresh.columns, version);
    }
}

/// Mostly the columns that the store was last lent for, else others: some, none, all there can be and one too many, with repeats;
/// now and then one that is not there.
fn columns(w: &mut Writer, store: usize) -> Vec<u32> {
    if let Origin::Own { columns, .. } = w.origins.of(store)
        && w.rng.percent(75)
    {
        return columns.clone();
    }
    let count = match w.rng.below(4) {
        0 => w.rng.place(10),
        _ => w.rng.pick(&[1, 1, 1, 2, 2, 3]),
    };
    let mut columns: Vec<u32> = (0..count).map(|_| w.rng.below(w.opening.columns)).collect();
    if count > 0 && w.rng.percent(10) {
        let place = w.rng.place(count);
        columns[place] = w.rng.pick(&[w.opening.columns, u32::MAX]);
    }
    columns
}

/// Some values, or none; now and then about as many as are taken at once, those that a row may have at the ends.
fn values(w: &mut Writer, columns: &[u32]) -> Vec<u32> {
    let count = w.rng.pick(&[0, 1, 1, 1, 2, 2, 3, 10]);
    let mut values: Vec<u32> = (0..count).map(|_| value(w, columns)).collect();
    if w.manner.loose && w.rng.below(40) == 0 {
        let many = w.rng.pick(&[1, 2]) * AT_ONCE + w.rng.place(3) - count.min(2);
        let others: Vec<u32> = (0..many).map(|_| w.rng.next_u64() as u32).collect();
        let place = w.rng.place(count + 1);
        values.splice(place..place, others);
    }
    values
}

/// What a live row has in such a column, or had when it was seen, or any row; an edge; a small number.
fn value(w: &mut Writer, columns: &[u32]) -> u32 {
    let place = w.rng.place(columns.len());
    let column = columns.get(place).copied().unwrap_or(0) as usize;
    let earlier = w.a_remembered_row();
    match (w.rng.below(12), w.a_live_row()) {
        (0..=5, Some((_, cells))) => cells.get(column).copied().unwrap_or(1),
        (6 | 7, _) => earlier
            .and_then(|cells| cells.get(column).copied())
            .unwrap_or(2),
        (8, _) => w.rng.pick(&EDGES),
        (9, _) => DEAD,
        _ => w.rng.below(12),
    }
}

/// At the kept value, above it, or below.
fn stamp(w: &mut Writer) -> u32 {
    let kept = w.scout.header().largest.unwrap_or(0);
    match w.rng.below(40) {
        0 | 1 => kept.saturating_sub(1),
        2 => w.rng.below(kept),
        3 => u32::MAX,
        4..=8 => kept,
        9..=11 => kept.saturating_add(w.rng.within(1, 9)),
        _ => w.next_stamp(),
    }
}

/// Mostly nothing is done to the index store before; an unsound one is often made new.
fn before(w: &mut Writer, store: usize, needed: usize) -> Before {
    match w.rng.below(40) {
        0 | 1 => Before::Renew,
        2..=5 => Before::Copy(w.rng.place(INDEX_STORES)),
        6 | 7 => Before::Fill(w.rng.next_u64() as u32),
        8..=10 => change(w, needed),
        11..=25 if matches!(w.origins.of(store), Origin::Foreign(_)) => Before::Renew,
        _ => Before::Nothing,
    }
}

/// One word of the index store becomes another: of its first words, of its links, of any.
fn change(w: &mut Writer, needed: usize) -> Before {
    let place = match w.rng.below(4) {
        0 => w.rng.below(13),
        1 => 16 + w.rng.below(w.seen.rows),
        _ => w.rng.below(needed as u32),
    };
    let word = match w.rng.below(3) {
        0 => w.rng.number(),
        _ => w.rng.below(w.seen.rows + 3),
    };
    Before::Change(place, word)
}

/// The stores for a refresh: of its index store mostly what it needs, of the pending store at times exactly that; now and then a
/// word less.
fn lent(w: &mut Writer, refresh: &Refresh, needed: usize) -> Lengths {
    let mut lent = w.lent();
    lent.rows -= usize::from(w.rng.below(40) == 0);
    lent.index = match w.rng.below(20) {
        0 => needed - 1,
        1 => w.rng.place(needed),
        2..=4 => needed + w.rng.within(1, 9) as usize,
        5 => index_words(w.opening.capacity, 9),
        _ => needed,
    };
    let h = w.scout.header();
    let pair = (h.keys + h.columns + 5) as usize;
    let full = h.pending as usize + w.scout.mentioning(refresh).len() * pair;
    let exact = match w.rng.below(10) {
        0 | 1 => full,
        2 => full.saturating_sub(1),
        _ => lent.pending,
    };
    // Never longer than usual: what is staged there would not fit the next time.
    lent.pending = lent.pending.min(exact);
    lent
}

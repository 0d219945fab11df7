//! Words that are an image, nearly one, or none.

use crate::acts::good_opening;
use crate::stores::{Stores, fuzz_number};
use calls::{Call, DEAD, Implementation, Lengths, Opening};
use random::Rng;
use reference::Reference;
use reference::images::{Image, crc32};

/// How words were made.
#[derive(Clone, Copy, Debug, PartialEq, Eq)]
pub enum Manner {
    /// The image of a sound table.
    Whole,
    /// An image with a number or a cell changed, written anew.
    Contents,
    /// Words changed, and the checksum made right again.
    Words,
    /// One bit changed, or some bits of four neighbouring bytes.
    Bytes,
    Truncated,
    Extended,
    /// Another length of the text, or bytes behind it that are not zero; the checksum is right.
    Text,
    /// A header and as many arbitrary words as it has in use; the checksum is right.
    Plausible,
    Arbitrary,
}

impl Manner {
    pub const ALL: [Manner; 9] = [
        Manner::Whole,
        Manner::Contents,
        Manner::Words,
        Manner::Bytes,
        Manner::Truncated,
        Manner::Extended,
        Manner::Text,
        Manner::Plausible,
        Manner::Arbitrary,
    ];

    pub fn name(self) -> &'static str {
        match self {
            Manner::Whole => "of sound tables",
            Manner::Contents => "a number or a cell changed, written anew",
            Manner::Words => "words changed, the checksum right",
            Manner::Bytes => "bits of four neighbouring bytes changed",
            Manner::Truncated => "truncated",
            Manner::Extended => "extended",
            Manner::Text => "the text's length or padding changed, the checksum right",
            Manner::Plausible => "arbitrary words behind a header, the checksum right",
            Manner::Arbitrary => "arbitrary words",
        }
    }

    fn pick(rng: &mut Rng) -> Manner {
        match rng.below(20) {
            0..=3 => Manner::Whole,
            4..=7 => Manner::Contents,
            8..=11 => Manner::Words,
            place => Manner::ALL[3 + place as usize % 6],
        }
    }
}

/// The words of pending that the tables here may use.
const PENDING: usize = 400;

fn lengths(o: &Opening, pending: usize) -> Lengths {
    let capacity = o.capacity as usize;
    Lengths {
        rows: capacity * o.columns as usize,
        keys: 2 * capacity,
        sort_entries: 2 * capacity,
        pending,
        live_words: capacity.div_ceil(64),
        base_words: capacity.div_ceil(64),
        index: 0,
    }
}

/// A row with few different keys and a stamp that mostly rises.
fn row(rng: &mut Rng, o: &Opening, stamp: &mut u32) -> Vec<u32> {
    let edge = rng.percent(3);
    let cell = |rng: &mut Rng| match edge {
        true => rng.number(),
        false => rng.below(6),
    };
    let mut cells: Vec<u32> = (0..o.columns).map(|_| cell(rng)).collect();
    *stamp = stamp.saturating_add(rng.below(2));
    cells[o.sort as usize] = *stamp;
    cells
}

/// A sound table of the reference model, with staged records or without.
pub fn sound(rng: &mut Rng) -> Reference {
    let mut o = good_opening(rng);
    if rng.below(40) == 0 {
        o.capacity = rng.within(130, 160);
    }
    let lent = lengths(&o, PENDING);
    let mut table = Reference::new();
    table.call(&lent, &Call::Open(o));
    let mut stamp = rng.pick(&[0, 7, u32::MAX - 2]);
    for round in 0..=rng.below(5) {
        if round > 0 {
            table.call(&lent, &Call::Merge);
        }
        for _ in 0..rng.pick(&[0, 1, 3, 8, 20, 40]) {
            let mut cells = row(rng, &o, &mut stamp);
            let keys = o.keys as usize;
            let call = match rng.below(6) {
                0 => Call::RemoveKey(cells[..keys].to_vec()),
                1 => {
                    cells.truncate(keys);
                    Call::RemoveRow(rng.below(table.header().rows), cells)
                }
                _ => Call::Insert(cells),
            };
            table.call(&lent, &call);
        }
    }
    table
}

/// A full table of the largest capacity, as an image.
pub fn largest(rng: &mut Rng) -> Image {
    let columns = rng.pick(&[1, 2, 8]);
    let o = Opening {
        columns,
        keys: 1,
        sort: columns - 1,
        rule: 1,
        capacity: 65_536,
        generation: 0,
    };
    let pending = 65_536 * (columns as usize + 2);
    let lent = lengths(&o, pending);
    let mut table = Reference::new();
    table.call(&lent, &Call::Open(o));
    for number in 0..65_536 {
        let mut cells = vec![number; columns as usize];
        cells[o.sort as usize] = number;
        table.call(&lent, &Call::Insert(cells));
    }
    table.call(&lent, &Call::Merge);
    image(&table, b"full")
}

pub fn text(rng: &mut Rng) -> Vec<u8> {
    let length = match rng.below(60) {
        0 => rng.within(4_090, 4_096),
        1 => rng.below(400),
        _ => rng.below(14),
    };
    (0..length).map(|_| rng.next_u64() as u8).collect()
}

/// The image of a table of the reference model.
pub fn image(table: &Reference, text: &[u8]) -> Image {
    let expected = table.expected();
    let held = calls::Held {
        header: expected.header,
        rows: expected.rows,
        keys: &[],
        sorts: expected.sorts,
        pending: expected.pending,
    };
    Image::of(&held, text)
}

/// The stores of a table of the reference model, each a few words longer now and then.
pub fn stores(rng: &mut Rng, table: &Reference) -> Stores {
    let expected = table.expected();
    let pending = expected.pending.len() + rng.place(3);
    let filler = rng.number();
    let mut stores = Stores::sized(rng, &expected.header, pending, filler);
    for (store, cells) in [
        (&mut stores.rows, expected.rows),
        (&mut stores.sorts, expected.sorts),
        (&mut stores.pending, expected.pending),
    ] {
        store[..cells.len()].copy_from_slice(cells);
    }
    stores
}

/// Words made from an image.
pub fn words(rng: &mut Rng, image: &Image) -> (Manner, Vec<u32>) {
    let manner = Manner::pick(rng);
    let mut words = image.words();
    match manner {
        Manner::Whole => {}
        Manner::Contents => {
            let mut image = image.clone();
            change_contents(rng, &mut image);
            words = image.words();
        }
        Manner::Words => {
            for _ in 0..rng.pick(&[1, 1, 1, 2, 4]) {
                change_word(rng, &mut words);
            }
            seal(&mut words);
        }
        Manner::Bytes => change_bytes(rng, &mut words),
        Manner::Truncated => {
            let kept = match rng.percent(50) {
                true => words.len() - rng.within(1, 4) as usize,
                false => rng.place(words.len()),
            };
            words.truncate(kept);
            seal_perhaps(rng, &mut words);
        }
        Manner::Extended => {
            for _ in 0..rng.within(1, 4) {
                words.push(rng.number());
            }
            seal_perhaps(rng, &mut words);
        }
        Manner::Text => change_text(rng, &mut words, image.text.len()),
        Manner::Plausible => words = plausible(rng, image),
        Manner::Arbitrary => {
            let length = rng.place(80);
            let kept = rng.place(16).min(length);
            words.resize_with(length, || rng.number());
            words[kept..].fill_with(|| rng.number());
        }
    }
    (manner, words)
}

/// Makes the last word the checksum of those before it.
fn seal(words: &mut [u32]) {
    if let Some((last, body)) = words.split_last_mut() {
        *last = crc32(body);
    }
}

fn seal_perhaps(rng: &mut Rng, words: &mut [u32]) {
    if rng.percent(70) {
        seal(words);
    }
}

fn change_word(rng: &mut Rng, words: &mut [u32]) {
    let count = words.len() - 1;
    // Often in the header or in the last words.
    let place = match rng.below(4) {
        0 => rng.place(count.min(16)),
        1 => count - 1 - rng.place(count.min(12)),
        _ => rng.place(count),
    };
    let other = words[rng.place(count)];
    let word = &mut words[place];
    *word = match rng.below(6) {
        0 => *word ^ (1 << rng.below(32)),
        1 => word.wrapping_add(1),
        2 => word.wrapping_sub(1),
        3 => other,
        4 => DEAD,
        _ => fuzz_number(rng, &[]),
    };
}

/// Changes one bit, or any bits of four neighbouring bytes.
fn change_bytes(rng: &mut Rng, words: &mut [u32]) {
    let change = match rng.percent(50) {
        true => 1 << rng.below(32),
        false => (rng.next_u64() as u32).max(1),
    };
    let mut bytes: Vec<u8> = words.iter().flat_map(|word| word.to_le_bytes()).collect();
    let from = rng.place(bytes.len() - 3);
    for (byte, change) in bytes[from..].iter_mut().zip(change.to_le_bytes()) {
        *byte ^= change;
    }
    for (word, four) in words.iter_mut().zip(bytes.chunks(4)) {
        *word = u32::from_le_bytes(four.try_into().expect("four"));
    }
}

/// The word with the text's length.
const TEXT_LENGTH: usize = 14;

fn change_text(rng: &mut Rng, words: &mut [u32], length: usize) {
    let last = TEXT_LENGTH + length.div_ceil(4);
    if length.is_multiple_of(4) || rng.percent(50) {
        words[TEXT_LENGTH] = match rng.below(4) {
            0 => rng.within(4_090, 4_100),
            1 => fuzz_number(rng, &[]),
            _ => words[TEXT_LENGTH]
                .wrapping_add(rng.below(9))
                .wrapping_sub(4),
        };
    } else {
        words[last] |= 1 << rng.within(8 * (length as u32 % 4), 31);
    }
    seal(words);
}

/// The image's header, some of its numbers changed within their bounds, and arbitrary words.
fn plausible(rng: &mut Rng, image: &Image) -> Vec<u32> {
    let mut image = image.clone();
    let h = &mut image.header;
    h.rows = rng.below(h.capacity.min(60) + 1);
    h.dead = rng.below(h.rows + 1).min(rng.below(3));
    h.entries = rng.below(h.rows.min(4) + 1);
    let words = rng.below(30);
    h.pending = rng.pick(&[0, 0, 0, h.columns + 2, h.keys + 2, words]);
    h.largest = rng.percent(70).then(|| rng.number());
    let columns = h.columns as usize;
    let mut any = |count: usize| -> Vec<u32> { (0..count).map(|_| rng.below(9)).collect() };
    image.rows = any(h.rows as usize * columns);
    image.sorts = any(2 * h.entries as usize);
    image.pending = any(h.pending as usize);
    image.words()
}

/// Changes a number or a cell, so that the words are an image of another table or of none that is sound.
fn change_contents(rng: &mut Rng, image: &mut Image) {
    let h = &mut image.header;
    let columns = h.columns as usize;
    let word = |rng: &mut Rng, store: &mut [u32]| {
        let place = rng.place(store.len());
        let other = store.get(rng.place(store.len())).copied().unwrap_or(0);
        if let Some(word) = store.get_mut(place) {
            *word = match rng.below(5) {
                0 => DEAD,
                1 => word.wrapping_add(1),
                2 => word.wrapping_sub(1),
                3 => other,
                _ => rng.number(),
            };
        }
    };
    match rng.below(11) {
        0 => h.dead = rng.below(h.rows + 1),
        1 => h.generation = rng.number(),
        2 => h.capacity = rng.within(h.rows.max(1), 65_536),
        3 => h.rule = rng.below(4),
        4 => h.sort = rng.below(h.columns),
        5 => h.keys = rng.within(1, h.columns),
        6 => h.largest = rng.percent(70).then(|| rng.below(20)),
        7 => word(rng, &mut image.sorts),
        8 => word(rng, &mut image.pending),
        9 if h.rows > 1 => {
            let (from, to) = (rng.below(h.rows) as usize, rng.below(h.rows) as usize);
            let row = image.rows[from * columns..(from + 1) * columns].to_vec();
            image.rows[to * columns..(to + 1) * columns].copy_from_slice(&row);
        }
        _ => word(rng, &mut image.rows),
    }
}

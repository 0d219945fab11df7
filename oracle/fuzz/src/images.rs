//! Images on any words, headers and stores. The number, the header, every cell and every byte must be the reference model's, and a
//! refusal changes nothing.

use crate::image_words::{self, Manner};
use crate::listings::halves;
use crate::parts;
use crate::session::{Session, Slot};
use crate::stores::{Stores, fuzz_number};
use crate::watch;
use calls::Held;
use mouldgrey::raw;
use random::Rng;
use reference::images::{
    self, Image, LONGEST_TEXT, check_image, image_length, read_image, read_image_text,
};

pub fn calls(session: &mut Session, rng: &mut Rng) -> Result<(), String> {
    let located = |why: String| format!("{why}\n  at {}", watch::place());
    if rng.below(6_000) == 0 {
        return largest(session, rng).map_err(located);
    }
    let table = image_words::sound(rng);
    let stores = image_words::stores(rng, &table);
    let text = image_words::text(rng);
    let image = image_words::image(&table, &text);
    for _ in 0..rng.within(6, 20) {
        match rng.below(8) {
            0 => size(session, rng, &stores).map_err(located)?,
            1 => write(session, rng, &stores).map_err(located)?,
            _ => {
                let (manner, words) = image_words::words(rng, &image);
                let read = read(session, rng, manner, &words);
                read.map_err(|why| format!("{}: {words:?}", located(why)))?;
            }
        }
    }
    Ok(())
}

/// A full table of the largest capacity, with a word changed now and then.
fn largest(session: &mut Session, rng: &mut Rng) -> Result<(), String> {
    let image = image_words::largest(rng);
    for _ in 0..4 {
        let (manner, words) = image_words::words(rng, &image);
        check(session, rng, manner, &words)?;
        load(session, rng, &words)?;
    }
    Ok(())
}

/// One of the functions that read words.
fn read(session: &mut Session, rng: &mut Rng, manner: Manner, words: &[u32]) -> Result<(), String> {
    match rng.below(5) {
        0 => text(session, rng, words),
        1 | 2 => check(session, rng, manner, words),
        _ => load(session, rng, words),
    }
}

/// A number that is a refusal's, or 0.
fn number<T>(result: &Result<T, u32>) -> u32 {
    result.as_ref().err().copied().unwrap_or(0)
}

/// About so many: exactly, one less, fewer, more.
fn length(rng: &mut Rng, needed: usize) -> usize {
    match rng.below(10) {
        0 | 1 => needed.saturating_sub(1),
        2 => rng.place(needed + 1),
        3 | 4 => needed + rng.within(1, 9) as usize,
        _ => needed,
    }
}

/// A header's words, mostly one of them changed.
fn header(rng: &mut Rng, stores: &Stores) -> Stores {
    let mut changed = stores.clone();
    if rng.percent(40) {
        let place = rng.place(changed.header.len());
        changed.header[place] = fuzz_number(rng, &stores.header);
    }
    changed
}

fn size(session: &mut Session, rng: &mut Rng, stores: &Stores) -> Result<(), String> {
    const NAME: &str = "mouldgrey_image_size";
    let stores = header(rng, stores);
    let h = stores.numbers();
    let text = match rng.below(5) {
        0 => LONGEST_TEXT + rng.place(3),
        1 => rng.next_u64() as usize,
        _ => rng.place(40),
    };
    let must = images::test_image_size(&h, text);
    let before = [rng.number(), rng.number()];
    let lent = session.given(rng, Slot::Header, &stores.header);
    let (words, _) = session.write(rng, Slot::Words, &before);
    watch::call(NAME);
    // SAFETY: each pointer goes with the length of what was lent, in an area of its own; an area begins and ends where a word of 64
    // bits may.
    let given = unsafe { raw::mouldgrey_image_size(lent, text, words.cast()) };
    let left = match must {
        Ok(()) => halves(&[image_length(&h, text) as u64]),
        Err(_) => before.to_vec(),
    };
    if given != number(&must) || session.left(Slot::Words) != Some(&left) {
        let must = number(&must);
        return Err(format!("{NAME}: {given}, not {must}, or other words"));
    }
    session.close(NAME, given)
}

/// Stores of a sound table, or any; too short, or with any numbers, now and then.
fn any_stores(rng: &mut Rng, stores: &Stores) -> Stores {
    let mut any = match rng.percent(80) {
        true => header(rng, stores),
        false => parts::stores(rng),
    };
    if rng.percent(20) {
        any.resize(rng);
    }
    any
}

fn write(session: &mut Session, rng: &mut Rng, stores: &Stores) -> Result<(), String> {
    const NAME: &str = "mouldgrey_write_image";
    let stores = any_stores(rng, stores);
    let h = stores.numbers();
    let mut text = image_words::text(rng);
    if rng.percent(10) {
        text.resize(LONGEST_TEXT + rng.within(0, 9) as usize, 7);
    }
    let needed = match images::test_image_size(&h, text.len()) {
        Ok(()) if h.pending < 4_096 => image_length(&h, text.len()),
        _ => 40,
    };
    let output = vec![rng.number(); length(rng, needed)];
    let before = [rng.number(), rng.number()];
    let must = images::test_write_image(&h, &stores.lengths(), text.len(), output.len());
    let lent = session.given(rng, Slot::Header, &stores.header);
    let (r, r_len) = session.read(rng, Slot::Rows, &stores.rows);
    let (s, s_len) = session.read(rng, Slot::Sorts, &stores.sorts);
    let (p, p_len) = session.read(rng, Slot::Pending, &stores.pending);
    let (t, t_len) = session.read_bytes(rng, Slot::Cells, &text);
    let (o, o_len) = session.write(rng, Slot::Image, &output);
    let (words, _) = session.write(rng, Slot::Words, &before);
    watch::call(NAME);
    // SAFETY: as in `size`.
    let given = unsafe {
        raw::mouldgrey_write_image(
            lent,
            r,
            r_len,
            s,
            s_len,
            p,
            p_len,
            t,
            t_len,
            o,
            o_len,
            words.cast(),
        )
    };
    let (mut left, mut count) = (output, before.to_vec());
    if must.is_ok() {
        let image = Image::of(&stores.held(), &text).words();
        left[..image.len()].copy_from_slice(&image);
        count = halves(&[image.len() as u64]);
    }
    let is_counted = session.left(Slot::Words) == Some(&count);
    if given != number(&must) || !is_counted || session.left(Slot::Image) != Some(&left) {
        let must = number(&must);
        return Err(format!("{NAME}: {given}, not {must}, or other words"));
    }
    session.close(NAME, given)
}

fn check(
    session: &mut Session,
    rng: &mut Rng,
    manner: Manner,
    words: &[u32],
) -> Result<(), String> {
    const NAME: &str = "mouldgrey_check_image";
    let must = check_image(words);
    let before: Vec<u32> = (0..calls::HEADER_WORDS).map(|_| rng.number()).collect();
    let (i, i_len) = session.read(rng, Slot::Image, words);
    let header = session.answer(rng, Slot::Header, &before);
    watch::call(NAME);
    // SAFETY: as in `size`.
    let given = unsafe { raw::mouldgrey_check_image(i, i_len, header) };
    let left = match &must {
        Ok(image) => image.header.words().to_vec(),
        Err(_) => before,
    };
    if given != number(&must) || session.left(Slot::Header) != Some(&left) {
        let must = number(&must);
        return Err(format!("{NAME}: {given}, not {must}, or other words"));
    }
    session.report.image(manner, given);
    session.close(NAME, given)
}

/// A capacity for an image that has these numbers: its own, near its row count or its own, at a limit, any.
fn capacity(rng: &mut Rng, image: Option<&Image>) -> u32 {
    let (rows, own) = image.map_or((3, 9), |image| (image.header.rows, image.header.capacity));
    match rng.below(16) {
        0..=5 => 0,
        6 => own,
        7 => rows.max(1),
        8 => rows.saturating_sub(1),
        9 => rows + 1,
        10 => own + rng.within(1, 40),
        11 => own - 1,
        12 => rng.pick(&[65_535, 65_536, 65_537]),
        13 => 65_536 + rng.below(9),
        14 => rng.number(),
        _ => rng.within(rows.max(1), own.max(rows + 1)),
    }
}

/// Tables of a larger capacity get stores that are long enough only now and then.
const MANY_ROWS: u32 = 1_024;

/// Stores for a table of these numbers, all of them full of one word: mostly as long as needed, else longer or one of them too short.
fn stores_for(rng: &mut Rng, image: Option<&Image>, capacity: u32) -> Stores {
    let Some(image) = image else {
        return parts::stores(rng);
    };
    let mut h = image.header;
    if capacity != 0 && (capacity <= MANY_ROWS || rng.below(40) == 0) {
        h.capacity = capacity.min(65_536);
    }
    let pending = h.pending as usize + rng.place(3);
    let filler = rng.number();
    let mut stores = Stores::sized(rng, &h, pending, filler);
    stores.header.fill_with(|| rng.number());
    if rng.percent(25) {
        let (store, words) = match rng.below(4) {
            0 => (&mut stores.rows, h.capacity * h.columns),
            1 => (&mut stores.keys, 2 * h.capacity),
            2 => (&mut stores.sorts, 2 * h.capacity),
            _ => (&mut stores.pending, h.pending),
        };
        store.truncate((words as usize).saturating_sub(rng.within(1, 2) as usize));
    }
    stores
}

fn load(session: &mut Session, rng: &mut Rng, words: &[u32]) -> Result<(), String> {
    const NAME: &str = "mouldgrey_read_image";
    let image = Image::read(words);
    let capacity = capacity(rng, image.as_ref());
    let before = stores_for(rng, image.as_ref(), capacity);
    let lengths = before.lengths();
    let must = read_image(words, capacity, &lengths);
    let (i, i_len) = session.read(rng, Slot::Image, words);
    let header = session.answer(rng, Slot::Header, &before.header);
    let (r, r_len) = session.write(rng, Slot::Rows, &before.rows);
    let (k, k_len) = session.write(rng, Slot::Keys, &before.keys);
    let (s, s_len) = session.write(rng, Slot::Sorts, &before.sorts);
    let (p, p_len) = session.write(rng, Slot::Pending, &before.pending);
    watch::call(NAME);
    // SAFETY: as in `size`.
    let given = unsafe {
        raw::mouldgrey_read_image(
            i, i_len, capacity, header, r, r_len, k, k_len, s, s_len, p, p_len,
        )
    };
    if given != number(&must) {
        let must = number(&must);
        return Err(format!(
            "{NAME} ({capacity}, {lengths:?}): {given}, not {must}"
        ));
    }
    if let Ok(image) = must {
        loaded(session, &before, &image).map_err(|why| format!("{NAME} ({capacity}): {why}"))?;
        session.report.compared += 1;
    }
    session.close(NAME, given)
}

/// The stores hold the image from their start on, what is behind it is as it was, and the table is sound.
fn loaded(session: &Session, before: &Stores, image: &Image) -> Result<(), String> {
    let left = |slot: Slot| session.left(slot).unwrap_or(&[]);
    if left(Slot::Header) != image.header.words() {
        let (is, must) = (left(Slot::Header), image.header);
        return Err(format!("header {is:?}, not {must:?}"));
    }
    for (slot, was, cells) in [
        (Slot::Rows, &before.rows, &image.rows),
        (Slot::Sorts, &before.sorts, &image.sorts),
        (Slot::Pending, &before.pending, &image.pending),
    ] {
        let is = left(slot);
        if is.get(..cells.len()) != Some(cells) || is[cells.len()..] != was[cells.len()..] {
            return Err(format!("cells of {slot:?}"));
        }
    }
    let slots = 2 * image.header.capacity as usize;
    if left(Slot::Keys)[slots..] != before.keys[slots..] {
        return Err("slots past those needed are written".to_string());
    }
    let held = Held {
        header: image.header,
        rows: left(Slot::Rows),
        keys: left(Slot::Keys),
        sorts: left(Slot::Sorts),
        pending: left(Slot::Pending),
    };
    match reference::is_sound(&held) {
        Ok(true) => Ok(()),
        sound => Err(format!("the stores are left unsound: {sound:?}")),
    }
}

fn text(session: &mut Session, rng: &mut Rng, words: &[u32]) -> Result<(), String> {
    const NAME: &str = "mouldgrey_read_image_text";
    let needed = Image::read(words).map_or(9, |image| image.text.len());
    let output = vec![rng.next_u64() as u8; length(rng, needed)];
    let before = [rng.number(), rng.number()];
    let must = read_image_text(words, output.len());
    let (i, i_len) = session.read(rng, Slot::Image, words);
    let (o, o_len) = session.write_bytes(rng, Slot::Output, &output);
    let (count, _) = session.write(rng, Slot::Words, &before);
    watch::call(NAME);
    // SAFETY: as in `size`.
    let given = unsafe { raw::mouldgrey_read_image_text(i, i_len, o, o_len, count.cast()) };
    let (mut left, mut bytes) = (output, before.to_vec());
    if let Ok(text) = &must {
        left[..text.len()].copy_from_slice(text);
        bytes = halves(&[text.len() as u64]);
    }
    let is_counted = session.left(Slot::Words) == Some(&bytes);
    if given != number(&must) || !is_counted || session.left_bytes(Slot::Output) != Some(left) {
        let must = number(&must);
        return Err(format!("{NAME}: {given}, not {must}, or other bytes"));
    }
    session.close(NAME, given)
}

//! Listings as text: any bytes, and listings some of whose bytes were changed, into any output; and listings of any tables.

use crate::parts;
use crate::session::{Session, Slot};
use crate::stores::fuzz_number;
use crate::watch;
use mouldgrey::raw;
use random::Rng;
use reference::listings::{self, Form, Listing};

/// A listing of a few rows, with gaps in its numbers now and then.
fn listing(rng: &mut Rng, form: Form) -> Listing {
    let columns = rng.within(1, 8);
    let keys = rng.within(1, columns);
    let mut head = vec![
        columns,
        keys,
        rng.below(columns),
        rng.below(4),
        rng.number(),
    ];
    let count = rng.below(12);
    let gap = match rng.percent(50) {
        true => rng.below(count + 1),
        false => count,
    };
    let mut rows = Vec::new();
    for number in 0..count {
        let mut row: Vec<u32> = (0..columns).map(|_| rng.number()).collect();
        row[0] /= 2;
        if form == Form::New {
            row.insert(0, number + u32::from(number > gap));
        }
        rows.push(row);
    }
    if form == Form::New {
        head.push(count + u32::from(gap + 1 < count) + rng.pick(&[0, 0, 1]));
    }
    Listing { head, rows }
}

/// A listing's text, mostly, some bytes of it changed in half of the cases; or any bytes.
pub fn text(rng: &mut Rng, form: Form) -> Vec<u8> {
    let bytes = b"0123456789,,,\n\nDTU\r ";
    if rng.below(12) == 0 {
        let length = rng.below(300);
        return (0..length).map(|_| rng.pick(bytes)).collect();
    }
    let mut text = listings::text(form, &listing(rng, form));
    if rng.percent(50) {
        for _ in 0..rng.within(1, 3) {
            let at = rng.place(text.len());
            match rng.below(4) {
                0 => text[at] = rng.pick(bytes),
                1 => text[at] = rng.next_u64() as u8,
                2 => text.insert(at, rng.pick(bytes)),
                _ => text.truncate(at + 1),
            }
        }
    }
    text
}

/// A length: mostly enough.
fn length(rng: &mut Rng, written: usize) -> usize {
    match rng.below(6) {
        0 => rng.place(written + 1),
        1 => written + rng.place(9),
        _ => written,
    }
}

/// Words of 64 bits, each as two.
pub fn halves(words: &[u64]) -> Vec<u32> {
    let bytes: Vec<u8> = words.iter().flat_map(|word| word.to_ne_bytes()).collect();
    let halves = bytes.chunks(4).map(|four| four.try_into().expect("four"));
    halves.map(u32::from_ne_bytes).collect()
}

pub fn calls(session: &mut Session, rng: &mut Rng) -> Result<(), String> {
    for _ in 0..rng.within(8, 40) {
        let form = rng.pick(&[Form::Old, Form::New]);
        let named = match rng.below(12) {
            0 => rng.pick(&[Form::Old, Form::New]),
            _ => form,
        };
        let text = text(rng, form);
        let located = |why: String| {
            let shown = String::from_utf8_lossy(&text);
            format!("{why}\n  at {}\n  {shown:?}", watch::place())
        };
        match rng.below(3) {
            0 => read(session, rng, named, &text).map_err(located)?,
            1 => moved(session, rng, named, &text).map_err(located)?,
            _ => written(session, rng, form).map_err(located)?,
        }
    }
    Ok(())
}

/// A listing of a table of any numbers and rows.
fn written(session: &mut Session, rng: &mut Rng, form: Form) -> Result<(), String> {
    let name = "mouldgrey_write_listing";
    let mut stores = parts::stores(rng);
    match rng.below(8) {
        0 => stores.resize(rng),
        1 => {
            let place = rng.place(stores.header.len());
            stores.header[place] = fuzz_number(rng, &[]);
        }
        _ => {}
    }
    let h = stores.numbers();
    let tested = reference::test_listing(&h, &stores.lengths());
    let listed = tested.map(|()| listings::text(form, &listings::of_table(form, &h, &stores.rows)));
    let bytes = listed.as_ref().map_or(20, Vec::len);
    let output = vec![rng.next_u64() as u8; length(rng, bytes)];
    let words = vec![rng.number(); 2];
    let must = listed.and_then(|it| listings::fits(it, output.len()));
    let numbered = match form {
        Form::Old => 0,
        Form::New => rng.number().max(1),
    };
    let header = session.given(rng, Slot::Header, &stores.header);
    let (r, r_len) = session.read(rng, Slot::Rows, &stores.rows);
    let (o, o_len) = session.write_bytes(rng, Slot::Output, &output);
    let (w, _) = session.write(rng, Slot::Words, &words);
    watch::call(name);
    // SAFETY: as in `read`; an area begins and ends where a word of 64 bits may.
    let given =
        unsafe { raw::mouldgrey_write_listing(header, r, r_len, numbered, o, o_len, w.cast()) };
    let expected = must.clone().err().unwrap_or(0);
    let mut left = output;
    let mut length = words;
    if let Ok(text) = must {
        left[..text.len()].copy_from_slice(&text);
        length = halves(&[text.len() as u64]);
    }
    let is_so = session.left(Slot::Words) == Some(&length);
    if given != expected || !is_so || session.left_bytes(Slot::Output) != Some(left) {
        return Err(format!("{name}: {given}, not {expected}, or other bytes"));
    }
    session.close(name, given)
}

fn read(session: &mut Session, rng: &mut Rng, form: Form, text: &[u8]) -> Result<(), String> {
    let (name, count) = match form {
        Form::Old => ("mouldgrey_read_listing", 6),
        Form::New => ("mouldgrey_read_numbered", 7),
    };
    let listing = listings::read(form, text);
    let cells = listing.as_ref().map_or(20, |it| it.rows.concat().len());
    let output = vec![rng.number(); length(rng, cells)];
    let words = vec![rng.number(); count];
    let must = listing.and_then(|it| {
        let cells = listings::fits(it.rows.concat(), output.len())?;
        Ok(([it.head, vec![it.rows.len() as u32]].concat(), cells))
    });
    let (t, t_len) = session.read_bytes(rng, Slot::Cells, text);
    let (o, o_len) = session.write(rng, Slot::Output, &output);
    let (w, _) = session.write(rng, Slot::Words, &words);
    watch::call(name);
    // SAFETY: each pointer goes with the length of what was lent, in an area of its own.
    let given = unsafe {
        match form {
            Form::Old => raw::mouldgrey_read_listing(t, t_len, o, o_len, w.cast()),
            Form::New => raw::mouldgrey_read_numbered(t, t_len, o, o_len, w.cast()),
        }
    };
    let expected = must.clone().err().unwrap_or(0);
    let (encoded, written) = must.unwrap_or((words, Vec::new()));
    let mut left = output;
    left[..written.len()].copy_from_slice(&written);
    let is_encoded = session.left(Slot::Words) == Some(&encoded);
    if given != expected || !is_encoded || session.left(Slot::Output) != Some(&left) {
        return Err(format!("{name}: {given}, not {expected}, or other words"));
    }
    session.close(name, given)
}

fn moved(session: &mut Session, rng: &mut Rng, form: Form, text: &[u8]) -> Result<(), String> {
    let name = match form {
        Form::Old => "mouldgrey_to_numbered",
        Form::New => "mouldgrey_from_numbered",
    };
    let target = listings::read(form, text).and_then(|it| listings::moved(form, &it));
    let bytes = target.as_ref().map_or(text.len(), Vec::len);
    let output = vec![rng.next_u64() as u8; length(rng, bytes)];
    // Words of 64 bits, each as two.
    let words = vec![rng.number(); 2];
    let must = target.and_then(|it| listings::fits(it, output.len()));
    let (t, t_len) = session.read_bytes(rng, Slot::Cells, text);
    let (o, o_len) = session.write_bytes(rng, Slot::Output, &output);
    let (w, _) = session.write(rng, Slot::Words, &words);
    watch::call(name);
    // SAFETY: as in `read`; an area begins and ends where a word of 64 bits may.
    let given = unsafe {
        match form {
            Form::Old => raw::mouldgrey_to_numbered(t, t_len, o, o_len, w.cast()),
            Form::New => raw::mouldgrey_from_numbered(t, t_len, o, o_len, w.cast()),
        }
    };
    let expected = must.clone().err().unwrap_or(0);
    let mut left = output;
    let mut encoded = words;
    if let Ok(text) = must {
        left[..text.len()].copy_from_slice(&text);
        encoded = halves(&[text.len() as u64]);
    }
    let is_encoded = session.left(Slot::Words) == Some(&encoded);
    if given != expected || !is_encoded || session.left_bytes(Slot::Output) != Some(left) {
        return Err(format!("{name}: {given}, not {expected}, or other words"));
    }
    session.close(name, given)
}

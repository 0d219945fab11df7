//! Listings as text beside the reference model, written from document 02: listings of both forms, their numbers and their bytes changed, each
//! read and moved in both forms into outputs too short, long enough and longer, and there and back where a move was accepted.
//! Output past what is written must not change.

use mouldgrey::{ListingHead, Refusal, lent};
use random::Rng;
use reference::listings::{self, Form, Listing};
use std::fmt::Debug;

/// Each refusal comes at least so often.
const LEAST: u64 = 1_000;

/// Listings of few rows, for each form.
const LISTINGS: u64 = 6_000;

/// The most rows that a listing may have.
pub(crate) const MOST: usize = 65_536;

const FORMS: [Form; 2] = [Form::Old, Form::New];

fn other(form: Form) -> Form {
    match form {
        Form::Old => Form::New,
        Form::New => Form::Old,
    }
}

/// Numbers about the bounds.
const EDGES: [u32; 10] = [0, 1, 3, 4, 8, 9, 65_535, 65_536, 65_537, u32::MAX];

/// A listing of so many rows, its numbers with gaps or without.
pub(crate) fn listing(rng: &mut Rng, form: Form, count: usize) -> Listing {
    let columns = rng.within(1, 8);
    let keys = rng.within(1, columns);
    let mut head = vec![columns, keys, rng.below(columns), rng.below(4)];
    head.push(rng.number());
    let gaps = rng.pick(&[0, 0, 20]);
    let mut next = 0;
    let mut rows = Vec::new();
    for _ in 0..count {
        let mut row: Vec<u32> = (0..columns).map(|_| rng.number()).collect();
        row[0] = row[0].min(u32::MAX - 1);
        if form == Form::New {
            next += u32::from(rng.percent(gaps)) * rng.within(1, 3);
            row.insert(0, next);
            next += 1;
        }
        rows.push(row);
    }
    if form == Form::New {
        head.push(next + u32::from(rng.percent(gaps)) * rng.within(1, 3));
    }
    Listing { head, rows }
}

/// One number changed, left out or put in, or one row again.
pub(crate) fn disturb(rng: &mut Rng, listing: &mut Listing) {
    let place = rng.place(listing.rows.len());
    let again = listing.rows.get(place).cloned();
    let line = match rng.percent(50) {
        true => listing.rows.get_mut(place).unwrap_or(&mut listing.head),
        false => &mut listing.head,
    };
    let number = rng.pick(&EDGES);
    let at = rng.place(line.len());
    match rng.below(6) {
        0 => drop(line.remove(at)),
        1 => line.insert(at, number),
        2 => listing.rows.extend(again),
        _ => line[at] = number,
    }
}

/// A place behind a comma, or at the end of the text.
fn behind_comma(rng: &mut Rng, text: &[u8]) -> usize {
    let start = rng.place(text.len());
    let comma = text[start..].iter().position(|&byte| byte == b',');
    comma.map_or(text.len(), |comma| start + comma + 1)
}

/// Bytes changed.
pub(crate) fn spoil(rng: &mut Rng, text: &mut Vec<u8>) {
    let at = rng.place(text.len());
    let byte = rng.pick(b",,0019\n\r DTUdu+-\0\xff");
    match rng.below(8) {
        0 => drop(text.pop()),
        1 => text.push(b'\n'),
        2 => text.insert(text.len() - 1, b'\r'),
        3 => {
            let at = behind_comma(rng, text);
            text.insert(at, b'0');
        }
        4 => {
            let at = behind_comma(rng, text);
            text.splice(at..at, *b"4294967296,");
        }
        5 => text.insert(at, byte),
        6 => drop(text.remove(at)),
        _ => text[at] = byte,
    }
}

/// What the library reads: the head's numbers and how many rows there are.
fn read(form: Form, text: &[u8], output: &mut [u32]) -> Result<Vec<u32>, Refusal> {
    let numbers = |h: ListingHead| vec![h.columns, h.keys, h.sort, h.rule, h.generation];
    match form {
        Form::Old => lent::read_listing(text, output)
            .map(|(head, rows)| [numbers(head), vec![rows as u32]].concat()),
        Form::New => lent::read_numbered(text, output)
            .map(|(head, count, rows)| [numbers(head), vec![count, rows as u32]].concat()),
    }
}

fn moved(form: Form, text: &[u8], output: &mut [u8]) -> Result<usize, Refusal> {
    match form {
        Form::Old => lent::to_numbered(text, output),
        Form::New => lent::from_numbered(text, output),
    }
}

/// What a call must answer, and write to the output.
type Must<T, W> = Result<(T, Vec<W>), u32>;

#[derive(Default)]
struct Comparison {
    calls: u64,
    accepted: u64,
    restored: u64,
    /// With 11, 17 and 2.
    refused: [u64; 3],
}

impl Comparison {
    /// The library's answer is this one, and the output holds what it must.
    fn agree<T: PartialEq + Debug, W: Copy + PartialEq>(
        &mut self,
        name: impl Fn() -> String,
        ours: Result<T, Refusal>,
        must: Must<T, W>,
        mut before: Vec<W>,
        output: &[W],
    ) -> Result<(), String> {
        self.calls += 1;
        match &must {
            Ok((_, written)) => {
                self.accepted += 1;
                before[..written.len()].copy_from_slice(written);
            }
            Err(number) => {
                let place = [11, 17, 2].iter().position(|it| it == number);
                self.refused[place.expect("a number of the checks")] += 1;
            }
        }
        let ours = ours.map_err(Refusal::number);
        let must = must.map(|(head, _)| head);
        match ours == must && before == output {
            true => Ok(()),
            false => Err(format!(
                "{}: {ours:?}, not {must:?}, or other output",
                name()
            )),
        }
    }

    fn read(&mut self, form: Form, text: &[u8], length: usize, filler: u32) -> Result<(), String> {
        let must = listings::read(form, text).and_then(|listing| {
            let cells = listings::fits(listing.rows.concat(), length)?;
            let rows = listing.rows.len() as u32;
            Ok(([listing.head, vec![rows]].concat(), cells))
        });
        let before = vec![filler; length];
        let mut output = before.clone();
        let ours = read(form, text, &mut output);
        let name = || format!("read {form:?} into {length} words of {}", shown(text));
        self.agree(name, ours, must, before, &output)
    }

    /// What the move wrote, if it was accepted.
    fn moved(
        &mut self,
        form: Form,
        text: &[u8],
        length: usize,
        filler: u8,
    ) -> Result<Option<Vec<u8>>, String> {
        let must = listings::read(form, text).and_then(|listing| {
            let text = listings::fits(listings::moved(form, &listing)?, length)?;
            Ok((text.len(), text))
        });
        let before = vec![filler; length];
        let mut output = before.clone();
        let ours = moved(form, text, &mut output);
        let name = || format!("move from {form:?} into {length} bytes of {}", shown(text));
        self.agree(name, ours, must, before, &output)?;
        Ok(ours.ok().map(|bytes| output[..bytes].to_vec()))
    }

    /// A text of either form or of none: read and moved, with outputs of every kind, there and back.
    fn text(&mut self, form: Form, text: &[u8], rng: &mut Rng) -> Result<(), String> {
        let listing = listings::read(form, text);
        let cells = listing.as_ref().map_or(9, |it| it.rows.concat().len());
        for length in lengths(rng, cells) {
            self.read(form, text, length, rng.number())?;
        }
        let target = listing.and_then(|it| listings::moved(form, &it));
        let bytes = target.map_or(text.len(), |it| it.len());
        for length in lengths(rng, bytes) {
            let Some(there) = self.moved(form, text, length, rng.next_u64() as u8)? else {
                continue;
            };
            let back = self.moved(other(form), &there, text.len(), 0)?;
            if back.as_deref() != Some(text) {
                return Err(format!("there and back does not restore {}", shown(text)));
            }
            self.restored += 1;
        }
        Ok(())
    }
}

/// Lengths about what is to be written.
fn lengths(rng: &mut Rng, written: usize) -> [usize; 4] {
    let shorter = rng.place(written + 1);
    [written, written.saturating_sub(1), shorter, written + 5]
}

/// The first bytes of a text.
pub(crate) fn shown(text: &[u8]) -> String {
    let first = &text[..text.len().min(400)];
    format!("{:?}, {} bytes", String::from_utf8_lossy(first), text.len())
}

/// Texts of one listing: as it is, its numbers changed, its bytes changed; each in both forms.
fn texts(rng: &mut Rng, form: Form, comparison: &mut Comparison) -> Result<(), String> {
    let rows = rng.place(7);
    let listing = listing(rng, form, rows);
    let mut disturbed = listing.clone();
    disturb(rng, &mut disturbed);
    let mut spoiled = listings::text(form, &listing);
    spoil(rng, &mut spoiled);
    let whole = listings::text(form, &listing);
    for text in [whole, listings::text(form, &disturbed), spoiled] {
        comparison.text(form, &text, rng)?;
        comparison.read(other(form), &text, 60, 0)?;
        comparison.moved(other(form), &text, 600, 0)?;
    }
    Ok(())
}

pub fn compare() -> Result<String, String> {
    let mut rng = Rng::new(11);
    let mut comparison = Comparison::default();
    for form in FORMS {
        comparison.text(form, b"", &mut rng)?;
        comparison.text(form, b"\n", &mut rng)?;
        for _ in 0..LISTINGS {
            texts(&mut rng, form, &mut comparison)?;
        }
        for rows in [MOST - 1, MOST, MOST + 1] {
            let text = listings::text(form, &listing(&mut rng, form, rows));
            comparison.text(form, &text, &mut rng)?;
        }
    }
    let [wrong, missing, short] = comparison.refused;
    if comparison.refused.iter().any(|&count| count < LEAST) {
        return Err(format!(
            "listings: too few refusals: 11: {wrong}, 17: {missing}, 2: {short}"
        ));
    }
    Ok(format!(
        "listings: {} calls, {} accepted, {} moves there and back; refused by 11: {wrong}, 17: {missing}, 2: {short}",
        comparison.calls, comparison.accepted, comparison.restored
    ))
}

//! Listings as text, beside a plain Rust parser and writer with the same tests. 20,000 rows of four columns, two of them keys.

use crate::report::Report;
use crate::tables::{Both, inserts};
use mouldgrey::lent;
use std::hint::black_box;
use std::io::Write;

const ROWS: u32 = 20_000;
const COLUMNS: u32 = 4;
const MOST_ROWS: usize = 65_536;

/// A listing: the numbers of its head line, and those of all its rows one after another.
#[derive(Default)]
struct Listing {
    head: Vec<u32>,
    cells: Vec<u32>,
    rows: usize,
}

/// Reads a decimal without leading zeros from the start of a text; the text behind it.
fn decimal(text: &[u8]) -> Option<(u32, &[u8])> {
    let digits = text.iter().take_while(|byte| byte.is_ascii_digit()).count();
    let (number, behind) = text.split_at(digits);
    if digits == 0 || 10 < digits || (1 < digits && number[0] == b'0') {
        return None;
    }
    let value = number
        .iter()
        .fold(0, |value, &digit| 10 * value + u64::from(digit - b'0'));
    Some((u32::try_from(value).ok()?, behind))
}

/// Reads a line of a letter and so many numbers; the text behind it.
fn line<'a>(text: &'a [u8], letter: u8, count: usize, numbers: &mut Vec<u32>) -> Option<&'a [u8]> {
    let mut behind = text.strip_prefix(&[letter])?;
    for _ in 0..count {
        let (number, rest) = decimal(behind.strip_prefix(b",")?)?;
        numbers.push(number);
        behind = rest;
    }
    behind.strip_prefix(b"\n")
}

/// Whether the head's numbers are within the bounds of a listing.
fn is_head(head: &[u32], numbered: bool) -> bool {
    let [columns, keys, sort, rule] = [head[0], head[1], head[2], head[3]];
    (1..=8).contains(&columns)
        && (1..=columns).contains(&keys)
        && sort < columns
        && rule <= 3
        && (!numbered || head[5] <= MOST_ROWS as u32)
}

fn parse(text: &[u8], numbered: bool, listing: &mut Listing) -> Option<()> {
    listing.head.clear();
    listing.cells.clear();
    listing.rows = 0;
    let (letter, width) = if numbered { (b'U', 6) } else { (b'T', 5) };
    let mut behind = line(text, letter, width, &mut listing.head)?;
    if !is_head(&listing.head, numbered) {
        return None;
    }
    let before = usize::from(numbered);
    let mut above = None;
    while !behind.is_empty() {
        let at = listing.cells.len();
        behind = line(
            behind,
            b'D',
            before + listing.head[0] as usize,
            &mut listing.cells,
        )?;
        let row = &listing.cells[at..];
        let is_numbered = !numbered || (above < Some(row[0]) && row[0] < listing.head[5]);
        if row[before] == mouldgrey::DEAD || !is_numbered || listing.rows == MOST_ROWS {
            return None;
        }
        above = Some(row[0]);
        listing.rows += 1;
    }
    Some(())
}

fn write_line(text: &mut Vec<u8>, letter: u8, numbers: impl Iterator<Item = u32>) {
    text.push(letter);
    for number in numbers {
        write!(text, ",{number}").expect("a vector grows");
    }
    text.push(b'\n');
}

/// The listing of a table, or one in the other form.
fn write_text<'a>(
    text: &mut Vec<u8>,
    letter: u8,
    head: impl Iterator<Item = u32>,
    rows: impl Iterator<Item = (Option<u32>, &'a [u32])>,
) -> usize {
    text.clear();
    write_line(text, letter, head);
    for (number, cells) in rows {
        write_line(text, b'D', number.into_iter().chain(cells.iter().copied()));
    }
    text.len()
}

fn writing(report: &mut Report, both: &Both) {
    let s = both.ours.stores();
    let mut ours = vec![0; 1 << 20];
    let mut theirs = Vec::with_capacity(1 << 20);
    for (name, numbered, letter) in [("write old", false, b'T'), ("write numbered", true, b'U')] {
        report.compare(
            &format!("listing: {name}, each row"),
            ROWS as usize,
            || lent::write_listing(&s.header, &s.rows, numbered, &mut ours),
            || {
                let h = &s.header;
                let head = [h.columns, h.keys, h.sort, h.rule, h.generation, h.rows];
                let rows = s
                    .rows
                    .chunks(COLUMNS as usize)
                    .take(h.rows as usize)
                    .enumerate();
                let live = rows.filter(|(_, cells)| cells[0] != mouldgrey::DEAD);
                let rows = live.map(|(i, cells)| (numbered.then_some(i as u32), cells));
                write_text(
                    &mut theirs,
                    letter,
                    head.into_iter().take(5 + usize::from(numbered)),
                    rows,
                )
            },
        );
    }
}

fn reading(report: &mut Report, old: &[u8], numbered: &[u8]) {
    let mut output = vec![0; (ROWS * (COLUMNS + 1)) as usize];
    let mut listing = Listing::default();
    report.compare(
        "listing: read old, each row",
        ROWS as usize,
        || lent::read_listing(black_box(old), &mut output),
        || parse(black_box(old), false, &mut listing),
    );
    report.compare(
        "listing: read numbered, each row",
        ROWS as usize,
        || lent::read_numbered(black_box(numbered), &mut output),
        || parse(black_box(numbered), true, &mut listing),
    );
}

fn converting(report: &mut Report, old: &[u8], numbered: &[u8]) {
    let mut output = vec![0; 1 << 20];
    let mut listing = Listing::default();
    let mut text = Vec::with_capacity(1 << 20);
    report.compare(
        "listing: old to numbered, each row",
        ROWS as usize,
        || lent::to_numbered(black_box(old), &mut output),
        || {
            parse(black_box(old), false, &mut listing)?;
            let rows = listing.cells.chunks(COLUMNS as usize).enumerate();
            let head = listing.head.iter().copied().chain([listing.rows as u32]);
            Some(write_text(
                &mut text,
                b'U',
                head,
                rows.map(|(i, cells)| (Some(i as u32), cells)),
            ))
        },
    );
    let mut output = vec![0; 1 << 20];
    let mut text = Vec::with_capacity(1 << 20);
    report.compare(
        "listing: numbered to old, each row",
        ROWS as usize,
        || lent::from_numbered(black_box(numbered), &mut output),
        || {
            parse(black_box(numbered), true, &mut listing)?;
            let rows = listing.cells.chunks(COLUMNS as usize + 1);
            let head = listing.head.iter().copied().take(5);
            Some(write_text(
                &mut text,
                b'T',
                head,
                rows.map(|row| (None, &row[1..])),
            ))
        },
    );
}

pub fn listings(report: &mut Report) {
    let both = Both::opened(COLUMNS, ROWS)
        .staged(inserts(ROWS, COLUMNS, 1))
        .merged();
    writing(report, &both);
    let (old, numbered) = (both.ours.listing(false), both.ours.listing(true));
    reading(report, &old, &numbered);
    converting(report, &old, &numbered);
}

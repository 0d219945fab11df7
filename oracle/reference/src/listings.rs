//! Listings as text (document 02, change 11), read from the bytes; words in quotes are the document's.

use calls::{DEAD, Header};
use std::collections::BTreeSet;

/// A form: "the head line is U in place of T with the row count added as a last field, and each D line has the row number as its
/// first field after D", or not.
#[derive(Clone, Copy, Debug, PartialEq)]
pub enum Form {
    Old,
    New,
}

impl Form {
    fn letter(self) -> char {
        match self {
            Form::Old => 'T',
            Form::New => 'U',
        }
    }

    /// How many numbers come before a row's cells.
    fn lead(self) -> usize {
        match self {
            Form::Old => 0,
            Form::New => 1,
        }
    }
}

/// A listing as read: the numbers of its head line, and of each D line.
#[derive(Clone, Debug, PartialEq)]
pub struct Listing {
    pub head: Vec<u32>,
    pub rows: Vec<Vec<u32>>,
}

/// "Decimals up to 4294967295 without leading zeros."
fn decimal(field: &str) -> Option<u32> {
    let is_shown = field.bytes().all(|byte| byte.is_ascii_digit());
    let leads = field.len() > 1 && field.starts_with('0');
    (is_shown && !leads).then(|| field.parse().ok()).flatten()
}

/// The numbers of a line that begins with this letter.
fn numbers(line: &str, letter: char) -> Option<Vec<u32>> {
    let mut fields = line.split(',');
    (fields.next()? == letter.to_string()).then_some(())?;
    fields.map(decimal).collect()
}

/// "The head's numbers keep test 1's bounds, rows and row count are at most 65,536."
fn is_head(form: Form, head: &[u32]) -> bool {
    let (numbers, count) = match (form, head.split_last()) {
        (Form::Old, _) => (head, None),
        (Form::New, Some((count, numbers))) => (numbers, Some(count)),
        (Form::New, None) => return false,
    };
    let &[columns, keys, sort, rule, _] = numbers else {
        return false;
    };
    (1..=8).contains(&columns)
        && (1..=columns).contains(&keys)
        && sort < columns
        && rule <= 3
        && count.is_none_or(|&count| count <= 65_536)
}

/// "Each D line has one cell for each column, its first cell is not 4294967295."
fn is_row(form: Form, columns: u32, row: &[u32]) -> bool {
    row.len() == form.lead() + columns as usize && row[form.lead()] != u32::MAX
}

/// "Numbers rise strictly and are below the count."
fn is_numbered(count: u32, rows: &[Vec<u32>]) -> bool {
    rows.windows(2).all(|pair| pair[0][0] < pair[1][0]) && rows.iter().all(|row| row[0] < count)
}

/// The listing that a text of this form shows; 11 for "a text not of the form named".
pub fn read(form: Form, text: &[u8]) -> Result<Listing, u32> {
    shown(form, text).ok_or(11)
}

fn shown(form: Form, text: &[u8]) -> Option<Listing> {
    // "Each line ends in one newline."
    let lines = str::from_utf8(text).ok()?.strip_suffix('\n')?;
    let mut lines = lines.split('\n');
    let head = numbers(lines.next()?, form.letter())?;
    let rows: Option<Vec<Vec<u32>>> = lines.map(|line| numbers(line, 'D')).collect();
    let rows = rows?;
    let fits = is_head(form, &head)
        && rows.len() <= 65_536
        && rows.iter().all(|row| is_row(form, head[0], row))
        && (form == Form::Old || is_numbered(head[5], &rows));
    fits.then_some(Listing { head, rows })
}

fn line(text: &mut String, letter: char, numbers: &[u32]) {
    text.push(letter);
    for number in numbers {
        text.push(',');
        text.push_str(&number.to_string());
    }
    text.push('\n');
}

/// A listing as text.
pub fn text(form: Form, listing: &Listing) -> Vec<u8> {
    let mut text = String::new();
    line(&mut text, form.letter(), &listing.head);
    for row in &listing.rows {
        line(&mut text, 'D', row);
    }
    text.into_bytes()
}

/// The listing of a table's numbers and rows: "each live row, rising", in the new form behind its number.
pub fn of_table(form: Form, h: &Header, rows: &[u32]) -> Listing {
    let mut head = vec![h.columns, h.keys, h.sort, h.rule, h.generation];
    let mut listed = Vec::new();
    for (number, row) in (0..h.rows).zip(rows.chunks(h.columns as usize)) {
        if row[0] != DEAD {
            listed.push(match form {
                Form::Old => row.to_vec(),
                Form::New => [&[number], row].concat(),
            });
        }
    }
    if form == Form::New {
        head.push(h.rows);
    }
    Listing { head, rows: listed }
}

/// "Old to new numbers the rows from 0."
fn to_numbered(listing: &Listing) -> Listing {
    let count = listing.rows.len() as u32;
    let numbered = (0..).zip(&listing.rows);
    Listing {
        head: [listing.head.as_slice(), &[count]].concat(),
        rows: numbered
            .map(|(number, row)| [&[number], row.as_slice()].concat())
            .collect(),
    }
}

/// "17, given on the way to the old form exactly when some number below the count has no row."
fn from_numbered(listing: &Listing) -> Result<Listing, u32> {
    let numbers: BTreeSet<u32> = listing.rows.iter().map(|row| row[0]).collect();
    let (head, count) = (&listing.head[..5], listing.head[5]);
    if (0..count).any(|number| !numbers.contains(&number)) {
        return Err(17);
    }
    Ok(Listing {
        head: head.to_vec(),
        rows: listing.rows.iter().map(|row| row[1..].to_vec()).collect(),
    })
}

/// The text of a listing of this form in the other one.
pub fn moved(form: Form, listing: &Listing) -> Result<Vec<u8>, u32> {
    match form {
        Form::Old => Ok(text(Form::New, &to_numbered(listing))),
        Form::New => Ok(text(Form::Old, &from_numbered(listing)?)),
    }
}

/// "Then 2, an output shorter than what is to be written."
pub fn fits<T>(written: Vec<T>, output: usize) -> Result<Vec<T>, u32> {
    match output < written.len() {
        true => Err(2),
        false => Ok(written),
    }
}

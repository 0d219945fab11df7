//! Lines on a table, answered as `levels` answers them.

use crate::failure::Failure;
use crate::lines::{LONGEST_LINE, Line, Operation};
use mouldgrey::raw::Constraint;
use mouldgrey::{Opening, Refusal, Rule, Table, lent};
use std::io::{BufRead, ErrorKind, Write};

/// The largest capacity of a table.
const MOST_ROWS: u32 = 65_536;

/// `levels` has 2,048 pending words for at most 1,024 rows. A larger table gets more in proportion.
pub fn pending_words(capacity: u32) -> usize {
    2 * capacity.max(1024) as usize
}

/// The table that lines are about, once there is one.
pub struct Session {
    pub table: Option<Table>,
}

impl Session {
    /// Answers all lines of an input. The answers at hand are written before more is read, so that a program at the other end of
    /// two pipes need not wait for them.
    pub fn run(&mut self, input: &mut dyn BufRead, output: &mut dyn Write) -> Result<(), Failure> {
        let mut line = Vec::new();
        loop {
            output.flush().map_err(Failure::output)?;
            let part = match input.fill_buf() {
                Err(why) if why.kind() == ErrorKind::Interrupted => continue,
                part => part.map_err(|why| Failure::Io("standard input".to_string(), why))?,
            };
            if part.is_empty() {
                break;
            }
            self.take(part, &mut line, output)?;
            let taken = part.len();
            input.consume(taken);
        }
        // The last line counts also without a newline.
        if !line.is_empty() {
            self.answer(&line, output)?;
        }
        output.flush().map_err(Failure::output)
    }

    /// Answers the lines that end in these bytes. `line` holds the begun one, before and after.
    fn take(
        &mut self,
        part: &[u8],
        line: &mut Vec<u8>,
        output: &mut dyn Write,
    ) -> Result<(), Failure> {
        for piece in part.split_inclusive(|&byte| byte == b'\n') {
            let (bytes, ends) = match piece.split_last() {
                Some((b'\n', bytes)) => (bytes, true),
                _ => (piece, false),
            };
            // One byte more than a line may have shows that it is too long.
            let room = LONGEST_LINE + 1 - line.len();
            line.extend_from_slice(&bytes[..bytes.len().min(room)]);
            if ends {
                self.answer(line, output)?;
                line.clear();
            }
        }
        Ok(())
    }

    /// Prints the answer to a line.
    fn answer(&mut self, line: &[u8], output: &mut dyn Write) -> Result<(), Failure> {
        let text = self.reply(line).unwrap_or_else(|refusal| {
            let number = refusal.number();
            format!("X,{number}\n").into_bytes()
        });
        output.write_all(&text).map_err(Failure::output)
    }

    /// What a line prints, or its refusal: 11 for a line of no form, 1 for any line but `O` where there is no table.
    fn reply(&mut self, line: &[u8]) -> Result<Vec<u8>, Refusal> {
        match Line::parse(line).ok_or(Refusal::NoListing)? {
            Line::Open(numbers) => {
                self.table = Some(open(numbers)?);
                Ok(Vec::new())
            }
            Line::On(operation) => {
                let table = self.table.as_mut().ok_or(Refusal::OutOfBounds)?;
                perform(table, &operation)
            }
        }
    }
}

/// A new table. A capacity that no table can have is refused first, by 11, as `levels` does above its own limit.
fn open([columns, keys, sort, rule, capacity, generation]: [u32; 6]) -> Result<Table, Refusal> {
    if capacity > MOST_ROWS {
        return Err(Refusal::NoListing);
    }
    let opening = Opening {
        columns,
        keys,
        sort,
        rule: Rule::from_number(rule).ok_or(Refusal::OutOfBounds)?,
        capacity,
        generation,
    };
    Table::new(&opening, pending_words(capacity))
}

/// Makes an operation on a table, and returns what it prints.
fn perform(table: &mut Table, operation: &Operation) -> Result<Vec<u8>, Refusal> {
    let nothing = |()| Vec::new();
    match operation {
        Operation::Insert(cells) => table.stage_insert(cells).map(nothing),
        Operation::Remove(key) => table.stage_remove(key).map(nothing),
        Operation::RemoveRow(row, key) => table.stage_remove_row(*row, key).map(nothing),
        Operation::Compact => table.compact().map(nothing),
        Operation::Clear => table.clear().map(nothing),
        Operation::Merge => merge(table),
        Operation::Fast(condition) => fast_range(table, *condition),
        Operation::Version => Ok(version(table)),
        Operation::List { numbered } => Ok(table.listing(*numbered)),
    }
}

fn fast_range(table: &Table, condition: Constraint) -> Result<Vec<u8>, Refusal> {
    let stores = table.stores();
    let range = lent::fast_subset(&stores.header, &stores.sorts, condition)?;
    Ok(match range {
        Some((start, end)) => format!("F,{start},{end}\n").into_bytes(),
        None => b"F,none\n".to_vec(),
    })
}

fn version(table: &Table) -> Vec<u8> {
    let version = table.version();
    format!("V,{},{}\n", version.generation, version.rows).into_bytes()
}

fn merge(table: &mut Table) -> Result<Vec<u8>, Refusal> {
    let merge = table.merge_or_stop()?;
    let stop = merge.stop.map(|stop| (stop.reason.number(), stop.place));
    let (status, place) = stop.unwrap_or((0, 0));
    let added = u32::from(merge.merged.added);
    Ok(format!("M,{status},{added},{place}\n").into_bytes())
}

//! What the commands do.

use crate::arguments::{Command, HELP};
use crate::failure::Failure;
use crate::file;
use crate::session::{Session, pending_words};
use mouldgrey::{Header, LONGEST_TEXT, Refusal, Table, check_image, image_text};
use std::fmt::Write as _;
use std::io::{self, BufWriter, Write};
use std::path::Path;

/// Runs a command.
pub fn run(command: Command) -> Result<(), Failure> {
    match command {
        Command::Help => print(HELP.as_bytes()),
        Command::Version => print(versions().as_bytes()),
        Command::Check(file) => check(&file),
        Command::Info(file) => info(&file),
        Command::List { file, numbered } => list(&file, numbered),
        Command::Find { file, key } => find(&file, &key),
        Command::Apply { file, text } => apply(&file, text.as_deref()),
        Command::Grow { file, capacity } => grow(&file, capacity),
    }
}

fn print(text: &[u8]) -> Result<(), Failure> {
    let mut output = io::stdout().lock();
    let printed = output.write_all(text).and_then(|()| output.flush());
    printed.map_err(Failure::output)
}

/// The versions of the program and of the library.
fn versions() -> String {
    let library = mouldgrey::library_version();
    let (major, minor, patch) = (library / 1_000_000, library / 1000 % 1000, library % 1000);
    let program = env!("CARGO_PKG_VERSION");
    format!("mouldgrey {program}, library {major}.{minor}.{patch}\n")
}

/// The table of a file that must exist.
fn load(file: &Path) -> Result<Table, Failure> {
    let bytes = file::read(file)?;
    Table::load(&bytes, 0).map_err(|why| Failure::refused(file, why))
}

fn check(file: &Path) -> Result<(), Failure> {
    check_image(&file::read(file)?).map_err(|why| Failure::refused(file, why))?;
    print(format!("{}: sound\n", file.display()).as_bytes())
}

fn info(file: &Path) -> Result<(), Failure> {
    let bytes = file::read(file)?;
    let refused = |why: Refusal| Failure::refused(file, why);
    let header = check_image(&bytes).map_err(refused)?;
    let text = image_text(&bytes).map_err(refused)?;
    print(description(&header, &text, &bytes).as_bytes())
}

/// The numbers of an image, a line each.
fn description(header: &Header, text: &[u8], bytes: &[u8]) -> String {
    let largest = header.largest().map(|value| value.to_string());
    let checksum: Vec<u8> = bytes.iter().rev().take(4).copied().collect();
    let lines = [
        ("columns", header.columns.to_string()),
        ("keys", header.keys.to_string()),
        ("sort column", header.sort.to_string()),
        ("rule", header.rule.to_string()),
        ("capacity", header.capacity.to_string()),
        ("rows", header.rows.to_string()),
        ("live rows", (header.rows - header.dead).to_string()),
        ("dead rows", header.dead.to_string()),
        ("sort entries", header.entries.to_string()),
        ("pending words", header.pending.to_string()),
        ("generation", header.generation.to_string()),
        ("largest sort value", largest.unwrap_or("none".to_string())),
        ("text bytes", text.len().to_string()),
        ("text", quoted(text)),
        ("file bytes", bytes.len().to_string()),
        (
            "checksum",
            checksum.iter().map(|byte| format!("{byte:02x}")).collect(),
        ),
    ];
    lines.iter().fold(String::new(), |mut all, (name, value)| {
        writeln!(all, "{name}: {value}").expect("a string takes every text");
        all
    })
}

/// A text in quotes on one line, with nothing in it that a terminal obeys.
fn quoted(text: &[u8]) -> String {
    match std::str::from_utf8(text) {
        Ok(text) => format!("{text:?}"),
        Err(_) => format!("\"{}\"", text.escape_ascii()),
    }
}

fn list(file: &Path, numbered: bool) -> Result<(), Failure> {
    print(&load(file)?.listing(numbered))
}

fn find(file: &Path, key: &[u32]) -> Result<(), Failure> {
    let table = load(file)?;
    let found = table.get_row(key);
    let row = found.map_err(|why| Failure::refused(file, why))?;
    let row = row.ok_or_else(|| Failure::NoRow(file.display().to_string()))?;
    let cells: String = row.cells.iter().map(|cell| format!(",{cell}")).collect();
    print(format!("D{cells}\n").as_bytes())
}

fn apply(file: &Path, text: Option<&Path>) -> Result<(), Failure> {
    let (table, old_text) = begin(file)?;
    let text = match text {
        Some(named) => read_text(named)?,
        None => old_text,
    };
    let mut session = Session { table };
    session.run(
        &mut io::stdin().lock(),
        &mut BufWriter::new(io::stdout().lock()),
    )?;
    match session.table {
        Some(table) => save(file, &table, &text),
        None => {
            eprintln!(
                "mouldgrey: {}: there is no table, nothing is saved",
                file.display()
            );
            Ok(())
        }
    }
}

/// The table and the text of a file; no table and an empty text if there is no such file.
fn begin(file: &Path) -> Result<(Option<Table>, Vec<u8>), Failure> {
    let Some(bytes) = file::read_if_there(file)? else {
        return Ok((None, Vec::new()));
    };
    let mut table = Table::load(&bytes, 0).map_err(|why| Failure::refused(file, why))?;
    table.reserve_pending(pending_words(table.header().capacity));
    let text = image_text(&bytes).map_err(|why| Failure::refused(file, why))?;
    Ok((Some(table), text))
}

/// A text for an image. One that is too long is refused before any line is read.
fn read_text(file: &Path) -> Result<Vec<u8>, Failure> {
    let text = file::read(file)?;
    if text.len() > LONGEST_TEXT {
        return Err(Failure::refused(file, Refusal::TextTooLong));
    }
    Ok(text)
}

fn grow(file: &Path, capacity: u32) -> Result<(), Failure> {
    let bytes = file::read_regular(file)?;
    let table = Table::load_with_capacity(&bytes, capacity, 0);
    let table = table.map_err(|why| Failure::refused(file, why))?;
    let text = image_text(&bytes).map_err(|why| Failure::refused(file, why))?;
    save(file, &table, &text)
}

fn save(file: &Path, table: &Table, text: &[u8]) -> Result<(), Failure> {
    let bytes = table
        .save(text)
        .map_err(|why| Failure::refused(file, why))?;
    file::replace(file, &bytes)
}

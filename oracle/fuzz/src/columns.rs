//! Column order on any cells, any width and any output.

use crate::session::{Session, Slot};
use crate::stores::fuzz_number;
use crate::watch;
use mouldgrey::raw;
use random::Rng;

/// A width: mostly one of those that are taken.
fn width(rng: &mut Rng) -> u32 {
    match rng.percent(85) {
        true => rng.within(1, 8),
        false => fuzz_number(rng, &[]),
    }
}

/// A number of cells: mostly so many rows.
fn length(rng: &mut Rng, width: u32) -> usize {
    let rows = match rng.below(60) {
        0 => rng.within(250, 520),
        1..=5 => 0,
        _ => rng.below(30),
    };
    let length = (rows * width.min(9)) as usize;
    match rng.below(6) {
        0 => length + rng.place(9),
        _ => length,
    }
}

pub fn calls(session: &mut Session, rng: &mut Rng) -> Result<(), String> {
    for _ in 0..rng.within(8, 40) {
        let located = |why: String| format!("{why}\n  at {}", watch::place());
        single(session, rng).map_err(located)?;
    }
    Ok(())
}

fn single(session: &mut Session, rng: &mut Rng) -> Result<(), String> {
    let width = width(rng);
    let cells: Vec<u32> = (0..length(rng, width)).map(|_| rng.number()).collect();
    let output = match rng.below(8) {
        0 => rng.place(cells.len() + 1),
        1 => cells.len() + rng.place(9),
        _ => cells.len(),
    };
    let before = vec![rng.number(); output];
    let (c, c_len) = session.read(rng, Slot::Cells, &cells);
    let (o, o_len) = session.write(rng, Slot::Output, &before);
    let is_back = rng.percent(50);
    let name = match is_back {
        false => "mouldgrey_to_columns",
        true => "mouldgrey_from_columns",
    };
    watch::call(name);
    // SAFETY: each pointer goes with the length of what was lent, in an area of its own.
    let number = unsafe {
        match is_back {
            false => raw::mouldgrey_to_columns(width, c, c_len, o, o_len),
            true => raw::mouldgrey_from_columns(width, c, c_len, o, o_len),
        }
    };
    let outcome = reference::test_columns(width, cells.len(), output);
    let mut expected = before;
    if outcome.is_ok() {
        let order = match is_back {
            false => reference::to_columns(width, &cells),
            true => reference::from_columns(width, &cells),
        };
        expected[..order.len()].copy_from_slice(&order);
    }
    let must = outcome.err().unwrap_or(0);
    if number != must || session.left(Slot::Output) != Some(&expected) {
        return Err(format!(
            "{name} of width {width}, {} cells into {output} words: {number}, not {must}, or other words",
            cells.len()
        ));
    }
    session.close(name, number)
}

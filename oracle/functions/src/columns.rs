//! Column order for the vault beside the reference model, written from document 02: every width, lengths about nothing, one row, the width
//! and its multiples, blocks of rows and 65,536 rows, outputs too short, long enough and longer, and there and back. Guard
//! words before and behind the output must not change, nor its words past the cells.

use mouldgrey::{Refusal, lent};
use random::Rng;

/// Each refusal comes at least so often.
const LEAST: u64 = 1_000;

/// Words before and behind an output.
const GUARD: usize = 4;

/// A function of the library: width, cells, output.
type Rearrange = fn(u32, &[u32], &mut [u32]) -> Result<(), Refusal>;

/// One direction: its name, the library's, the reference model's.
struct Way {
    name: &'static str,
    ours: Rearrange,
    reference: fn(u32, &[u32]) -> Vec<u32>,
}

const TO: Way = Way {
    name: "to_columns",
    ours: lent::to_columns,
    reference: reference::to_columns,
};

const FROM: Way = Way {
    name: "from_columns",
    ours: lent::from_columns,
    reference: reference::from_columns,
};

#[derive(Default)]
struct Counts {
    written: u64,
    cells: usize,
    /// With 1, 13 and 2.
    refused: [u64; 3],
}

impl Counts {
    fn refusal(&mut self, number: u32) {
        let place = [1, 13, 2].iter().position(|&it| it == number);
        self.refused[place.expect("a number of the checks")] += 1;
    }
}

/// Cells of one kind: any, rising slowly, or at the ends of the numbers.
fn cells(rng: &mut Rng, length: usize) -> Vec<u32> {
    let kind = rng.below(4);
    let mut last = rng.number();
    let mut next = || {
        last = match kind {
            0 => rng.number(),
            1 => last.wrapping_add(rng.below(3)),
            2 => rng.pick(&[0, 1, u32::MAX]),
            _ => rng.next_u64() as u32,
        };
        last
    };
    (0..length).map(|_| next()).collect()
}

/// One call with an output of this length; what it wrote, if it was not refused.
fn call(
    way: &Way,
    width: u32,
    cells: &[u32],
    length: usize,
    rng: &mut Rng,
    counts: &mut Counts,
) -> Result<Option<Vec<u32>>, String> {
    let before: Vec<u32> = (0..length + 2 * GUARD)
        .map(|_| rng.next_u64() as u32)
        .collect();
    let mut words = before.clone();
    let answer = (way.ours)(width, cells, &mut words[GUARD..GUARD + length]);
    let mut expected = before;
    let outcome = reference::test_columns(width, cells.len(), length);
    match outcome {
        Ok(()) => {
            expected[GUARD..GUARD + cells.len()].copy_from_slice(&(way.reference)(width, cells));
            counts.written += 1;
            counts.cells += cells.len();
        }
        Err(number) => counts.refusal(number),
    }
    if answer.map_err(Refusal::number) != outcome || words != expected {
        return Err(format!(
            "{} of width {width}, {} cells into {length} words: {answer:?}, not {outcome:?}, or other words",
            way.name,
            cells.len()
        ));
    }
    Ok(outcome
        .is_ok()
        .then(|| words[GUARD..GUARD + cells.len()].to_vec()))
}

/// One list there and back, and back and there, with outputs of every kind on the way.
fn list(width: u32, length: usize, rng: &mut Rng, counts: &mut Counts) -> Result<(), String> {
    let cells = cells(rng, length);
    for (first, second) in [(&TO, &FROM), (&FROM, &TO)] {
        for output in [length.saturating_sub(1), 0, length + rng.place(9)] {
            call(first, width, &cells, output, rng, counts)?;
        }
        let Some(order) = call(first, width, &cells, length, rng, counts)? else {
            continue;
        };
        let restored = call(second, width, &order, length, rng, counts)?;
        if restored.as_ref() != Some(&cells) {
            return Err(format!(
                "{} after {} of width {width} does not restore {length} cells",
                second.name, first.name
            ));
        }
    }
    Ok(())
}

/// Lengths about those that matter for a width.
fn lengths(width: usize, rows: usize) -> [usize; 4] {
    let length = width * rows;
    [length, length + 1, length.saturating_sub(1), length + width]
}

pub fn compare() -> Result<String, String> {
    let mut rng = Rng::new(5);
    let mut counts = Counts::default();
    for round in 0..40 {
        let wide = [0, 9, 10, u32::MAX, u32::MAX - rng.below(9)];
        for width in wide.into_iter().chain(1..=8) {
            let cells_of = width.min(10) as usize;
            let mut rows = vec![0, 1, 2, rng.place(9)];
            if round % 10 == 0 {
                rows.extend([255, 256, 512, 1_000 + rng.place(300)]);
            }
            for length in rows.into_iter().flat_map(|rows| lengths(cells_of, rows)) {
                list(width, length, &mut rng, &mut counts)?;
            }
        }
    }
    for width in 1..=8 {
        list(width, width as usize * 65_536, &mut rng, &mut counts)?;
    }
    let [narrow, broken, short] = counts.refused;
    if counts.refused.iter().any(|&count| count < LEAST) {
        return Err(format!(
            "column order: too few refusals: 1: {narrow}, 13: {broken}, 2: {short}"
        ));
    }
    Ok(format!(
        "column order: {} calls, {} cells, every list there and back both ways; refused by 1: {narrow}, 13: {broken}, 2: {short}",
        counts.written, counts.cells
    ))
}

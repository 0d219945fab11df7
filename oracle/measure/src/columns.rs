//! Column order beside plain Rust loops: one that goes down each column, and one that goes along each row.

use crate::report::Report;
use mouldgrey::{Refusal, lent};
use std::hint::black_box;

fn to_by_columns(width: usize, cells: &[u32], output: &mut [u32]) {
    let rows = cells.len() / width;
    for column in 0..width {
        let mut above = 0u32;
        for row in 0..rows {
            let cell = cells[row * width + column];
            output[column * rows + row] = cell.wrapping_sub(above);
            above = cell;
        }
    }
}

fn to_by_rows(width: usize, cells: &[u32], output: &mut [u32]) {
    let rows = cells.len() / width;
    for row in 0..rows {
        for column in 0..width {
            let at = row * width + column;
            let above = if row == 0 { 0 } else { cells[at - width] };
            output[column * rows + row] = cells[at].wrapping_sub(above);
        }
    }
}

fn from_by_columns(width: usize, cells: &[u32], output: &mut [u32]) {
    let rows = cells.len() / width;
    for column in 0..width {
        let mut above = 0u32;
        for row in 0..rows {
            above = above.wrapping_add(cells[column * rows + row]);
            output[row * width + column] = above;
        }
    }
}

fn from_by_rows(width: usize, cells: &[u32], output: &mut [u32]) {
    let rows = cells.len() / width;
    for row in 0..rows {
        for column in 0..width {
            let at = row * width + column;
            let above = if row == 0 { 0 } else { output[at - width] };
            output[at] = above.wrapping_add(cells[column * rows + row]);
        }
    }
}

/// A function of the library: width, cells, output.
type Rearrange = fn(u32, &[u32], &mut [u32]) -> Result<(), Refusal>;

/// A direction: the library's, and the two loops.
struct Way {
    name: &'static str,
    ours: Rearrange,
    by_columns: fn(usize, &[u32], &mut [u32]),
    by_rows: fn(usize, &[u32], &mut [u32]),
}

const WAYS: [Way; 2] = [
    Way {
        name: "to columns",
        ours: lent::to_columns,
        by_columns: to_by_columns,
        by_rows: to_by_rows,
    },
    Way {
        name: "from columns",
        ours: lent::from_columns,
        by_columns: from_by_columns,
        by_rows: from_by_rows,
    },
];

fn beside(report: &mut Report, way: &Way, width: usize, rows: usize) {
    let count = width * rows;
    let cells: Vec<u32> = (0..count as u32)
        .map(|i| i.wrapping_mul(2_654_435_761))
        .collect();
    let (mut one, mut other) = (vec![0; count], vec![0; count]);
    for (reference, order) in [("by columns", way.by_columns), ("by rows", way.by_rows)] {
        report.compare(
            &format!(
                "{}, {rows} rows of {width}: {reference}, each row",
                way.name
            ),
            rows,
            || (way.ours)(width as u32, &cells, &mut one),
            || order(width, black_box(&cells), black_box(&mut other)),
        );
    }
}

pub fn orders(report: &mut Report) {
    for way in &WAYS {
        for (width, rows) in [(8, 65_536), (4, 65_536), (1, 65_536), (8, 1_000), (3, 50)] {
            beside(report, way, width, rows);
        }
    }
}

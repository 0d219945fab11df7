//! Copies the live rows of a full table into a new, larger one. Row numbers and the largest sort value are not kept, so the new table
//! gets a generation that the old one never had. To grow a table and keep them, use an image: see image.rs.

use mouldgrey::{Error, Opening, Rule, Table, refusal_text};

fn main() -> Result<(), Error> {
    let opening = Opening {
        columns: 2,
        keys: 1,
        sort: 1,
        rule: Rule::TakeNew,
        capacity: 2,
        generation: 5,
    };
    let mut small = Table::new(&opening, 64)?;
    for cells in [[7, 10], [8, 10], [9, 11]] {
        small.stage_insert(&cells)?;
    }
    if let Err(Error::Stopped(stop)) = small.merge() {
        println!(
            "insert {}: {}",
            stop.place,
            refusal_text(stop.reason.number())
        );
    }

    let mut large = Table::new(
        &Opening {
            capacity: 4,
            generation: small.version().generation + 1,
            ..opening
        },
        64,
    )?;
    for row in &small {
        large.stage_insert(row.cells)?;
    }
    large.merge()?;
    large.stage_insert(&[9, 11])?;
    large.merge()?;
    for row in &large {
        println!("row {}: {} {}", row.id, row.cells[0], row.cells[1]);
    }
    Ok(())
}

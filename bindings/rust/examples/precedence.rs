//! A level after the diplexer (side 2) counts only if the level before it (side 1) is on file by then. Columns: modem, side, level,
//! stamp; the side is key column 1.

use mouldgrey::{Error, Opening, Rule, Table};

fn report(table: &Table) -> Result<(), Error> {
    match table.check_precedence(1, &[[2, 1]])? {
        Some((row, pair)) => println!("row {row} fails pair {pair}"),
        None => println!("every row meets its pairs"),
    }
    Ok(())
}

fn main() -> Result<(), Error> {
    let opening = Opening {
        columns: 4,
        keys: 2,
        sort: 3,
        rule: Rule::TakeNew,
        capacity: 100,
        generation: 0,
    };
    let mut table = Table::new(&opening, 256)?;
    table.stage_insert(&[7, 1, 160, 10])?;
    table.stage_insert(&[7, 2, 148, 11])?;
    table.merge()?;
    report(&table)?;
    table.stage_insert(&[8, 2, 150, 12])?;
    table.merge()?;
    report(&table)
}

//! A diplexer type is renumbered: all rows that mention it get a new stamp. The merge that follows can stop; the program shows how
//! to see that and what is lost then. Columns: modem, diplexer type, stamp.

use mouldgrey::{Error, Opening, Rule, Table, ValueIndex, refusal_text};

const TYPE: u32 = 1;

fn print_rows(table: &Table) {
    for row in table {
        let cells: Vec<String> = row.cells.iter().map(u32::to_string).collect();
        println!("row {}: {}", row.id, cells.join(" "));
    }
}

fn main() -> Result<(), Error> {
    let opening = Opening {
        columns: 3,
        keys: 1,
        sort: 2,
        rule: Rule::TakeNew,
        capacity: 4,
        generation: 0,
    };
    let mut table = Table::new(&opening, 256)?;
    for cells in [[7, 40, 10], [8, 41, 10], [9, 40, 11]] {
        table.stage_insert(&cells)?;
    }
    table.merge()?;

    let mut index = ValueIndex::new();
    let staged = table.refresh_rows_for_values(&mut index, &[TYPE], &[41], 12)?;
    println!("type 41: {}", if staged { "staged" } else { "no row" });
    table.merge()?;
    print_rows(&table);

    // The table is full now: row 1 is dead, and four rows are in the store. A refresh of two rows cannot append them.
    table.refresh_rows_for_values(&mut index, &[TYPE], &[40], 13)?;
    match table.merge() {
        Err(Error::Stopped(stop)) => println!(
            "type 40: status {} at insert {}, {}",
            stop.reason.number(),
            stop.place,
            refusal_text(stop.reason.number())
        ),
        other => println!("type 40: {other:?}"),
    }
    print_rows(&table);
    println!("the removals took effect: compact before such a refresh, or grow the table");
    Ok(())
}

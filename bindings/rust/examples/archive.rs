//! A first program: opens a table, stages, merges, queries and checks soundness, and shows what is refused. Columns: modem, side
//! (1 before the diplexer, 2 after), level, stamp. Modem and side are the key.

use mouldgrey::{Condition, Error, Opening, Rule, Subset, Table, intersect};

const LEVEL: u32 = 2;
const STAMP: u32 = 3;

fn merge(table: &mut Table) -> Result<(), Error> {
    match table.merge() {
        Ok(merged) => println!(
            "merge: status 0, place 0, added {}",
            u32::from(merged.added)
        ),
        Err(Error::Stopped(stop)) => println!(
            "merge: status {}, place {}, added 0",
            stop.reason.number(),
            stop.place
        ),
        Err(error) => return Err(error),
    }
    Ok(())
}

fn print_version(table: &Table) {
    let version = table.version();
    println!(
        "version: generation {}, {} rows",
        version.generation, version.rows
    );
}

fn print_rows(table: &Table) {
    for row in table {
        let cells: Vec<String> = row.cells.iter().map(u32::to_string).collect();
        println!("row {}: {}", row.id, cells.join(" "));
    }
}

fn print_level(table: &Table, modem: u32, side: u32) -> Result<(), Error> {
    let level = table.get_row_column(&[modem, side], LEVEL)?;
    let level = level.map_or("none".to_string(), |level| level.to_string());
    println!("level of modem {modem}, side {side}: {level}");
    Ok(())
}

/// The rows with a stamp, first as a fast range, then the live ones of it.
fn print_stamped(table: &Table, stamp: u32) -> Result<(), Error> {
    let condition = Condition::eq(STAMP, stamp);
    let range = table.fast_subset(condition)?.expect("the sort column");
    let Subset::Range(start, end) = range else {
        unreachable!("a fast subset is a range");
    };
    print!("stamp {stamp}: rows {start}..{end}");
    match table.refine_one(&range, condition)? {
        Subset::Range(start, end) => println!(", live {start}..{end}"),
        Subset::List(ids) => println!(", live: {} ids", ids.len()),
    }
    Ok(())
}

fn main() -> Result<(), Box<dyn std::error::Error>> {
    let opening = Opening {
        columns: 4,
        keys: 2,
        sort: STAMP,
        rule: Rule::TakeNew,
        capacity: 100,
        generation: 0,
    };
    let mut table = Table::new(&opening, 256)?;
    table.stage_insert(&[7, 1, 160, 10])?;
    table.stage_insert(&[7, 2, 148, 10])?;
    merge(&mut table)?;
    table.stage_insert(&[7, 1, 163, 12])?;
    table.stage_remove(&[7, 2])?;
    merge(&mut table)?;
    print_version(&table);
    print_rows(&table);
    print_level(&table, 7, 1)?;
    print_level(&table, 7, 2)?;
    print_stamped(&table, 10)?;
    print_stamped(&table, 12)?;
    let common = intersect(&Subset::List(vec![1, 3, 5, 8]), &Subset::Range(3, 8))?;
    let common: Vec<String> = common.ids().map(|id| id.to_string()).collect();
    println!("{{1, 3, 5, 8}} with 3..8: {}", common.join(" "));
    println!("sound: {}", if table.is_sound()? { "yes" } else { "no" });

    // An old stamp stops a merge. What the batch did before would stay; here there is nothing.
    table.stage_insert(&[8, 1, 150, 11])?;
    merge(&mut table)?;

    // Refusals change nothing.
    let refusal = table.stage_insert(&[1, 2, 3]).expect_err("three cells");
    println!("three cells: {}", text(refusal.number()));
    println!("short key store: {}", text(2));

    table.compact()?;
    print_version(&table);
    print_rows(&table);

    // A changed level is still a sound table: keep a checksum. A changed stamp is not.
    let mut stores = table.into_stores();
    stores.rows[LEVEL as usize] = 164;
    println!("sound: {}", yes(Table::from_stores(stores.clone()).is_ok()));
    stores.rows[STAMP as usize] = 13;
    println!("sound: {}", yes(Table::from_stores(stores).is_ok()));
    Ok(())
}

fn yes(answer: bool) -> &'static str {
    if answer { "yes" } else { "no" }
}

/// The sentence for a refusal.
fn text(number: u32) -> &'static str {
    mouldgrey::refusal_text(number)
}

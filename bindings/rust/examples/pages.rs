//! All rows of a level and a stamp, a page of three places at a time; then the rows since a noted version.

use mouldgrey::{Condition, Error, Opening, Rule, Subset, Table, refusal_text};

const LEVEL: u32 = 1;
const STAMP: u32 = 2;

fn main() -> Result<(), Error> {
    let opening = Opening {
        columns: 3,
        keys: 1,
        sort: STAMP,
        rule: Rule::TakeNew,
        capacity: 100,
        generation: 0,
    };
    let mut table = Table::new(&opening, 256)?;
    for modem in 0..8 {
        table.stage_insert(&[modem, 140 + 5 * modem, 10 + modem / 2])?;
    }
    table.merge()?;
    let noted = table.version();
    table.stage_insert(&[6, 171, 14])?;
    table.merge()?;

    let conditions = [Condition::ge(LEVEL, 155), Condition::ge(STAMP, 11)];
    let mut next = Some(0);
    while let Some(place) = next {
        let page = table.read_page(&table.all(), place, 3, &conditions)?;
        print!("from place {place}: {} dead, rows", page.dead);
        page.ids.iter().for_each(|id| print!(" {id}"));
        println!();
        next = page.next;
    }

    if let Subset::Range(start, end) = table.rows_since_version(noted)? {
        println!("rows since the note: {start}..{end}");
    }
    table.compact()?;
    let refusal = table.rows_since_version(noted).expect_err("an old note");
    println!("after a compaction: {}", refusal_text(refusal.number()));
    Ok(())
}

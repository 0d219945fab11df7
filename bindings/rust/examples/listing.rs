//! A table as a listing, read again, converted, and a laboratory's answers about it checked.

use mouldgrey::{
    Condition, Error, Opening, Rule, Table, Verdict, check_answers, from_numbered, read_numbered,
    refusal_text,
};

fn main() -> Result<(), Error> {
    let opening = Opening {
        columns: 3,
        keys: 1,
        sort: 2,
        rule: Rule::TakeNew,
        capacity: 40,
        generation: 0,
    };
    let mut table = Table::new(&opening, 256)?;
    for cells in [[7, 160, 10], [8, 148, 10], [7, 163, 12]] {
        table.stage_insert(&cells)?;
    }
    table.merge()?;

    let text = table.listing(true);
    print!("{}", String::from_utf8_lossy(&text));

    let listing = read_numbered(&text)?;
    println!("{} of {} rows", listing.rows.len(), listing.count);
    for (row, cells) in &listing.rows {
        println!("row {row}: {} {} {}", cells[0], cells[1], cells[2]);
    }

    // Row 0 is dead, so that the old form cannot keep the numbers.
    let refusal = from_numbered(&text).expect_err("a number without a row");
    println!("to the old form: {}", refusal_text(refusal.number()));

    // A laboratory's tool found rows 1 and 2 for "level at least 150".
    let (kind, number) = match check_answers(&text, &[Condition::ge(1, 150)], &[1, 2])? {
        Verdict::Right => (0, 0),
        Verdict::Misplaced(place) => (1, place as u64),
        Verdict::Wrong(row) => (2, u64::from(row)),
    };
    println!("verdict: kind {kind}, number {number}");
    Ok(())
}

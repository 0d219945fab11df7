//! Rows in column order, each cell but a column's first as its difference from the cell above: and back.

use mouldgrey::{Refusal, from_columns, refusal_text, to_columns};

fn print(name: &str, cells: &[u32]) {
    let cells: Vec<String> = cells.iter().map(u32::to_string).collect();
    println!("{name}: {}", cells.join(" "));
}

fn main() -> Result<(), Refusal> {
    let rows = [7, 160, 7, 163, 8, 158];
    let columns = to_columns(2, &rows)?;
    print("rows", &rows);
    print("columns", &columns);
    print("rows", &from_columns(2, &columns)?);
    let refusal = to_columns(2, &rows[..5]).expect_err("five cells");
    println!("five cells: {}", refusal_text(refusal.number()));
    Ok(())
}

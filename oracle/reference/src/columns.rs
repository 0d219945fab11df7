//! Column order for the vault (document 02, change 5), over a list of rows; words in quotes are the document's.

/// "First comes 1, a width outside 1 to 8, then 13, a length that is not a multiple of the width, then 2, an output shorter
/// than the input."
pub fn test_columns(width: u32, cells: usize, output: usize) -> Result<(), u32> {
    if !(1..=8).contains(&width) {
        return Err(1);
    }
    if !cells.is_multiple_of(width as usize) {
        return Err(13);
    }
    if output < cells {
        return Err(2);
    }
    Ok(())
}

/// "All cells of the first column, then the second, and so on, each cell but a column's first replaced by its difference from
/// the cell above, modulo 2^32."
pub fn to_columns(width: u32, cells: &[u32]) -> Vec<u32> {
    let rows: Vec<&[u32]> = cells.chunks(width as usize).collect();
    let mut order = Vec::new();
    for column in 0..width as usize {
        for (number, row) in rows.iter().enumerate() {
            order.push(match number.checked_sub(1) {
                None => row[column],
                Some(above) => row[column].wrapping_sub(rows[above][column]),
            });
        }
    }
    order
}

/// "The inverse": each column's first cell, and below it the sums.
pub fn from_columns(width: u32, cells: &[u32]) -> Vec<u32> {
    let count = cells.len() / width as usize;
    let mut rows: Vec<Vec<u32>> = Vec::new();
    for number in 0..count {
        let row = (0..width as usize).map(|column| {
            let cell = cells[column * count + number];
            match number.checked_sub(1) {
                None => cell,
                Some(above) => cell.wrapping_add(rows[above][column]),
            }
        });
        let row = row.collect();
        rows.push(row);
    }
    rows.concat()
}

//! Column order, over outputs of the right length.

use crate::{Refusal, lent};

/// Rows of this width, one after another, in column order: all cells of the first column, then the second, and so on, each cell
/// but a column's first as its difference from the cell above, modulo 2^32. Refused by 1 and 13.
///
/// ```
/// use mouldgrey::{from_columns, to_columns};
///
/// let columns = to_columns(2, &[7, 10, 9, 10]).unwrap();
/// assert_eq!(columns, [7, 2, 10, 0]);
/// assert_eq!(from_columns(2, &columns).unwrap(), [7, 10, 9, 10]);
/// ```
pub fn to_columns(width: u32, cells: &[u32]) -> Result<Vec<u32>, Refusal> {
    let mut output = vec![0; cells.len()];
    lent::to_columns(width, cells, &mut output)?;
    Ok(output)
}

/// The rows that [`to_columns`] put into column order. Refused by 1 and 13.
pub fn from_columns(width: u32, cells: &[u32]) -> Result<Vec<u32>, Refusal> {
    let mut output = vec![0; cells.len()];
    lent::from_columns(width, cells, &mut output)?;
    Ok(output)
}

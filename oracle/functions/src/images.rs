//! Images of the library beside the reference model's, word for word: texts of every length, and row counts about powers of two. So
//! the last word is the CRC-32 of bodies of all these lengths, which the reference model computes bit by bit.

use calls::{Header, Held};
use mouldgrey::lent;
use random::Rng;
use reference::images::{Image, LONGEST_TEXT, crc32};

const GUARD: u32 = 0x600d_f00d;

/// A sound table of so many rows of one column, without staged records.
struct Table {
    header: Header,
    rows: Vec<u32>,
    sorts: Vec<u32>,
}

/// Each row has a sort entry of its own: the one column is key and sort column.
fn table(rows: u32, rng: &mut Rng) -> Table {
    let first = rng.below(1 << 20);
    let cells: Vec<u32> = (first..first + rows).collect();
    let sorts = cells.iter().zip(0..).flat_map(|(&cell, row)| [cell, row]);
    let sorts: Vec<u32> = sorts.collect();
    Table {
        header: Header {
            columns: 1,
            keys: 1,
            capacity: rows.max(1),
            rows,
            entries: rows,
            generation: rng.number(),
            largest: cells.last().copied(),
            ..Header::default()
        },
        rows: cells,
        sorts,
    }
}

fn compare_one(table: &Table, text: &[u8]) -> Result<usize, String> {
    let h = &table.header;
    // Stores are as long as the capacity needs.
    let mut stores = (table.rows.clone(), table.sorts.clone());
    stores.0.resize(h.capacity as usize, GUARD);
    stores.1.resize(2 * h.capacity as usize, GUARD);
    let held = Held {
        header: *h,
        rows: &stores.0,
        keys: &[],
        sorts: &stores.1,
        pending: &[],
    };
    let expected = Image::of(&held, text).words();
    let header = mouldgrey::Header::from_words(h.words());
    let mut image = vec![GUARD; expected.len() + 1];
    let written = lent::write_image(&header, &stores.0, &stores.1, &[], text, &mut image);
    let (rows, bytes) = (h.rows, text.len());
    if written != Ok(expected.len()) {
        return Err(format!("image of {rows} rows, {bytes} bytes: {written:?}"));
    }
    if image.pop() != Some(GUARD) || image != expected {
        return Err(format!("image of {rows} rows, {bytes} bytes: other words"));
    }
    match lent::check_image(&image) {
        Ok(checked) if checked == header => Ok(expected.len()),
        checked => Err(format!("image of {rows} rows, {bytes} bytes: {checked:?}")),
    }
}

/// Row counts: all small ones, and those about powers of two up to the most.
fn row_counts() -> Vec<u32> {
    let about = |power: u32| [(1 << power) - 1, 1 << power, (1 << power) + 1];
    let large = (9..=16).flat_map(about).filter(|&rows| rows <= 65_536);
    (0..=400).chain(large).collect()
}

pub fn compare() -> Result<String, String> {
    // The check value of zlib's CRC-32, of the bytes "12345678".
    let known = [u32::from_le_bytes(*b"1234"), u32::from_le_bytes(*b"5678")];
    if crc32(&known) != 0x9ae0_daaf {
        return Err("the reference model's CRC-32 of a known text".to_string());
    }
    let mut rng = Rng::new(19);
    let (mut images, mut words) = (0u64, 0);
    let empty = table(0, &mut rng);
    for length in 0..=LONGEST_TEXT {
        let text: Vec<u8> = (0..length).map(|_| rng.next_u64() as u8).collect();
        words += compare_one(&empty, &text)?;
        images += 1;
    }
    for rows in row_counts() {
        words += compare_one(&table(rows, &mut rng), b"levels")?;
        images += 1;
    }
    Ok(format!(
        "images: {images} of {words} words, checksums of texts of every length and of up to 65536 rows"
    ))
}

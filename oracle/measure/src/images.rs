//! Images of a full table of 65,536 rows of eight columns, beside plain Rust: a CRC-32 by tables, eight bytes at a time; the same words
//! written by copies; and a reader that checks the checksum, the rows and the sort entries and finds keys by a `HashMap` with the Rust's `FxHasher`.

use crate::report::Report;
use mouldgrey::{Header, Opening, Rule, lent};
use rustc_hash::FxHasher;
use std::collections::HashMap;
use std::hash::BuildHasherDefault;
use std::hint::black_box;

const ROWS: usize = 65_536;
const COLUMNS: usize = 8;
const KEYS: u32 = 2;
const SORT: usize = 3;
/// So many rows have one sort value.
const ROWS_OF_VALUE: usize = 1_000;

const OPENING: Opening = Opening {
    columns: COLUMNS as u32,
    keys: KEYS,
    sort: SORT as u32,
    rule: Rule::TakeNew,
    capacity: ROWS as u32,
    generation: 0,
};

/// Entry `[0][b]` is what the byte b adds to a CRC-32, entry `[n][b]` the same with n zero bytes behind it.
const TABLES: [[u32; 256]; 8] = tables();

const fn tables() -> [[u32; 256]; 8] {
    let mut tables = [[0; 256]; 8];
    let mut byte = 0;
    while byte < 256 {
        let mut crc = byte as u32;
        let mut bit = 0;
        while bit < 8 {
            crc = (crc >> 1) ^ (0xedb8_8320 * (crc & 1));
            bit += 1;
        }
        tables[0][byte] = crc;
        byte += 1;
    }
    let mut place = 256;
    while place < 8 * 256 {
        let (behind, byte) = (place / 256, place % 256);
        let before = tables[behind - 1][byte];
        tables[behind][byte] = (before >> 8) ^ tables[0][(before & 255) as usize];
        place += 1;
    }
    tables
}

/// The CRC-32 of the words' bytes, two words at a time.
fn crc32(words: &[u32]) -> u32 {
    let at =
        |table: usize, word: u32, byte: u32| TABLES[table][(word >> (8 * byte)) as usize & 255];
    let pairs = words.chunks_exact(2);
    let last = pairs.remainder().first();
    let mut crc = !0;
    for pair in pairs {
        let (low, high) = (pair[0] ^ crc, pair[1]);
        crc = at(7, low, 0)
            ^ at(6, low, 1)
            ^ at(5, low, 2)
            ^ at(4, low, 3)
            ^ at(3, high, 0)
            ^ at(2, high, 1)
            ^ at(1, high, 2)
            ^ at(0, high, 3);
    }
    if let Some(word) = last {
        let low = word ^ crc;
        crc = at(3, low, 0) ^ at(2, low, 1) ^ at(1, low, 2) ^ at(0, low, 3);
    }
    !crc
}

/// A full table's header and stores.
struct Table {
    header: Header,
    rows: Vec<u32>,
    keys: Vec<u32>,
    sorts: Vec<u32>,
    pending: Vec<u32>,
}

fn full_table() -> Table {
    let mut table = Table {
        header: Header::default(),
        rows: vec![0; ROWS * COLUMNS],
        keys: vec![0; 2 * ROWS],
        sorts: vec![0; 2 * ROWS],
        pending: vec![0; ROWS * (COLUMNS + 2)],
    };
    let (mut live, mut base) = (vec![0; ROWS / 64], vec![0; ROWS / 64]);
    let t = &mut table;
    lent::open_table(
        &OPENING,
        &mut t.header,
        &t.rows,
        &mut t.keys,
        &t.sorts,
        &t.pending,
    )
    .expect("an opening");
    for row in 0..ROWS {
        let mut cells = [0; COLUMNS].map(|_: u32| (row as u32).wrapping_mul(2_654_435_761));
        cells[0] >>= 1;
        cells[SORT] = (row / ROWS_OF_VALUE) as u32;
        lent::stage_insert(&mut t.header, &mut t.pending, &cells).expect("space for all rows");
    }
    let merged = lent::merge(
        &mut t.header,
        &mut t.rows,
        &mut t.keys,
        &mut t.sorts,
        &t.pending,
        &mut live,
        &mut base,
    );
    assert!(merged.is_ok() && table.header.rows as usize == ROWS);
    table
}

/// Before rows, sort entries and pending words: magic and format, header, length of the text.
const HEAD: usize = 15;

fn write_ours(t: &Table, image: &mut [u32]) -> usize {
    lent::write_image(&t.header, &t.rows, &t.sorts, &t.pending, b"", image).expect("an image")
}

/// The same words, by copies.
fn write_theirs(t: &Table, image: &mut [u32]) -> usize {
    let entries = 2 * t.header.entries as usize;
    image[..2].copy_from_slice(&[0x4254_474d, 1]);
    image[2..HEAD - 1].copy_from_slice(&t.header.words());
    image[HEAD - 1] = 0;
    let (rows, behind) = image[HEAD..].split_at_mut(ROWS * COLUMNS);
    rows.copy_from_slice(&t.rows);
    behind[..entries].copy_from_slice(&t.sorts[..entries]);
    let end = HEAD + ROWS * COLUMNS + entries;
    image[end] = crc32(&image[..end]);
    end + 1
}

/// What the Rust makes of an image: the stores, and where each key's row is.
#[derive(Default)]
struct Read {
    rows: Vec<u32>,
    sorts: Vec<u32>,
    keys: HashMap<u64, u32, BuildHasherDefault<FxHasher>>,
}

/// Checks the checksum, that rows have the values of their sort entries and that keys differ, and copies.
fn read_theirs(image: &[u32], read: &mut Read) -> bool {
    let (last, body) = image.split_last().expect("a checksum");
    let (rows, sorts) = body[HEAD..].split_at(ROWS * COLUMNS);
    if crc32(body) != *last {
        return false;
    }
    read.rows.copy_from_slice(rows);
    read.sorts[..sorts.len()].copy_from_slice(sorts);
    read.keys.clear();
    let entries: Vec<&[u32]> = sorts.chunks(2).collect();
    let mut entry = 0;
    for (number, row) in rows.chunks(COLUMNS).enumerate() {
        let next = entries.get(entry + 1);
        entry += usize::from(next.is_some_and(|pair| pair[1] as usize == number));
        let key = (u64::from(row[0]) << 32) | u64::from(row[1]);
        if row[SORT] != entries[entry][0] || read.keys.insert(key, number as u32).is_some() {
            return false;
        }
    }
    true
}

pub fn images(report: &mut Report) {
    let table = full_table();
    let size = lent::image_size(&table.header, 0).expect("a size");
    let (mut image, mut same) = (vec![0; size], vec![0; size]);
    assert_eq!(write_ours(&table, &mut image), size);
    assert_eq!(write_theirs(&table, &mut same), size);
    assert!(image == same, "the two write other words");
    let (body, mut text) = (&image[..size - 1], []);
    // Reading the text reads the whole image and makes no other check than that of the checksum that takes time.
    report.compare(
        "image: checksum of 65,536 rows of 8, each row",
        ROWS,
        || lent::read_image_text(black_box(&image), &mut text),
        || crc32(black_box(body)),
    );
    let (mut one, mut other) = (image.clone(), same);
    report.compare(
        "image: write 65,536 rows of 8, each row",
        ROWS,
        || write_ours(black_box(&table), &mut one),
        || write_theirs(black_box(&table), &mut other),
    );
    let mut into = full_table();
    let mut read = Read {
        rows: vec![0; ROWS * COLUMNS],
        sorts: vec![0; 2 * ROWS],
        keys: HashMap::with_capacity_and_hasher(ROWS, BuildHasherDefault::default()),
    };
    report.compare(
        "image: read 65,536 rows of 8, each row",
        ROWS,
        || {
            lent::read_image(
                black_box(&image),
                0,
                &mut into.header,
                &mut into.rows,
                &mut into.keys,
                &mut into.sorts,
                &mut into.pending,
            )
        },
        || read_theirs(black_box(&image), &mut read),
    );
}

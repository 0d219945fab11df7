//! Images: the worked one of docs/FORMAT.md, each way to be no image, each clause of soundness, each refusal, and a reload.

use super::*;
use crate::images::{
    Image, LONGEST_TEXT, check_image, crc32, image_length, read_image, read_image_text,
    test_image_size, test_write_image,
};
use calls::{DEAD, Held};

const TEXT: &[u8] = b"modem, side, level in 0.1 dB, stamp in s from 2020";

/// Of the worked image, from its byte 0x70 on: rows, sort entries, a pending record, the checksum.
const WORDS: [u32; 21] = [
    DEAD,
    1,
    160,
    10,
    7,
    2,
    148,
    10,
    7,
    1,
    163,
    12,
    10,
    0,
    12,
    2,
    1,
    0xd4fd_8510,
    7,
    2,
    0x0798_8f13,
];

fn table() -> Reference {
    let mut table = opened([4, 2, 3, 1, 100, 0]);
    insert(&mut table, &[7, 1, 160, 10]);
    insert(&mut table, &[7, 2, 148, 10]);
    table.call(&LENT, &Call::Merge);
    insert(&mut table, &[7, 1, 163, 12]);
    table.call(&LENT, &Call::Merge);
    remove_key(&mut table, &[7, 2]);
    table
}

fn image(text: &[u8]) -> Image {
    let table = table();
    let expected = table.expected();
    let held = Held {
        header: expected.header,
        rows: expected.rows,
        keys: &[],
        sorts: expected.sorts,
        pending: expected.pending,
    };
    Image::of(&held, text)
}

/// The words with a change, and a right checksum.
fn changed(change: impl Fn(&mut Vec<u32>)) -> Vec<u32> {
    let mut words = image(TEXT).words();
    change(&mut words);
    words.pop();
    words.push(crc32(&words));
    words
}

#[test]
fn the_worked_image() {
    let words = image(TEXT).words();
    assert_eq!(words.len(), 49);
    assert_eq!(words[..2], [0x4254_474d, 1]);
    assert_eq!(words[2..14], [4, 2, 3, 1, 100, 3, 1, 2, 4, 0, 1, 12]);
    assert_eq!(words[14..16], [50, u32::from_le_bytes(*b"mode")]);
    assert_eq!(words[27], u32::from_le_bytes(*b"20\0\0"));
    assert_eq!(words[28..], WORDS);
    assert_eq!(image_length(&image(TEXT).header, TEXT.len()), 49);
    assert_eq!(Image::read(&words), Some(image(TEXT)));
    assert_eq!(check_image(&words), Ok(image(TEXT)));
    assert_eq!(read_image_text(&words, TEXT.len()), Ok(TEXT.to_vec()));
}

#[test]
fn a_known_checksum() {
    let known = [u32::from_le_bytes(*b"1234"), u32::from_le_bytes(*b"5678")];
    assert_eq!(crc32(&known), 0x9ae0_daaf);
    assert_eq!(crc32(&[]), 0);
    // Of a whole image, its checksum included.
    assert_eq!(crc32(&image(b"").words()), 0x2144_df1c);
}

#[test]
fn no_image() {
    let words = image(TEXT).words();
    for length in 0..words.len() {
        assert_eq!(check_image(&words[..length]).err(), Some(19), "{length}");
    }
    for bit in 0..32 * words.len() {
        let mut other = words.clone();
        other[bit / 32] ^= 1 << (bit % 32);
        assert_eq!(check_image(&other).err(), Some(19), "{bit}");
    }
    let is_none = |change: &dyn Fn(&mut Vec<u32>)| check_image(&changed(change)).err() == Some(19);
    assert!(is_none(&|words| words[0] += 1));
    assert!(is_none(&|words| words[1] = 2));
    // One after another a header's numbers outside their bounds.
    for (place, word) in [
        (2, 0),
        (2, 9),
        (3, 0),
        (3, 5),
        (4, 4),
        (5, 4),
        (6, 2),
        (6, 65_537),
    ] {
        assert!(is_none(&|words| words[place] = word), "{place}");
    }
    for (place, word) in [(8, 4), (9, 4), (12, 2), (12, 0)] {
        assert!(is_none(&|words| words[place] = word), "{place}");
    }
    // Counts that do not fit the length.
    for place in [7, 9, 10, 14] {
        assert!(is_none(&|words| words[place] += 4), "{place}");
    }
    assert!(is_none(&|words| words.insert(40, 0)));
    // Padding.
    assert!(is_none(&|words| words[27] |= 1 << 31));
    assert!(is_none(&|words| words[14] = LONGEST_TEXT as u32 + 1));
}

#[test]
fn unsound_images() {
    let number = |place: usize, word: u32| {
        let words = changed(|words| words[place] = word);
        check_image(&words).err()
    };
    for (place, word) in [
        (8, 0),   // the dead count
        (33, 1),  // the key of another live row
        (40, 11), // sort entries: a value, a first row
        (41, 1),
        (43, 3),
        (31 + 4, 11), // a sort cell
        (13, 11),     // the largest value
        (44, 3),      // a record's kind, its hash, its key
        (45, 0),
        (46, 8),
    ] {
        assert_eq!(number(place, word), Some(20), "{place}");
    }
    // What soundness does not speak of: capacity, rule, generation, other cells, cells of a dead row, a larger largest.
    for (place, word) in [(6, 3), (5, 3), (11, 9), (34, 9), (31, 9), (13, 13)] {
        assert_eq!(number(place, word), None, "{place}");
    }
}

#[test]
fn refusals() {
    let (h, words) = (image(TEXT).header, image(TEXT).words());
    assert_eq!(test_image_size(&h, LONGEST_TEXT), Ok(()));
    assert_eq!(test_image_size(&h, LONGEST_TEXT + 1), Err(21));
    assert_eq!(
        test_image_size(&calls::Header::default(), usize::MAX),
        Err(1)
    );
    let lent = |rows, sort_entries, pending| Lengths {
        rows,
        sort_entries,
        pending,
        ..LENT
    };
    let write = |lent, text, output| test_write_image(&h, &lent, text, output);
    assert_eq!(write(lent(400, 200, 4), 50, 49), Ok(()));
    assert_eq!(write(lent(399, 200, 3), 5_000, 0), Err(1));
    assert_eq!(write(lent(399, 200, 4), 5_000, 0), Err(2));
    assert_eq!(write(lent(400, 199, 4), 5_000, 0), Err(2));
    assert_eq!(write(lent(400, 200, 4), 4_097, 0), Err(21));
    assert_eq!(write(lent(400, 200, 4), 50, 48), Err(2));
    let read = |capacity, lent: Lengths| {
        let read = read_image(&words, capacity, &lent);
        read.map(|image| image.header.capacity)
    };
    assert_eq!(read(0, lent(400, 200, 4)), Ok(100));
    assert_eq!(read(3, lent(12, 6, 4)), Ok(3));
    assert_eq!(read(101, lent(404, 202, 4)), Ok(101));
    assert_eq!(read(2, lent(0, 0, 0)), Err(1));
    assert_eq!(read(65_537, lent(0, 0, 0)), Err(1));
    for short in [lent(399, 200, 4), lent(400, 199, 4), lent(400, 200, 3)] {
        assert_eq!(read(0, short), Err(2));
    }
    assert_eq!(read(129, lent(516, 258, 4)), Err(2));
    let unsound = changed(|words| words[8] = 0);
    assert_eq!(read_image(&unsound, 2, &lent(0, 0, 0)).err(), Some(20));
    assert_eq!(read_image_text(&unsound, 50), Ok(TEXT.to_vec()));
    assert_eq!(read_image_text(&unsound, 49), Err(2));
    assert_eq!(read_image_text(&words[1..], 0), Err(19));
}

#[test]
fn a_reload_keeps_the_table() {
    let mut other = table();
    assert_eq!(Reference::new().reload(&LENT, 0), Answer::Refused(1));
    assert_eq!(other.reload(&LENT, 2), Answer::Refused(1));
    assert_eq!(
        other.reload(&Lengths { rows: 399, ..LENT }, 0),
        Answer::Refused(2)
    );
    assert_eq!(other.reload(&LENT, 120), Answer::Done);
    assert_eq!(other.contents(), table().contents());
    let header = other.header();
    assert_eq!((header.capacity, header.pending), (120, 4));
    // Words that are not in use do not come along.
    assert_eq!(other.expected().pending.len(), 4);
    assert_eq!(other.call(&LENT, &Call::Merge), {
        let mut table = table();
        table.call(&LENT, &Call::Merge)
    });
}

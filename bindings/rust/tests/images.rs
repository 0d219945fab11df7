//! Images of tables: what is saved is loaded, and damage is refused.

use mouldgrey::{
    Error, Header, LONGEST_TEXT, Opening, Refusal, Rule, Stop, StopReason, Stores, Table,
    check_image, image_text, lent,
};

const OPENING: Opening = Opening {
    columns: 3,
    keys: 1,
    sort: 2,
    rule: Rule::TakeNew,
    capacity: 40,
    generation: 5,
};

/// Six rows, of which two are dead, and three staged records.
fn table() -> Table {
    let mut table = Table::new(&OPENING, 200).expect("a table");
    for key in 0..5 {
        table.stage_insert(&[key, 10 * key, key / 2]).expect("room");
    }
    table.merge().expect("a merge");
    table.stage_insert(&[3, 31, 7]).expect("room");
    table.stage_remove(&[4]).expect("room");
    table.merge().expect("a merge");
    table.stage_insert(&[9, 90, 8]).expect("room");
    table.stage_remove(&[0]).expect("room");
    table.stage_remove_row(1, &[1]).expect("room");
    table
}

fn rows(table: &Table) -> Vec<(u32, Vec<u32>)> {
    table
        .rows()
        .map(|row| (row.id, row.cells.to_vec()))
        .collect()
}

/// The words in use of the stores.
fn in_use(stores: &Stores) -> (Header, Vec<u32>, Vec<u32>, Vec<u32>) {
    let Header {
        columns,
        rows,
        entries,
        pending,
        ..
    } = stores.header;
    (
        stores.header,
        stores.rows[..(rows * columns) as usize].to_vec(),
        stores.sorts[..2 * entries as usize].to_vec(),
        stores.pending[..pending as usize].to_vec(),
    )
}

fn refused(refusal: Refusal) -> Error {
    Error::Refused(refusal)
}

#[test]
fn round_trip() {
    let table = table();
    let bytes = table.save("six rows").expect("an image");
    assert_eq!(check_image(&bytes), Ok(*table.header()));
    let mut loaded = Table::load(&bytes, 0).expect("a table");
    assert_eq!(in_use(loaded.stores()), in_use(table.stores()));
    assert_eq!(loaded.is_sound(), Ok(true));
    assert_eq!(loaded.save("six rows").expect("an image"), bytes);
    assert_eq!(
        loaded.stores().pending.len(),
        table.header().pending as usize
    );
    // Both go on in the same way.
    let mut table = table;
    assert_eq!(loaded.merge(), table.merge());
    assert_eq!(rows(&loaded), rows(&table));
    assert_eq!(loaded.save(""), table.save(""));
}

#[test]
fn an_empty_table() {
    let table = Table::new(&OPENING, 0).expect("a table");
    let bytes = table.save("").expect("an image");
    assert_eq!(bytes.len(), 64);
    let mut loaded = Table::load(&bytes, 5).expect("a table");
    assert_eq!(loaded.version(), table.version());
    loaded.stage_insert(&[1, 2, 3]).expect("room");
    assert!(loaded.merge().is_ok_and(|merged| merged.added));
}

#[test]
fn stores_that_were_not_cleared() {
    let mut used = table();
    used.merge().expect("a merge");
    used.open(&OPENING).expect("numbers within their bounds");
    let new = Table::new(&OPENING, 0).expect("a table");
    assert_eq!(used.save(""), new.save(""));
}

#[test]
fn growth() {
    let opening = Opening {
        capacity: 3,
        ..OPENING
    };
    let mut small = Table::new(&opening, 200).expect("a table");
    for key in 0..4 {
        small.stage_insert(&[key, 0, 1]).expect("room");
    }
    let stop = Stop {
        reason: StopReason::TableFull,
        place: 3,
    };
    assert_eq!(small.merge(), Err(Error::Stopped(stop)));
    let bytes = small.save("").expect("an image");
    let load = |capacity| Table::load_with_capacity(&bytes, capacity, 200);
    let mut large = load(1000).expect("a table");
    assert_eq!(rows(&large), rows(&small));
    assert_eq!(large.version(), small.version());
    assert_eq!(large.is_sound(), Ok(true));
    for key in 3..40 {
        large.stage_insert(&[key, 0, 1]).expect("room");
    }
    assert!(large.merge().is_ok_and(|merged| merged.added));
    assert_eq!(large.rows().count(), 40);
    assert_eq!(load(3).expect("a table").header(), small.header());
    assert_eq!(load(0).expect("a table").header(), small.header());
    for capacity in [2, 65_537, u32::MAX] {
        assert_eq!(load(capacity).unwrap_err(), refused(Refusal::OutOfBounds));
    }
    assert_eq!(load(65_536).expect("a table").is_sound(), Ok(true));
}

#[test]
fn every_changed_bit_is_refused() {
    let mut bytes = table().save("text").expect("an image");
    for bit in 0..8 * bytes.len() {
        bytes[bit / 8] ^= 1 << (bit % 8);
        assert_eq!(check_image(&bytes), Err(Refusal::NoImage), "bit {bit}");
        assert_eq!(image_text(&bytes), Err(Refusal::NoImage), "bit {bit}");
        let heard = Table::load(&bytes, 0).unwrap_err();
        assert_eq!(heard, refused(Refusal::NoImage), "bit {bit}");
        bytes[bit / 8] ^= 1 << (bit % 8);
    }
    assert!(check_image(&bytes).is_ok());
}

#[test]
fn other_lengths_are_refused() {
    let bytes = table().save("text").expect("an image");
    for length in 0..bytes.len() {
        assert_eq!(check_image(&bytes[..length]), Err(Refusal::NoImage));
    }
    for more in 1..9 {
        let longer = [&bytes[..], &vec![0; more]].concat();
        assert_eq!(check_image(&longer), Err(Refusal::NoImage));
    }
}

#[test]
fn unsound_tables_are_refused() {
    let mut stores = table().into_stores();
    // Row 2 gets the key of row 0.
    stores.rows[6] = stores.rows[0];
    let s = &stores;
    let mut image = vec![0; lent::image_size(&s.header, 2).expect("a size")];
    let written = lent::write_image(&s.header, &s.rows, &s.sorts, &s.pending, b"ok", &mut image);
    assert_eq!(written, Ok(image.len()));
    assert_eq!(lent::check_image(&image), Err(Refusal::UnsoundImage));
    let bytes: Vec<u8> = image.iter().flat_map(|word| word.to_le_bytes()).collect();
    let heard = Table::load(&bytes, 0).unwrap_err();
    assert_eq!(heard, refused(Refusal::UnsoundImage));
    assert_eq!(image_text(&bytes).as_deref(), Ok(&b"ok"[..]));
}

#[test]
fn texts() {
    let table = table();
    for length in [0, 1, 2, 3, 4, 5, LONGEST_TEXT - 1, LONGEST_TEXT] {
        let text: Vec<u8> = (0..length).map(|place| place as u8).collect();
        let bytes = table.save(&text).expect("an image");
        assert_eq!(image_text(&bytes), Ok(text));
        let loaded = Table::load(&bytes, 0).expect("a table");
        assert_eq!(in_use(loaded.stores()), in_use(table.stores()));
    }
    let long = vec![0; LONGEST_TEXT + 1];
    assert_eq!(table.save(&long), Err(refused(Refusal::TextTooLong)));
}

#[test]
fn refused_calls_change_nothing() {
    let table = table();
    let s = table.stores();
    let size = lent::image_size(&s.header, 0).expect("a size");
    let mut short = vec![7; size - 1];
    let heard = lent::write_image(&s.header, &s.rows, &s.sorts, &s.pending, b"", &mut short);
    assert_eq!(heard, Err(Refusal::TooShort));
    assert!(short.iter().all(|&word| word == 7));
    let mut image = vec![7; size + 1];
    let heard = lent::write_image(&s.header, &s.rows, &s.sorts, &s.pending, b"", &mut image);
    assert_eq!(heard, Ok(size));
    assert_eq!(image.pop(), Some(7));
    // Each store short by a word.
    let lengths = s.header.lengths();
    let pending = s.header.pending as usize;
    for which in 0..4 {
        let long = |store: usize, words: usize| vec![7_u32; words - usize::from(store == which)];
        let mut read = Stores {
            header: Header::default(),
            rows: long(0, lengths.rows),
            keys: long(1, lengths.keys),
            sorts: long(2, lengths.sorts),
            pending: long(3, pending),
        };
        let before = read.clone();
        let heard = lent::read_image(
            &image,
            0,
            &mut read.header,
            &mut read.rows,
            &mut read.keys,
            &mut read.sorts,
            &mut read.pending,
        );
        assert_eq!(heard, Err(Refusal::TooShort), "store {which}");
        assert_eq!(read, before);
    }
}

//! The worked dumps of docs/FORMAT.md are what the library leaves, byte for byte, and its worked hash is the one in the dump.

use mouldgrey::{Opening, Rule, Stores, Table, ValueIndex, to_columns};
use std::collections::BTreeMap;
use std::fs;

fn page() -> String {
    let file = concat!(env!("CARGO_MANIFEST_DIR"), "/../../docs/FORMAT.md");
    fs::read_to_string(file).expect("docs/FORMAT.md")
}

/// The bytes of each store in the dump of this name, by their places. Bytes that are not shown are zero.
fn dump(name: &str) -> BTreeMap<String, BTreeMap<usize, u8>> {
    let page = page();
    let (_, rest) = page
        .split_once(&format!("```dump {name}\n"))
        .expect("a dump of this name");
    let (lines, _) = rest.split_once("```").expect("an end of the dump");
    let mut stores = BTreeMap::new();
    let mut store = String::new();
    for line in lines.lines() {
        let Some((place, bytes)) = line.split_once("  ") else {
            store = line.to_string();
            stores.insert(store.clone(), BTreeMap::new());
            continue;
        };
        let place = usize::from_str_radix(place, 16).expect("a place");
        let shown = stores.get_mut(&store).expect("a store's name");
        for (step, byte) in bytes.split(' ').enumerate() {
            let byte = u8::from_str_radix(byte, 16).expect("a byte");
            shown.insert(place + step, byte);
        }
    }
    stores
}

/// A dump's stores are these.
fn compare(name: &str, stores: &Stores) {
    let header = stores.header.words();
    compare_words(
        name,
        &[
            ("header", &header[..]),
            ("rows", &stores.rows),
            ("keys", &stores.keys),
            ("sorts", &stores.sorts),
            ("pending", &stores.pending),
        ],
    );
}

fn compare_words(name: &str, stores: &[(&str, &[u32])]) {
    let dump = dump(name);
    for &(store, words) in stores {
        let shown = &dump[store];
        let bytes: Vec<u8> = words.iter().flat_map(|word| word.to_le_bytes()).collect();
        for (place, &byte) in bytes.iter().enumerate() {
            let expected = shown.get(&place).copied().unwrap_or(0);
            assert_eq!(expected, byte, "{name}, {store}, byte {place:#x}");
        }
        let last = shown.keys().next_back().copied().unwrap_or(0);
        assert!(last < bytes.len(), "{name}, {store}: bytes past the store");
    }
}

/// The page's table after its first merge.
fn two_rows() -> Table {
    let opening = Opening {
        columns: 4,
        keys: 2,
        sort: 3,
        rule: Rule::TakeNew,
        capacity: 100,
        generation: 0,
    };
    let mut table = Table::new(&opening, 64).expect("a table");
    for cells in [[7, 1, 160, 10], [7, 2, 148, 10]] {
        table.stage_insert(&cells).expect("room");
    }
    table.merge().expect("a merge");
    table
}

#[test]
fn worked_index() {
    let mut index = ValueIndex::new();
    let heard = two_rows().refresh_rows_for_values(&mut index, &[0, 1], &[2], 10);
    assert_eq!(heard, Ok(true));
    compare_words("index", &[("index", index.words())]);
    let page = page();
    for (value, bucket) in [(2_u32, 1), (7, 2)] {
        let hash = value.wrapping_mul(2_654_435_769);
        assert_eq!((u64::from(hash) * 8) >> 32, bucket);
        assert!(value != 2 || page.contains(&format!("mod 2^32 = {hash}, times 8 div 2^32 = 1")));
    }
}

#[test]
fn worked_dump() {
    let mut table = two_rows();
    table.stage_insert(&[7, 1, 163, 12]).expect("room");
    table.stage_remove(&[7, 2]).expect("room");
    compare("before", table.stores());
    table.merge().expect("a merge");
    compare("after", table.stores());
}

#[test]
fn worked_columns() {
    let columns = to_columns(2, &[1, 10, 6, 10, 5, 12]).expect("whole rows");
    let bytes: Vec<u8> = columns.iter().flat_map(|word| word.to_le_bytes()).collect();
    let shown: Vec<u8> = dump("columns")["cells"].values().copied().collect();
    assert_eq!(shown, bytes);
}

/// The three steps of the page, and the line of the page's table that shows them.
fn step(hash: u64, cell: u64) -> (u64, String) {
    let sum = (hash + cell + 2_654_435_761) % (1 << 32);
    let exchanged = sum % (1 << 16) * (1 << 16) + sum / (1 << 16);
    let product = sum * exchanged;
    let next = (product / (1 << 31) + product % (1 << 32)) % (1 << 32);
    let before = match hash {
        0 => "0".to_string(),
        _ => format!("{hash:#x}"),
    };
    let line =
        format!("| {cell} | {before} | {sum:#x} | {exchanged:#x} | {product:#x} | {next:#x} |");
    (next, line)
}

#[test]
fn worked_hash() {
    let page = page();
    let mut hash = 0;
    for cell in [7, 1] {
        let (next, line) = step(hash, cell);
        assert!(page.contains(&line), "{line}");
        hash = next;
    }
    assert!(page.contains(&format!("{hash:#x} = {hash} times 200 div 2^32 = 34")));
    assert_eq!((hash * 200) >> 32, 34);
    assert_eq!(hash % (1 << 15), 22_827);
    let (other, _) = step(step(0, 7).0, 2);
    assert!(page.contains(&format!("has the hash {other:#x}, home 166")));
    assert_eq!((other * 200) >> 32, 166);
}

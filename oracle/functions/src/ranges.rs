//! Fast ranges on the sort entries of the Rust's own tables, against its `fast_subset`.

use calls::{Answer, Call, Condition, Implementation, Lengths, Opening, Query, Subset};
use random::Rng;
use rust_table::RustTable;

const AMPLE: Lengths = Lengths {
    rows: usize::MAX,
    keys: usize::MAX,
    sort_entries: usize::MAX,
    pending: usize::MAX,
    live_words: usize::MAX,
    base_words: usize::MAX,
    index: 0,
};

/// A table with random entries, dead rows among its rows.
fn table(rng: &mut Rng) -> RustTable {
    let mut table = RustTable::default();
    let opening = Opening {
        columns: 2,
        keys: 1,
        sort: 1,
        rule: 0,
        capacity: 65_536,
        generation: 0,
    };
    table.call(&AMPLE, &Call::Open(opening));
    let mut stamp = rng.below(3);
    for key in 0..rng.below(60) {
        stamp += [0, 0, 1, 2, 1_000][rng.below(5) as usize];
        table.call(&AMPLE, &Call::Insert(vec![key, stamp]));
        if rng.below(4) == 0 {
            table.call(&AMPLE, &Call::Merge);
            table.call(&AMPLE, &Call::RemoveKey(vec![rng.below(key + 1)]));
        }
    }
    table.call(&AMPLE, &Call::Merge);
    table
}

pub fn fast_ranges() -> Result<String, String> {
    let mut rng = Rng::new(9);
    let mut ranges = 0u64;
    for _ in 0..4_000 {
        let table = table(&mut rng);
        let contents = table.contents();
        let sorts: Vec<u32> = contents
            .sort_entries
            .iter()
            .flat_map(|&(value, row)| [value, row])
            .collect();
        for _ in 0..60 {
            let near = rng.place(sorts.len() + 1);
            let value = sorts.get(near & !1).map_or(rng.number(), |value| {
                value.wrapping_add(rng.below(3)).wrapping_sub(1)
            });
            let kind = 1 + rng.below(5);
            let expected = table.query(
                &AMPLE,
                &Query::FastRange(Condition {
                    kind,
                    a: 1,
                    b: value,
                }),
            );
            let (start, end) = single_parts::fast_range(
                &sorts,
                contents.sort_entries.len() as u32,
                contents.rows,
                kind,
                value,
            );
            if expected != Answer::Subset(Subset::Range(start, end)) {
                return Err(format!(
                    "kind {kind}, value {value}, entries {sorts:?}: {start}..{end}, not {expected:?}"
                ));
            }
            ranges += 1;
        }
    }
    Ok(format!("fast ranges: {ranges}"))
}

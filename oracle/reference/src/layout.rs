//! The library's own choices, which the paper leaves to it, as docs/DECISIONS.md gives them, and docs/FORMAT.md with all their
//! numbers: the key hash, the key store's slots, the pending store's records.

use crate::Staged;
use calls::Header;

/// The hash of a key: for each cell "the hash so far, the cell and a constant are added, the sum is multiplied by itself with
/// its halves exchanged, and the product's upper part is added to its lower half". The upper part is one bit wider. This is
/// the compact hash too, which "keeps all" of its 32 bits.
pub fn key_hash(key: &[u32]) -> u32 {
    key.iter().fold(0, |hash: u32, &cell| {
        let sum = hash.wrapping_add(cell).wrapping_add(2_654_435_761);
        let product = u64::from(sum) * u64::from(sum.rotate_left(16));
        ((product >> 31) as u32).wrapping_add(product as u32)
    })
}

/// "A row's number plus 1 in the low 17 bits with 15 bits of the key's compact hash above", "the low ones".
pub fn slot_word(key: &[u32], row: u32) -> u32 {
    (key_hash(key) % (1 << 15)) << 17 | (row + 1)
}

/// The row that a slot's word names, if it names any.
pub fn row_of(word: u32) -> Option<u32> {
    (word % (1 << 17)).checked_sub(1)
}

/// "The first 2 × room are in use. The room is the least of 128, 512, 2,048, 8,192 and 65,536 that is not below the row count, but
/// at most the capacity."
pub fn slots_in_use(capacity: u32, rows: u32) -> usize {
    let steps = [128, 512, 2_048, 8_192, 65_536];
    let step = steps.into_iter().find(|&step| rows <= step);
    2 * step.map_or(capacity, |step| step.min(capacity)) as usize
}

/// "A key's home slot is its compact hash times the number of slots in use over 2^32."
pub fn home(key: &[u32], slots: usize) -> usize {
    ((u64::from(key_hash(key)) * slots as u64) >> 32) as usize
}

/// "A record is its kind (0 insert, 1 removal by key, 2 removal by row), the compact hash of its key, for a removal by row the
/// row, and its cells."
pub fn record(keys: u32, staged: &Staged) -> Vec<u32> {
    match staged {
        Staged::Insert(cells) => {
            let hash = key_hash(&cells[..keys as usize]);
            [&[0, hash], cells.as_slice()].concat()
        }
        Staged::RemoveKey(key) => [&[1, key_hash(key)], key.as_slice()].concat(),
        Staged::RemoveRow(row, key) => [&[2, key_hash(key), *row], key.as_slice()].concat(),
    }
}

/// The records in these words, if they are whole.
pub fn records(h: &Header, mut words: &[u32]) -> Option<Vec<Staged>> {
    let mut staged = Vec::new();
    while let Some(&kind) = words.first() {
        let (before, cells) = match kind {
            0 => (2, h.columns),
            1 => (2, h.keys),
            2 => (3, h.keys),
            _ => return None,
        };
        let (own, rest) = words.split_at_checked(before + cells as usize)?;
        let cells = own[before..].to_vec();
        if own[1] != key_hash(&cells[..h.keys as usize]) {
            return None;
        }
        staged.push(match kind {
            0 => Staged::Insert(cells),
            1 => Staged::RemoveKey(cells),
            _ => Staged::RemoveRow(own[2], cells),
        });
        words = rest;
    }
    Some(staged)
}

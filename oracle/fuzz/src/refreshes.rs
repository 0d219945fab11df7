//! A refresh on any stores: what it stages are records of live rows that mention a value, whole and rising, whatever the index
//! store holds; over a new one they are those of all such rows.

use crate::stores::Stores;
use calls::{Answer, Call, Header, Refresh, Restamped};
use reference::{Reference, Staged};

/// What a refresh left: the stores, and its answer.
pub type Left<'a> = (&'a Stores, &'a [u32]);

/// What must hold of a refresh that gave this number. That a refusal changes nothing is seen to elsewhere. `sound`: the table is.
pub fn check(
    refresh: &Refresh,
    before: &Stores,
    (after, left): Left,
    number: u32,
    sound: bool,
) -> Result<(), String> {
    let (h, lent) = (before.numbers(), before.lengths());
    let tested = reference::test_call(&h, &lent, &Call::Refresh(refresh.clone()));
    let all = match tested {
        Ok(()) => Reference::with_rows_of(&before.held()).mentioning(refresh),
        Err(_) => Vec::new(),
    };
    let returned = match number {
        0 => Answer::Refreshed(left == [1], staged(&h, after)?),
        _ => Answer::Refused(number),
    };
    reference::test_unsound(&h, &lent, refresh, &all, &returned)?;
    let Answer::Refreshed(yes, rows) = returned else {
        return Ok(());
    };
    let is_new = before.index[0] == 0;
    is_so(yes || left == [0], || format!("words {left:?}"))?;
    is_so(!is_new || rows == all, || format!("{rows:?}, not {all:?}"))?;
    check_stores(&h, before, after, &rows)?;
    let needed = reference::index_words(h.capacity, refresh.columns.len());
    let is_kept = after.index[0] != 0 && after.index[needed..] == before.index[needed..];
    is_so(is_kept, || "its index store".to_string())?;
    let is_sound = !sound || reference::is_sound(&after.held()) == Ok(true);
    is_so(is_sound, || "the stores are left unsound".to_string())
}

fn is_so(so: bool, message: impl FnOnce() -> String) -> Result<(), String> {
    if so { Ok(()) } else { Err(message()) }
}

/// The rows that the pending words behind those in use before stage again, by pairs of records.
fn staged(h: &Header, after: &Stores) -> Result<Vec<Restamped>, String> {
    let keys = h.keys as usize;
    let from = h.pending as usize;
    let to = after.numbers().pending as usize;
    let words = after.pending.get(from..to).ok_or("pending words in use")?;
    let pairs = words.chunks_exact(keys + h.columns as usize + 5);
    is_so(pairs.remainder().is_empty(), || "half a record".to_string())?;
    let restamped = |words: &[u32]| Restamped {
        row: words[2],
        key: words[3..3 + keys].to_vec(),
        cells: words[keys + 5..].to_vec(),
    };
    Ok(pairs.map(restamped).collect())
}

/// The header counts these records, and the pending store holds them, word for word, and else what it held.
fn check_stores(
    h: &Header,
    before: &Stores,
    after: &Stores,
    rows: &[Restamped],
) -> Result<(), String> {
    let mut pending = before.pending.clone();
    let mut used = h.pending as usize;
    for of in rows {
        for staged in [
            Staged::RemoveRow(of.row, of.key.clone()),
            Staged::Insert(of.cells.clone()),
        ] {
            let record = reference::record(h.keys, &staged);
            pending[used..used + record.len()].copy_from_slice(&record);
            used += record.len();
        }
    }
    is_so(after.pending == pending, || "other records".to_string())?;
    let header = Header {
        pending: used as u32,
        ..*h
    };
    is_so(after.header == header.words(), || {
        format!("header {:?}, not {header:?}", after.header)
    })
}

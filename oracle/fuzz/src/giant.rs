//! A pending store of more than 2^32 words, of which a header can count 2^32 - 1: the record that would pass them is refused
//! with 7, the one before it is staged at its place; so are the records of a refresh. Only the pages about that place are ever
//! touched.

use crate::memory::{Area, Laid};
use calls::{Before, Call, Header, Index, Lengths, Refresh};
use mouldgrey::raw;
use reference::Staged;

const WORDS: usize = (1 << 32) + 1_024;

/// Words about the place that are looked at.
const ABOUT: usize = 64;

/// A row to be inserted, and one that is there.
const CELLS: [u32; 3] = [7, 8, 9];

/// Stagings in which so many words are in use that the last ones do not fit.
const TRIED: u32 = 12;

pub fn pending() -> Result<String, String> {
    let Some(mut area) = Area::new(WORDS + ABOUT) else {
        return Ok("a pending store of 2^32 words: not tried, there is no room for it".to_string());
    };
    let laid = area.place(WORDS, true);
    for used in u32::MAX - TRIED + 1..=u32::MAX {
        let h = Header {
            columns: 3,
            keys: 1,
            capacity: 4,
            rows: 1,
            pending: used,
            ..Header::default()
        };
        insert(&laid, &h)?;
        refresh(&laid, &h)?;
    }
    Ok(format!(
        "a pending store of 2^32 words: {TRIED} stagings and {TRIED} refreshes at its limit"
    ))
}

fn lent(index: usize) -> Lengths {
    Lengths {
        rows: 12,
        keys: 0,
        sort_entries: 0,
        pending: WORDS,
        live_words: 0,
        base_words: 0,
        index,
    }
}

fn insert(laid: &Laid, h: &Header) -> Result<(), String> {
    let call = Call::Insert(CELLS.to_vec());
    let expected = reference::test_call(h, &lent(0), &call);
    let records = [Staged::Insert(CELLS.to_vec())];
    staged(laid, h, expected, &records, |header| unsafe {
        raw::mouldgrey_stage_insert(header, laid.at, WORDS, CELLS.as_ptr(), CELLS.len())
    })
}

/// Of the one row.
fn refresh(laid: &Laid, h: &Header) -> Result<(), String> {
    let refresh = Refresh {
        index: Index {
            store: 0,
            before: Before::Nothing,
        },
        columns: vec![1],
        values: vec![CELLS[1]],
        stamp: 5,
    };
    let mut rows = [1; 12];
    rows[..3].copy_from_slice(&CELLS);
    let mut index = [0; 28];
    let lent = lent(index.len());
    let expected = reference::test_call(h, &lent, &Call::Refresh(refresh.clone()))
        .and_then(|()| reference::test_records(h, &lent, 1));
    let records = [
        Staged::RemoveRow(0, vec![CELLS[0]]),
        Staged::Insert(vec![5, CELLS[1], CELLS[2]]),
    ];
    staged(laid, h, expected, &records, |header| unsafe {
        raw::mouldgrey_refresh_rows_for_values(
            header,
            rows.as_ptr(),
            rows.len(),
            laid.at,
            WORDS,
            index.as_mut_ptr(),
            index.len(),
            refresh.columns.as_ptr(),
            1,
            refresh.values.as_ptr(),
            1,
            refresh.stamp,
            &mut 0,
        )
    })
}

/// A call at the limit gives the number that is expected, and if that is none leaves these records at its place.
fn staged(
    laid: &Laid,
    h: &Header,
    expected: Result<(), u32>,
    records: &[Staged],
    call: impl FnOnce(&mut raw::Header) -> u32,
) -> Result<(), String> {
    let used = h.pending as usize;
    // SAFETY, here and below: all of it is in the area.
    let about = unsafe { laid.at.add(used - ABOUT) };
    unsafe { about.write_bytes(0, 2 * ABOUT) };
    let number = call(&mut raw::Header::from_words(h.words()));
    let about = unsafe { std::slice::from_raw_parts(about, 2 * ABOUT) };
    let mut words = vec![0; 2 * ABOUT];
    if expected.is_ok() {
        let records: Vec<u32> = records
            .iter()
            .flat_map(|staged| reference::record(h.keys, staged))
            .collect();
        words[ABOUT..ABOUT + records.len()].copy_from_slice(&records);
    }
    let expected = expected.err().unwrap_or(0);
    if number != expected || about != words {
        return Err(format!(
            "with {used} pending words in use: {number}, not {expected}, or other words than the records'"
        ));
    }
    Ok(())
}

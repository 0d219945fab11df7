//! The checks on stores themselves: a word written where none may be is noticed.

use crate::LibraryTable;
use crate::indexes::{fill_index, wrongly_left};
use calls::{Answer, Before, Call, Implementation, Index, Lengths, Opening, Refresh};
use mouldgrey::Refusal;
use random::Rng;
use reference::Reference;

const OPENING: Opening = Opening {
    columns: 2,
    keys: 1,
    sort: 1,
    rule: 1,
    capacity: 40,
    generation: 0,
};

/// A little more than the table needs.
const LENT: Lengths = Lengths {
    rows: 83,
    keys: 83,
    sort_entries: 83,
    pending: 200,
    live_words: 2,
    base_words: 2,
    index: 16 + 3 * 40 * 2,
};

/// A table of 20 rows, some of them dead, and the reference model of it.
fn both() -> (LibraryTable, Reference) {
    let (mut library, mut reference) = (LibraryTable::new(), Reference::new());
    let mut calls = vec![Call::Open(OPENING)];
    calls.extend((0..20).map(|key| Call::Insert(vec![key, key / 4])));
    calls.push(Call::Merge);
    calls.extend((0..9).map(|key| Call::RemoveKey(vec![key])));
    calls.extend([Call::Merge, Call::Insert(vec![30, 9])]);
    for call in &calls {
        assert_eq!(library.call(&LENT, call), reference.call(&LENT, call));
        assert_eq!(library.unlike(&reference.expected(), true), None);
    }
    (library, reference)
}

/// A table goes on in other stores, of another capacity too, or stays where it is.
#[test]
fn reloads() {
    let (mut library, mut reference) = both();
    let larger = Lengths {
        rows: 300,
        keys: 300,
        sort_entries: 300,
        ..LENT
    };
    let merge = Call::Merge;
    for (lent, capacity, answer) in [
        (&LENT, 0, Answer::Done),
        (&LENT, 41, Answer::Done),
        (&LENT, 42, Answer::Refused(2)),
        (&LENT, 10, Answer::Refused(1)),
        (&larger, 150, Answer::Done),
        (&larger, 21, Answer::Done),
    ] {
        assert_eq!(library.reload(lent, capacity), answer, "{capacity}");
        assert_eq!(reference.reload(lent, capacity), answer, "{capacity}");
        assert_eq!(library.unlike(&reference.expected(), true), None);
        let lent = &larger;
        assert_eq!(library.call(lent, &merge), reference.call(lent, &merge));
        assert_eq!(library.unlike(&reference.expected(), true), None);
    }
}

#[test]
fn every_cell_is_looked_at() {
    let (whole, reference) = both();
    // A dead row's other cell, a live cell, a row past the count, a word past what was ever written.
    for place in [1, 30, 45, 82] {
        let mut library = whole.clone();
        library.now.rows[place] ^= 1;
        assert!(
            library.unlike(&reference.expected(), true).is_some(),
            "{place}"
        );
    }
    for place in [0, 9, 10, 82] {
        let mut library = whole.clone();
        library.now.sorts[place] ^= 1;
        assert!(
            library.unlike(&reference.expected(), true).is_some(),
            "{place}"
        );
    }
    // The record just staged, by itself too.
    for (place, is_last) in [(3, true), (70, false), (199, false)] {
        let mut library = whole.clone();
        library.now.pending[place] ^= 1;
        assert!(
            library.unlike(&reference.expected(), true).is_some(),
            "{place}"
        );
        let unlike = library.now.unlike(&reference.expected(), false);
        assert_eq!(unlike.is_some(), is_last, "{place}");
    }
    let mut library = whole.clone();
    library.now.header.generation = 3;
    assert!(library.now.unlike(&reference.expected(), false).is_some());
}

/// The proved soundness check on one word of the header changed: the largest sort value, which is 4 here, is below an entry,
/// above all, not there, or neither there nor not.
#[test]
fn largest_value_is_looked_at() {
    let (whole, _) = both();
    assert_eq!(whole.now.header.largest(), Some(4));
    let checked = |has: u32, value: u32| {
        let mut library = whole.clone();
        library.now.header.has_largest = has;
        library.now.header.largest_value = value;
        library.is_sound()
    };
    assert_eq!(checked(1, 4), Ok(true));
    assert_eq!(checked(1, 5), Ok(true));
    assert_eq!(checked(1, u32::MAX), Ok(true));
    assert_eq!(checked(1, 3), Ok(false));
    assert_eq!(checked(0, 4), Ok(false));
    assert_eq!(checked(2, 4), Err(Refusal::OutOfBounds));
    // Without an entry there may be one or not, and a number beside no value means nothing.
    let mut empty = LibraryTable::new();
    assert_eq!(empty.call(&LENT, &Call::Open(OPENING)), Answer::Done);
    for (has, value) in [(0, 0), (0, 9), (1, 9)] {
        empty.now.header.has_largest = has;
        empty.now.header.largest_value = value;
        assert_eq!(empty.is_sound(), Ok(true));
    }
}

fn of(before: Before, columns: &[u32], values: &[u32]) -> Refresh {
    Refresh {
        index: Index { store: 1, before },
        columns: columns.to_vec(),
        values: values.to_vec(),
        stamp: 9,
    }
}

/// What a refresh may leave of its index store.
#[test]
fn index_stores_are_looked_at() {
    let refresh = of(Before::Nothing, &[1], &[4]);
    let reported = |place: usize, word: u32, refused: bool| {
        let before = vec![0; 16 + 3 * 40 + 9];
        let mut after = before.clone();
        after[0] = u32::from(!refused);
        after[place] = word;
        wrongly_left(&before, &after, &refresh, 40, refused).is_some()
    };
    assert!(!reported(100, 7, false));
    assert!(reported(0, 0, false));
    assert!(!reported(135, 7, false));
    assert!(reported(136, 7, false));
    assert!(!reported(0, 0, true));
    assert!(reported(0, 1, true));
    assert!(reported(100, 7, true));
}

/// What is done to an index store before a refresh, and what refreshes bring over it.
#[test]
fn index_stores_between_refreshes() {
    let (mut library, mut reference) = both();
    let mut step = |refresh: &Refresh| {
        let call = Call::Refresh(refresh.clone());
        let returned = library.call(&LENT, &call);
        let is_sound = !matches!(refresh.index.before, Before::Fill(_));
        match is_sound {
            true => assert_eq!(returned, reference.call(&LENT, &call)),
            false => assert_eq!(reference.feed(&LENT, refresh, &returned), Ok(())),
        }
        assert_eq!(library.unlike(&reference.expected(), true), None);
        library.indexes.store(refresh)[0]
    };
    for before in [
        Before::Nothing,
        Before::Copy(0),
        Before::Renew,
        Before::Fill(5),
        Before::Change(0, 0),
    ] {
        assert_ne!(step(&of(before, &[1, 1], &[4])), 0, "{before:?}");
        assert_ne!(step(&of(Before::Nothing, &[0], &[])), 0, "{before:?}");
    }
}

/// Random words are not those of a new store, whatever the table.
#[test]
fn index_stores_filled_by_chance() {
    for seed in 0..200 {
        for length in [1, 13, 60] {
            let mut store = vec![0; length];
            let numbers = (u32::MAX, u32::MAX, u32::MAX);
            fill_index(&mut Rng::new(seed), &mut store, &[1, 0], numbers);
            assert_ne!(store[0], 0);
        }
    }
    fill_index(&mut Rng::new(0), &mut [], &[1], (1, 1, 1));
}

/// What is reported of one word that changes beside a call.
fn reported(call: &Call, change: impl Fn(&mut LibraryTable)) -> Option<String> {
    let (mut library, _) = both();
    let answer = library.play(&LENT, call);
    change(&mut library);
    let refused = matches!(answer, Answer::Refused(_));
    library
        .now
        .wrongly_written(&library.then, call, refused, true)
}

#[test]
fn nothing_is_written_elsewhere() {
    let staging = Call::Insert(vec![1, 1]);
    let refused = Call::Insert(vec![1]);
    let wrong_opening = Call::Open(Opening {
        columns: 9,
        ..OPENING
    });
    let refresh = Call::Refresh(of(Before::Nothing, &[1], &[4]));
    for call in [
        &staging,
        &refresh,
        &refused,
        &wrong_opening,
        &Call::Merge,
        &Call::Compact,
        &Call::Clear,
        &Call::Open(OPENING),
    ] {
        assert_eq!(reported(call, |_| {}), None, "{call:?}");
        assert!(
            reported(call, |t| t.now.rows[80] ^= 1).is_some(),
            "{call:?}"
        );
        assert!(
            reported(call, |t| t.now.keys[80] ^= 1).is_some(),
            "{call:?}"
        );
        assert!(
            reported(call, |t| t.now.sorts[80] ^= 1).is_some(),
            "{call:?}"
        );
        assert!(
            reported(call, |t| t.now.pending[50] ^= 1).is_some(),
            "{call:?}"
        );
        assert!(reported(call, |t| t.now.base[1] ^= 1).is_some(), "{call:?}");
        let compacts = *call == Call::Compact;
        assert_eq!(reported(call, |t| t.now.live[0] ^= 1).is_none(), compacts);
        assert_eq!(reported(call, |t| t.now.base[0] ^= 1).is_none(), compacts);
    }
    assert!(reported(&refused, |t| t.now.header.rule = 3).is_some());
    assert!(reported(&wrong_opening, |t| t.now.keys[0] ^= 1).is_some());
    assert!(reported(&staging, |t| t.now.keys[0] ^= 1).is_some());
    assert!(reported(&Call::Clear, |t| t.now.rows[0] ^= 1).is_some());
}

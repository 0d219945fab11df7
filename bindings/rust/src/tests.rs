//! What the wrapping adds to the library: owned stores, names for numbers, outputs of the right length.

use crate::*;

const OPENING: Opening = Opening {
    columns: 3,
    keys: 1,
    sort: 2,
    rule: Rule::TakeNew,
    capacity: 40,
    generation: 5,
};

/// Twenty rows, keys 0 to 19, sort values 0 to 9.
fn twenty() -> Table {
    let mut table = Table::new(&OPENING, 200).expect("a table");
    for key in 0..20 {
        table
            .stage_insert(&[key, key % 3, key / 2])
            .expect("room for the record");
    }
    assert!(table.merge().is_ok_and(|merge| merge.added));
    table
}

/// The error of a merge that stops.
fn stopped(reason: StopReason, place: u32) -> Result<Merged, Error> {
    Err(Error::Stopped(Stop { reason, place }))
}

fn ids(table: &Table) -> Vec<u32> {
    table.rows().map(|row| row.id).collect()
}

#[test]
fn openings() {
    let wrong = |change: &dyn Fn(&mut Opening)| {
        let mut opening = OPENING;
        change(&mut opening);
        Table::new(&opening, 0).err()
    };
    assert_eq!(wrong(&|o| o.columns = 9), Some(Refusal::OutOfBounds));
    assert_eq!(wrong(&|o| o.capacity = 65_537), Some(Refusal::OutOfBounds));
    assert_eq!(
        wrong(&|o| o.capacity = u32::MAX),
        Some(Refusal::OutOfBounds)
    );
    assert_eq!(wrong(&|o| o.capacity = 65_536), None);
    assert_eq!(wrong(&|_| {}), None);
}

#[test]
fn a_refused_opening_keeps_the_table() {
    let mut table = twenty();
    let before = table.stores().clone();
    let wrong = Opening { sort: 3, ..OPENING };
    assert_eq!(table.open(&wrong), Err(Refusal::OutOfBounds));
    assert_eq!(*table.stores(), before);
    let wider = Opening {
        columns: 8,
        capacity: 100,
        ..OPENING
    };
    assert_eq!(table.open(&wider), Ok(()));
    assert_eq!(table.version().rows, 0);
    assert_eq!(table.stage_insert(&[1, 2, 3, 4, 5, 6, 7, 8]), Ok(()));
    assert!(table.merge().is_ok_and(|merge| merge.added));
    assert_eq!(table.is_sound(), Ok(true));
}

#[test]
fn stagings_and_their_refusals() {
    let mut table = twenty();
    assert_eq!(table.stage_insert(&[1, 2]), Err(Refusal::WrongWidth));
    assert_eq!(table.stage_remove(&[]), Err(Refusal::WrongWidth));
    assert_eq!(table.stage_remove_row(20, &[1]), Err(Refusal::PastTheRows));
    assert_eq!(table.stage_remove_row(3, &[3]), Ok(()));
    assert_eq!(table.stage_remove(&[4]), Ok(()));
    assert_eq!(table.header().pending, 7);
    for _ in 0..38 {
        assert_eq!(table.stage_insert(&[50, 1, 9]), Ok(()));
    }
    assert_eq!(table.stage_insert(&[50, 1, 9]), Err(Refusal::PendingFull));
    table.reserve_pending(300);
    assert_eq!(table.stage_insert(&[50, 1, 9]), Ok(()));
    assert!(table.merge().is_ok_and(|merge| merge.added));
    assert_eq!(table.get_row(&[3]), Ok(None));
    assert_eq!(table.get_row(&[4]), Ok(None));
    let cells: &[u32] = &[50, 1, 9];
    assert_eq!(table.get_row(&[50]), Ok(Some(Row { id: 20, cells })));
}

#[test]
fn stops() {
    let mut table = twenty();
    assert_eq!(table.stage_insert(&[60, 0, 9]), Ok(()));
    assert_eq!(table.stage_insert(&[61, 0, 8]), Ok(()));
    assert_eq!(table.merge(), stopped(StopReason::OldSortValue, 1));
    assert_eq!(table.version().rows, 21);
    for key in 0..21 {
        assert_eq!(table.stage_insert(&[100 + key, 0, 9]), Ok(()));
    }
    assert_eq!(table.merge(), stopped(StopReason::TableFull, 19));
    assert_eq!(table.version().rows, 40);
}

#[test]
fn what_a_compaction_kept_and_dropped() {
    let mut table = twenty();
    for key in 0..16 {
        assert_eq!(table.stage_remove(&[key]), Ok(()));
    }
    let merge = table.merge().expect("no stop");
    assert_eq!((merge.kept, merge.dropped), (0, 0));
    assert_eq!(table.stage_remove(&[16]), Ok(()));
    assert_eq!(table.stage_insert(&[70, 0, 9]), Ok(()));
    let merge = table.merge().expect("no stop");
    assert_eq!((merge.kept, merge.dropped), (4, 17));
    assert_eq!(table.version().rows, 4);
}

#[test]
fn old_stamps_stay_out() {
    let mut table = twenty();
    assert_eq!(table.header().largest(), Some(9));
    for key in 18..20 {
        assert_eq!(table.stage_remove(&[key]), Ok(()));
    }
    assert!(table.merge().is_ok());
    assert_eq!(table.compact(), Ok(()));
    assert_eq!(table.stage_insert(&[30, 0, 8]), Ok(()));
    assert_eq!(table.merge(), stopped(StopReason::OldSortValue, 0));
    assert_eq!(table.clear(), Ok(()));
    assert_eq!(table.header().largest(), None);
    assert_eq!(table.stage_insert(&[30, 0, 8]), Ok(()));
    assert!(table.merge().is_ok_and(|merge| merge.added));
    assert_eq!(table.header().largest(), Some(8));
}

/// Numbers of the rows that are staged to be removed by a refresh, and the stamps of those to be inserted.
fn staged(table: &Table) -> Vec<(u32, u32)> {
    let used = table.header().pending as usize;
    // Each row takes keys + 3 and columns + 2 words.
    let pairs = table.stores().pending[..used].chunks_exact(9);
    assert!(pairs.remainder().is_empty());
    pairs.map(|words| (words[2], words[8])).collect()
}

#[test]
fn refreshes() {
    let mut table = twenty();
    let mut index = ValueIndex::new();
    // Every third row, with the stamp of the last.
    assert_eq!(
        table.refresh_rows_for_values(&mut index, &[1], &[2], 9),
        Ok(true)
    );
    let rows: Vec<(u32, u32)> = (0..6).map(|third| (2 + 3 * third, 9)).collect();
    assert_eq!(staged(&table), rows);
    assert_eq!(index.words().len(), ValueIndex::words_needed(40, 1));
    assert_ne!(index.words()[0], 0);
    assert!(table.merge().is_ok_and(|merge| merge.added));
    assert_eq!(table.version().rows, 26);
    // The index catches up with the rows that came, and the dead ones are left out.
    assert_eq!(
        table.refresh_rows_for_values(&mut index, &[1], &[2], 10),
        Ok(true)
    );
    let rows: Vec<(u32, u32)> = (20..26).map(|row| (row, 10)).collect();
    assert_eq!(staged(&table), rows);
    assert_eq!(table.clear(), Ok(()));
    // Another generation, and other columns, for which the index is made longer.
    assert_eq!(
        table.refresh_rows_for_values(&mut index, &[0, 1, 1], &[2], 10),
        Ok(false)
    );
    assert_eq!(index.words().len(), ValueIndex::words_needed(40, 3));
    assert_eq!(table.is_sound(), Ok(true));
}

#[test]
fn refused_refreshes() {
    let mut table = twenty();
    let mut index = ValueIndex::new();
    let before = table.stores().clone();
    let mut refresh = |columns: &[u32], values: &[u32], stamp: u32| {
        let before = index.clone();
        let heard = table.refresh_rows_for_values(&mut index, columns, values, stamp);
        assert!(heard == Ok(false) || heard.is_err());
        assert!(heard == Ok(false) || index == before);
        heard
    };
    assert_eq!(refresh(&[0; 9], &[1], 0), Err(Refusal::TooManyColumns));
    assert_eq!(refresh(&[0, 3], &[1], 0), Err(Refusal::NoSuchColumn));
    assert_eq!(refresh(&[0, 1], &[], 8), Err(Refusal::OldSortValue));
    assert_eq!(refresh(&[], &[0, 1, 2], 9), Ok(false));
    assert_eq!(refresh(&[1], &[], 9), Ok(false));
    assert_eq!(*table.stores(), before);
    // All 20 rows, 9 words each, have room in the 200 once.
    let all = [0, 1, 2];
    assert_eq!(
        table.refresh_rows_for_values(&mut index, &[1], &all, 9),
        Ok(true)
    );
    assert_eq!(
        table.refresh_rows_for_values(&mut index, &[1], &all, 9),
        Err(Refusal::PendingFull)
    );
    // Stores that the caller keeps: the index store too short, by a word.
    let Stores {
        mut header,
        rows,
        mut pending,
        ..
    } = table.stores().clone();
    let mut words = vec![0; ValueIndex::words_needed(40, 2) - 1];
    let heard = lent::refresh_rows_for_values(
        &mut header,
        &rows,
        &mut pending,
        &mut words,
        &[1, 1],
        &[],
        9,
    );
    assert_eq!(heard, Err(Refusal::TooShort));
}

#[test]
fn indexes_that_are_kept() {
    let mut table = twenty();
    let mut index = ValueIndex::new();
    assert_eq!(
        table.refresh_rows_for_values(&mut index, &[1], &[7], 9),
        Ok(false)
    );
    // Kept and taken up again by the same table.
    let mut kept = ValueIndex::from(index.words().to_vec());
    assert_eq!(kept, index);
    assert_eq!(
        table.refresh_rows_for_values(&mut kept, &[1], &[1], 9),
        Ok(true)
    );
    // Of another table it may leave rows out; forgotten, it is like a new one.
    let mut other = twenty();
    kept.forget();
    assert_eq!(
        other.refresh_rows_for_values(&mut kept, &[1], &[1], 9),
        Ok(true)
    );
    assert_eq!(staged(&other), staged(&table));
    ValueIndex::new().forget();
}

/// The cases of docs/DIFFERENCES.md in which a merge loses rows behind a refresh that returned yes, and an index of another table
/// leaves one out.
#[test]
fn refreshed_rows_that_are_lost() {
    let opened = |columns: u32, capacity: u32| Opening {
        columns,
        keys: 1,
        sort: 0,
        rule: Rule::KeepOld,
        capacity,
        generation: 0,
    };
    let table = |opening: &Opening, rows: &[&[u32]]| {
        let mut table = Table::new(opening, 100).expect("a table");
        rows.iter()
            .for_each(|row| table.stage_insert(row).expect("room"));
        assert!(table.merge().is_ok());
        table
    };
    let live = |table: &Table| {
        table
            .rows()
            .map(|row| row.cells.to_vec())
            .collect::<Vec<_>>()
    };
    let refreshed = |table: &mut Table, column: u32, value: u32, stamp: u32| {
        let mut index = ValueIndex::new();
        let heard = table.refresh_rows_for_values(&mut index, &[column], &[value], stamp);
        assert_eq!(heard, Ok(true));
        table.merge().map(|_| ())
    };
    let done = Ok(());
    let stop = |reason, place| stopped(reason, place).map(|_| ());
    // A full table.
    let mut full = table(&opened(1, 1), &[&[0]]);
    let heard = refreshed(&mut full, 0, 0, 0);
    assert_eq!(heard, stop(StopReason::TableFull, 0));
    assert!(live(&full).is_empty());
    // A larger stamp staged earlier.
    let mut behind = table(&opened(1, 3), &[&[0]]);
    behind.stage_insert(&[1]).expect("room");
    let heard = refreshed(&mut behind, 0, 0, 0);
    assert_eq!(heard, stop(StopReason::OldSortValue, 1));
    assert_eq!(live(&behind), [[1]]);
    // The greatest stamp in sort column 0.
    let mut skipped = table(&opened(1, 1), &[&[0]]);
    assert_eq!(refreshed(&mut skipped, 0, 0, DEAD), done);
    assert!(live(&skipped).is_empty());
    // The sort column a key column: two rows become one.
    let mut one = table(&opened(2, 3), &[&[0, 5], &[1, 5]]);
    assert_eq!(refreshed(&mut one, 1, 5, 1), done);
    assert_eq!(live(&one), [[1, 5]]);
    // An index of another table.
    let mut index = ValueIndex::new();
    let mut other = table(&opened(1, 1), &[&[0]]);
    assert_eq!(
        other.refresh_rows_for_values(&mut index, &[0], &[], 0),
        Ok(false)
    );
    let mut own = table(&opened(1, 1), &[&[1]]);
    let mut lost = |index: &mut ValueIndex| own.refresh_rows_for_values(index, &[0], &[1], 1);
    assert_eq!(lost(&mut index), Ok(false));
    index.forget();
    assert_eq!(lost(&mut index), Ok(true));
}

#[test]
fn queries() {
    let table = twenty();
    assert_eq!(table.get_row_column(&[7], 1), Ok(Some(1)));
    assert_eq!(table.get_row_column(&[7], 3), Err(Refusal::NoSuchColumn));
    assert_eq!(table.get_row_column(&[77], 1), Ok(None));
    assert_eq!(table.get_row(&[7, 7]), Err(Refusal::WrongWidth));
    let fast = |condition| table.fast_subset(condition);
    assert_eq!(fast(Condition::eq(2, 4)), Ok(Some(Subset::Range(8, 10))));
    assert_eq!(fast(Condition::lt(2, 4)), Ok(Some(Subset::Range(0, 8))));
    assert_eq!(fast(Condition::gt(2, 4)), Ok(Some(Subset::Range(10, 20))));
    assert_eq!(fast(Condition::le(2, 4)), Ok(Some(Subset::Range(0, 10))));
    assert_eq!(fast(Condition::ge(2, 4)), Ok(Some(Subset::Range(8, 20))));
    assert_eq!(fast(Condition::ge(1, 4)), Ok(None));
    assert_eq!(fast(Condition::eq_columns(2, 2)), Ok(None));
    assert_eq!(fast(Condition::eq(3, 0)), Err(Refusal::NoSuchColumn));
    assert_eq!(table.updates_since(18), Ok(Subset::Range(18, 20)));
    assert_eq!(table.updates_since(21), Err(Refusal::PastTheRows));
    let version = Version {
        generation: 5,
        rows: 20,
    };
    assert_eq!(table.version(), version);
    let noted = |generation, rows| table.rows_since_version(Version { generation, rows });
    assert_eq!(noted(5, 18), Ok(Subset::Range(18, 20)));
    assert_eq!(noted(5, 20), Ok(Subset::Range(20, 20)));
    assert_eq!(noted(5, 21), Err(Refusal::OldNote));
    assert_eq!(noted(4, 18), Err(Refusal::OldNote));
    let check = |column, pairs: &[[u32; 2]]| table.check_precedence(column, pairs);
    assert_eq!(check(0, &[[7, 3], [7, 7], [99, 0]]), Ok(None));
    assert_eq!(check(0, &[[7, 3], [3, 7]]), Ok(Some((3, 1))));
    assert_eq!(check(1, &[]), Err(Refusal::NoSuchColumn));
    assert_eq!(check(0, &[]), Err(Refusal::PairCount));
    assert_eq!(check(0, &[[1, 1]; 16]), Ok(None));
    assert_eq!(check(0, &[[1, 1]; 17]), Err(Refusal::PairCount));
}

#[test]
fn refining() {
    let table = twenty();
    let list = |ids: &[u32]| Subset::List(ids.to_vec());
    let third = Condition::eq(1, 0);
    assert_eq!(
        table.refine_one(&table.all(), third),
        Ok(list(&[0, 3, 6, 9, 12, 15, 18]))
    );
    assert_eq!(
        table.refine_one(&list(&[1, 3, 6, 7]), third),
        Ok(list(&[3, 6]))
    );
    assert_eq!(
        table.refine_one(SubsetRef::Range(5, 8), Condition::gt(0, 5)),
        Ok(Subset::Range(6, 8))
    );
    // Subsets of more ids than there are rows, which no output is made for.
    for (subset, refusal) in [
        (Subset::Range(0, u32::MAX), Refusal::PastTheRows),
        (Subset::Range(9, 3), Refusal::MalformedSubset),
        (list(&[0; 30]), Refusal::MalformedSubset),
        (
            Subset::List((0..65_537).collect()),
            Refusal::MalformedSubset,
        ),
        (Subset::List((0..30).collect()), Refusal::PastTheRows),
    ] {
        assert_eq!(table.refine_one(&subset, third), Err(refusal));
    }
}

#[test]
fn lists_of_conditions() {
    let table = twenty();
    let list = |ids: &[u32]| Subset::List(ids.to_vec());
    let third = Condition::eq(1, 0);
    let early = Condition::lt(2, 5);
    let refined = |subset: &Subset, by: &[Condition]| table.refine_ref(subset, by);
    assert_eq!(refined(&table.all(), &[]), Ok(table.all()));
    assert_eq!(
        refined(&table.all(), &[third, early]),
        Ok(list(&[0, 3, 6, 9]))
    );
    assert_eq!(
        refined(&Subset::Range(5, 8), &[Condition::gt(0, 5)]),
        Ok(list(&[6, 7]))
    );
    assert_eq!(refined(&list(&[1, 3, 6, 7]), &[third]), Ok(list(&[3, 6])));
    assert_eq!(
        refined(&table.all(), &[third, Condition::eq(3, 0)]),
        Err(Refusal::NoSuchColumn)
    );
    let matches = |subset: &Subset, by: &[Condition]| table.contains_match(subset, by);
    assert_eq!(matches(&Subset::Range(4, 6), &[third]), Ok(false));
    assert_eq!(matches(&Subset::Range(4, 7), &[third]), Ok(true));
    assert_eq!(matches(&list(&[]), &[]), Ok(false));
    assert_eq!(
        matches(&Subset::Range(4, 21), &[third]),
        Err(Refusal::PastTheRows)
    );
}

#[test]
fn pages() {
    let table = twenty();
    let third = [Condition::eq(1, 0)];
    let page = |place, n| table.read_page(&table.all(), place, n, &third);
    let found = |ids: &[u32], dead, next| {
        let ids = ids.to_vec();
        Ok(Page { ids, dead, next })
    };
    assert_eq!(page(0, 7), found(&[0, 3, 6], 0, Some(7)));
    assert_eq!(page(14, 6), found(&[15, 18], 0, None));
    assert_eq!(page(5, 0), found(&[], 0, Some(5)));
    assert_eq!(page(20, 0), found(&[], 0, None));
    assert_eq!(page(18, usize::MAX), found(&[18], 0, None));
    assert_eq!(page(21, 0), Err(Refusal::PastTheRows));
    let three = Subset::List(vec![2, 3, 18]);
    assert_eq!(
        table.read_page(&three, 1, 2, &third),
        found(&[3, 18], 0, None)
    );
    let mut removed = table.clone();
    removed.stage_remove(&[3]).expect("room");
    assert!(removed.merge().is_ok());
    assert_eq!(
        removed.read_page(&three, 0, 2, &third),
        found(&[], 1, Some(2))
    );
    // An output that is shorter than n but not than what remains, and one that is shorter than both.
    let s = table.stores();
    let mut output = [9; 2];
    let ask = |output: &mut [u32]| {
        lent::read_page(
            &s.header,
            &s.rows,
            SubsetRef::Range(0, 20),
            18,
            5,
            &[],
            output,
        )
    };
    assert_eq!(ask(&mut output[..1]), Err(Refusal::TooShort));
    assert_eq!(output, [9, 9]);
    let whole = PageWritten {
        written: 2,
        dead: 0,
        next: None,
    };
    assert_eq!(ask(&mut output), Ok(whole));
    assert_eq!(output, [18, 19]);
}

/// A refused query leaves its answer as it was.
#[test]
fn refused_answers() {
    let table = twenty();
    let before = raw::Range {
        found: 7,
        start: 8,
        end: 9,
    };
    let mut range = before;
    let number = unsafe { raw::mouldgrey_updates_since(table.header(), 21, &mut range) };
    assert_eq!((number, range), (5, before));
}

#[test]
fn intersections() {
    let list = |ids: &[u32]| Subset::List(ids.to_vec());
    assert_eq!(intersect(&list(&[1, 6]), &list(&[6, 9])), Ok(list(&[6])));
    assert_eq!(
        intersect(&Subset::Range(4, 6), &list(&[1, 6])),
        Ok(Subset::Range(0, 0))
    );
    assert_eq!(
        intersect(&list(&[2, 1]), &Subset::Range(0, 9)),
        Err(Refusal::MalformedSubset)
    );
    assert_eq!(
        intersect(&Subset::Range(2, 6), &Subset::Range(4, 9)),
        Ok(Subset::Range(4, 6))
    );
    assert_eq!(
        intersect(&Subset::Range(0, 9), &Subset::Range(7, 6)),
        Err(Refusal::MalformedSubset)
    );
    let long = Subset::List((0..65_536).collect());
    assert_eq!(intersect(&long, &long).map(|both| both.size()), Ok(65_536));
}

#[test]
fn compaction_and_clear() {
    let mut table = twenty();
    for key in [0, 5, 19] {
        assert_eq!(table.stage_remove(&[key]), Ok(()));
    }
    assert!(table.merge().is_ok_and(|merge| !merge.added));
    assert_eq!((table.header().rows, table.header().dead), (20, 3));
    assert_eq!(ids(&table).len(), 17);
    assert_eq!(ids(&table)[4..6], [6, 7]);
    assert_eq!(table.compact(), Ok(()));
    assert_eq!(ids(&table), (0..17).collect::<Vec<u32>>());
    assert_eq!(table.version().generation, 6);
    assert_eq!(table.clear(), Ok(()));
    assert_eq!(table.rows().count(), 0);
    assert_eq!(table.version().generation, 7);
}

#[test]
fn the_last_generation() {
    let last = Opening {
        generation: u32::MAX,
        ..OPENING
    };
    let mut table = Table::new(&last, 100).expect("a table");
    assert_eq!(table.clear(), Ok(()));
    assert_eq!(table.compact(), Err(Refusal::LastGeneration));
}

#[test]
fn stores_that_are_kept() {
    let table = twenty();
    let stores = table.stores().clone();
    let again = Table::from_stores(stores.clone()).expect("sound stores");
    assert_eq!(ids(&again), ids(&table));
    assert_eq!(again.into_stores(), stores);
    let mut spoiled = stores.clone();
    spoiled.rows[6] = DEAD;
    assert_eq!(Table::from_stores(spoiled).err(), Some(NoTable::Unsound));
    let mut short = stores;
    short.keys.pop();
    assert_eq!(
        Table::from_stores(short).err(),
        Some(NoTable::Refused(Refusal::TooShort))
    );
}

/// A part of a store from its start may be lent, and no word behind it is touched.
#[test]
fn parts_of_stores() {
    let needed = Lengths::needed(OPENING.columns, OPENING.capacity);
    let mut header = Header::default();
    let mut keys = vec![9; needed.keys + 5];
    let rows = vec![9; needed.rows];
    let sorts = vec![9; needed.sorts];
    let mut open =
        |keys: &mut [u32]| lent::open_table(&OPENING, &mut header, &rows, keys, &sorts, &[]);
    assert_eq!(open(&mut keys[..79]), Err(Refusal::TooShort));
    assert!(keys.iter().all(|&word| word == 9));
    assert_eq!(open(&mut keys[..80]), Ok(()));
    assert!(keys[..80].iter().all(|&word| word == 0));
    assert!(keys[80..].iter().all(|&word| word == 9));
    assert_eq!(header.words(), [3, 1, 2, 1, 40, 0, 0, 0, 0, 5, 0, 0]);
}

#[test]
fn numbers_and_names() {
    for refusal in Refusal::ALL {
        assert_eq!(Refusal::from_number(refusal.number()), Some(refusal));
    }
    for reason in StopReason::ALL {
        assert_eq!(StopReason::from_number(reason.number()), Some(reason));
    }
    for rule in Rule::ALL {
        assert_eq!(Rule::from_number(rule.number()), Some(rule));
    }
    assert_eq!(Rule::from_number(4), None);
    assert_eq!(library_version(), 1_000);
    for number in [0, 8, 22] {
        assert_eq!(Refusal::from_number(number), None);
    }
    assert_eq!(
        Refusal::WrongWidth.to_string(),
        "refused 3: wrong number of cells"
    );
    let stop = Stop {
        reason: StopReason::TableFull,
        place: 3,
    };
    assert_eq!(
        Error::from(stop).to_string(),
        "stopped 8 at insert 3: the table is full"
    );
    let words = [1, 2, 3, 4, 5, 6, 7, 8, 9, 10, 11, 12];
    assert_eq!(Header::from_words(words).words(), words);
    let ids: Vec<u32> = Subset::Range(3, 6).ids().collect();
    assert_eq!(ids, [3, 4, 5]);
    assert_eq!(Subset::List(vec![4, 7]).ids().count(), 2);
}

#[test]
fn column_order_and_back() {
    let rows = [7, 160, 7, 163, 6, 170];
    let columns = vec![7, 0, u32::MAX, 160, 3, 7];
    assert_eq!(to_columns(2, &rows), Ok(columns.clone()));
    assert_eq!(from_columns(2, &columns), Ok(rows.to_vec()));
    assert_eq!(to_columns(8, &[]), Ok(vec![]));
    assert_eq!(to_columns(0, &rows), Err(Refusal::OutOfBounds));
    assert_eq!(from_columns(9, &rows), Err(Refusal::OutOfBounds));
    assert_eq!(to_columns(4, &rows), Err(Refusal::BrokenRow));
    let mut output = [1; 5];
    assert_eq!(
        lent::to_columns(2, &rows, &mut output),
        Err(Refusal::TooShort)
    );
    assert_eq!(output, [1; 5]);
    let mut output = [1; 8];
    assert_eq!(lent::to_columns(2, &rows, &mut output), Ok(()));
    assert_eq!((&output[..6], &output[6..]), (&columns[..], &[1, 1][..]));
}

#[test]
fn every_short_history() {
    let mut sequences = ShortHistories::new();
    let first: Vec<Vec<u32>> = sequences.by_ref().take(9).collect();
    assert_eq!(first[..3], [vec![], vec![0], vec![1]]);
    assert_eq!(first[7..], [vec![6], vec![0, 0]]);
    assert_eq!(sequences.count(), 137_257 - 9);
    assert_eq!(sequence_at(137_256), Ok(vec![6; LONGEST]));
    assert_eq!(sequence_at(137_257), Err(Refusal::PastTheLast));
    assert_eq!(position_of(&[0, 0]), Ok(8));
    assert_eq!(position_of(&[7]), Err(Refusal::UnknownSequence));
    assert_eq!(position_of(&[0; 7]), Err(Refusal::UnknownSequence));
    assert_eq!(Step::numbered(2), Ok(Step::Insert([1, 0, 1])));
    assert_eq!(Step::numbered(5), Ok(Step::Remove([1])));
    assert_eq!(Step::numbered(6), Ok(Step::Merge));
    assert_eq!(Step::numbered(7), Err(Refusal::UnknownSequence));
    let mut output = [9; 3];
    assert_eq!(lent::next_sequence(&[6], &mut output), Ok(Some(2)));
    assert_eq!(output, [0, 0, 9]);
    assert_eq!(lent::next_sequence(&[6; 6], &mut output), Ok(None));
    assert_eq!(
        lent::sequence_at(137_256, &mut output),
        Err(Refusal::TooShort)
    );
    assert_eq!(output, [0, 0, 9]);
}

#[test]
fn listings_in_both_forms() {
    let old = b"T,2,1,1,3,0\nD,7,163\nD,0,4294967295\n";
    let new = b"U,2,1,1,3,0,2\nD,0,7,163\nD,1,0,4294967295\n";
    let gap = b"U,2,1,1,3,0,3\nD,0,7,163\nD,2,8,9\n";
    let head = ListingHead {
        columns: 2,
        keys: 1,
        sort: 1,
        rule: 3,
        generation: 0,
    };
    let rows = vec![vec![7, 163], vec![0, u32::MAX]];
    assert_eq!(read_listing(old), Ok((head, rows)));
    assert_eq!(read_listing(new), Err(Refusal::NoListing));
    let read = read_numbered(gap).expect("a listing");
    assert_eq!((read.head, read.count), (head, 3));
    assert_eq!(read.rows, [(0, vec![7, 163]), (2, vec![8, 9])]);
    assert_eq!(to_numbered(old), Ok(new.to_vec()));
    assert_eq!(from_numbered(new), Ok(old.to_vec()));
    assert_eq!(from_numbered(old), Err(Refusal::NoListing));
    assert_eq!(from_numbered(gap), Err(Refusal::MissingRow));
    let mut output = [9; 5];
    assert_eq!(
        lent::read_listing(old, &mut output[..3]),
        Err(Refusal::TooShort)
    );
    assert_eq!(output, [9; 5]);
    assert_eq!(lent::read_listing(old, &mut output), Ok((head, 2)));
    assert_eq!(output, [7, 163, 0, u32::MAX, 9]);
    let mut text = [b'?'; 40];
    let short = &mut text[..old.len() - 1];
    assert_eq!(lent::from_numbered(new, short), Err(Refusal::TooShort));
    assert_eq!(lent::from_numbered(new, &mut text), Ok(old.len()));
    assert_eq!((&text[..old.len()], text[old.len()]), (&old[..], b'?'));
}

#[test]
fn answers_of_a_laboratory() {
    let text = b"U,3,1,2,0,4,7\nD,0,7,1,10\nD,2,7,2,11\nD,3,8,8,12\nD,6,9,4294967295,12\n";
    let sevens = [Condition::eq(0, 7)];
    let check = |given: &[u32]| check_answers(text, &sevens, given);
    assert_eq!(check(&[0, 2]), Ok(Verdict::Right));
    assert_eq!(check(&[0]), Ok(Verdict::Wrong(2)));
    assert_eq!(check(&[]), Ok(Verdict::Wrong(0)));
    assert_eq!(check(&[0, 2, 3]), Ok(Verdict::Wrong(3)));
    assert_eq!(check(&[0, 1, 2]), Ok(Verdict::Wrong(1)));
    assert_eq!(check(&[0, 2, 7]), Ok(Verdict::Wrong(7)));
    assert_eq!(check(&[0, 2, u32::MAX]), Ok(Verdict::Wrong(u32::MAX)));
    assert_eq!(check(&[2, 0]), Ok(Verdict::Misplaced(1)));
    assert_eq!(check(&[1, 5, 9, 9]), Ok(Verdict::Misplaced(3)));
    let right = Ok(Verdict::Right);
    assert_eq!(check_answers(text, &[], &[0, 2, 3, 6]), right);
    let both = [Condition::eq_columns(0, 1), Condition::ge(2, 12)];
    assert_eq!(check_answers(text, &both, &[3]), right);
    assert_eq!(check_answers(b"U,3,1,2,0,4,7\n", &both, &[]), right);
    let unknown = [sevens[0], Condition::eq_columns(0, 3)];
    let refused = Err(Refusal::NoSuchColumn);
    assert_eq!(check_answers(text, &unknown, &[2, 0]), refused);
    let old = b"T,3,1,2,0,4\nD,7,1,10\n";
    let refused = Err(Refusal::NoListing);
    assert_eq!(check_answers(old, &unknown, &[]), refused);
}

#[test]
fn lists_of_calls() {
    let rows: Vec<[u32; 3]> = (0..20).map(|key| [key, key % 3, key / 2]).collect();
    let mut calls: Vec<Call<'_>> = rows.iter().map(|row| Call::Insert(row)).collect();
    calls.push(Call::Merge);
    let mut index = ValueIndex::new();
    let replayed = Table::replay(&OPENING, 200, &mut index, &calls).expect("a list of calls");
    assert_eq!(replayed.stores(), twenty().stores());
    assert!(index.words().is_empty());
    // The same with a refresh, a removal by row and a compaction, beside the calls one by one.
    let refresh = Call::Refresh {
        columns: &[1],
        values: &[2],
        stamp: 9,
    };
    calls.extend([
        refresh,
        Call::RemoveRow(0, &[0]),
        Call::Merge,
        Call::Compact,
    ]);
    let replayed = Table::replay(&OPENING, 200, &mut index, &calls).expect("a list of calls");
    let mut table = twenty();
    let mut own = ValueIndex::new();
    assert_eq!(
        table.refresh_rows_for_values(&mut own, &[1], &[2], 9),
        Ok(true)
    );
    assert_eq!(table.stage_remove_row(0, &[0]), Ok(()));
    assert!(table.merge().is_ok());
    assert_eq!(table.compact(), Ok(()));
    let cells =
        |table: &Table| -> Vec<Vec<u32>> { table.rows().map(|row| row.cells.to_vec()).collect() };
    assert_eq!(cells(&replayed), cells(&table));
    assert_eq!(replayed.header(), table.header());
    assert_eq!(index, own);
    let wrong = Opening { keys: 0, ..OPENING };
    assert_eq!(
        Table::replay(&wrong, 0, &mut index, &[]).err(),
        Some(Refusal::OutOfBounds)
    );
}

#[test]
fn lists_of_queries() {
    let table = twenty();
    // Rows 4 to 13 by their sort values, the keys of them that are 1 modulo 3, and of these the ids 7 and 10.
    let third = [Condition::le(2, 6), Condition::eq(1, 1)];
    let queries = [
        Query::IntersectFast(Condition::ge(2, 2)),
        Query::RefineList(&third),
        Query::Intersect(SubsetRef::List(&[7, 8, 10])),
        // Refused: it starts above its end.
        Query::Intersect(SubsetRef::Range(7, 6)),
        Query::RefineOne(Condition::ge(0, 0)),
    ];
    let left = table.run_queries(&table.all(), &queries);
    let expected = Queried {
        ids: Subset::List(vec![7, 10]),
        refined: true,
        taken: 5,
    };
    assert_eq!(left, expected);
    let none = table.run_queries(&Subset::List(vec![3, 9]), &[]);
    assert_eq!(none.ids, Subset::List(vec![3, 9]));
    assert!(!none.refined);
}

#[test]
fn listings_of_tables() {
    let mut table = twenty();
    for key in 2..20 {
        assert_eq!(table.stage_remove(&[key]), Ok(()));
    }
    assert!(table.merge().is_ok_and(|merge| merge.dropped == 18));
    let (head, rows) = read_listing(&table.listing(false)).expect("a listing");
    assert_eq!((head.columns, head.generation), (3, 6));
    assert_eq!(rows, [[0, 0, 0], [1, 1, 0]]);
    let listing = read_numbered(&table.listing(true)).expect("a listing");
    assert_eq!(listing.count, 2);
    assert_eq!(listing.rows[1], (1, vec![1, 1, 0]));
    assert_eq!(to_numbered(&table.listing(false)), Ok(table.listing(true)));
}

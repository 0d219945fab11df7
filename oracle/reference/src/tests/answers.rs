//! Testing a laboratory's answers: the verdict on numbers, and what is refused first.

use super::*;
use crate::answers::Verdict::{Misplaced, Right, Wrong};
use crate::answers::check_answers;

/// Rows 0, 2, 3 and 6 of seven; the numbers 1, 4 and 5 have none.
const LISTING: &[u8] = b"U,3,1,2,0,4,7\nD,0,7,1,10\nD,2,7,2,11\nD,3,8,8,12\nD,6,9,4294967295,12\n";

#[test]
fn rows_that_meet_every_condition() {
    let empty = b"U,3,1,2,0,4,7\n";
    for (conditions, right) in [
        (&[][..], &[0, 2, 3, 6][..]),
        (&[condition(0, 0, 1)], &[3]),
        (&[condition(1, 0, 7)], &[0, 2]),
        (&[condition(2, 1, 8)], &[0, 2]),
        (&[condition(3, 1, 8)], &[6]),
        (&[condition(4, 1, 8)], &[0, 2, 3]),
        (&[condition(5, 2, 12)], &[3, 6]),
        (&[condition(1, 0, 7), condition(3, 2, 10)], &[2]),
        (&[condition(1, 0, 7), condition(1, 0, 8)], &[]),
    ] {
        assert_eq!(check_answers(LISTING, conditions, right), Ok(Right));
        assert_eq!(check_answers(empty, conditions, &[]), Ok(Right));
    }
}

#[test]
fn the_lowest_wrong_number() {
    let sevens = [condition(1, 0, 7)];
    for (given, wrong) in [
        // One is absent, or all are.
        (&[0][..], 2),
        (&[2], 0),
        (&[], 0),
        // One has a row that fails.
        (&[0, 2, 3], 3),
        (&[0, 2, 6], 6),
        // One has no row: below the count, at it, far above.
        (&[0, 1, 2], 1),
        (&[0, 2, 5], 5),
        (&[0, 2, 7], 7),
        (&[0, 2, u32::MAX], u32::MAX),
        // Several are wrong: the lowest, whether it is there or not.
        (&[1, 2], 0),
        (&[0, 1], 1),
        (&[0, 3, 6], 2),
        (&[u32::MAX], 0),
    ] {
        assert_eq!(check_answers(LISTING, &sevens, given), Ok(Wrong(wrong)));
    }
}

#[test]
fn a_place_before_any_wrong_number() {
    for (given, place) in [
        (&[2, 0][..], 1),
        (&[0, 0, 2], 1),
        (&[0, 2, 2], 2),
        (&[0, 2, 3, 6, 3, 6, 3], 4),
        // The place is that of the number itself, and wins over a wrong number before it.
        (&[1, 5, 9, 9], 3),
        (&[u32::MAX, 0], 1),
        (&[6, 3, 2, 0], 1),
    ] {
        assert_eq!(check_answers(LISTING, &[], given), Ok(Misplaced(place)));
    }
}

#[test]
fn refusals_before_any_answer() {
    let old = b"T,3,1,2,0,4\nD,7,1,10\n";
    for unknown in [
        condition(6, 0, 0),
        condition(u32::MAX, 0, 0),
        condition(0, 3, 0),
        condition(0, 0, 3),
        condition(1, 3, 0),
        condition(5, u32::MAX, 0),
    ] {
        for conditions in [
            vec![unknown],
            vec![condition(1, 0, 7), unknown],
            vec![unknown, condition(1, 0, 7)],
        ] {
            assert_eq!(check_answers(LISTING, &conditions, &[0, 2]), Err(6));
            assert_eq!(check_answers(LISTING, &conditions, &[2, 0]), Err(6));
            assert_eq!(check_answers(b"U,3,1,2,0,4,0\n", &conditions, &[]), Err(6));
            assert_eq!(check_answers(old, &conditions, &[]), Err(11));
        }
    }
    // Only kind 0 names a second column.
    assert_eq!(
        check_answers(LISTING, &[condition(1, 0, 9)], &[6]),
        Ok(Right)
    );
    for text in [&b""[..], b"\n", old, &LISTING[..LISTING.len() - 1]] {
        assert_eq!(check_answers(text, &[], &[]), Err(11));
        assert_eq!(check_answers(text, &[], &[0, 0]), Err(11));
    }
}

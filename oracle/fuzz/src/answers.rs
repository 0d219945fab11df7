//! A laboratory's answers: any bytes, and listings some of whose bytes were changed, any conditions and any numbers, the answer's
//! words of any number.

use crate::listings::{halves, text};
use crate::session::{Session, Slot};
use crate::stores::fuzz_number;
use crate::watch;
use calls::Condition;
use mouldgrey::raw;
use random::Rng;
use reference::answers::{Verdict, check_answers, right_numbers};
use reference::listings::{Form, Listing, read};

/// A number below a bound; any now and then.
fn wild(rng: &mut Rng, bound: u32, near: &[u32]) -> u32 {
    match rng.percent(93) {
        true => rng.below(bound),
        false => fuzz_number(rng, near),
    }
}

/// A condition, on a listing of these numbers; the first is how many columns it has.
fn condition(rng: &mut Rng, near: &[u32]) -> Condition {
    let columns = near.first().copied().unwrap_or(8);
    let kind = wild(rng, 6, near);
    let a = wild(rng, columns, near);
    let b = match kind {
        0 => wild(rng, columns, near),
        _ => fuzz_number(rng, near),
    };
    Condition { kind, a, b }
}

/// One number put in, anywhere or where it belongs, or the last ones left out.
fn change(rng: &mut Rng, near: &[u32], given: &mut Vec<u32>) {
    let number = fuzz_number(rng, near);
    let at = rng.place(given.len() + 1);
    match rng.below(3) {
        0 => given.insert(at, number),
        1 => given.insert(given.partition_point(|&it| it < number), number),
        _ => given.truncate(at),
    }
}

/// Numbers: the right ones, if there are such, with changes or without; others now and then, also more than any listing has.
fn given(rng: &mut Rng, right: Option<Vec<u32>>, near: &[u32]) -> Vec<u32> {
    let mut given = match (rng.below(300), right) {
        (0, _) => (0..rng.within(65_535, 65_537)).collect(),
        (30.., Some(right)) => right,
        _ => (0..rng.below(12)).map(|_| rng.below(12)).collect(),
    };
    for _ in 0..rng.below(3) {
        change(rng, near, &mut given);
    }
    given
}

/// The right numbers on this text, where conditions are refused by nothing.
fn right(listing: Option<&Listing>, text: &[u8], conditions: &[Condition]) -> Option<Vec<u32>> {
    check_answers(text, conditions, &[]).ok()?;
    Some(right_numbers(listing?, conditions).into_iter().collect())
}

pub fn calls(session: &mut Session, rng: &mut Rng) -> Result<(), String> {
    for _ in 0..rng.within(8, 40) {
        let form = match rng.below(12) {
            0 => Form::Old,
            _ => Form::New,
        };
        let text = text(rng, form);
        let listing = read(Form::New, &text).ok();
        let near = listing.as_ref().map_or(Vec::new(), |it| {
            [it.head.as_slice(), &it.rows.concat()].concat()
        });
        let count = rng.pick(&[0, 1, 1, 2, 3, 9]);
        let conditions: Vec<Condition> = (0..count).map(|_| condition(rng, &near)).collect();
        let right = right(listing.as_ref(), &text, &conditions);
        let given = given(rng, right, &near);
        check(session, rng, &text, &conditions, &given).map_err(|why| {
            let shown = String::from_utf8_lossy(&text);
            let given = &given[..given.len().min(40)];
            let place = watch::place();
            format!("{why}\n  at {place}\n  {shown:?}\n  {conditions:?}\n  {given:?}")
        })?;
    }
    Ok(())
}

/// The answer's words, each as two.
fn encoded(verdict: Verdict) -> Vec<u32> {
    halves(&match verdict {
        Verdict::Right => [0, 0],
        Verdict::Misplaced(place) => [1, place as u64],
        Verdict::Wrong(number) => [2, u64::from(number)],
    })
}

fn check(
    session: &mut Session,
    rng: &mut Rng,
    text: &[u8],
    conditions: &[Condition],
    given: &[u32],
) -> Result<(), String> {
    let name = "mouldgrey_check_answers";
    let words = vec![rng.number(); 4];
    let must = check_answers(text, conditions, given);
    let (t, t_len) = session.read_bytes(rng, Slot::Cells, text);
    let (c, c_len) = session.conditions(rng, conditions);
    let (g, g_len) = session.read(rng, Slot::Ids, given);
    let (w, _) = session.write(rng, Slot::Words, &words);
    watch::call(name);
    // SAFETY: each pointer goes with the length of what was lent, in an area of its own; an area begins and ends where
    // a word of 64 bits may.
    let number = unsafe { raw::mouldgrey_check_answers(t, t_len, c, c_len, g, g_len, w.cast()) };
    let expected = must.err().unwrap_or(0);
    let must = must.map_or(words, encoded);
    if number != expected || session.left(Slot::Words) != Some(&must) {
        return Err(format!("{name}: {number}, not {expected}, or other words"));
    }
    session.close(name, number)
}

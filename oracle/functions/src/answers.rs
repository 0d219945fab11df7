//! A laboratory's answers beside the reference model, written from document 02: about listings as they are, with a number or bytes changed, of
//! the old form and of the largest size, under known and unknown conditions; the right numbers, some left out, put in, again or
//! out of order, and any others.

use crate::listings::{MOST, disturb, listing, shown, spoil};
use calls::Condition;
use mouldgrey::lent::check_answers;
use mouldgrey::raw::Constraint;
use mouldgrey::{Refusal, Verdict};
use random::Rng;
use reference::answers;
use reference::listings::{self, Form, Listing};
use std::collections::{BTreeMap, BTreeSet};

/// Listings of few rows, and random calls on each of the largest.
const LISTINGS: u64 = 6_000;
const LARGE: u64 = 12;

/// What must be seen at least so often: how calls end, and what accepted ones are about.
const LEAST: u64 = 1_000;
const SEEN: [&str; 21] = [
    "right",
    "misplaced, no number wrong",
    "misplaced, some number wrong",
    "wrongly absent",
    "wrongly present, its row fails",
    "wrongly present, no row below the count",
    "wrongly present, no row from the count on",
    "wrongly present, 4294967295",
    "refused by 11",
    "refused by 11, and a condition unknown",
    "refused by 6",
    "refused by 6, and a number misplaced",
    "no row",
    "no number given",
    "no condition",
    "kind 0",
    "kind 1",
    "kind 2",
    "kind 3",
    "kind 4",
    "kind 5",
];
const KINDS: &[&str] = SEEN.split_at(15).1;

/// Many cells small, so that conditions distinguish rows and columns are equal.
fn narrow(rng: &mut Rng, listing: &mut Listing) {
    for row in &mut listing.rows {
        for cell in &mut row[1..] {
            if rng.percent(60) {
                *cell = rng.below(4);
            }
        }
    }
}

/// A listing of the greatest row count, some of whose numbers may have no row.
fn large(rng: &mut Rng, gaps: u32) -> Listing {
    let mut listing = listing(rng, Form::New, MOST);
    for (number, row) in (0..).zip(&mut listing.rows) {
        row[0] = number;
    }
    listing.head[5] = MOST as u32;
    listing.rows.retain(|_| !rng.percent(gaps));
    listing
}

/// A known condition, about a cell of the listing if there is one.
fn condition(rng: &mut Rng, listing: &Listing) -> Condition {
    let columns = listing.head[0];
    let (kind, a) = (rng.below(6), rng.below(columns));
    let row = listing.rows.get(rng.place(listing.rows.len()));
    let cell = row.map_or(0, |row| row[1 + a as usize]);
    let near = [cell, cell.wrapping_add(1), cell.wrapping_sub(1)];
    let b = match kind {
        0 => rng.below(columns),
        _ if rng.percent(80) => rng.pick(&near),
        _ => rng.number(),
    };
    Condition { kind, a, b }
}

/// A condition of no known kind, or about a column that does not exist.
fn unknown(rng: &mut Rng, listing: &Listing) -> Condition {
    let mut condition = condition(rng, listing);
    let columns = listing.head[0];
    let past = rng.pick(&[columns, columns, columns + 1, u32::MAX]);
    match rng.below(3) {
        0 => condition.kind = rng.pick(&[6, 6, 7, u32::MAX]),
        1 => condition.a = past,
        _ => (condition.kind, condition.b) = (0, past),
    }
    condition
}

/// A number with a row or without.
fn number(rng: &mut Rng, listing: &Listing) -> u32 {
    let count = listing.head[5];
    match rng.below(8) {
        0 => count,
        1 => count + rng.below(4),
        2 => u32::MAX,
        _ => rng.below(count),
    }
}

/// One number left out, again, exchanged with another, or put in: anywhere, or where it belongs.
fn change(rng: &mut Rng, listing: &Listing, given: &mut Vec<u32>) {
    let length = given.len();
    let (at, other) = (rng.place(length), rng.place(length));
    match rng.below(6) {
        0 if length > 0 => drop(given.remove(at)),
        1 if length > 0 => given.insert(other, given[at]),
        2 if length > 0 => given.swap(at, other),
        3 => given.insert(other, number(rng, listing)),
        _ => {
            let number = number(rng, listing);
            let at = given.partition_point(|&it| it < number);
            given.insert(at, number);
        }
    }
}

/// No numbers, all that have a row, any, or the right ones, with changes or without.
fn given(rng: &mut Rng, listing: &Listing, right: &BTreeSet<u32>) -> Vec<u32> {
    match rng.below(12) {
        0 => Vec::new(),
        1 => listing.rows.iter().map(|row| row[0]).collect(),
        2 => (0..rng.below(9)).map(|_| number(rng, listing)).collect(),
        _ => {
            let mut given = right.iter().copied().collect();
            for _ in 0..rng.below(3) {
                change(rng, listing, &mut given);
            }
            given
        }
    }
}

/// What a laboratory sends with a listing.
struct Sent {
    conditions: Vec<Condition>,
    given: Vec<u32>,
}

/// Something to send with this listing, now and then with an unknown condition.
fn sent(rng: &mut Rng, listing: &Listing) -> Sent {
    let count = rng.pick(&[0, 1, 1, 1, 2, 2, 3, 9]);
    let conditions = (0..count).map(|_| condition(rng, listing));
    let mut conditions: Vec<Condition> = conditions.collect();
    let right = answers::right_numbers(listing, &conditions);
    let given = given(rng, listing, &right);
    if rng.percent(12) {
        let at = rng.place(count + 1);
        conditions.insert(at, unknown(rng, listing));
    }
    Sent { conditions, given }
}

/// How a number is wrong.
fn wrong(listing: &Listing, given: &[u32], number: u32) -> &'static str {
    let has_row = listing.rows.iter().any(|row| row[0] == number);
    match (given.contains(&number), has_row) {
        (false, _) => "wrongly absent",
        (true, true) => "wrongly present, its row fails",
        (true, false) if number < listing.head[5] => "wrongly present, no row below the count",
        (true, false) if number < u32::MAX => "wrongly present, no row from the count on",
        (true, false) => "wrongly present, 4294967295",
    }
}

/// How a call must end, on the listing that its text shows, if it shows one.
fn end(
    listing: Option<&Listing>,
    sent: &Sent,
    must: Result<answers::Verdict, u32>,
) -> &'static str {
    let Sent { conditions, given } = sent;
    let Some(listing) = listing else {
        return match conditions.iter().all(|it| it.kind <= 5) {
            true => "refused by 11",
            false => "refused by 11, and a condition unknown",
        };
    };
    let present = || given.iter().copied().collect::<BTreeSet<u32>>();
    match must {
        Err(_) if given.is_sorted_by(|one, next| one < next) => "refused by 6",
        Err(_) => "refused by 6, and a number misplaced",
        Ok(answers::Verdict::Right) => "right",
        Ok(answers::Verdict::Wrong(number)) => wrong(listing, given, number),
        Ok(answers::Verdict::Misplaced(_)) => {
            match present() == answers::right_numbers(listing, conditions) {
                true => "misplaced, no number wrong",
                false => "misplaced, some number wrong",
            }
        }
    }
}

/// The library's answer as the reference model's type.
fn converted(ours: Result<Verdict, Refusal>) -> Result<answers::Verdict, u32> {
    match ours.map_err(Refusal::number)? {
        Verdict::Right => Ok(answers::Verdict::Right),
        Verdict::Misplaced(place) => Ok(answers::Verdict::Misplaced(place)),
        Verdict::Wrong(number) => Ok(answers::Verdict::Wrong(number)),
    }
}

#[derive(Default)]
struct Comparison {
    calls: u64,
    seen: BTreeMap<&'static str, u64>,
}

impl Comparison {
    fn see(&mut self, name: &'static str, is_so: bool) {
        *self.seen.entry(name).or_default() += u64::from(is_so);
    }

    /// The library's answer is the reference model's.
    fn call(&mut self, text: &[u8], sent: &Sent) -> Result<(), String> {
        let Sent { conditions, given } = sent;
        let lent = conditions.iter().map(|it| Constraint {
            kind: it.kind,
            column: it.a,
            value: it.b,
        });
        let lent: Vec<Constraint> = lent.collect();
        let ours = converted(check_answers(text, &lent, given));
        let must = answers::check_answers(text, conditions, given);
        if ours != must {
            let given = &given[..given.len().min(40)];
            return Err(format!(
                "answers: {ours:?}, not {must:?}: {conditions:?}, {given:?} about {}",
                shown(text)
            ));
        }
        self.count(text, sent, must);
        Ok(())
    }

    fn count(&mut self, text: &[u8], sent: &Sent, must: Result<answers::Verdict, u32>) {
        let Sent { conditions, given } = sent;
        let listing = listings::read(Form::New, text).ok();
        self.calls += 1;
        self.see(end(listing.as_ref(), sent, must), true);
        if must.is_err() {
            return;
        }
        self.see("no row", listing.is_some_and(|it| it.rows.is_empty()));
        self.see("no number given", given.is_empty());
        self.see("no condition", conditions.is_empty());
        for (kind, name) in (0..).zip(KINDS) {
            self.see(name, conditions.iter().any(|it| it.kind == kind));
        }
    }

    /// So many answers about the listing that a text shows; about this one, if it shows none.
    fn text(
        &mut self,
        rng: &mut Rng,
        text: &[u8],
        other: &Listing,
        times: u64,
    ) -> Result<(), String> {
        let listing = listings::read(Form::New, text);
        let listing = listing.as_ref().unwrap_or(other);
        for _ in 0..times {
            self.call(text, &sent(rng, listing))?;
        }
        Ok(())
    }

    /// Answers about one listing, as it is, with a number changed, with bytes changed, and about one of the old form.
    fn texts(&mut self, rng: &mut Rng) -> Result<(), String> {
        let rows = rng.place(9);
        let mut whole = listing(rng, Form::New, rows);
        narrow(rng, &mut whole);
        let text = listings::text(Form::New, &whole);
        self.text(rng, &text, &whole, 16)?;
        let mut disturbed = whole.clone();
        disturb(rng, &mut disturbed);
        let disturbed = listings::text(Form::New, &disturbed);
        let mut spoiled = text;
        spoil(rng, &mut spoiled);
        let old = listings::text(Form::Old, &listing(rng, Form::Old, rows));
        for text in [disturbed, spoiled, old] {
            self.text(rng, &text, &whole, 2)?;
        }
        Ok(())
    }

    /// Every row's number under no condition, without the first and the last, and with one more and the last again behind them.
    fn ends(&mut self, text: &[u8], listing: &Listing) -> Result<(), String> {
        let all: Vec<u32> = listing.rows.iter().map(|row| row[0]).collect();
        let last = all.len() - 1;
        for given in [
            all.clone(),
            all[1..].to_vec(),
            all[..last].to_vec(),
            [all.as_slice(), &[listing.head[5]]].concat(),
            [all.as_slice(), &all[last..]].concat(),
        ] {
            let conditions = Vec::new();
            self.call(text, &Sent { conditions, given })?;
        }
        Ok(())
    }

    /// The largest listings, and one of a row too many.
    fn large(&mut self, rng: &mut Rng) -> Result<(), String> {
        for gaps in [0, 5, 60] {
            let mut large = large(rng, gaps);
            narrow(rng, &mut large);
            let text = listings::text(Form::New, &large);
            self.text(rng, &text, &large, LARGE)?;
            self.ends(&text, &large)?;
        }
        let over = listing(rng, Form::New, MOST + 1);
        self.text(rng, &listings::text(Form::New, &over), &over, 2)
    }
}

pub fn compare() -> Result<String, String> {
    let mut rng = Rng::new(13);
    let mut comparison = Comparison::default();
    for _ in 0..LISTINGS {
        comparison.texts(&mut rng)?;
    }
    comparison.large(&mut rng)?;
    let times = |name| comparison.seen.get(name).copied().unwrap_or(0);
    let counts = SEEN.map(|name| format!("{name}: {}", times(name)));
    match SEEN.iter().all(|name| times(name) >= LEAST) {
        true => Ok(format!(
            "answers: {} calls; {}",
            comparison.calls,
            counts.join("; ")
        )),
        false => Err(format!("answers: too few: {}", counts.join("; "))),
    }
}

//! The known differences, shown on one case each, so that they stay what the comparison takes them for.

use crate::compare::{RUST_STOP, Subject};
use crate::guard::guarded;
use crate::history::{Act, UNOPENED, needed, with_exact_output};
use crate::text::parse;
use calls::{Answer, Call, Implementation, Lengths, Opening, Query, Subset};
use random::Rng;
use reference::Reference;
use std::collections::HashMap;

/// Checks them; the lines describe what was found.
pub fn check<T: Implementation>(subject: &Subject<T>) -> Result<Vec<String>, String> {
    Ok(vec![
        shared_hash(subject)?,
        greatest_id(subject)?,
        older_stamp(subject)?,
        older_stamp_of_a_refresh(subject)?,
        longest_page(subject)?,
    ])
}

/// Two keys of one cell that share their hash: a removal by row with the one removes the other's row in the Rust.
fn shared_hash<T: Implementation>(subject: &Subject<T>) -> Result<String, String> {
    let mut rng = Rng::new(0);
    let mut seen = HashMap::new();
    let pair = (0..1_000_000).find_map(|_| {
        let key = rng.next_u64() as u32;
        let earlier = seen.insert((subject.key_hash)(&[key]), key);
        earlier
            .filter(|&earlier| earlier != key)
            .map(|earlier| (earlier, key))
    });
    let (own, other) = pair.ok_or("no two keys share a hash")?;
    let lines = [
        "O,1,1,0,0,1,0".to_string(),
        format!("I,{own}"),
        "M".to_string(),
        format!("K,0,{other}"),
        "M".to_string(),
    ];
    let (ours, theirs) = (
        play(Reference::new(), &lines),
        play((subject.make)(), &lines),
    );
    match (ours.contents().live.len(), theirs.contents().live.len()) {
        (1, 0) => Ok(format!(
            "keys {own} and {other} share a hash: row kept here, removed by the Rust"
        )),
        other => Err(format!(
            "removal by row with a shared hash leaves {other:?}"
        )),
    }
}

fn play<T: Implementation>(mut table: T, lines: &[String]) -> T {
    let lent = stores();
    for line in lines {
        if let Some(Act::Call(call)) = parse(line) {
            table.call(&lent, &call);
        }
    }
    table
}

/// A removal and a compaction drop the row of stamp 1; the Rust then takes one of stamp 0.
fn older_stamp<T: Implementation>(subject: &Subject<T>) -> Result<String, String> {
    let lines = "O,1,1,0,0,1,0 I,1 M R,1 M G I,0 M";
    let lines: Vec<String> = lines.split(' ').map(str::to_string).collect();
    let (ours, theirs) = (
        play(Reference::new(), &lines),
        play((subject.make)(), &lines),
    );
    match (ours.contents().live.len(), theirs.contents().live.len()) {
        (0, 1) => Ok(
            "stamp 0 after stamp 1, a removal and a compaction: stopped here, taken by the Rust"
                .to_string(),
        ),
        other => Err(format!(
            "an older stamp after a compaction leaves {other:?}"
        )),
    }
}

/// A refresh with stamp 0 of a row of stamp 1: refused here; the Rust stages it, and panics at the merge.
fn older_stamp_of_a_refresh<T: Implementation>(subject: &Subject<T>) -> Result<String, String> {
    let lines = ["O,1,1,0,0,1,0", "I,1", "M"].map(String::from);
    let Some(Act::Call(refresh)) = parse("H,0,0,0,0,0,1,0,1") else {
        return Err("not a refresh".to_string());
    };
    let ours = play(Reference::new(), &lines).call(&stores(), &refresh);
    let mut other = play((subject.make)(), &lines);
    let theirs = other.call(&stores(), &refresh);
    let merged = guarded(|| other.call(&stores(), &Call::Merge));
    match (ours, theirs, merged) {
        (Answer::Refused(9), Answer::Refreshed(true, _), Err(panic))
            if panic.contains(RUST_STOP) =>
        {
            Ok(format!(
                "a refresh with stamp 0 of a row of stamp 1: refused here, a panic of the Rust's merge ({panic})"
            ))
        }
        other => Err(format!("a refresh with an older stamp gives {other:?}")),
    }
}

fn stores() -> Lengths {
    let one = Opening {
        columns: 1,
        capacity: 1,
        ..UNOPENED
    };
    needed(&one, 64)
}

/// A range with a list that ends at the greatest id: the Rust computes an id past the greatest. The result depends on
/// the id type, which is a stand-in here and panics.
fn greatest_id<T: Implementation>(subject: &Subject<T>) -> Result<String, String> {
    let query = with_exact_output(Query::Intersect {
        first: Subset::Range(0, 5),
        second: Subset::List(vec![1, u32::MAX]),
        output: 0,
    });
    let ours = Reference::new().query(&stores(), &query);
    let other = (subject.make)();
    let theirs = guarded(|| other.query(&stores(), &query));
    match (ours, theirs) {
        (Answer::Subset(Subset::List(ids)), Err(panic)) if ids == [1] => Ok(format!(
            "0..5 with {{1, 4294967295}}: {{1}} here, a panic in the id type under the Rust ({panic})"
        )),
        other => Err(format!("0..5 with {{1, 4294967295}} gives {other:?}")),
    }
}

/// A page from place 1 for as many ids as a number can hold: the Rust's sum of the two does not fit.
fn longest_page<T: Implementation>(subject: &Subject<T>) -> Result<String, String> {
    let lines = ["O,1,1,0,0,1,0", "I,7", "M"].map(String::from);
    let page = Query::Page {
        subset: Subset::Range(0, 1),
        start: 1,
        n: u64::MAX,
        conditions: Vec::new(),
        output: 0,
    };
    let ours = play(Reference::new(), &lines).query(&stores(), &page);
    let other = play((subject.make)(), &lines);
    let theirs = guarded(|| other.query(&stores(), &page));
    match (ours, theirs) {
        (
            Answer::Page {
                ids,
                dead: 0,
                next: None,
            },
            Err(panic),
        ) if ids.is_empty() => Ok(format!(
            "a page from place 1 of 18446744073709551615 ids: what remains here, a panic under the Rust ({panic})"
        )),
        other => Err(format!("a page from place 1 of all ids gives {other:?}")),
    }
}

//! All short histories: every sequence of a few steps of a small alphabet, and every small query.

use crate::history::{Act, Step, UNOPENED, needed};
use crate::text::parse;
use calls::{Call, Condition, Lengths, Query, Subset};

/// Every sequence of `length` letters, between a beginning and an end. Shorter ones are compared on the way.
pub struct Family {
    beginning: Vec<Step>,
    letters: Vec<Step>,
    length: u32,
    end: Vec<Step>,
}

impl Family {
    /// The steps are lines; the first opens the table.
    fn new(beginning: &[&str], letters: &[&str], length: u32, end: &[&str]) -> Family {
        let lent = lengths(beginning[0]);
        let steps = |lines: &[&str]| lines.iter().map(|line| step(lent, line)).collect();
        Family {
            beginning: steps(beginning),
            letters: steps(letters),
            length,
            end: steps(end),
        }
    }

    pub fn count(&self) -> u64 {
        (self.letters.len() as u64).pow(self.length)
    }

    pub fn history(&self, index: u64) -> Vec<Step> {
        let mut history = self.beginning.clone();
        let mut rest = index;
        for _ in 0..self.length {
            let letter = rest % self.letters.len() as u64;
            history.push(self.letters[letter as usize].clone());
            rest /= self.letters.len() as u64;
        }
        history.extend_from_slice(&self.end);
        history
    }
}

fn step(lent: Lengths, line: &str) -> Step {
    let act = parse(line).expect("a line of a known form");
    Step { lent, act }
}

/// Stores for the table that this line opens.
fn lengths(line: &str) -> Lengths {
    match parse(line) {
        Some(Act::Call(Call::Open(opening))) => needed(&opening, 256),
        _ => panic!("not an opening: {line}"),
    }
}

pub fn families() -> Vec<Family> {
    let mut families = Vec::new();
    for rule in 0..4 {
        families.push(small_table(rule));
        families.push(near_compaction(rule));
    }
    families.push(sort_column_0(4_294_967_294));
    families.push(sort_column_0(0));
    families.push(refreshed());
    families.push(refreshed_keys());
    families
}

/// Refreshes of a level over one index store, and of a key over the same and over a copy, among all else.
fn refreshed() -> Family {
    let letters = [
        "I,0,5,1",
        "I,1,5,2",
        "I,1,6,2",
        "R,0",
        "M",
        "G",
        "C",
        "H,0,0,0,0,2,1,1,5",
        "H,0,0,0,0,2,2,1,0,0,6",
        "H,1,2,0,0,1,1,1,5,6",
    ];
    let end = ["M", "H,0,0,0,0,3,1,1,5", "H,1,0,0,0,2,1,1,5", "M", "V"];
    Family::new(&["O,3,1,2,1,4,0"], &letters, 5, &end)
}

/// The sort column is the key, at the last generation but one: a refresh gives rows another key, or the dead mark.
fn refreshed_keys() -> Family {
    let letters = [
        "I,3,0",
        "I,4,0",
        "I,4,1",
        "R,3",
        "M",
        "G",
        "H,0,0,0,0,4,1,1,0",
        "H,0,0,0,0,5,2,0,0,3,4",
        "H,0,1,0,0,4294967295,1,1,1",
    ];
    let end = ["M", "H,0,0,0,0,4294967295,1,1,0", "M", "V"];
    Family::new(&["O,2,1,0,1,4,4294967294"], &letters, 5, &end)
}

/// Three columns, one key, space for three rows. 4294967295 is the least of the three levels, minus one.
fn small_table(rule: u32) -> Family {
    let open = format!("O,3,1,2,{rule},3,0");
    let letters = [
        "I,0,5,1",
        "I,0,6,2",
        "I,0,4294967295,2",
        "I,1,5,2",
        "R,0",
        "K,0,0",
        "M",
        "G",
        "C",
    ];
    let end = [
        "M",
        "A,0,0,0,0",
        "L,0",
        "F,1,2,2",
        "F,2,2,2",
        "F,3,2,1",
        "W,0,1",
        "B,0,1,0,0,1",
    ];
    Family::new(&[&open], &letters, 6, &end)
}

/// The sort column is the key: rows are distinguished by their stamps, and a dead row has lost its own.
fn sort_column_0(generation: u32) -> Family {
    let open = format!("O,2,1,0,1,3,{generation}");
    let letters = [
        "I,3,0",
        "I,4,0",
        "I,4,1",
        "I,4294967295,1",
        "R,3",
        "K,1,4",
        "M",
        "G",
    ];
    let end = [
        "M",
        "L,4",
        "F,1,0,4",
        "F,4,0,3",
        "F,5,0,4294967295",
        "B,0,4,3",
        "B,0,3,3,3,4,3,4294967295",
    ];
    Family::new(&[&open], &letters, 6, &end)
}

/// Seventeen rows of which fifteen are dead.
fn near_compaction(rule: u32) -> Family {
    let mut lines = vec![format!("O,3,1,2,{rule},20,0")];
    lines.extend((0..17).map(|key| format!("I,{key},5,1")));
    lines.push("M".to_string());
    lines.extend((0..15).map(|key| format!("R,{key}")));
    lines.push("M".to_string());
    let letters = [
        "R,15", "K,16,16", "K,0,15", "I,15,6,2", "I,20,5,1", "M", "G",
    ];
    let beginning: Vec<&str> = lines.iter().map(String::as_str).collect();
    Family::new(&beginning, &letters, 4, &["M", "V", "L,15", "F,5,2,2"])
}

/// Every small query, as histories of many queries each.
pub fn small_queries() -> Vec<Vec<Step>> {
    let mut histories: Vec<Vec<Step>> = (0..16).map(about_four_rows).collect();
    histories.extend(small_subsets(5).iter().map(intersections));
    histories.extend((0..=20).map(intersections_by_length));
    histories
}

/// Every range and every list within 0 to n, n not included.
fn small_subsets(n: u32) -> Vec<Subset> {
    let mut subsets = Vec::new();
    for start in 0..=n {
        subsets.extend((start..=n).map(|end| Subset::Range(start, end)));
    }
    for bits in 0..1_u32 << n {
        let ids = (0..n).filter(|id| bits >> id & 1 == 1);
        subsets.push(Subset::List(ids.collect()));
    }
    subsets
}

/// Four rows of which those with a bit are dead, and every subset of them refined and paged.
fn about_four_rows(dead: u32) -> Vec<Step> {
    let mut lines = vec!["O,3,1,1,0,4,0".to_string()];
    let cells = [[0, 5, 5], [1, 5, 6], [2, 6, 6], [3, 7, 5]];
    lines.extend(cells.map(|[a, b, c]| format!("I,{a},{b},{c}")));
    lines.push("M".to_string());
    let gone = (0..4).filter(|key| dead >> key & 1 == 1);
    lines.extend(gone.map(|key| format!("R,{key}")));
    lines.push("M".to_string());
    let lent = lengths(&lines[0]);
    let mut history: Vec<Step> = lines.iter().map(|line| step(lent, line)).collect();
    let queries = small_subsets(4).into_iter().flat_map(about_subset);
    history.extend(queries.map(|query| Step {
        lent,
        act: Act::Query(query),
    }));
    history
}

fn about_subset(subset: Subset) -> Vec<Query> {
    let mut queries = Vec::new();
    for condition in small_conditions() {
        queries.push(Query::RefineOne {
            subset: subset.clone(),
            condition,
            output: 4,
        });
        for conditions in [vec![condition], vec![condition, SECOND], vec![]] {
            queries.push(Query::RefineList {
                subset: subset.clone(),
                conditions: conditions.clone(),
                output: 4,
            });
            queries.push(Query::AnyMatch {
                subset: subset.clone(),
                conditions,
            });
        }
    }
    for start in 0..=4 {
        queries.extend((0..=5).map(|n| Query::Page {
            subset: subset.clone(),
            start,
            n,
            conditions: vec![SECOND],
            output: 4,
        }));
    }
    queries
}

/// The third cell is at least 6.
const SECOND: Condition = Condition {
    kind: 5,
    a: 2,
    b: 6,
};

fn small_conditions() -> Vec<Condition> {
    let mut conditions = Vec::new();
    for a in 0..3 {
        conditions.extend((0..3).map(|b| Condition { kind: 0, a, b }));
        for kind in 1..=5 {
            conditions.extend((0..8).map(|b| Condition { kind, a, b }));
        }
    }
    conditions
}

fn intersection(first: Subset, second: Subset) -> Step {
    let query = Query::Intersect {
        first,
        second,
        output: 100,
    };
    Step {
        lent: needed(&UNOPENED, 0),
        act: Act::Query(query),
    }
}

fn intersections(first: &Subset) -> Vec<Step> {
    let with = |second| intersection(first.clone(), second);
    small_subsets(5).into_iter().map(with).collect()
}

/// A list of this length with lists of every length about its own and up to four times that, a few patterns each.
fn intersections_by_length(length: u32) -> Vec<Step> {
    let list = |count: u32, gap: u32, first: u32| {
        let ids = (0..count).map(|place| first + place * gap);
        Subset::List(ids.collect())
    };
    let mut steps = Vec::new();
    for other in 0..=4 * length + 4 {
        for (gap, first) in [(1, 0), (2, 1), (3, 5), (4, 0)] {
            steps.push(intersection(list(length, 4, 0), list(other, gap, first)));
            steps.push(intersection(list(other, gap, first), list(length, 4, 0)));
        }
    }
    steps
}

//! The recorded list: lines of calls and queries, each followed by the line of its answer, for a program that replays
//! them without Rust. Both implementations answer while it is made and whenever it is replayed.

use crate::compare::{Pair, Subject};
use crate::counts::Counts;
use crate::generate::{Manner, history};
use crate::history::{Act, Step, needed};
use crate::text::{answer_line, parse, step_line};
use calls::{Call, Implementation, Lengths, Opening};

pub const SEED: u64 = 391;

/// The list ends with the history that brings it to so many lines.
const ENOUGH_LINES: usize = 4600;
const LONGEST_LINE: usize = 120;
const PENDING: usize = 256;
/// Longer histories are left out.
const SHORT_HISTORY: usize = 70;

/// Stores and outputs are as long as needed, so that a line is complete.
const MANNER: Manner = Manner {
    greatest_capacity: 64,
    pending: Some(PENDING),
    loose: false,
    thorough: true,
    refreshes: false,
    reloads: false,
};

/// Made before any opening, so each is refused with 1, save the last.
const UNOPENED: [&str; 18] = [
    "I,1",
    "R,1",
    "K,0,1",
    "M",
    "C",
    "G",
    "L,1",
    "E,0,1",
    "F,1,0,0",
    "V",
    "S,0",
    "W,0,0",
    "N,0,0,0,1,0,0",
    "A,0,0,0,0",
    "Y,0,0,0,0",
    "P,0,0,0,0,0,0",
    "O,0,0,0,0,0,0",
    "T,0,2,6,0,6,9",
];

/// The paper's examples and wrong turns, as far as lines can show them; (h) is made below.
const EXAMPLES: [&[&str]; 10] = [
    // Document 02: a stamp older than one that was dropped stays out.
    &[
        "O,3,1,2,1,20,0",
        "I,1,5,12",
        "M",
        "R,1",
        "M",
        "G",
        "I,2,5,11",
        "M",
    ],
    &[
        "O,4,2,3,1,64,0",
        "I,7,1,160,10",
        "I,7,2,148,10",
        "M",
        "I,7,1,163,12",
        "R,7,2",
        "M",
        "F,1,3,10",
        "V",
        "L,7,1",
        "L,7,2",
    ],
    &["T,1,4,1,3,5,8,0,3,8", "T,0,2,6,0,6,9", "T,0,4,6,1,2,1,6"],
    &[
        "O,3,1,1,0,16,0",
        "I,0,5,7",
        "I,1,5,8",
        "I,2,5,8",
        "I,3,5,7",
        "M",
        "N,0,0,4,1,2,8",
        "A,0,0,4,1,1,2,8",
        "P,1,3,0,1,3,1,0,0",
        "P,1,3,0,1,3,3,0,0",
    ],
    &[
        "O,1,1,0,0,16,0",
        "I,0",
        "I,1",
        "I,2",
        "I,3",
        "I,4",
        "I,5",
        "I,6",
        "I,7",
        "I,8",
        "I,9",
        "M",
        "P,0,0,10,4,5,0",
        "P,0,0,10,4,6,0",
        "R,1",
        "R,3",
        "R,4",
        "M",
        "P,0,0,6,0,6,0",
        "G",
        "L,5",
        "P,0,0,7,0,7,0",
    ],
    &[
        "O,2,1,1,1,16,0",
        "I,1,10",
        "I,2,10",
        "I,3,12",
        "M",
        "F,2,1,11",
        "F,5,1,13",
        "I,4,12",
        "M",
        "I,5,11",
        "M",
        "V",
        "L,5",
    ],
    &["O,3,1,2,1,16,0", "I,1,7,12", "M", "I,1,7,3", "M", "L,1"],
    &[
        "O,2,1,1,0,16,0",
        "I,1,5",
        "M",
        "I,1,6",
        "R,1",
        "M",
        "L,1",
        "I,1,7",
        "K,1,1",
        "M",
        "L,1",
    ],
    &[
        "O,2,1,1,0,16,0",
        "I,1,5",
        "I,2,5",
        "I,3,5",
        "M",
        "R,1",
        "M",
        "K,2,3",
        "K,1,2",
        "G",
        "M",
        "L,3",
        "L,2",
    ],
    &[
        "O,1,1,0,0,16,0",
        "I,8",
        "M",
        "R,8",
        "M",
        "I,7",
        "M",
        "I,9",
        "M",
        "L,9",
    ],
];

/// A list as it grows, or as it is checked.
struct List<'a, T> {
    pair: Pair<'a, T>,
    counts: Counts,
    lines: Vec<String>,
}

impl<'a, T: Implementation> List<'a, T> {
    fn new(subject: &'a Subject<T>) -> List<'a, T> {
        List {
            pair: Pair::new(subject),
            counts: Counts::default(),
            lines: Vec::new(),
        }
    }

    /// Exactly what the table at hand needs, or the one to be opened. An opening past a table's limits, which is refused for
    /// its numbers, gets what the limits require.
    fn lent(&self, act: &Act) -> Lengths {
        let numbers: &Opening = match act {
            Act::Call(Call::Open(numbers)) => numbers,
            _ => &self.pair.opening,
        };
        let within_limits = Opening {
            columns: numbers.columns.min(8),
            capacity: numbers.capacity.min(65_536),
            ..*numbers
        };
        needed(&within_limits, PENDING)
    }

    /// The answer's line, from both implementations.
    fn answer(&mut self, act: &Act) -> Result<String, String> {
        let step = Step {
            lent: self.lent(act),
            act: act.clone(),
        };
        let answer = self.pair.step(&step, &mut self.counts);
        match answer {
            Ok(answer) => Ok(answer_line(&answer)),
            Err(unlike) => Err(format!("{}: {:?}", step_line(act), unlike.at(0))),
        }
    }

    /// Adds a step with its answer; a query is left out if a line would be too long.
    fn add(&mut self, act: &Act) -> Result<(), String> {
        let line = step_line(act);
        let answer = self.answer(act)?;
        if line.len().max(answer.len()) <= LONGEST_LINE {
            self.lines.extend([line, answer]);
        } else if matches!(act, Act::Call(_)) {
            return Err(format!("too long a line: {line}"));
        }
        Ok(())
    }

    fn add_lines<L: AsRef<str>>(&mut self, lines: &[L]) -> Result<(), String> {
        for line in lines.iter().map(L::as_ref) {
            let act = parse(line).ok_or(format!("a line of no form: {line}"))?;
            self.add(&act)?;
        }
        Ok(())
    }
}

/// A table of three rows, and each refusal that has nothing to do with the lengths of stores.
const REFUSALS: [&str; 45] = [
    "O,3,1,2,1,8,0",
    "I,1,1,1",
    "I,2,2,1",
    "I,3,2,2",
    "M",
    "I,1,1",
    "R,1,1",
    "K,0,1,1",
    "K,3,1",
    "L,1,1",
    "E,0,1,1",
    "E,3,1",
    "F,6,0,0",
    "F,1,3,0",
    "F,0,0,3",
    "F,0,0,2",
    "S,4",
    "S,3",
    "N,0,2,1,1,0,0",
    "N,1,2,1,1,1,0,0",
    "N,0,0,4,1,0,0",
    "N,1,1,3,1,0,0",
    "N,0,0,3,6,0,0",
    "A,0,2,1,0",
    "A,1,2,1,1,0",
    "A,0,4,4,0",
    "A,1,1,3,0",
    "A,0,0,3,2,1,0,0,1,3,0",
    "Y,0,2,1,0",
    "Y,1,2,2,1,0",
    "Y,0,0,4,0",
    "Y,1,1,4294967295,0",
    "Y,0,0,3,1,0,0,3",
    "P,0,2,1,0,1,0",
    "P,1,2,1,1,0,1,0",
    "P,0,0,4,0,1,0",
    "P,0,0,3,4,0,0",
    "P,1,1,3,0,1,0",
    "P,0,0,3,3,1,1,4294967295,0,0",
    "T,0,2,1,0,0,1",
    "T,0,0,1,0,2,1",
    "T,1,2,5,5,0,0,1",
    "T,0,0,1,1,2,6,5",
    "M",
    "V",
];

/// Example (h), and the last generation.
const DEAD_ROWS: [(u32, u32, u32); 7] = [
    (32, 16, 0),
    (16, 16, 5),
    (33, 17, 0),
    (40, 20, 0),
    (40, 21, 0),
    (17, 17, u32::MAX - 1),
    (17, 17, u32::MAX),
];

/// So many rows, so many of them dead at a merge, from this generation.
fn dead_rows(rows: u32, dead: u32, generation: u32) -> Vec<String> {
    let mut lines = vec![format!("O,2,1,1,1,64,{generation}")];
    lines.extend((0..rows).map(|key| format!("I,{key},{}", key / 10)));
    lines.push("M".to_string());
    lines.extend((0..dead).map(|key| match key % 2 {
        0 => format!("R,{key}"),
        _ => format!("K,{key},{key}"),
    }));
    let last = rows - 1;
    lines.extend(["M", "V", "S,0"].map(String::from));
    lines.push(format!("P,0,0,{rows},{},20,0", dead - 1));
    lines.push(format!("P,0,0,{},0,20,0", rows - dead));
    lines.extend([format!("L,{last}"), format!("F,1,1,{}", last / 10)]);
    lines.extend(["G", "V", "C", "V"].map(String::from));
    lines
}

/// Document 02: a merge whose compaction keeps 2 rows, one of them its own, and drops 17.
fn kept_and_dropped() -> Vec<String> {
    let mut lines = vec!["O,2,1,1,1,64,0".to_string()];
    lines.extend((0..18).map(|key| format!("I,{key},0")));
    lines.push("M".to_string());
    lines.extend((0..17).map(|key| format!("R,{key}")));
    lines.extend(["I,20,0", "M", "V", "L,20"].map(String::from));
    lines
}

/// Records until the pending store has no space for one more of any kind.
fn full_pending() -> Vec<String> {
    let mut lines = vec!["O,6,4,5,1,64,0".to_string()];
    lines.extend(["I,1,1,1,1,1,1", "M"].map(String::from));
    lines.extend((0..31).map(|key| format!("I,{key},1,1,1,1,{key}")));
    lines.extend(["R,1,1,1,1", "I,9,9,9,9,9,9", "K,0,1,1,1,1"].map(String::from));
    lines.extend(["R,2,2,2,2", "M", "V", "L,30,1,1,1", "L,1,1,1,1"].map(String::from));
    lines
}

/// The lines of a list from this seed.
pub fn record<T: Implementation>(subject: &Subject<T>, seed: u64) -> Result<Vec<String>, String> {
    let mut list = List::new(subject);
    list.add_lines(&UNOPENED)?;
    for example in EXAMPLES {
        list.add_lines(example)?;
    }
    list.add_lines(&REFUSALS)?;
    for (rows, dead, generation) in DEAD_ROWS {
        list.add_lines(&dead_rows(rows, dead, generation))?;
    }
    list.add_lines(&kept_and_dropped())?;
    list.add_lines(&full_pending())?;
    let mut number = seed;
    while list.lines.len() < ENOUGH_LINES {
        let steps = history(number, MANNER);
        if steps.len() <= SHORT_HISTORY {
            steps.iter().try_for_each(|step| list.add(&step.act))?;
        }
        number = number.wrapping_add(1);
    }
    match list.counts.missed_by_record().as_slice() {
        [] => Ok(list.lines),
        missing => Err(format!("the list does not show: {missing:?}")),
    }
}

/// How many answers a list has, and how many of them were compared with the other implementation.
pub struct Replayed {
    pub answers: usize,
    pub compared: u64,
}

/// Checks a list against both implementations.
pub fn replay<T: Implementation>(subject: &Subject<T>, text: &str) -> Result<Replayed, String> {
    let lines: Vec<&str> = text.lines().collect();
    let mut list = List::new(subject);
    for (place, pair) in lines.chunks(2).enumerate() {
        let number = 2 * place + 1;
        let [line, recorded] = pair else {
            return Err(format!("line {number} has no answer"));
        };
        let act = parse(line).ok_or(format!("line {number} is of no form: {line}"))?;
        let answer = list
            .answer(&act)
            .map_err(|why| format!("line {number}: {why}"))?;
        if answer != *recorded {
            return Err(format!(
                "line {number}: {line} gives {answer}, not {recorded}"
            ));
        }
    }
    match list.counts.missed_by_record().as_slice() {
        [] => Ok(Replayed {
            answers: lines.len() / 2,
            compared: list.counts.compared(),
        }),
        missing => Err(format!("the list does not show: {missing:?}")),
    }
}

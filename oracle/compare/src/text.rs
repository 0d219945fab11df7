//! Steps and answers as lines: a capital letter for the kind, then decimals, parted by commas.

use crate::history::{Act, with_exact_output};
use calls::{
    Answer, Before, Call, Condition, INDEX_STORES, Index, Opening, Query, Refresh, Subset,
};

/// The line of a call or a query. Lengths of stores and outputs are not in it.
pub fn step_line(act: &Act) -> String {
    match act {
        Act::Call(call) => call_line(call),
        Act::Query(query) => query_line(query),
        Act::Reload(capacity) => line("Z", &[*capacity]),
    }
}

fn line(letter: &str, numbers: &[u32]) -> String {
    let mut line = letter.to_string();
    for number in numbers {
        line.push(',');
        line.push_str(&number.to_string());
    }
    line
}

fn call_line(call: &Call) -> String {
    match call {
        Call::Open(o) => {
            let numbers = [o.columns, o.keys, o.sort, o.rule, o.capacity, o.generation];
            line("O", &numbers)
        }
        Call::Insert(cells) => line("I", cells),
        Call::RemoveKey(key) => line("R", key),
        Call::RemoveRow(row, key) => line("K", &[&[*row], key.as_slice()].concat()),
        Call::Merge => line("M", &[]),
        Call::Clear => line("C", &[]),
        Call::Compact => line("G", &[]),
        Call::Refresh(refresh) => line("H", &refresh_numbers(refresh)),
    }
}

/// The index store and what is done to it before, the stamp, the columns behind their number, and the values.
fn refresh_numbers(refresh: &Refresh) -> Vec<u32> {
    let before = match refresh.index.before {
        Before::Nothing => [0, 0, 0],
        Before::Renew => [1, 0, 0],
        Before::Copy(other) => [2, other as u32, 0],
        Before::Fill(seed) => [3, seed, 0],
        Before::Change(place, word) => [4, place, word],
    };
    let mut numbers = vec![refresh.index.store as u32];
    numbers.extend(before);
    numbers.extend([refresh.stamp, refresh.columns.len() as u32]);
    numbers.extend(refresh.columns.iter().chain(&refresh.values));
    numbers
}

fn query_line(query: &Query) -> String {
    match query {
        Query::Lookup(key) => line("L", key),
        Query::Cell(key, column) => line("E", &[&[*column], key.as_slice()].concat()),
        Query::FastRange(c) => line("F", &[c.kind, c.a, c.b]),
        Query::Version => line("V", &[]),
        Query::RowsSince(row) => line("S", &[*row]),
        Query::RowsSinceNote(generation, rows) => line("W", &[*generation, *rows]),
        Query::Precedence { column, pairs } => line("B", &[&[*column], pairs.as_slice()].concat()),
        Query::RefineOne {
            subset, condition, ..
        } => {
            let c = [condition.kind, condition.a, condition.b];
            line("N", &[subset_numbers(subset), c.to_vec()].concat())
        }
        Query::RefineList {
            subset, conditions, ..
        } => line(
            "A",
            &[subset_numbers(subset), list_numbers(conditions)].concat(),
        ),
        Query::AnyMatch { subset, conditions } => line(
            "Y",
            &[subset_numbers(subset), list_numbers(conditions)].concat(),
        ),
        Query::Page {
            subset,
            start,
            n,
            conditions,
            ..
        } => {
            let place = line("P", &[subset_numbers(subset), vec![*start]].concat());
            line(&format!("{place},{n}"), &list_numbers(conditions))
        }
        Query::Intersect { first, second, .. } => line(
            "T",
            &[subset_numbers(first), subset_numbers(second)].concat(),
        ),
    }
}

fn subset_numbers(subset: &Subset) -> Vec<u32> {
    match subset {
        Subset::Range(start, end) => vec![0, *start, *end],
        Subset::List(ids) => [&[1, ids.len() as u32], ids.as_slice()].concat(),
    }
}

fn list_numbers(conditions: &[Condition]) -> Vec<u32> {
    let mut numbers = vec![conditions.len() as u32];
    for c in conditions {
        numbers.extend([c.kind, c.a, c.b]);
    }
    numbers
}

/// The line of an answer.
pub fn answer_line(answer: &Answer) -> String {
    match answer {
        Answer::Refused(number) => line("=X", &[*number]),
        Answer::Done => line("=D", &[]),
        Answer::Merged {
            status,
            place,
            added,
            kept,
            dropped,
        } => line("=M", &[*status, u32::from(*added), *place, *kept, *dropped]),
        Answer::Refreshed(yes, rows) => {
            let rows: Vec<u32> = rows.iter().map(|of| of.row).collect();
            line("=H", &[&[u32::from(*yes)], rows.as_slice()].concat())
        }
        Answer::None => line("=N", &[]),
        Answer::Row(row, cells) => line("=R", &[&[*row], cells.as_slice()].concat()),
        Answer::Cell(cell) => line("=C", &[*cell]),
        Answer::Subset(subset) => line("=S", &subset_numbers(subset)),
        Answer::Version { generation, rows } => line("=V", &[*generation, *rows]),
        Answer::Match(yes) => line("=B", &[u32::from(*yes)]),
        Answer::Fails(row, place) => line("=F", &[*row, *place]),
        Answer::Page { ids, dead, next } => {
            let next = next.map_or(vec![0], |place| vec![1, place]);
            let count = [ids.len() as u32];
            line("=P", &[&count, ids.as_slice(), &[*dead], &next].concat())
        }
    }
}

/// Numbers taken from the front of a line.
struct Numbers<'a>(&'a [u64]);

impl Numbers<'_> {
    fn long(&mut self) -> Option<u64> {
        let (first, rest) = self.0.split_first()?;
        self.0 = rest;
        Some(*first)
    }

    fn one(&mut self) -> Option<u32> {
        self.long()?.try_into().ok()
    }

    fn some(&mut self, count: u32) -> Option<Vec<u32>> {
        (0..count).map(|_| self.one()).collect()
    }

    fn rest(&mut self) -> Option<Vec<u32>> {
        self.some(self.0.len() as u32)
    }

    fn subset(&mut self) -> Option<Subset> {
        match self.one()? {
            0 => Some(Subset::Range(self.one()?, self.one()?)),
            1 => {
                let count = self.one()?;
                Some(Subset::List(self.some(count)?))
            }
            _ => None,
        }
    }

    fn condition(&mut self) -> Option<Condition> {
        let (kind, a, b) = (self.one()?, self.one()?, self.one()?);
        Some(Condition { kind, a, b })
    }

    fn conditions(&mut self) -> Option<Vec<Condition>> {
        let count = self.one()?;
        (0..count).map(|_| self.condition()).collect()
    }
}

/// The call or query of a line, its output as long as needed; nothing if the line is of no form.
pub fn parse(line: &str) -> Option<Act> {
    let mut fields = line.split(',');
    let letter = fields.next()?;
    let numbers: Option<Vec<u64>> = fields.map(|field| field.parse().ok()).collect();
    let numbers = numbers?;
    let mut numbers = Numbers(&numbers);
    let act = match call(letter, &mut numbers) {
        Some(call) => Act::Call(call),
        None if letter == "Z" => Act::Reload(numbers.one()?),
        None => Act::Query(with_exact_output(query(letter, &mut numbers)?)),
    };
    numbers.0.is_empty().then_some(act)
}

fn call(letter: &str, numbers: &mut Numbers) -> Option<Call> {
    match letter {
        "O" => Some(Call::Open(Opening {
            columns: numbers.one()?,
            keys: numbers.one()?,
            sort: numbers.one()?,
            rule: numbers.one()?,
            capacity: numbers.one()?,
            generation: numbers.one()?,
        })),
        "I" => Some(Call::Insert(numbers.rest()?)),
        "R" => Some(Call::RemoveKey(numbers.rest()?)),
        "K" => Some(Call::RemoveRow(numbers.one()?, numbers.rest()?)),
        "M" => Some(Call::Merge),
        "C" => Some(Call::Clear),
        "G" => Some(Call::Compact),
        "H" => Some(Call::Refresh(refresh(numbers)?)),
        _ => None,
    }
}

fn refresh(numbers: &mut Numbers) -> Option<Refresh> {
    let store = index_store(numbers.one()?)?;
    let before = match numbers.some(3)?[..] {
        [0, 0, 0] => Before::Nothing,
        [1, 0, 0] => Before::Renew,
        [2, other, 0] => Before::Copy(index_store(other)?),
        [3, seed, 0] => Before::Fill(seed),
        [4, place, word] => Before::Change(place, word),
        _ => return None,
    };
    let (stamp, columns) = (numbers.one()?, numbers.one()?);
    Some(Refresh {
        index: Index { store, before },
        columns: numbers.some(columns)?,
        values: numbers.rest()?,
        stamp,
    })
}

/// The number of an index store that there is.
fn index_store(number: u32) -> Option<usize> {
    let number = number as usize;
    (number < INDEX_STORES).then_some(number)
}

fn query(letter: &str, numbers: &mut Numbers) -> Option<Query> {
    let output = 0;
    match letter {
        "L" => Some(Query::Lookup(numbers.rest()?)),
        "E" => {
            let column = numbers.one()?;
            Some(Query::Cell(numbers.rest()?, column))
        }
        "F" => Some(Query::FastRange(numbers.condition()?)),
        "V" => Some(Query::Version),
        "S" => Some(Query::RowsSince(numbers.one()?)),
        "W" => Some(Query::RowsSinceNote(numbers.one()?, numbers.one()?)),
        "B" => Some(Query::Precedence {
            column: numbers.one()?,
            pairs: numbers.rest()?,
        }),
        "N" => Some(Query::RefineOne {
            subset: numbers.subset()?,
            condition: numbers.condition()?,
            output,
        }),
        "A" => Some(Query::RefineList {
            subset: numbers.subset()?,
            conditions: numbers.conditions()?,
            output,
        }),
        "Y" => Some(Query::AnyMatch {
            subset: numbers.subset()?,
            conditions: numbers.conditions()?,
        }),
        "P" => Some(Query::Page {
            subset: numbers.subset()?,
            start: numbers.one()?,
            n: numbers.long()?,
            conditions: numbers.conditions()?,
            output,
        }),
        "T" => Some(Query::Intersect {
            first: numbers.subset()?,
            second: numbers.subset()?,
            output,
        }),
        _ => None,
    }
}

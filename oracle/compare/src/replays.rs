//! The two lists of the order's term 3, each made by one call of the proved library, beside the reference model: an opening with
//! the calls of a history, all lent the same stores, refreshes one index store, new at first; and, on that table, runs of queries.
//! The ids left are compared with what the reference model leaves query by query, and, once something refined, with the order's own
//! sentence.

use crate::generate::{ANY, Manner, history};
use crate::history::Act;
use calls::{
    Answer, Call, Condition, Contents, Implementation, Lengths, Opening, Query, Refresh, Subset,
};
use mouldgrey::lent::LeftIn;
use mouldgrey::{Header, lent};
use random::Rng;
use reference::{Reference, index_words};

const GATE_COUNT: u64 = 20_000;
const GATE_SEED: u64 = 20_260_903;

/// A list has no call that reloads its table.
const LISTED: Manner = Manner {
    reloads: false,
    ..ANY
};

/// Runs of queries on each table.
const RUNS: u32 = 4;

/// Kinds of queries, and the conditions that one list may hold.
const KINDS: usize = 5;
const MOST_CONDITIONS: u32 = 16;

/// The word in a store that was never written.
const UNWRITTEN: u32 = 0x5bad_cafe;

/// An opening, the stores' lengths, and the calls behind it.
struct List {
    opening: Opening,
    lent: Lengths,
    calls: Vec<Call>,
}

/// How often each case was seen; one that never was fails a gate's run. Queries by their kind.
#[derive(Default)]
struct Seen {
    lists: u64,
    calls: u64,
    openings_refused: u64,
    calls_refused: u64,
    merges_stopped: u64,
    /// Refused, answered no, answered yes.
    refreshes: [u64; 3],
    runs: u64,
    queries: [u64; KINDS],
    queries_refused: [u64; KINDS],
    longest_list: usize,
    without_range: u64,
    refined: u64,
    left_in: [u64; 4],
}

pub fn gate() -> Result<Vec<String>, String> {
    let seen = compare(GATE_COUNT, GATE_SEED)?;
    match seen.missed().as_slice() {
        [] => Ok(seen.lines()),
        missing => Err(format!("lists: never reached: {missing:?}")),
    }
}

pub fn run(count: u64, seed: u64) -> Result<Vec<String>, String> {
    Ok(compare(count, seed)?.lines())
}

fn compare(count: u64, seed: u64) -> Result<Seen, String> {
    let mut seen = Seen::default();
    for number in 0..count {
        let mut rng = Rng::new(seed ^ (number << 20));
        for list in lists(seed.wrapping_add(number)) {
            replay(&list, &mut rng, &mut seen)
                .map_err(|what| format!("history {number} of seed {seed}: {what}"))?;
        }
    }
    Ok(seen)
}

/// The lists of calls of a random history: one for each opening.
fn lists(seed: u64) -> Vec<List> {
    let mut lists: Vec<List> = Vec::new();
    for step in history(seed, LISTED) {
        match step.act {
            Act::Call(Call::Open(opening)) => lists.push(List {
                opening,
                lent: step.lent,
                calls: Vec::new(),
            }),
            Act::Query(_) | Act::Reload(_) => {}
            Act::Call(call) => {
                if let Some(list) = lists.last_mut() {
                    list.calls.push(call);
                }
            }
        }
    }
    lists
}

/// A kind, a count and so many words.
fn frame(words: &mut Vec<u32>, kind: u32, cells: &[u32]) {
    words.extend([kind, cells.len() as u32]);
    words.extend(cells);
}

fn call_words(calls: &[Call]) -> Vec<u32> {
    let mut words = Vec::new();
    for call in calls {
        match call {
            Call::Open(_) => unreachable!("an opening begins a list"),
            Call::Insert(cells) => frame(&mut words, 0, cells),
            Call::RemoveKey(key) => frame(&mut words, 1, key),
            Call::RemoveRow(row, key) => {
                let mut cells = vec![*row];
                cells.extend(key);
                frame(&mut words, 2, &cells);
            }
            Call::Merge => frame(&mut words, 3, &[]),
            Call::Compact => frame(&mut words, 4, &[]),
            Call::Clear => frame(&mut words, 5, &[]),
            Call::Refresh(refresh) => frame(&mut words, 6, &refresh_words(refresh)),
        }
    }
    words
}

/// How many columns, these, the stamp, the values.
fn refresh_words(refresh: &Refresh) -> Vec<u32> {
    let mut words = vec![refresh.columns.len() as u32];
    words.extend(&refresh.columns);
    words.push(refresh.stamp);
    words.extend(&refresh.values);
    words
}

/// The length of the index store that a list is lent: mostly enough for any refresh, else for some columns, or a word less.
fn index_length(rng: &mut Rng, capacity: u32) -> usize {
    let columns = rng.place(10);
    match rng.below(8) {
        0 => index_words(capacity, columns) - 1,
        1 => index_words(capacity, columns),
        _ => index_words(capacity, 8) + rng.place(4),
    }
}

fn condition_words(conditions: &[Condition]) -> Vec<u32> {
    conditions.iter().flat_map(|c| [c.kind, c.a, c.b]).collect()
}

/// One list of calls, and runs of queries on what it leaves.
fn replay(list: &List, rng: &mut Rng, seen: &mut Seen) -> Result<(), String> {
    let mut words = call_words(&list.calls);
    // What is cut off, or of no kind, is no call.
    match rng.below(5) {
        0 => words.extend([3, 7]),
        1 => words.extend([7, 1, 0]),
        2 => words.extend([6, 2, 1, 0]),
        _ => {}
    }
    let mut reference = Reference::new();
    let opened = reference.call(&list.lent, &Call::Open(list.opening));
    let mut lent = list.lent;
    if opened == Answer::Done {
        lent.index = index_length(rng, list.opening.capacity);
    }
    seen.lists += 1;
    let mut is_refreshed = false;
    if opened == Answer::Done {
        for call in &list.calls {
            seen.calls += 1;
            match reference.call(&lent, call) {
                Answer::Refused(_) if matches!(call, Call::Refresh(_)) => seen.refreshes[0] += 1,
                Answer::Refused(_) => seen.calls_refused += 1,
                Answer::Merged { status, .. } if status != 0 => seen.merges_stopped += 1,
                Answer::Refreshed(yes, _) => {
                    is_refreshed = true;
                    seen.refreshes[1 + usize::from(yes)] += 1;
                }
                _ => {}
            }
        }
    }

    let o = &list.opening;
    let opening = mouldgrey::raw::Opening {
        columns: o.columns,
        keys: o.keys,
        sort: o.sort,
        rule: o.rule,
        capacity: o.capacity,
        generation: o.generation,
    };
    let mut header = Header::default();
    let mut rows = vec![UNWRITTEN; list.lent.rows];
    let mut keys = vec![UNWRITTEN; list.lent.keys];
    let mut sorts = vec![UNWRITTEN; list.lent.sort_entries];
    let mut pending = vec![UNWRITTEN; list.lent.pending];
    let mut live = vec![u64::from(UNWRITTEN); list.lent.live_words];
    let mut base = vec![UNWRITTEN; list.lent.base_words];
    let new = new_index(lent.index);
    let mut index = new.clone();
    let answer = lent::replay(
        opening,
        &mut header,
        &words,
        &mut rows,
        &mut keys,
        &mut sorts,
        &mut pending,
        &mut live,
        &mut base,
        &mut index,
    );
    let answer = match answer {
        Ok(()) => Answer::Done,
        Err(refusal) => Answer::Refused(refusal.number()),
    };
    if answer != opened {
        return Err(format!("opening: {answer:?}, but {opened:?}"));
    }
    if opened != Answer::Done {
        seen.openings_refused += 1;
        let is_kept = |store: &[u32]| store.iter().all(|&word| word == UNWRITTEN);
        let kept = header == Header::default()
            && [&rows, &keys, &sorts, &pending, &base]
                .iter()
                .all(|store| is_kept(store))
            && live.iter().all(|&word| word == u64::from(UNWRITTEN))
            && index == new;
        return if kept {
            Ok(())
        } else {
            Err("a refused opening changed something".to_string())
        };
    }
    same_cells(&reference, &header, [&rows, &sorts, &pending])?;
    check_index(list.opening.capacity, is_refreshed, &new, &index)?;
    let contents = reference.contents();
    if live_rows(&header, &rows) != contents.live {
        return Err("live rows".to_string());
    }
    for _ in 0..RUNS {
        let table = Made {
            reference: &reference,
            contents: &contents,
            lent: &lent,
            header: &header,
            rows: &rows,
            sorts: &sorts,
        };
        table.run(rng, seen)?;
    }
    Ok(())
}

/// Header, rows, sort entries and pending, cell by cell; past what was ever written as they came.
fn same_cells(reference: &Reference, header: &Header, stores: [&[u32]; 3]) -> Result<(), String> {
    let expected = reference.expected();
    if header.words() != expected.header.words() {
        return Err(format!("header: {header:?}, but {:?}", expected.header));
    }
    let cells = [expected.rows, expected.sorts, expected.pending];
    for (name, (store, cells)) in ["rows", "sort entries", "pending"]
        .iter()
        .zip(stores.iter().zip(cells))
    {
        let (written, rest) = store.split_at(cells.len().min(store.len()));
        if written != cells || rest.iter().any(|&word| word != UNWRITTEN) {
            return Err(format!("cells of {name}"));
        }
    }
    Ok(())
}

/// An index store whose first word is 0; the others count for nothing then.
fn new_index(length: usize) -> Vec<u32> {
    let mut index = vec![UNWRITTEN; length];
    if let Some(first) = index.first_mut() {
        *first = 0;
    }
    index
}

/// Without an accepted refresh the index store is as it was; after one its first word is not 0, and past what any may need it is as it
/// was.
fn check_index(
    capacity: u32,
    is_refreshed: bool,
    before: &[u32],
    after: &[u32],
) -> Result<(), String> {
    let most = index_words(capacity, 8).min(before.len());
    let is_right = match is_refreshed {
        true => after[0] != 0 && after[most..] == before[most..],
        false => after == before,
    };
    match is_right {
        true => Ok(()),
        false => Err("the index store".to_string()),
    }
}

/// The live rows as the header and the row store have them.
fn live_rows(h: &Header, rows: &[u32]) -> Vec<(u32, Vec<u32>)> {
    let row = |id: u32| {
        let start = (id * h.columns) as usize;
        (id, rows[start..start + h.columns as usize].to_vec())
    };
    (0..h.rows)
        .map(row)
        .filter(|(_, cells)| cells[0] != calls::DEAD)
        .collect()
}

/// A table that a list of calls left, as both have it.
struct Made<'a> {
    reference: &'a Reference,
    contents: &'a Contents,
    lent: &'a Lengths,
    header: &'a Header,
    rows: &'a [u32],
    sorts: &'a [u32],
}

/// A query of a run.
#[derive(Debug)]
enum ListQuery {
    Refine(Condition),
    RefineList(Vec<Condition>),
    Intersect(Subset),
    Range(Condition),
}

/// What was left, and what was accepted on the way.
struct Gathered {
    left: Subset,
    refined: bool,
    subsets: Vec<Subset>,
    conditions: Vec<Condition>,
}

impl Made<'_> {
    /// A random run of queries.
    fn run(&self, rng: &mut Rng, seen: &mut Seen) -> Result<(), String> {
        seen.runs += 1;
        let start = self.subset(rng);
        let queries: Vec<ListQuery> = (0..rng.below(8)).map(|_| self.query(rng)).collect();
        let longest = [&start]
            .into_iter()
            .chain(queries.iter().filter_map(|query| match query {
                ListQuery::Intersect(subset) => Some(subset),
                _ => None,
            }))
            .map(crate::history::size)
            .max()
            .unwrap_or(0);
        let mut lengths = [longest.max(self.contents.rows as usize); 2];
        if rng.percent(20) {
            let short = rng.place(2);
            lengths[short] = rng.place(lengths[short] + 1);
        }

        let length = lengths[0].min(lengths[1]);
        let expected = self.expected(&start, &queries, length, seen);
        let mut words = Vec::new();
        for query in &queries {
            match query {
                ListQuery::Refine(c) => frame(&mut words, 0, &[c.kind, c.a, c.b]),
                ListQuery::RefineList(list) => frame(&mut words, 1, &condition_words(list)),
                ListQuery::Intersect(Subset::List(ids)) => frame(&mut words, 2, ids),
                ListQuery::Intersect(Subset::Range(a, b)) => frame(&mut words, 3, &[*a, *b]),
                ListQuery::Range(c) => frame(&mut words, 4, &[c.kind, c.a, c.b]),
            }
            // Of another number of words, or of no kind, it is no query.
            match rng.below(25) {
                0 => frame(&mut words, 0, &[1, 0]),
                1 => frame(&mut words, 1, &[1, 0]),
                2 => frame(&mut words, 1, &[1; 3 * (MOST_CONDITIONS as usize + 1)]),
                3 => frame(&mut words, 5, &[1, 0, 0]),
                _ => {}
            }
        }
        let mut first = vec![UNWRITTEN; lengths[0]];
        let mut second = vec![UNWRITTEN; lengths[1]];
        let given = match &start {
            Subset::Range(a, b) => mouldgrey::SubsetRef::Range(*a, *b),
            Subset::List(ids) => mouldgrey::SubsetRef::List(ids),
        };
        let left = lent::run_queries(
            self.header,
            self.rows,
            self.sorts,
            given,
            &words,
            &mut first,
            &mut second,
        );
        let found = match left.ids {
            LeftIn::Range(a, b) => Subset::Range(a, b),
            LeftIn::Start => start.clone(),
            LeftIn::First(count) => Subset::List(first[..count].to_vec()),
            LeftIn::Second(count) => Subset::List(second[..count].to_vec()),
        };
        seen.left_in[match left.ids {
            LeftIn::Range(..) => 3,
            LeftIn::Start => 0,
            LeftIn::First(_) => 1,
            LeftIn::Second(_) => 2,
        }] += 1;
        if (&found, left.refined) != (&expected.left, expected.refined) {
            return Err(format!(
                "{queries:?} on {start:?} with lists of {lengths:?}: {left:?}, {found:?}, but {:?}, refined {}",
                expected.left, expected.refined
            ));
        }
        if left.taken as usize != queries.len() {
            return Err(format!("{queries:?}: {} taken", left.taken));
        }
        if [&first, &second]
            .iter()
            .any(|list| list[length..].iter().any(|&id| id != UNWRITTEN))
        {
            return Err(format!(
                "{queries:?} with lists of {lengths:?}: written past {length}"
            ));
        }
        if left.refined {
            seen.refined += 1;
            let wanted = self.wanted(&start, &expected);
            if ids(&found) != wanted {
                return Err(format!("{queries:?} on {start:?}: not the wanted ids"));
            }
        }
        Ok(())
    }

    /// What the reference model leaves, query by query, each with an output as long as the shorter list.
    fn expected(
        &self,
        start: &Subset,
        queries: &[ListQuery],
        output: usize,
        seen: &mut Seen,
    ) -> Gathered {
        let mut g = Gathered {
            left: start.clone(),
            refined: false,
            subsets: Vec::new(),
            conditions: Vec::new(),
        };
        for listed in queries {
            let intersect = |with: &Subset| Query::Intersect {
                first: g.left.clone(),
                second: with.clone(),
                output,
            };
            let (kind, query) = match listed {
                ListQuery::Refine(condition) => (
                    0,
                    Some(Query::RefineOne {
                        subset: g.left.clone(),
                        condition: *condition,
                        output,
                    }),
                ),
                ListQuery::RefineList(conditions) => (
                    1,
                    Some(Query::RefineList {
                        subset: g.left.clone(),
                        conditions: conditions.clone(),
                        output,
                    }),
                ),
                ListQuery::Intersect(subset @ Subset::List(_)) => (2, Some(intersect(subset))),
                ListQuery::Intersect(subset) => (3, Some(intersect(subset))),
                ListQuery::Range(condition) => {
                    match self
                        .reference
                        .query(self.lent, &Query::FastRange(*condition))
                    {
                        Answer::Subset(range) => (4, Some(intersect(&range))),
                        _ => (4, None),
                    }
                }
            };
            seen.queries[kind] += 1;
            let Some(query) = query else {
                seen.without_range += 1;
                continue;
            };
            match self.reference.query(self.lent, &query) {
                Answer::Subset(left) => {
                    g.left = left;
                    match listed {
                        ListQuery::Refine(condition) => {
                            g.refined = true;
                            g.conditions.push(*condition);
                        }
                        ListQuery::RefineList(conditions) => {
                            g.refined = true;
                            g.conditions.extend(conditions);
                            seen.longest_list = seen.longest_list.max(conditions.len());
                        }
                        ListQuery::Intersect(subset) => g.subsets.push(subset.clone()),
                        ListQuery::Range(condition) => g.conditions.push(*condition),
                    }
                }
                _ => seen.queries_refused[kind] += 1,
            }
        }
        g
    }

    /// "exactly the live rows of the starting subset that lie in every accepted subset and meet every accepted condition, those
    /// of ranges too, rising, each once"
    fn wanted(&self, start: &Subset, g: &Gathered) -> Vec<u32> {
        let is_in = |subset: &Subset, id: u32| match subset {
            Subset::Range(a, b) => *a <= id && id < *b,
            Subset::List(ids) => ids.contains(&id),
        };
        let meets = |cells: &[u32], c: &Condition| {
            let cell = cells[c.a as usize];
            match c.kind {
                0 => cell == cells[c.b as usize],
                1 => cell == c.b,
                2 => cell < c.b,
                3 => cell > c.b,
                4 => cell <= c.b,
                _ => cell >= c.b,
            }
        };
        self.contents
            .live
            .iter()
            .filter(|(id, cells)| {
                is_in(start, *id)
                    && g.subsets.iter().all(|subset| is_in(subset, *id))
                    && g.conditions.iter().all(|c| meets(cells, c))
            })
            .map(|(id, _)| *id)
            .collect()
    }

    fn query(&self, rng: &mut Rng) -> ListQuery {
        match rng.below(5) {
            0 => ListQuery::Intersect(self.subset(rng)),
            1 => {
                let kind = rng.within(0, 5);
                let a = if rng.percent(85) {
                    self.header.sort
                } else {
                    rng.below(self.header.columns + 1)
                };
                let b = self.value(rng, a);
                ListQuery::Range(Condition { kind, a, b })
            }
            2 => {
                let most = if rng.percent(5) { MOST_CONDITIONS } else { 3 };
                let conditions = (0..rng.below(most + 1)).map(|_| self.condition(rng));
                ListQuery::RefineList(conditions.collect())
            }
            _ => ListQuery::Refine(self.condition(rng)),
        }
    }

    fn condition(&self, rng: &mut Rng) -> Condition {
        let kinds = if rng.percent(5) { 8 } else { 6 };
        let kind = rng.below(kinds);
        let a = rng.below(self.header.columns);
        let b = match kind {
            0 => rng.below(self.header.columns),
            _ => self.value(rng, a),
        };
        Condition { kind, a, b }
    }

    /// A cell of that column, or a small number.
    fn value(&self, rng: &mut Rng, column: u32) -> u32 {
        if self.contents.live.is_empty() || rng.percent(20) {
            return rng.below(12);
        }
        let (_, cells) = &self.contents.live[rng.place(self.contents.live.len())];
        match cells.get(column as usize) {
            Some(&cell) => cell.saturating_add(rng.below(3)).saturating_sub(1),
            None => 0,
        }
    }

    /// A subset of the rows, or not quite one.
    fn subset(&self, rng: &mut Rng) -> Subset {
        let rows = self.contents.rows;
        if rng.percent(50) {
            let end = rng.below(rows + 1);
            return match rng.below(12) {
                0 => Subset::Range(rows + 2, rows + 1),
                1 => Subset::Range(0, rows + 1),
                2..=5 => Subset::Range(0, rows),
                _ => Subset::Range(rng.below(end + 1), end),
            };
        }
        let share = rng.pick(&[10, 50, 90, 100]);
        let mut ids: Vec<u32> = (0..rows).filter(|_| rng.percent(share)).collect();
        match rng.below(16) {
            0 => ids.push(rows),
            1 if ids.len() > 1 => ids.swap(0, 1),
            _ => {}
        }
        Subset::List(ids)
    }
}

fn ids(subset: &Subset) -> Vec<u32> {
    match subset {
        Subset::Range(a, b) => (*a..*b).collect(),
        Subset::List(ids) => ids.clone(),
    }
}

impl Seen {
    fn missed(&self) -> Vec<&'static str> {
        let cases = [
            ("a refused opening", self.openings_refused),
            ("a refused call", self.calls_refused),
            ("a stopped merge", self.merges_stopped),
            ("a refused refresh", self.refreshes[0]),
            ("a refresh of no row", self.refreshes[1]),
            ("a refresh of some row", self.refreshes[2]),
            ("a range that is none", self.without_range),
            ("a run that refined", self.refined),
            ("refining refused", self.queries_refused[0]),
            ("refining by a list refused", self.queries_refused[1]),
            ("a list refused", self.queries_refused[2]),
            ("a range refused", self.queries_refused[3]),
            ("a fast range refused", self.queries_refused[4]),
            (
                "a longest list of conditions",
                u64::from(self.longest_list == MOST_CONDITIONS as usize),
            ),
            ("the starting ids left", self.left_in[0]),
            ("ids left in the first list", self.left_in[1]),
            ("ids left in the second list", self.left_in[2]),
            ("a range left", self.left_in[3]),
        ];
        cases
            .into_iter()
            .filter(|case| case.1 == 0)
            .map(|case| case.0)
            .collect()
    }

    fn lines(&self) -> Vec<String> {
        vec![
            format!(
                "lists of calls: {} in one call each, of {} calls, {} refused; {} merges stopped; {} openings refused",
                self.lists,
                self.calls,
                self.calls_refused + self.refreshes[0],
                self.merges_stopped,
                self.openings_refused
            ),
            format!(
                "refreshes in lists: {}, {} of them refused, {} of some row",
                self.refreshes.iter().sum::<u64>(),
                self.refreshes[0],
                self.refreshes[2]
            ),
            format!(
                "lists of queries: {} in one call each, {} of them refining, of {} queries, {} refused",
                self.runs,
                self.refined,
                self.queries.iter().sum::<u64>(),
                self.queries_refused.iter().sum::<u64>()
            ),
        ]
    }
}

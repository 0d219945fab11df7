//! Counts what a run reaches, so that a generator which misses a case is noticed.

use crate::cases::{Case, Reached, Required, TIMES};
use crate::history::{Act, Step, needed, size};
use crate::kinds::{ACCEPTED, AGAIN, Kind, Outcomes, outcome_name};
use crate::mentioned::Mentioned;
use crate::origins::Origin;
use calls::{Answer, Call, Contents, DEAD, Header, Opening, Query, Refresh, Subset};
use std::cmp::Ordering;

const WIDTHS: [Case; 8] = [
    Case::Open1Column,
    Case::Open2Columns,
    Case::Open3Columns,
    Case::Open4Columns,
    Case::Open5Columns,
    Case::Open6Columns,
    Case::Open7Columns,
    Case::Open8Columns,
];

const RULES: [Case; 4] = [
    Case::OpenRule0,
    Case::OpenRule1,
    Case::OpenRule2,
    Case::OpenRule3,
];

/// The most rows of a table, and the most ids of a list.
const FULL: usize = 65_536;

#[derive(Default)]
pub struct Counts {
    pub histories: u64,
    pub short_histories: u64,
    pub full_histories: u64,
    /// The reference model's outcomes, by kind.
    steps: Outcomes,
    /// Those of them that were compared with the other implementation and agreed.
    compared: Outcomes,
    reached: Reached,
    /// The table at hand was cleared of more than 128 rows.
    cleared_many: bool,
}

fn outcome(opening: &Opening, step: &Step, answer: &Answer) -> usize {
    match answer {
        Answer::Refused(2) if is_about_output(opening, step) => AGAIN,
        Answer::Refused(number) => *number as usize,
        _ => ACCEPTED,
    }
}

impl Counts {
    pub fn case(&mut self, case: Case) {
        self.reached.add(case, 1);
    }

    /// Counts a step by its kind and its refusal, if any.
    pub fn step(&mut self, opening: &Opening, step: &Step, answer: &Answer) {
        let outcome = outcome(opening, step, answer);
        self.steps.add(Kind::of(&step.act), outcome);
        if let Act::Query(query) = &step.act {
            self.answer(query, answer);
            self.conditions(query);
            self.pages(query, answer);
            self.long_lists(query, answer);
        }
    }

    /// Counts a step that is compared with the other implementation.
    pub fn compared_step(&mut self, opening: &Opening, step: &Step, answer: &Answer) {
        let outcome = outcome(opening, step, answer);
        self.compared.add(Kind::of(&step.act), outcome);
    }

    /// Answers that both implementations gave.
    pub fn compared(&self) -> u64 {
        let kinds = Kind::ALL.iter();
        kinds.map(|&kind| self.compared.all(kind)).sum()
    }

    /// Merges that both implementations answered.
    pub fn merges(&self) -> u64 {
        self.compared.all(Kind::Merge)
    }

    /// How often a case was reached.
    pub fn times(&self, case: Case) -> u64 {
        self.reached.times(case)
    }

    /// Counts queries about lists as long as a list may be, or longer by one.
    fn long_lists(&mut self, query: &Query, answer: &Answer) {
        let length = |subset: &Subset| match subset {
            Subset::List(ids) => ids.len(),
            Subset::Range(..) => 0,
        };
        let (cases, length) = match query {
            Query::RefineOne { subset, .. } => (
                [Case::FullRefineOneLongest, Case::FullRefineOneTooLong],
                length(subset),
            ),
            Query::RefineList { subset, .. } => (
                [Case::FullRefineListLongest, Case::FullRefineListTooLong],
                length(subset),
            ),
            Query::AnyMatch { subset, .. } => (
                [Case::FullAnyMatchLongest, Case::FullAnyMatchTooLong],
                length(subset),
            ),
            Query::Page { subset, .. } => (
                [Case::FullPageLongest, Case::FullPageTooLong],
                length(subset),
            ),
            Query::Intersect { first, second, .. } => (
                [Case::FullIntersectLongest, Case::FullIntersectTooLong],
                length(first).max(length(second)),
            ),
            _ => return,
        };
        match answer {
            Answer::Refused(4) if length == FULL + 1 => self.case(cases[1]),
            Answer::Refused(_) => {}
            _ if length != FULL => {}
            answer => {
                self.case(cases[0]);
                match answer {
                    Answer::Subset(Subset::List(ids)) if ids.len() == FULL => {
                        self.case(Case::FullAllKept);
                    }
                    Answer::Page { ids, .. } if ids.len() == FULL => {
                        self.case(Case::FullPageAllWritten);
                    }
                    _ => {}
                }
            }
        }
    }

    /// Counts lists of conditions.
    fn conditions(&mut self, query: &Query) {
        if let Query::RefineList { conditions, .. }
        | Query::AnyMatch { conditions, .. }
        | Query::Page { conditions, .. } = query
        {
            match conditions.len() {
                0 => self.case(Case::NoConditions),
                1 => {}
                _ => self.case(Case::SeveralConditions),
            }
        }
    }

    /// Counts pages by their start place, n and output.
    fn pages(&mut self, query: &Query, answer: &Answer) {
        let Query::Page {
            subset,
            start,
            n,
            output,
            ..
        } = query
        else {
            return;
        };
        let (start, size) = (*start as usize, size(subset));
        match answer {
            Answer::Refused(5) if start > size => {
                self.case(Case::PageFromAboveSize);
            }
            Answer::Page { .. } => {
                if start == size {
                    self.case(Case::PageFromSize);
                }
                if (*output as u64) < *n {
                    self.case(Case::PageShortOutput);
                }
                if *n > 1 << 32 {
                    self.case(Case::PageOfMany);
                }
            }
            _ => {}
        }
    }

    fn answer(&mut self, query: &Query, answer: &Answer) {
        let case = match (query, answer) {
            (_, Answer::Refused(_)) => return,
            (Query::Lookup(_), Answer::None) => Case::LookupNone,
            (Query::Lookup(_), _) => Case::LookupRow,
            (Query::Cell(..), Answer::None) => Case::OneCellNone,
            (Query::Cell(..), _) => Case::OneCellCell,
            (Query::FastRange(_), Answer::None) => Case::FastRangeNone,
            (Query::FastRange(_), of) if is_empty(of) => Case::FastRangeEmpty,
            (Query::FastRange(_), _) => Case::FastRangeRows,
            (Query::Version, _) => return,
            (Query::RowsSince(_), of) if is_empty(of) => Case::RowsSinceEmpty,
            (Query::RowsSince(_), _) => Case::RowsSinceRows,
            (Query::RowsSinceNote(..), of) if is_empty(of) => Case::NoteEmpty,
            (Query::RowsSinceNote(..), _) => Case::NoteRows,
            (Query::Precedence { .. }, _) => return,
            (Query::RefineOne { .. }, Answer::Subset(Subset::Range(0, 0))) => {
                Case::RefineOneEmptyRange
            }
            (Query::RefineOne { .. }, of) if is_range(of) => Case::RefineOneRange,
            (Query::RefineOne { .. }, _) => Case::RefineOneList,
            (Query::RefineList { .. }, of) if is_range(of) => Case::RefineListRange,
            (Query::RefineList { .. }, _) => Case::RefineListList,
            (Query::AnyMatch { .. }, Answer::Match(true)) => Case::AnyMatchYes,
            (Query::AnyMatch { .. }, _) => Case::AnyMatchNo,
            (Query::Page { n: 0, .. }, _) => Case::PageOfNone,
            (Query::Page { .. }, Answer::Page { next: None, .. }) => Case::PageNoNext,
            (Query::Page { .. }, _) => Case::PageNext,
            (Query::Intersect { .. }, of) if is_range(of) => Case::IntersectRange,
            (Query::Intersect { .. }, of) if is_empty(of) => Case::IntersectEmptyList,
            (Query::Intersect { .. }, _) => Case::IntersectList,
        };
        self.case(case);
        if let (
            Query::Page {
                subset, start, n, ..
            },
            Answer::Page { ids, dead, .. },
        ) = (query, answer)
        {
            let visited = u64::min(*n, size(subset) as u64 - u64::from(*start));
            match (*dead, visited - ids.len() as u64 - u64::from(*dead)) {
                (0, _) => {}
                (_, 0) => self.case(Case::PageDead),
                _ => self.case(Case::PageDeadAndFailed),
            }
        }
    }

    /// Counts refused notes by their reasons. A note of another generation counts for that, whatever its rows.
    pub fn note(&mut self, query: &Query, answer: &Answer, generation: u32) {
        if let (Query::RowsSinceNote(noted, _), Answer::Refused(18)) = (query, answer) {
            self.case(match *noted == generation {
                true => Case::NoteMoreRows,
                false => Case::NoteOtherGeneration,
            });
        }
    }

    /// Counts accepted checks of precedence by the rows that are named and what they meet or fail.
    pub fn precedence(&mut self, query: &Query, answer: &Answer, o: &Opening, seen: &Contents) {
        let Query::Precedence { column, pairs } = query else {
            return;
        };
        let column = *column as usize;
        match answer {
            Answer::None => self.precedence_met(column, pairs, seen),
            Answer::Fails(row, place) => {
                let need = pairs[2 * *place as usize + 1];
                self.precedence_fails((column, need), *place, *row, o, seen);
            }
            _ => return,
        }
        if pairs.len() == 32 {
            self.case(Case::Precedence16Pairs);
        }
        match o.sort as usize {
            sort if sort == column => self.case(Case::PrecedenceSortColumn),
            sort if sort < o.keys as usize => {
                self.case(Case::PrecedenceSortOtherKey);
            }
            _ => {}
        }
    }

    fn precedence_met(&mut self, column: usize, pairs: &[u32], seen: &Contents) {
        let (mut itself, mut another, mut several) = (false, false, false);
        for (_, cells) in &seen.live {
            let naming = pairs.chunks(2).filter(|pair| pair[0] == cells[column]);
            let (own, others): (Vec<&[u32]>, Vec<&[u32]>) =
                naming.partition(|pair| pair[1] == pair[0]);
            itself |= !own.is_empty();
            another |= !others.is_empty();
            several |= own.len() + others.len() > 1;
        }
        for (is_so, case) in [
            (!itself && !another, Case::PrecedenceNoRow),
            (itself, Case::PrecedenceMetByItself),
            (another, Case::PrecedenceMetByOther),
            (several, Case::PrecedenceSeveralPairs),
        ] {
            if is_so {
                self.case(case);
            }
        }
    }

    fn precedence_fails(
        &mut self,
        (column, need): (usize, u32),
        place: u32,
        row: u32,
        o: &Opening,
        seen: &Contents,
    ) {
        self.case(match place {
            0 => Case::PrecedenceFailsFirst,
            _ => Case::PrecedenceFailsLater,
        });
        let mut key = live_row(seen, row).map_or(vec![], |cells| cells[..o.keys as usize].to_vec());
        key[column] = need;
        if seen.live.iter().any(|(_, cells)| cells.starts_with(&key)) {
            self.case(Case::PrecedenceFailsBySort);
        }
        if column == 0 && need == DEAD {
            self.case(Case::PrecedenceFailsDeadMark);
        }
    }

    /// Counts a refresh by what it met.
    pub fn refresh(
        &mut self,
        step: &Step,
        refresh: &Refresh,
        answer: &Answer,
        before: &Mentioned,
        index: (&Origin, bool),
    ) {
        for case in before.cases(step, refresh, answer, index) {
            self.case(case);
        }
    }

    /// Counts an accepted reload by the headers before and after it.
    pub fn reload(&mut self, before: &Header, after: &Header) {
        self.case(match after.capacity.cmp(&before.capacity) {
            Ordering::Equal => Case::ReloadSame,
            Ordering::Greater => Case::ReloadLarger,
            Ordering::Less => Case::ReloadSmaller,
        });
        let slots = |of: &Header| reference::slots_in_use(of.capacity, of.rows);
        for (is_so, case) in [
            (after.rows == after.capacity, Case::ReloadExact),
            (after.rows == 0, Case::ReloadEmpty),
            (after.dead > 0, Case::ReloadDeadRows),
            (after.pending > 0, Case::ReloadStaged),
            (slots(after) != slots(before), Case::ReloadMoreSlots),
            (after.rows as usize == FULL, Case::FullReload),
        ] {
            if is_so {
                self.case(case);
            }
        }
    }

    /// Counts an accepted opening.
    pub fn opening(&mut self, o: &Opening) {
        self.cleared_many = false;
        self.case(WIDTHS[o.columns as usize - 1]);
        self.case(RULES[o.rule as usize]);
        if o.sort == 0 {
            self.case(Case::OpenSortFirst);
        }
        self.case(match o.sort < o.keys {
            true => Case::OpenSortKey,
            false => Case::OpenSortOther,
        });
    }

    /// Counts a removal by row that a merge takes, by what was there before.
    pub fn row_removal(&mut self, before: &Contents, row: u32, key: &[u32]) {
        let found = live_row(before, row);
        self.case(match found {
            Some(cells) if cells.starts_with(key) => Case::RemoveRowLive,
            Some(_) => Case::RemoveRowOfOtherKey,
            None if row < before.rows => Case::RemoveRowDead,
            None => Case::RemoveRowGone,
        });
    }

    /// Counts the inserts of a merge that brought a live row's key a cell of another sign. Rules 2 and 3 choose otherwise there
    /// if they compare unsigned.
    pub fn signs(&mut self, rule: u32, inserts: u64) {
        let case = match rule {
            2 => Case::MergeRule2OtherSign,
            3 => Case::MergeRule3OtherSign,
            _ => return,
        };
        self.reached.add(case, inserts);
    }

    /// Counts the turns of an accepted call by what it left.
    pub fn turn(
        &mut self,
        o: &Opening,
        call: &Call,
        answer: &Answer,
        turn: (&Contents, &Contents),
    ) {
        let (before, after) = turn;
        if after.rows == o.capacity && before.rows < o.capacity {
            self.case(Case::TableExactlyFull);
        }
        self.full_size(call, answer, before, after);
        self.key_store(o, call, before, after);
        match (call, answer) {
            (
                Call::Merge,
                Answer::Merged {
                    status,
                    place,
                    added,
                    kept,
                    dropped,
                },
            ) => {
                self.merge((*status, *place, *added), before, after);
                if *dropped > 0 {
                    self.compaction(*kept, *dropped, *added);
                }
            }
            (Call::Compact, _) if before.dead > 0 => self.case(Case::CompactWithDeadRows),
            (Call::Compact, _) => self.case(Case::CompactWithoutDeadRows),
            (Call::Clear, _) if before.rows > 0 => self.case(Case::ClearWithRows),
            (Call::Clear, _) => self.case(Case::ClearWithoutRows),
            _ => {}
        }
    }

    /// Counts the turns at which the slots in use become more or fewer.
    fn key_store(&mut self, o: &Opening, call: &Call, before: &Contents, after: &Contents) {
        let slots = |of: &Contents| reference::slots_in_use(o.capacity, of.rows);
        let is_known = after.dead > before.dead;
        match (call, before.rows, after.rows) {
            (Call::Merge, 128, 129) if slots(after) > slots(before) => self.case(match is_known {
                true => Case::KeysPast128Known,
                false => Case::KeysPast128New,
            }),
            (Call::Merge, 512, 513) if slots(after) > slots(before) => self.case(match is_known {
                true => Case::KeysPast512Known,
                false => Case::KeysPast512New,
            }),
            (Call::Merge | Call::Compact, ..) if slots(after) < slots(before) => {
                self.case(Case::KeysFewerSlots);
            }
            (Call::Merge, 0, 1..) if self.cleared_many => {
                self.case(Case::ClearManyThenRows);
            }
            _ => {}
        }
        if *call == Call::Clear {
            self.cleared_many = before.rows > 128;
        }
    }

    /// Counts the turns of a table with as many rows as there can be.
    fn full_size(&mut self, call: &Call, answer: &Answer, before: &Contents, after: &Contents) {
        let full = FULL as u32;
        if after.rows == full && before.rows < full {
            self.case(Case::FullFilled);
        }
        if after.sort_entries.len() == FULL {
            self.case(Case::FullSortEntries);
        }
        if after.rows == full && 2 * after.dead == full {
            self.case(Case::FullHalfDead);
        }
        if before.rows != full {
            return;
        }
        let compacted = after.generation != before.generation;
        match (call, answer) {
            (Call::Merge, Answer::Merged { status: 8, .. }) => self.case(Case::FullStop8),
            (Call::Merge, _) if compacted => self.case(Case::FullMergeCompacts),
            (Call::Compact, _) if before.dead > 0 => self.case(Case::FullCompact),
            _ => {}
        }
    }

    fn merge(&mut self, of: (u32, u32, bool), before: &Contents, after: &Contents) {
        let (status, place, added) = of;
        self.case(match added {
            true => Case::MergeRowAdded,
            false => Case::MergeNothingAdded,
        });
        match status {
            8 => self.case(Case::MergeStop8),
            9 => self.case(Case::MergeStop9),
            _ if before.generation != after.generation => {
                self.case(Case::MergeCompacts);
            }
            _ if is_held_back(after) => {
                self.case(Case::MergeAtLastGeneration);
            }
            _ if after.dead > before.dead && after.dead == dead_limit(after) => {
                self.case(Case::MergeAtDeadLimit);
                if after.rows > 33 {
                    self.case(Case::MergeHalfOfManyDead);
                }
            }
            _ => {}
        }
        if status != 0 && added {
            self.case(Case::MergeStopAfterRow);
        }
        if status != 0 && place > 0 {
            self.case(Case::MergeStopAtLaterPlace);
        }
    }

    /// Counts a merge's own compaction by what it kept and dropped, and whether the merge had appended a row.
    fn compaction(&mut self, kept: u32, dropped: u32, added: bool) {
        let rows = kept + dropped;
        if kept == 0 {
            self.case(Case::MergeCompactsAllDead);
        }
        if added {
            self.case(Case::MergeCompactsAfterRow);
        }
        if rows > 32 && dropped == rows / 2 + 1 {
            self.case(match rows % 2 {
                0 => Case::MergeCompactsAboveHalfEven,
                _ => Case::MergeCompactsAboveHalfOdd,
            });
        }
        if rows > 64 {
            self.case(Case::MergeCompactsMany);
        }
    }

    pub fn add(&mut self, other: &Counts) {
        self.histories += other.histories;
        self.short_histories += other.short_histories;
        self.full_histories += other.full_histories;
        self.steps.add_all(&other.steps);
        self.compared.add_all(&other.compared);
        self.reached.add_all(&other.reached);
    }

    /// What the recorded list has missed. Its stores are as long as needed, so that nothing is refused with 2.
    pub fn missed_by_record(&self) -> Vec<String> {
        let kinds = Kind::ALL.iter().filter(|kind| kind.is_recorded());
        let mut missed = unreached(&self.steps, kinds, |number| number != 2 && number != AGAIN);
        missed.extend(self.unreached_cases(Required::Always));
        missed
    }

    /// What a gate's run has missed: kinds, refusals and cases never reached or too seldom, and kinds that were never compared; also
    /// their refusals, if the other implementation follows the paper.
    pub fn missed_by_gate(&self, follows_paper: bool) -> Vec<String> {
        let mut missed = unreached(&self.steps, Kind::ALL.iter(), |_| true);
        missed.extend(self.unreached_cases(Required::Always));
        missed.extend(self.unreached_cases(Required::Gate));
        missed.extend(self.unreached_cases(match follows_paper {
            true => Required::LibraryGate,
            false => Required::RustGate,
        }));
        missed.extend(self.seldom());
        let compared = |outcome| follows_paper || outcome == ACCEPTED;
        let never = unreached(&self.compared, Kind::ALL.iter(), compared);
        missed.extend(
            never
                .into_iter()
                .map(|name| format!("never compared: {name}")),
        );
        missed
    }

    fn unreached_cases(&self, required: Required) -> impl Iterator<Item = String> + '_ {
        let unreached = self.reached.unreached(required);
        unreached.map(|case| case.name().to_string())
    }

    /// Refusals and cases that were reached less often than `TIMES` and must be.
    fn seldom(&self) -> Vec<String> {
        let kinds = Kind::ALL.iter().filter(|kind| kind.is_often_refused());
        let refusals = kinds.flat_map(|&kind| kind.refusals().iter().map(move |&it| (kind, it)));
        let refusals = refusals.map(|(kind, number)| {
            let name = format!("{}: {}", kind.name(), outcome_name(number));
            (name, self.steps.times(kind, number))
        });
        let cases = Case::ALL.iter().copied();
        let cases = cases.filter(|case| case.required() == Required::Often);
        let cases = cases.map(|case| (case.name().to_string(), self.times(case)));
        let seldom = refusals.chain(cases).filter(|(_, times)| *times < TIMES);
        let lines = seldom.map(|(name, times)| format!("{name}: only {times} times"));
        lines.collect()
    }

    pub fn print(&self) {
        println!(
            "{} random histories, {} short ones, {} of full size",
            self.histories, self.short_histories, self.full_histories
        );
        let total = |is_call: bool| -> u64 {
            let kinds = Kind::ALL.iter().filter(|kind| kind.is_call() == is_call);
            kinds.map(|&kind| self.steps.all(kind)).sum()
        };
        println!("{} calls, {} queries", total(true), total(false));
        println!(
            "{} answers compared with the other implementation's",
            self.compared()
        );
        for &kind in Kind::ALL {
            let refused = self.steps.refused(kind);
            let refused =
                refused.map(|(number, times)| format!("{} {times}", outcome_name(number)));
            let refused: Vec<String> = refused.collect();
            let accepted = self.steps.times(kind, ACCEPTED);
            println!(
                "  {}: accepted {accepted}; {}",
                kind.name(),
                refused.join(", ")
            );
        }
        for &case in Case::ALL.iter().filter(|&&case| self.times(case) > 0) {
            println!("  {}: {}", case.name(), self.times(case));
        }
    }
}

/// The names of kinds and outcomes never reached, of the outcomes that are wanted.
fn unreached<'a>(
    outcomes: &Outcomes,
    kinds: impl Iterator<Item = &'a Kind>,
    is_wanted: impl Fn(usize) -> bool,
) -> Vec<String> {
    let mut names = Vec::new();
    for &kind in kinds {
        let wanted = kind.outcomes().filter(|&outcome| is_wanted(outcome));
        for outcome in wanted.filter(|&outcome| outcomes.times(kind, outcome) == 0) {
            names.push(format!("{}: {}", kind.name(), outcome_name(outcome)));
        }
    }
    names
}

/// The cells of a live row.
pub fn live_row(of: &Contents, row: u32) -> Option<&[u32]> {
    let place = of.live.binary_search_by_key(&row, |live| live.0);
    place.ok().map(|place| of.live[place].1.as_slice())
}

/// The most dead rows that a merge leaves.
fn dead_limit(of: &Contents) -> u32 {
    u32::max(16, of.rows / 2)
}

/// Whether a merge left dead rows that it would have dropped at any generation but the last.
pub fn is_held_back(after: &Contents) -> bool {
    after.generation == u32::MAX && after.dead > dead_limit(after)
}

fn is_about_output(opening: &Opening, step: &Step) -> bool {
    let of_output = match &step.act {
        Act::Query(Query::Intersect { .. }) => return true,
        Act::Query(Query::RefineOne { .. } | Query::RefineList { .. }) => true,
        Act::Query(Query::Page { .. }) => true,
        Act::Call(Call::Refresh(_)) => true,
        _ => false,
    };
    of_output && step.lent.rows >= needed(opening, 0).rows
}

fn is_range(answer: &Answer) -> bool {
    matches!(answer, Answer::Subset(Subset::Range(..)))
}

fn is_empty(answer: &Answer) -> bool {
    match answer {
        Answer::Subset(Subset::Range(start, end)) => start == end,
        Answer::Subset(Subset::List(ids)) => ids.is_empty(),
        _ => false,
    }
}

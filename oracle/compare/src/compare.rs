//! Two implementations on one history. The reference model is called first; what it refuses changes nothing, and the other is called
//! only if that follows the paper in everything. All else must be equal: each answer, and after each call what can be read of the
//! whole table, and every cell of its stores, if it has any.

use crate::cases::Case;
use crate::counts::{Counts, is_held_back, live_row};
use crate::guard::guarded;
use crate::history::{Act, Step, UNOPENED, needed};
use crate::mentioned::Mentioned;
use crate::origins::{Origin, Origins};
use calls::{
    Answer, Call, Contents, DEAD, Implementation, Lengths, Opening, Query, Refresh, Subset,
};
use reference::Reference;

/// The implementation that is compared with the reference model: how to make one, and what it covers.
pub struct Subject<T> {
    pub make: fn() -> T,
    /// The hash by which it distinguishes keys in a removal by row.
    pub key_hash: fn(&[u32]) -> u32,
    /// Whether it follows the paper in everything: refusals, stops, capacity, the last generation.
    pub follows_paper: bool,
}

/// The Rust's panic where a sort value falls. No other panic of it is a stop.
pub const RUST_STOP: &str = "inserting row that violates sort order";

/// Where two implementations differ: the step's place in the history and what each returned.
#[derive(Debug)]
pub struct Difference {
    pub step: usize,
    pub reference: String,
    pub other: String,
}

/// Contents are compared after a staging too, but only where few rows make that cheap: a staging changes no row.
const FEW_ROWS: u32 = 16;

/// The first difference in a history, if any. Counts what was seen.
pub fn compare<T: Implementation>(
    subject: &Subject<T>,
    history: &[Step],
    counts: &mut Counts,
) -> Option<Difference> {
    let mut pair = Pair::new(subject);
    history
        .iter()
        .enumerate()
        .find_map(|(place, step)| pair.step(step, counts).err().map(|it| it.at(place)))
}

/// What each implementation returned.
pub struct Unlike {
    reference: String,
    other: String,
}

impl Unlike {
    pub fn at(self, step: usize) -> Difference {
        Difference {
            step,
            reference: self.reference,
            other: self.other,
        }
    }
}

pub struct Pair<'a, T> {
    subject: &'a Subject<T>,
    reference: Reference,
    other: T,
    /// The opening that was accepted last.
    pub opening: Opening,
    /// The reference model as the last call left it.
    seen: Contents,
    /// Removals by row that wait for a merge.
    rows_to_remove: Vec<(u32, Vec<u32>)>,
    /// Inserts that wait for a merge and bring a live row's key a cell of another sign.
    other_signs: u64,
    /// The sort values of inserts that wait for a merge.
    stamps: Vec<u32>,
    /// The index stores.
    origins: Origins,
    /// Whether rows that a refresh has staged wait for a merge.
    refreshed: bool,
    /// Whether the other implementation's table is still the same: not after a stop, until the next opening.
    following: bool,
}

impl<'a, T: Implementation> Pair<'a, T> {
    pub fn new(subject: &'a Subject<T>) -> Pair<'a, T> {
        let reference = Reference::new();
        Pair {
            subject,
            seen: reference.contents(),
            reference,
            other: (subject.make)(),
            opening: UNOPENED,
            rows_to_remove: Vec::new(),
            other_signs: 0,
            stamps: Vec::new(),
            origins: Origins::default(),
            refreshed: false,
            following: false,
        }
    }

    /// Takes one step with both implementations. Returns the reference model's answer.
    pub fn step(&mut self, step: &Step, counts: &mut Counts) -> Result<Answer, Unlike> {
        match &step.act {
            Act::Call(call) => self.call(step, call, counts),
            Act::Query(query) => self.query(step, query, counts),
            Act::Reload(capacity) => self.reload(step, *capacity, counts),
        }
    }

    fn call(&mut self, step: &Step, call: &Call, counts: &mut Counts) -> Result<Answer, Unlike> {
        if let Call::Refresh(refresh) = call {
            return self.refresh(step, refresh, counts);
        }
        let answer = self.reference.call(&step.lent, call);
        counts.step(&self.opening, step, &answer);
        if matches!(answer, Answer::Refused(_)) {
            self.refused(step, call, &answer, counts)?;
            return Ok(answer);
        }
        let is_staging = self.note(call, counts);
        if !is_staging {
            let after = self.reference.contents();
            counts.turn(&self.opening, call, &answer, (&self.seen, &after));
            self.watch(&answer, &after, counts);
            self.seen = after;
        }
        if let Answer::Merged { status, place, .. } = answer {
            let stamps = std::mem::take(&mut self.stamps);
            if status == 9 {
                self.stop_as_old(&step.lent, stamps[place as usize], counts)?;
            }
        }
        if *call == Call::Clear && self.reference.header().largest.is_some() {
            counts.case(Case::ClearKeepsValue);
        }
        if self.following {
            counts.compared_step(&self.opening, step, &answer);
            let returned = guarded(|| self.other.call(&step.lent, call));
            agree(&Ok(answer.clone()), &returned)?;
            if !is_staging || self.seen.rows <= FEW_ROWS {
                agree(&Ok(self.seen.clone()), &guarded(|| self.other.contents()))?;
            }
            self.agree_on_stores(is_staging)?;
        }
        Ok(answer)
    }

    /// A refresh. Over an unsound index store the reference model is fed what the other has staged, if that has such stores at all.
    fn refresh(
        &mut self,
        step: &Step,
        refresh: &Refresh,
        counts: &mut Counts,
    ) -> Result<Answer, Unlike> {
        let call = Call::Refresh(refresh.clone());
        let origin = self.origins.take(&refresh.index).clone();
        let before = Mentioned::new(&self.reference, refresh);
        let is_fed = self.subject.follows_paper && matches!(origin, Origin::Foreign(_));
        let mut returned = None;
        let answer = if is_fed {
            let fed = returned.insert(guarded(|| self.other.call(&step.lent, &call)));
            self.feed(&step.lent, refresh, fed)?
        } else {
            self.reference.call(&step.lent, &call)
        };
        counts.step(&self.opening, step, &answer);
        counts.refresh(step, refresh, &answer, &before, (&origin, is_fed));
        self.note_refresh(refresh, &answer);
        let is_refused = matches!(answer, Answer::Refused(_));
        if self.subject.follows_paper || (self.following && !is_refused) {
            counts.compared_step(&self.opening, step, &answer);
            let returned =
                returned.unwrap_or_else(|| guarded(|| self.other.call(&step.lent, &call)));
            agree(&Ok(answer.clone()), &returned)?;
            if self.following && self.seen.rows <= FEW_ROWS {
                agree(&Ok(self.seen.clone()), &guarded(|| self.other.contents()))?;
            }
            self.agree_on_stores(false)?;
        }
        Ok(answer)
    }

    /// Both tables go on in other stores, as they are. An index is of no use to a table of another capacity.
    fn reload(
        &mut self,
        step: &Step,
        capacity: u32,
        counts: &mut Counts,
    ) -> Result<Answer, Unlike> {
        let before = self.reference.header();
        let answer = self.reference.reload(&step.lent, capacity);
        let after = self.reference.header();
        counts.step(&self.opening, step, &answer);
        let is_refused = answer != Answer::Done;
        if !is_refused {
            counts.reload(&before, &after);
            self.opening.capacity = after.capacity;
        }
        if after.capacity != before.capacity {
            self.origins.opened();
        }
        if self.subject.follows_paper || (self.following && !is_refused) {
            counts.compared_step(&self.opening, step, &answer);
            let returned = guarded(|| self.other.reload(&step.lent, capacity));
            agree(&Ok(answer.clone()), &returned)?;
            if self.following {
                agree(&Ok(self.seen.clone()), &guarded(|| self.other.contents()))?;
            }
            self.agree_on_stores(false)?;
        }
        Ok(answer)
    }

    /// Records what a refresh means for the comparison.
    fn note_refresh(&mut self, refresh: &Refresh, answer: &Answer) {
        let Answer::Refreshed(_, rows) = answer else {
            return;
        };
        let h = self.reference.header();
        let version = (h.generation, h.rows);
        self.origins
            .written(&refresh.index, &refresh.columns, version);
        for of in rows {
            self.rows_to_remove.push((of.row, of.key.clone()));
            self.stamps.push(refresh.stamp);
        }
        self.refreshed |= !rows.is_empty();
    }

    /// The reference model takes over what a refresh returned, if the definition allows it.
    fn feed(
        &mut self,
        lent: &Lengths,
        refresh: &Refresh,
        returned: &Result<Answer, String>,
    ) -> Result<Answer, Unlike> {
        let fed = match returned {
            Ok(answer) => self.reference.feed(lent, refresh, answer),
            Err(_) => Err("an answer".to_string()),
        };
        match (fed, returned) {
            (Ok(()), Ok(answer)) => Ok(answer.clone()),
            (fed, returned) => Err(Unlike {
                reference: fed.err().unwrap_or_default(),
                other: shown(returned),
            }),
        }
    }

    /// What the reference model refuses, the other must refuse too, if it follows the paper.
    fn refused(
        &mut self,
        step: &Step,
        call: &Call,
        answer: &Answer,
        counts: &mut Counts,
    ) -> Result<(), Unlike> {
        if !self.subject.follows_paper {
            return Ok(());
        }
        counts.compared_step(&self.opening, step, answer);
        let returned = guarded(|| self.other.call(&step.lent, call));
        agree(&Ok(answer.clone()), &returned)?;
        self.agree_on_stores(is_staging(call))
    }

    /// The other's header and stores, if it has any, are those that the paper gives, every cell. After a staging large stores
    /// are looked at only about the record.
    fn agree_on_stores(&self, is_staging: bool) -> Result<(), Unlike> {
        match self.other.unlike(&self.reference.expected(), !is_staging) {
            None => Ok(()),
            Some(other) => Err(Unlike {
                reference: format!("{:?}", self.reference.header()),
                other,
            }),
        }
    }

    /// Records what an accepted call means for the comparison. Returns whether it is a staging.
    fn note(&mut self, call: &Call, counts: &mut Counts) -> bool {
        match call {
            Call::Open(opening) => {
                counts.opening(opening);
                self.opening = *opening;
                self.following = true;
                self.origins.opened();
                self.forget_staged();
            }
            Call::Clear => self.forget_staged(),
            Call::Insert(cells) => {
                self.stamps.push(cells[self.opening.sort as usize]);
                if cells[0] == DEAD {
                    counts.case(Case::InsertDead);
                } else {
                    self.other_signs += u64::from(self.has_other_sign(cells));
                }
            }
            Call::RemoveRow(row, key) => self.rows_to_remove.push((*row, key.clone())),
            _ => {}
        }
        is_staging(call)
    }

    /// Whether the live row of this key has a cell of another sign that rules 2 and 3 choose.
    fn has_other_sign(&self, new: &[u32]) -> bool {
        let (keys, sort) = (self.opening.keys as usize, self.opening.sort as usize);
        let lookup = Query::Lookup(new[..keys].to_vec());
        let Answer::Row(_, old) = self.reference.query(&needed(&self.opening, 0), &lookup) else {
            return false;
        };
        (keys..new.len()).any(|column| column != sort && (old[column] ^ new[column]) >> 31 == 1)
    }

    fn forget_staged(&mut self) {
        self.rows_to_remove.clear();
        self.stamps.clear();
        self.other_signs = 0;
        self.refreshed = false;
    }

    /// Ends the comparison until the next opening where a merge does what the paper adds, or where a key merely shares
    /// its hash with the row's, which is a known difference.
    fn watch(&mut self, answer: &Answer, after: &Contents, counts: &mut Counts) {
        let Answer::Merged { status, .. } = answer else {
            return;
        };
        match (std::mem::take(&mut self.refreshed), status) {
            (true, 8) => counts.case(Case::RefreshMergeStop8),
            (true, 9) => counts.case(Case::RefreshMergeStop9),
            _ => {}
        }
        let rows = std::mem::take(&mut self.rows_to_remove);
        for (row, key) in &rows {
            counts.row_removal(&self.seen, *row, key);
        }
        counts.signs(self.opening.rule, std::mem::take(&mut self.other_signs));
        if self.subject.follows_paper {
            return;
        }
        let ending = if rows.iter().any(|(row, key)| self.shares_hash(*row, key)) {
            Case::EndedSharedHash
        } else if *status == 8 {
            Case::EndedStop8
        } else if *status == 0 && is_held_back(after) {
            Case::EndedLastGeneration
        } else {
            return;
        };
        if self.following {
            counts.case(ending);
        }
        self.following = false;
    }

    /// Whether that row, live before the merge, has another key of the same hash.
    fn shares_hash(&self, row: u32, key: &[u32]) -> bool {
        let hash = self.subject.key_hash;
        live_row(&self.seen, row).is_some_and(|cells| {
            let own = &cells[..key.len()];
            own != key && hash(own) == hash(key)
        })
    }

    /// The reference model stops with 9 at this sort value. The Rust must panic if the value is below the last entry's. Else it takes
    /// the row, a known difference: the row of a larger value was dropped by a compaction. It may panic at a later row of the
    /// batch. Either way its table is of no use after.
    fn stop_as_old(
        &mut self,
        lent: &Lengths,
        stamp: u32,
        counts: &mut Counts,
    ) -> Result<(), Unlike> {
        let last = self.seen.sort_entries.last();
        let is_below_last = last.is_some_and(|last| stamp < last.0);
        if !is_below_last {
            counts.case(Case::MergeStop9WithoutEntry);
        }
        if !self.following || self.subject.follows_paper {
            return Ok(());
        }
        self.following = false;
        let returned = guarded(|| self.other.call(lent, &Call::Merge));
        self.other = (self.subject.make)();
        counts.case(match (&returned, is_below_last) {
            (Err(panic), true) if panic.contains(RUST_STOP) => Case::EndedStop9Panic,
            (Ok(_), false) => Case::EndedStop9OlderStamp,
            (Err(panic), false) if panic.contains(RUST_STOP) => Case::EndedStop9LaterPanic,
            _ => {
                return Err(Unlike {
                    reference: "stops with 9".to_string(),
                    other: shown(&returned),
                });
            }
        });
        Ok(())
    }

    /// Whether this is compared with the other implementation.
    fn is_compared(&self, query: &Query, answer: &Answer) -> bool {
        if self.subject.follows_paper {
            return true;
        }
        let needs_no_table = matches!(query, Query::Intersect { .. });
        !matches!(answer, Answer::Refused(_)) && (self.following || needs_no_table)
    }

    fn query(&mut self, step: &Step, query: &Query, counts: &mut Counts) -> Result<Answer, Unlike> {
        let answer = self.reference.query(&step.lent, query);
        counts.step(&self.opening, step, &answer);
        counts.note(query, &answer, self.seen.generation);
        counts.precedence(query, &answer, &self.opening, &self.seen);
        if !self.is_compared(query, &answer) {
            return Ok(answer);
        }
        if !self.subject.follows_paper {
            if intersects_greatest_id(query) {
                counts.case(Case::NotComparedGreatestId);
                return Ok(answer);
            }
            if ends_past_all_places(query) {
                counts.case(Case::NotComparedLongestPage);
                return Ok(answer);
            }
        }
        counts.compared_step(&self.opening, step, &answer);
        let returned = guarded(|| self.other.query(&step.lent, query));
        agree(&Ok(answer.clone()), &returned)?;
        Ok(answer)
    }
}

/// A call that only adds a record.
fn is_staging(call: &Call) -> bool {
    matches!(
        call,
        Call::Insert(_) | Call::RemoveKey(_) | Call::RemoveRow(..)
    )
}

/// A known difference of the Rust: of a list behind a range the Rust takes the last id plus one, which does not fit where that id
/// is the greatest.
fn intersects_greatest_id(query: &Query) -> bool {
    match query {
        Query::Intersect {
            first: Subset::Range(..),
            second: Subset::List(ids),
            ..
        } => ids.last() == Some(&u32::MAX),
        _ => false,
    }
}

/// A known difference of the Rust: it adds n to a page's start place, which does not fit where n is about the greatest number.
fn ends_past_all_places(query: &Query) -> bool {
    match query {
        Query::Page { start, n, .. } => u64::from(*start).checked_add(*n).is_none(),
        _ => false,
    }
}

fn agree<T: PartialEq + std::fmt::Debug>(
    reference: &Result<T, String>,
    other: &Result<T, String>,
) -> Result<(), Unlike> {
    if reference == other {
        return Ok(());
    }
    Err(Unlike {
        reference: shown(reference),
        other: shown(other),
    })
}

/// An answer, or the words of a panic.
fn shown<T: std::fmt::Debug>(returned: &Result<T, String>) -> String {
    match returned {
        Ok(answer) => format!("{answer:?}"),
        Err(panic) => format!("panics: {panic}"),
    }
}

//! The cases that a refresh reaches.

use crate::cases::Case;
use crate::history::Step;
use crate::origins::{Foreign, Origin};
use calls::{Answer, Before, DEAD, Header, Refresh, Restamped};
use reference::{Reference, index_words};

/// So many rows are many, and so many the most.
const MANY: usize = 20;
const FULL: u32 = 65_536;

/// The table before a refresh: its header and row store, and the rows that mention a value.
pub struct Mentioned {
    header: Header,
    rows: Vec<u32>,
    all: Vec<Restamped>,
}

impl Mentioned {
    pub fn new(reference: &Reference, refresh: &Refresh) -> Mentioned {
        let expected = reference.expected();
        let cells = expected.header.rows as usize * expected.header.columns as usize;
        Mentioned {
            header: expected.header,
            rows: expected.rows[..cells].to_vec(),
            all: reference.mentioning(refresh),
        }
    }

    fn cell(&self, row: u32, column: u32) -> u32 {
        self.rows[row as usize * self.header.columns as usize + column as usize]
    }

    /// Words of pending that the records of so many rows take, with those in use.
    fn words(&self, rows: usize) -> usize {
        let h = &self.header;
        h.pending as usize + rows * (h.keys + h.columns + 5) as usize
    }

    /// In how many named columns a row holds a value, repeats counted.
    fn times(&self, row: u32, refresh: &Refresh) -> usize {
        let cells = refresh.columns.iter().map(|&column| self.cell(row, column));
        cells.filter(|cell| refresh.values.contains(cell)).count()
    }

    /// Whether a dead row holds a value in a named column but the first, where it has the dead mark.
    fn is_held_by_dead_row(&self, refresh: &Refresh) -> bool {
        (0..self.header.rows).any(|row| {
            let holds = |&&column: &&u32| refresh.values.contains(&self.cell(row, column));
            let mut others = refresh.columns.iter().filter(|&&column| column != 0);
            self.cell(row, 0) == DEAD && others.find(holds).is_some()
        })
    }

    pub fn cases(
        &self,
        step: &Step,
        refresh: &Refresh,
        answer: &Answer,
        (origin, is_fed): (&Origin, bool),
    ) -> Vec<Case> {
        let mut cases = match answer {
            Answer::Refused(number) => self.refused(step, refresh, *number),
            Answer::Refreshed(_, rows) => [
                self.arguments(step, refresh),
                self.found(step, refresh, rows),
                self.index(refresh, origin, is_fed),
            ]
            .concat(),
            _ => Vec::new(),
        };
        if is_fed {
            cases.extend(self.fed(answer, origin));
        }
        cases
    }

    fn refused(&self, step: &Step, refresh: &Refresh, number: u32) -> Vec<Case> {
        let needed = index_words(self.header.capacity, refresh.columns.len());
        let largest = self.header.largest.unwrap_or(0);
        let is_empty = refresh.columns.is_empty() || refresh.values.is_empty();
        reached(&[
            (
                number == 2 && step.lent.index + 1 == needed,
                Case::RefreshIndexShort,
            ),
            (number == 9 && is_empty, Case::Refresh9EmptyList),
            (
                number == 9 && refresh.stamp + 1 == largest,
                Case::RefreshStampBelow,
            ),
            (
                number == 7 && step.lent.pending + 1 == self.words(self.all.len()),
                Case::RefreshPendingShort,
            ),
        ])
    }

    /// By the arguments of an accepted refresh.
    fn arguments(&self, step: &Step, refresh: &Refresh) -> Vec<Case> {
        let Refresh {
            columns,
            values,
            stamp,
            ..
        } = refresh;
        let needed = index_words(self.header.capacity, columns.len());
        let is_repeat = |(place, column)| columns[..place].contains(column);
        let largest = self.header.largest;
        let is_above = largest.is_some_and(|largest| *stamp > largest);
        reached(&[
            (columns.is_empty(), Case::RefreshNoColumns),
            (values.is_empty(), Case::RefreshNoValues),
            (
                columns.iter().enumerate().any(is_repeat),
                Case::RefreshRepeatedColumn,
            ),
            (columns.len() == 8, Case::RefreshEightColumns),
            (
                columns.len() == 8 && self.header.rows == FULL,
                Case::FullRefreshEightColumns,
            ),
            (
                values.contains(&DEAD) && columns.contains(&0),
                Case::RefreshGreatestInFirst,
            ),
            (largest == Some(*stamp), Case::RefreshStampAt),
            (is_above, Case::RefreshStampAbove),
            (*stamp == u32::MAX, Case::RefreshStampGreatest),
            (largest.is_none(), Case::RefreshNoKeptValue),
            (step.lent.index == needed, Case::RefreshIndexExact),
            (step.lent.index > needed, Case::RefreshIndexLonger),
            (
                self.header.generation == u32::MAX,
                Case::RefreshLastGeneration,
            ),
            (self.header.pending > 0, Case::RefreshBehindRecords),
        ])
    }

    /// By the rows that it finds.
    fn found(&self, step: &Step, refresh: &Refresh, rows: &[Restamped]) -> Vec<Case> {
        let h = &self.header;
        let yes = !rows.is_empty();
        let holds_last = |of: &Restamped| {
            let mut columns = refresh.columns.iter();
            columns.any(|&column| refresh.values.last() == Some(&self.cell(of.row, column)))
        };
        let is_at_stamp = |of: &Restamped| self.cell(of.row, h.sort) == refresh.stamp;
        let holds_greatest = |of: &Restamped| {
            let mut columns = refresh.columns.iter();
            refresh.values.contains(&DEAD)
                && columns.any(|&column| self.cell(of.row, column) == DEAD)
        };
        reached(&[
            (yes, Case::RefreshYes),
            (!yes, Case::RefreshNo),
            (
                yes && step.lent.pending == self.words(rows.len()),
                Case::RefreshPendingFull,
            ),
            (yes && h.sort == 0, Case::RefreshSortFirst),
            (yes && h.sort < h.keys, Case::RefreshSortKey),
            (
                yes && h.sort == 0 && refresh.stamp == DEAD,
                Case::RefreshSkippedInserts,
            ),
            (rows.iter().any(holds_greatest), Case::RefreshGreatestFound),
            (
                rows.iter().any(|of| self.times(of.row, refresh) > 1),
                Case::RefreshRowTwice,
            ),
            (rows.iter().any(is_at_stamp), Case::RefreshRowAtStamp),
            (self.is_held_by_dead_row(refresh), Case::RefreshDeadRow),
            (
                !refresh.values.is_empty() && !refresh.columns.is_empty() && !yes,
                Case::RefreshNoRow,
            ),
            (rows.len() >= MANY, Case::RefreshManyRows),
            (
                refresh.values.len() > 1_024 && rows.iter().any(holds_last),
                Case::RefreshLastOfManyValues,
            ),
        ])
    }

    /// By the sound index store that it is lent.
    fn index(&self, refresh: &Refresh, origin: &Origin, is_fed: bool) -> Vec<Case> {
        let h = &self.header;
        let mut seen = Vec::new();
        if is_fed {
            return seen;
        }
        match origin {
            Origin::New => seen.push(Case::RefreshNewIndex),
            Origin::Own {
                columns,
                generation,
                rows,
            } => {
                seen.push(
                    match (*columns == refresh.columns, *generation == h.generation) {
                        (false, _) => Case::RefreshIndexOtherColumns,
                        (_, false) => Case::RefreshIndexEarlier,
                        _ if *rows == h.rows => Case::RefreshIndexOfVersion,
                        _ => Case::RefreshIndexBehind,
                    },
                );
                if matches!(refresh.index.before, Before::Copy(_)) {
                    seen.push(Case::RefreshIndexCopy);
                }
            }
            Origin::Foreign(_) => {}
        }
        seen
    }

    /// By the unsound index store, and what it leaves out.
    fn fed(&self, answer: &Answer, origin: &Origin) -> Vec<Case> {
        let Origin::Foreign(foreign) = origin else {
            return Vec::new();
        };
        let Answer::Refreshed(yes, rows) = answer else {
            return vec![Case::UnsoundRefused];
        };
        let mut seen = vec![match foreign {
            Foreign::Filled => Case::UnsoundFilled,
            Foreign::Changed => Case::UnsoundChanged,
            Foreign::OfAnotherTable => Case::UnsoundOtherTable,
        }];
        if rows.len() < self.all.len() {
            seen.push(Case::UnsoundRowsLeftOut);
        } else if *yes {
            seen.push(Case::UnsoundAllStaged);
        }
        seen
    }
}

/// The cases whose condition is true.
fn reached(cases: &[(bool, Case)]) -> Vec<Case> {
    let so = cases.iter().filter(|(is_so, _)| *is_so);
    so.map(|(_, case)| *case).collect()
}

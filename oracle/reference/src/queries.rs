//! The queries: they change nothing but their output. Their tests have been made.

use crate::Reference;
use crate::subsets::{ids, retain, size};
use calls::{Answer, Condition, Subset};

impl Reference {
    /// *Key lookup*: "No live row is *none*."
    pub(crate) fn lookup(&self, key: &[u32]) -> Answer {
        match self.find(key) {
            None => Answer::None,
            Some(id) => Answer::Row(id, self.cells(id).to_vec()),
        }
    }

    /// *One cell*.
    pub(crate) fn one_cell(&self, key: &[u32], column: u32) -> Answer {
        match self.find(key) {
            None => Answer::None,
            Some(id) => Answer::Cell(self.cells(id)[column as usize]),
        }
    }

    /// *Fast range*: "*None* for kind 0 and for any column but the sort column."
    pub(crate) fn fast_range(&self, condition: &Condition) -> Answer {
        if condition.kind == 0 || condition.a != self.opening.sort {
            return Answer::None;
        }
        let (start, end) = self.sorted_range(condition.kind, condition.b);
        Answer::Subset(Subset::Range(start, end))
    }

    /// "With f the row of an entry of value v, b the next entry's row or the row count, and g the row of the first
    /// entry above v or the row count." The next entry is the first above v, so b is g.
    fn sorted_range(&self, kind: u32, v: u32) -> (u32, u32) {
        let count = self.row_count();
        let mut entries = self.entries.iter();
        let g = entries.find(|entry| entry.0 > v).map_or(count, |e| e.1);
        let entry = self.entries.iter().find(|entry| entry.0 == v);
        match (entry, kind) {
            (Some(&(_, f)), 1) => (f, g),
            (Some(&(_, f)), 2) => (0, f),
            (Some(_), 3) => (g, count),
            (Some(_), 4) => (0, g),
            (Some(&(_, f)), _) => (f, count),
            (None, 1) => (0, 0),
            (None, 2 | 4) => (0, g),
            (None, _) => (g, count),
        }
    }

    /// *Version*: "generation and row count".
    pub(crate) fn version(&self) -> Answer {
        Answer::Version {
            generation: self.generation,
            rows: self.row_count(),
        }
    }

    /// *Rows since*, and since a note of so many rows.
    pub(crate) fn rows_since(&self, row: u32) -> Answer {
        Answer::Subset(Subset::Range(row, self.row_count()))
    }

    /// *Precedence*: "The answer is the lowest row that fails with the place, from 0, of the first pair it fails, or none."
    pub(crate) fn precedence(&self, column: usize, pairs: &[u32]) -> Answer {
        for id in (0..self.row_count()).filter(|&id| self.is_live(id)) {
            let mut values = pairs.chunks(2);
            if let Some(place) = values.position(|pair| self.fails_pair(id, column, pair)) {
                return Answer::Fails(id, place as u32);
            }
        }
        Answer::None
    }

    /// "Each live row with a pair's first value in that column needs a live row with the second value there, the same other key
    /// cells and a sort cell no larger."
    fn fails_pair(&self, id: u32, column: usize, pair: &[u32]) -> bool {
        let row = self.cells(id);
        let sort = self.opening.sort as usize;
        let is_before = |before: &[u32]| {
            let mut keys = 0..self.opening.keys as usize;
            before[column] == pair[1]
                && keys.all(|key| key == column || before[key] == row[key])
                && before[sort] <= row[sort]
        };
        let mut others = (0..self.row_count()).filter(|&other| self.is_live(other));
        row[column] == pair[0] && !others.any(|other| is_before(self.cells(other)))
    }

    /// *Refine by one*.
    pub(crate) fn refine_one(&self, subset: &Subset, condition: &Condition) -> Answer {
        let kept = self.matching(&ids(subset), std::slice::from_ref(condition));
        Answer::Subset(retain(subset, kept))
    }

    /// *Refine by a list*: "A range stays only if all of it is kept, else a list."
    pub(crate) fn refine_list(&self, subset: &Subset, conditions: &[Condition]) -> Answer {
        let kept = self.matching(&ids(subset), conditions);
        if kept.len() == size(subset) {
            return Answer::Subset(subset.clone());
        }
        Answer::Subset(Subset::List(kept))
    }

    /// *Any match*.
    pub(crate) fn any_match(&self, subset: &Subset, conditions: &[Condition]) -> Answer {
        let kept = self.matching(&ids(subset), conditions);
        Answer::Match(!kept.is_empty())
    }

    /// *Page*: "Visits n ids from the start place, writes the live matching ones." It "shall also answer how many of the
    /// visited ids were dead, apart from live rows that failed a condition".
    pub(crate) fn page(
        &self,
        subset: &Subset,
        (start, n): (u32, u64),
        conditions: &[Condition],
    ) -> Answer {
        let start = start as usize;
        let end = usize::min(start.saturating_add(n as usize), size(subset));
        let visited = &ids(subset)[start..end];
        // "Next place or *none*": none if nothing remains.
        let next = (end < size(subset)).then_some(end as u32);
        let dead = visited.iter().filter(|&&id| !self.is_live(id)).count();
        Answer::Page {
            ids: self.matching(visited, conditions),
            dead: dead as u32,
            next,
        }
    }

    /// "The empty list is met by every live row; a dead row meets none."
    fn matching(&self, ids: &[u32], conditions: &[Condition]) -> Vec<u32> {
        let is_kept = |id: u32| self.is_live(id) && meets_all(self.cells(id), conditions);
        ids.iter().copied().filter(|&id| is_kept(id)).collect()
    }
}

/// Whether a live row's cells meet every condition.
pub(crate) fn meets_all(cells: &[u32], conditions: &[Condition]) -> bool {
    conditions.iter().all(|condition| meets(cells, condition))
}

/// "Kind 0: two columns equal. Kinds 1 to 5 compare a column with a value: equal, less, greater, at most, at
/// least, unsigned."
fn meets(cells: &[u32], condition: &Condition) -> bool {
    let cell = cells[condition.a as usize];
    let value = condition.b;
    match condition.kind {
        0 => cell == cells[condition.b as usize],
        1 => cell == value,
        2 => cell < value,
        3 => cell > value,
        4 => cell <= value,
        _ => cell >= value,
    }
}

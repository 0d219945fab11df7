//! Refreshing the rows that mention a value (document 02, change 2; words in quotes are its own). The reference model has no index: it
//! looks at every live row.

use crate::refusals::{test_call, test_records};
use crate::{Reference, Staged};
use calls::{Answer, Call, Header, Lengths, Refresh, Restamped};

impl Reference {
    /// "Each live row holding such a value in such a column", "in rising row order", with "the stamp as its sort cell".
    pub fn mentioning(&self, refresh: &Refresh) -> Vec<Restamped> {
        let is_mentioned = |&id: &u32| self.is_live(id) && self.mentions(id, refresh);
        let rows = (0..self.row_count()).filter(is_mentioned);
        rows.map(|id| self.restamped(id, refresh.stamp)).collect()
    }

    fn mentions(&self, id: u32, refresh: &Refresh) -> bool {
        let cell = |&column: &u32| self.cells(id).get(column as usize);
        let mut held = refresh.columns.iter().filter_map(cell);
        held.any(|cell| refresh.values.contains(cell))
    }

    fn restamped(&self, id: u32, stamp: u32) -> Restamped {
        let mut cells = self.cells(id).to_vec();
        cells[self.opening.sort as usize] = stamp;
        Restamped {
            row: id,
            key: self.key(id).to_vec(),
            cells,
        }
    }

    /// Each "is staged for removal by row and for insertion"; "7, fewer free words than all the records together take, with
    /// nothing staged". "The answer is yes exactly if a row was staged."
    pub(crate) fn refresh(&mut self, lent: &Lengths, refresh: &Refresh) -> Answer {
        let rows = self.mentioning(refresh);
        match test_records(&self.header(), lent, rows.len()) {
            Err(number) => Answer::Refused(number),
            Ok(()) => {
                self.stage_again(&rows);
                Answer::Refreshed(!rows.is_empty(), rows)
            }
        }
    }

    fn stage_again(&mut self, rows: &[Restamped]) {
        for of in rows {
            self.stage(Staged::RemoveRow(of.row, of.key.clone()));
            self.stage(Staged::Insert(of.cells.clone()));
        }
    }

    /// "Over such an unsound index store, and nowhere else, it is fed the records that the call staged", if it may have answered
    /// this.
    pub fn feed(
        &mut self,
        lent: &Lengths,
        refresh: &Refresh,
        returned: &Answer,
    ) -> Result<(), String> {
        let all = self.mentioning(refresh);
        test_unsound(&self.header(), lent, refresh, &all, returned)?;
        if let Answer::Refreshed(_, staged) = returned {
            self.stage_again(staged);
        }
        Ok(())
    }
}

/// Whether a refresh over an unsound index store may answer this, where `all` are the rows that mention a value. The records that
/// it staged are "all of them whole"; and it is promised that they are some of those that a sound one brings, in their order.
/// So 7 is returned only where not all records fit.
pub fn test_unsound(
    h: &Header,
    lent: &Lengths,
    refresh: &Refresh,
    all: &[Restamped],
    returned: &Answer,
) -> Result<(), String> {
    let tested = test_call(h, lent, &Call::Refresh(refresh.clone()));
    let is_allowed = match (tested, returned) {
        (Err(number), _) => *returned == Answer::Refused(number),
        (Ok(()), Answer::Refused(number)) => test_records(h, lent, all.len()) == Err(*number),
        (Ok(()), Answer::Refreshed(yes, staged)) => {
            let mut rest = all.iter();
            let are_among = staged.iter().all(|own| rest.any(|it| it == own));
            let fit = test_records(h, lent, staged.len()).is_ok();
            *yes != staged.is_empty() && are_among && fit
        }
        _ => false,
    };
    match is_allowed {
        true => Ok(()),
        false => Err(format!("{tested:?}, then some of {all:?}")),
    }
}

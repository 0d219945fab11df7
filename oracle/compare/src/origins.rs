//! Where index stores come from, by document 02: "An index store that was not new when this table first took it since its latest
//! opening, or that another has written since, joins the unsound stores".

use calls::{Before, INDEX_STORES, Index};

#[derive(Clone, Debug, Default, PartialEq)]
pub enum Origin {
    /// Its first word is 0.
    #[default]
    New,
    /// It was new when the table took it, and refreshes of this table alone have written it, or the one that it is a copy of:
    /// the columns, the generation and the row count of the last.
    Own {
        columns: Vec<u32>,
        generation: u32,
        rows: u32,
    },
    /// Unsound.
    Foreign(Foreign),
}

/// Why an index store is unsound.
#[derive(Clone, Copy, Debug, PartialEq)]
pub enum Foreign {
    Filled,
    Changed,
    /// Written by a table that was there before the latest opening.
    OfAnotherTable,
}

#[derive(Default)]
pub struct Origins {
    stores: [Origin; INDEX_STORES],
}

impl Origins {
    pub fn of(&self, store: usize) -> &Origin {
        &self.stores[store]
    }

    /// The store that a refresh takes, after what another has done to it.
    pub fn take(&mut self, index: &Index) -> &Origin {
        let own = &self.stores[index.store];
        let now = match index.before {
            Before::Nothing => own.clone(),
            Before::Renew | Before::Change(0, 0) => Origin::New,
            Before::Copy(other) => self.stores[other].clone(),
            Before::Fill(_) => Origin::Foreign(Foreign::Filled),
            // Any words may follow the first of a new one.
            Before::Change(1.., _) if *own == Origin::New => Origin::New,
            Before::Change(..) => Origin::Foreign(Foreign::Changed),
        };
        self.stores[index.store] = now;
        &self.stores[index.store]
    }

    /// A refresh by these columns was accepted at this version.
    pub fn written(&mut self, index: &Index, columns: &[u32], (generation, rows): (u32, u32)) {
        let own = &mut self.stores[index.store];
        if !matches!(own, Origin::Foreign(_)) {
            *own = Origin::Own {
                columns: columns.to_vec(),
                generation,
                rows,
            };
        }
    }

    /// A table was opened.
    pub fn opened(&mut self) {
        for store in &mut self.stores {
            if matches!(store, Origin::Own { .. }) {
                *store = Origin::Foreign(Foreign::OfAnotherTable);
            }
        }
    }
}

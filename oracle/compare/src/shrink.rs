//! Reduces a history in which the tables differ to the smallest that a greedy search finds: fewer steps, columns, ids and conditions,
//! then smaller numbers.

use crate::history::{Act, Step, UNOPENED, needed, with_exact_output};
use crate::text::{parse, step_line};
use calls::{Before, Call, Condition, Lengths, Opening, Query, Refresh, Subset};

/// Stores that are long enough for any table of this history.
fn ample(history: &[Step]) -> Lengths {
    let capacity = |step: &Step| match &step.act {
        Act::Call(Call::Open(opening)) => opening.capacity.min(65_536),
        Act::Reload(capacity) => (*capacity).min(65_536),
        _ => 1,
    };
    let largest = Opening {
        columns: 8,
        capacity: history.iter().map(capacity).max().unwrap_or(1),
        ..UNOPENED
    };
    needed(&largest, 1 << 16)
}

/// How many histories are tried before what has been found must do.
const MOST_TRIES: u32 = 40_000;

struct Shrinker<F> {
    fails: F,
    ample: Lengths,
    best: Vec<Step>,
    tries: u32,
}

/// `fails` must return true for `history`; it does for the answer.
pub fn shrink<F: Fn(&[Step]) -> bool>(history: &[Step], fails: F) -> Vec<Step> {
    let mut shrinker = Shrinker {
        fails,
        ample: ample(history),
        best: history.to_vec(),
        tries: 0,
    };
    let lent = shrinker.ample;
    shrinker.try_out(history.iter().map(|step| with_stores(step, lent)).collect());
    loop {
        let before = shrinker.tries;
        let mut smaller = shrinker.drop_steps();
        smaller |= shrinker.drop_columns();
        smaller |= shrinker.simplify_steps();
        if !smaller || shrinker.tries == before || shrinker.tries > MOST_TRIES {
            return shrinker.best;
        }
    }
}

fn with_stores(step: &Step, lent: Lengths) -> Step {
    let act = match &step.act {
        Act::Call(call) => Act::Call(call.clone()),
        Act::Query(query) => Act::Query(with_exact_output(query.clone())),
        Act::Reload(capacity) => Act::Reload(*capacity),
    };
    Step { lent, act }
}

impl<F: Fn(&[Step]) -> bool> Shrinker<F> {
    fn try_out(&mut self, candidate: Vec<Step>) -> bool {
        self.tries += 1;
        let fails = self.tries <= MOST_TRIES && (self.fails)(&candidate);
        if fails {
            self.best = candidate;
        }
        fails
    }

    /// Drops runs of steps, long runs first.
    fn drop_steps(&mut self) -> bool {
        let mut smaller = false;
        let mut length = self.best.len().div_ceil(2);
        while length > 0 {
            let mut start = 0;
            while start + length <= self.best.len() {
                let mut candidate = self.best.clone();
                candidate.drain(start..start + length);
                if self.try_out(candidate) {
                    smaller = true;
                } else {
                    start += length;
                }
            }
            length /= 2;
        }
        smaller
    }

    fn drop_columns(&mut self) -> bool {
        let mut smaller = false;
        let lent = self.ample;
        for column in (0..8).rev() {
            let narrower = self.best.iter().scan(None, |table, step| {
                let act = without_column(&step.act, column, table);
                Some(Step { lent, act })
            });
            let candidate: Vec<Step> = narrower.collect();
            if lines(&candidate) != lines(&self.best) {
                smaller |= self.try_out(candidate);
            }
        }
        smaller
    }

    fn simplify_steps(&mut self) -> bool {
        let mut smaller = false;
        let lent = self.ample;
        for place in 0..self.best.len() {
            loop {
                let simpler = simpler_acts(&self.best[place].act);
                let found = simpler.into_iter().any(|act| {
                    let mut candidate = self.best.clone();
                    candidate[place] = Step { lent, act };
                    self.try_out(candidate)
                });
                if !found {
                    break;
                }
                smaller = true;
            }
        }
        smaller
    }
}

/// A history as lines.
pub fn lines(history: &[Step]) -> Vec<String> {
    history.iter().map(|step| step_line(&step.act)).collect()
}

/// The act with this column left out of the table. `keys` is the number of key columns of the opening at hand.
fn without_column(act: &Act, column: u32, keys: &mut Option<u32>) -> Act {
    let mut act = act.clone();
    let drop_cell = |cells: &mut Vec<u32>| {
        if (column as usize) < cells.len() {
            cells.remove(column as usize);
        }
    };
    match &mut act {
        Act::Call(Call::Open(o)) => {
            *keys = Some(o.keys);
            o.columns = o.columns.saturating_sub(1);
            o.keys -= u32::from(column < o.keys);
            o.sort -= u32::from(column < o.sort);
        }
        Act::Call(Call::Insert(cells)) => drop_cell(cells),
        Act::Call(Call::RemoveKey(key) | Call::RemoveRow(_, key))
        | Act::Query(Query::Lookup(key) | Query::Cell(key, _))
            if keys.is_some_and(|keys| column < keys) =>
        {
            drop_cell(key);
        }
        Act::Call(Call::Refresh(refresh)) => {
            for named in &mut refresh.columns {
                *named -= u32::from(column < *named);
            }
        }
        _ => {}
    }
    act
}

/// Acts that are a little simpler: an id, a pair or a condition less, or a smaller number.
fn simpler_acts(act: &Act) -> Vec<Act> {
    let mut simpler = Vec::new();
    match act {
        Act::Query(query) => simpler.extend(fewer_parts(query).into_iter().map(Act::Query)),
        Act::Call(Call::Refresh(refresh)) => simpler.extend(simpler_refreshes(refresh)),
        Act::Call(_) | Act::Reload(_) => {}
    }
    let line = step_line(act);
    let fields: Vec<&str> = line.split(',').collect();
    for (place, field) in fields.iter().enumerate().skip(1) {
        let number: u32 = field.parse().unwrap_or(0);
        for smaller in [0, number / 2, number.saturating_sub(1)] {
            let text = smaller.to_string();
            let mut changed = fields.clone();
            changed[place] = &text;
            if smaller < number {
                simpler.extend(parse(&changed.join(",")));
            }
        }
    }
    simpler
}

/// The refresh with a column or a value less, or with nothing done to its index store before.
fn simpler_refreshes(refresh: &Refresh) -> Vec<Act> {
    let mut simpler = Vec::new();
    let mut change = |edit: &dyn Fn(&mut Refresh)| {
        let mut changed = refresh.clone();
        edit(&mut changed);
        simpler.push(Act::Call(Call::Refresh(changed)));
    };
    for place in 0..refresh.columns.len() {
        change(&|of| {
            of.columns.remove(place);
        });
    }
    for place in 0..refresh.values.len() {
        change(&|of| {
            of.values.remove(place);
        });
    }
    if refresh.index.before != Before::Nothing {
        change(&|of| of.index.before = Before::Nothing);
    }
    simpler
}

/// The query with an id, a pair or a condition less.
fn fewer_parts(query: &Query) -> Vec<Query> {
    let mut fewer = Vec::new();
    let mut change = |edit: &dyn Fn(&mut Query)| {
        let mut changed = query.clone();
        edit(&mut changed);
        if changed != *query {
            fewer.push(with_exact_output(changed));
        }
    };
    for place in 0..64 {
        change(&|query| drop_id(first_subset(query), place));
        change(&|query| drop_id(second_subset(query), place));
    }
    for place in 0..16 {
        change(&|query| {
            if let Query::Precedence { pairs, .. } = query
                && 2 * place + 1 < pairs.len()
            {
                pairs.drain(2 * place..2 * place + 2);
            }
        });
    }
    for place in 0..4 {
        change(&|query| {
            if let Some(conditions) = conditions(query)
                && place < conditions.len()
            {
                conditions.remove(place);
            }
        });
    }
    fewer
}

fn drop_id(subset: Option<&mut Subset>, place: usize) {
    if let Some(Subset::List(ids)) = subset
        && place < ids.len()
    {
        ids.remove(place);
    }
}

fn first_subset(query: &mut Query) -> Option<&mut Subset> {
    match query {
        Query::RefineOne { subset, .. }
        | Query::RefineList { subset, .. }
        | Query::AnyMatch { subset, .. }
        | Query::Page { subset, .. }
        | Query::Intersect { first: subset, .. } => Some(subset),
        _ => None,
    }
}

fn second_subset(query: &mut Query) -> Option<&mut Subset> {
    match query {
        Query::Intersect { second, .. } => Some(second),
        _ => None,
    }
}

fn conditions(query: &mut Query) -> Option<&mut Vec<Condition>> {
    match query {
        Query::RefineList { conditions, .. }
        | Query::AnyMatch { conditions, .. }
        | Query::Page { conditions, .. } => Some(conditions),
        _ => None,
    }
}

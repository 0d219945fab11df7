//! Random histories. A reference model follows while a history is written, so that calls and queries can be aimed
//! at what is there: live rows, rows that have moved, the last sort value, a full table.

use crate::history::{Act, Step, UNOPENED, needed};
use crate::origins::Origins;
use crate::queries;
use crate::refreshes;
use calls::{Answer, Call, Contents, DEAD, Implementation, Lengths, Opening, Query};
use random::Rng;
use reference::Reference;

/// What a history may hold.
#[derive(Clone, Copy)]
pub struct Manner {
    pub greatest_capacity: u32,
    /// Pending words, or any number of them.
    pub pending: Option<usize>,
    /// Whether stores and outputs may be longer or shorter than needed, cells missing and lists long.
    pub loose: bool,
    /// Whether every row is looked at after each call that may change rows.
    pub thorough: bool,
    /// Whether rows are refreshed.
    pub refreshes: bool,
    /// Whether the table is saved and read into other stores now and then.
    pub reloads: bool,
}

pub const ANY: Manner = Manner {
    greatest_capacity: 65_536,
    pending: None,
    loose: true,
    thorough: false,
    refreshes: true,
    reloads: true,
};

/// What sets one history apart from another.
struct Flavour {
    /// Keys that come again and again.
    keys: Vec<Vec<u32>>,
    other_values: u32,
    /// Chance in a hundred of another cell being where signed numbers turn.
    turning: u32,
    pending: usize,
    /// Chances: of a falling stamp in a thousand, of a staging being an insert in a hundred.
    falling: u32,
    inserting: u32,
    /// The most stagings before a merge, and the most queries after a call.
    batch: u32,
    queries: u32,
    /// Chance in a hundred of a refresh behind a staging, and before a merge.
    refreshing: u32,
}

pub struct Writer {
    pub rng: Rng,
    pub manner: Manner,
    pub scout: Reference,
    pub opening: Opening,
    /// The table as the last call left it.
    pub seen: Contents,
    flavour: Flavour,
    stamp: u32,
    /// Rows seen at some time: number and cells.
    remembered: Vec<(u32, Vec<u32>)>,
    /// Versions seen at some time, also before the last opening: generation and row count.
    versions: Vec<(u32, u32)>,
    /// The index stores.
    pub origins: Origins,
    steps: Vec<Step>,
    rounds: u32,
    /// Decides on reloads, apart from `rng`: up to its first reload a history is the one without them.
    reloading: Rng,
}

/// A history that has so many steps has no further round.
const MOST_STEPS: usize = 600;

const CAPACITIES: [u32; 20] = [
    1, 2, 3, 4, 8, 16, 17, 18, 32, 33, 34, 40, 63, 64, 65, 100, 128, 129, 200, 400,
];

/// The first size classes of the key store: the most rows before it takes more slots.
pub const SIZE_CLASSES: [u32; 2] = [128, 512];

/// Numbers at the edges of what a cell holds.
pub const EDGES: [u32; 8] = [
    0,
    1,
    255,
    65_536,
    0x7fff_ffff,
    0x8000_0000,
    u32::MAX - 1,
    u32::MAX,
];

/// Zero, the greatest and the least signed number, and minus one.
const TURNS: [u32; 4] = [0, 0x7fff_ffff, 0x8000_0000, u32::MAX];

/// A history of this seed.
pub fn history(seed: u64, manner: Manner) -> Vec<Step> {
    let mut writer = Writer::new(seed, manner);
    if writer.rng.percent(3) {
        writer.before_opening();
    }
    writer.open();
    if writer.rng.percent(20) && !manner.thorough {
        writer.fill();
        writer.call(Call::Merge);
    }
    let rounds = writer.rng.pick(&[2, 5, 10, 20, 40]);
    while writer.rounds < rounds && writer.steps.len() < MOST_STEPS {
        writer.round();
    }
    writer.steps
}

fn flavour(rng: &mut Rng, manner: &Manner) -> Flavour {
    let pending = match rng.below(10) {
        0 | 1 => rng.within(0, 40) as usize,
        2 | 3 => rng.within(40, 300) as usize,
        _ => 8192,
    };
    Flavour {
        keys: Vec::new(),
        other_values: rng.pick(&[1, 2, 3, 10]),
        turning: rng.pick(&[0, 0, 20, 60]),
        pending: manner.pending.unwrap_or(pending),
        falling: rng.pick(&[0, 0, 1, 5, 50, 300]),
        inserting: rng.pick(&[20, 40, 70, 90]),
        batch: rng.pick(&[1, 2, 4, 10, 30]),
        queries: match manner.thorough {
            true => rng.pick(&[2, 4, 6]),
            false => rng.pick(&[0, 1, 2, 5]),
        },
        refreshing: match manner.refreshes {
            true => rng.pick(&[0, 0, 0, 3, 10, 30]),
            false => 0,
        },
    }
}

impl Writer {
    fn new(seed: u64, manner: Manner) -> Writer {
        let mut rng = Rng::new(seed);
        let flavour = flavour(&mut rng, &manner);
        let scout = Reference::new();
        Writer {
            rng,
            manner,
            seen: scout.contents(),
            scout,
            opening: UNOPENED,
            flavour,
            stamp: 0,
            remembered: Vec::new(),
            versions: Vec::new(),
            origins: Origins::default(),
            steps: Vec::new(),
            rounds: 0,
            reloading: Rng::new(!seed),
        }
    }

    /// Writes a call with the stores that it is lent.
    pub fn call_with(&mut self, lent: Lengths, call: Call) -> Answer {
        let answer = self.scout.call(&lent, &call);
        let is_staging = matches!(
            call,
            Call::Insert(_) | Call::RemoveKey(_) | Call::RemoveRow(..) | Call::Refresh(_)
        );
        if matches!(call, Call::Open(_)) && answer == Answer::Done {
            self.origins.opened();
        }
        let act = Act::Call(call);
        self.steps.push(Step { lent, act });
        if !is_staging {
            self.seen = self.scout.contents();
            self.versions.push((self.seen.generation, self.seen.rows));
        }
        answer
    }

    fn call(&mut self, call: Call) -> Answer {
        let lent = self.lent();
        self.call_with(lent, call)
    }

    pub fn query(&mut self, query: Query) {
        let lent = self.lent();
        let act = Act::Query(query);
        self.steps.push(Step { lent, act });
    }

    /// The stores for the next call: mostly as long as needed, at times longer, now and then one of them too short. The
    /// pending store is never longer than usual: what is staged there would not fit the next time.
    pub fn lent(&mut self) -> Lengths {
        let mut lent = needed(&self.opening, self.flavour.pending);
        if !self.manner.loose || self.rng.percent(80) {
            return lent;
        }
        let short = self.rng.percent(25);
        let change = |length: usize| {
            if short {
                length.saturating_sub(1)
            } else {
                length + 3
            }
        };
        match self.rng.below(6) {
            0 => lent.rows = change(lent.rows),
            1 => lent.keys = change(lent.keys),
            2 => lent.sort_entries = change(lent.sort_entries),
            3 => lent.live_words = change(lent.live_words),
            4 => lent.base_words = change(lent.base_words),
            _ if short => lent.pending = self.rng.place(lent.pending.min(60)),
            _ => {}
        }
        lent
    }

    /// Calls and queries of a table that was never opened, each refused.
    fn before_opening(&mut self) {
        let numbers = self.good_numbers();
        self.opening = numbers;
        let cells = self.cells();
        let key = cells[..numbers.keys as usize].to_vec();
        for call in [
            Call::Insert(cells),
            Call::RemoveKey(key.clone()),
            Call::RemoveRow(0, key),
            Call::Merge,
            Call::Compact,
            Call::Clear,
        ] {
            self.call(call);
        }
        if self.manner.refreshes {
            refreshes::refresh(self);
        }
        if self.manner.reloads {
            let lent = needed(&self.opening, self.flavour.pending);
            let act = Act::Reload(0);
            self.steps.push(Step { lent, act });
        }
        for kind in 0..self.kinds() {
            queries::write(self, kind);
        }
    }

    /// An accepted opening, with keys that fit it.
    fn open(&mut self) -> Answer {
        self.opening = self.good_numbers();
        let lent = needed(&self.opening, self.flavour.pending);
        let answer = self.call_with(lent, Call::Open(self.opening));
        self.stamp = self.rng.pick(&[0, 0, 5, 1000, u32::MAX - 9]);
        self.remembered.clear();
        let count = self.rng.pick(&[1, 2, 3, 5, 8, 20, 50, 200]);
        self.flavour.keys = (0..count).map(|_| self.new_key()).collect();
        if !self.manner.thorough {
            self.vary_keys();
        }
        answer
    }

    /// Some keys become such as differ from another in one cell alone.
    fn vary_keys(&mut self) {
        for place in 1..self.flavour.keys.len() {
            if self.rng.percent(30) {
                let mut key = self.flavour.keys[self.rng.place(place)].clone();
                let cell = self.rng.place(key.len());
                key[cell] = self.rng.below(12);
                self.flavour.keys[place] = key;
            }
        }
    }

    fn good_numbers(&mut self) -> Opening {
        let columns = self.rng.within(1, 8);
        let capacity = self.rng.pick(&CAPACITIES);
        let capacity = match self.rng.below(400) {
            0 | 1 => 65_536,
            2 => 1_100,
            _ => capacity,
        };
        Opening {
            columns,
            keys: self.rng.within(1, columns),
            sort: self.rng.below(columns),
            rule: self.rng.below(4),
            capacity: capacity.min(self.manner.greatest_capacity),
            generation: match self.rng.below(10) {
                0..=5 => 0,
                6 | 7 => self.rng.next_u64() as u32,
                _ => u32::MAX - self.rng.below(4),
            },
        }
    }

    /// An opening with one number out of its bounds, or lent too little.
    fn open_wrongly(&mut self) {
        let mut numbers = self.good_numbers();
        let mut lent = needed(&numbers, self.flavour.pending);
        match self.rng.below(8) {
            0 => numbers.columns = self.rng.pick(&[0, 9, u32::MAX]),
            1 => numbers.keys = self.rng.pick(&[0, numbers.columns + 1, u32::MAX]),
            2 => numbers.sort = self.rng.pick(&[numbers.columns, u32::MAX]),
            3 => numbers.rule = self.rng.pick(&[4, u32::MAX]),
            4 => numbers.capacity = self.rng.pick(&[0, 65_537, u32::MAX]),
            _ if !self.manner.loose => numbers.keys = 0,
            5 => lent.rows -= 1,
            6 => lent.keys -= 1,
            _ => lent.sort_entries -= 1,
        }
        self.call_with(lent, Call::Open(numbers));
    }

    /// Some stagings, then a call that takes them or drops them, with queries after each.
    fn round(&mut self) {
        self.rounds += 1;
        match self.rng.below(20) {
            0 | 1 => self.remove_to_the_limit(),
            2 => self.fill(),
            3 if self.opening.capacity > SIZE_CLASSES[0] => self.outgrow(),
            _ => {
                for _ in 0..self.rng.within(0, self.flavour.batch) {
                    self.stage();
                    self.refresh_perhaps();
                    if self.rng.percent(20) {
                        self.query_some();
                    }
                }
            }
        }
        self.refresh_perhaps();
        self.reload_perhaps(2);
        let answer = match self.rng.below(100) {
            0..=81 => self.call(Call::Merge),
            82..=90 => self.call(Call::Compact),
            91..=93 => self.call(Call::Clear),
            94..=97 => {
                self.open_wrongly();
                self.call(Call::Merge)
            }
            _ if self.manner.refreshes && self.rng.percent(30) => self.open_again(),
            _ => self.open(),
        };
        if matches!(answer, Answer::Merged { .. }) {
            self.reload_perhaps(6);
        }
        // The Rust cannot follow beyond a stop, so most tables are opened anew there.
        if matches!(answer, Answer::Merged { status: 8 | 9, .. }) && self.rng.percent(70) {
            self.open();
        }
        self.remember();
        if self.manner.thorough {
            queries::query_every_row(self);
        }
        self.query_some();
    }

    /// One refresh or two, mostly of a table that has rows.
    fn refresh_perhaps(&mut self) {
        if self.flavour.refreshing == 0 || !self.rng.percent(self.flavour.refreshing) {
            return;
        }
        if self.seen.rows > 0 || self.rng.percent(20) {
            for _ in 0..self.rng.pick(&[1, 1, 1, 2]) {
                refreshes::refresh(self);
            }
        }
    }

    /// Saves the table and reads it into other stores, so many times in a hundred: mostly of the same capacity or a larger one, now
    /// and then of one that is just too small or too large, or into stores that are too short.
    fn reload_perhaps(&mut self, percent: u32) {
        if !self.manner.reloads || !self.reloading.percent(percent) {
            return;
        }
        let rng = &mut self.reloading;
        let (rows, own) = (self.seen.rows, self.opening.capacity);
        let capacity = match rng.below(20) {
            0..=6 => 0,
            7 => own,
            8..=10 => own + rng.within(1, 3),
            11..=13 => own + rng.within(1, 200),
            14 => 2 * own,
            15 | 16 => rows.max(1),
            17 => rows.saturating_sub(1),
            _ => rng.within(rows.max(1), own),
        };
        let most = self.manner.greatest_capacity + u32::from(rng.percent(10));
        let mut numbers = self.opening;
        numbers.capacity = match capacity.min(most) {
            0 => own,
            capacity => capacity,
        };
        let mut lent = needed(&numbers, self.flavour.pending);
        match rng.below(40) {
            0 => lent.rows -= 1,
            1 => lent.keys -= 1,
            2 => lent.sort_entries -= 1,
            3 => lent.pending = rng.place(lent.pending.min(60)),
            _ => {}
        }
        let act = Act::Reload(capacity.min(most));
        if self.scout.reload(&lent, capacity.min(most)) == Answer::Done {
            if numbers.capacity != own {
                self.origins.opened();
            }
            self.opening = numbers;
        }
        self.steps.push(Step { lent, act });
    }

    /// Another table with the same numbers, so that index stores may pass for its own.
    fn open_again(&mut self) -> Answer {
        let lent = needed(&self.opening, self.flavour.pending);
        self.call_with(lent, Call::Open(self.opening))
    }

    /// How many kinds of query there are.
    fn kinds(&self) -> u32 {
        match self.manner.thorough {
            true => queries::RECORDED_KINDS,
            false => queries::KINDS,
        }
    }

    fn query_some(&mut self) {
        for _ in 0..self.rng.within(0, self.flavour.queries) {
            let kind = self.rng.below(self.kinds());
            queries::write(self, kind);
        }
    }

    fn remember(&mut self) {
        for _ in 0..2 {
            if let Some(row) = self.a_live_row() {
                self.remembered.push(row);
            }
        }
    }

    /// The cells of a row that was seen at some time.
    pub fn a_remembered_row(&mut self) -> Option<Vec<u32>> {
        let place = self.rng.place(self.remembered.len());
        self.remembered.get(place).map(|row| row.1.clone())
    }

    pub fn a_live_row(&mut self) -> Option<(u32, Vec<u32>)> {
        let place = self.rng.place(self.seen.live.len());
        self.seen.live.get(place).cloned()
    }

    /// What a live row with the same other key cells has in a key column; of several rows, any but this one itself.
    pub fn a_row_beside(&mut self, cells: &[u32], column: usize) -> Option<u32> {
        let keys = self.opening.keys as usize;
        let is_beside = |other: &[u32]| {
            let mut others = (0..keys).filter(|&key| key != column);
            column < keys
                && other[column] != cells[column]
                && others.all(|key| other[key] == cells[key])
        };
        let live = self.seen.live.iter().filter(|row| is_beside(&row.1));
        let values: Vec<u32> = live.map(|row| row.1[column]).collect();
        values.get(self.rng.place(values.len())).copied()
    }

    /// Mostly one of the last few.
    pub fn an_earlier_version(&mut self) -> (u32, u32) {
        let count = self.versions.len();
        let few = match self.rng.percent(80) {
            true => count.min(4),
            false => count,
        };
        let place = count - few + self.rng.place(few);
        self.versions.get(place).copied().unwrap_or_default()
    }

    /// One staging, wrong in some way now and then.
    fn stage(&mut self) {
        if self.rng.percent(self.flavour.inserting) {
            let cells = self.cells();
            let cells = self.of_any_width(cells);
            self.call(Call::Insert(cells));
        } else if self.rng.percent(50) {
            self.stage_remove_key();
        } else {
            self.stage_remove_row();
        }
    }

    fn stage_remove_key(&mut self) {
        let key = self.key();
        let removed = self.of_any_width(key.clone());
        self.call(Call::RemoveKey(removed));
        self.insert_again(key);
    }

    fn stage_remove_row(&mut self) {
        let (row, key) = self.row_and_key();
        let removed = self.of_any_width(key.clone());
        self.call(Call::RemoveRow(row, removed));
        self.insert_again(key);
    }

    /// Removal and insertion of one key in one batch.
    fn insert_again(&mut self, key: Vec<u32>) {
        if self.rng.percent(25) {
            let mut cells = self.cells();
            let stamp = cells[self.opening.sort as usize];
            cells[..key.len()].copy_from_slice(&key);
            if self.rng.percent(80) {
                cells[self.opening.sort as usize] = stamp;
            }
            self.call(Call::Insert(cells));
        }
    }

    /// A row's number with a key: of a live row, of one seen earlier, of another row, of a dead row, of no row.
    fn row_and_key(&mut self) -> (u32, Vec<u32>) {
        let keys = self.opening.keys as usize;
        let row = self.rng.below(self.seen.rows);
        match (self.rng.below(10), self.a_live_row()) {
            (0..=3, Some((row, cells))) => (row, cells[..keys].to_vec()),
            (4, Some((_, cells))) => (row, cells[..keys].to_vec()),
            (5 | 6, _) if !self.remembered.is_empty() => {
                let place = self.rng.place(self.remembered.len());
                let (row, cells) = &self.remembered[place];
                (*row, cells[..keys].to_vec())
            }
            (7, _) => (self.seen.rows + self.rng.below(2), self.key()),
            (8, _) => {
                let mut key = self.key();
                key[0] = DEAD;
                (row, key)
            }
            _ => (row, self.key()),
        }
    }

    /// Leaves one cell out or adds one, now and then.
    fn of_any_width(&mut self, mut cells: Vec<u32>) -> Vec<u32> {
        if self.rng.below(50) > 0 {
            return cells;
        }
        let longer = self.rng.percent(50) || (!self.manner.loose && cells.len() == 1);
        if longer {
            cells.push(7);
        } else {
            cells.pop();
        }
        cells
    }

    /// The cells of a row to insert.
    pub fn cells(&mut self) -> Vec<u32> {
        let mut cells = self.key();
        while cells.len() < self.opening.columns as usize {
            let cell = self.other_cell();
            cells.push(cell);
        }
        // Where the sort cell is a key cell, a key comes again only with the stamp that it had.
        if self.opening.sort >= self.opening.keys || self.rng.percent(90) {
            cells[self.opening.sort as usize] = self.next_stamp();
        }
        cells
    }

    /// Mostly no lower than the last recorded value, and often the same.
    pub fn next_stamp(&mut self) -> u32 {
        if self.rng.below(1000) < self.flavour.falling {
            let fall = self.rng.within(1, 4);
            return self.stamp.saturating_sub(fall);
        }
        let last = self.seen.sort_entries.last().map_or(0, |entry| entry.0);
        let rise = self.rng.pick(&[0, 0, 0, 0, 1, 1, 2, 7]);
        self.stamp = self.stamp.max(last).saturating_add(rise);
        self.stamp
    }

    pub fn other_cell(&mut self) -> u32 {
        if self.rng.percent(5) {
            self.rng.pick(&EDGES)
        } else if self.rng.percent(self.flavour.turning) {
            let turn = self.rng.pick(&TURNS);
            turn.wrapping_add(self.rng.within(0, 2)).wrapping_sub(1)
        } else {
            self.rng.below(self.flavour.other_values)
        }
    }

    /// A key: of a live row, one of those that come again, or a new one.
    pub fn key(&mut self) -> Vec<u32> {
        let keys = self.opening.keys as usize;
        match (self.rng.below(20), self.a_live_row()) {
            (0..=5, Some((_, cells))) => cells[..keys].to_vec(),
            (6, _) => self.new_key(),
            _ if self.flavour.keys.is_empty() => self.new_key(),
            _ => {
                let place = self.rng.place(self.flavour.keys.len());
                self.flavour.keys[place].clone()
            }
        }
    }

    /// Random cells, few small ones and edges, the dead mark also as the first.
    fn new_key(&mut self) -> Vec<u32> {
        let wide = self.rng.percent(30);
        let cell = |rng: &mut Rng| match rng.below(20) {
            0 => rng.pick(&EDGES),
            _ if wide => rng.next_u64() as u32,
            _ => rng.below(12),
        };
        (0..self.opening.keys)
            .map(|_| cell(&mut self.rng))
            .collect()
    }

    /// Removes live rows until the dead are just not too many, or just too many, or one more.
    fn remove_to_the_limit(&mut self) {
        let limit = u32::max(16, self.seen.rows / 2);
        let wanted = (limit + self.rng.below(3)).saturating_sub(self.seen.dead);
        let mut live = self.seen.live.clone();
        for _ in 0..wanted.min(live.len() as u32) {
            let (row, cells) = live.swap_remove(self.rng.place(live.len()));
            let key = cells[..self.opening.keys as usize].to_vec();
            let call = match self.rng.below(2) {
                0 => Call::RemoveKey(key),
                _ => Call::RemoveRow(row, key),
            };
            self.call_with(needed(&self.opening, self.flavour.pending), call);
        }
    }

    /// As many rows as a size class of the key store holds, and one more, of a new key or of a known one. Then the table is cleared, or
    /// loses so many rows that a merge compacts it into fewer slots, or goes on.
    fn outgrow(&mut self) {
        let above = SIZE_CLASSES
            .into_iter()
            .filter(|&size| size < self.opening.capacity);
        let sizes: Vec<u32> = above.filter(|&size| size >= self.seen.rows).collect();
        let Some(&last) = sizes.last() else {
            return;
        };
        let size = if self.rng.percent(50) { last } else { sizes[0] };
        let staged = self.flavour.pending / (self.opening.columns as usize + 2);
        while self.seen.rows < size {
            let (rows, count) = (self.seen.rows, size - self.seen.rows);
            self.insert_new_keys(count.min(staged as u32));
            self.call_with(needed(&self.opening, self.flavour.pending), Call::Merge);
            if self.seen.rows <= rows {
                return;
            }
        }
        match self.a_live_row() {
            Some((_, mut cells)) if self.rng.percent(50) => {
                for cell in &mut cells[self.opening.keys as usize..] {
                    *cell = cell.wrapping_add(1);
                }
                cells[self.opening.sort as usize] = self.next_stamp();
                self.call(Call::Insert(cells));
            }
            _ => self.insert_new_keys(1),
        }
        self.call(Call::Merge);
        match self.rng.below(3) {
            0 => {
                self.call(Call::Clear);
                self.insert_new_keys(3);
            }
            1 => self.remove_to_the_limit(),
            _ => {}
        }
    }

    /// Inserts about as many rows as the table has space for, at most 120, or 1,500 now and then. Most keys are new ones.
    fn fill(&mut self) {
        let room = self.opening.capacity - self.seen.rows;
        let most = if self.rng.percent(3) { 1500 } else { 120 };
        let count = (room + self.rng.below(3)).saturating_sub(1).min(most);
        self.insert_new_keys(count);
    }

    fn insert_new_keys(&mut self, count: u32) {
        for _ in 0..count {
            let mut cells = self.new_key();
            if self.rng.percent(95) {
                cells[0] = self.rng.next_u64() as u32;
            }
            while cells.len() < self.opening.columns as usize {
                let cell = self.other_cell();
                cells.push(cell);
            }
            cells[self.opening.sort as usize] = self.next_stamp();
            self.call_with(
                needed(&self.opening, self.flavour.pending),
                Call::Insert(cells),
            );
        }
    }
}

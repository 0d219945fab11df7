//! What a run has reached.

use crate::image_words::Manner;
use crate::stores::STORES;
use std::collections::BTreeMap;

/// A function's name and the numbers that it refuses by. Those of the single parts are no refusals of the paper: 1 means
/// "does not fit".
type Kind = (&'static str, &'static [usize]);

pub const SHIPPED: [Kind; 41] = [
    ("mouldgrey_open_table", &[1, 2]),
    ("mouldgrey_stage_insert", &[1, 3, 7]),
    ("mouldgrey_stage_remove", &[1, 3, 7]),
    ("mouldgrey_stage_remove_row", &[1, 3, 5, 7]),
    ("mouldgrey_merge", &[1, 2]),
    ("mouldgrey_compact", &[1, 2, 10]),
    ("mouldgrey_clear", &[1, 2, 10]),
    ("mouldgrey_refresh_rows_for_values", &[1, 2, 6, 7, 9, 12]),
    ("mouldgrey_is_sound", &[1, 2]),
    ("mouldgrey_get_row", &[1, 2, 3]),
    ("mouldgrey_get_row_column", &[1, 2, 3, 6]),
    ("mouldgrey_fast_subset", &[1, 2, 6]),
    ("mouldgrey_updates_since", &[1, 5]),
    ("mouldgrey_rows_since_version", &[1, 18]),
    ("mouldgrey_check_precedence", &[1, 2, 6, 14]),
    ("mouldgrey_table_version", &[1]),
    ("mouldgrey_refine_one", &[1, 2, 4, 5, 6]),
    ("mouldgrey_refine_ref", &[1, 2, 4, 5, 6]),
    ("mouldgrey_contains_match", &[1, 2, 4, 5, 6]),
    ("mouldgrey_read_page", &[1, 2, 4, 5, 6]),
    ("mouldgrey_intersect", &[2, 4]),
    ("mouldgrey_intersect_ranges", &[4]),
    ("mouldgrey_to_columns", &[1, 2, 13]),
    ("mouldgrey_from_columns", &[1, 2, 13]),
    ("mouldgrey_step_at", &[15]),
    ("mouldgrey_position_of", &[15]),
    ("mouldgrey_sequence_at", &[2, 16]),
    ("mouldgrey_next_sequence", &[2, 15]),
    ("mouldgrey_write_listing", &[1, 2]),
    ("mouldgrey_read_listing", &[2, 11]),
    ("mouldgrey_read_numbered", &[2, 11]),
    ("mouldgrey_to_numbered", &[2, 11]),
    ("mouldgrey_from_numbered", &[2, 11, 17]),
    ("mouldgrey_check_answers", &[6, 11]),
    ("mouldgrey_replay", &[1, 2]),
    ("mouldgrey_run_queries", &[]),
    ("mouldgrey_image_size", &[1, 21]),
    ("mouldgrey_write_image", &[1, 2, 21]),
    ("mouldgrey_check_image", &[19, 20]),
    ("mouldgrey_read_image", &[1, 2, 19, 20]),
    ("mouldgrey_read_image_text", &[2, 19]),
];

/// The functions of images are the last ones of `SHIPPED`. Of these each number must be returned so many times, and words of each
/// manner must be checked so many times.
const IMAGES: usize = 36;
const TIMES: u64 = 1_000;

pub const SINGLE_PARTS: [Kind; 17] = [
    ("mouldgrey_is_stale", &[]),
    ("mouldgrey_from_full", &[]),
    ("mouldgrey_probe", &[]),
    ("mouldgrey_key_hash", &[]),
    ("mouldgrey_compact_hash", &[]),
    ("mouldgrey_known", &[]),
    ("mouldgrey_meets", &[]),
    ("mouldgrey_changes", &[]),
    ("mouldgrey_make", &[1]),
    ("mouldgrey_surviving_row", &[1]),
    ("mouldgrey_rank", &[]),
    ("mouldgrey_find", &[1]),
    ("mouldgrey_put", &[1]),
    ("mouldgrey_replace", &[1]),
    ("mouldgrey_take_out", &[1]),
    ("mouldgrey_renumber", &[1]),
    ("mouldgrey_fast_range", &[1]),
];

/// What was changed in a sound table, by the place of its store in `STORES`: one word, or two words exchanged.
pub enum Change {
    Word(usize),
    Pair(usize),
}

/// How often a changed table was found sound, unsound, refused.
type Soundness = [u64; 3];

/// Places for the numbers 0, accepted, to 21.
type Outcomes = [u64; 22];

#[derive(Default)]
pub struct Report {
    pub calls: u64,
    functions: BTreeMap<&'static str, Outcomes>,
    /// By store.
    words: [Soundness; STORES.len()],
    pairs: [Soundness; STORES.len()],
    /// Calls on sound stores, compared in full.
    pub compared: u64,
    /// Merges that stopped with 8 and with 9.
    stops: [u64; 2],
    /// Changes in tables of more than 128 rows, whose key stores have grown.
    pub grown: u64,
    /// Changes in tables with slots that are not in use.
    pub spare: u64,
    /// Checks of images, by the manner of their words: accepted, refused with 19, with 20.
    images: [[u64; 3]; Manner::ALL.len()],
}

impl Report {
    pub fn call(&mut self, name: &'static str, number: u32) {
        self.calls += 1;
        self.functions.entry(name).or_default()[number as usize] += 1;
    }

    /// A merge on sound stores whose answer has these words.
    pub fn merged(&mut self, words: &[u32]) {
        match words {
            [8, ..] => self.stops[0] += 1,
            [9, ..] => self.stops[1] += 1,
            _ => {}
        }
    }

    /// Counts a check of words that were made in this manner.
    pub fn image(&mut self, manner: Manner, number: u32) {
        let outcome = match number {
            0 => 0,
            19 => 1,
            _ => 2,
        };
        self.images[manner as usize][outcome] += 1;
    }

    /// Calls of the functions of images.
    pub fn image_calls(&self) -> u64 {
        let names = SHIPPED[IMAGES..].iter().map(|(name, _)| name);
        let outcomes = names.filter_map(|name| self.functions.get(name));
        outcomes.flatten().sum()
    }

    /// Counts a change of a sound table, by what the soundness check returned.
    pub fn change(&mut self, change: Change, checked: Result<bool, u32>) {
        let outcome = match checked {
            Ok(true) => 0,
            Ok(false) => 1,
            Err(_) => 2,
        };
        match change {
            Change::Word(store) => self.words[store][outcome] += 1,
            Change::Pair(store) => self.pairs[store][outcome] += 1,
        }
    }

    /// Single words changed.
    pub fn words_changed(&self) -> u64 {
        self.words.iter().flatten().sum()
    }

    pub fn lines(&self) -> Vec<String> {
        let mut lines = vec![format!(
            "{} calls of all C functions on arbitrary stores, each between two guard pages; {} of them on sound stores, compared in full",
            self.calls, self.compared
        )];
        for (name, _) in SHIPPED.iter().chain(&SINGLE_PARTS) {
            let outcomes = self.functions.get(name).copied().unwrap_or_default();
            let refused = outcomes.iter().enumerate().skip(1);
            let refused: Vec<String> = refused
                .filter(|(_, count)| **count > 0)
                .map(|(number, count)| format!(", {number}: {count}"))
                .collect();
            lines.push(format!("  {name}: 0: {}{}", outcomes[0], refused.concat()));
        }
        let [full, old] = self.stops;
        lines.push(format!(
            "  merges on sound stores that stopped: 8: {full}, 9: {old}"
        ));
        lines.push(format!(
            "{} single words of sound tables changed, the check compared with the reference model's own:",
            self.words_changed()
        ));
        lines.extend(soundness_lines(&self.words));
        lines.push(format!(
            "  of these and of the following {} in tables of more than 128 rows, {} in tables with slots that are not in use",
            self.grown, self.spare
        ));
        lines.push("two words of a store exchanged, likewise:".to_string());
        lines.extend(soundness_lines(&self.pairs[1..]));
        lines.push(format!(
            "{} calls about images; words that were checked:",
            self.image_calls()
        ));
        for (manner, [sound, none, unsound]) in Manner::ALL.iter().zip(self.images) {
            let name = manner.name();
            lines.push(format!(
                "  {name}: accepted {sound}, no image {none}, unsound {unsound}"
            ));
        }
        lines
    }

    /// What was reached too seldom about images.
    fn seldom(&self) -> Vec<String> {
        let mut seldom = Vec::new();
        for (name, refusals) in &SHIPPED[IMAGES..] {
            let outcomes = self.functions.get(name).copied().unwrap_or_default();
            for &number in [0].iter().chain(*refusals) {
                if outcomes[number] < TIMES {
                    seldom.push(format!("{name}: {number} only {} times", outcomes[number]));
                }
            }
        }
        for (manner, outcomes) in Manner::ALL.iter().zip(self.images) {
            if outcomes.iter().sum::<u64>() < TIMES {
                seldom.push(format!("images {}: {outcomes:?}", manner.name()));
            }
        }
        seldom
    }

    /// Functions and refusals that were never reached.
    pub fn missing(&self) -> Vec<String> {
        let mut missing = Vec::new();
        for (name, refusals) in SHIPPED.iter().chain(&SINGLE_PARTS) {
            let outcomes = self.functions.get(name).copied().unwrap_or_default();
            for &number in [0].iter().chain(*refusals) {
                if outcomes[number] == 0 {
                    missing.push(format!("{name}: {number}"));
                }
            }
        }
        for (store, outcomes) in STORES.iter().zip(self.words) {
            // A word of a store is never refused, one of the header may be.
            let wanted = if *store == "header" { 3 } else { 2 };
            if outcomes[..wanted].contains(&0) {
                missing.push(format!("a word of the {store}: {outcomes:?}"));
            }
        }
        if self.grown == 0 {
            missing.push("a change in a table of more than 128 rows".to_string());
        }
        if self.spare == 0 {
            missing.push("a change in a table with slots that are not in use".to_string());
        }
        if self.stops.contains(&0) {
            missing.push("a stop on sound stores".to_string());
        }
        missing.extend(self.seldom());
        missing
    }
}

fn soundness_lines(counts: &[Soundness]) -> Vec<String> {
    let stores = &STORES[STORES.len() - counts.len()..];
    let line = |(store, [sound, unsound, refused]): (&&str, &Soundness)| {
        format!("  {store}: still sound {sound}, unsound {unsound}, refused {refused}")
    };
    stores.iter().zip(counts).map(line).collect()
}

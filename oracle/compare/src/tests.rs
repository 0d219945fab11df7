//! The comparison itself: a planted fault is found and made small, lines are read as they were written.

use crate::compare::{RUST_STOP, Subject, compare};
use crate::counts::Counts;
use crate::generate::{ANY, history};
use crate::history::{Act, Step};
use crate::origins::{Origin, Origins};
use crate::run::{full, run};
use crate::shrink::{lines, shrink};
use crate::text::{parse, step_line};
use calls::{Answer, Call, Contents, Implementation, Lengths, Query, Subset};
use reference::Reference;

/// The reference model with a fault.
struct Faulty {
    table: Reference,
    fault: Fault,
}

#[derive(Clone, Copy, PartialEq)]
enum Fault {
    /// Removals by key do nothing.
    KeyRemoval,
    /// Two ranges that do not meet give 0..0.
    RangesApart,
    /// Sort values may fall.
    Never9,
    /// Panics where sort values fall, but not as the Rust does.
    OtherPanic,
    /// Compacts when dead rows are as many as the limit, not above it.
    Limit,
    /// A page that reaches the end of its subset returns that one id too late.
    LateNone,
    /// A refresh leaves out the last row that it finds.
    Refresh,
    /// A reload drops dead rows.
    Reload,
}

impl Implementation for Faulty {
    fn call(&mut self, lent: &Lengths, call: &Call) -> Answer {
        match call {
            Call::RemoveKey(_) if self.fault == Fault::KeyRemoval => Answer::Done,
            _ => match self.table.call(lent, call) {
                // The Rust panics where the reference model stops.
                Answer::Merged { status: 9, .. } if self.fault == Fault::OtherPanic => panic!("9"),
                Answer::Merged { status: 9, .. } if self.fault != Fault::Never9 => {
                    panic!("{RUST_STOP} (1 vs. 2)")
                }
                Answer::Refreshed(yes, mut rows) if self.fault == Fault::Refresh => {
                    rows.pop();
                    Answer::Refreshed(yes, rows)
                }
                answer => {
                    self.compact_early(lent, &answer);
                    answer
                }
            },
        }
    }

    fn query(&self, lent: &Lengths, query: &Query) -> Answer {
        match self.table.query(lent, query) {
            Answer::Subset(Subset::Range(start, end))
                if start == end
                    && self.fault == Fault::RangesApart
                    && matches!(query, Query::Intersect { .. }) =>
            {
                Answer::Subset(Subset::Range(0, 0))
            }
            Answer::Page {
                ids,
                dead,
                next: None,
            } if self.fault == Fault::LateNone => Answer::Page {
                next: ids.last().map(|_| 0),
                dead,
                ids,
            },
            answer => answer,
        }
    }

    fn contents(&self) -> Contents {
        self.table.contents()
    }

    fn reload(&mut self, lent: &Lengths, capacity: u32) -> Answer {
        let answer = self.table.reload(lent, capacity);
        if self.fault == Fault::Reload && self.table.contents().dead > 0 {
            self.table.call(lent, &Call::Compact);
        }
        answer
    }
}

impl Faulty {
    fn compact_early(&mut self, lent: &Lengths, answer: &Answer) {
        let is_merge = matches!(answer, Answer::Merged { status: 0, .. });
        if self.fault != Fault::Limit || !is_merge {
            return;
        }
        let seen = self.table.contents();
        if seen.dead == u32::max(16, seen.rows / 2) {
            self.table.call(lent, &Call::Compact);
        }
    }
}

fn subject(make: fn() -> Faulty) -> Subject<Faulty> {
    let key_hash = |key: &[u32]| {
        let step = |hash: u32, cell: &u32| hash.wrapping_mul(0x0100_0193) ^ cell;
        key.iter().fold(7, step)
    };
    Subject {
        make,
        key_hash,
        follows_paper: false,
    }
}

/// The smallest history, as lines, in which the fault shows.
fn smallest(make: fn() -> Faulty) -> Vec<String> {
    let subject = subject(make);
    let differs = |steps: &[Step]| compare(&subject, steps, &mut Counts::default());
    let found = (0..2000).map(|seed| history(seed, ANY)).find_map(|steps| {
        let difference = differs(&steps)?;
        Some(steps[..=difference.step].to_vec())
    });
    let found = found.expect("a difference");
    lines(&shrink(&found, |steps| differs(steps).is_some()))
}

fn faulty(fault: Fault) -> Faulty {
    let table = Reference::new();
    Faulty { table, fault }
}

#[test]
fn fault_in_removal() {
    let lines = smallest(|| faulty(Fault::KeyRemoval));
    let letters: String = lines.iter().map(|line| &line[..1]).collect();
    assert!(letters == "OIMRM" || letters == "OIRMM", "{lines:?}");
    assert!(lines[0].starts_with("O,1,1,0,0,1,"), "{lines:?}");
}

#[test]
fn fault_in_intersection() {
    let lines = smallest(|| faulty(Fault::RangesApart));
    assert_eq!(lines.len(), 1, "{lines:?}");
    assert!(lines[0].starts_with("T,0,"), "{lines:?}");
}

#[test]
fn fault_in_order() {
    let lines = smallest(|| faulty(Fault::Never9));
    assert_eq!(lines.len(), 4, "{lines:?}");
    assert_eq!(lines[3], "M");
}

/// A panic is a stop only in the Rust's own words.
#[test]
fn fault_in_a_panic() {
    let lines = smallest(|| faulty(Fault::OtherPanic));
    assert_eq!(lines.len(), 4, "{lines:?}");
    assert_eq!(lines[3], "M");
}

#[test]
fn fault_at_the_limit() {
    let lines = smallest(|| faulty(Fault::Limit));
    assert!(lines.len() < 60, "{lines:?}");
    assert_eq!(lines.last().map(String::as_str), Some("M"), "{lines:?}");
}

#[test]
fn fault_in_page() {
    let lines = smallest(|| faulty(Fault::LateNone));
    let letters: String = lines.iter().map(|line| &line[..1]).collect();
    assert_eq!(letters, "OIMP", "{lines:?}");
}

#[test]
fn fault_in_refresh() {
    let lines = smallest(|| faulty(Fault::Refresh));
    let letters: String = lines.iter().map(|line| &line[..1]).collect();
    assert_eq!(letters, "OIMH", "{lines:?}");
}

#[test]
fn fault_in_reload() {
    let lines = smallest(|| faulty(Fault::Reload));
    let letters: String = lines.iter().map(|line| &line[..1]).collect();
    assert!(
        letters.starts_with("OI") && letters.ends_with("MZ"),
        "{lines:?}"
    );
    assert_eq!(lines.last().map(String::as_str), Some("Z,0"), "{lines:?}");
    assert!(lines.len() <= 6, "{lines:?}");
}

/// Which index stores are unsound, by document 02's words.
#[test]
fn origins_of_index_stores() {
    let mut origins = Origins::default();
    let mut is_sound = |line: &str, opened: bool| {
        if opened {
            origins.opened();
        }
        let Some(Act::Call(Call::Refresh(refresh))) = parse(line) else {
            panic!("not a refresh: {line}");
        };
        let sound = !matches!(origins.take(&refresh.index), Origin::Foreign(_));
        origins.written(&refresh.index, &refresh.columns, (0, 0));
        sound
    };
    // New, taken again, a copy, and both after the first went on.
    assert!(is_sound("H,0,0,0,0,1,0", false));
    assert!(is_sound("H,0,0,0,0,1,0", false));
    assert!(is_sound("H,1,2,0,0,1,0", false));
    assert!(is_sound("H,0,0,0,0,1,0", false));
    assert!(is_sound("H,1,0,0,0,1,0", false));
    // One word changed, for good; but any word behind the first of a new one.
    assert!(!is_sound("H,0,4,2,7,1,0", false));
    assert!(!is_sound("H,0,0,0,0,1,0", false));
    assert!(is_sound("H,2,4,2,7,1,0", false));
    // Made new, by its first word alone too.
    assert!(is_sound("H,0,1,0,0,1,0", false));
    assert!(!is_sound("H,0,4,0,7,1,0", false));
    assert!(is_sound("H,0,4,0,0,1,0", false));
    assert!(!is_sound("H,0,3,9,0,1,0", false));
    // Another opening: what was written before is another table's.
    assert!(!is_sound("H,1,0,0,0,1,0", true));
    assert!(is_sound("H,3,0,0,0,1,0", true));
    assert!(!is_sound("H,3,2,1,0,1,0", false));
}

#[test]
fn a_run_reports_the_smallest_history() {
    let report = run(&subject(|| faulty(Fault::LateNone)), 2000, 0).expect_err("a difference");
    let lines: Vec<&str> = report.lines().collect();
    assert!(
        lines[0].starts_with("the tables differ (history of seed "),
        "{report}"
    );
    assert!(lines[1].starts_with("  O,1,1,0,0,1,0"), "{report}");
    assert!(
        lines[lines.len() - 2].starts_with("  reference: Page"),
        "{report}"
    );
    assert!(
        lines[lines.len() - 1].starts_with("  other: Page"),
        "{report}"
    );
}

/// A gate that has compared nothing reports each operation, and each refusal if the other implementation follows the paper.
#[test]
fn a_gate_that_never_compared() {
    let counts = Counts::default();
    let missed = counts.missed_by_gate(true);
    for line in [
        "never compared: open: accepted",
        "never compared: merge: refused 2",
        "never compared: refine by one: refused 2 again",
        "never compared: refine by a list: refused 6",
        "never compared: any match: refused 5",
        "never compared: page: refused 2 again",
        "page: n above 2^32",
        "never compared: intersect: refused 4",
        "full size: stop 8",
        "precedence: refused 14: only 0 times",
        "refresh: refused 12: only 0 times",
        "refresh: refused 2 again: only 0 times",
        "never compared: refresh: refused 7",
        "refresh: yes: only 0 times",
        "refresh: unsound, rows are left out",
    ] {
        assert!(missed.iter().any(|it| it == line), "{line}");
    }
    assert!(!missed.iter().any(|it| it.starts_with("ended:")));
    let missed = counts.missed_by_gate(false);
    assert!(
        missed
            .iter()
            .any(|it| it == "never compared: page: accepted")
    );
    assert!(
        !missed
            .iter()
            .any(|it| it == "never compared: merge: refused 2")
    );
    assert!(missed.iter().any(|it| it == "ended: stop 8"));
}

/// A difference in a long history is reported by its step.
#[test]
fn a_fault_at_full_size() {
    let report = full(&subject(|| faulty(Fault::Limit))).expect_err("a difference");
    let lines: Vec<&str> = report.lines().collect();
    assert!(
        lines[0].starts_with("the tables differ (history "),
        "{report}"
    );
    assert!(lines[0].contains(" of full size, step "), "{report}");
    assert_eq!(lines[1], "  M", "{report}");
    assert_eq!(lines.len(), 4, "{report}");
}

#[test]
fn lines_are_read_as_written() {
    for seed in 0..200 {
        for step in history(seed, ANY) {
            let line = step_line(&step.act);
            let read = parse(&line).expect("a line of a known form");
            assert_eq!(step_line(&read), line);
        }
    }
}

#[test]
fn lines_of_no_form() {
    for line in [
        "",
        "Z",
        "I,x",
        "M,1",
        "T,0,1,2",
        "N,2,1,1,0,0,0",
        "A,1,2,5,0",
        "O,1,1",
        "H,4,0,0,0,1,0",
        "H,0,5,0,0,1,0",
        "H,0,2,4,0,1,0",
        "H,0,0,0,0,1,2,1",
    ] {
        assert!(parse(line).is_none(), "{line}");
    }
}

#[test]
fn histories_are_the_seed_s_own() {
    for seed in 0..20 {
        assert_eq!(lines(&history(seed, ANY)), lines(&history(seed, ANY)));
    }
}

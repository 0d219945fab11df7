//! Calls with every lent store between two guard pages, and what is required of each of them on any stores: it ends, touches
//! nothing outside, refuses with the paper's number, and a refusal changes nothing.

use crate::acts::Act;
use crate::expected::{self, Expected};
use crate::memory::{Area, Laid};
use crate::refreshes;
use crate::report::Report;
use crate::stores::Stores;
use crate::watch;
use calls::Call;
use random::Rng;
use reference::Reference;

/// What a call may be lent, by the place of its area.
#[derive(Clone, Copy, Debug, PartialEq)]
pub enum Slot {
    Header,
    Rows,
    Keys,
    Sorts,
    Pending,
    Live,
    Base,
    Words,
    Cells,
    Ids,
    OtherIds,
    Conditions,
    Output,
    Index,
    Opening,
    Subset,
    OtherSubset,
    Noted,
    Image,
}

const SLOTS: usize = 19;

/// The longest store: an image of 65,536 rows of eight columns with as many sort entries, or an index by three columns of 65,537
/// rows, and some words more.
const LONGEST: usize = 10 * 65_537 + 8_192;

/// A store as it was lent.
struct Lent {
    slot: Slot,
    laid: Laid,
    before: Vec<u32>,
    may_write: bool,
    /// Where bytes were lent, the first and the end of them in the store's bytes; the others fill its words and must stay.
    bytes: Option<(usize, usize)>,
}

impl Lent {
    /// The bytes of some words of this store that were lent, and those that were not.
    fn bytes_of(&self, words: &[u32]) -> (Vec<u8>, Vec<u8>) {
        let all: Vec<u8> = words.iter().flat_map(|word| word.to_ne_bytes()).collect();
        let (start, end) = self.bytes.unwrap_or((0, all.len()));
        let fill = [&all[..start], &all[end..]].concat();
        (all[start..end].to_vec(), fill)
    }
}

pub struct Session {
    areas: Vec<Area>,
    lent: Vec<Lent>,
    pub report: Report,
}

/// A pointer and a length, as the C functions take them: to be written, or to be read.
pub type Slice = (*mut u32, usize);
pub type Shared = (*const u32, usize);

impl Session {
    pub fn new() -> Result<Session, String> {
        let areas: Option<Vec<Area>> = (0..SLOTS).map(|_| Area::new(LONGEST)).collect();
        Ok(Session {
            areas: areas.ok_or("no memory for stores between guard pages")?,
            lent: Vec::new(),
            report: Report::default(),
        })
    }

    fn lay(&mut self, rng: &mut Rng, slot: Slot, words: &[u32], may_write: bool) -> Slice {
        let laid = self.lay_at(slot, words, rng.percent(50), may_write, None);
        (laid.at, words.len())
    }

    fn lay_at(
        &mut self,
        slot: Slot,
        words: &[u32],
        behind: bool,
        may_write: bool,
        bytes: Option<(usize, usize)>,
    ) -> Laid {
        let laid = self.areas[slot as usize].place(words.len(), behind);
        laid.write(words);
        let before = words.to_vec();
        self.lent.push(Lent {
            slot,
            laid,
            before,
            may_write,
            bytes,
        });
        laid
    }

    /// Lends bytes, flush against a guard page.
    fn lay_bytes(&mut self, rng: &mut Rng, slot: Slot, bytes: &[u8], may_write: bool) -> *mut u8 {
        let fill = vec![b'9'; bytes.len().next_multiple_of(4) - bytes.len()];
        let behind = rng.percent(50);
        let (start, all) = match behind {
            true => (fill.len(), [&fill, bytes].concat()),
            false => (0, [bytes, &fill].concat()),
        };
        let words = all.chunks(4).map(|four| four.try_into().expect("four"));
        let words: Vec<u32> = words.map(u32::from_ne_bytes).collect();
        let lent = Some((start, start + bytes.len()));
        let laid = self.lay_at(slot, &words, behind, may_write, lent);
        // SAFETY: in the store that was laid, or at its end.
        unsafe { laid.at.cast::<u8>().add(start) }
    }

    /// Lends bytes to be read.
    pub fn read_bytes(&mut self, rng: &mut Rng, slot: Slot, bytes: &[u8]) -> (*const u8, usize) {
        let at = self.lay_bytes(rng, slot, bytes, false);
        (at.cast_const(), bytes.len())
    }

    /// Lends bytes to be written.
    pub fn write_bytes(&mut self, rng: &mut Rng, slot: Slot, bytes: &[u8]) -> (*mut u8, usize) {
        let at = self.lay_bytes(rng, slot, bytes, true);
        (at, bytes.len())
    }

    /// What bytes that were lent to be written now hold.
    pub fn left_bytes(&self, slot: Slot) -> Option<Vec<u8>> {
        let lent = self.lent.iter().find(|lent| lent.slot == slot)?;
        Some(lent.bytes_of(lent.laid.read()).0)
    }

    /// Lends a store to be read.
    pub fn read(&mut self, rng: &mut Rng, slot: Slot, words: &[u32]) -> Shared {
        let (at, length) = self.lay(rng, slot, words, false);
        (at.cast_const(), length)
    }

    /// Lends a store to be written.
    pub fn write(&mut self, rng: &mut Rng, slot: Slot, words: &[u32]) -> Slice {
        self.lay(rng, slot, words, true)
    }

    /// What a store that was lent to be written now holds.
    pub fn left(&self, slot: Slot) -> Option<&[u32]> {
        let lent = self.lent.iter().find(|lent| lent.slot == slot)?;
        Some(lent.laid.read())
    }

    /// After a call: nothing was written outside, or where a store was lent to be read, or, by a refusal, anywhere. The lent
    /// stores are given up.
    pub fn close(&mut self, name: &'static str, number: u32) -> Result<(), String> {
        self.report.call(name, number);
        for lent in &self.lent {
            let slot = lent.slot;
            let fill = |words: &[u32]| lent.bytes.map(|_| lent.bytes_of(words).1);
            let is_filled = fill(lent.laid.read()) == fill(&lent.before);
            if !lent.laid.is_kept_beside() || !is_filled {
                return Err(format!("{name} has written beside {slot:?}"));
            }
            let must_stay = !lent.may_write || number != 0;
            if must_stay && lent.laid.read() != lent.before {
                return Err(format!("{name} ({number}) has changed {slot:?}"));
            }
        }
        self.lent.clear();
        Ok(())
    }

    /// One call on these stores, which are left as they are; gives the stores as the call left them. `reference` is the reference
    /// model of them, if they are sound.
    pub fn perform(
        &mut self,
        rng: &mut Rng,
        stores: &Stores,
        act: &Act,
        reference: Option<&Reference>,
    ) -> Result<Stores, String> {
        self.lent.clear();
        let located = |why: String| format!("{why}\n  at {}\n  {act:?}", watch::place());
        let words = expected::answer_before(rng, act);
        let expected = expected::expected(act, stores, &words, reference);
        let name = expected::name(act);
        watch::call(name);
        let (number, output) = self.run(rng, stores, act, &words);
        let after = self.after(stores);
        if let Act::Call(Call::Refresh(refresh)) = act {
            let left = self.left(Slot::Words).unwrap_or(&[]);
            refreshes::check(refresh, stores, (&after, left), number, reference.is_some())
                .map_err(|why| located(format!("{name}: {why}")))?;
            self.close(name, number).map_err(located)?;
            self.report.compared += u64::from(reference.is_some() && number == 0);
            return Ok(after);
        }
        if number != expected.number {
            return Err(located(format!(
                "{name} gives {number}, not {}",
                expected.number
            )));
        }
        self.check_words(&expected, &output).map_err(located)?;
        self.close(name, number).map_err(located)?;
        if let Some(why) = expected::wrong(act, stores, &after, &expected) {
            return Err(located(format!("{name}: {why}")));
        }
        if reference.is_some() && number == 0 {
            self.report.compared += 1;
            if let (Act::Call(Call::Merge), Some(words)) = (act, &expected.words) {
                self.report.merged(words);
            }
        }
        Ok(after)
    }

    /// The answer's words and the output, where they are known.
    fn check_words(&self, expected: &Expected, output: &[u32]) -> Result<(), String> {
        let words = self.left(Slot::Words).unwrap_or(&[]);
        let known = expected.words.as_deref();
        if known.is_some_and(|known| known != words) {
            return Err(format!("words {words:?}, not {known:?}"));
        }
        let written = self.left(Slot::Output).unwrap_or(&[]);
        let ids = &expected.ids;
        if written.get(..ids.len()) != Some(ids) || written[ids.len()..] != output[ids.len()..] {
            return Err(format!("output {written:?}, not {ids:?}"));
        }
        Ok(())
    }

    /// The stores as the call left them; what was not lent is as it was.
    fn after(&self, stores: &Stores) -> Stores {
        let mut after = stores.clone();
        for (slot, store) in [
            (Slot::Header, &mut after.header[..]),
            (Slot::Rows, &mut after.rows),
            (Slot::Keys, &mut after.keys),
            (Slot::Sorts, &mut after.sorts),
            (Slot::Pending, &mut after.pending),
            (Slot::Live, &mut after.live),
            (Slot::Base, &mut after.base),
            (Slot::Index, &mut after.index),
        ] {
            if let Some(left) = self.left(slot) {
                store.copy_from_slice(left);
            }
        }
        after
    }
}

//! Subsets: "a dense range start..end (end not included), or a strictly rising list of at most 65,536 u32 ids".

use calls::{Answer, Subset};

/// How many ids a well-formed subset has.
pub fn size(subset: &Subset) -> usize {
    match subset {
        Subset::Range(start, end) => (end - start) as usize,
        Subset::List(ids) => ids.len(),
    }
}

/// The ids of a well-formed subset, rising.
pub fn ids(subset: &Subset) -> Vec<u32> {
    match subset {
        Subset::Range(start, end) => (*start..*end).collect(),
        Subset::List(ids) => ids.clone(),
    }
}

/// `retain`: "over a range keeps a range while kept ids are neighbours, and 0..0 if none is".
pub fn retain(subset: &Subset, kept: Vec<u32>) -> Subset {
    match subset {
        Subset::List(_) => Subset::List(kept),
        Subset::Range(..) if kept.is_empty() => Subset::Range(0, 0),
        Subset::Range(..) if are_neighbours(&kept) => {
            Subset::Range(kept[0], kept[0] + kept.len() as u32)
        }
        Subset::Range(..) => Subset::List(kept),
    }
}

fn are_neighbours(ids: &[u32]) -> bool {
    ids.windows(2).all(|pair| pair[0] + 1 == pair[1])
}

/// *Intersect*.
pub fn intersect(first: &Subset, second: &Subset) -> Answer {
    Answer::Subset(common(first, second))
}

/// "2, output shorter than the first list, or than the second where the first is a range." Two ranges need none.
pub fn ids_to_write(first: &Subset, second: &Subset) -> usize {
    match (first, second) {
        (Subset::List(ids), _) => ids.len(),
        (Subset::Range(..), Subset::List(ids)) => ids.len(),
        (Subset::Range(..), Subset::Range(..)) => 0,
    }
}

fn common(first: &Subset, second: &Subset) -> Subset {
    match (first, second) {
        // "Two ranges give a range, and if they do not meet it starts and ends at the larger start."
        (Subset::Range(a, b), Subset::Range(c, d)) => {
            let start = *a.max(c);
            Subset::Range(start, start.max(*b.min(d)))
        }
        // "A range with a list gives a list, or 0..0 if nothing is common."
        (Subset::Range(..), Subset::List(ids)) => match common_ids(ids, first) {
            kept if kept.is_empty() => Subset::Range(0, 0),
            kept => Subset::List(kept),
        },
        // "List first gives a list, even an empty one."
        (Subset::List(ids), _) => Subset::List(common_ids(ids, second)),
    }
}

fn common_ids(ids: &[u32], other: &Subset) -> Vec<u32> {
    ids.iter().copied().filter(|&id| holds(other, id)).collect()
}

fn holds(subset: &Subset, id: u32) -> bool {
    match subset {
        Subset::Range(start, end) => *start <= id && id < *end,
        // Lists are strictly rising, so a search by halves finds what is there.
        Subset::List(ids) => ids.binary_search(&id).is_ok(),
    }
}

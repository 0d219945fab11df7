//! The proved library beside the Rust, function by function, and beside the reference model where the Rust has no such function. Each
//! part answers what it compared, or the first difference.

mod answers;
mod cells;
mod columns;
mod images;
mod keys;
mod listings;
mod offsets;
mod ranges;
mod rules;
mod sequences;

/// Everything that is exported so far, a line for each part.
pub fn compare() -> Result<Vec<String>, String> {
    Ok(vec![
        cells::compact_hashes()?,
        cells::key_hashes()?,
        cells::spread()?,
        offsets::intersect()?,
        rules::conditions()?,
        rules::merge_rules()?,
        rules::ranks()?,
        keys::index()?,
        ranges::fast_ranges()?,
        columns::compare()?,
        sequences::compare()?,
        listings::compare()?,
        answers::compare()?,
        images::compare()?,
    ])
}

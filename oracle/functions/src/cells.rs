//! Dead mark, compact hash, probe and key hash.

use random::Rng;
use single_parts::{compact_hash, from_full, is_stale, key_hash, probe};

/// Numbers around every power of two, and their complements.
fn edges() -> Vec<u64> {
    let near = |power: u64| [power.wrapping_sub(1), power, power.wrapping_add(1)];
    let mut all: Vec<u64> = (0..64).flat_map(|bit| near(1 << bit)).collect();
    all.extend(all.clone().iter().map(|number| !number));
    all
}

/// The edges, and as many random numbers.
fn numbers(count: usize) -> Vec<u64> {
    let mut rng = Rng::new(1);
    let mut all = edges();
    all.extend(std::iter::repeat_with(|| rng.next_u64()).take(count));
    all
}

/// `from_full`, `probe` and the dead test against the Rust's own.
pub fn compact_hashes() -> Result<String, String> {
    let numbers = numbers(1_000_000);
    for &full in &numbers {
        let hash = full as u32;
        if from_full(full) != rust_table::compact_hash(full) {
            return Err(format!("from_full({full}) is {}", from_full(full)));
        }
        if probe(hash) != rust_table::probe(hash) || from_full(probe(hash)) != hash {
            return Err(format!("probe({hash}) is {}", probe(hash)));
        }
        if is_stale(hash) != (hash == u32::MAX) {
            return Err(format!("is_stale({hash}) is {}", is_stale(hash)));
        }
    }
    Ok(format!(
        "compact hash, probe and dead mark: {} numbers",
        numbers.len()
    ))
}

/// The reference model's own hash, in both halves of 64 bits.
fn defined(key: &[u32]) -> u64 {
    u64::from(reference::key_hash(key)) * ((1 << 32) + 1)
}

pub fn key_hashes() -> Result<String, String> {
    let cells: Vec<u32> = numbers(400_000).into_iter().map(|n| n as u32).collect();
    let mut keys = 0;
    for width in 0..=8 {
        for key in cells
            .windows(width.max(1))
            .step_by(3)
            .map(|cells| &cells[..width])
        {
            let full = defined(key);
            if key_hash(key) != full || compact_hash(key) != rust_table::compact_hash(full) {
                return Err(format!(
                    "key_hash({key:?}) is {}, not {full}",
                    key_hash(key)
                ));
            }
            keys += 1;
        }
    }
    Ok(format!("key hash: {keys} keys of 0 to 8 cells"))
}

/// Slots looked at for each key on average, in a table of twice as many slots that is filled by linear probing.
fn probes(keys: &[Vec<u32>]) -> f64 {
    let slots = 2 * keys.len();
    let mut taken = vec![false; slots];
    let mut looked = 0usize;
    for key in keys {
        let mut at = ((u64::from(compact_hash(key)) * slots as u64) >> 32) as usize;
        looked += 1;
        while taken[at] {
            at = (at + 1) % slots;
            looked += 1;
        }
        taken[at] = true;
    }
    looked as f64 / keys.len() as f64
}

/// Keys as archives have them: in a row, at even distances, in grids. A perfect hash would look at 1.5 slots.
pub fn spread() -> Result<String, String> {
    let count = 16_384u32;
    let mut shapes: Vec<(String, Vec<Vec<u32>>)> = Vec::new();
    for distance in [
        1, 2, 3, 7, 10, 60, 100, 255, 256, 1_000, 1_024, 4_096, 10_000, 65_535, 65_536, 65_537,
        262_144,
    ] {
        let keys = (0..count).map(|i| vec![i.wrapping_mul(distance)]).collect();
        shapes.push((format!("multiples of {distance}"), keys));
    }
    shapes.push((
        "modem and side".into(),
        (0..count).map(|i| vec![i / 2, 1 + i % 2]).collect(),
    ));
    shapes.push((
        "side and modem".into(),
        (0..count).map(|i| vec![1 + i % 2, i / 2]).collect(),
    ));
    shapes.push((
        "a square".into(),
        (0..count).map(|i| vec![i / 128, i % 128]).collect(),
    ));
    shapes.push((
        "a cube".into(),
        (0..count)
            .map(|i| vec![i / 1024, i / 32 % 32, i % 32])
            .collect(),
    ));
    shapes.push((
        "eight small cells".into(),
        (0..count)
            .map(|i| (0..8).map(|b| i >> (2 * b) & 3).collect())
            .collect(),
    ));
    let mut worst = (0.0, "");
    for (name, keys) in &shapes {
        let looked = probes(keys);
        if looked > worst.0 {
            worst = (looked, name);
        }
    }
    if worst.0 > 2.5 {
        return Err(format!(
            "key hash: {} look at {:.2} slots on average",
            worst.1, worst.0
        ));
    }
    Ok(format!(
        "key hash: {} shapes of keys, at most {:.2} slots for each key ({})",
        shapes.len(),
        worst.0,
        worst.1
    ))
}

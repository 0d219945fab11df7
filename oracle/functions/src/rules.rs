//! Conditions and merge rules on single rows, against the Rust's evaluation and the closures of the driver.

use calls::Condition;
use random::Rng;

fn row(rng: &mut Rng, width: usize) -> Vec<u32> {
    (0..width).map(|_| rng.number()).collect()
}

/// Known conditions on live rows are the Rust's; a dead row meets none; unknown ones are recognized.
pub fn conditions() -> Result<String, String> {
    let mut rng = Rng::new(5);
    let (mut compared, mut unknown) = (0u64, 0u64);
    for _ in 0..400_000 {
        let width = 1 + rng.below(8) as usize;
        let cells = row(&mut rng, width);
        let condition = Condition {
            kind: rng.below(8),
            a: rng.below(10),
            b: if rng.below(2) == 0 {
                rng.below(10)
            } else {
                cells[rng.place(width)]
            },
        };
        let columns = width as u32;
        let known = condition.kind <= 5
            && condition.a < columns
            && (condition.kind > 0 || condition.b < columns);
        if single_parts::known(&condition, columns) != known {
            return Err(format!(
                "known {condition:?} of {columns} columns is {}",
                !known
            ));
        }
        compared += 1;
        if !known {
            unknown += 1;
            continue;
        }
        let expected = cells[0] != u32::MAX && rust_table::eval_condition(&condition, &cells);
        if single_parts::meets(&condition, &cells) != expected {
            return Err(format!("{cells:?} meets {condition:?} is {}", !expected));
        }
    }
    Ok(format!(
        "conditions: {compared} on single rows, {unknown} of them unknown"
    ))
}

/// Old and new row of one key, their other cells equal or near each other often enough.
fn pair(rng: &mut Rng, width: usize, keys: usize) -> (Vec<u32>, Vec<u32>) {
    let old = row(rng, width);
    let mut new = old.clone();
    for cell in &mut new[keys..] {
        match rng.below(3) {
            0 => {}
            1 => *cell = cell.wrapping_add(rng.below(3)).wrapping_sub(1),
            _ => *cell = rng.number(),
        }
    }
    (old, new)
}

pub fn merge_rules() -> Result<String, String> {
    let mut rng = Rng::new(6);
    let (mut made, mut kept, mut signs) = (0u64, 0u64, 0u64);
    for _ in 0..400_000 {
        let width = 1 + rng.below(8) as usize;
        let keys = 1 + rng.place(width);
        let sort = rng.below(width as u32);
        let rule = rng.below(4);
        let (old, new) = pair(&mut rng, width, keys);
        let expected = rust_table::merge_rule(rule, keys as u32, sort, &old, &new);
        let got = single_parts::merge_rule(rule, keys as u32, sort, &old, &new);
        if got != expected {
            return Err(format!(
                "rule {rule}, {keys} keys, sort column {sort}, {old:?} and {new:?}: {got:?}, not {expected:?}"
            ));
        }
        let survivor = expected.as_ref().unwrap_or(&old);
        if rule <= 1
            && single_parts::surviving_row(rule, keys as u32, sort, &old, &new) != *survivor
        {
            return Err(format!(
                "rule {rule}: another row than {survivor:?} survives"
            ));
        }
        if expected.is_some() {
            made += 1;
        } else {
            kept += 1;
        }
        let other_sign = |c: usize| c != sort as usize && (old[c] ^ new[c]) >> 31 == 1;
        signs += u64::from(rule >= 2 && (keys..width).any(other_sign));
    }
    if signs == 0 {
        return Err("no cells of two signs under rule 2 or 3".to_string());
    }
    Ok(format!(
        "merge rules: {made} rows made, {kept} kept; {signs} with cells of two signs under rule 2 or 3"
    ))
}

/// The new number of a live row: the live rows before it, by the word of its 64.
pub fn ranks() -> Result<String, String> {
    let mut rng = Rng::new(7);
    let mut ranked = 0u64;
    for _ in 0..3_000 {
        let base = rng.below(65_000);
        let word = rng.next_u64() & rng.next_u64() | (1 << rng.below(64));
        let mut before = base;
        for bit in 0..64 {
            if single_parts::rank(word, base, bit) != before {
                return Err(format!("rank({word:#x}, {base}, {bit}) is not {before}"));
            }
            before += (word >> bit & 1) as u32;
            ranked += 1;
        }
    }
    Ok(format!("ranks: {ranked}"))
}

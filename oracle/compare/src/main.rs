//! The comparison: of the reference model, written from the paper, with the carried-over Rust; of the proved table with the
//! reference model; and of the proved library's functions with the Rust's.

mod batches;
mod cases;
mod compare;
mod counts;
mod full;
mod generate;
mod guard;
mod history;
mod kinds;
mod known;
mod lists;
mod mentioned;
mod origins;
mod queries;
mod record;
mod refreshes;
mod replays;
mod run;
mod sequences;
mod short;
mod shrink;
#[cfg(test)]
mod tests;
mod text;

use cases::Case;
use compare::Subject;
use library_table::LibraryTable;
use rust_table::RustTable;
use std::process::{Child, Command, ExitCode, Stdio};

const USAGE: &str = "\
usage: oracle                    the gate's run: all short histories, random ones from a fixed seed, the proved library
       oracle run COUNT [SEED]   so many random histories, the Rust beside the reference model
       oracle library COUNT SEED the same, the proved table beside the reference model
       oracle full               histories of the largest tables, for the Rust and the proved table
       oracle lists N SEED       lists of calls and of queries, each by one call of the proved library
       oracle sequences          every short history of document 02, under all four rules
       oracle batches N SEED     so many batches of inserts, each cut at every place
       oracle fuzz               the gate's fuzzing, a part of its run
       oracle fuzz N SEED        at least N fuzzed calls of all C functions
       oracle record [SEED]      prints the recorded list
       oracle replay FILE        checks a recorded list against all three tables
       oracle bench [N [PART]]   measures the proved library beside the Rust (build it with --release): medians of N runs, of
                                 the rows whose names contain PART
       oracle bench --check      fails if a row is above the ratio recorded in ratios.txt by more than a third
       oracle seal               the same for the monthly seal; fails above its limit (build it with --release)";

const RUST: Subject<RustTable> = Subject {
    make: RustTable::new,
    key_hash: rust_table::key_hash,
    follows_paper: false,
};

const LIBRARY: Subject<LibraryTable> = Subject {
    make: LibraryTable::new,
    key_hash: single_parts::compact_hash,
    follows_paper: true,
};

/// The gate's batches cut anywhere, and their seed.
const BATCHES: u64 = 3_000;
const BATCH_SEED: u64 = 12;

/// The gate's fuzzed calls, those about images, and their seed.
const FUZZ_CALLS: u64 = 2_800_000;
const FUZZED_IMAGES: u64 = 600_000;
const FUZZ_SEED: u64 = 1;

fn main() -> ExitCode {
    guard::keep_quiet();
    let arguments: Vec<String> = std::env::args().skip(1).collect();
    let arguments: Vec<&str> = arguments.iter().map(String::as_str).collect();
    match command(&arguments) {
        Ok(()) => ExitCode::SUCCESS,
        Err(why) => {
            eprintln!("{why}");
            ExitCode::FAILURE
        }
    }
}

fn command(arguments: &[&str]) -> Result<(), String> {
    match arguments {
        [] => gate(),
        ["run", count] => run::run(&RUST, number(count)?, 0),
        ["run", count, seed] => run::run(&RUST, number(count)?, number(seed)?),
        ["library", count, seed] => run::run(&LIBRARY, number(count)?, number(seed)?),
        ["lists", count, seed] => print(replays::run(number(count)?, number(seed)?)?),
        ["full"] => {
            run::full(&RUST)?;
            run::full(&LIBRARY)
        }
        ["sequences"] => print(every_sequence()?),
        ["batches", count, seed] => print(vec![batches::gate(number(count)?, number(seed)?)?]),
        ["fuzz"] => print(fuzz::gate(FUZZ_CALLS, FUZZED_IMAGES, FUZZ_SEED)?),
        ["fuzz", calls, seed] => print(fuzz::run(number(calls)?, number(seed)?)?),
        ["record"] => record(record::SEED),
        ["record", seed] => record(number(seed)?),
        ["replay", file] => replay(file),
        ["bench", "--check"] => measure::check(),
        ["bench"] => bench(1, ""),
        ["bench", runs] => bench(number(runs)?, ""),
        ["bench", runs, part] => bench(number(runs)?, part),
        ["seal"] => measure::seal(),
        _ => Err(USAGE.to_string()),
    }
}

fn gate() -> Result<(), String> {
    let fuzzing = begin_fuzzing()?;
    run::gate(&RUST)?;
    println!("the proved library and the reference model:");
    print(run::gate_library(&LIBRARY)?)?;
    println!(
        "lists of calls and of queries, each by one call of the proved library, and the reference model:"
    );
    print(replays::gate()?)?;
    println!("every short history, from the proved generator, under all four rules:");
    print(every_sequence()?)?;
    println!("batches of inserts cut anywhere:");
    println!("  {}", batches::gate(BATCHES, BATCH_SEED)?);
    println!("the proved library and the Rust:");
    print(functions::compare()?)?;
    println!("fuzzing of the proved library:");
    end_fuzzing(fuzzing)
}

/// A line for each implementation. Only the Rust ends at a stop.
fn every_sequence() -> Result<Vec<String>, String> {
    let library = run::every_sequence(&LIBRARY)?;
    let rust = run::every_sequence(&RUST)?;
    Ok(vec![
        format!(
            "{} histories beside the proved table: {} answers, {} of them of merges; {} merges stop with 9",
            library.short_histories,
            library.compared(),
            library.merges(),
            library.times(Case::MergeStop9),
        ),
        format!(
            "{} histories beside the Rust: {} answers, {} of them of merges; {} end at the first stop",
            rust.short_histories,
            rust.compared(),
            rust.merges(),
            rust.times(Case::EndedStop9Panic),
        ),
    ])
}

/// Fuzzing is a process of its own beside the rest: a fault there ends only that process, and neither waits for the other.
fn begin_fuzzing() -> Result<Child, String> {
    std::env::current_exe()
        .and_then(|own| Command::new(own).arg("fuzz").stdout(Stdio::piped()).spawn())
        .map_err(|why| format!("fuzzing: {why}"))
}

fn end_fuzzing(fuzzing: Child) -> Result<(), String> {
    let ended = fuzzing
        .wait_with_output()
        .map_err(|why| format!("fuzzing: {why}"))?;
    print!("{}", String::from_utf8_lossy(&ended.stdout));
    match ended.status.success() {
        true => Ok(()),
        false => Err(format!("fuzzing: {}", ended.status)),
    }
}

fn bench(runs: u64, part: &str) -> Result<(), String> {
    measure::bench(runs as usize, part);
    Ok(())
}

fn print(lines: Vec<String>) -> Result<(), String> {
    for line in lines {
        println!("  {line}");
    }
    Ok(())
}

fn number(text: &str) -> Result<u64, String> {
    text.parse().map_err(|_| format!("not a number: {text}"))
}

fn record(seed: u64) -> Result<(), String> {
    for line in record::record(&RUST, seed)? {
        println!("{line}");
    }
    Ok(())
}

fn replay(file: &str) -> Result<(), String> {
    let text = std::fs::read_to_string(file).map_err(|why| format!("{file}: {why}"))?;
    let rust = record::replay(&RUST, &text)?;
    let library = record::replay(&LIBRARY, &text)?;
    println!(
        "{} recorded answers are the reference model's, {} of them the Rust's, {} the proved table's",
        rust.answers, rust.compared, library.compared
    );
    if library.compared != library.answers as u64 {
        return Err("not every recorded answer was compared with the proved table".to_string());
    }
    Ok(())
}

//! Rows of times. Within a row ours and the Rust's are measured in turn, and the least of many rounds counts for each: what is
//! measured is the work, not the machine's other business.

use std::hint::black_box;
use std::time::Instant;

/// Rounds of a row, of about half a millisecond each.
const ROUNDS: usize = 60;
/// Rounds of a row whose work uses up what it works on.
const ROUNDS_ANEW: usize = 40;
const NAME_WIDTH: usize = 68;

/// What is recorded: the lines that `oracle bench 7` printed.
const RECORDED: &str = include_str!("../../ratios.txt");
/// A row may be above its recorded ratio by a third.
const ALLOWED: f64 = 4.0 / 3.0;
/// Recorded ratios have two decimals.
const ROUNDING: f64 = 0.01;

/// A row, with the times of ours and of the Rust in each run.
struct Row {
    name: String,
    times: Vec<(f64, f64)>,
}

/// The rows that are wanted, in the order in which they were first measured.
pub struct Report {
    part: String,
    rows: Vec<Row>,
}

fn nanoseconds(work: impl FnOnce()) -> f64 {
    let start = Instant::now();
    work();
    start.elapsed().as_nanos() as f64
}

/// How many calls make a round.
fn calls_of_round<R>(work: &mut impl FnMut() -> R) -> u32 {
    let once = nanoseconds(|| {
        black_box(work());
    });
    (500_000.0 / once.max(1.0)).clamp(1.0, 100_000.0) as u32
}

fn round<R>(calls: u32, work: &mut impl FnMut() -> R) -> f64 {
    let all = nanoseconds(|| {
        for _ in 0..calls {
            black_box(work());
        }
    });
    all / f64::from(calls)
}

/// The time of a work on a copy.
fn on_copy<T: Clone>(before: &T, work: &impl Fn(&mut T)) -> f64 {
    let mut copy = before.clone();
    let time = nanoseconds(|| work(&mut copy));
    black_box(copy);
    time
}

fn median(mut numbers: Vec<f64>) -> f64 {
    numbers.sort_by(f64::total_cmp);
    numbers[numbers.len() / 2]
}

impl Row {
    fn ratios(&self) -> Vec<f64> {
        self.times.iter().map(|(o, t)| o / t).collect()
    }

    fn least_ratio(&self) -> f64 {
        self.ratios().into_iter().fold(f64::INFINITY, f64::min)
    }

    /// The medians of both times and of the ratio; behind several runs also the ratio's least and most.
    fn line(&self) -> String {
        let ours = median(self.times.iter().map(|t| t.0).collect());
        let theirs = median(self.times.iter().map(|t| t.1).collect());
        let ratio = median(self.ratios());
        let mut line = format!(
            "  {:NAME_WIDTH$} {ours:11.1} {theirs:11.1} {ratio:7.2}",
            self.name
        );
        if 1 < self.times.len() {
            let most = self.ratios().into_iter().fold(0.0, f64::max);
            line += &format!(" {:7.2} {most:7.2}", self.least_ratio());
        }
        line
    }
}

/// Starts the last line, which counts the rows whose ratio is above 1.0.
const ABOVE: &str = "rows above 1.0: ";

/// The processor's name, as the system gives it.
fn processor() -> String {
    let info = std::fs::read_to_string("/proc/cpuinfo").unwrap_or_default();
    let value = |line: &str, name: &str| {
        let (key, value) = line.split_once(':')?;
        (key.trim() == name).then(|| value.trim().to_string())
    };
    let field = |name: &str| info.lines().find_map(|line| value(line, name));
    let name = field("model name").unwrap_or("unknown".to_string());
    let number = |name: &str| field(name).unwrap_or_default();
    format!(
        "{name}, family {}, model {}",
        number("cpu family"),
        number("model")
    )
}

/// How many rows are above 1.0, in the last line of a record.
fn recorded_above(line: &str) -> Option<usize> {
    let counts = line.strip_prefix(ABOVE)?;
    counts.split_whitespace().next()?.parse().ok()
}

/// The name and the ratio of a printed line.
fn recorded(line: &str) -> Option<(&str, f64)> {
    let (name, times) = line.strip_prefix("  ")?.split_at_checked(NAME_WIDTH)?;
    let ratio = times.split_whitespace().nth(2)?.parse().ok()?;
    Some((name.trim_end(), ratio))
}

impl Report {
    /// Only rows whose names have this part are measured.
    pub fn of(part: &str) -> Report {
        Report {
            part: part.to_string(),
            rows: Vec::new(),
        }
    }

    fn is_wanted(&self, name: &str) -> bool {
        name.contains(&self.part)
    }

    fn add(&mut self, name: &str, pieces: usize, ours: f64, theirs: f64) {
        let times = (ours / pieces as f64, theirs / pieces as f64);
        match self.rows.iter_mut().find(|row| row.name == name) {
            Some(row) => row.times.push(times),
            None => self.rows.push(Row {
                name: name.to_string(),
                times: vec![times],
            }),
        }
    }

    /// Two works that can be done again and again; the time is for each of so many pieces.
    pub fn compare<R, S>(
        &mut self,
        name: &str,
        pieces: usize,
        mut ours: impl FnMut() -> R,
        mut theirs: impl FnMut() -> S,
    ) {
        if !self.is_wanted(name) {
            return;
        }
        let (calls, their_calls) = (calls_of_round(&mut ours), calls_of_round(&mut theirs));
        let (mut least, mut their_least) = (f64::INFINITY, f64::INFINITY);
        for _ in 0..ROUNDS {
            least = least.min(round(calls, &mut ours));
            their_least = their_least.min(round(their_calls, &mut theirs));
        }
        self.add(name, pieces, least, their_least);
    }

    /// Two works that use up what they work on: each is done on a copy, and making it is not counted.
    pub fn compare_anew<O: Clone, T: Clone>(
        &mut self,
        name: &str,
        pieces: usize,
        ours: (&O, impl Fn(&mut O)),
        (their_before, theirs): (&T, impl Fn(&mut T)),
    ) {
        let only = std::slice::from_ref(their_before);
        self.compare_with_worst(name, pieces, ours, (only, theirs));
    }

    /// The same beside the slowest of the Rust's works: its work is done on each of several things, and the largest time counts.
    pub fn compare_with_worst<O: Clone, T: Clone>(
        &mut self,
        name: &str,
        pieces: usize,
        (before, ours): (&O, impl Fn(&mut O)),
        (their_befores, theirs): (&[T], impl Fn(&mut T)),
    ) {
        if !self.is_wanted(name) {
            return;
        }
        let (mut least, mut their_least) =
            (f64::INFINITY, vec![f64::INFINITY; their_befores.len()]);
        for _ in 0..ROUNDS_ANEW {
            least = least.min(on_copy(before, &ours));
            for (time, their_before) in their_least.iter_mut().zip(their_befores) {
                *time = time.min(on_copy(their_before, &theirs));
            }
        }
        let worst = their_least.into_iter().fold(0.0, f64::max);
        self.add(name, pieces, least, worst);
    }

    /// Two works on one thing, which is prepared anew before each round; preparing it is not counted.
    pub fn compare_along<T, R>(
        &mut self,
        name: &str,
        pieces: usize,
        thing: &mut T,
        prepare: impl Fn(&mut T, u32),
        ours: impl Fn(&mut T) -> R,
        theirs: impl Fn(&mut T) -> R,
    ) {
        if !self.is_wanted(name) {
            return;
        }
        let mut least = [f64::INFINITY; 2];
        for round in 0..ROUNDS_ANEW as u32 {
            prepare(thing, round);
            let time = nanoseconds(|| drop(black_box(ours(thing))));
            let their_time = nanoseconds(|| drop(black_box(theirs(thing))));
            least = [least[0].min(time), least[1].min(their_time)];
        }
        self.add(name, pieces, least[0], least[1]);
    }

    /// A row of how many times the last time of one row is that of another, on each side, if both were measured.
    pub fn factor(&mut self, name: &str, of: &str, to: &str) {
        let last = |name: &str| self.rows.iter().find(|row| row.name == name)?.times.last();
        if let (Some(of), Some(to)) = (last(of), last(to)) {
            let (ours, theirs) = (of.0 / to.0, of.1 / to.1);
            self.add(name, 1, ours, theirs);
        }
    }

    pub fn print(&self) {
        println!("processor: {}", processor());
        println!("nanoseconds of the proved library and of the Rust, and their ratio");
        for row in &self.rows {
            println!("{}", row.line());
        }
        let above = self.rows.iter().filter(|row| 1.0 < median(row.ratios()));
        println!("{ABOVE}{} of {}", above.count(), self.rows.len());
    }

    /// An error if more rows are above 1.0 in every run than the record has above 1.0 in the median.
    pub fn more_above(&self) -> Option<String> {
        let most = RECORDED.lines().find_map(recorded_above)?;
        let above = self.rows.iter().filter(|row| 1.0 < row.least_ratio());
        let count = above.count();
        (most < count).then(|| format!("{count} rows are above 1.0, recorded {most}"))
    }

    /// The rows that were in no run within what is recorded of them; those of which nothing is recorded, too.
    pub fn above(&self) -> Vec<String> {
        let limits: Vec<(&str, f64)> = RECORDED.lines().filter_map(recorded).collect();
        let limit = |row: &Row| limits.iter().find(|(name, _)| *name == row.name);
        self.rows
            .iter()
            .filter_map(|row| match limit(row) {
                None => Some(format!("nothing is recorded of: {}", row.name)),
                Some((_, ratio)) if ratio * ALLOWED + ROUNDING < row.least_ratio() => {
                    Some(format!(
                        "{:.2}, recorded {ratio:.2}: {}",
                        row.least_ratio(),
                        row.name
                    ))
                }
                Some(_) => None,
            })
            .collect()
    }
}

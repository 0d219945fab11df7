//! `mouldgrey apply` prints what the proved program `levels` prints, byte for byte. Without that program, which `make` leaves in
//! target/bin of the repository, nothing is compared.

mod common;

use common::{Folder, fed, program};
use std::fs;
use std::path::{Path, PathBuf};
use std::process::{Command, Output};

fn repository() -> PathBuf {
    Path::new(env!("CARGO_MANIFEST_DIR")).join("../..")
}

/// The program `levels`, if it is built.
fn levels() -> Option<PathBuf> {
    let file = repository().join("target/bin/levels");
    if !file.is_file() {
        eprintln!("skipped: {} is not built", file.display());
        return None;
    }
    Some(file)
}

/// Numbers that look random, the same in every run (xorshift).
struct Chance(u64);

impl Chance {
    fn below(&mut self, bound: u32) -> u32 {
        self.0 ^= self.0 << 13;
        self.0 ^= self.0 >> 7;
        self.0 ^= self.0 << 17;
        (self.0 >> 32) as u32 % bound
    }

    fn of<T: Copy>(&mut self, choices: &[T]) -> T {
        choices[self.below(choices.len() as u32) as usize]
    }
}

fn line(letter: char, numbers: &[u32]) -> String {
    let fields: String = numbers.iter().map(|number| format!(",{number}")).collect();
    format!("{letter}{fields}")
}

/// Lines as they are written for a table, most of them in order.
struct Writer {
    chance: Chance,
    columns: u32,
    keys: u32,
    stamp: u32,
}

impl Writer {
    /// Mostly numbers within their bounds. Capacities from 1,025 to 65,536 are those by which the programs differ.
    fn open(&mut self) -> String {
        let chance = &mut self.chance;
        self.columns = 1 + chance.below(4);
        self.keys = 1 + chance.below(self.columns);
        let sort = self.columns - 1;
        let rule = chance.below(4);
        let capacity = chance.of(&[1, 2, 7, 40, 129, 1024]);
        let generation = chance.of(&[0, 0, 5, u32::MAX - 1, u32::MAX]);
        let mut numbers = [self.columns, self.keys, sort, rule, capacity, generation];
        if chance.below(8) == 0 {
            let place = chance.below(5) as usize;
            numbers[place] = chance.of(&[0, 9, 65_537, u32::MAX]);
        }
        line('O', &numbers)
    }

    /// Small cells, so that keys come again, with a stamp that mostly rises.
    fn cells(&mut self, count: u32) -> Vec<u32> {
        let chance = &mut self.chance;
        let mut cells: Vec<u32> = (0..count).map(|_| chance.below(6)).collect();
        if let Some(last) = cells.last_mut() {
            self.stamp += chance.below(8) / 7;
            *last = self.stamp - chance.below(32) / 31;
        }
        match chance.below(40) {
            0 => cells.push(1),
            1 => cells.truncate(1),
            2 => cells[0] = u32::MAX,
            _ => {}
        }
        cells
    }

    fn key(&mut self) -> Vec<u32> {
        let keys = self.keys + u32::from(self.chance.below(30) == 0);
        (0..keys).map(|_| self.chance.below(6)).collect()
    }

    fn remove_row(&mut self) -> String {
        let mut numbers = vec![self.chance.below(12)];
        numbers.extend(self.key());
        line('K', &numbers)
    }

    fn fast(&mut self) -> String {
        let value = self.chance.below(self.stamp + 3);
        let column = self.chance.of(&[self.columns - 1, 0, 8]);
        line('F', &[self.chance.below(7), column, value])
    }

    /// A line of no form.
    fn broken(&mut self) -> String {
        let long = "I".to_string() + &",1".repeat(60) + &"1".repeat(5000);
        let lines = [
            "",
            "m",
            "I",
            "K,0",
            "M,",
            "M,1",
            "I,07",
            "I,-1",
            "I, 1",
            "I,4294967296",
            "V\r",
            "T",
            "D,1",
            "O,1,1,0,0,5",
            "é",
            "\0",
            ",",
            "F,1,2",
            &long,
            &long[..121],
            &long[..120],
        ];
        let place = self.chance.below(lines.len() as u32) as usize;
        lines[place].to_string()
    }

    fn line(&mut self) -> String {
        match self.chance.below(100) {
            0 => self.open(),
            1 => "G".to_string(),
            2 if self.chance.below(4) == 0 => "C".to_string(),
            3..=7 => self.broken(),
            8..=14 => self.fast(),
            15..=20 => "V".to_string(),
            21..=23 => "L".to_string(),
            24..=26 => "U".to_string(),
            27..=42 => "M".to_string(),
            43..=52 => line('R', &self.key()),
            53..=57 => self.remove_row(),
            _ => line('I', &self.cells(self.columns)),
        }
    }
}

/// An input of random lines, its last one sometimes without a newline.
fn generated(seed: u64) -> Vec<u8> {
    let mut writer = Writer {
        chance: Chance(seed.wrapping_mul(0x9e37_79b9_7f4a_7c15) | 1),
        columns: 1,
        keys: 1,
        stamp: 3,
    };
    let count = 20 + writer.chance.below(600);
    let mut lines = vec![writer.open()];
    lines.extend((0..count).map(|_| writer.line()));
    if writer.chance.below(2) == 0 {
        lines.push(String::new());
    }
    lines.join("\n").into_bytes()
}

/// More inserts than the pending store holds, for a table of this many columns.
fn overfull(columns: usize) -> Vec<u8> {
    let mut text = format!("O,{columns},1,0,1,1024,0\n");
    for key in 0..2 * 2048 / (columns as u32 + 2) {
        text += &line('I', &vec![key; columns]);
        text += "\n";
    }
    (text + "M\nV\nL\nR,1\n").into_bytes()
}

/// What apply prints, on a file that does not exist before.
fn applied(folder: &Folder, parts: &[&[u8]]) -> Vec<u8> {
    let file = folder.path("table");
    let _ = fs::remove_file(&file);
    let outputs = parts.iter().map(|part| {
        let Output { status, stdout, .. } = fed(folder, &mut program("apply", &file), part);
        assert!(status.success());
        stdout
    });
    outputs.collect::<Vec<_>>().concat()
}

/// An input in two parts, cut behind the newline that follows its middle.
fn halves(input: &[u8]) -> [&[u8]; 2] {
    let middle = input.len() / 2;
    let newline = input[middle..].iter().position(|&byte| byte == b'\n');
    let (first, second) = input.split_at(newline.map_or(input.len(), |at| middle + at + 1));
    [first, second]
}

/// Compares both programs on an input, given to apply as one and in two runs, between which the table is in the file.
fn compare(folder: &Folder, levels: &Path, name: &str, input: &[u8]) {
    let expected = fed(folder, &mut Command::new(levels), input).stdout;
    assert!(applied(folder, &[input]) == expected, "{name} differs");
    assert!(
        applied(folder, &halves(input)) == expected,
        "{name} differs in two runs"
    );
}

#[test]
fn examples() {
    let folder = Folder::new("levels-examples");
    let input = fs::read(repository().join("examples/first.levels")).expect("the example");
    let expected = fs::read(repository().join("examples/first.out")).expect("its output");
    assert_eq!(applied(&folder, &[&input]), expected);
    if let Some(levels) = levels() {
        compare(&folder, &levels, "first.levels", &input);
    }
}

#[test]
fn generated_inputs() {
    let Some(levels) = levels() else { return };
    let folder = Folder::new("levels-generated");
    for seed in 0..100 {
        compare(&folder, &levels, &format!("input {seed}"), &generated(seed));
    }
}

#[test]
fn limits() {
    let Some(levels) = levels() else { return };
    let folder = Folder::new("levels-limits");
    for columns in [1, 4, 8] {
        compare(
            &folder,
            &levels,
            "an overfull pending store",
            &overfull(columns),
        );
    }
    for input in ["", "\n", "V", "V\n\n", "M\nO,9,1,0,0,1,0\nL\n"] {
        compare(&folder, &levels, input, input.as_bytes());
    }
}

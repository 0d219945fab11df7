//! The commands of the program `mouldgrey`: what they print, their exit status, and what they leave in the file.

mod common;

use common::{Folder, fed, program};
use mouldgrey::{Table, check_image, image_text};
use std::fs;
use std::io::{BufRead, BufReader, Write};
use std::path::{Path, PathBuf};
use std::process::{Command, Output, Stdio};

/// Exit status, standard output and standard error.
fn shown(output: Output) -> (i32, String, String) {
    let text = |bytes| String::from_utf8(bytes).expect("UTF-8");
    let status = output.status.code().expect("no signal");
    (status, text(output.stdout), text(output.stderr))
}

fn run(program: &mut Command) -> (i32, String, String) {
    shown(program.output().expect("the program runs"))
}

/// The exit status, and whether standard error has this text and standard output nothing.
fn fails(program: &mut Command, status: i32, text: &str) {
    let (found, printed, error) = run(program);
    assert_eq!((found, printed.as_str()), (status, ""), "{error}");
    assert!(error.contains(text), "{error}");
}

const LINES: &str =
    "O,4,2,3,1,100,0\nI,7,1,160,10\nI,7,2,148,10\nM\nI,7,1,163,12\nR,7,2\nM\nI,8,1,1,12\n";

/// A file with a table of three rows, two of them dead, a staged record, and a text.
fn example(folder: &Folder) -> PathBuf {
    let (file, text) = (folder.path("table.mg"), folder.path("text"));
    fs::write(&text, "levels of \u{fc}nits\n").expect("a text");
    let mut apply = program("apply", &file);
    let output = fed(folder, apply.arg("--text").arg(text), LINES.as_bytes());
    assert_eq!(
        shown(output),
        (0, "M,0,1,0\nM,0,1,0\n".into(), String::new())
    );
    file
}

/// The files of a folder whose names begin with a dot.
fn temporary_files(file: &Path) -> usize {
    let entries = fs::read_dir(file.parent().expect("a folder")).expect("a folder");
    let names = entries.map(|entry| entry.expect("an entry").file_name());
    names
        .filter(|name| name.to_string_lossy().starts_with('.'))
        .count()
}

#[test]
fn checks() {
    let folder = Folder::new("tool-checks");
    let file = example(&folder);
    let (status, printed, _) = run(&mut program("check", &file));
    assert_eq!(
        (status, printed),
        (0, format!("{}: sound\n", file.display()))
    );
    let mut bytes = fs::read(&file).expect("the file");
    bytes[100] ^= 1;
    fs::write(&file, &bytes).expect("damage");
    for command in ["check", "info", "list", "apply"] {
        fails(
            &mut program(command, &file),
            1,
            "refused 19: words that are no image",
        );
    }
    fails(program("find", &file).args(["7", "1"]), 1, "refused 19");
    fails(program("grow", &file).arg("200"), 1, "refused 19");
    assert_eq!(fs::read(&file).expect("the file"), bytes);
    fails(
        &mut program("check", &folder.path("missing")),
        2,
        "No such file",
    );
}

#[test]
fn numbers_of_a_file() {
    let folder = Folder::new("tool-info");
    let file = example(&folder);
    let (status, printed, _) = run(&mut program("info", &file));
    let expected = "\
columns: 4
keys: 2
sort column: 3
rule: 1
capacity: 100
rows: 3
live rows: 1
dead rows: 2
sort entries: 2
pending words: 6
generation: 0
largest sort value: 12
text bytes: 17
text: \"levels of \u{fc}nits\\n\"
file bytes: 172
";
    assert_eq!(status, 0);
    let checksum = printed.strip_prefix(expected).expect(&printed);
    let bytes = fs::read(&file).expect("the file");
    let last = u32::from_le_bytes(bytes[168..].try_into().expect("four bytes"));
    assert_eq!(checksum, format!("checksum: {last:08x}\n"));
}

#[test]
fn listings_and_rows() {
    let folder = Folder::new("tool-lists");
    let file = example(&folder);
    let old = "T,4,2,3,1,0\nD,7,1,163,12\n";
    let new = "U,4,2,3,1,0,3\nD,2,7,1,163,12\n";
    assert_eq!(run(&mut program("list", &file)).1, old);
    assert_eq!(run(program("list", &file).arg("--numbered")).1, new);
    let find = |key: &[&str]| run(program("find", &file).args(key));
    assert_eq!(
        find(&["7", "1"]),
        (0, "D,7,1,163,12\n".into(), String::new())
    );
    fails(
        program("find", &file).args(["7", "2"]),
        1,
        "no live row has this key",
    );
    fails(
        program("find", &file).arg("7"),
        1,
        "refused 3: wrong number of cells",
    );
    fails(
        program("find", &file).args(["7", "01"]),
        2,
        "01 is no decimal",
    );
}

#[test]
fn texts_stay_until_they_are_set() {
    let folder = Folder::new("tool-texts");
    let file = example(&folder);
    let text = || image_text(&fs::read(&file).expect("the file")).expect("an image");
    let before = text();
    fed(&folder, &mut program("apply", &file), b"M\n");
    assert_eq!(text(), before);
    fed(&folder, &mut program("apply", &file), b"O,1,1,0,0,9,0\n");
    assert_eq!(text(), before);
    let other = folder.path("other");
    fs::write(&other, [0xff, 0, 1]).expect("a text");
    fed(
        &folder,
        program("apply", &file).arg("--text").arg(&other),
        b"",
    );
    assert_eq!(text(), [0xff, 0, 1]);
    let (_, printed, _) = run(&mut program("info", &file));
    assert!(printed.contains("text: \"\\xff\\x00\\x01\"\n"), "{printed}");
    fs::write(&other, [b'x'; 4097]).expect("a text");
    let bytes = fs::read(&file).expect("the file");
    let mut apply = program("apply", &file);
    fails(apply.arg("--text").arg(&other), 1, "refused 21");
    assert_eq!(fs::read(&file).expect("the file"), bytes);
}

#[test]
fn staged_records_are_saved() {
    let folder = Folder::new("tool-staged");
    let file = example(&folder);
    let output = fed(&folder, &mut program("apply", &file), b"M\nL\n");
    assert_eq!(
        shown(output).1,
        "M,0,1,0\nT,4,2,3,1,0\nD,7,1,163,12\nD,8,1,1,12\n"
    );
}

/// A program at the other end of two pipes gets the answer to a line before it sends the next one.
#[test]
fn answers_come_line_by_line() {
    let folder = Folder::new("tool-pipes");
    let mut apply = program("apply", &folder.path("table.mg"));
    let apply = apply.stdin(Stdio::piped()).stdout(Stdio::piped());
    let mut child = apply.spawn().expect("the program runs");
    let mut input = child.stdin.take().expect("a pipe");
    let mut output = BufReader::new(child.stdout.take().expect("a pipe"));
    for (line, expected) in [
        ("V", "X,1\n"),
        ("O,1,1,0,0,5,3\nV", "V,3,0\n"),
        ("M", "M,0,0,0\n"),
    ] {
        writeln!(input, "{line}").expect("the program reads");
        let mut answer = String::new();
        output.read_line(&mut answer).expect("an answer");
        assert_eq!(answer, expected);
    }
    drop(input);
    assert!(child.wait().expect("a child").success());
}

#[test]
fn large_tables() {
    let folder = Folder::new("tool-large");
    let file = folder.path("table.mg");
    let mut lines = "O,2,1,1,1,65536,0\n".to_string();
    for key in 0..65_536 {
        lines += &format!("I,{key},{}\n", key / 100);
        if key % 8192 == 8191 {
            lines += "M\n";
        }
    }
    let output = fed(&folder, &mut program("apply", &file), lines.as_bytes());
    assert_eq!(shown(output), (0, "M,0,1,0\n".repeat(8), String::new()));
    let (_, printed, _) = run(program("find", &file).arg("65535"));
    assert_eq!(printed, "D,65535,655\n");
    let output = fed(
        &folder,
        &mut program("apply", &file),
        b"O,1,1,0,0,65537,0\n",
    );
    assert_eq!(shown(output).1, "X,11\n");
}

#[test]
fn growth() {
    let folder = Folder::new("tool-growth");
    let file = folder.path("table.mg");
    let text = folder.path("text");
    fs::write(&text, "kept").expect("a text");
    let lines = b"O,2,1,1,1,2,7\nI,1,1\nI,2,1\nI,3,1\nM\n";
    let mut apply = program("apply", &file);
    let output = fed(&folder, apply.arg("--text").arg(&text), lines);
    assert_eq!(shown(output).1, "M,8,1,2\n");
    assert_eq!(
        run(program("grow", &file).arg("3")),
        (0, String::new(), String::new())
    );
    let bytes = fs::read(&file).expect("the file");
    assert_eq!(image_text(&bytes).expect("an image"), b"kept");
    let table = Table::load(&bytes, 0).expect("a table");
    assert_eq!(
        (table.header().capacity, table.version().generation),
        (3, 7)
    );
    let output = fed(&folder, &mut program("apply", &file), b"I,3,1\nM\nV\n");
    assert_eq!(shown(output).1, "M,0,1,0\nV,7,3\n");
    let bytes = fs::read(&file).expect("the file");
    for (capacity, status) in [("2", 1), ("65537", 1), ("0", 2), ("x", 2)] {
        fails(program("grow", &file).arg(capacity), status, "");
    }
    assert_eq!(fs::read(&file).expect("the file"), bytes);
    fails(
        program("grow", &folder.path("missing")).arg("5"),
        2,
        "No such file",
    );
}

#[test]
fn nothing_is_saved_without_a_table() {
    let folder = Folder::new("tool-none");
    let file = folder.path("table.mg");
    let output = fed(&folder, &mut program("apply", &file), b"V\nO,9,1,0,0,1,0\n");
    let (status, printed, error) = shown(output);
    assert_eq!((status, printed.as_str()), (0, "X,1\nX,1\n"));
    assert!(error.contains("there is no table"), "{error}");
    assert!(!file.exists());
}

#[test]
fn usage() {
    let with = |arguments: &[&str]| {
        let mut program = Command::new(env!("CARGO_BIN_EXE_mouldgrey"));
        program.args(arguments);
        program
    };
    let (status, printed, _) = run(&mut with(&["--help"]));
    assert!(status == 0 && printed.starts_with("usage: mouldgrey"));
    assert_eq!(run(&mut with(&["check", "--help"])).1, printed);
    let (status, printed, _) = run(&mut with(&["--version"]));
    assert!(
        status == 0 && printed.starts_with("mouldgrey 0."),
        "{printed}"
    );
    let wrong: [&[&str]; 9] = [
        &[],
        &["look"],
        &["check"],
        &["check", "a", "b"],
        &["list", "a", "--all"],
        &["find", "a"],
        &["apply", "a", "--text"],
        &["grow", "a"],
        &["--version", "a"],
    ];
    for arguments in wrong {
        fails(&mut with(arguments), 2, "mouldgrey --help prints a summary");
    }
}

/// Writes that fail: nothing is saved, and no temporary file is left.
#[test]
fn failing_files() {
    let folder = Folder::new("tool-failing");
    let file = example(&folder);
    let before = fs::read(&file).expect("the file");
    let opening = b"O,1,1,0,0,5,0\n";
    let missing = folder.path("missing/table.mg");
    for place in [
        &*missing,
        Path::new("/proc/table.mg"),
        Path::new("/dev/null"),
    ] {
        let (status, ..) = shown(fed(&folder, &mut program("apply", place), opening));
        assert_eq!(status, 2, "{}", place.display());
    }
    // Answers that cannot be printed.
    let full = fs::File::options()
        .write(true)
        .open("/dev/full")
        .expect("/dev/full");
    fs::write(folder.path("input"), "V\nC\n").expect("an input");
    let input = fs::File::open(folder.path("input")).expect("the input");
    let mut apply = program("apply", &file);
    let output = apply
        .stdin(input)
        .stdout(full)
        .output()
        .expect("the program runs");
    let (status, _, error) = shown(output);
    assert_eq!(status, 2);
    assert!(error.contains("standard output: No space left"), "{error}");
    assert_eq!(fs::read(&file).expect("the file"), before);
    assert_eq!(temporary_files(&file), 0);
    assert!(check_image(&before).is_ok());
}

//! `mouldgrey apply` that is killed, or whose writes fail: the file has the old image or the new one, never anything else, and a
//! temporary file that is left is removed and reported by the next run.

mod common;

use common::{Folder, fed, program};
use mouldgrey::{Opening, Rule, Table, check_image};
use std::fs::{self, File};
use std::os::unix::fs::PermissionsExt;
use std::os::unix::process::ExitStatusExt;
use std::path::{Path, PathBuf};
use std::process::{Command, ExitStatus, Stdio};
use std::thread::sleep;
use std::time::Duration;

/// How many runs are killed before they end.
const KILLS: u32 = 500;
const ROWS: u32 = 2048;
const TEXT: &str = "modem, side, level, stamp";
const SIGKILL: i32 = 9;
const SIGXFSZ: i32 = 25;

/// A file with the image of a table of some 32 KiB.
fn large(folder: &Folder) -> PathBuf {
    let opening = Opening {
        columns: 4,
        keys: 2,
        sort: 3,
        rule: Rule::TakeNew,
        capacity: 8192,
        generation: 0,
    };
    let mut table = Table::new(&opening, 6 * ROWS as usize).expect("a table");
    for row in 0..ROWS {
        table.stage_insert(&[row, 1, row, 0]).expect("room");
    }
    table.merge().expect("a merge");
    let file = folder.path("table.mg");
    fs::write(&file, table.save(TEXT).expect("an image")).expect("a file");
    file
}

/// Lines that correct a row, and stage a row for a later run.
fn lines(round: u32) -> String {
    let (row, stamp) = (round % ROWS, round + 1);
    format!(
        "I,{row},1,{},{stamp}\nM\nI,0,2,{stamp},{stamp}\n",
        ROWS + round
    )
}

/// The image after these lines.
fn after(image: &[u8], round: u32) -> Vec<u8> {
    let mut table = Table::load(image, 1000).expect("an image");
    let (row, stamp) = (round % ROWS, round + 1);
    let cells = [row, 1, ROWS + round, stamp];
    table.stage_insert(&cells).expect("room");
    table.merge().expect("a merge");
    table.stage_insert(&[0, 2, stamp, stamp]).expect("room");
    table.save(TEXT).expect("an image")
}

/// The temporary files beside a file.
fn temporary_files(file: &Path) -> usize {
    let entries = fs::read_dir(file.parent().expect("a folder")).expect("a folder");
    let names = entries.map(|entry| entry.expect("an entry").file_name());
    names
        .filter(|name| name.to_string_lossy().ends_with(".tmp"))
        .count()
}

/// Runs apply with these lines and kills it after a time, if it has not ended by then.
fn apply_for(folder: &Folder, file: &Path, round: u32, time: Duration) -> ExitStatus {
    let input = folder.path("input");
    fs::write(&input, lines(round)).expect("an input");
    let mut child = program("apply", file)
        .stdin(File::open(&input).expect("the input"))
        .stdout(Stdio::null())
        .stderr(Stdio::null())
        .spawn()
        .expect("the program runs");
    sleep(time);
    child.kill().expect("a child that was not waited for");
    child.wait().expect("a child")
}

/// What became of the runs.
#[derive(Debug, Default)]
struct Counts {
    ended: u32,
    killed: u32,
    killed_after_saving: u32,
    killed_with_temporary_file: u32,
}

/// Checks what a run has left, given the image before it and the one that it was to save.
fn check_run(
    file: &Path,
    status: ExitStatus,
    old: &[u8],
    new: &[u8],
    counts: &mut Counts,
) -> Vec<u8> {
    let found = fs::read(file).expect("the file");
    let left = temporary_files(file) > 0;
    assert!(found == old || found == new, "neither old nor new");
    if status.success() {
        assert!(found == new, "a run that ended with status 0 has not saved");
        assert!(!left, "a run that ended has left a temporary file");
        counts.ended += 1;
    } else {
        assert_eq!(status.signal(), Some(SIGKILL));
        counts.killed += 1;
        counts.killed_after_saving += u32::from(found == new);
        counts.killed_with_temporary_file += u32::from(left);
    }
    found
}

#[test]
fn killed_runs() {
    let folder = Folder::new("crash-kills");
    let file = large(&folder);
    let mut image = fs::read(&file).expect("the file");
    let mut counts = Counts::default();
    // The longest time until a run is killed. It follows the time that runs take: about one in five ends before.
    let mut time = Duration::from_millis(20);
    let mut round = 0;
    while counts.killed < KILLS {
        let new = after(&image, round);
        // Times are spread evenly; the golden ratio leaves no gap.
        let part = f64::from(round) * 0.618_033_988_749_895 % 1.0;
        let status = apply_for(&folder, &file, round, time.mul_f64(part));
        image = check_run(&file, status, &image, &new, &mut counts);
        time = time.mul_f64(if status.success() { 0.98 } else { 1.005 });
        round += 1;
    }
    println!("{counts:?}");
    let while_saving = counts.killed_after_saving + counts.killed_with_temporary_file;
    assert!(
        while_saving > 0 && while_saving < KILLS,
        "no run was killed at the right moment"
    );
    let new = after(&image, round);
    let output = fed(
        &folder,
        &mut program("apply", &file),
        lines(round).as_bytes(),
    );
    check_run(&file, output.status, &image, &new, &mut counts);
}

/// A temporary file that a run has left is no image that anybody reads, and the next run reports it.
#[test]
fn left_files_are_reported() {
    let folder = Folder::new("crash-left");
    let file = large(&folder);
    let image = fs::read(&file).expect("the file");
    fs::write(folder.path(".table.mg.4294967295.tmp"), &image[..1000]).expect("a file");
    let output = program("check", &file).output().expect("the program runs");
    assert!(output.status.success());
    assert_eq!(temporary_files(&file), 1);
    let output = fed(&folder, &mut program("apply", &file), lines(0).as_bytes());
    let error = String::from_utf8(output.stderr).expect("UTF-8");
    assert!(output.status.success());
    assert!(
        error.contains("an earlier run was stopped before it had saved"),
        "{error}"
    );
    assert_eq!(temporary_files(&file), 0);
    assert!(fs::read(&file).expect("the file") == after(&image, 0));
}

/// Runs apply under a shell that lets no file grow beyond some 10 KiB, after a shell command.
fn apply_limited(folder: &Folder, file: &Path, command: &str) -> (ExitStatus, String) {
    let script = format!("{command}; ulimit -c 0; ulimit -f 10; exec \"$0\" apply \"$1\"");
    let mut shell = Command::new("sh");
    shell
        .args(["-c", &script, env!("CARGO_BIN_EXE_mouldgrey")])
        .arg(file);
    let output = fed(folder, &mut shell, lines(0).as_bytes());
    (
        output.status,
        String::from_utf8(output.stderr).expect("UTF-8"),
    )
}

#[test]
fn files_that_cannot_grow() {
    let folder = Folder::new("crash-limit");
    let file = large(&folder);
    let image = fs::read(&file).expect("the file");
    // The write fails.
    let (status, error) = apply_limited(&folder, &file, "trap '' XFSZ");
    assert_eq!(status.code(), Some(2), "{error}");
    assert!(error.contains("File too large"), "{error}");
    assert!(fs::read(&file).expect("the file") == image);
    assert_eq!(temporary_files(&file), 0);
    // The system ends the program in the write.
    let (status, _) = apply_limited(&folder, &file, ":");
    assert_eq!(status.signal(), Some(SIGXFSZ));
    assert!(fs::read(&file).expect("the file") == image);
    assert_eq!(temporary_files(&file), 1);
    let output = fed(&folder, &mut program("apply", &file), lines(0).as_bytes());
    assert!(output.status.success());
    assert!(fs::read(&file).expect("the file") == after(&image, 0));
    assert_eq!(temporary_files(&file), 0);
}

#[test]
fn a_folder_without_permission() {
    let folder = Folder::new("crash-permission");
    let file = large(&folder);
    let image = fs::read(&file).expect("the file");
    let input = folder.path("input");
    fs::write(&input, lines(0)).expect("an input");
    let place = file.parent().expect("a folder");
    let permit = |mode| {
        fs::set_permissions(place, fs::Permissions::from_mode(mode)).expect("a mode");
    };
    permit(0o555);
    if File::create(folder.path("probe")).is_ok() {
        eprintln!("skipped: this user may write everywhere");
        return;
    }
    let input = File::open(&input).expect("the input");
    let output = program("apply", &file).stdin(input).output();
    permit(0o755);
    assert_eq!(output.expect("the program runs").status.code(), Some(2));
    assert!(fs::read(&file).expect("the file") == image);
    assert_eq!(temporary_files(&file), 0);
}

/// Runs at the same time: the last to rename wins, and the file is never a mixture.
#[test]
fn runs_at_the_same_time() {
    let folder = Folder::new("crash-together");
    let file = large(&folder);
    let image = fs::read(&file).expect("the file");
    let mut children: Vec<_> = (0..8)
        .map(|round| {
            let input = folder.path(&format!("input-{round}"));
            fs::write(&input, lines(round)).expect("an input");
            let input = File::open(&input).expect("the input");
            let mut apply = program("apply", &file);
            apply
                .stdin(input)
                .stdout(Stdio::null())
                .spawn()
                .expect("the program runs")
        })
        .collect();
    while children
        .iter_mut()
        .any(|it| it.try_wait().expect("a child").is_none())
    {
        assert!(check_image(&fs::read(&file).expect("the file")).is_ok());
    }
    for mut child in children {
        assert!(child.wait().expect("a child").success());
    }
    assert!(fs::read(&file).expect("the file") != image);
    assert_eq!(temporary_files(&file), 0);
}

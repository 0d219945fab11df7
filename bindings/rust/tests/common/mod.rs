//! What the tests of the program share.

use std::fs::{self, File};
use std::path::{Path, PathBuf};
use std::process::{self, Command, Output};

/// A folder of its own for a test, removed at its end.
pub struct Folder(PathBuf);

impl Folder {
    pub fn new(test: &str) -> Folder {
        let name = format!("mouldgrey-{test}-{}", process::id());
        let folder = Path::new(env!("CARGO_TARGET_TMPDIR")).join(name);
        fs::create_dir(&folder).expect("a new folder");
        Folder(folder)
    }

    pub fn path(&self, name: &str) -> PathBuf {
        self.0.join(name)
    }
}

impl Drop for Folder {
    fn drop(&mut self) {
        let _ = fs::remove_dir_all(&self.0);
    }
}

/// The program, with a command and a file as its first arguments.
pub fn program(command: &str, file: &Path) -> Command {
    let mut program = Command::new(env!("CARGO_BIN_EXE_mouldgrey"));
    program.arg(command).arg(file);
    program
}

/// What a program prints if these bytes are its input. They are read from a file of the folder.
pub fn fed(folder: &Folder, program: &mut Command, input: &[u8]) -> Output {
    let file = folder.path("input");
    fs::write(&file, input).expect("the input");
    let input = File::open(&file).expect("the input");
    program.stdin(input).output().expect("the program runs")
}

//! The program `mouldgrey`: tables in files, each file the image of a table. docs/GUIDE.md describes it.

#[path = "mouldgrey/arguments.rs"]
mod arguments;
#[path = "mouldgrey/commands.rs"]
mod commands;
#[path = "mouldgrey/failure.rs"]
mod failure;
#[path = "mouldgrey/file.rs"]
mod file;
#[path = "mouldgrey/lines.rs"]
mod lines;
#[path = "mouldgrey/session.rs"]
mod session;

use arguments::Command;
use std::env;
use std::ffi::OsString;
use std::process::ExitCode;

fn main() -> ExitCode {
    let arguments: Vec<OsString> = env::args_os().skip(1).collect();
    match Command::parse(&arguments).and_then(commands::run) {
        Ok(()) => ExitCode::SUCCESS,
        Err(failure) => {
            eprintln!("mouldgrey: {failure}");
            failure.status()
        }
    }
}

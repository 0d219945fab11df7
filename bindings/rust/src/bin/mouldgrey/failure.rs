//! Why the program ends without having done its work.

use mouldgrey::Error;
use std::fmt;
use std::io;
use std::path::Path;
use std::process::ExitCode;

/// A failure, with the name of the file or stream that it is about.
#[derive(Debug)]
pub enum Failure {
    /// The library refuses the file's bytes, or what is to be done with its table.
    Refused(String, Error),
    /// No live row of the file has the key.
    NoRow(String),
    /// The arguments are none of the program's.
    Usage(String),
    /// A file or stream cannot be read or written.
    Io(String, io::Error),
}

impl Failure {
    /// A refusal of a file.
    pub fn refused(file: &Path, why: impl Into<Error>) -> Failure {
        Failure::Refused(file.display().to_string(), why.into())
    }

    /// A file that cannot be read or written.
    pub fn io(file: &Path, why: io::Error) -> Failure {
        Failure::Io(file.display().to_string(), why)
    }

    /// An answer that cannot be printed.
    pub fn output(why: io::Error) -> Failure {
        Failure::Io("standard output".to_string(), why)
    }

    /// The program's exit status: 1 refused or damaged, 2 usage, reading or writing.
    pub fn status(&self) -> ExitCode {
        match self {
            Failure::Refused(..) | Failure::NoRow(_) => ExitCode::from(1),
            Failure::Usage(_) | Failure::Io(..) => ExitCode::from(2),
        }
    }
}

impl fmt::Display for Failure {
    fn fmt(&self, f: &mut fmt::Formatter<'_>) -> fmt::Result {
        match self {
            Failure::Refused(name, why) => write!(f, "{name}: {why}"),
            Failure::NoRow(name) => write!(f, "{name}: no live row has this key"),
            Failure::Usage(why) => write!(f, "{why}; mouldgrey --help prints a summary"),
            Failure::Io(name, why) => write!(f, "{name}: {why}"),
        }
    }
}

//! The program's arguments.

use crate::failure::Failure;
use crate::lines::decimal;
use std::ffi::OsString;
use std::os::unix::ffi::OsStrExt;
use std::path::PathBuf;

/// What `--help` prints.
pub const HELP: &str = "\
usage: mouldgrey COMMAND FILE ...
FILE holds the image of a table.

  check FILE                 checks that FILE is the image of a sound table
  info FILE                  prints its numbers, its text, its size and its checksum
  list FILE [--numbered]     prints a listing of its live rows, with row numbers if wanted
  find FILE KEY...           prints the live row with a key, one number for each key column
  apply FILE [--text FILE2]  applies the lines of standard input, prints their answers and saves the table;
                             FILE need not exist; FILE2 has the text that is to be in the image
  grow FILE CAPACITY         gives the table another capacity
  --help, --version          print this summary, the version

The lines of apply are those of the program levels (docs/LEVELS.md), with capacities up to 65536.
Exit status: 0 done; 1 FILE or the command is refused, or no row has the key; 2 wrong arguments, or a file
cannot be read or written. FILE is replaced as a whole, and only if the status is 0 or standard error shows it.
";

/// A command with its arguments.
#[derive(Debug, PartialEq, Eq)]
pub enum Command {
    Help,
    Version,
    Check(PathBuf),
    Info(PathBuf),
    List {
        file: PathBuf,
        numbered: bool,
    },
    Find {
        file: PathBuf,
        key: Vec<u32>,
    },
    Apply {
        file: PathBuf,
        text: Option<PathBuf>,
    },
    Grow {
        file: PathBuf,
        capacity: u32,
    },
}

impl Command {
    /// The command that these arguments are, the program's own name left out.
    pub fn parse(arguments: &[OsString]) -> Result<Command, Failure> {
        if arguments.iter().any(|it| it == "--help" || it == "-h") {
            return Ok(Command::Help);
        }
        let missing = || Failure::Usage("a command is missing".to_string());
        let (name, rest) = arguments.split_first().ok_or_else(missing)?;
        let name = name.to_string_lossy();
        match (&*name, rest) {
            ("--version", []) => Ok(Command::Version),
            ("check", [file]) => Ok(Command::Check(file.into())),
            ("info", [file]) => Ok(Command::Info(file.into())),
            ("list", _) => list(rest),
            ("find", [file, key @ ..]) if !key.is_empty() => Ok(Command::Find {
                file: file.into(),
                key: key.iter().map(number).collect::<Result<_, _>>()?,
            }),
            ("apply", _) => apply(rest),
            ("grow", [file, capacity]) => grow(file, capacity),
            ("--version" | "check" | "info" | "find" | "grow", _) => Err(wrong(&name)),
            _ => Err(Failure::Usage(format!("{name} is no command"))),
        }
    }
}

fn list(arguments: &[OsString]) -> Result<Command, Failure> {
    let (file, numbered) = match arguments {
        [file] => (file, false),
        [file, option] | [option, file] if option == "--numbered" => (file, true),
        _ => return Err(wrong("list")),
    };
    let file = file.into();
    Ok(Command::List { file, numbered })
}

fn apply(arguments: &[OsString]) -> Result<Command, Failure> {
    let (file, text) = match arguments {
        [file] => (file, None),
        [file, option, text] | [option, text, file] if option == "--text" => (file, Some(text)),
        _ => return Err(wrong("apply")),
    };
    Ok(Command::Apply {
        file: file.into(),
        text: text.map(PathBuf::from),
    })
}

fn grow(file: &OsString, capacity: &OsString) -> Result<Command, Failure> {
    match number(capacity)? {
        // To the library 0 is the capacity that the table has.
        0 => Err(Failure::Usage("a capacity is at least 1".to_string())),
        capacity => Ok(Command::Grow {
            file: file.into(),
            capacity,
        }),
    }
}

/// An argument as a number.
fn number(argument: &OsString) -> Result<u32, Failure> {
    decimal(argument.as_bytes()).ok_or_else(|| {
        let text = argument.to_string_lossy();
        Failure::Usage(format!("{text} is no decimal from 0 to 4294967295"))
    })
}

fn wrong(name: &str) -> Failure {
    Failure::Usage(format!("wrong arguments for {name}"))
}

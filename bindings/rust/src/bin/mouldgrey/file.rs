//! Files: read as a whole, and replaced as a whole or not at all.

use crate::failure::Failure;
use crate::lines::decimal;
use std::ffi::{OsStr, OsString};
use std::fs::{self, File};
use std::io::{self, ErrorKind, Write};
use std::os::unix::ffi::{OsStrExt, OsStringExt};
use std::path::{Path, PathBuf};
use std::process;

/// All bytes of a file.
pub fn read(path: &Path) -> Result<Vec<u8>, Failure> {
    fs::read(path).map_err(|why| Failure::io(path, why))
}

/// All bytes of a file that is to be replaced. Devices and pipes are not.
pub fn read_regular(path: &Path) -> Result<Vec<u8>, Failure> {
    let found = fs::metadata(path).map_err(|why| Failure::io(path, why))?;
    if !found.is_file() {
        let why = io::Error::new(ErrorKind::InvalidInput, "not a regular file");
        return Err(Failure::io(path, why));
    }
    read(path)
}

/// The same, or nothing if there is no such file.
pub fn read_if_there(path: &Path) -> Result<Option<Vec<u8>>, Failure> {
    match fs::metadata(path) {
        Err(why) if why.kind() == ErrorKind::NotFound => Ok(None),
        _ => read_regular(path).map(Some),
    }
}

/// Replaces a file, or makes it: at every moment, also after a crash, it has the old bytes or the new ones. The new ones are written
/// to a temporary file beside it, which is synced and then renamed; then the folder is synced.
pub fn replace(path: &Path, bytes: &[u8]) -> Result<(), Failure> {
    // A symbolic link stays, and the file that it leads to is replaced.
    let target = fs::canonicalize(path).unwrap_or_else(|_| path.to_path_buf());
    let place = Place::of(&target).map_err(|why| Failure::io(path, why))?;
    place.remove_leftovers();
    let replaced = place.replace(bytes, &mut |_| Ok(()));
    replaced.map_err(|why| Failure::io(path, why))
}

/// The steps of a replacement, in order.
#[derive(Clone, Copy, Debug, PartialEq, Eq)]
enum Step {
    Create,
    Write,
    SyncFile,
    Rename,
    SyncFolder,
}

/// Called before each step. A test makes steps fail with it.
type Before<'a> = &'a mut dyn FnMut(Step) -> io::Result<()>;

/// A file that is to be replaced.
struct Place {
    target: PathBuf,
    folder: PathBuf,
    /// What the names of its temporary files begin with. The process number and `.tmp` follow.
    prefix: Vec<u8>,
}

impl Place {
    fn of(target: &Path) -> io::Result<Place> {
        let nameless = || io::Error::new(ErrorKind::InvalidInput, "not the name of a file");
        let name = target.file_name().ok_or_else(nameless)?;
        let folder = match target.parent() {
            Some(folder) if !folder.as_os_str().is_empty() => folder,
            _ => Path::new("."),
        };
        Ok(Place {
            target: target.to_path_buf(),
            folder: folder.to_path_buf(),
            prefix: [b".", name.as_bytes(), b"."].concat(),
        })
    }

    /// The temporary file of this process. Two processes never write the same one.
    fn temporary(&self) -> PathBuf {
        let end = format!("{}.tmp", process::id());
        let name = [&self.prefix[..], end.as_bytes()].concat();
        self.folder.join(OsString::from_vec(name))
    }

    fn replace(&self, bytes: &[u8], before: Before) -> io::Result<()> {
        let temporary = self.temporary();
        before(Step::Create)?;
        let file = File::create_new(&temporary)?;
        let renamed = self.fill_and_rename(file, bytes, before);
        if renamed.is_err() {
            // It may be gone already; what counts is the first error.
            let _ = fs::remove_file(&temporary);
        }
        renamed?;
        self.sync_folder(before).map_err(|why| {
            let text = format!("replaced, but its folder was not synced: {why}");
            io::Error::new(why.kind(), text)
        })
    }

    fn fill_and_rename(&self, mut file: File, bytes: &[u8], before: Before) -> io::Result<()> {
        if let Ok(old) = fs::metadata(&self.target) {
            file.set_permissions(old.permissions())?;
        }
        before(Step::Write)?;
        file.write_all(bytes)?;
        before(Step::SyncFile)?;
        file.sync_all()?;
        before(Step::Rename)?;
        fs::rename(self.temporary(), &self.target)
    }

    fn sync_folder(&self, before: Before) -> io::Result<()> {
        before(Step::SyncFolder)?;
        File::open(&self.folder)?.sync_all()
    }

    /// Removes temporary files that runs have left which were killed, and reports each: what such a run was to save is not saved.
    fn remove_leftovers(&self) {
        for left in self.leftovers() {
            if fs::remove_file(&left).is_ok() {
                let name = self.target.display();
                eprintln!(
                    "mouldgrey: {name}: an earlier run was stopped before it had saved its table"
                );
            }
        }
    }

    /// Temporary files of this file whose process no longer runs.
    fn leftovers(&self) -> Vec<PathBuf> {
        let Ok(entries) = fs::read_dir(&self.folder) else {
            return Vec::new();
        };
        let left = entries
            .flatten()
            .filter(|entry| self.is_left(&entry.file_name()));
        left.map(|entry| entry.path()).collect()
    }

    fn is_left(&self, name: &OsStr) -> bool {
        let middle = name.as_bytes().strip_prefix(&self.prefix[..]);
        let process = middle.and_then(|rest| rest.strip_suffix(b".tmp"));
        process.and_then(decimal).is_some_and(has_ended)
    }
}

/// Whether the process with this number has ended. This process has no temporary file yet, so one of its number was left by another.
fn has_ended(number: u32) -> bool {
    let runs = Path::new("/proc").join(number.to_string()).exists();
    !runs || number == process::id()
}

#[cfg(test)]
mod tests {
    use super::*;
    use std::panic::{AssertUnwindSafe, catch_unwind};

    const STEPS: [Step; 5] = [
        Step::Create,
        Step::Write,
        Step::SyncFile,
        Step::Rename,
        Step::SyncFolder,
    ];

    /// A file with the bytes `old`, in a folder of its own that is removed at the end of a test.
    struct Folder(PathBuf);

    impl Folder {
        fn new(test: &str) -> Folder {
            let name = format!("mouldgrey-{test}-{}", process::id());
            let folder = std::env::temp_dir().join(name);
            fs::create_dir(&folder).expect("a new folder");
            fs::write(folder.join("file"), "old").expect("a file");
            Folder(folder)
        }

        fn place(&self) -> Place {
            Place::of(&self.0.join("file")).expect("a name")
        }

        fn content(&self) -> String {
            fs::read_to_string(self.0.join("file")).expect("the file")
        }

        fn files(&self) -> usize {
            fs::read_dir(&self.0).expect("the folder").count()
        }
    }

    impl Drop for Folder {
        fn drop(&mut self) {
            let _ = fs::remove_dir_all(&self.0);
        }
    }

    /// What is in the file if the work ends before a step.
    fn expected(step: Step) -> &'static str {
        if step == Step::SyncFolder {
            "new"
        } else {
            "old"
        }
    }

    #[test]
    fn a_replacement() {
        let folder = Folder::new("replacement");
        replace(&folder.0.join("file"), b"new").expect("no failure");
        assert_eq!((folder.content().as_str(), folder.files()), ("new", 1));
        replace(&folder.0.join("other"), b"other").expect("no failure");
        assert_eq!(folder.files(), 2);
    }

    /// No step that fails leaves anything but the old bytes or the new ones, or a temporary file.
    #[test]
    fn steps_that_fail() {
        for failing in STEPS {
            let folder = Folder::new(&format!("failing-{failing:?}"));
            let mut before = |step| match step == failing {
                true => Err(io::Error::from_raw_os_error(5)),
                false => Ok(()),
            };
            let replaced = folder.place().replace(b"new", &mut before);
            let why = replaced.expect_err("an error").to_string();
            assert!(why.contains("os error 5"), "{why}");
            assert_eq!(folder.content(), expected(failing), "{failing:?}");
            assert_eq!(folder.files(), 1, "{failing:?}");
        }
    }

    /// A process that ends before a step leaves the old bytes or the new ones; the next run removes its temporary file.
    #[test]
    fn runs_that_end_before_a_step() {
        for last in STEPS {
            let folder = Folder::new(&format!("ending-{last:?}"));
            let mut before = |step| match step == last {
                true => panic!("the run ends here"),
                false => Ok(()),
            };
            let ended = catch_unwind(AssertUnwindSafe(|| {
                folder.place().replace(b"new", &mut before)
            }));
            assert!(ended.is_err());
            assert_eq!(folder.content(), expected(last), "{last:?}");
            let left = folder.files() - 1;
            let between = !matches!(last, Step::Create | Step::SyncFolder);
            assert_eq!(left, usize::from(between), "{last:?}");
            replace(&folder.0.join("file"), b"next").expect("no failure");
            assert_eq!((folder.content().as_str(), folder.files()), ("next", 1));
        }
    }

    /// The temporary file of a process that runs is left alone, and so is a file of another name.
    #[test]
    fn files_of_others() {
        let folder = Folder::new("others");
        for name in [
            ".file.1.tmp",
            ".file.x.tmp",
            ".file.4294967295.tm",
            ".other.4294967295.tmp",
        ] {
            fs::write(folder.0.join(name), "kept").expect("a file");
        }
        fs::write(folder.0.join(".file.4294967295.tmp"), "left").expect("a file");
        replace(&folder.0.join("file"), b"new").expect("no failure");
        assert_eq!(folder.files(), 5);
    }

    #[test]
    fn links_and_permissions_stay() {
        use std::os::unix::fs::{PermissionsExt, symlink};
        let folder = Folder::new("links");
        let (file, link) = (folder.0.join("file"), folder.0.join("link"));
        fs::set_permissions(&file, fs::Permissions::from_mode(0o640)).expect("a mode");
        symlink("file", &link).expect("a link");
        replace(&link, b"new").expect("no failure");
        assert_eq!(folder.content(), "new");
        assert!(fs::symlink_metadata(&link).expect("the link").is_symlink());
        let mode = fs::metadata(&file).expect("the file").permissions().mode();
        assert_eq!(mode & 0o777, 0o640);
    }
}

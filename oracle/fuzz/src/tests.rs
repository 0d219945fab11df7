//! The harness itself: a word outside is noticed, and the call that touched it is named.

use crate::memory::Area;
use crate::session::{Session, Slot};
use crate::{IMAGE_SEEDS, gate, giant, run, watch};
use random::Rng;
use std::ffi::c_uint;
use std::process::{Command, Output};

unsafe extern "C" {
    fn alarm(seconds: c_uint) -> c_uint;
}

fn begin() {
    watch::begin();
    watch::trial(77);
    watch::call("mouldgrey_merge");
}

#[test]
#[ignore = "a process of its own: the test below"]
fn reads_behind() {
    begin();
    let mut area = Area::new(8).expect("memory");
    let laid = area.place(4, true);
    unsafe { laid.at.add(4).read_volatile() };
}

#[test]
#[ignore = "a process of its own: the test below"]
fn writes_before() {
    begin();
    let mut area = Area::new(8).expect("memory");
    let laid = area.place(4, false);
    unsafe { laid.at.sub(1).write_volatile(1) };
}

#[test]
#[ignore = "a process of its own: the test below"]
fn does_not_end() {
    begin();
    unsafe { alarm(1) };
    loop {
        std::hint::spin_loop();
    }
}

/// Runs an ignored test in a process of its own.
fn alone(test: &str) -> Output {
    let own = std::env::current_exe().expect("this program");
    Command::new(own)
        .args(["--ignored", "--exact", &format!("tests::{test}")])
        .output()
        .expect("a process")
}

#[test]
fn a_fault_is_reported() {
    for (test, words) in [
        (
            "reads_behind",
            "touched memory that it was not lent (signal 11)",
        ),
        (
            "writes_before",
            "touched memory that it was not lent (signal 11)",
        ),
        ("does_not_end", "did not end (signal 14)"),
    ] {
        let output = alone(test);
        let printed = String::from_utf8_lossy(&output.stderr);
        assert!(!output.status.success(), "{test}");
        let line = format!(
            "fuzz: mouldgrey_merge {words}: call 1 of the trial of seed 77; once more: oracle fuzz 1 77"
        );
        assert!(printed.contains(&line), "{test}: {printed}");
    }
}

#[test]
fn words_beside_are_looked_at() {
    let mut rng = Rng::new(1);
    for _ in 0..8 {
        let mut session = Session::new().expect("memory");
        let (at, length) = session.write(&mut rng, Slot::Rows, &[1, 2, 3]);
        let is_behind = at.align_offset(4096) != 0;
        unsafe {
            match is_behind {
                true => at.sub(1).write(5),
                false => at.add(length).write(5),
            }
        }
        let closed = session.close("mouldgrey_merge", 0);
        assert_eq!(
            closed,
            Err("mouldgrey_merge has written beside Rows".to_string())
        );
    }
}

#[test]
fn what_is_lent_to_be_read_stays() {
    let mut rng = Rng::new(1);
    for (may_write, number, is_fine) in [(true, 0, true), (true, 3, false), (false, 0, false)] {
        let mut session = Session::new().expect("memory");
        let at = match may_write {
            true => session.write(&mut rng, Slot::Keys, &[1, 2, 3]).0,
            false => session.read(&mut rng, Slot::Keys, &[1, 2, 3]).0.cast_mut(),
        };
        unsafe { at.write(9) };
        let closed = session.close("mouldgrey_merge", number);
        assert_eq!(closed.is_ok(), is_fine, "{closed:?}");
    }
}

#[test]
fn a_short_run() {
    assert!(run(5_000, 3).is_ok());
    assert!(run(5_000, IMAGE_SEEDS + 3).is_ok());
    // Too short to have seen all.
    assert!(gate(5_000, 5_000, 3).is_err());
    assert!(giant::pending().is_ok());
}

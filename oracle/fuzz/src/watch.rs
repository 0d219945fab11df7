//! Reports the call that touches memory which it was not lent, traps, or does not end.

use std::ffi::{c_int, c_uint, c_void};
use std::sync::atomic::{AtomicU64, AtomicUsize, Ordering};

unsafe extern "C" {
    fn signal(number: c_int, handler: usize) -> usize;
    fn alarm(seconds: c_uint) -> c_uint;
    fn write(file: c_int, bytes: *const c_void, length: usize) -> isize;
    fn _exit(status: c_int) -> !;
}

const ILLEGAL: c_int = 4;
const TRAP: c_int = 5;
const ABORT: c_int = 6;
const BUS: c_int = 7;
const ARITHMETIC: c_int = 8;
const SEGMENT: c_int = 11;
const ALARM: c_int = 14;
const SIGNALS: [c_int; 7] = [ILLEGAL, TRAP, ABORT, BUS, ARITHMETIC, SEGMENT, ALARM];

/// The longest time of a call, in seconds: many times what any of them needs.
const PATIENCE: c_uint = 60;

/// The alarm is set again after so many calls.
const CALLS: u64 = 1_024;

static SEED: AtomicU64 = AtomicU64::new(0);
static CALL: AtomicU64 = AtomicU64::new(0);
static NAME: AtomicUsize = AtomicUsize::new(0);
static NAME_LENGTH: AtomicUsize = AtomicUsize::new(0);

/// From here on a fault is reported, with the call that `call` named last.
pub fn begin() {
    for number in SIGNALS {
        // SAFETY: the handler only reads atomics, writes to standard error and ends the process.
        unsafe { signal(number, report_fault as *const () as usize) };
    }
    unsafe { alarm(PATIENCE) };
}

/// Faults are the system's business again.
pub fn end() {
    unsafe { alarm(0) };
    for number in SIGNALS {
        // SAFETY: 0 is the default way.
        unsafe { signal(number, 0) };
    }
}

/// The trial of this seed begins.
pub fn trial(seed: u64) {
    SEED.store(seed, Ordering::Relaxed);
    CALL.store(0, Ordering::Relaxed);
}

/// The next call of the trial is one of this function.
pub fn call(name: &'static str) {
    NAME.store(name.as_ptr() as usize, Ordering::Relaxed);
    NAME_LENGTH.store(name.len(), Ordering::Relaxed);
    let number = CALL.fetch_add(1, Ordering::Relaxed);
    if number.is_multiple_of(CALLS) {
        unsafe { alarm(PATIENCE) };
    }
}

/// Which call of which trial it is, for the report of a difference.
pub fn place() -> String {
    let (seed, call) = (SEED.load(Ordering::Relaxed), CALL.load(Ordering::Relaxed));
    format!("call {call} of the trial of seed {seed} (`oracle fuzz 1 {seed}`)")
}

fn print(bytes: &[u8]) {
    // SAFETY: standard error, and bytes with their length.
    unsafe { write(2, bytes.as_ptr().cast(), bytes.len()) };
}

fn print_number(mut number: u64) {
    let mut digits = [0; 20];
    let mut first = digits.len();
    loop {
        first -= 1;
        digits[first] = b'0' + (number % 10) as u8;
        number /= 10;
        if number == 0 {
            break;
        }
    }
    print(&digits[first..]);
}

extern "C" fn report_fault(number: c_int) {
    let name = NAME.load(Ordering::Relaxed) as *const u8;
    let length = NAME_LENGTH.load(Ordering::Relaxed);
    print(b"fuzz: ");
    // SAFETY: the bytes of a name that lives for ever, or none.
    print(match length {
        0 => b"no call",
        _ => unsafe { std::slice::from_raw_parts(name, length) },
    });
    print(match number {
        SEGMENT | BUS => b" touched memory that it was not lent",
        ALARM => b" did not end",
        _ => b" trapped",
    });
    print(b" (signal ");
    print_number(number as u64);
    print(b"): call ");
    print_number(CALL.load(Ordering::Relaxed));
    print(b" of the trial of seed ");
    print_number(SEED.load(Ordering::Relaxed));
    print(b"; once more: oracle fuzz 1 ");
    print_number(SEED.load(Ordering::Relaxed));
    print(b"\n");
    // SAFETY: ends the process.
    unsafe { _exit(1) }
}

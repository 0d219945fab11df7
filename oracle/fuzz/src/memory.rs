//! Stores between two pages that may not be touched: a word read or written past the end on that side is a fault.

use std::ffi::c_void;
use std::ptr::null_mut;

/// What is used of the C library, which std links anyway.
mod c {
    use std::ffi::{c_int, c_void};

    pub const PROT_NONE: c_int = 0;
    pub const PROT_READ: c_int = 1;
    pub const PROT_WRITE: c_int = 2;
    pub const MAP_PRIVATE: c_int = 2;
    pub const MAP_ANONYMOUS: c_int = 0x20;
    /// Pages are made only where they are touched.
    pub const MAP_NORESERVE: c_int = 0x4000;

    unsafe extern "C" {
        pub fn mmap(
            address: *mut c_void,
            length: usize,
            protection: c_int,
            flags: c_int,
            file: c_int,
            offset: i64,
        ) -> *mut c_void;
        pub fn mprotect(address: *mut c_void, length: usize, protection: c_int) -> c_int;
        pub fn munmap(address: *mut c_void, length: usize) -> c_int;
        pub fn getpagesize() -> c_int;
    }
}

/// The word beside a store, on the side without a guard page.
const BESIDE: u32 = 0x0bad_f00d;

/// So many words of that are written and looked at.
const WORDS_BESIDE: usize = 64;

/// Memory of some pages with a guard page at either end.
pub struct Area {
    mapped: *mut c_void,
    mapped_bytes: usize,
    start: *mut u32,
    words: usize,
}

impl Area {
    /// An area of at least so many words, if there is so much memory.
    pub fn new(words: usize) -> Option<Area> {
        let page = unsafe { c::getpagesize() } as usize;
        let bytes = (4 * words).next_multiple_of(page);
        let all = bytes + 2 * page;
        let flags = c::MAP_PRIVATE | c::MAP_ANONYMOUS | c::MAP_NORESERVE;
        // SAFETY: new pages, which nothing else points to; the inner ones are opened.
        unsafe {
            let mapped = c::mmap(null_mut(), all, c::PROT_NONE, flags, -1, 0);
            if mapped as isize == -1 {
                return None;
            }
            let start = mapped.byte_add(page);
            if c::mprotect(start, bytes, c::PROT_READ | c::PROT_WRITE) != 0 {
                c::munmap(mapped, all);
                return None;
            }
            Some(Area {
                mapped,
                mapped_bytes: all,
                start: start.cast(),
                words: bytes / 4,
            })
        }
    }

    /// A place for so many words: flush against the page behind, or against the page before.
    pub fn place(&mut self, length: usize, behind: bool) -> Laid {
        assert!(
            length + WORDS_BESIDE <= self.words,
            "a store longer than its area"
        );
        // SAFETY: both are in the area.
        unsafe {
            if behind {
                let at = self.start.add(self.words - length);
                let beside = at.sub(WORDS_BESIDE);
                Laid { at, length, beside }
            } else {
                let at = self.start;
                let beside = at.add(length);
                Laid { at, length, beside }
            }
        }
    }
}

impl Drop for Area {
    fn drop(&mut self) {
        // SAFETY: what was mapped, and nothing that was laid in it is used any more.
        unsafe { c::munmap(self.mapped, self.mapped_bytes) };
    }
}

/// A store that is laid in an area.
#[derive(Clone, Copy)]
pub struct Laid {
    pub at: *mut u32,
    /// In words of 32 bits.
    pub length: usize,
    beside: *mut u32,
}

impl Laid {
    /// Writes the store, and the words beside it.
    pub fn write(&self, words: &[u32]) {
        assert_eq!(words.len(), self.length);
        // SAFETY: in the area, by `Area::place`.
        unsafe {
            self.at
                .copy_from_nonoverlapping(words.as_ptr(), self.length);
            for step in 0..WORDS_BESIDE {
                self.beside.add(step).write(BESIDE);
            }
        }
    }

    /// The store's words.
    pub fn read(&self) -> &[u32] {
        // SAFETY: in the area, and no call is under way.
        unsafe { std::slice::from_raw_parts(self.at, self.length) }
    }

    /// Whether the words beside the store are unchanged.
    pub fn is_kept_beside(&self) -> bool {
        // SAFETY: in the area.
        let beside = unsafe { std::slice::from_raw_parts(self.beside, WORDS_BESIDE) };
        beside.iter().all(|&word| word == BESIDE)
    }
}

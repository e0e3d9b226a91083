//! Memory for the slices that a call is lent: each ends at a page that can't be touched, so that
//! a read or write past the end stops the run; and slices of lengths that pass 32 bits. Or each is an
//! allocation of its own, whose ends a tool like valgrind knows.

use std::ffi::c_void;
use std::sync::atomic::{AtomicU64, Ordering};

const PAGE: usize = 4096;
const READ_WRITE: i32 = 3;
const NO_ACCESS: i32 = 0;
/// Private, anonymous, without reserve.
const FLAGS: i32 = 0x2 | 0x20 | 0x4000;
const SEGMENT_FAULT: i32 = 11;
const BUS_ERROR: i32 = 7;

extern "C" {
    fn mmap(
        at: *mut c_void,
        size: usize,
        access: i32,
        flags: i32,
        fd: i32,
        start: i64,
    ) -> *mut c_void;
    fn mprotect(at: *mut c_void, size: usize, access: i32) -> i32;
    fn signal(number: i32, handler: extern "C" fn(i32)) -> usize;
    fn _exit(status: i32) -> !;
}

/// Pages of zeros, followed by one without access.
pub struct Guarded {
    start: *mut u8,
    size: usize,
}

impl Guarded {
    /// At least `size` bytes, or none where the system has no room for them.
    pub fn new(size: usize) -> Option<Self> {
        let size = size.next_multiple_of(PAGE);
        // A new mapping, kept to the end of the run.
        let start =
            unsafe { mmap(std::ptr::null_mut(), size + PAGE, READ_WRITE, FLAGS, -1, 0) as *mut u8 };
        if start as isize == -1 {
            return None;
        }
        // The last page of that mapping.
        let guarded = unsafe { mprotect(start.add(size) as *mut c_void, PAGE, NO_ACCESS) };
        assert_eq!(guarded, 0, "a page can be guarded");
        Some(Self { start, size })
    }

    /// The last `length` bytes.
    pub fn last(&mut self, length: usize) -> &mut [u8] {
        assert!(length <= self.size, "the slice fits the mapping");
        // Within the mapping, which lives as long as the run, and lent once at a time.
        unsafe { std::slice::from_raw_parts_mut(self.start.add(self.size - length), length) }
    }
}

/// Where a slice is taken from.
pub enum Room {
    Guarded(Guarded),
    /// The last slice that was lent.
    Heap(Box<[u8]>),
}

impl Room {
    /// The last `length` bytes; on the heap, a new allocation of just that length.
    pub fn last(&mut self, length: usize) -> &mut [u8] {
        match self {
            Room::Guarded(guarded) => guarded.last(length),
            Room::Heap(slice) => {
                *slice = vec![0; length].into_boxed_slice();
                slice
            }
        }
    }
}

/// The seed and the case that are being run.
pub static SEED: AtomicU64 = AtomicU64::new(0);
pub static CASE: AtomicU64 = AtomicU64::new(0);

extern "C" fn stopped(_: i32) {
    let (seed, case) = (SEED.load(Ordering::Relaxed), CASE.load(Ordering::Relaxed));
    eprintln!("seed {seed} case {case}: memory outside the lent slices was touched");
    // Ends the run from within the handler.
    unsafe { _exit(1) }
}

/// A call that leaves its slices ends the run with the case's number.
pub fn name_the_case_on_a_fault() {
    for number in [SEGMENT_FAULT, BUS_ERROR] {
        // The handler reads two numbers, writes a line and exits.
        unsafe { signal(number, stopped) };
    }
}

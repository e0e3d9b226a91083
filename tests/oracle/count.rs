//! How often each expression of counted.txt was true and false. `LIST`, its names and why one is
//! never false or never true, is put in at the end.

use std::sync::atomic::{AtomicBool, AtomicU64, Ordering::Relaxed};

static SEEN: [[AtomicU64; 2]; LIST.len()] =
    [const { [const { AtomicU64::new(0) }; 2] }; LIST.len()];

/// Counts a value. One thread alone counts.
pub fn seen(index: usize, value: bool) {
    let count = &SEEN[index][usize::from(value)];
    count.store(count.load(Relaxed) + 1, Relaxed);
}

/// How often each was false and true.
pub fn counts() -> [[u64; 2]; LIST.len()] {
    std::array::from_fn(|i| [0, 1].map(|value: usize| SEEN[i][value].load(Relaxed)))
}

/// Runs something that is not to be counted.
pub fn uncounted<T>(run: impl FnOnce() -> T) -> T {
    let before = counts();
    let made = run();
    for (cells, counts) in SEEN.iter().zip(before) {
        cells.iter().zip(counts).for_each(|(cell, count)| cell.store(count, Relaxed));
    }
    made
}

/// Whether the group that is looked at came to be serial; the Rust's test of a path serves both kinds.
static SERIAL: AtomicBool = AtomicBool::new(false);

pub fn serial_next(serial: bool) {
    SERIAL.store(serial, Relaxed);
}

pub fn is_serial() -> bool {
    SERIAL.load(Relaxed)
}

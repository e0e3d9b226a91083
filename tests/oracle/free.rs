//! The numbers that are in force on a thread, which the merging reads in the place of its constants.

use super::thresholds::Thresholds;
use std::cell::Cell;

thread_local! {
    static NOW: Cell<Thresholds> = const { Cell::new(Thresholds::DECLARED) };
}

/// The numbers in force: those of the text but within `with_thresholds`.
#[inline]
pub fn now() -> Thresholds {
    NOW.get()
}

/// Runs something with other numbers in force; those from before are in force again at its end.
pub fn with_thresholds<T>(numbers: Thresholds, run: impl FnOnce() -> T) -> T {
    struct Before(Thresholds);
    impl Drop for Before {
        fn drop(&mut self) {
            NOW.set(self.0);
        }
    }
    let _before = Before(NOW.replace(numbers));
    run()
}

//! The Rust with other numbers really written into its constants. Compiled with that build as `oracle`,
//! so that the driver's readers of a job serve it as they are.

#[path = "../driver/checks.rs"]
#[allow(dead_code)]
mod checks;
#[path = "../driver/rust.rs"]
#[allow(dead_code)]
mod rust;
#[path = "../driver/thresholds.rs"]
#[allow(dead_code)]
mod thresholds;

/// The block of the numbers that were written.
pub const BLOCK: [u8; thresholds::BLOCK] =
    thresholds::block(&oracle::thresholds::Thresholds::DECLARED);

/// The answer of a job whose map is parted by these spans.
pub fn answer(job: &[u8], spans: &[[u32; 4]]) -> Vec<u8> {
    let job = rust::job(job);
    rust::answer(&job.kept(&job.partition(spans)))
}

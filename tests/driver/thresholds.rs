//! A block of thresholds: its bytes from the numbers, and the numbers of one that is admitted.

use oracle::thresholds::Thresholds;

/// Bytes of a block.
pub const BLOCK: usize = 64;
/// Both words of the header.
const EIGHT: u32 = 8;

/// The block of source document 000, whose numbers are the constants of the Rust.
pub const OF_000: [u8; BLOCK] = block(&Thresholds::DECLARED);

/// The block of these numbers, admitted or not.
pub const fn block(numbers: &Thresholds) -> [u8; BLOCK] {
    let words = [EIGHT, EIGHT, numbers.least as u32, numbers.most as u32];
    let [chain, width, geometry] = [numbers.chain, numbers.width, numbers.geometry];
    let measures = [chain, width, geometry, numbers.duplicate, numbers.envelope, numbers.cosine];
    let mut block = [0; BLOCK];
    let mut at = 0;
    while at < BLOCK {
        block[at] = if at < 16 {
            words[at / 4].to_le_bytes()[at % 4]
        } else {
            measures[at / 8 - 2].to_bits().to_le_bytes()[at % 8]
        };
        at += 1;
    }
    block
}

/// The numbers of a block of the right length.
pub fn numbers(block: &[u8]) -> Thresholds {
    let size = |at: usize| u32::from_le_bytes(block[at..at + 4].try_into().expect("four bytes"));
    let measure = |at: usize| {
        f64::from_bits(u64::from_le_bytes(block[at..at + 8].try_into().expect("eight bytes")))
    };
    Thresholds {
        least: size(8) as usize,
        most: size(12) as usize,
        chain: measure(16),
        width: measure(24),
        geometry: measure(32),
        duplicate: measure(40),
        envelope: measure(48),
        cosine: measure(56),
    }
}

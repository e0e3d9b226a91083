//! Faults of the block of thresholds: which one is refused and when, and which numbers are taken from it.

use crate::checks::{self, Refusal};
use crate::thresholds::{block, numbers, BLOCK, OF_000};
use oracle::fault;
use oracle::thresholds::Thresholds;

const REFUSED: Refusal = (32, 0);

fn word(block: &[u8], at: usize) -> u32 {
    u32::from_le_bytes(block[at..at + 4].try_into().expect("four bytes"))
}

fn bits(block: &[u8], at: usize) -> u64 {
    u64::from_le_bytes(block[at..at + 8].try_into().expect("eight bytes"))
}

/// The block with what a fault admits made right, so that the checks of the paper tell of the rest.
fn mended(lent: &[u8]) -> Vec<u8> {
    let mut block = lent.to_vec();
    if block.len() > BLOCK && fault::on("block_longer_admitted") {
        block.truncate(BLOCK);
    }
    if block.len() != BLOCK {
        return block;
    }
    if fault::on("block_sizes_swapped") {
        block[8..16].rotate_left(4);
    }
    let mut put = |at: usize, bytes: &[u8]| block[at..at + bytes.len()].copy_from_slice(bytes);
    let [smallest, largest] = [word(lent, 8), word(lent, 12)];
    if fault::on("block_count_not_tested") {
        put(0, &8_u32.to_le_bytes());
    }
    if fault::on("block_offset_not_tested") {
        put(4, &8_u32.to_le_bytes());
    }
    if smallest == 1 && fault::on("block_smallest_1_admitted") {
        put(8, &2_u32.to_le_bytes());
    }
    if largest == 17 && smallest <= 17 && fault::on("block_largest_17_admitted") {
        put(8, &smallest.min(16).to_le_bytes());
        put(12, &16_u32.to_le_bytes());
    }
    let other_way = (2..=16).contains(&largest) && (2..=16).contains(&smallest);
    if other_way && largest < smallest && fault::on("block_smallest_over_largest_admitted") {
        put(12, &smallest.to_le_bytes());
    }
    // The five lengths, and the cosine.
    let untested = [
        fault::on("block_chain_not_tested"),
        fault::on("block_width_not_tested"),
        fault::on("block_geometry_not_tested"),
        fault::on("block_duplicate_not_tested"),
        fault::on("block_envelope_not_tested"),
        fault::on("block_cosine_not_tested"),
    ];
    for (i, untested) in untested.into_iter().enumerate() {
        let (at, most) = (16 + 8 * i, if i < 5 { 16_384.0 } else { 1.0 });
        let value = f64::from_bits(bits(lent, at));
        let admitted = untested
            || fault::on("block_by_f64") && (0.0..=most).contains(&value)
            || fault::on("block_nan_admitted") && value.is_nan()
            || fault::on("block_one_unit_over_admitted") && value == f64::next_up(most)
            || fault::on("block_cosine_to_2_admitted") && i == 5 && (1.0..=2.0).contains(&value);
        if value.to_bits() > f64::to_bits(most) && admitted {
            put(at, &0.0_f64.to_le_bytes());
        }
    }
    block
}

/// True if a fault refuses the block, which is admitted.
fn refused_besides(block: &[u8]) -> bool {
    let [smallest, largest] = [word(block, 8), word(block, 12)];
    let lengths = [16, 24, 32, 40, 48].map(|at| bits(block, at));
    let cosine = bits(block, 56);
    let most = 16_384.0_f64.to_bits();
    fault::on("block_smallest_2_refused") && smallest == 2
        || fault::on("block_largest_16_refused") && largest == 16
        || fault::on("block_equal_sizes_refused") && smallest == largest
        || fault::on("block_16384_refused") && lengths.contains(&most)
        || fault::on("block_0_refused") && lengths.contains(&0)
        || fault::on("block_cosine_0_refused") && cosine == 0
        || fault::on("block_cosine_1_refused") && cosine == 1.0_f64.to_bits()
        // No size that is admitted is over 16.
        || fault::on("same_block_smallest_tested_too") && smallest > 16
}

/// The refusal of a call with this block whose job and list would have that refusal.
pub fn refusal(lent: &[u8], of_job: Refusal) -> Refusal {
    let mended = mended(lent);
    let bad = checks::bad_block(&mended) || refused_besides(&mended);
    let early = of_job.0 == 1 && fault::on("block_tested_after_1")
        || of_job.0 != 0 && fault::on("block_tested_last");
    if !bad || early {
        return of_job;
    }
    if fault::on("block_refused_with_detail") {
        return (REFUSED.0, lent.len() as u64);
    }
    if fault::on("block_refused_as_1") {
        return (1, 0);
    }
    REFUSED
}

/// A block of the numbers that are taken from this one.
pub fn taken(lent: &[u8]) -> Vec<u8> {
    let mended = mended(lent);
    if mended.len() != BLOCK {
        return mended;
    }
    if fault::on("block_numbers_of_000") {
        return OF_000.to_vec();
    }
    let mut taken = numbers(&mended);
    let Thresholds { chain, width, geometry, duplicate, envelope, cosine, .. } = taken;
    if fault::on("block_width_and_geometry_swapped") {
        (taken.width, taken.geometry) = (geometry, width);
    }
    if fault::on("block_chain_and_width_swapped") {
        (taken.chain, taken.width) = (width, chain);
    }
    if fault::on("block_duplicate_and_envelope_swapped") {
        (taken.duplicate, taken.envelope) = (envelope, duplicate);
    }
    if fault::on("block_cosine_of_000") {
        taken.cosine = Thresholds::DECLARED.cosine;
    }
    if fault::on("block_smallest_of_000") {
        taken.least = Thresholds::DECLARED.least;
    }
    if fault::on("block_in_f32") {
        taken.chain = f64::from(chain as f32);
        taken.cosine = f64::from(cosine as f32);
    }
    if fault::on("block_of_whole_pixels") {
        taken.chain = chain.floor();
    }
    block(&taken).to_vec()
}

/// Faults that reach past the block, or write to it, once the call is done.
pub fn touch(start: *const u8, length: usize) {
    if fault::on("block_written") && length > 0 {
        // The last byte, which was lent to be read.
        unsafe { *start.cast_mut().add(length - 1) ^= 1 };
    }
    if fault::on("block_read_past_its_end") && length < BLOCK {
        // 64 bytes, whatever the length.
        std::hint::black_box(unsafe { std::ptr::read_volatile(start.add(BLOCK - 1)) });
    }
}

//! Sources by number (first id times 2^32 and second), and such as share a head of the library's table of first ones
//! (crates/answer_firsts).

use crate::rng::Rng;

const FIRST: u32 = 0x5F35_6495;
const SECOND: u32 = 0x4CF5_AD43;
/// The inverse of FIRST modulo 2^32.
const INVERSE: u32 = inverse(FIRST);

/// Low binary digits that are the same in all numbers of `low_digits`, beyond the 32 of the second id.
const SAME: u32 = 6;

pub fn source(number: u64) -> [u32; 2] {
    [(number >> 32) as u32, number as u32]
}

pub fn number([first, second]: [u32; 2]) -> u64 {
    u64::from(first) << 32 | u64::from(second)
}

/// The head of a source, by its number.
pub fn head(x: u64) -> u64 {
    ((x >> 32) * u64::from(FIRST) + (x & 0xFFFF_FFFF) * u64::from(SECOND)) >> 18 & 0x3FFF
}

/// By Newton's steps, each of which doubles the digits that are right: of an odd number three are at first.
const fn inverse(odd: u32) -> u32 {
    let (mut inverse, mut steps) = (odd, 0);
    while steps < 4 {
        inverse = inverse.wrapping_mul(2_u32.wrapping_sub(odd.wrapping_mul(inverse)));
        steps += 1;
    }
    inverse
}

/// The number with this second id whose sum, of which the upper fourteen of 32 digits are the head, is this.
fn summing_to(sum: u32, second: u32) -> u64 {
    let first = sum.wrapping_sub(second.wrapping_mul(SECOND)).wrapping_mul(INVERSE);
    number([first, second])
}

/// Numbers of one head.
pub fn one_head(count: usize, rng: &mut Rng) -> Vec<u64> {
    let head = rng.word() & 0xFFFC_0000;
    (0..count).map(|_| summing_to(head | rng.word() >> 14, rng.word())).collect()
}

/// Numbers of one head whose low 38 digits are the same, up to 4,096 distinct ones.
pub fn low_digits(count: usize, rng: &mut Rng) -> Vec<u64> {
    let (rest, second) = (rng.word() & 0xFFFC_003F, rng.word());
    let (start, step) = (rng.word(), rng.word() | 1);
    let middle = |i: u32| start.wrapping_add(i.wrapping_mul(step)) & 0xFFF;
    (0..count as u32).map(|i| summing_to(rest | middle(i) << SAME, second)).collect()
}

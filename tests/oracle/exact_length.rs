//! The length that takes the place of `hypot`: the f64 nearest to √D ÷ 2, where D is the sum of
//! the squares of the doubled differences. Worked out in whole numbers.

/// Called where the Rust calls `hypot`.
pub trait ExactLength {
    fn exact_length(self, other: Self) -> Self;
}

impl ExactLength for f64 {
    fn exact_length(self, other: f64) -> f64 {
        exact_length(self, other)
    }
}

pub fn exact_length(dx: f64, dy: f64) -> f64 {
    half_root(doubled_square(dx) + doubled_square(dy))
}

/// The square of a doubled difference. Differences of pixels and of centres are multiples of ½.
fn doubled_square(difference: f64) -> u64 {
    let doubled = (2.0 * difference) as i64;
    assert!(doubled as f64 == 2.0 * difference, "{difference} is no multiple of a half");
    doubled.unsigned_abs() * doubled.unsigned_abs()
}

/// The f64 nearest to √d ÷ 2. There are no ties: √d is whole or irrational.
pub fn half_root(d: u64) -> f64 {
    assert!(d <= 1 << 29, "{d} is beyond the largest map");
    if d == 0 {
        return 0.0;
    }
    // d·4^k has a root of 54 bits: the 53 of a mantissa and one that says which way to round.
    let mut k = 0;
    while u128::from(d) << (2 * k) < 1 << 106 {
        k += 1;
    }
    let root = root(u128::from(d) << (2 * k));
    let mantissa = (root >> 1) + (root & 1);
    mantissa as f64 / (1_u64 << k) as f64
}

/// The largest number of 54 bits whose square is at most n.
fn root(n: u128) -> u64 {
    (0..54).rev().fold(0, |root, bit| {
        let more = root | 1 << bit;
        if u128::from(more) * u128::from(more) <= n {
            more
        } else {
            root
        }
    })
}

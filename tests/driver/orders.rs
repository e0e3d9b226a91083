//! Numbers and sources in the orders that sorts are tried and timed on.

use crate::heads::{low_digits, one_head, source};
use crate::rng::Rng;
use crate::splits;

/// The orders in which a list that is to be sorted is given.
#[derive(Clone, Copy, PartialEq)]
pub enum Order {
    Rising,
    Falling,
    Random,
    Equal,
    Few,
    Pairs,
    Scales,
}

pub const ORDERS: [(Order, &str); 7] = [
    (Order::Rising, "rising"),
    (Order::Falling, "falling"),
    (Order::Random, "in random order"),
    (Order::Equal, "all equal"),
    (Order::Few, "of four kinds"),
    (Order::Pairs, "of 64 by 64 kinds"),
    (Order::Scales, "of every size from 1 to 32 binary digits"),
];

/// Numbers in an order.
pub fn numbers(count: usize, order: Order, rng: &mut Rng) -> Vec<u32> {
    (0..count as u32)
        .map(|i| match order {
            Order::Rising => i,
            Order::Falling => count as u32 - i,
            Order::Random => rng.word(),
            Order::Equal => 7,
            Order::Few => rng.within(0, 3),
            Order::Pairs => rng.within(0, 63) << 16 | rng.within(0, 63),
            Order::Scales => rng.word() >> rng.within(0, 31),
        })
        .collect()
}

/// The orders and kinds in which own sources are given.
#[derive(Clone, Copy, PartialEq)]
pub enum Listing {
    Random,
    Rising,
    Falling,
    /// Rising, then falling between those.
    UpAndDown,
    /// Rising, then the same falling.
    OrganPipe,
    Sawtooth,
    Few,
    EqualFirst,
    EqualSecond,
    PowersOfTwo,
    Extremes,
    /// Rising but for two that are swapped.
    OneSwap,
    OneHead,
    /// Of one head and with 38 equal low binary digits.
    LowDigits,
    /// The worst order for the splits of the sort.
    Worst,
}

pub const LISTINGS: [Listing; 15] = [
    Listing::Random,
    Listing::Rising,
    Listing::Falling,
    Listing::UpAndDown,
    Listing::OrganPipe,
    Listing::Sawtooth,
    Listing::Few,
    Listing::EqualFirst,
    Listing::EqualSecond,
    Listing::PowersOfTwo,
    Listing::Extremes,
    Listing::OneSwap,
    Listing::OneHead,
    Listing::LowDigits,
    Listing::Worst,
];

/// Sources in an order or of a kind.
pub fn sources(count: usize, listing: Listing, rng: &mut Rng) -> Vec<[u32; 2]> {
    let listed = match listing {
        Listing::Rising
        | Listing::Falling
        | Listing::UpAndDown
        | Listing::OrganPipe
        | Listing::OneSwap => runs(count, listing, rng),
        Listing::OneHead => one_head(count, rng),
        Listing::LowDigits => low_digits(count, rng),
        Listing::Worst => splits::worst(count, rng),
        _ => kinds(count, listing, rng),
    };
    listed.into_iter().map(source).collect()
}

/// Numbers in rising and falling runs.
fn runs(count: usize, listing: Listing, rng: &mut Rng) -> Vec<u64> {
    let mut rising: Vec<u64> = (0..count).map(|_| rng.next()).collect();
    rising.sort_unstable();
    match listing {
        Listing::Falling => rising.reverse(),
        Listing::UpAndDown => {
            let down: Vec<u64> = rising.iter().skip(1).step_by(2).rev().copied().collect();
            rising = rising.into_iter().step_by(2).chain(down).collect();
        }
        Listing::OrganPipe => {
            let down: Vec<u64> = rising[..count / 2].iter().rev().copied().collect();
            rising.truncate(count - count / 2);
            rising.extend(down);
        }
        Listing::OneSwap if count > 0 => rising.swap(rng.below(count), rng.below(count)),
        _ => {}
    }
    rising
}

/// Numbers of a kind.
fn kinds(count: usize, listing: Listing, rng: &mut Rng) -> Vec<u64> {
    let (same, few) = (rng.word(), [0; 4].map(|_| rng.next()));
    let tooth = rng.pick(&[2, 5, 16, 100, 1000]);
    let extreme = |rng: &mut Rng| {
        let any = rng.word();
        u64::from(rng.pick(&[0, 0, 1, any, u32::MAX - 1, u32::MAX, u32::MAX]))
    };
    let number = |i: u64| match listing {
        Listing::Sawtooth => i % tooth << 32 | i,
        Listing::Few => rng.pick(&few),
        Listing::EqualFirst => u64::from(same) << 32 | u64::from(rng.word()),
        Listing::EqualSecond => u64::from(rng.word()) << 32 | u64::from(same),
        Listing::PowersOfTwo => 1 << rng.below(64) | rng.pick(&[0, 1, 1]) << rng.below(64),
        Listing::Extremes => extreme(rng) << 32 | extreme(rng),
        _ => rng.next(),
    };
    (0..count as u64).map(number).collect()
}

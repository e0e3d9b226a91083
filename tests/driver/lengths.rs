//! Lengths with their marks, and totals of chains: `probe_length` and `probe_chain`, held to whole-number roots and
//! squares. A length is the f64 nearest to √d ÷ 2; its mark is 1 exactly if it is √d ÷ 2 itself.

use crate::rng::Rng;
use crate::run::Run;
use crate::tally::Tally;
use std::fmt::{Display, Error, Formatter};
use std::time::{Duration, Instant};

/// Kinds of comparison: a run that has none of one fails.
pub const LENGTHS: &str = "lengths compared";
pub const TOTALS: &str = "totals compared";

/// So many random lengths and random totals where no number is given.
pub const CASES: u64 = 100_000;
pub const SEED: u64 = 1;

/// The greatest sum of the squares of two doubled differences on a map, and the root of the greatest square below it.
const MOST: u32 = 1 << 29;
const MOST_ROOT: u32 = 23_170;
/// Every d up to this, every d so near to a square, and every chain of parts up to this is compared.
const ALL: u32 = 100_000;
const NEAR: u32 = 3;
const ALL_PARTS: u32 = 12;
/// How long a smaller input that differs is looked for.
const SHRINKING: Duration = Duration::from_secs(5);

/// Parts of which none is a square, and whose total is rounded to a multiple of a half.
const ROUNDED: [[u32; 3]; 3] = [[3619, 9711, 18_577], [8981, 26_365, 26_523], [666, 2808, 38_104]];
const ROUNDED_PAIRS: [[u32; 2]; 1] = [[26_739_240, 26_739_242]];
/// Parts whose total is another f64 as they are listed than from the least on.
const ORDERED: [u32; 3] = [10, 2, 1];
const ORDERS: [[usize; 3]; 6] = [[0, 1, 2], [0, 2, 1], [1, 0, 2], [1, 2, 0], [2, 0, 1], [2, 1, 0]];

const EXACT: &str = "lengths that are exact";
const INEXACT: &str = "lengths that are not exact";
const REFUSED_LENGTH: &str = "lengths refused";
const EXACT_TOTAL: &str = "totals that are exact";
const ONE_INEXACT: [&str; 3] = [
    "totals not exact by the least of three parts only",
    "totals not exact by the middle of three parts only",
    "totals not exact by the greatest of three parts only",
];
const NONE_EXACT: &str = "totals without an exact part";
const ROUNDED_TOTAL: &str = "totals not exact and rounded to a multiple of a half";
const OTHER_ORDER: &str = "totals that are another f64 in listed order";
const EQUAL: &str = "totals with equal parts";
const WITH_ZERO: &str = "totals with a part of 0";
const COUNT_REFUSED: &str = "totals refused for their count";
const PART_REFUSED: &str = "totals refused for a part";
const BEYOND_COUNT: &str = "totals with a number over 2^29 beyond their count";

/// What a run must have seen at least once.
const WANTED: [&str; 15] = [
    EXACT,
    INEXACT,
    REFUSED_LENGTH,
    EXACT_TOTAL,
    ONE_INEXACT[0],
    ONE_INEXACT[1],
    ONE_INEXACT[2],
    NONE_EXACT,
    ROUNDED_TOTAL,
    OTHER_ORDER,
    EQUAL,
    WITH_ZERO,
    COUNT_REFUSED,
    PART_REFUSED,
    BEYOND_COUNT,
];

/// The bits of an f64, and 1 if it is exact, 0 if not, 2 if there is none.
#[repr(C)]
#[derive(Clone, Copy, PartialEq)]
struct Marked {
    bits: u64,
    exact: u32,
}

const REFUSED: Marked = Marked { bits: 0, exact: 2 };

#[link(name = "probe")]
extern "C" {
    fn probe_length(d: u32) -> Marked;
    fn probe_chain(count: u32, d: u32, e: u32, f: u32) -> Marked;
}

impl Display for Marked {
    fn fmt(&self, to: &mut Formatter) -> Result<(), Error> {
        let value = f64::from_bits(self.bits);
        write!(to, "{value:?} ({:#018x}), mark {}", self.bits, self.exact)
    }
}

/// The first `count` of three numbers.
#[derive(Clone, Copy, PartialEq)]
struct Chain {
    count: u32,
    parts: [u32; 3],
}

impl Display for Chain {
    fn fmt(&self, to: &mut Formatter) -> Result<(), Error> {
        write!(to, "total of {} of {:?}", self.count, self.parts)
    }
}

impl Chain {
    /// The parts that are added, or none where the count is none that is taken.
    fn taken(&self) -> &[u32] {
        if self.count <= 3 {
            &self.parts[..self.count as usize]
        } else {
            &[]
        }
    }

    fn refused(&self) -> bool {
        self.taken().is_empty() || self.taken().iter().any(|&d| d > MOST)
    }
}

/// The greatest whole number whose square is at most d.
fn root(d: u32) -> u64 {
    (0..16).rev().fold(0, |root: u64, bit| {
        let more = root | 1 << bit;
        if more * more <= u64::from(d) {
            more
        } else {
            root
        }
    })
}

fn is_square(d: u32) -> bool {
    root(d) * root(d) == u64::from(d)
}

/// √d ÷ 2, the root rounded once; halving is exact.
fn half_root(d: u32) -> f64 {
    f64::from(d).sqrt() / 2.0
}

/// Whether r is the f64 nearest to √d ÷ 2: √d is between r's sums with the f64 below and with the one above, which
/// their squares tell.
fn is_nearest(d: u32, r: f64) -> bool {
    if d == 0 {
        return r.to_bits() == 0;
    }
    // Beyond this the squares might not fit.
    if !((r - half_root(d)).abs() <= 0.125) {
        return false;
    }
    let exponent = |x: f64| x.to_bits() >> 52;
    let low = exponent(r.next_down());
    // In units of the last place of the f64 below.
    let whole = |x: f64| {
        let mantissa = x.to_bits() & ((1 << 52) - 1) | 1 << 52;
        u128::from(mantissa) << (exponent(x) - low)
    };
    let square = |other: f64| (whole(r) + whole(other)).pow(2);
    let d = u128::from(d) << (2 * (1075 - low));
    square(r.next_down()) <= d && d <= square(r.next_up())
}

/// What must come of d.
fn length(d: u32) -> Marked {
    if d > MOST {
        return REFUSED;
    }
    Marked { bits: half_root(d).to_bits(), exact: u32::from(is_square(d)) }
}

/// What must come of a chain: its lengths added from the least on, exact if each is.
fn total(chain: &Chain) -> Marked {
    if chain.refused() {
        return REFUSED;
    }
    let mut lengths: Vec<f64> = chain.taken().iter().map(|&d| half_root(d)).collect();
    lengths.sort_by(f64::total_cmp);
    let exact = chain.taken().iter().all(|&d| is_square(d));
    Marked { bits: sum(&lengths).to_bits(), exact: u32::from(exact) }
}

/// The sum in the order of the list.
fn sum(lengths: &[f64]) -> f64 {
    lengths[1..].iter().fold(lengths[0], |sum, length| sum + length)
}

/// How the library's length of d differs from what must come.
fn length_differs(d: u32) -> Option<String> {
    // Takes and gives numbers only.
    let (said, expected) = (unsafe { probe_length(d) }, length(d));
    if said != expected {
        return Some(format!("length of {d}: expected {expected}, got {said}"));
    }
    if d <= MOST && !is_nearest(d, f64::from_bits(said.bits)) {
        return Some(format!("length of {d}: {said} is not the nearest by the squares"));
    }
    None
}

/// How the library's total of a chain differs from what must come.
fn total_differs(chain: &Chain) -> Option<String> {
    let [d, e, f] = chain.parts;
    // Takes and gives numbers only.
    let (said, expected) = (unsafe { probe_chain(chain.count, d, e, f) }, total(chain));
    if said != expected {
        return Some(format!("{chain}: expected {expected}, got {said}"));
    }
    let roots: u64 = chain.taken().iter().map(|&d| root(d)).sum();
    if said.exact == 1 && 2.0 * f64::from_bits(said.bits) != roots as f64 {
        return Some(format!("{chain}: {said} is not the half of {roots}, the sum of the roots"));
    }
    None
}

/// Everything: all lengths to `ALL` and about each square, the chains that are named and those of small parts; so many
/// random lengths and totals.
pub fn compare(run: &mut Run, cases: u64) {
    let mut rng = run.next_case();
    (0..=ALL).for_each(|d| one_length(run, d));
    for square in (0..=MOST_ROOT).map(|root| root * root) {
        let near = square.saturating_sub(NEAR)..=square + NEAR;
        near.for_each(|d| one_length(run, d));
    }
    (MOST - NEAR..=MOST + NEAR).for_each(|d| one_length(run, d));
    [MOST * 2, MOST * 4, u32::MAX - 1, u32::MAX].iter().for_each(|&d| one_length(run, d));
    small(run);
    named(run);
    random(run, cases, &mut rng);
}

/// So many random lengths and totals.
pub fn random(run: &mut Run, cases: u64, rng: &mut Rng) {
    for _ in 0..cases {
        let d = if rng.one_in(32) { rng.word() } else { part(rng) };
        one_length(run, d);
        one_total(run, &chain(rng));
    }
}

fn one_length(run: &mut Run, d: u32) {
    if let Some(difference) = length_differs(d) {
        let start = Instant::now();
        let mut less = (0..d).take_while(|_| start.elapsed() < SHRINKING);
        let smaller = less.find_map(length_differs);
        run.report(&smaller.unwrap_or(difference), &format!("found at {d}\n"));
    }
    run.tally.see(LENGTHS);
    run.tally.see(match length(d).exact {
        0 => INEXACT,
        1 => EXACT,
        _ => REFUSED_LENGTH,
    });
}

fn one_total(run: &mut Run, chain: &Chain) {
    if let Some(difference) = total_differs(chain) {
        let smaller = total_differs(&smaller(*chain));
        run.report(&smaller.unwrap_or(difference), &format!("found at {chain}\n"));
    }
    run.tally.see(TOTALS);
    note(chain, &mut run.tally);
}

/// A chain that differs as well, of fewer or lesser parts, as far as one is found in the time.
fn smaller(mut chain: Chain) -> Chain {
    let start = Instant::now();
    while let Some(next) = lesser(&chain).into_iter().find(|next| total_differs(next).is_some()) {
        if start.elapsed() > SHRINKING {
            break;
        }
        chain = next;
    }
    chain
}

/// Smaller chains: without one of the parts, with a lesser number in the place of one.
fn lesser(chain: &Chain) -> Vec<Chain> {
    let mut chains = vec![Chain { count: 4, ..*chain }];
    for i in 0..chain.taken().len() {
        let mut parts = chain.parts;
        parts[i..].rotate_left(1);
        parts[2] = 0;
        chains.push(Chain { count: chain.count - 1, parts });
    }
    for (i, d) in chain.parts.into_iter().enumerate() {
        for less in [0, 1, 2, d / 2, d - root(d) as u32, d.saturating_sub(1)] {
            let mut parts = chain.parts;
            parts[i] = less;
            chains.push(Chain { parts, ..*chain });
        }
    }
    let size = |chain: &Chain| (chain.count, chain.parts.map(u64::from).iter().sum::<u64>());
    chains.retain(|next| size(next) < size(chain));
    chains
}

/// The chains that have a name, in every order; counts and parts that are refused, at each place.
fn named(run: &mut Run) {
    for parts in ROUNDED.into_iter().chain([ORDERED]) {
        for order in ORDERS {
            one_total(run, &Chain { count: 3, parts: order.map(|i| parts[i]) });
        }
    }
    for [d, e] in ROUNDED_PAIRS {
        for parts in [[d, e, 0], [e, d, 0], [e, d, u32::MAX]] {
            one_total(run, &Chain { count: 2, parts });
        }
    }
    for count in [0, 4, 5, 1 << 8, 1 << 16, 1 << 31, u32::MAX - 1, u32::MAX] {
        one_total(run, &Chain { count, parts: [1, 4, 9] });
    }
    for (count, place) in (1..=3).flat_map(|count| [0, 1, 2].map(|place| (count, place))) {
        for d in [MOST, MOST + 1, 2 * MOST, u32::MAX] {
            let mut parts = [4, 4, 4];
            parts[place] = d;
            one_total(run, &Chain { count, parts });
        }
    }
}

/// Every chain of small parts, by its greatest part.
fn small(run: &mut Run) {
    for most in 0..=ALL_PARTS {
        let all = || 0..=most;
        let pairs = all().flat_map(|d| all().map(move |e| [d, e]));
        let threes = pairs.flat_map(|[d, e]| all().map(move |f| [d, e, f]));
        for parts in threes.filter(|parts| parts.contains(&most)) {
            for count in 1..=3 {
                one_total(run, &Chain { count, parts });
            }
        }
    }
}

/// A square, a small one often.
fn square(rng: &mut Rng) -> u32 {
    let most = rng.pick(&[4, 100, 768, MOST_ROOT]);
    rng.within(0, most).pow(2)
}

/// A number up to 2^29: one about a square, or any.
fn part(rng: &mut Rng) -> u32 {
    match rng.below(4) {
        0 => rng.within(0, MOST),
        1 => rng.within(0, 1000),
        _ => (square(rng) + rng.within(0, 2 * NEAR)).saturating_sub(NEAR),
    }
}

/// A number up to 2^29 that is no square.
fn other(rng: &mut Rng) -> u32 {
    loop {
        let d = part(rng);
        if !is_square(d) {
            return d;
        }
    }
}

/// A chain with any number of squares among its parts, at any places.
fn chain(rng: &mut Rng) -> Chain {
    let squares = rng.below(4);
    let mut parts = [0, 1, 2].map(|i| if i < squares { square(rng) } else { other(rng) });
    match rng.below(12) {
        0 => parts = [parts[0]; 3],
        1 => parts[1] = parts[2],
        2 => parts[rng.below(3)] = 0,
        3 => parts[rng.below(3)] = rng.within(MOST + 1, u32::MAX),
        4 => {
            // Their roots add up to nearly 2n.
            let n = rng.within(5000, MOST_ROOT);
            parts[..2].copy_from_slice(&[n * n - 1, n * n + 1]);
        }
        _ => {}
    }
    let order = rng.pick(&ORDERS);
    let count = if rng.one_in(64) { rng.word() } else { rng.pick(&[1, 2, 2, 3, 3, 3, 3]) };
    Chain { count, parts: order.map(|i| parts[i]) }
}

/// Counts what a chain is.
fn note(chain: &Chain, tally: &mut Tally) {
    if chain.refused() {
        tally.see(if chain.taken().is_empty() { COUNT_REFUSED } else { PART_REFUSED });
        return;
    }
    let mut parts = chain.taken().to_vec();
    let listed: Vec<f64> = parts.iter().map(|&d| half_root(d)).collect();
    parts.sort_unstable();
    let inexact: Vec<usize> = (0..parts.len()).filter(|&i| !is_square(parts[i])).collect();
    let value = f64::from_bits(total(chain).bits);
    if let ([i], 3) = (&inexact[..], parts.len()) {
        tally.see(ONE_INEXACT[*i]);
    }
    let beyond = &chain.parts[parts.len()..];
    let rows = [
        (EXACT_TOTAL, inexact.is_empty()),
        (NONE_EXACT, inexact.len() == parts.len()),
        (ROUNDED_TOTAL, !inexact.is_empty() && (2.0 * value).fract() == 0.0),
        (OTHER_ORDER, sum(&listed) != value),
        (EQUAL, parts.windows(2).any(|two| two[0] == two[1])),
        (WITH_ZERO, parts[0] == 0),
        (BEYOND_COUNT, beyond.iter().any(|&d| d > MOST)),
    ];
    rows.into_iter().filter(|row| row.1).for_each(|row| tally.see(row.0));
}

/// What the run should have seen and did not.
pub fn missing(tally: &Tally) -> Vec<String> {
    let unseen = WANTED.iter().filter(|&&what| tally.count(what) == 0);
    unseen.map(|what| format!("never: {what}")).collect()
}

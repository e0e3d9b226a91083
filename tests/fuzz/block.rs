//! The block of thresholds of a draft: brought within its ranges, and changed about them and about what the job measures.

use crate::draft::{Boundary, Draft, LARGEST_WIDTH};
use crate::rng::Rng;
use crate::thresholds::{block, numbers, BLOCK};
use oracle::thresholds::Thresholds;

/// The sizes that a group may have.
const SIZES: [usize; 2] = [2, 16];
/// The bits of the largest length and of the largest cosine.
const LONGEST: u64 = LARGEST_WIDTH;
const STRAIGHT: u64 = 0x3FF0_0000_0000_0000;

/// A number within its range: what may not stand there is brought into it.
fn within(bits: u64, most: u64) -> f64 {
    f64::from_bits(if bits > most { bits % (most + 1) } else { bits })
}

/// The block that these bytes are nearest to and that is admitted.
pub fn mend(bytes: &mut Vec<u8>) {
    bytes.resize(BLOCK, 0);
    let read = numbers(bytes);
    let [low, high] = SIZES;
    let size = |size: usize| low + size.wrapping_sub(low) % (high + 1 - low);
    let most = size(read.most);
    let length = |length: f64| within(length.to_bits(), LONGEST);
    let mended = Thresholds {
        least: size(read.least).min(most),
        most,
        chain: length(read.chain),
        width: length(read.width),
        geometry: length(read.geometry),
        duplicate: length(read.duplicate),
        envelope: length(read.envelope),
        cosine: within(read.cosine.to_bits(), STRAIGHT),
    };
    *bytes = block(&mended).to_vec();
}

/// Those of 000; other sizes, often at an end of their range; or a limit at an end of its range or about what the job has.
pub fn change(draft: &mut Draft, rng: &mut Rng) {
    let mut now = numbers(&draft.thresholds);
    match rng.below(10) {
        0 => now = Thresholds::DECLARED,
        1..=3 => {
            let any = [0; 2].map(|_| rng.within(SIZES[0] as u32, SIZES[1] as u32) as usize);
            let any = [any[0].min(any[1]), any[0].max(any[1])];
            let sizes = [any, any, SIZES, [2, 2], [16, 16], [3, 4], [2, 4]];
            [now.least, now.most] = rng.pick(&sizes);
        }
        4 | 5 => now.chain = about(&chain(draft, rng), LONGEST, rng),
        6 => now.width = about(&[widths(draft, rng)], LONGEST, rng),
        7 => now.geometry = about(&[8.0, 16.0, 24.0, widths(draft, rng)], LONGEST, rng),
        8 => {
            let limit = about(&[8.0, 32.0, ends(draft, rng), ends(draft, rng)], LONGEST, rng);
            if rng.one_in(3) {
                now.envelope = limit;
            } else {
                now.duplicate = limit;
            }
        }
        _ => now.cosine = about(&[cosine(draft, rng)], STRAIGHT, rng),
    }
    draft.thresholds = block(&now).to_vec();
}

/// An end of the range, or one of these values, up to two units in the last place to either side.
fn about(values: &[f64], most: u64, rng: &mut Rng) -> f64 {
    let bits = rng.pick(values).to_bits().min(most);
    let ends = [0, 0, most, most];
    let bits = if rng.one_in(4) { rng.pick(&ends) } else { bits };
    let off = rng.pick(&[0, 0, 0, 1, -1, 2, -2]);
    f64::from_bits(bits.saturating_add_signed(off).min(most))
}

fn some<'a>(draft: &'a Draft, rng: &mut Rng) -> Option<&'a Boundary> {
    let count = draft.boundaries.len();
    (count > 0).then(|| &draft.boundaries[rng.below(count)])
}

fn two<'a>(draft: &'a Draft, rng: &mut Rng) -> Option<[&'a Boundary; 2]> {
    Some([some(draft, rng)?, some(draft, rng)?])
}

/// The length of a vector of half pixels, which is exact before its root is rounded.
fn length([x, y]: [f64; 2]) -> f64 {
    (x * x + y * y).sqrt()
}

/// The sum of the distances between the centres of boundaries that follow one another, in the order of
/// their centres, and the distance of the first and the last.
fn chain(draft: &Draft, rng: &mut Rng) -> [f64; 2] {
    let centre = |boundary: &Boundary| {
        let [ax, ay, bx, by] = boundary.ends.map(f64::from);
        [(ax + bx) / 2.0, (ay + by) / 2.0]
    };
    let mut centres: Vec<_> = draft.boundaries.iter().map(centre).collect();
    centres.sort_by(|left, right| left.partial_cmp(right).expect("numbers"));
    let from = rng.below(centres.len() + 1);
    let to = from + rng.below(centres.len() + 1 - from);
    let part = &centres[from..to];
    let apart = |pair: &[[f64; 2]]| length([0, 1].map(|i| pair[1][i] - pair[0][i]));
    let mut gaps: Vec<_> = part.windows(2).map(apart).collect();
    gaps.sort_by(f64::total_cmp);
    let ends = part.first().zip(part.last()).map_or(0.0, |(&a, &b)| apart(&[a, b]));
    [gaps.iter().sum(), ends]
}

/// By how much a boundary is wider than another, or half the width of one.
fn widths(draft: &Draft, rng: &mut Rng) -> f64 {
    let Some(pair) = two(draft, rng) else { return 0.0 };
    let [a, b] = pair.map(|boundary| f64::from_bits(boundary.bits));
    rng.pick(&[(a - b).abs(), (a - b).abs(), a / 2.0])
}

/// The distance between the first or the last ends of two boundaries.
fn ends(draft: &Draft, rng: &mut Rng) -> f64 {
    let Some(pair) = two(draft, rng) else { return 0.0 };
    let [a, b] = pair.map(|boundary| sorted(boundary.ends)[rng.below(2)]);
    length([a[0] - b[0], a[1] - b[1]])
}

/// The cosine of the angle between two boundaries, as 000 works it out.
fn cosine(draft: &Draft, rng: &mut Rng) -> f64 {
    let Some(pair) = two(draft, rng) else { return 0.0 };
    let [a, b] = pair.map(|boundary| {
        let [from, to] = sorted(boundary.ends);
        [to[0] - from[0], to[1] - from[1]]
    });
    let cosine = (a[0] * b[0] + a[1] * b[1]).abs() / length(a) / length(b);
    cosine.clamp(0.0, 1.0)
}

/// Two ends, the earlier first.
fn sorted([ax, ay, bx, by]: [u32; 4]) -> [[f64; 2]; 2] {
    let mut ends = [[ax, ay], [bx, by]];
    ends.sort_unstable();
    ends.map(|end| end.map(f64::from))
}

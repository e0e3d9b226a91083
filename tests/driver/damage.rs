//! Damage aimed at each refusal. What an input then deserves is for checks.rs to say: two kinds
//! of damage may meet, and one may hide or undo another.

use crate::draft::{Draft, Length, Patch, LARGEST_WIDTH, NO_ANCHOR};
use crate::rng::Rng;

/// The refusals that the checks can give.
pub const REFUSALS: [u32; 16] = [1, 2, 3, 4, 5, 6, 7, 8, 9, 10, 11, 12, 14, 15, 16, 17];

/// Damages the draft in a way that can lead to the refusal.
pub fn damage(refusal: u32, draft: &mut Draft, rng: &mut Rng) {
    match refusal {
        1 => short(draft, rng),
        2 => sides(draft, rng),
        3 => counts(draft, rng),
        4 => boundary_count(draft, rng),
        5 => layout(draft, rng),
        6 => cell(draft, rng),
        7 => anchor(draft, rng),
        8 => sums(draft, rng),
        9 => ramp(draft, rng),
        10 => {
            let i = a_boundary(draft, rng);
            draft.boundaries[i].bits = bad_width(rng);
        }
        11 => {
            let i = a_boundary(draft, rng);
            draft.boundaries[i].ends = ends_past(draft, rng);
        }
        12 => {
            let i = a_boundary(draft, rng);
            draft.boundaries[i].ends = coincident(draft, rng);
        }
        14 => draft.list_tail = (0..rng.within(1, 15)).map(|_| rng.byte()).collect(),
        15 => {
            let spans = rng.pick(&[257, 257, 257, 258, 300, 512, 1000]);
            draft.list = (0..spans).map(|_| draft.span(rng)).collect();
        }
        16 => {
            let i = a_span(draft, rng);
            draft.list[i] = ends_past(draft, rng);
        }
        17 => {
            let i = a_span(draft, rng);
            draft.list[i] = coincident(draft, rng);
        }
        _ => unreachable!("no such refusal"),
    }
}

/// An index of `count` records: often the first or the last.
fn an_index(count: usize, rng: &mut Rng) -> usize {
    let any = rng.below(count);
    rng.pick(&[0, count - 1, any, any])
}

/// The index of a boundary, made where there is none.
fn a_boundary(draft: &mut Draft, rng: &mut Rng) -> usize {
    if draft.boundaries.is_empty() {
        let boundary = draft.boundary(rng);
        draft.boundaries.push(boundary);
    }
    an_index(draft.boundaries.len(), rng)
}

/// The index of a span, made where there is none.
fn a_span(draft: &mut Draft, rng: &mut Rng) -> usize {
    if draft.list.is_empty() {
        let span = draft.span(rng);
        draft.list.push(span);
    }
    an_index(draft.list.len(), rng)
}

fn short(draft: &mut Draft, rng: &mut Rng) {
    let any = rng.below(48);
    draft.length = Some(Length::To(rng.pick(&[0, 47, any, any])));
}

fn sides(draft: &mut Draft, rng: &mut Rng) {
    let side = rng.below(2);
    let any = rng.word();
    let bad = rng.pick(&[0, 1025, 1026, 2048, 65_536, 1 << 31, u32::MAX, any]);
    // Sides whose records are laid out in keeping with them, so that nothing else is wrong.
    match rng.below(4) {
        0 => match side {
            0 => (draft.width, draft.cells) = (0, vec![]),
            _ => (draft.height, draft.cells) = (0, vec![]),
        },
        1 => {
            [draft.width, draft.height] = if side == 0 { [1025, 1] } else { [1, 1025] };
            draft.cells = vec![1; 1025];
        }
        // A product that wraps to no cells.
        2 => (draft.width, draft.height, draft.cells) = (65_536, 65_536, vec![]),
        _ => draft.patches.push(Patch::Set(side, bad)),
    }
}

fn counts(draft: &mut Draft, rng: &mut Rng) {
    let (observations, sources) = (draft.observations.len(), draft.sources.len());
    match rng.below(6) {
        0 => {
            let bases = rng.pick(&[257, 258, 300]);
            draft.bases = (0..bases).map(|_| draft.base(rng)).collect();
        }
        1 => {
            a_boundary(draft, rng);
            draft.share(rng.pick(&[1025, 1026, 1100]), sources, rng);
        }
        2 => {
            a_boundary(draft, rng);
            draft.share(observations, rng.pick(&[4097, 4098, 5000]), rng);
        }
        3 => {
            let (word, over) = rng.pick(&[(2, 257), (4, 1025), (5, 4097)]);
            draft.patches.push(Patch::Set(word, over));
        }
        // Counts whose bytes wrap to the same length.
        4 => {
            let (word, more) = rng.pick(&[(2, 1 << 30), (4, 1 << 30), (5, 1 << 29)]);
            draft.patches.push(Patch::Add(word, more));
        }
        _ => draft.patches.push(Patch::Set(rng.pick(&[2, 4, 5]), u32::MAX - rng.word() % 3)),
    }
}

fn boundary_count(draft: &mut Draft, rng: &mut Rng) {
    match rng.below(4) {
        0 | 1 => {
            let boundaries = rng.pick(&[257, 257, 258, 300]);
            while draft.boundaries.len() < boundaries {
                let boundary = draft.boundary(rng);
                draft.boundaries.push(boundary);
            }
        }
        // 40 bytes each wrap to the same length.
        2 => draft.patches.push(Patch::Add(3, rng.pick(&[1 << 29, 1 << 30, 1 << 31]))),
        _ => draft.patches.push(Patch::Set(3, rng.pick(&[257, 512, 1 << 16, u32::MAX]))),
    }
}

fn layout(draft: &mut Draft, rng: &mut Rng) {
    let any = rng.word();
    let off = rng.pick(&[1, u32::MAX, 4, 8, 1 << 31, any]);
    let word = 6 + rng.below(6);
    match rng.below(7) {
        0 => draft.length = Some(Length::By(rng.pick(&[-1, 1, -8, 8, 16, -40, 100]))),
        1 => draft.gap = Some((rng.below(5), rng.pick(&[1, 4, 8, 12]))),
        // The total and the slice agree, the counts do not.
        2 => {
            let more = rng.pick(&[1, 4, 8]);
            draft.length = Some(Length::By(more));
            draft.patches.push(Patch::Add(11, more as u32));
        }
        // A count or a side that is one off.
        3 => draft.patches.push(Patch::Add(rng.below(6), rng.pick(&[1, u32::MAX]))),
        4 => draft.patches.push(Patch::Set(word, rng.pick(&[0, 48, u32::MAX]))),
        _ => draft.patches.push(Patch::Add(word, off)),
    }
}

fn cell(draft: &mut Draft, rng: &mut Rng) {
    if !draft.cells.is_empty() {
        let i = an_index(draft.cells.len(), rng);
        draft.cells[i] |= rng.pick(&[32, 64, 128, 224]);
    }
}

fn anchor(draft: &mut Draft, rng: &mut Rng) {
    let (width, height) = (draft.width, draft.height);
    let (column, row) = (width.saturating_sub(1), height.saturating_sub(1));
    let off = rng.pick(&[
        [width, row],
        [column, height],
        [width, height],
        [NO_ANCHOR, row],
        [column, NO_ANCHOR],
        [NO_ANCHOR, NO_ANCHOR - 1],
        [NO_ANCHOR - 1, NO_ANCHOR],
        // Off the map unless column and row change places.
        [row.max(column) + 1, 0],
        [height - height.min(1), width - width.min(1)],
        [1 << 31, 0],
    ]);
    if draft.bases.is_empty() {
        let base = draft.base(rng);
        draft.bases.push(base);
    }
    let i = an_index(draft.bases.len(), rng);
    draft.bases[i][1..].copy_from_slice(&off);
}

fn sums(draft: &mut Draft, rng: &mut Rng) {
    let i = a_boundary(draft, rng);
    if draft.boundaries.len() < 2 {
        let boundary = draft.boundary(rng);
        draft.boundaries.push(boundary);
    }
    let other = (i + 1) % draft.boundaries.len();
    let one = rng.pick(&[1, u32::MAX]);
    let add = |count: &mut u32, more: u32| *count = count.wrapping_add(more);
    match rng.below(8) {
        0 => add(&mut draft.boundaries[i].observations, one),
        1 => add(&mut draft.boundaries[i].sources, one),
        2 if !draft.observations.is_empty() => {
            let k = an_index(draft.observations.len(), rng);
            add(&mut draft.observations[k].sources, one);
        }
        // Sums that are right only as u32: two halves of 2^32, or one below zero.
        3 | 4 => {
            let (more, less) = rng.pick(&[(1 << 31, 1 << 31), (1, u32::MAX), (u32::MAX, 1)]);
            add(&mut draft.boundaries[i].observations, more);
            add(&mut draft.boundaries[other].observations, less);
        }
        5 => {
            add(&mut draft.boundaries[i].sources, 1 << 31);
            match draft.observations.first_mut() {
                Some(observation) => add(&mut observation.sources, 1 << 31),
                None => add(&mut draft.boundaries[other].sources, 1 << 31),
            }
        }
        // One kind of count too many, the other too few.
        6 => {
            add(&mut draft.boundaries[i].observations, one);
            add(&mut draft.boundaries[i].sources, one.wrapping_neg());
        }
        _ => {
            add(&mut draft.boundaries[i].sources, u32::MAX);
            add(&mut draft.boundaries[other].sources, 1);
        }
    }
}

fn ramp(draft: &mut Draft, rng: &mut Rng) {
    let i = a_boundary(draft, rng);
    let boundary = &mut draft.boundaries[i];
    let some = rng.pick(&[1, 2, 128, 255]);
    match rng.below(5) {
        0 => boundary.ramp[0] = rng.pick(&[3, 4, 128, 255]),
        1 => boundary.ramp[3] = some,
        2 => boundary.ramp[..2].copy_from_slice(&[0, some]),
        3 => (boundary.ramp[0], boundary.ramp[2]) = (0, some),
        _ => {
            boundary.ramp[0] = 0;
            boundary.ramp_id = rng.pick(&[1, 1 << 8, 1 << 16, 1 << 24, u32::MAX]);
        }
    }
}

/// Width bits that are not those of +0 to 16,384.
pub fn bad_width(rng: &mut Rng) -> u64 {
    let over = LARGEST_WIDTH + 1 + rng.next() % (u64::MAX - LARGEST_WIDTH);
    rng.pick(&[
        LARGEST_WIDTH + 1,
        LARGEST_WIDTH + (1 << 32),
        (-0.0_f64).to_bits(),
        1 << 63 | 1,
        (-8.0_f64).to_bits(),
        f64::INFINITY.to_bits(),
        f64::NEG_INFINITY.to_bits(),
        0x7FF8_0000_0000_0000,
        0x7FF0_0000_0000_0001,
        0xFFF8_0000_0000_0000,
        u64::MAX,
        over,
    ])
}

/// A span with one coordinate past the map.
fn ends_past(draft: &Draft, rng: &mut Rng) -> [u32; 4] {
    let mut ends = draft.span(rng);
    let which = rng.below(4);
    let sides = [draft.width, draft.height].map(|side| side.saturating_mul(8));
    let (limit, across) = (sides[which % 2], sides[1 - which % 2]);
    let least = limit.saturating_add(1);
    // Within the map only if column and row change places.
    let swapped = across.max(least);
    ends[which] = rng.pick(&[least, least, least.saturating_add(7), swapped, 1 << 31, u32::MAX]);
    if rng.one_in(8) {
        // Both ends past the map, and the same.
        ends = [ends[which]; 4];
    }
    ends
}

/// A span with one point for both ends.
fn coincident(draft: &Draft, rng: &mut Rng) -> [u32; 4] {
    let [x, y] = draft.point(rng);
    [x, y, x, y]
}

/// A good block damaged in each way in turn: its length, each word of its header, each size, each f64.
pub fn blocks(good: &[u8]) -> Vec<Vec<u8>> {
    let word = |at: usize| u32::from_le_bytes(good[at..at + 4].try_into().expect("four bytes"));
    let (smallest, largest) = (word(8), word(12));
    let lengths = [0, 1, 4, 8, 16, 32, 56, 60, 63, 65, 68, 72, 80, 128].into_iter().map(|length| {
        let mut block = good.to_vec();
        block.resize(length, 8);
        block
    });
    let header = [0, 7, 9, 16, 64, 8 << 8, 8 << 24, 8 | 1 << 31, u32::MAX];
    let small = [0, 1, largest + 1, 17, smallest | 1 << 31, smallest + 256, u32::MAX];
    let large = [17, 18, 0, smallest - 1, 16 + (1 << 16), largest | 1 << 31, u32::MAX];
    let words = header.iter().flat_map(|&value| [(0, value), (4, value)]);
    let words = words.chain(small.map(|value| (8, value))).chain(large.map(|value| (12, value)));
    let words = words.map(|(at, value)| with(good, at, &value.to_le_bytes()));
    let measures = (2..8).flat_map(|i| {
        let most = if i < 7 { LARGEST_WIDTH } else { LARGEST_COSINE };
        let bits = bad_measures(most).into_iter();
        bits.map(move |bits| with(good, 8 * i, &bits.to_le_bytes())).collect::<Vec<_>>()
    });
    lengths.chain(words).chain(measures).collect()
}

/// The bits of 1.0.
const LARGEST_COSINE: u64 = 0x3FF0_0000_0000_0000;

/// Bits of f64 that are not from +0 to a limit.
fn bad_measures(most: u64) -> [u64; 13] {
    [
        most + 1,
        most + (1 << 32),
        most + (1 << 52),
        (-0.0_f64).to_bits(),
        1 << 63 | 1,
        (-1.0_f64).to_bits(),
        1 << 63 | most,
        f64::INFINITY.to_bits(),
        f64::NEG_INFINITY.to_bits(),
        0x7FF8_0000_0000_0000,
        0x7FF0_0000_0000_0001,
        0xFFF8_0000_0000_0000,
        u64::MAX,
    ]
}

/// The block with other bytes at a place.
fn with(block: &[u8], at: usize, bytes: &[u8]) -> Vec<u8> {
    let mut block = block.to_vec();
    block[at..at + bytes.len()].copy_from_slice(bytes);
    block
}

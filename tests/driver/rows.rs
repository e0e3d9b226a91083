//! Corridors with many spans across them: chains and flat groups of any size.

use crate::corridors::{list, mirror, transpose};
use crate::draft::{valid, Boundary, Draft, LARGEST_WIDTH};
use crate::rng::Rng;
use crate::values::shuffled;

pub const FLAT: u8 = 1;
pub const RAMP: u8 = 5;
/// Rows of wall above and below a corridor, and how far past it a span may reach.
const WALL: u32 = 2;
const PAST: u32 = 12;

/// So many spans across a corridor of some rows, aslant alike or fanning out. `round` is a second way round them, which a
/// span closes, so that no span is a bridge; an anchor at either side then keeps their links apart from that span.
pub fn row(count: usize, cell: u8, round: bool, rng: &mut Rng) -> Draft {
    let rows = rng.pick(&[1, 1, 1, 2, 3]);
    let gap = rng.pick(&[8, 8, 9, 12, 16, 20, 33]);
    let less = if gap > 9 { rng.pick(&[0, 0, 1, 3]) } else { 0 };
    let (slant, uneven) = (rng.pick(&[0, 0, 1, 3]), rng.one_in(2));
    let first = 16 + rng.within(0, 7);
    let mut draft = valid([1, 1], [0; 5], rng);
    let (top, bottom) = (8 * WALL, 8 * (WALL + rows));
    let mut upper = first;
    let mut lower = first + slant;
    let widths = widths(rows, rng);
    for _ in 0..count {
        let past = |rng: &mut Rng| if uneven { rng.within(0, PAST) } else { 0 };
        let ends = [upper, top - past(rng), lower, bottom + past(rng)];
        let bits = wide(widths, rng);
        draft.boundaries.push(Boundary { ends, bits, ..Boundary::default() });
        let more = if uneven { 8 * rng.within(0, 1) } else { 0 };
        upper += gap + more;
        lower += gap - less + more;
    }
    let width = upper.max(lower) / 8 + 3;
    let height = 2 * WALL + rows + if round { 2 } else { 0 };
    (draft.width, draft.height) = (width, height);
    let way = WALL + rows + WALL;
    draft.cells = (0..width * height)
        .map(|i| {
            let (column, row) = (i % width, i / width);
            let through = (WALL..WALL + rows).contains(&row);
            let edge = (WALL..=way).contains(&row) && [0, width - 1].contains(&column);
            if through || round && (edge || row == way) {
                cell
            } else {
                0
            }
        })
        .collect();
    if round {
        let middle = 8 * (width / 2);
        let ends = [middle, 8 * way, middle, 8 * way + 8];
        draft.boundaries.push(Boundary { ends, bits: widths, ..Boundary::default() });
        draft.bases = vec![[1, 0, way], [2, width - 1, way]];
    }
    turned(&mut draft, rng);
    draft
}

/// Width bits at which links pass in a corridor of so many rows, or just not.
fn widths(rows: u32, rng: &mut Rng) -> u64 {
    let across = f64::from(8 * rows + 2 * PAST);
    rng.pick(&[across, across, f64::from(8 * rows), 200.0, 16_384.0]).to_bits()
}

/// That or a bit more.
fn wide(bits: u64, rng: &mut Rng) -> u64 {
    let more = rng.pick(&[0.0, 0.0, 0.0, 1.5, 3.25, 8.0]);
    (f64::from_bits(bits) + more).to_bits().min(LARGEST_WIDTH)
}

/// The boundaries in any order with their ends either way round, the map any way, some sources and observations.
pub fn turned(draft: &mut Draft, rng: &mut Rng) {
    for boundary in &mut draft.boundaries {
        if rng.one_in(2) {
            boundary.ends.rotate_left(2);
        }
    }
    draft.boundaries = shuffled(std::mem::take(&mut draft.boundaries), rng);
    if rng.one_in(2) {
        mirror(draft);
    }
    if rng.one_in(2) {
        transpose(draft);
    }
    if rng.one_in(6) {
        list(draft, rng);
    } else {
        draft.list = draft.boundaries.iter().map(|boundary| boundary.ends).collect();
    }
    let (observations, sources) = (rng.below(6), rng.below(12));
    draft.share(observations, sources, rng);
}

/// So many corridors of one row, with a row of wall between, each with so many upright spans 16 pixels apart.
pub fn upright(corridors: usize, count: usize, cell: u8) -> Draft {
    let (width, height) = (2 * count as u32 + 2, 2 * corridors as u32 - 1);
    let places = || (0..corridors as u32).flat_map(|j| (0..count as u32).map(move |i| (i, j)));
    let ends = |(i, j): (u32, u32)| [16 * i + 16, 16 * j, 16 * i + 16, 16 * j + 8];
    let boundary = |place: (u32, u32)| Boundary {
        ends: ends(place),
        bits: 8.0_f64.to_bits(),
        sources: 1,
        ..Boundary::default()
    };
    let open = |at: u32| if at / width % 2 == 0 { cell } else { 0 };
    Draft {
        width,
        height,
        cells: (0..width * height).map(open).collect(),
        boundaries: places().map(boundary).collect(),
        sources: places().map(|(i, j)| [i, j]).collect(),
        list: places().map(ends).collect(),
        ..Draft::default()
    }
}

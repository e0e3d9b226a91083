//! Changes of the values of a job, a list and a block.

use crate::block;
use crate::case::Case;
use crate::damage::{self, REFUSALS};
use crate::draft::{Boundary, Draft};
use crate::nearest::{mend, nearest};
use crate::orders::{sources, LISTINGS};
use crate::rng::Rng;

/// The nearest input that is accepted, changed a little where asked, and damaged one time in eight.
pub fn mutate(case: &mut Case, change: bool, rng: &mut Rng) {
    if rng.one_in(4) {
        (case.lengths, case.fill) = (rng.byte(), rng.byte());
    }
    let mut draft = nearest(&case.input);
    let changes = if change { rng.pick(&[1, 1, 1, 2, 3, 5]) } else { 0 };
    for _ in 0..changes {
        match rng.below(11) {
            0 | 1 => terrain(&mut draft, rng),
            2 => bases(&mut draft, rng),
            3 | 4 => boundaries(&mut draft, rng),
            5 => fields(&mut draft, rng),
            6 => spans(&mut draft, rng),
            7 => own_sources(&mut draft, rng),
            8 | 9 => block::change(&mut draft, rng),
            _ => records(&mut draft, rng),
        }
        mend(&mut draft);
    }
    if change && rng.one_in(8) {
        let kind = rng.below(8);
        if kind < 3 {
            let blocks = damage::blocks(&draft.thresholds);
            draft.thresholds.clone_from(&blocks[rng.below(blocks.len())]);
        }
        if kind > 1 {
            damage::damage(rng.pick(&REFUSALS), &mut draft, rng);
        }
    }
    case.input = draft.input();
}

/// A cell, a block of cells, or a row or column more or fewer.
fn terrain(draft: &mut Draft, rng: &mut Rng) {
    let [width, height] = [draft.width, draft.height];
    let any = rng.byte();
    let value = rng.pick(&[0, 0, 1, 1, 5, 9, 17, any]);
    let column = rng.below(width as usize) as u32;
    let row = rng.below(height as usize) as u32;
    match rng.below(5) {
        0 => draft.cells[(row * width + column) as usize] = value,
        1..=3 => {
            let [columns, rows] = rng.pick(&[[1, height], [width, 1], [2, 2], [1, 3], [3, 1]]);
            for y in row..(row + rows).min(height) {
                for x in column..(column + columns).min(width) {
                    draft.cells[(y * width + x) as usize] = value;
                }
            }
        }
        _ => {
            let near = |side: u32, rng: &mut Rng| (side + rng.within(0, 2)).clamp(2, 1025) - 1;
            let sides = [near(width, rng), near(height, rng)];
            let cell = |x: u32, y: u32| {
                draft.cells[(y.min(height - 1) * width + x.min(width - 1)) as usize]
            };
            let rows = (0..sides[1]).flat_map(|y| (0..sides[0]).map(move |x| (x, y)));
            draft.cells = rows.map(|(x, y)| cell(x, y)).collect();
            [draft.width, draft.height] = sides;
        }
    }
}

/// A base more, fewer, or another.
fn bases(draft: &mut Draft, rng: &mut Rng) {
    if draft.bases.is_empty() || rng.one_in(3) {
        draft.bases.push(draft.base(rng));
        return;
    }
    let i = rng.below(draft.bases.len());
    if rng.one_in(2) {
        draft.bases.remove(i);
    } else {
        draft.bases[i] = draft.base(rng);
    }
}

/// A boundary more, often beside another; one fewer; two exchanged.
fn boundaries(draft: &mut Draft, rng: &mut Rng) {
    let count = draft.boundaries.len();
    if count == 0 || rng.one_in(5) {
        draft.boundaries.push(draft.boundary(rng));
        return;
    }
    let (i, j) = (rng.below(count), rng.below(count));
    match rng.below(6) {
        0..=2 => {
            let mut beside = draft.boundaries[i].clone();
            let shift = [shift(rng), shift(rng)];
            let along = rng.below(3);
            for (at, end) in beside.ends.iter_mut().enumerate() {
                if along != at % 2 {
                    *end = end.saturating_add_signed(shift[at % 2]);
                }
            }
            draft.boundaries.insert(j, beside);
        }
        3 | 4 => {
            draft.boundaries.remove(i);
        }
        _ => draft.boundaries.swap(i, j),
    }
}

/// A way to move: a pixel, some pixels, or whole cells.
fn shift(rng: &mut Rng) -> i32 {
    let some = rng.within(1, 40) as i32;
    let by = rng.pick(&[1, 4, 8, 16, 24, 128, some]);
    if rng.one_in(2) {
        by
    } else {
        -by
    }
}

/// A span from one edge of the map to the other along the edges of cells, which may cut several areas.
fn across(draft: &Draft, rng: &mut Rng) -> [u32; 4] {
    let [right, bottom] = [draft.width, draft.height].map(|side| 8 * side);
    let [x, y] = [draft.width, draft.height].map(|side| 8 * rng.within(0, side));
    rng.pick(&[[0, y, right, y], [x, 0, x, bottom]])
}

/// An end, a width or a ramp of a boundary.
fn fields(draft: &mut Draft, rng: &mut Rng) {
    let count = draft.boundaries.len();
    if count == 0 {
        return;
    }
    let (i, other) = (rng.below(count), rng.below(count));
    let other = draft.boundaries[other].clone();
    let any = draft.boundary(rng);
    let across = across(draft, rng);
    let Boundary { ends, bits, ramp, ramp_id, .. } = &mut draft.boundaries[i];
    match rng.below(9) {
        0..=2 => {
            let end = &mut ends[rng.below(4)];
            *end = end.saturating_add_signed(shift(rng));
        }
        3 => *ends = any.ends,
        4 => ends.rotate_left(2),
        5 => *bits = rng.pick(&[any.bits, other.bits, other.bits.wrapping_add(1)]),
        6 => (*ramp, *ramp_id) = (other.ramp, other.ramp_id),
        7 => *ends = across,
        _ => (*ramp, *ramp_id) = (any.ramp, any.ramp_id),
    }
}

/// The list: the boundaries' own ends, or a span more, fewer, moved.
fn spans(draft: &mut Draft, rng: &mut Rng) {
    let count = draft.list.len();
    if count == 0 || rng.one_in(3) {
        draft.list = draft.boundaries.iter().map(|boundary| boundary.ends).collect();
        return;
    }
    let i = rng.below(count);
    match rng.below(6) {
        0 => draft.list.push(draft.span(rng)),
        1 => {
            draft.list.remove(i);
        }
        2 => draft.list[i] = draft.span(rng),
        _ => {
            let end = &mut draft.list[i][rng.below(4)];
            *end = end.saturating_add_signed(shift(rng));
        }
    }
}

/// Observations and sources given out anew, or one of them set to another's values.
fn records(draft: &mut Draft, rng: &mut Rng) {
    let (observations, sources) = (draft.observations.len(), draft.sources.len());
    match rng.below(3) {
        0 if observations > 1 => {
            let from = draft.observations[rng.below(observations)].clone();
            let to = &mut draft.observations[rng.below(observations)];
            (to.ends, to.bits) = (from.ends, from.bits);
        }
        1 if sources > 1 => {
            let from = draft.sources[rng.below(sources)];
            draft.sources[rng.below(sources)] = from;
        }
        _ => {
            let (observations, sources) = (rng.below(8), rng.below(16));
            draft.share(observations, sources, rng);
        }
    }
}

/// Where the own sources of a boundary are among all.
fn own(draft: &Draft, boundary: usize) -> std::ops::Range<usize> {
    let before = &draft.boundaries[..boundary];
    let seen: usize = before.iter().map(|boundary| boundary.observations as usize).sum();
    let own: u32 = before.iter().map(|boundary| boundary.sources).sum();
    let observed: u32 = draft.observations[..seen].iter().map(|seen| seen.sources).sum();
    let start = (own + observed) as usize;
    start..start + draft.boundaries[boundary].sources as usize
}

/// The own sources of a boundary: others in an order, or besides them those of another boundary or their own again.
fn own_sources(draft: &mut Draft, rng: &mut Rng) {
    if draft.boundaries.is_empty() {
        return;
    }
    let [i, j] = [0; 2].map(|_| rng.below(draft.boundaries.len()));
    let (place, other) = (own(draft, i), own(draft, j));
    let list = match rng.below(3) {
        0 => sources(rng.pick(&[3, 12, 13, 24, 64, 65, 200]), rng.pick(&LISTINGS), rng),
        1 => [&draft.sources[place.clone()], &draft.sources[other]].concat(),
        _ => draft.sources[place.clone()].repeat(2),
    };
    if draft.sources.len() - place.len() + list.len() <= 1500 {
        draft.boundaries[i].sources = list.len() as u32;
        draft.sources.splice(place, list);
    }
}

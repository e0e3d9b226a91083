//! Jobs that merge often: corridors with chains of spans across them, about the limits of 000.

use crate::draft::{valid, Boundary, Draft, LARGEST_WIDTH};
use crate::maps;
use crate::rng::Rng;
use crate::values::shuffled;

const COSINE_SLANT: f64 = 0.267_949_192_431_122_7; // tan(15 degrees)

/// What lies below the part of a corridor between two spans.
#[derive(Clone, Copy)]
enum Below {
    Wall,
    /// Open cells, so many rows deep.
    Pocket(u32),
    /// A passage two rows down that goes on so many columns past the next span.
    Hook(u32),
    /// A room apart, into which the next span reaches without parting it.
    Room,
}

/// How far a span goes past the walls to reach into a room.
const INTO_ROOM: u32 = 12;

/// A corridor from left to right, and its spans in pixels from its upper left corner.
struct Corridor {
    rows: u32,
    columns: u32,
    /// For each span: the columns of its upper and lower end, how far past the walls it goes.
    spans: Vec<[u32; 3]>,
    below: Vec<Below>,
    widths: Vec<u64>,
}

/// Distances between spans whose sum is of one of these kinds: about the limits of chains and of
/// flat groups, or short.
fn gaps(count: usize, rng: &mut Rng) -> Vec<u32> {
    let any = 8 * rng.within(count as u32, 3 * count as u32);
    let near = rng.pick(&[128, 128, 127, 129, 120, 136]);
    let far = rng.pick(&[384, 384, 384, 383, 385, 376, 392]);
    let total = rng.pick(&[any, any, near, near, far]);
    let mut gaps = vec![total / count as u32 / 8 * 8; count];
    for _ in 0..rng.below(6) {
        let (from, to) = (rng.below(count), rng.below(count));
        if gaps[from] > 16 {
            gaps[from] -= 8;
            gaps[to] += 8;
        }
    }
    let rest = total - gaps.iter().sum::<u32>();
    gaps[rng.below(count)] += rest;
    gaps
}

fn corridor(rng: &mut Rng) -> Corridor {
    let rows = rng.pick(&[1, 1, 2, 2, 2, 3, 3, 4, 5, 5, 5, 8, 7, 10]);
    let count = rng.pick(&[2, 2, 3, 3, 3, 4, 4, 4, 5]);
    let first = 8 * rng.within(1, 3) + rng.pick(&[0, 0, 0, 4, 1]);
    let mut column = first;
    let mut spans = vec![[column, column, 0]];
    for gap in gaps(count - 1, rng) {
        column += gap;
        spans.push([column, column, 0]);
    }
    // In 7 rows a slant of 15 pixels is just parallel enough; in 10, a pixel past both walls, one of
    // 22 just isn't.
    let about_cosine = matches!(rows, 7 | 10);
    let past = about_cosine || rng.one_in(3);
    for span in &mut spans {
        if past {
            span[2] = rng.pick(&[0, 0, 1, 1, 3]);
        }
        if rng.one_in(if about_cosine { 3 } else { 10 }) {
            let across = 8 * rows + 2 * span[2];
            let parallel = (COSINE_SLANT * f64::from(across)) as u32;
            let slant = rng.pick(&[1, parallel, parallel, parallel + 1, parallel + 1]);
            span[rng.below(2)] += slant;
        }
    }
    // A passage past the next span by half the width and 16 pixels is at a link's limit.
    let limit = rows / 2 + 2;
    let below = |rng: &mut Rng| match rng.below(24) {
        0 | 1 => Below::Pocket(rng.within(1, 6)),
        2 | 3 => Below::Hook(rng.within(1, 6)),
        4 => Below::Hook(limit + rng.within(0, 1)),
        5 => Below::Room,
        _ => Below::Wall,
    };
    let below: Vec<_> = (1..count).map(|_| below(rng)).collect();
    for (span, below) in spans[1..].iter_mut().zip(&below) {
        if matches!(below, Below::Room) {
            span[2] = INTO_ROOM;
        }
    }
    let widths = widths(rows, count, rng);
    Corridor { rows, columns: column / 8 + rng.within(3, 5), spans, below, widths }
}

/// Widths about the least for which a corridor of so many rows passes, about those where the flat
/// tolerance begins to grow, and apart by the width tolerance or a bit more.
fn widths(rows: u32, count: usize, rng: &mut Rng) -> Vec<u64> {
    let across = f64::from(8 * rows);
    let least = ((across - 16.0) / 1.5).max(0.0);
    let base = rng.pick(&[across, across, across, least, least, 0.0, 128.0, 160.0, 16_384.0]);
    let off = if rng.one_in(3) { rng.pick(&[1, -1, -2, -3, -4, -5]) } else { 0 };
    let base = f64::from_bits(base.to_bits().saturating_add_signed(off));
    let wide = |rng: &mut Rng| {
        let more = rng.pick(&[0.0, 0.0, 0.0, 0.0, 8.0, 8.0, 7.5, 24.0]);
        let bits = (base + more).to_bits() + u64::from(more == 8.0 && rng.one_in(2));
        bits.min(LARGEST_WIDTH)
    };
    (0..count).map(|_| wide(rng)).collect()
}

/// Opens the corridor's cells from a row down; the number of rows that it takes.
fn dig(corridor: &Corridor, cells: &mut [u8], width: u32, top: u32, cell: u8) -> u32 {
    let mut open = |column: u32, row: u32| {
        if column < width {
            cells[((top + row) * width + column) as usize] = cell;
        }
    };
    for (row, column) in
        (0..corridor.rows).flat_map(|row| (0..corridor.columns).map(move |column| (row, column)))
    {
        open(column, row);
    }
    for (below, spans) in corridor.below.iter().zip(corridor.spans.windows(2)) {
        let (from, to) = (spans[0][0].div_ceil(8), spans[1][0] / 8);
        match *below {
            _ if from >= to => {}
            Below::Wall => {}
            Below::Pocket(depth) => {
                for row in 0..depth {
                    (from..to).for_each(|column| open(column, corridor.rows + row));
                }
            }
            Below::Hook(reach) => {
                open(to - 1, corridor.rows);
                (to - 1..to + reach).for_each(|column| open(column, corridor.rows + 1));
            }
            Below::Room => {
                for row in 1..4 {
                    (to - 1..to + 2).for_each(|column| open(column, corridor.rows + row));
                }
            }
        }
    }
    corridor.rows + 7
}

/// A job of corridors along the axes, or of one along a diagonal.
pub fn random(rng: &mut Rng) -> Draft {
    let mut draft = if rng.one_in(5) { diagonal(rng) } else { straight(rng) };
    disturb(&mut draft, rng);
    if rng.one_in(2) {
        mirror(&mut draft);
    }
    if rng.one_in(2) {
        transpose(&mut draft);
    }
    list(&mut draft, rng);
    let (observations, sources) = (rng.below(6), rng.below(12));
    draft.share(observations, sources, rng);
    draft
}

/// A band of cells about a line that falls by a row for each one or two columns, with spans across
/// it that are nearly square to it.
fn diagonal(rng: &mut Rng) -> Draft {
    let (half, fall) = (rng.within(1, 3), rng.within(1, 2));
    let count = rng.pick(&[2, 3, 3, 4, 4, 5]);
    let step = 8 * rng.within(2, 4);
    let side = (step * (count as u32 + 1)).div_ceil(8) + 2;
    let mut draft = valid([side, side], [0; 5], rng);
    let near = |column: u32, row: u32| (column / fall).abs_diff(row) <= half;
    draft.cells = (0..side * side).map(|cell| u8::from(near(cell % side, cell / side))).collect();
    let widths = widths(2 * half + 1, count, rng);
    let across = 4 * half + rng.pick(&[4, 6, 8]);
    for (i, bits) in widths.into_iter().enumerate() {
        let along = step * (i as u32 + 1) + rng.pick(&[0, 0, 4, 1]);
        let (column, row) = (along, along / fall + 4);
        let ends = [
            column.saturating_sub(across),
            row + across * fall,
            column + across,
            row.saturating_sub(across * fall),
        ];
        let ends = ends.map(|at| at.min(8 * side));
        draft.boundaries.push(Boundary { ends, bits, ..Boundary::default() });
    }
    draft
}

/// A job of up to three corridors, joined at the left, at both ends or nowhere.
fn straight(rng: &mut Rng) -> Draft {
    let mut corridors: Vec<_> = (0..rng.pick(&[1, 1, 1, 2, 3])).map(|_| corridor(rng)).collect();
    let width = corridors.iter().map(|corridor| corridor.columns).max().expect("some") + 1;
    let [left, right] = rng.pick(&[[false, false], [true, false], [true, false], [true, true]]);
    if right {
        corridors.iter_mut().for_each(|corridor| corridor.columns = width);
    }
    let height = 1 + corridors.iter().map(|corridor| corridor.rows + 7).sum::<u32>();
    let cell = 1 | rng.pick(&[0, 0, 2, 8, 24]);
    let mut draft = valid([width, height], [0; 5], rng);
    draft.cells.fill(rng.pick(&[0, 0, 6]));
    let mut top = 1;
    for corridor in &corridors {
        let bottom = 8 * (top + corridor.rows);
        for (&[upper, lower, past], &bits) in corridor.spans.iter().zip(&corridor.widths) {
            let ends = [upper, (8 * top).saturating_sub(past), lower, bottom + past];
            draft.boundaries.push(Boundary { ends, bits, ..Boundary::default() });
        }
        top += dig(corridor, &mut draft.cells, width, top, cell);
    }
    for row in draft.cells.chunks_exact_mut(width as usize) {
        row[0] |= u8::from(left);
        row[width as usize - 1] |= u8::from(right);
    }
    draft
}

/// Now and then: other elevations, ramps, anchors, a ramp boundary, a span of any kind; the
/// boundaries in any order with their ends either way round.
fn disturb(draft: &mut Draft, rng: &mut Rng) {
    let cells = draft.cells.len();
    for _ in 0..rng.pick(&[0, 0, 0, 1, 4]) {
        draft.cells[rng.below(cells)] ^= rng.pick(&[4, 8, 16]);
    }
    for _ in 0..rng.pick(&[0, 0, 0, 1, 2]) {
        let base = draft.base(rng);
        draft.bases.push(base);
    }
    if rng.one_in(12) {
        let i = rng.below(draft.boundaries.len());
        (draft.boundaries[i].ramp, draft.boundaries[i].ramp_id) = ([1, 0, 1, 0], rng.word());
    }
    if rng.one_in(10) {
        let ends = maps::span(draft, rng);
        draft.boundaries.push(Boundary { ends, ..draft.boundary(rng) });
    }
    for boundary in &mut draft.boundaries {
        if rng.one_in(2) {
            boundary.ends.rotate_left(2);
        }
    }
    draft.boundaries = shuffled(std::mem::take(&mut draft.boundaries), rng);
}

/// Turns the map upside down, so that what lies below a corridor comes to lie above it.
pub fn mirror(draft: &mut Draft) {
    let (width, height) = (draft.width as usize, draft.height);
    draft.cells = draft.cells.chunks_exact(width).rev().flatten().copied().collect();
    for [_, _, row] in draft.bases.iter_mut().filter(|base| base[2] < height) {
        *row = height - 1 - *row;
    }
    for boundary in &mut draft.boundaries {
        let [ax, ay, bx, by] = boundary.ends;
        boundary.ends = [ax, 8 * height - ay, bx, 8 * height - by];
    }
}

pub fn transpose(draft: &mut Draft) {
    let (width, height) = (draft.width as usize, draft.height as usize);
    let turned = |i: usize| draft.cells[i % height * width + i / height];
    draft.cells = (0..width * height).map(turned).collect();
    (draft.width, draft.height) = (draft.height, draft.width);
    for [_, column, row] in &mut draft.bases {
        (*column, *row) = (*row, *column);
    }
    for boundary in &mut draft.boundaries {
        let [ax, ay, bx, by] = boundary.ends;
        boundary.ends = [ay, ax, by, bx];
    }
}

/// The spans of Reduce by list: the boundaries' own, with ends of boundaries then moved, made
/// equal or made to coincide; at times one span more or fewer.
pub fn list(draft: &mut Draft, rng: &mut Rng) {
    draft.list = draft.boundaries.iter().map(|boundary| boundary.ends).collect();
    for span in &mut draft.list {
        if rng.one_in(2) {
            span.rotate_left(2);
        }
    }
    if rng.one_in(3) {
        let (i, j) = (rng.below(draft.list.len()), rng.below(draft.list.len()));
        let [ax, ay, bx, by] = draft.boundaries[i].ends;
        draft.boundaries[i].ends = match rng.below(4) {
            0 => [ax, ay, ax, ay],
            1 | 2 => draft.boundaries[j].ends,
            _ => [ax.saturating_sub(3), ay, bx.saturating_sub(3), by],
        };
    }
    match rng.below(24) {
        0 => drop(draft.list.pop()),
        1 => draft.list.push(maps::span(draft, rng)),
        _ => {}
    }
}

/// A corridor of one row, so many columns long, with spans at its start: a link between each two.
pub fn long(columns: u32, spans: u32, rng: &mut Rng) -> Draft {
    let mut draft = valid([columns, 1], [0; 5], rng);
    draft.cells = vec![1; columns as usize];
    let ends = |span: u32| [16 * span + 8, 0, 16 * span + 8, 8];
    let bits = 8.0_f64.to_bits();
    draft.boundaries =
        (0..spans).map(|span| Boundary { ends: ends(span), bits, ..Boundary::default() }).collect();
    draft.share(rng.below(9), rng.below(9), rng);
    draft.list = (0..spans).map(ends).collect();
    draft
}

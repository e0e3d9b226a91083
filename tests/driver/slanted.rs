//! Slanted corridors: jobs in which a measure of 000 comes within two units in the last place of its
//! limit. Where the limit grows with the widths, these are chosen so; where it does not, the spans'
//! lengths are whole numbers and a cell is dug just at the limit.

use crate::checks::REDUCE;
use crate::corridors::{list, mirror, transpose};
use crate::draft::{Boundary, Draft, Input, LARGEST_WIDTH};
use crate::expect;
use crate::lent::Lent;
use crate::measures::{self, Limit, Link};
use crate::merging;
use crate::rng::Rng;
use crate::tally::Tally;
use crate::thresholds;
use crate::values::shuffled;
use oracle::thresholds::Thresholds;
use std::sync::OnceLock;

/// A point, or a vector, in pixels; cells are 8 pixels wide. No point of a plan is special: it is
/// moved onto the map at the end.
type Point = [i32; 2];
type Span = [Point; 2];

const TRIES: usize = 60;

/// Vectors whose lengths are whole numbers.
const WHOLE: [(Point, i32); 10] = [
    ([3, 4], 5),
    ([4, 3], 5),
    ([5, 12], 13),
    ([12, 5], 13),
    ([8, 15], 17),
    ([15, 8], 17),
    ([7, 24], 25),
    ([24, 7], 25),
    ([20, 21], 29),
    ([9, 40], 41),
];

/// Squares of doubled centre distances, three of which come nearest to 384 without being it, over all
/// that there are (tests/sums).
const THREES: [[i32; 3]; 6] = [
    [2285, 115_380, 144_797],
    [47_330, 71_026, 80_621],
    [2600, 8522, 390_244],
    [17_165, 95_042, 108_041],
    [22_213, 86_578, 105_442],
    [7328, 7893, 352_306],
];

/// Open cells and spans.
struct Plan {
    open: Vec<Point>,
    spans: Vec<Span>,
    cell: u8,
}

impl Plan {
    /// A corridor of so many rows from row 0 down, with spans across it.
    fn corridor(rows: i32, spans: Vec<Span>, cell: u8) -> Self {
        let columns = spans.iter().flatten().map(|end| end[0].div_euclid(8));
        let (from, to) = (columns.clone().min().expect("spans"), columns.max().expect("spans"));
        let open = (from - 3..to + 4).flat_map(|x| (0..rows).map(move |y| [x, y])).collect();
        Self { open, spans, cell }
    }

    /// Opens cells down a column from a row on, then along the last row to another column.
    fn dig(&mut self, [from, top]: Point, [to, bottom]: Point) {
        self.open.extend((top..=bottom).map(|y| [from, y]));
        self.open.extend((from.min(to)..=from.max(to)).map(|x| [x, bottom]));
    }

    /// The job, its map turned any way, its boundaries listed in any order.
    fn draft(&self, rng: &mut Rng) -> Draft {
        let cells = |end: &Point| end.map(|at| at.div_euclid(8));
        let all = || self.open.iter().copied().chain(self.spans.iter().flatten().map(cells));
        let least = [0, 1].map(|k| all().map(|cell| cell[k]).min().expect("cells"));
        let most = [0, 1].map(|k| all().map(|cell| cell[k]).max().expect("cells"));
        let first = least.map(|at| at - rng.within(0, 2) as i32);
        let [width, height] = [0, 1].map(|k| (most[k] - first[k] + 1) as u32);
        let mut draft = Draft { width, height, ..Draft::default() };
        draft.cells = vec![0; (width * height) as usize];
        for &[x, y] in &self.open {
            let at = (y - first[1]) as u32 * width + (x - first[0]) as u32;
            draft.cells[at as usize] = self.cell;
        }
        for &span in &self.spans {
            let [a, b] = span.map(|end| [0, 1].map(|k| (end[k] - 8 * first[k]) as u32));
            let ends = if rng.one_in(2) { [a, b] } else { [b, a] };
            let ends = [ends[0][0], ends[0][1], ends[1][0], ends[1][1]];
            draft.boundaries.push(Boundary { ends, ..Boundary::default() });
        }
        draft.boundaries = shuffled(draft.boundaries, rng);
        if rng.one_in(2) {
            mirror(&mut draft);
        }
        if rng.one_in(2) {
            transpose(&mut draft);
        }
        draft
    }
}

/// A whole number from -`most` to `most`.
fn about(rng: &mut Rng, most: u32) -> i32 {
    rng.within(0, 2 * most) as i32 - most as i32
}

fn links(draft: &Draft) -> Vec<Link> {
    let read = || expect::accepted(REDUCE, &draft.input().job, &[], &thresholds::OF_000);
    oracle::count::uncounted(read).map_or(vec![], |accepted| measures::links(&accepted))
}

/// The least width bits at which a measure is inside its limit by so many units.
fn least(link: &Link, limit: Limit, room: i64) -> u64 {
    let (mut low, mut high) = (0, LARGEST_WIDTH);
    while low < high {
        let middle = (low + high) / 2;
        if link.room(limit, f64::from_bits(middle), &Thresholds::DECLARED) < room {
            low = middle + 1;
        } else {
            high = middle;
        }
    }
    low
}

/// Sets the widths to within two units of where the last of the limits is met; false where none asks
/// for a width over `over`.
fn tune(draft: &mut Draft, limits: &[Limit], over: f64, rng: &mut Rng) -> bool {
    let links = links(draft);
    let asked = links.iter().flat_map(|link| limits.iter().map(move |&limit| (link, limit)));
    let last = asked.max_by_key(|&(link, limit)| least(link, limit, 0));
    let Some((link, limit)) = last else { return false };
    let bits = least(link, limit, i64::from(about(rng, 2)));
    if bits <= over.to_bits() || bits >= LARGEST_WIDTH {
        return false;
    }
    let alike = rng.below(3) > 0;
    for (i, boundary) in draft.boundaries.iter_mut().enumerate() {
        let more = if alike || i == link.nodes[0] { 0.0 } else { rng.pick(&[0.0, 0.25, 8.0]) };
        boundary.bits = (f64::from_bits(bits) + more).to_bits().min(LARGEST_WIDTH);
    }
    true
}

/// Spans across a corridor of so many rows, slanted about alike.
fn across(rows: i32, count: usize, apart: [u32; 2], rng: &mut Rng) -> Vec<Span> {
    let slant = about(rng, 14);
    let mut x = 0;
    let mut spans = Vec::new();
    for _ in 0..count {
        let own = slant + rng.pick(&[0, 0, 0, 1, -2, 4, -5]);
        let (up, down) = (rng.within(0, 12) as i32, rng.within(0, 3) as i32);
        spans.push([[x + own, -up], [x, 8 * rows + down]]);
        x += rng.within(apart[0], apart[1]) as i32;
    }
    spans
}

/// The column between two spans at their lower ends.
fn between(pair: &[Span]) -> i32 {
    (pair[0][1][0] + pair[1][1][0]).div_euclid(16)
}

/// A chain whose last link to pass meets a limit of its envelopes.
fn envelopes(rng: &mut Rng) -> Option<Draft> {
    // In one row with passages under the spans the links are long, else broad.
    let long = rng.one_in(3);
    let rows = if long { 1 } else { rng.pick(&[1, 2, 2, 2, 3, 4]) };
    let spans = across(rows, rng.pick(&[3, 3, 3, 4]), [9, 36], rng);
    // On ramps no group is flat, so that a serial one that is turned down is seen.
    let mut plan = Plan::corridor(rows, spans.clone(), rng.pick(&[5, 5, 5, 1]));
    for pair in spans.windows(2) {
        if rng.one_in(if long { 2 } else { 3 }) {
            let (column, depth) = (between(pair), rng.within(1 + u32::from(long), 4) as i32);
            let to = if depth > 1 { column + about(rng, 7) } else { column };
            plan.dig([column, rows], [to, rows + depth - 1]);
        }
    }
    let mut draft = plan.draft(rng);
    tune(&mut draft, &[Limit::Transverse, Limit::Longitudinal], 0.0, rng).then_some(draft)
}

/// Two spans whose region reaches past their ends by a quarter of the width.
fn quarter(rng: &mut Rng) -> Option<Draft> {
    let rows = rng.pick(&[1, 1, 2]);
    let spans = across(rows, 2, [12, 40], rng);
    let mut plan = Plan::corridor(rows, spans.clone(), 1);
    let column = between(&spans);
    plan.dig([column, rows], [column + about(rng, 2), rows + rng.within(4, 8) as i32]);
    let mut draft = plan.draft(rng);
    tune(&mut draft, &[Limit::Below(0), Limit::Above(0)], 128.0, rng).then_some(draft)
}

/// Two parallel spans across a corridor of so many rows, of a whole length, which comes with them.
fn parallel(rows: i32, rng: &mut Rng) -> ([Span; 2], i32) {
    let down = rng.within(0, 3) as i32;
    let ([dx, dy], length) = rng.pick(&WHOLE);
    let times = (8 * rows + down + dy - 1) / dy + rng.within(0, 1) as i32;
    let low = [0, 8 * rows + down];
    let high = [dx * times * rng.pick(&[1, -1]), low[1] - dy * times];
    let aside = [rng.within(17, 60) as i32, about(rng, 3).clamp(-down, 3 - down)];
    let moved = |end: Point| [end[0] + aside[0], end[1] + aside[1]];
    ([[high, low], [moved(high), moved(low)]], length * times)
}

/// True if the cell reaches just 32 pixels past the ends of parallel spans, along or across them.
fn at_32(cell: Point, spans: &[Span; 2], length: i32) -> bool {
    let [[ax, ay], [bx, by]] = spans[0];
    let [dx, dy] = [bx - ax, by - ay];
    let centre = cell.map(|at| 8 * at + 4);
    let reach = 4 * (dx.abs() + dy.abs());
    [[dx, dy], [-dy, dx]].into_iter().any(|v| {
        let on = |p: Point| p[0] * v[0] + p[1] * v[1];
        let ends = spans.iter().flatten().map(|&end| on(end));
        let (least, most) = (ends.clone().min().expect("ends"), ends.max().expect("ends"));
        on(centre) - reach == least - 32 * length || on(centre) + reach == most + 32 * length
    })
}

/// Two parallel spans, and a cell of their region that reaches just 32 pixels past their ends.
fn thirty_two(rng: &mut Rng) -> Option<Draft> {
    let rows = rng.pick(&[1, 1, 2]);
    let (spans, length) = parallel(rows, rng);
    let below = (rows + 1..rows + 9).flat_map(|y| (-12..20).map(move |x| [x, y]));
    let cells: Vec<Point> = below.filter(|&cell| at_32(cell, &spans, length)).collect();
    if cells.is_empty() {
        return None;
    }
    let mut plan = Plan::corridor(rows, spans.to_vec(), 1);
    plan.dig([between(&spans), rows], rng.pick(&cells));
    let mut draft = plan.draft(rng);
    let bits = rng.pick(&[0.0, 8.0, 24.5, 100.0, 128.0_f64]).to_bits();
    draft.boundaries.iter_mut().for_each(|boundary| boundary.bits = bits);
    let met = |link: &Link| {
        let rooms =
            measures::LIMITS[2..].iter().map(|&limit| link.room(limit, 0.0, &Thresholds::DECLARED));
        rooms.clone().any(|room| room.abs() <= 2) && rooms.min() >= Some(-2)
    };
    links(&draft).iter().any(met).then_some(draft)
}

/// Pairs of vectors whose angle is next to 15 degrees, and short enough for spans that are near each
/// other. Its tangent, cross over dot product, is next to 2 - √3: p² - 4pq + q² is small.
fn angles() -> &'static [[Point; 2]] {
    static ANGLES: OnceLock<Vec<[Point; 2]>> = OnceLock::new();
    ANGLES.get_or_init(|| {
        let mut found = Vec::new();
        for start in [[0, 1], [1, 1], [1, 2], [0, 2], [1, 5], [2, 2]] {
            let [mut cross, mut dot]: [i64; 2] = start;
            while dot < 930_000 {
                if dot > 100_000 {
                    found.extend(factors(dot, cross));
                    found.extend(factors(dot, -cross));
                }
                [cross, dot] = [dot, 4 * dot - cross];
            }
        }
        found
    })
}

/// Vectors a and b, downwards and about as long, of these products.
fn factors(dot: i64, cross: i64) -> Vec<[Point; 2]> {
    let both = ((dot * dot + cross * cross) as f64).sqrt() as i64;
    let about = both * 2 / 3..both * 3 / 2;
    let mut found = Vec::new();
    for (x, y) in (1..1200).flat_map(|y: i64| (-y..=y).map(move |x| (x, y))) {
        let square = x * x + y * y;
        let [bx, by] = [dot * x - cross * y, dot * y + cross * x];
        if about.contains(&square) && bx % square == 0 && by % square == 0 {
            let [bx, by] = [bx / square, by / square];
            let apart = (bx - x) * (bx - x) + (by - y) * (by - y);
            if apart <= 250 * 250 && by >= bx.abs() {
                found.push([[x, y], [bx, by]].map(|v| v.map(|at| at as i32)));
            }
        }
    }
    found
}

/// Two spans that are as near to 15 degrees as spans with near ends come.
fn angle(rng: &mut Rng) -> Option<Draft> {
    let [a, b] = rng.pick(angles());
    // They cross about the middle, so that both pairs of ends are near.
    let start = [0, 1].map(|k| (a[k] - b[k]) / 2 + about(rng, 3));
    let spans = vec![[[0, 0], a], [start, [start[0] + b[0], start[1] + b[1]]]];
    let part = rng.pick(&[6, 8, 10, 86, 90, 92]);
    let row = (a[1] * part / 100).div_euclid(8);
    let at = |[from, to]: Span| {
        let down = 8 * row + 4 - from[1];
        from[0] + (to[0] - from[0]) * down / (to[1] - from[1])
    };
    let [one, two] = [at(spans[0]), at(spans[1])].map(|x| x.div_euclid(8));
    let open = (one.min(two) - 3..one.max(two) + 4).map(|x| [x, row]).collect();
    let mut draft = Plan { open, spans, cell: 1 }.draft(rng);
    let bits = rng.pick(&[0.0, 8.0, 200.0_f64]).to_bits();
    draft.boundaries.iter_mut().for_each(|boundary| boundary.bits = bits);
    (links(&draft).len() == 1).then_some(draft)
}

/// Doubled steps between centres, aslant, which come to just 384 or are three of the nearest to it.
fn steps(rng: &mut Rng) -> Option<Vec<Point>> {
    let mut steps = if rng.one_in(2) {
        let squares = rng.pick(&THREES);
        let step = |square: i32| {
            let flat = |&y: &i32| {
                let x = f64::from(square - y * y).sqrt() as i32;
                x * x + y * y == square
            };
            let y = (0..200).find(flat)?;
            Some([f64::from(square - y * y).sqrt() as i32, y])
        };
        squares.into_iter().map(step).collect::<Option<Vec<_>>>()?
    } else {
        // Whole numbers of half pixels, 768 in all.
        let ([x, y], length) = rng.pick(&WHOLE);
        let times = rng.within(1, 700 / length as u32) as i32;
        let slanted = [times * x.max(y), times * x.min(y)];
        let rest = 768 - times * length;
        let first = rng.within(rest as u32 / 3, rest as u32 / 2) as i32;
        if rng.one_in(2) {
            vec![slanted, [rest, 0]]
        } else {
            vec![slanted, [first, 0], [rest - first, 0]]
        }
    };
    steps = shuffled(steps, rng);
    steps.iter_mut().for_each(|step| step[1] *= rng.pick(&[1, -1]));
    Some(steps)
}

/// A chain of links that all pass, whose distances come to about 384.
fn sum(rng: &mut Rng) -> Option<Draft> {
    by_steps(&steps(rng)?, rng)
}

/// A chain over ramps whose centres are these doubled steps apart, of links that all pass.
pub fn by_steps(steps: &[Point], rng: &mut Rng) -> Option<Draft> {
    let mut centres = vec![[0, 0]];
    for step in steps {
        let [x, y] = centres[centres.len() - 1];
        centres.push([x + step[0], y + step[1]]);
    }
    let lowest = centres.iter().map(|centre| centre[1]).max()?;
    let span = |&[x, y]: &Point| {
        // The lower end is below the corridor of one row, the upper one as far up as the centre asks.
        let (low, slant) = (rng.within(8, 9) as i32, about(rng, 3));
        let left = x.div_euclid(2) - slant;
        [[x - left, y - lowest - low], [left, low]]
    };
    let spans: Vec<_> = centres.iter().map(span).collect();
    let mut draft = Plan::corridor(1, spans, 5).draft(rng);
    let bits = rng.pick(&[600.0, 700.0, 16_384.0_f64]).to_bits();
    draft.boundaries.iter_mut().for_each(|boundary| boundary.bits = bits);
    (links(&draft).len() == steps.len()).then_some(draft)
}

/// A slanted corridor at one of the limits.
pub fn random(rng: &mut Rng) -> Draft {
    let kind: fn(&mut Rng) -> Option<Draft> = match rng.below(32) {
        0 => angle,
        1 | 2 => sum,
        3..=9 => thirty_two,
        10..=15 => quarter,
        _ => envelopes,
    };
    let found = (0..TRIES).find_map(|_| kind(rng));
    let mut draft =
        found.unwrap_or_else(|| Plan::corridor(1, across(1, 2, [9, 20], rng), 1).draft(rng));
    if rng.one_in(6) {
        list(&mut draft, rng);
    } else {
        draft.list = draft.boundaries.iter().map(|boundary| boundary.ends).collect();
    }
    let (observations, sources) = (rng.below(3), rng.below(6));
    draft.share(observations, sources, rng);
    draft
}

/// As all that merge, with the limits that were met counted; the Rust merges where the measures,
/// stated anew, say so.
pub fn compare(
    input: &Input,
    lent: &mut Lent,
    rng: &mut Rng,
    tally: &mut Tally,
) -> Result<(), String> {
    let read = || expect::accepted(REDUCE, &input.job, &[], &input.thresholds);
    if let Ok(accepted) = oracle::count::uncounted(read) {
        if accepted.numbers == Thresholds::DECLARED {
            measures::note(&accepted, tally);
        }
        let groups = oracle::count::uncounted(|| accepted.groups());
        measures::hold(&accepted, &groups, tally)?;
    }
    merging::compare(input, lent, rng, tally)
}

//! Maps whose spans go across several areas, so that boundaries have several records; and what is counted of marks.

use crate::checks::MARK;
use crate::corridors::transpose;
use crate::draft::{valid, Boundary, Draft, Input};
use crate::expect::{self, Closing, Expected, Joined};
use crate::lent::Lent;
use crate::maps::{self, Shape};
use crate::rng::Rng;
use crate::rows;
use crate::run::{hex, Run};
use crate::tally::{Tally, MARKED, MARK_LISTS};
use crate::whole;

/// Of lists of so many records at most it is asked which records of a boundary are parted.
const SMALL: usize = 600;
/// One job in so many of the family is given to the other three calls too.
const ALL_CALLS: usize = 8;

/// Jobs of which it is known what is marked.
pub const FORETOLD: &str = "jobs whose marks are foretold";

/// What is counted of marks, of jobs and of bare lists. A run fails where one never came.
pub type Names = [&'static str; 9];

pub const OF_JOBS: Names = [
    MARKED,
    "boundaries with mark 1 that are no bridge",
    "boundaries of several records with mark 1",
    "boundaries of several records with mark 0",
    "boundaries with a record parted and another not",
    "boundaries with records in separate parts of the graph",
    "boundaries without a record, with mark 0",
    "jobs in which each boundary has one record at most",
    "jobs in which a boundary has several records",
];

pub const OF_LISTS: Names = [
    MARK_LISTS,
    "owners with mark 1 that are no bridge",
    "owners of several records with mark 1",
    "owners of several records with mark 0",
    "owners with a record parted and another not",
    "owners with records in separate parts of the graph",
    "owners without a record, with mark 0",
    "lists in which owners rise strictly",
    "lists in which an owner has several records",
];

/// What should have been seen and was not.
pub fn missing(tally: &Tally, names: &Names) -> Vec<String> {
    let unseen = names.iter().filter(|what| tally.count(what) == 0);
    unseen.map(|what| format!("never: {what}")).collect()
}

/// Counts what marks that were compared show.
pub fn note(closing: &Closing, marks: &[u8], names: &Names, tally: &mut Tally) {
    let (records, regions) = expect::numbered(&closing.records);
    let mut all = Joined::by(regions, records.iter());
    let mut counts = [0; 6];
    for (i, &mark) in marks.iter().enumerate() {
        let own = || records.iter().filter(|record| record[0] as usize == i);
        let several = own().nth(1).is_some();
        let roots: Vec<u32> = own().map(|record| all.root(record[1])).collect();
        let mut some_joined = false;
        if several && mark == 1 && records.len() <= SMALL {
            let others = records.iter().filter(|record| record[0] as usize != i);
            let mut others = Joined::by(regions, others);
            some_joined = own().any(|&[_, left, right]| others.root(left) == others.root(right));
        }
        for (count, holds) in counts.iter_mut().zip([
            mark == 1 && !closing.bridges.contains(&i),
            several && mark == 1,
            several && mark == 0,
            some_joined,
            roots.iter().any(|&root| root != roots[0]),
            roots.is_empty() && mark == 0,
        ]) {
            *count += u64::from(holds);
        }
    }
    tally.see(names[0]);
    names[1..7].iter().zip(counts).for_each(|(what, count)| tally.see_times(what, count));
    if records.len() > 1 {
        let rising = records.windows(2).all(|pair| pair[0][0] < pair[1][0]);
        tally.see(names[if rising { 7 } else { 8 }]);
    }
}

/// Mark on slices of every kind, and now and then the other calls.
pub fn compare(
    input: &Input,
    lent: &mut Lent,
    rng: &mut Rng,
    tally: &mut Tally,
) -> Result<(), String> {
    if rng.one_in(ALL_CALLS) {
        whole::compare(input, lent, rng, tally)
    } else {
        whole::each(MARK, input, lent, rng, tally)
    }
}

/// A job whose spans go across several areas.
pub fn random(rng: &mut Rng) -> Draft {
    match rng.below(8) {
        0..=3 => corridors(rng),
        _ => areas(rng),
    }
}

/// Corridors one below the other, and spans across all or some of them, upright or aslant. At either side the corridors may be
/// joined, and the walls between them may have holes.
fn corridors(rng: &mut Rng) -> Draft {
    let large = rng.one_in(200);
    let count = if large { rng.within(5, 16) } else { rng.within(2, 5) };
    let spans = if large { rng.within(8, 40) } else { rng.within(1, 7) };
    let (open, wall) = (rng.pick(&[1, 1, 1, 2]), rng.pick(&[1, 1, 1, 2]));
    let (width, height) = (2 * spans + rng.within(3, 6), count * (open + wall) - wall);
    let mut draft = valid([width, height], [0; 5], rng);
    let joined = [rng.below(3) > 0, rng.below(3) > 0];
    // Below this corridor the sides are closed.
    let parted = if rng.one_in(4) { rng.within(1, count - 1) } else { 0 };
    let (holes, blocks) = (rng.pick(&[0, 0, 0, 1, 3]), rng.pick(&[0, 0, 0, 1]));
    for (i, cell) in (0..).zip(&mut draft.cells) {
        let (column, row) = (i % width, i / width);
        let in_wall = row % (open + wall) >= open;
        let side = column == 0 && joined[0] || column == width - 1 && joined[1];
        let closed = row / (open + wall) + 1 == parted;
        let walkable = if in_wall {
            side && !closed || rng.below(32) < holes
        } else {
            rng.below(32) >= blocks
        };
        *cell = *cell & 30 | u8::from(walkable);
    }
    for _ in 0..spans {
        let [mut from, mut to] = [0, count - 1];
        if rng.one_in(2) {
            let [a, b] = [0; 2].map(|_| rng.below(count as usize) as u32);
            (from, to) = (a.min(b), a.max(b));
        }
        let column =
            if rng.one_in(3) { rng.within(9, 8 * width - 9) } else { 8 * rng.within(1, width - 1) };
        let across =
            if rng.one_in(2) { column } else { rng.within(column.saturating_sub(14), column + 14) };
        let (top, bottom) = (8 * from * (open + wall), 8 * (to * (open + wall) + open));
        let past = rng.pick(&[0, 0, 1, 3]);
        let ends = [
            column.min(8 * width),
            top.saturating_sub(past),
            across.min(8 * width),
            (bottom + past).min(8 * height),
        ];
        let boundary = Boundary { ends, ..draft.boundary(rng) };
        draft.boundaries.push(boundary);
    }
    rows::turned(&mut draft, rng);
    draft
}

/// A map of some shape, at times in separate pieces, and long spans any way across it.
fn areas(rng: &mut Rng) -> Draft {
    let large = rng.one_in(200);
    let most = if large { 32 } else { 11 };
    let [width, height] = [rng.within(3, most), rng.within(3, most)];
    let shapes =
        [Shape::Open, Shape::Open, Shape::Noise, Shape::Rooms, Shape::Stripes, Shape::Comb];
    let mut draft = valid([width, height], [0; 5], rng);
    draft.cells = maps::cells([width, height], rng.pick(&shapes), rng);
    let row = rng.one_in(3).then(|| rng.within(1, height - 2));
    let column = rng.one_in(4).then(|| rng.within(1, width - 2));
    for (i, cell) in (0..).zip(&mut draft.cells) {
        if row == Some(i / width) || column == Some(i % width) {
            *cell &= 30;
        }
    }
    let spans = if large { rng.within(4, 30) } else { rng.within(1, 6) };
    for _ in 0..spans {
        let ends = long(&draft, rng);
        let boundary = Boundary { ends, ..draft.boundary(rng) };
        draft.boundaries.push(boundary);
    }
    rows::turned(&mut draft, rng);
    draft
}

/// A span from edge to edge, or from an edge to some point beyond the middle, or beside the one before.
fn long(draft: &Draft, rng: &mut Rng) -> [u32; 4] {
    let most = [8 * draft.width, 8 * draft.height];
    let mut ends = match draft.boundaries.last() {
        Some(last) if rng.one_in(4) => {
            let mut beside =
                |at: u32, most: u32| rng.within(at.saturating_sub(12), (at + 12).min(most));
            let [ax, ay, bx, by] = last.ends;
            [beside(ax, most[0]), beside(ay, most[1]), beside(bx, most[0]), beside(by, most[1])]
        }
        _ => {
            let lies = rng.one_in(2);
            let [along, across] = if lies { most } else { [most[1], most[0]] };
            let end = if rng.one_in(3) { rng.within(along / 2, along) } else { along };
            let from = rng.within(1, across - 1);
            let to = if rng.one_in(3) { from } else { rng.within(1, across - 1) };
            if lies {
                [0, from, end, to]
            } else {
                [from, 0, to, end]
            }
        }
    };
    if ends[..2] == ends[2..] {
        ends[0] = if ends[0] == 0 { 1 } else { ends[0] - 1 };
    }
    ends
}

/// Whether corridors that spans go across are joined at both sides, and how else one gets by.
#[derive(Clone, Copy, PartialEq)]
pub enum Sides {
    Apart,
    Joined,
    /// Joined, with one more corridor that no span cuts.
    WithUncut,
}

/// So many corridors of a row each and so many upright spans across all of them: a record for each of both.
fn across(corridors: u32, spans: u32, sides: Sides, rng: &mut Rng) -> Draft {
    let (width, cut) = (spans + 3, 2 * corridors - 1);
    let height = cut + if sides == Sides::WithUncut { 2 } else { 0 };
    let mut draft = valid([width, height], [0; 5], rng);
    for (i, cell) in (0..).zip(&mut draft.cells) {
        let side = [0, width - 1].contains(&(i % width)) && sides != Sides::Apart;
        *cell = *cell & 30 | u8::from(i / width % 2 == 0 || side);
    }
    let ends = |span: u32| [8 * span + 16, 0, 8 * span + 16, 8 * cut];
    let boundaries = (0..spans).map(|span| Boundary { ends: ends(span), ..draft.boundary(rng) });
    draft.boundaries = boundaries.collect();
    draft.list = (0..spans).map(ends).collect();
    draft
}

/// Corridors of which it is known what is marked: where they are apart every span is a bridge; joined at both sides none is, and
/// each is marked; with one more that no span cuts none is marked. Every other number of spans has the corridors upright.
pub fn worked(run: &mut Run) {
    let sizes = [(2, 2), (3, 5), (4, 16), (5, 13), (4, 17), (16, 255), (16, 256)];
    let kinds = [(Sides::Apart, 1, 1), (Sides::Joined, 0, 1), (Sides::WithUncut, 0, 0)];
    for ((corridors, spans), (sides, bridge, mark)) in
        sizes.into_iter().flat_map(|size| kinds.map(|kind| (size, kind)))
    {
        let mut rng = run.next_case();
        let mut draft = across(corridors, spans, sides, &mut rng);
        if spans % 2 == 1 {
            transpose(&mut draft);
        }
        let Expected { written, closing, .. } = Expected::of(MARK, &draft.input().job, &[], &[]);
        let bridges: Vec<usize> = (0..bridge * spans as usize).collect();
        if written != vec![mark; spans as usize] || closing.bridges.iter().ne(&bridges) {
            let text = hex("as it was", &draft.input());
            run.report("marks or bridges are not as foretold", &text);
        }
        run.tally.see(FORETOLD);
        run.draft(&draft, &mut rng, whole::compare);
    }
}

//! Jobs about own sources: rows of cells that are parted by walls, each crossed by a few spans that are merged, with own sources
//! in the orders of orders.rs and doubles of every kind.

use crate::draft::Draft;
use crate::orders::{sources, Listing, LISTINGS};
use crate::rng::Rng;
use crate::values::{shuffled, Boundary, Observation, Source, Values};

/// The most sources of a job.
const MOST: usize = 4096;

/// Numbers about those at which the library goes another way, and the most.
pub const LENGTHS: [usize; 23] = [
    11, 12, 13, 23, 24, 25, 47, 48, 49, 63, 64, 65, 1023, 1024, 1025, 4095, 4096, 1, 2, 3, 511, 512,
    513,
];

/// The doubles among own sources.
#[derive(Clone, Copy, PartialEq)]
enum Doubles {
    None,
    Within,
    Across,
    AllEqual,
    /// Another kept boundary has them too.
    Kept,
    /// Observations have them too.
    Observed,
}

const DOUBLES: [Doubles; 6] = [
    Doubles::None,
    Doubles::Within,
    Doubles::Across,
    Doubles::AllEqual,
    Doubles::Kept,
    Doubles::Observed,
];

/// Open rows, each with so many spans across it, a corridor of two cells from one to the next: two to four are merged.
fn rows(members: &[usize]) -> Values {
    let width = 2 * *members.iter().max().expect("a row") as u32 + 1;
    let height = 2 * members.len() as u32 - 1;
    let cells = (0..width * height).map(|cell| u8::from(cell / width % 2 == 0)).collect();
    let map = Draft { width, height, cells, ..Draft::default() };
    let across = |row: usize, i: usize| {
        let [x, y] = [16 * i as u32 + 8, 16 * row as u32];
        let ends = [x, y, x, y + 8];
        let bits = 8.0_f64.to_bits();
        let (ramp, ramp_id) = ([0; 4], 0);
        Boundary { ends, bits, ramp, ramp_id, sources: vec![], observations: vec![] }
    };
    let in_row = |(row, &count): (usize, &usize)| (0..count).map(move |i| across(row, i));
    let boundaries = members.iter().enumerate().flat_map(in_row).collect();
    Values { map, boundaries, spans: vec![] }
}

/// A length: mostly one of the limits.
fn length(rng: &mut Rng) -> usize {
    match rng.below(96) {
        0 => rng.pick(&LENGTHS[15..17]),
        1..=3 => rng.pick(&LENGTHS[12..15]),
        4..=7 => rng.below(700),
        8..=11 => rng.pick(&LENGTHS[17..]),
        _ => rng.pick(&LENGTHS[..12]),
    }
}

/// Gives sources to the boundaries of a row: one part after another, all to one of them, or each to any of them.
fn deal(list: &[Source], row: &mut [Boundary], rng: &mut Rng) {
    let (way, any) = (rng.below(3), rng.below(row.len()));
    for (i, &source) in list.iter().enumerate() {
        let to = match way {
            0 => i * row.len() / list.len(),
            1 => any,
            _ => rng.below(row.len()),
        };
        row[to].sources.push(source);
    }
}

/// Puts in doubles of a kind, before, between or behind those that are there.
fn double(doubles: Doubles, list: &[Source], row: &mut [Boundary], rng: &mut Rng) {
    let some: Vec<Source> = list.iter().copied().filter(|_| rng.one_in(3)).collect();
    for boundary in row {
        let own = &mut boundary.sources;
        match doubles {
            Doubles::Within if rng.one_in(2) => {
                *own = own.iter().flat_map(|&source| vec![source; 1 + rng.below(3)]).collect();
            }
            Doubles::Within => own.extend_from_within(..),
            Doubles::Across if rng.one_in(2) => own.extend(&some),
            Doubles::Across => *own = some.iter().rev().chain(&own[..]).copied().collect(),
            Doubles::AllEqual => own.fill(list.first().copied().unwrap_or([7, 7])),
            _ => {}
        }
    }
}

/// Up to three observations for each second boundary or so, with sources of the list or of a few.
fn observe(observed: bool, list: &[Source], values: &mut Values, rng: &mut Rng) {
    let map = values.map.clone();
    for boundary in &mut values.boundaries {
        let count = rng.pick(&[0, 0, 0, 1, 2, 3]);
        let one = |rng: &mut Rng| match list {
            [_, ..] if observed => list[rng.below(list.len())],
            _ => [rng.within(0, 2), rng.pick(&[0, 1, u32::MAX])],
        };
        let observation = |rng: &mut Rng| Observation {
            ends: map.span(rng),
            bits: f64::from(rng.within(7, 9)).to_bits(),
            sources: (0..rng.pick(&[0, 1, 2, 4, 13])).map(|_| one(rng)).collect(),
        };
        boundary.observations = (0..count).map(|_| observation(rng)).collect();
    }
}

/// Leaves out what is over the most sources of a job.
fn trim(values: &mut Values) {
    let mut left = MOST;
    for boundary in &mut values.boundaries {
        let observed = boundary.observations.iter_mut().map(|observation| &mut observation.sources);
        for sources in std::iter::once(&mut boundary.sources).chain(observed) {
            sources.truncate(left);
            left -= sources.len();
        }
    }
}

/// Now and then: other widths, so that another member is retained, or a ramp, which is not merged.
fn vary(boundaries: &mut [Boundary], rng: &mut Rng) {
    let (widths, ramps) = (rng.one_in(4), rng.one_in(16));
    for boundary in boundaries {
        if widths {
            boundary.bits = rng.pick(&[8.0_f64, 7.5, 8.5, 12.0]).to_bits();
        }
        if ramps && rng.one_in(4) {
            (boundary.ramp, boundary.ramp_id) = ([1, 0, 1, 0], rng.word());
        }
    }
}

/// The boundaries, mostly in any order, and the list: their own ends, mostly; else one fewer, so that nothing is merged by it,
/// or two boundaries then have the same ends.
fn finish(mut values: Values, rng: &mut Rng) -> Draft {
    trim(&mut values);
    vary(&mut values.boundaries, rng);
    if !rng.one_in(4) {
        values.boundaries = shuffled(values.boundaries, rng);
    }
    values.spans = values.boundaries.iter().map(|boundary| boundary.ends).collect();
    match rng.below(12) {
        0 | 1 => drop(values.spans.pop()),
        2 => {
            let [i, j] = [0; 2].map(|_| rng.below(values.boundaries.len()));
            values.boundaries[i].ends = values.boundaries[j].ends;
        }
        _ => {}
    }
    values.draft()
}

/// The sources of some rows, of which the first has the most, with doubles of a kind.
fn filled(members: &[usize], lists: &[Vec<Source>], doubles: Doubles, rng: &mut Rng) -> Draft {
    let mut values = rows(members);
    let mut rest = &mut values.boundaries[..];
    for (&count, list) in members.iter().zip(lists) {
        let row;
        (row, rest) = rest.split_at_mut(count);
        deal(list, row, rng);
        double(doubles, list, row, rng);
    }
    observe(doubles == Doubles::Observed, &lists[0], &mut values, rng);
    finish(values, rng)
}

/// How many spans each row has.
fn members(rng: &mut Rng) -> Vec<usize> {
    let rows = if rng.one_in(40) { rng.below(48) + 1 } else { rng.pick(&[1, 1, 1, 2, 2, 3]) };
    (0..rows).map(|_| rng.pick(&[1, 1, 2, 3, 3, 4, 4, 4, 5])).collect()
}

/// Own sources in any order, with any doubles.
pub fn random(rng: &mut Rng) -> Draft {
    let (members, doubles) = (members(rng), rng.pick(&DOUBLES));
    let first = sources(length(rng), rng.pick(&LISTINGS), rng);
    let mut lists = vec![first];
    for _ in 1..members.len() {
        let list = match doubles {
            Doubles::Kept => lists[0].iter().copied().filter(|_| !rng.one_in(3)).collect(),
            _ => sources(rng.below(30), rng.pick(&LISTINGS), rng),
        };
        lists.push(list);
    }
    filled(&members, &lists, doubles, rng)
}

/// Own sources of one head, over all kept boundaries.
pub fn one_head(rng: &mut Rng) -> Draft {
    let (members, doubles) = (members(rng), rng.pick(&DOUBLES));
    let count = length(rng);
    let listing = rng.pick(&[Listing::OneHead, Listing::LowDigits]);
    let mut all = sources((count + 60).min(MOST), listing, rng);
    let mut lists = vec![all.split_off(all.len() - count)];
    for _ in 1..members.len() {
        // The others have some of the rest, or some that the first has.
        let from = if doubles == Doubles::Kept { &lists[0] } else { &all };
        let list = from.iter().copied().filter(|_| rng.one_in(2)).collect();
        lists.push(list);
    }
    filled(&members, &lists, doubles, rng)
}

/// Every listing in every length, of one boundary and of four that are merged, without doubles but those of the listing.
pub fn each() -> impl Iterator<Item = (Listing, usize, usize)> {
    let of = |count| [1, 4].into_iter().map(move |members| (count, members));
    let all = move || LENGTHS.into_iter().flat_map(of);
    LISTINGS.into_iter().flat_map(move |l| all().map(move |(count, members)| (l, count, members)))
}

/// One row with so many spans, and sources in an order.
pub fn one(listing: Listing, count: usize, members: usize, rng: &mut Rng) -> Draft {
    let list = sources(count, listing, rng);
    filled(&[members], &[list], Doubles::None, rng)
}

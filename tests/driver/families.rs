//! The families of random cases. A case's number is its family's times 2^32, and its own.

use crate::compare::compare;
use crate::damage::{self, REFUSALS};
use crate::draft::{self, Boundary, Draft, Input, Observation};
use crate::lent::Lent;
use crate::maps::{self, Shape, SHAPES};
use crate::orders::{numbers, Order, ORDERS};
use crate::rng::Rng;
use crate::run::Run;
use crate::tally::Tally;
use crate::{
    blocks, cards, corridors, lists, marks, merging, own, partition, records, regions, slanted,
    sorting, whole,
};

/// How many cases of a family are run in a round, and what one is.
struct Family {
    share: u64,
    case: fn(&mut Run, &mut Rng),
}

pub const NAMES: [&str; 11] = [
    "damaged",
    "maps",
    "records",
    "corridors",
    "slanted",
    "cards",
    "own-orders",
    "one-head",
    "thresholds",
    "marks",
    "mark-lists",
];

const FAMILIES: [Family; 11] = [
    // Damaged inputs.
    Family { share: 80, case: |run, rng| run.draft(&damaged(rng), rng, compare) },
    // Maps and spans of many shapes.
    Family { share: 32, case: |run, rng| run.draft(&maps::random(rng), rng, on_maps) },
    // Bare lists of records.
    Family { share: 5, case: |run, rng| run.records(&records::random(rng)) },
    // Corridors that merge.
    Family { share: 8, case: |run, rng| run.draft(&corridors::random(rng), rng, merging::compare) },
    // Slanted corridors at the limits of 000.
    Family { share: 4, case: |run, rng| run.draft(&slanted::random(rng), rng, slanted::compare) },
    // Ramps and elevations of areas.
    Family { share: 4, case: |run, rng| run.draft(&cards::random(rng), rng, cards::compare) },
    // Own sources in many orders, with doubles.
    Family { share: 8, case: |run, rng| run.draft(&own::random(rng), rng, sorting::compare) },
    // Own sources of one head of the library's table.
    Family { share: 4, case: |run, rng| run.draft(&own::one_head(rng), rng, sorting::compare) },
    // Other thresholds than those of 000.
    Family { share: 16, case: |run, rng| run.draft(&blocks::random(rng), rng, blocks::compare) },
    // Spans across several areas.
    Family { share: 12, case: |run, rng| run.draft(&marks::random(rng), rng, marks::compare) },
    // Bare lists of records by their marks.
    Family { share: 8, case: |run, rng| run.marks(&lists::random(rng)) },
];

/// Runs a case by its number, where it is of these families.
pub fn case(run: &mut Run, number: u64) -> bool {
    let Some(family) = (number >> 32).checked_sub(1) else { return false };
    let Some(family) = FAMILIES.get(family as usize) else { return false };
    let mut rng = run.start(number);
    (family.case)(run, &mut rng);
    true
}

/// Runs a round of every family after `done` cases; the number done then.
pub fn round(run: &mut Run, done: u64) -> u64 {
    let all: u64 = FAMILIES.iter().map(|family| family.share).sum();
    for (i, family) in FAMILIES.iter().enumerate() {
        let first = (i as u64 + 1) << 32 | (done / all * family.share);
        for number in first..first + family.share {
            case(run, number);
        }
    }
    done + all
}

/// The partition, all calls in whole, and the regions and links.
fn on_maps(input: &Input, lent: &mut Lent, rng: &mut Rng, tally: &mut Tally) -> Result<(), String> {
    partition::compare(input, lent, rng, tally)?;
    whole::compare(input, lent, rng, tally)?;
    regions::compare(input, lent, rng, tally)
}

/// Every map of 2 x 2 cells with every span between points about centres, edges and corners.
pub fn small_maps(run: &mut Run) {
    let mut rng = run.next_case();
    let marks = [0, 3, 4, 5, 8, 12, 16];
    let points = || marks.iter().flat_map(|&x| marks.map(|y| [x, y]));
    for ([ax, ay], [bx, by]) in points().flat_map(|a| points().map(move |b| (a, b))) {
        if [ax, ay] >= [bx, by] {
            continue;
        }
        for walkable in 0..16 {
            let mut ends = [ax, ay, bx, by];
            if rng.one_in(2) {
                ends.rotate_left(2);
            }
            let draft = Draft {
                width: 2,
                height: 2,
                cells: (0..4).map(|cell| walkable >> cell & 1).collect(),
                boundaries: vec![Boundary { ends, ..Boundary::default() }],
                ..Draft::default()
            };
            run.draft(&draft, &mut rng, partition::compare);
        }
    }
}

/// Numbers of region pairs about the most there may be, the largest maps, and the longest lists of
/// records of every shape.
pub fn limits(run: &mut Run) {
    for pairs in [4095, 4096, 4097, 4100] {
        let mut rng = run.next_case();
        let draft = maps::many_pairs(pairs, &mut rng);
        run.draft(&draft, &mut rng, on_maps);
    }
    for (sides, spans) in [([1, 1], 256), ([1, 1024], 256), ([1024, 1], 256), ([3, 1023], 40)] {
        let mut rng = run.next_case();
        let draft = maps::with_spans(sides, Shape::Open, spans, &mut rng);
        run.draft(&draft, &mut rng, on_maps);
    }
    for (shape, spans) in SHAPES.into_iter().zip([256, 8, 8, 2, 30, 256, 8]) {
        let mut rng = run.next_case();
        let sides = if spans < 256 { [1024, 1024] } else { [160, 120] };
        let draft = maps::with_spans(sides, shape, spans, &mut rng);
        run.draft(&draft, &mut rng, on_maps);
    }
    for shape in 0..6 {
        let mut rng = run.next_case();
        run.records(&records::shaped(shape, 4096, &mut rng));
    }
    for sides in [[1, 1], [1, 1024], [1024, 1024]] {
        let mut rng = run.next_case();
        let mut draft = maps::with_spans(sides, Shape::Noise, 4, &mut rng);
        run.draft(&draft, &mut rng, cards::compare);
        // Nothing is walkable.
        draft.cells.iter_mut().for_each(|cell| *cell &= 30);
        run.draft(&draft, &mut rng, cards::compare);
    }
}

/// Numbers about the sizes beyond which the library works in other arrays or by another pass: 64
/// region pairs and 16 spans on a small map, 64 records, 64 boundaries and observations, 64 sources,
/// and links that pass over 1,024 cells.
pub fn sizes(run: &mut Run) {
    let parted = [(7, 9), (8, 8), (5, 13), (13, 5), (32, 2), (33, 2), (4, 16), (4, 17), (20, 15)];
    for (rows, spans) in parted {
        let mut rng = run.next_case();
        let draft = maps::rows_parted(rows, spans, &mut rng);
        run.draft(&draft, &mut rng, on_maps);
    }
    for (places, sources) in [63, 64, 65].into_iter().flat_map(|n| [63, 64, 65].map(|m| (n, m))) {
        for boundaries in [1, 3, 20, 63] {
            let mut rng = run.next_case();
            let counts = [1, boundaries, places - boundaries, sources, boundaries];
            let draft = draft::valid([4, 3], counts, &mut rng);
            run.draft(&draft, &mut rng, merging::compare);
        }
    }
    for (shape, records) in (0..6).flat_map(|shape| [63, 64, 65].map(|n| (shape, n))) {
        let mut rng = run.next_case();
        run.records(&records::shaped(shape, records, &mut rng));
    }
    for (columns, spans) in [(1023, 2), (1024, 2), (512, 3), (513, 3), (341, 4), (342, 4)] {
        let mut rng = run.next_case();
        let draft = corridors::long(columns, spans, &mut rng);
        run.draft(&draft, &mut rng, merging::compare);
    }
}

/// Sources and observations in every order, in numbers about those at which the library sorts in
/// another way: 12, 24, 48 and 1,024.
pub fn sorts(run: &mut Run) {
    let counts = [2, 11, 12, 13, 24, 25, 26, 48, 49, 50, 300, 1023, 1024, 1025, 4096];
    for ((order, _), count) in ORDERS.into_iter().flat_map(|o| counts.map(|count| (o, count))) {
        let mut rng = run.next_case();
        let mut draft = draft::valid([4, 3], [1, 1, 0, 0, 1], &mut rng);
        let key = |i: u32| if order == Order::Pairs { [i >> 16, i & 0xffff] } else { [i / 3, i] };
        draft.boundaries[0].sources = count as u32;
        draft.sources = numbers(count, order, &mut rng).into_iter().map(key).collect();
        run.draft(&draft, &mut rng, merging::compare);
    }
    let counts = [2, 3, 12, 63, 64, 1023];
    for ((order, _), count) in ORDERS.into_iter().flat_map(|o| counts.map(|count| (o, count))) {
        for each in [0, 2] {
            let mut rng = run.next_case();
            let mut draft = draft::valid([4, 3], [1, 1, 0, 0, 1], &mut rng);
            draft.boundaries[0].observations = count as u32;
            let alike = rng.pick(&[1, 2, 5]);
            draft.observations = numbers(count, order, &mut rng)
                .into_iter()
                .map(|i| Observation {
                    ends: [i / alike, 8, i / alike, rng.within(0, 2)],
                    bits: f64::from(8 + rng.within(0, 2)).to_bits(),
                    sources: each,
                })
                .collect();
            draft.sources = (0..count as u32 * each).map(|_| [0, rng.within(0, 2)]).collect();
            run.draft(&draft, &mut rng, merging::compare);
        }
    }
}

/// Own sources of one boundary and of four that are merged, in every order and in numbers about each limit.
pub fn own_sources(run: &mut Run) {
    for (listing, count, members) in own::each() {
        let mut rng = run.next_case();
        let draft = own::one(listing, count, members, &mut rng);
        run.draft(&draft, &mut rng, sorting::compare);
    }
}

/// Corridors whose marks are foretold, as jobs and as lists, every refusal of a list, the longest lists of every shape, and those about
/// 64 records, beyond which the library works in other arrays.
pub fn marks(run: &mut Run) {
    marks::worked(run);
    lists::worked(run);
    lists::refusals(run);
    for (shape, most) in
        (0..lists::SHAPES).flat_map(|shape| [63, 64, 65, lists::MOST].map(|n| (shape, n)))
    {
        let mut rng = run.next_case();
        run.marks(&lists::shaped(shape, most, &mut rng));
    }
}

/// A random draft with up to three kinds of damage. The kinds are those from some place of the
/// order on, so that the last refusals come first as well.
fn damaged(rng: &mut Rng) -> Draft {
    let mut draft = draft::random(rng);
    let kinds = &REFUSALS[rng.below(REFUSALS.len())..];
    for _ in 0..rng.pick(&[0, 1, 1, 1, 2, 2, 2, 3]) {
        damage::damage(rng.pick(kinds), &mut draft, rng);
    }
    if rng.one_in(16) {
        let blocks = damage::blocks(&draft.thresholds);
        draft.thresholds.clone_from(&blocks[rng.below(blocks.len())]);
    }
    draft
}

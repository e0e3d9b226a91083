//! Families of jobs that grow in one count each, with Reduce timed on both sides and beside it the
//! time of the least that any program does with the job's memory.

use crate::checks::{HEADER, REDUCE};
use crate::draft::{Boundary, Draft, Observation};
use crate::maps::{self, Shape};
use crate::orders::{numbers, Order, ORDERS};
use crate::rng::Rng;
use crate::{job, least, timed, Lent};
use std::hint::black_box;

/// One job of a family.
pub struct Point {
    pub size: usize,
    pub rust: f64,
    pub library: f64,
    pub limit: f64,
}

pub struct Family {
    pub title: String,
    /// What the size counts.
    pub axis: &'static str,
    pub points: Vec<Point>,
}

/// The time of one pass at memory speed: it reads the cells, writes a label of four bytes for each
/// and reads it back, and copies the records, which are about as long as the answer.
fn limit(lent: &mut Lent, cells: usize) -> f64 {
    let (head, records) = lent.input.job.split_at(HEADER + cells);
    let mut labels = vec![0_u32; cells];
    let out = &mut lent.out[..records.len()];
    least(|| {
        for (label, &cell) in labels.iter_mut().zip(black_box(&head[HEADER..])) {
            *label = u32::from(cell);
        }
        let sum = black_box(&labels).iter().fold(0_u32, |sum, &label| sum.wrapping_add(label));
        out.copy_from_slice(black_box(records));
        black_box((sum, &*out));
    })
}

fn point(size: usize, draft: &Draft) -> Point {
    let mut lent = Lent::new(draft);
    let (rust, library) = timed(REDUCE, &format!("size {size}"), &mut lent);
    let limit = limit(&mut lent, draft.cells.len());
    Point { size, rust, library, limit }
}

/// A map of 256 cells a side with corridors of six rows, each crossed by up to eight boundaries, so
/// that every boundary parts two regions.
pub fn corridors(boundaries: u32) -> Draft {
    let (side, mut rng) = (256, Rng::new(17));
    let mut draft = maps::with_spans([side, side], Shape::Open, 0, &mut rng);
    for (cell, i) in draft.cells.iter_mut().zip(0..) {
        *cell = u8::from(i / side % 8 < 6);
    }
    draft.boundaries = (0..boundaries)
        .map(|i| {
            let (x, y) = (200 + 96 * (i / 32), 64 * (i % 32));
            let bits = 48.0_f64.to_bits();
            Boundary { ends: [x, y, x, y + 48], bits, ..Boundary::default() }
        })
        .collect();
    draft
}

/// A corridor of one row that two boundaries cut, as in document 01's corridor.
fn corridor(cells: u32) -> Draft {
    let mut draft = maps::with_spans([cells, 1], Shape::Open, 0, &mut Rng::new(29));
    draft.boundaries = [cells / 4, cells / 2]
        .map(|column| {
            let (x, bits) = (8 * column, 8.0_f64.to_bits());
            Boundary { ends: [x, 0, x, 8], bits, ..Boundary::default() }
        })
        .to_vec();
    draft
}

/// The side of the maps on which records grow: small, so that these take the most of the time.
const SIDE: u32 = 32;

/// Sources in an order, shared evenly by the boundaries of an open map.
fn sources(side: u32, count: usize, order: Order, holders: usize) -> Draft {
    let mut rng = Rng::new(19);
    let mut draft = job(side, Shape::Open, holders.max(4), 0);
    let halves = |i: u32| if order == Order::Pairs { [i >> 16, i & 0xffff] } else { [i / 3, i] };
    draft.sources = numbers(count, order, &mut rng).into_iter().map(halves).collect();
    for (i, boundary) in draft.boundaries.iter_mut().take(holders).enumerate() {
        boundary.sources = ((i + 1) * count / holders - i * count / holders) as u32;
    }
    draft
}

/// Sources of one boundary of which all but the highest share a bucket, time after time: the most
/// stack that a sort takes.
pub fn deepest() -> Draft {
    let mut draft = sources(64, 1000, Order::Few, 1);
    for (source, i) in draft.sources.iter_mut().zip(0..) {
        let key = if i < 8 { 1_u64 << (63 - 8 * i) } else { i % 100 };
        *source = [(key >> 32) as u32, key as u32];
    }
    draft.sources.swap(0, 999);
    draft
}

/// The same of an observation.
pub fn deepest_observed() -> Draft {
    let mut draft = deepest();
    let sources = std::mem::take(&mut draft.boundaries[0].sources);
    draft.boundaries[0].observations = 1;
    draft.observations = vec![Observation { ends: [8; 4], bits: 0, sources }];
    draft
}

/// Observations of one boundary in an order, with as many sources each.
fn observations(side: u32, count: usize, order: Order, each: u32) -> Draft {
    let mut rng = Rng::new(23);
    let mut draft = job(side, Shape::Open, 4, 0);
    draft.boundaries[0].observations = count as u32;
    draft.observations = numbers(count, order, &mut rng)
        .into_iter()
        .map(|i| {
            let bits = 24.0_f64.to_bits();
            Observation { ends: [i, 8, i, 32], bits, sources: each }
        })
        .collect();
    draft.sources = (0..count as u32 * each).map(|i| [i % each, 5]).collect();
    draft
}

fn family(
    title: String,
    axis: &'static str,
    sizes: impl IntoIterator<Item = usize>,
    draft: impl Fn(usize) -> Draft,
) -> Family {
    let points = sizes.into_iter().map(|size| point(size, &draft(size))).collect();
    Family { title, axis, points }
}

/// Every family, with those of sources last.
pub fn families() -> Vec<Family> {
    let side = |cells: usize| cells.isqrt() as u32;
    let mut families = vec![
        family(
            "cells of an open map, 4 boundaries".to_string(),
            "cells",
            (3..=10).map(|i| 1 << (2 * i)),
            |cells| job(side(cells), Shape::Open, 4, 8),
        ),
        family(
            "cells of a corridor, one row that 2 boundaries cut".to_string(),
            "cells",
            (1..=5).map(|i| 1 << (2 * i)),
            |cells| corridor(cells as u32),
        ),
        family(
            "boundaries on an open map of 256 × 256".to_string(),
            "boundaries",
            (0..=8).map(|i| 1 << i),
            |boundaries| job(256, Shape::Open, boundaries, 8),
        ),
        family(
            "boundaries across corridors of 256 × 256".to_string(),
            "boundaries",
            (0..=8).map(|i| 1 << i),
            |boundaries| corridors(boundaries as u32),
        ),
        family(
            "observations of one boundary, in random order".to_string(),
            "observations",
            [0, 1, 4, 16, 64, 256, 1024],
            |count| observations(SIDE, count, Order::Random, 0),
        ),
    ];
    for (holders, of) in [(1, "of one boundary"), (64, "shared by 64 boundaries")] {
        for (order, name) in [ORDERS[1], ORDERS[2]] {
            families.push(family(
                format!("sources {of}, {name}"),
                "sources",
                (0..=6).map(|i| 1 << (2 * i)),
                |count| sources(SIDE, count, order, holders),
            ));
        }
    }
    families
}

/// How much the time grows for each doubling of the size.
fn doubling(sizes: [usize; 2], times: [f64; 2]) -> f64 {
    let doublings = (sizes[1] as f64 / sizes[0] as f64).log2();
    (times[1] / times[0]).powf(1.0 / doublings)
}

/// Prints the families' tables.
pub fn print(families: &[Family]) {
    for family in families {
        println!("\nReduce: {}\n", family.title);
        println!(
            "| {} | Rust, ms | library, ms | ratio | Rust per doubling | library per doubling \
             | limit, ms | library / limit |",
            family.axis
        );
        println!("|--:|--:|--:|--:|--:|--:|--:|--:|");
        let mut before: Option<&Point> = None;
        for point in &family.points {
            let Point { size, rust, library, limit } = point;
            let grown = before.filter(|before| before.size > 0).map(|before| {
                let sizes = [before.size, *size];
                [[before.rust, *rust], [before.library, *library]]
                    .map(|times| doubling(sizes, times))
            });
            let grown = grown.map_or(["".to_string(), "".to_string()], |grown| {
                grown.map(|factor| format!("{factor:.2}"))
            });
            println!(
                "| {} | {rust:.3} | {library:.3} | {:.2} | {} | {} | {limit:.4} | {:.0} |",
                thousands(*size),
                library / rust,
                grown[0],
                grown[1],
                library / limit,
            );
            before = Some(point);
        }
    }
}

/// A number with a comma before each three digits.
pub fn thousands(number: usize) -> String {
    if number < 1000 {
        number.to_string()
    } else {
        format!("{},{:03}", thousands(number / 1000), number % 1000)
    }
}

/// The most sources and observations that are sorted, in every order.
pub fn sorts() {
    for side in [8, SIDE, 64] {
        crate::head(&format!("the most to sort, on a map of {side} × {side}"));
        for (order, name) in ORDERS {
            let what = format!("4,096 sources of one boundary, {name}");
            crate::whole(REDUCE, &what, &sources(side, 4096, order, 1));
        }
        for (each, with) in [(0, "no source"), (4, "4 sources each")] {
            for (order, name) in ORDERS {
                let what = format!("1,024 observations of one boundary, {with}, {name}");
                crate::whole(REDUCE, &what, &observations(side, 1024, order, each));
            }
        }
    }
}

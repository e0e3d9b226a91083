//! Own sources: Reduce timed on jobs of one kind, each time on another of them, so that no side learns one.

use crate::draft::{Boundary, Draft};
use crate::grow::thousands;
use crate::orders::{sources, Listing};
use crate::rng::Rng;
use crate::{head, row, timed_in_turn, Lent};

/// How many jobs of a kind take turns.
const JOBS: usize = 32;

const KINDS: [(Listing, &str); 4] = [
    (Listing::Random, "in random order"),
    (Listing::OneHead, "of one head"),
    (Listing::LowDigits, "of one head and equal low digits"),
    (Listing::Worst, "in the worst order for the splits"),
];

/// A corridor of one row and eight cells with so many spans across it: two to four are merged.
fn corridor(spans: u32) -> Draft {
    let boundaries = (0..spans).map(|i| {
        let x = 16 * i + 8;
        let bits = 8.0_f64.to_bits();
        Boundary { ends: [x, 0, x, 8], bits, ..Boundary::default() }
    });
    let boundaries: Vec<Boundary> = boundaries.collect();
    let list = boundaries.iter().map(|boundary| boundary.ends).collect();
    Draft { width: 8, height: 1, cells: vec![1; 8], boundaries, list, ..Draft::default() }
}

/// Own sources of one boundary.
pub fn of_one(count: usize, listing: Listing, rng: &mut Rng) -> Draft {
    let mut draft = corridor(1);
    draft.boundaries[0].sources = count as u32;
    draft.sources = sources(count, listing, rng);
    draft
}

/// As many own sources of four merged boundaries, of which half are doubles: those of the first two stand again in the others,
/// which have the later half of them in the place of the earlier.
fn of_four(count: usize, rng: &mut Rng) -> Draft {
    let mut draft = corridor(4);
    let list = sources(count / 2, Listing::Random, rng);
    draft.sources = [&list[..], &list[count / 4..], &list[..count / 4]].concat();
    draft.boundaries.iter_mut().for_each(|boundary| boundary.sources = count as u32 / 4);
    draft
}

fn timed(what: &str, draft: impl Fn(&mut Rng) -> Draft) {
    let job = |i: usize| Lent::new(&draft(&mut Rng::of_case(31, i as u64)));
    let mut lent: Vec<Lent> = (0..JOBS).map(job).collect();
    let (rust, library) = timed_in_turn(what, &mut lent);
    row(what, rust, library);
}

pub fn rows() {
    head("Reduce: own sources on a corridor of 8 cells, other ones each time");
    for count in [12, 64, 512] {
        let what = format!("{count} own sources in random order");
        timed(&what, |rng| of_one(count, Listing::Random, rng));
    }
    for (listing, name) in KINDS {
        let what = format!("{} own sources {name}", thousands(4096));
        timed(&what, |rng| of_one(4096, listing, rng));
    }
    timed("4,096 own sources over four merged boundaries, half of them doubles", |rng| {
        of_four(4096, rng)
    });
}

//! Inputs whose boundaries have several region pairs, so that a mark is one thing and a bridge another.

use super::{across, expected, small, List};
use crate::checks::MARK;
use crate::rng::Rng;
use crate::rust;
use crate::tally::Tally;

const MARKED_ALONE: &str = "several region pairs, marked, no bridge";
const MARKED_AND_BRIDGE: &str = "several region pairs, marked, a bridge";
const UNMARKED: &str = "several region pairs, not marked";
const ONE_PAIR: &str = "one region pair, marked";
const ONE_PAIR_UNMARKED: &str = "one region pair, not marked";
const LAST_ALONE: &str =
    "the last boundary marked and no bridge, which alone has several region pairs";
const MANY_AREAS: &str = "over 256 areas and marks that are no bridges";
const CASE_8: &str = "case 8: three region pairs, marked, no bridge";

/// What the list must have of these at least so often, counted by boundaries of jobs that Mark marks.
pub const WANTED: [(&str, u64); 8] = [
    (MARKED_ALONE, 40),
    (MARKED_AND_BRIDGE, 40),
    (UNMARKED, 40),
    (ONE_PAIR, 40),
    (ONE_PAIR_UNMARKED, 40),
    (LAST_ALONE, 5),
    (MANY_AREAS, 1),
    (CASE_8, 1),
];

pub fn all(list: &mut List, seed: u64) {
    let mut rng = Rng::of_case(seed, 9 << 32);
    let input = across::case_8(&mut rng).input();
    let marks = expected(MARK, &input).written;
    if kinds(&input.job, &marks) == [Kind { pairs: 3, mark: 1, bridge: false }] {
        list.tally.see(CASE_8);
    }
    list.whole(&input, &mut rng);
    for i in 1..=70 {
        let mut rng = Rng::of_case(seed, 9 << 32 | i);
        let draft = if i <= 50 { across::random } else { across::one_long };
        let input = small(&mut rng, 1000, draft);
        list.whole(&input, &mut rng);
    }
    for uncut in [false, true] {
        list.exact(&across::many_areas(uncut, &mut rng).input(), &mut rng);
    }
}

/// What a boundary has.
#[derive(PartialEq)]
struct Kind {
    pairs: usize,
    mark: u8,
    bridge: bool,
}

/// The boundaries of a job with these marks.
fn kinds(job: &[u8], marks: &[u8]) -> Vec<Kind> {
    let job = rust::job(job);
    let partition = job.partition(&job.own_spans());
    let bridges = job.bridges(&partition);
    let spans = partition.boundaries().iter().zip(marks).zip(0..);
    spans
        .map(|((span, &mark), i)| Kind {
            pairs: span.region_pairs.len(),
            mark,
            bridge: bridges.contains(&i),
        })
        .collect()
}

/// Counts the boundaries of a job by their region pairs, marks and bridges.
pub fn note(job: &[u8], labels: &[u32], marks: &[u8], tally: &mut Tally) {
    let kinds = kinds(job, marks);
    let marked_alone = |kind: &Kind| kind.pairs > 1 && kind.mark == 1 && !kind.bridge;
    if let Some((last, others)) = kinds.split_last() {
        if marked_alone(last) && others.iter().all(|other| other.pairs < 2) {
            tally.see(LAST_ALONE);
        }
    }
    if labels.iter().any(|&label| label > 256) && kinds.iter().any(marked_alone) {
        tally.see(MANY_AREAS);
    }
    for kind in kinds {
        match (kind.pairs, kind.mark, kind.bridge) {
            (0, ..) => {}
            (1, 0, _) => tally.see(ONE_PAIR_UNMARKED),
            (1, ..) => tally.see(ONE_PAIR),
            (_, 0, _) => tally.see(UNMARKED),
            (_, _, false) => tally.see(MARKED_ALONE),
            (_, _, true) => tally.see(MARKED_AND_BRIDGE),
        }
    }
}

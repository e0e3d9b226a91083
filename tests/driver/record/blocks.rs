//! Inputs with other blocks of thresholds than that of 000: groups of every size, each limit at what a job measures, any admitted
//! numbers, and every kind of damage.

use super::{expected, small, List, NAMES};
use crate::blocks;
use crate::checks::{self, BY_LIST, REDUCE};
use crate::damage::{self, REFUSALS};
use crate::draft::{self, Boundary, Draft, Input, Length};
use crate::rng::Rng;
use crate::tally;
use crate::thresholds::{block, OF_000};
use oracle::thresholds::Thresholds;

/// The most of a length in a block, of the cosine, and of a group.
const MOST_LENGTH: f64 = 16_384.0;
const MOST_COSINE: f64 = 1.0;
const LARGEST: usize = 16;
/// The numbers of 000.
const OF_TEXT: Thresholds = Thresholds::DECLARED;

pub fn all(list: &mut List, seed: u64) {
    sizes(list);
    about_limits(list);
    other_blocks(list, seed);
    bad_blocks(list, seed);
}

/// What the list must have of these at least so often: groups of each size, none that is too large or too small, each limit
/// met, and 32 before each other refusal.
pub fn wanted() -> Vec<(String, u64)> {
    let mut wanted = vec![("jobs that merge by another block".to_string(), 30)];
    for (kind, call) in
        ["serial", "flat"].into_iter().flat_map(|kind| [REDUCE, BY_LIST].map(|call| (kind, call)))
    {
        let name = tally::NAMES[call as usize];
        wanted.extend((2..=LARGEST).map(|size| (format!("{kind} groups of {size}, {name}"), 2)));
    }
    for kind in ["serial", "flat"] {
        wanted.push((format!("{kind} groups of 2 to 16: 16 merged"), 1));
        wanted.push((format!("{kind} groups of 2 to 16: 17 not merged"), 1));
        wanted.push((format!("{kind} groups of 2 to 4: 5 not merged"), 1));
    }
    wanted.push(("serial groups of 4 to 16: 3 not merged".to_string(), 1));
    wanted.push(("flat groups of 4 to 16: 3 merged".to_string(), 1));
    wanted.extend(at_limits().iter().map(|at| (format!("{} at its limit", at.name), 1)));
    for call in [REDUCE, BY_LIST] {
        let before = REFUSALS.into_iter().filter(|&number| tally::makes(call as usize, number));
        let before = before.map(|number| number.to_string()).chain(["no other".to_string()]);
        wanted.extend(
            before.map(|later| (format!("{}: 32 before {later}", NAMES[call as usize]), 1)),
        );
    }
    wanted
}

/// A corridor of one row with upright spans in these columns of pixels.
fn row_of(columns: &[u32]) -> Draft {
    let bits = 8.0_f64.to_bits();
    let upright = |&x: &u32| Boundary { ends: [x, 0, x, 8], bits, ..Boundary::default() };
    let width = columns.iter().max().expect("some columns") / 8 + 2;
    let mut draft = Draft { width, height: 1, ..Draft::default() };
    draft.cells = vec![1; width as usize];
    draft.boundaries = columns.iter().map(upright).collect();
    draft
}

/// The input of a draft whose spans are its boundaries' own, with a block of these numbers.
fn with(draft: &Draft, numbers: Thresholds) -> Input {
    let list = draft.boundaries.iter().map(|boundary| boundary.ends).collect();
    Draft { list, thresholds: block(&numbers).to_vec(), ..draft.clone() }.input()
}

/// Chains and flat groups of 2 to 17 spans, with blocks that let them pass, and with a largest group under their size or a
/// smallest over it.
fn sizes(list: &mut List) {
    let mut rng = Rng::new(1);
    for spans in 2..=LARGEST + 1 {
        let columns: Vec<u32> = (0..spans as u32).map(|i| 16 * i + 8).collect();
        let draft = row_of(&columns);
        let just = spans.min(LARGEST);
        for (least, most) in
            [(2, LARGEST), (just, just), (2, (spans - 1).max(2)), (just.min(15) + 1, 16)]
        {
            let most = most.min(LARGEST);
            // No flat group in the one, no serial one in the other.
            let serial = Thresholds { least, most, chain: MOST_LENGTH, duplicate: 0.0, ..OF_TEXT };
            let flat = Thresholds { least, most, chain: 0.0, duplicate: MOST_LENGTH, ..OF_TEXT };
            for (kind, numbers) in [("serial", serial), ("flat", flat)] {
                let input = with(&draft, numbers);
                let merged = list.groups(&input) == [spans];
                let said = if merged { "merged" } else { "not merged" };
                list.tally.see(&format!("{kind} groups of {least} to {most}: {spans} {said}"));
                list.note(&input);
                list.reduces(&input, &mut rng);
            }
        }
    }
}

/// A limit, a job that measures just so much, and how many units in the last place make a difference.
struct AtLimit {
    name: &'static str,
    draft: Draft,
    /// The numbers with this limit.
    numbers: fn(f64) -> Thresholds,
    measure: f64,
    most: f64,
    units: i64,
}

/// A job for each of the six limits.
fn at_limits() -> Vec<AtLimit> {
    // The second row is blocked, so that spans may end in it at other heights.
    let below = |ends: &[[u32; 4]]| {
        let mut draft = row_of(&ends.iter().map(|ends| ends[0].max(ends[2])).collect::<Vec<_>>());
        draft.height = 2;
        draft.cells.extend(vec![0; draft.width as usize]);
        draft.boundaries.iter_mut().zip(ends).for_each(|(boundary, &ends)| boundary.ends = ends);
        draft
    };
    let length = |x: f64, y: f64| (x * x + y * y).sqrt();
    // Two rows, and widths of 0, so that the tolerance alone is the limit.
    let mut two_rows = row_of(&[16, 40, 64]);
    two_rows.height = 2;
    two_rows.cells.extend_from_within(..);
    two_rows.boundaries.iter_mut().for_each(|boundary| (boundary.ends[3], boundary.bits) = (16, 0));
    // The region between the spans reaches a row further down than they do.
    let mut pocket = below(&[[16, 0, 16, 8], [40, 0, 40, 8]]);
    pocket.cells[pocket.width as usize + 3] = 1;
    pocket.boundaries.iter_mut().for_each(|boundary| boundary.bits = 0);
    // The middle one is nearest to the others and wider than they are.
    let mut wider = row_of(&[16, 40, 64]);
    wider.boundaries[1].bits = 11.5_f64.to_bits();
    let mut slanted = row_of(&[16, 40]);
    slanted.boundaries[1].ends[2] += 3;
    vec![
        AtLimit {
            name: "chain",
            draft: below(&[[16, 0, 16, 8], [40, 0, 40, 11], [72, 0, 72, 9]]),
            numbers: |chain| Thresholds { chain, duplicate: 0.0, ..OF_TEXT },
            measure: length(24.0, 1.5) + length(32.0, 1.0),
            most: MOST_LENGTH,
            units: -1,
        },
        AtLimit {
            name: "width",
            draft: wider,
            numbers: |width| Thresholds { width, ..OF_TEXT },
            measure: 3.5,
            most: MOST_LENGTH,
            units: -4,
        },
        AtLimit {
            name: "geometry",
            draft: two_rows,
            numbers: |geometry| Thresholds { geometry, duplicate: 0.0, ..OF_TEXT },
            measure: 16.0,
            most: MOST_LENGTH,
            units: -1,
        },
        AtLimit {
            name: "flat duplicate",
            draft: below(&[[16, 0, 16, 8], [40, 0, 40, 11]]),
            numbers: |duplicate| Thresholds { duplicate, chain: 0.0, ..OF_TEXT },
            measure: length(24.0, 3.0),
            most: MOST_LENGTH,
            units: -1,
        },
        AtLimit {
            name: "flat envelope",
            draft: pocket,
            numbers: |envelope| Thresholds { envelope, chain: 0.0, ..OF_TEXT },
            measure: 8.0,
            most: MOST_LENGTH,
            units: -4,
        },
        AtLimit {
            name: "cosine",
            draft: slanted,
            numbers: |cosine| Thresholds { cosine, chain: 0.0, ..OF_TEXT },
            measure: 64.0 / 8.0 / length(3.0, 8.0),
            most: MOST_COSINE,
            units: 1,
        },
    ]
}

/// Each limit at what a job measures, one or a few units in the last place to either side, and at both ends of its range.
fn about_limits(list: &mut List) {
    let mut rng = Rng::new(2);
    for AtLimit { name, draft, numbers, measure, most, units } in at_limits() {
        let off = |units: i64| f64::from_bits(measure.to_bits().saturating_add_signed(units));
        let answer = |limit: f64| expected(REDUCE, &with(&draft, numbers(limit))).written;
        if answer(measure) != answer(off(units)) && answer(measure) == answer(off(-units)) {
            list.tally.see(&format!("{name} at its limit"));
        }
        for limit in [measure, off(units), off(-units), 0.0, most] {
            let input = with(&draft, numbers(limit));
            list.note(&input);
            list.reduces(&input, &mut rng);
        }
    }
}

/// Jobs that may merge with blocks of many kinds, often with a limit that a measure of the job just meets.
fn other_blocks(list: &mut List, seed: u64) {
    for i in 0..100 {
        let mut rng = Rng::of_case(seed, 7 << 32 | i);
        let input = small(&mut rng, 1000, blocks::random);
        if list.note(&input) {
            list.tally.see("jobs that merge by another block");
        }
        list.reduces(&input, &mut rng);
    }
}

/// A block damaged in each way, with a job that is accepted, and each third time with one that is too short and with one
/// damaged for another refusal, whatever slices are lent.
fn bad_blocks(list: &mut List, seed: u64) {
    let mut refusals = REFUSALS.into_iter().cycle();
    for (i, thresholds) in (0..).zip(damage::blocks(&OF_000)) {
        let mut rng = Rng::of_case(seed, 8 << 32 | i);
        let draft = row_of(&[8, 16]);
        let mut inputs = vec![draft.input()];
        if i % 3 == 0 {
            let refusal = refusals.next().expect("a cycle");
            let length = Some(Length::To(rng.below(48)));
            inputs.push(Draft { length, ..draft.clone() }.input());
            inputs.push(small(&mut rng, 600, |rng| {
                let mut draft = draft::valid([2, 2], [1, 2, 1, 2, 2], rng);
                damage::damage(refusal, &mut draft, rng);
                draft
            }));
        }
        for input in inputs {
            let input = Input { thresholds: thresholds.clone(), ..input };
            list.input(&input);
            for call in [REDUCE, BY_LIST] {
                let later = checks::faults(call, &input.job, &input.list);
                let later =
                    later.first().map_or("no other".to_string(), |fault| fault.0.to_string());
                list.tally.see(&format!("{}: 32 before {later}", NAMES[call as usize]));
                let lengths = [rng.below(50), rng.below(30)];
                list.call(call, &expected(call, &input), lengths, rng.byte());
            }
        }
    }
}

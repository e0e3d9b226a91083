//! Writes the list that crates/replay reads: inputs, and what each call on them must leave, by the
//! oracle and the checks of the paper alone; and what replay prints of it.
//!
//! The list is records one after another, numbers little-endian, each after its length (u32). A
//! record's first byte is its kind. Kind 4 is an input: the lengths of job, list and block of thresholds
//! (u32 each), job, list, block. Kinds 0 to 3 are a call on the input before it (Reduce, Reduce by list, Mark, Area cards): the
//! lengths of work and of answer, marks or cards (u32 each), the byte that both are filled with before
//! the call, the number (u32) and detail (u64), then work and answer, marks or cards as the call must
//! leave them.
//! Bytes are written as pieces: how many bytes a piece makes (u16), how many it repeats for that
//! (u8), and those.

pub mod across;
mod blocks;
mod marks;

use crate::cards;
use crate::checks::{BY_LIST, CALLS, CARDS, MARK, NONE, REDUCE};
use crate::corridors;
use crate::damage::{self, REFUSALS};
use crate::draft::{self, Boundary, Draft, Input};
use crate::expect::{self, too_short, Accepted, Expected, CARD, MOST_PAIRS};
use crate::maps;
use crate::merging;
use crate::rng::Rng;
use crate::tally::{makes, Tally, BAD_BLOCK};
use crate::values::Values;
use std::collections::BTreeMap;
use std::fs;
use std::process::exit;

const INPUT: u8 = 4;
/// The calls' names as replay prints them.
const NAMES: [&str; 4] = ["reduce", "reduce by list", "mark", "area cards"];
/// The longest record, job, list, work and answer, marks or cards that replay takes.
const LONGEST: usize = 65_536;

/// What the list must have at least so often.
const WANTED: [(&str, u64); 30] = [
    ("serial groups of 3, Reduce", 10),
    ("serial groups of 4, Reduce", 10),
    ("serial groups of 3, Reduce by list", 10),
    ("serial groups of 4, Reduce by list", 10),
    ("flat groups of 2, Reduce", 10),
    ("flat groups of 3, Reduce", 10),
    ("flat groups of 4, Reduce", 5),
    ("flat groups of 2, Reduce by list", 10),
    ("flat groups of 3, Reduce by list", 10),
    ("flat groups of 4, Reduce by list", 5),
    ("serial groups at 384.0", 5),
    ("flat groups at 128.0", 5),
    ("chains of 383: merged", 2),
    ("chains of 384: merged", 2),
    ("chains of 385: not merged", 2),
    ("pairs of 127: merged", 1),
    ("pairs of 128: merged", 1),
    ("pairs of 129: not merged", 1),
    ("groups with a member without observations", 10),
    ("runs with several groups", 10),
    ("runs with both kinds", 5),
    ("relistings", 20),
    ("inputs of over 4,096 region pairs", 1),
    ("slices longer than asked", 100),
    ("cards of no area", 5),
    ("cards of over 256 areas", 1),
    ("cards with a ramp and without", 20),
    ("cards of several elevations", 20),
    ("cards of elevation 3", 20),
    ("cards at the map's far corner", 20),
];

/// That, what the marks are for, and what the blocks are for.
fn wanted() -> impl Iterator<Item = (String, u64)> {
    let named = WANTED.into_iter().chain(marks::WANTED);
    named.map(|(what, least)| (what.to_string(), least)).chain(blocks::wanted())
}

#[derive(Default)]
struct List {
    bytes: Vec<u8>,
    tally: Tally,
    /// Calls by call and number.
    counts: BTreeMap<(u32, u32), u64>,
    inputs: u64,
    /// The last input's job.
    job: Vec<u8>,
}

/// Writes the list of a seed to `file`, and to standard output what replay prints of it; what is in
/// it goes to standard error.
pub fn record(file: &str, seed: u64) {
    let mut list = List::default();
    damaged(&mut list, seed);
    on_maps(&mut list, seed);
    on_corridors(&mut list, seed);
    on_cards(&mut list, seed);
    limits(&mut list);
    many_pairs(&mut list, seed);
    marks::all(&mut list, seed);
    blocks::all(&mut list, seed);
    list.print();
    eprintln!("seed {seed}: {} inputs, {} bytes", list.inputs, list.bytes.len());
    for (what, _) in wanted() {
        eprintln!("{:>8} {what}", list.tally.count(&what));
    }
    let missing = list.missing();
    missing.iter().for_each(|what| eprintln!("missing: {what}"));
    if let Err(error) = fs::write(file, &list.bytes) {
        eprintln!("{file}: {error}");
        exit(2);
    }
    exit(i32::from(!missing.is_empty()));
}

/// Inputs with one to three kinds of damage, the first aimed at each refusal in turn.
fn damaged(list: &mut List, seed: u64) {
    for (i, number) in (0..660).zip(REFUSALS.into_iter().cycle()) {
        let mut rng = Rng::of_case(seed, 1 << 32 | i);
        let rng = &mut rng;
        // Lists of over 256 spans are long.
        if number == 15 && i >= 160 {
            continue;
        }
        let input = small(rng, 1500, |rng| {
            let mut draft = draft::valid(
                [rng.within(1, 8), rng.within(1, 8)],
                [3, 4, 3, 6, 4].map(|most| rng.below(most)),
                rng,
            );
            damage::damage(number, &mut draft, rng);
            for _ in 0..rng.pick(&[0, 0, 0, 1, 2]) {
                let other = rng.pick(&REFUSALS);
                damage::damage(other, &mut draft, rng);
            }
            draft
        });
        list.input(&input);
        for call in CALLS {
            let expected = expected(call, &input);
            let least = if expected.refusal == NONE { expected.work() } else { 0 };
            let lengths = [least + rng.below(40), rng.below(40) + expected.written.len()];
            list.call(call, &expected, lengths, rng.byte());
        }
    }
}

/// Maps and spans of many shapes; a few are larger.
fn on_maps(list: &mut List, seed: u64) {
    for i in 0..150 {
        let mut rng = Rng::of_case(seed, 2 << 32 | i);
        let most = if i < 145 { 1000 } else { 6000 };
        let input = small(&mut rng, most, maps::random);
        list.whole(&input, &mut rng);
    }
}

/// Ramps and elevations of areas, for Area cards alone: slices of just the length that is asked, one
/// byte or card short, empty, or longer.
fn on_cards(list: &mut List, seed: u64) {
    for i in 0..60 {
        let mut rng = Rng::of_case(seed, 6 << 32 | i);
        let input = small(&mut rng, 400, cards::random);
        let expected = expected(CARDS, &input);
        let (work, cards) = (expected.work(), expected.written.len());
        list.input(&input);
        let short = cards.saturating_sub(rng.pick(&[1, 1, CARD, cards]));
        for out in [cards, short, cards + 1 + rng.below(50)] {
            list.call(CARDS, &expected, [work + rng.below(2), out], rng.byte());
        }
    }
}

/// Corridors that merge, and some of them listed another way.
fn on_corridors(list: &mut List, seed: u64) {
    for i in 0..150 {
        let mut rng = Rng::of_case(seed, 4 << 32 | i);
        let input = small(&mut rng, 2000, corridors::random);
        let merges = list.note(&input);
        list.whole(&input, &mut rng);
        let accepted = accepted(BY_LIST, &input).is_some();
        let values = accepted.then(|| Values::read(&input)).filter(Values::distinct_ends);
        if let Some(values) = values.filter(|_| merges) {
            list.tally.see("relistings");
            let relisted = values.relisted(&mut rng).draft().input();
            list.exact(&relisted, &mut rng);
        }
    }
}

/// Chains of three and of four spans, and pairs of spans, at their limits and a pixel to either
/// side.
fn limits(list: &mut List) {
    let mut rng = Rng::new(0);
    for (kind, spans, limit) in [("chains", 3, 384), ("chains", 4, 384), ("pairs", 2, 128)] {
        for length in [limit - 1, limit, limit + 1] {
            let input = chain(length, spans).input();
            let merged = list.groups(&input) == [spans];
            let said = if merged { "merged" } else { "not merged" };
            list.tally.see(&format!("{kind} of {length}: {said}"));
            list.note(&input);
            list.whole(&input, &mut rng);
        }
    }
}

/// A corridor of one row with `spans` spans across it, the first and last so many pixels apart.
fn chain(length: u32, spans: usize) -> Draft {
    let width = length / 8 + 4;
    let column = |i: u32| 16 + if i + 1 == spans as u32 { length } else { 120 * i };
    let boundary = |i: u32| Boundary {
        ends: [column(i), 0, column(i), 8],
        bits: 8.0_f64.to_bits(),
        sources: 1,
        ..Boundary::default()
    };
    let boundaries: Vec<_> = (0..spans as u32).map(boundary).collect();
    Draft {
        width,
        height: 1,
        cells: vec![1; width as usize],
        list: boundaries.iter().map(|boundary| boundary.ends).collect(),
        boundaries,
        sources: (0..spans as u32).map(|i| [i, 7]).collect(),
        ..Draft::default()
    }
}

/// Region pairs as many as there may be, and one more.
fn many_pairs(list: &mut List, seed: u64) {
    for pairs in [MOST_PAIRS, MOST_PAIRS + 1] {
        let mut rng = Rng::of_case(seed, pairs as u64);
        let input = maps::many_pairs(pairs, &mut rng).input();
        if pairs > MOST_PAIRS {
            list.tally.see("inputs of over 4,096 region pairs");
        }
        list.exact(&input, &mut rng);
    }
}

/// What a call must leave of an input.
fn expected(call: u32, input: &Input) -> Expected {
    Expected::of(call, &input.job, &input.list, &input.thresholds)
}

/// The job as the call takes it, where its checks accept the input.
fn accepted(call: u32, input: &Input) -> Option<Accepted> {
    expect::accepted(call, &input.job, &input.list, &input.thresholds).ok()
}

/// An input of so many bytes at most: of the drafts that come, the first that is small enough, or
/// the tenth.
fn small(rng: &mut Rng, most: usize, draft: impl Fn(&mut Rng) -> Draft) -> Input {
    let mut input = draft(rng).input();
    for _ in 0..9 {
        if input.job.len() + input.list.len() <= most {
            break;
        }
        input = draft(rng).input();
    }
    input
}

impl List {
    /// An input for the calls that follow.
    fn input(&mut self, input: &Input) {
        let parts = [&input.job, &input.list, &input.thresholds];
        assert!(parts.iter().map(|part| part.len()).sum::<usize>() <= LONGEST, "a long input");
        let mut bytes = vec![INPUT];
        parts.iter().for_each(|part| bytes.extend((part.len() as u32).to_le_bytes()));
        pieces(&parts.map(Vec::as_slice).concat(), &mut bytes);
        self.push(&bytes);
        self.inputs += 1;
        self.job.clone_from(&input.job);
    }

    /// A call on slices of these lengths, filled with a byte.
    fn call(&mut self, call: u32, expected: &Expected, [work, out]: [usize; 2], fill: u8) {
        assert!(work <= LONGEST && out <= LONGEST, "a long slice");
        let left = expected.left(&vec![fill; work], &vec![fill; out]);
        let (number, detail) = left.result;
        let mut bytes = vec![call as u8];
        bytes.extend((work as u32).to_le_bytes());
        bytes.extend((out as u32).to_le_bytes());
        bytes.push(fill);
        bytes.extend(number.to_le_bytes());
        bytes.extend(detail.to_le_bytes());
        pieces(&left.work, &mut bytes);
        pieces(&left.out, &mut bytes);
        self.push(&bytes);
        *self.counts.entry((call, number)).or_insert(0) += 1;
        if number == 0 && work > expected.work() && out > expected.written.len() {
            self.tally.see("slices longer than asked");
        }
        if call == CARDS && number == 0 {
            cards::note(&self.job, &left.out[..detail as usize], &mut self.tally);
        }
        if call == MARK && number == 0 {
            let marks = &left.out[..detail as usize];
            marks::note(&self.job, &expected.labels, marks, &mut self.tally);
        }
    }

    fn push(&mut self, record: &[u8]) {
        assert!(record.len() <= LONGEST, "a long record");
        self.bytes.extend((record.len() as u32).to_le_bytes());
        self.bytes.extend(record);
    }

    /// An input and the four calls on it: on slices of just the length that is asked, and on others.
    fn whole(&mut self, input: &Input, rng: &mut Rng) {
        self.exact(input, rng);
        let mut own = Rng::new(!self.inputs);
        for call in CALLS {
            // Area cards has numbers of its own, so that what the others get is as without it.
            let rng = if call == CARDS { &mut own } else { &mut *rng };
            let expected = expected(call, input);
            let (work, out) = (expected.work(), expected.written.len());
            let longer = [work + 1 + rng.below(20), out + 1 + rng.below(20)];
            let lengths = match rng.below(8) {
                0 => [work.saturating_sub(1), out],
                1 => [work.saturating_sub(1), longer[1]],
                2 => [work, 0],
                3 | 4 => [longer[0], out.saturating_sub(1)],
                _ => longer,
            };
            self.call(call, &expected, lengths, rng.byte());
        }
    }

    /// An input and the two calls that take a block, on slices of just the length that is asked or, one time in four, others.
    fn reduces(&mut self, input: &Input, rng: &mut Rng) {
        self.input(input);
        for call in [REDUCE, BY_LIST] {
            let expected = expected(call, input);
            let (work, out) = (expected.work(), expected.written.len());
            let longer = [work + 1 + rng.below(9), out + 1 + rng.below(9)];
            let lengths = match rng.below(16) {
                0 => [work.saturating_sub(1), out],
                1 => [work, out.saturating_sub(1)],
                2 | 3 => longer,
                _ => [work, out],
            };
            self.call(call, &expected, lengths, rng.byte());
        }
    }

    /// An input and the four calls on it, on slices of just the length that is asked.
    fn exact(&mut self, input: &Input, rng: &mut Rng) {
        self.input(input);
        let mut own = Rng::new(self.inputs);
        for call in CALLS {
            let rng = if call == CARDS { &mut own } else { &mut *rng };
            let expected = expected(call, input);
            let lengths = [expected.work(), expected.written.len()];
            self.call(call, &expected, lengths, rng.byte());
        }
    }

    /// Counts the groups of an input by kind and size; true where there are some.
    fn note(&mut self, input: &Input) -> bool {
        let mut merges = false;
        for call in [REDUCE, BY_LIST] {
            let Some(accepted) = accepted(call, input) else { continue };
            let groups = accepted.groups();
            merging::note(call, &accepted, &groups, &mut self.tally);
            merges |= !groups.is_empty();
        }
        merges
    }

    /// The sizes of the groups that Reduce merges.
    fn groups(&self, input: &Input) -> Vec<usize> {
        let Some(accepted) = accepted(REDUCE, input) else { return vec![] };
        let groups = accepted.groups();
        groups.iter().map(|group| group.members.len()).collect()
    }

    /// What replay prints where every call is as recorded.
    fn print(&self) {
        for (&(call, number), count) in &self.counts {
            println!("{} {number}: {count}", NAMES[call as usize]);
        }
        println!("all {} calls as recorded", self.counts.values().sum::<u64>());
    }

    /// What the list should have and has not.
    fn missing(&self) -> Vec<String> {
        let mut missing = Vec::new();
        for (call, name) in (0..).zip(NAMES) {
            let late = too_short(call, 0).0;
            let made = REFUSALS.into_iter().chain([BAD_BLOCK]);
            let made = made.filter(|&number| makes(call as usize, number));
            for number in made.chain([0, 13, 21, late]) {
                let count = self.counts.get(&(call, number)).copied().unwrap_or(0);
                if count < if number == 13 { 1 } else { 5 } {
                    missing.push(format!("{name}: {count} calls with {number}"));
                }
            }
        }
        for (what, least) in wanted() {
            if self.tally.count(&what) < least {
                missing.push(format!("{what}: {}", self.tally.count(&what)));
            }
        }
        missing
    }
}

/// Writes bytes as pieces: runs of a byte or of a word where they are shorter so, and the bytes
/// between them as they are.
fn pieces(bytes: &[u8], into: &mut Vec<u8>) {
    let mut piece = |made: usize, part: &[u8]| {
        into.extend((made as u16).to_le_bytes());
        into.push(part.len() as u8);
        into.extend(part);
    };
    let (mut plain, mut at) = (0, 0);
    while at < bytes.len() {
        let (size, count) = [1, 4]
            .map(|size| (size, repeats(&bytes[at..], size)))
            .into_iter()
            .max_by_key(|&(size, count)| (size * count) as isize - size as isize)
            .expect("two sizes");
        if size * count > size + 6 {
            bytes[plain..at].chunks(255).for_each(|part| piece(part.len(), part));
            piece(size * count, &bytes[at..at + size]);
            at += size * count;
            plain = at;
        } else {
            at += 1;
        }
    }
    bytes[plain..].chunks(255).for_each(|part| piece(part.len(), part));
}

/// How often bytes begin with their first `size` ones, as far as a piece goes.
fn repeats(bytes: &[u8], size: usize) -> usize {
    let first = bytes.chunks_exact(size).next();
    let same = bytes.chunks_exact(size).take_while(|&part| Some(part) == first);
    same.take(usize::from(u16::MAX) / size).count()
}

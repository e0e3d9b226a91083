//! What a run has seen, so that it can't pass by testing nothing.

use crate::blocks::{self, OWN, WRITTEN};
use crate::checks::{takes_block, Refusal, BY_LIST};
use crate::damage::REFUSALS;
use crate::expect::too_short;
use crate::lengths::{self, LENGTHS, TOTALS};
use crate::lists;
use crate::marks;
use crate::measures;
use crate::regions::{ENVELOPES, LINKS, REGIONS};
use crate::sorting;
use std::collections::BTreeMap;

pub const NAMES: [&str; 4] = ["Reduce", "Reduce by list", "Mark", "Area cards"];
const NUMBERS: usize = 33;
/// The refusal of a block, before all others.
pub const BAD_BLOCK: u32 = 32;
/// The refusals of whole calls, beside success and those of the checks.
const LATE: [u32; 5] = [13, 21, 22, 23, 31];
/// What can come before 31 on a map with a walkable cell.
const BEFORE_31: [u32; 13] = [2, 3, 4, 5, 6, 7, 8, 9, 10, 11, 12, 21, 13];

/// What is held to the library's functions, by kind: a run that should have some of a kind and has none fails.
pub const CHECKS: &str = "inputs whose checks are compared";
pub const PARTS: [&str; 2] = ["parts of the job compared", "parts of the list compared"];
pub const PARTITIONS: &str = "partitions compared";
pub const RECORDS: &str = "record lists compared";
pub const MARK_LISTS: &str = "record lists compared by their marks";
/// Those of which Mark succeeds.
pub const MARKED: &str = "jobs compared by their marks";
pub const PLANS: &str = "plans compared";
pub const RELISTINGS: &str = "relistings";
/// Those on relistings among them.
pub const WHOLE: [&str; 4] = [
    "calls of Reduce compared",
    "calls of Reduce by list compared",
    "calls of Mark compared",
    "calls of Area cards compared",
];
/// Cards whose every word was held to what the paper says of the job's bytes and labels.
pub const STATED: &str = "cards stated anew";
pub const KINDS: [&str; 21] = [
    CHECKS, PARTS[0], PARTS[1], PARTITIONS, RECORDS, MARK_LISTS, MARKED, PLANS, RELISTINGS,
    REGIONS, LINKS, ENVELOPES, WHOLE[0], WHOLE[1], WHOLE[2], WHOLE[3], STATED, LENGTHS, TOTALS,
    OWN, WRITTEN,
];

/// What a whole run must have seen at least once.
const WANTED: [&str; 37] = [
    "partitions held to the definitions",
    "partitions with a span that cuts nothing",
    "partitions with a span that goes round",
    "partitions with a span of several pairs",
    "partitions of no area",
    "partitions of over 256 areas",
    "record lists with bridges and others",
    "record lists without bridges",
    "record lists of 4,096",
    "serial groups of 3, Reduce",
    "serial groups of 4, Reduce",
    "serial groups of 3, Reduce by list",
    "serial groups of 4, Reduce by list",
    "flat groups of 2, Reduce",
    "flat groups of 3, Reduce",
    "flat groups of 4, Reduce",
    "flat groups of 2, Reduce by list",
    "flat groups of 3, Reduce by list",
    "flat groups of 4, Reduce by list",
    "serial groups at 384.0",
    "flat groups at 128.0",
    "groups with a member without observations",
    "runs with several groups",
    "runs with both kinds",
    "merges one at a time",
    "regions with an anchor",
    "regions of several elevations",
    "links within",
    "links beyond",
    "links outside the flat envelope",
    "cards of no area",
    "cards of over 256 areas",
    "cards of 524,288 areas",
    "cards with a ramp and without",
    "cards of several elevations",
    "cards of elevation 3",
    "cards at the map's far corner",
];

pub struct Tally {
    /// For each call and refusal: how often seen, and how often with a later fault besides.
    seen: [[u64; NUMBERS]; 4],
    ordered: [[u64; NUMBERS]; 4],
    /// For each call and refusal, a bit for each later fault it was seen with.
    pairs: [[u32; NUMBERS]; 4],
    /// Inputs on which the Rust's own checks were compared, and those that it refused.
    pub rust: [u64; 2],
    /// For each call, how often a whole call was to end with each number.
    whole: [[u64; NUMBERS]; 4],
    /// How often each number came though the card slice was too short for one card as well.
    short_cards: [u64; NUMBERS],
    seen_besides: BTreeMap<String, u64>,
}

impl Default for Tally {
    fn default() -> Self {
        Self {
            seen: [[0; NUMBERS]; 4],
            ordered: [[0; NUMBERS]; 4],
            pairs: [[0; NUMBERS]; 4],
            rust: [0; 2],
            whole: [[0; NUMBERS]; 4],
            short_cards: [0; NUMBERS],
            seen_besides: BTreeMap::new(),
        }
    }
}

/// The refusals of the checks, in their order.
fn in_order() -> impl Iterator<Item = u32> {
    std::iter::once(BAD_BLOCK).chain(REFUSALS)
}

/// True where the call makes the check.
pub fn makes(call: usize, refusal: u32) -> bool {
    if refusal == BAD_BLOCK {
        takes_block(call as u32)
    } else if call as u32 == BY_LIST {
        refusal != 12
    } else {
        refusal <= 12
    }
}

/// True where an input can have both faults, and the paper wants `refusal` to win over `later` at
/// least at times: later checks, and those that take turns with it record by record.
fn wins(call: usize, refusal: u32, later: u32) -> bool {
    let turns = matches!((refusal, later), (12, 11) | (17, 16));
    // A job too short for a header has no records.
    let readable = refusal > 1 || !matches!(later, 5..=12);
    let first = refusal == BAD_BLOCK;
    let after = later != BAD_BLOCK && (first || later > refusal || turns);
    makes(call, refusal) && makes(call, later) && after && readable
}

impl Tally {
    /// Counts something by its name.
    pub fn see(&mut self, what: &str) {
        self.see_times(what, 1);
    }

    /// Counts so many of something; none leaves no trace.
    pub fn see_times(&mut self, what: &str, times: u64) {
        match self.seen_besides.get_mut(what) {
            Some(count) => *count += times,
            None if times > 0 => drop(self.seen_besides.insert(what.to_string(), times)),
            None => {}
        }
    }

    pub fn count(&self, what: &str) -> u64 {
        self.seen_besides.get(what).copied().unwrap_or(0)
    }

    /// Whole calls compared, those on relistings among them.
    pub fn calls(&self) -> u64 {
        WHOLE.iter().map(|call| self.count(call)).sum()
    }

    /// The kinds of which nothing was compared, of those that should have been.
    pub fn none_of(&self, kinds: &[&str]) -> Vec<String> {
        let none = kinds.iter().filter(|kind| self.count(kind) == 0);
        none.map(|kind| format!("0 {kind}")).collect()
    }

    pub fn note_whole(&mut self, call: usize, number: u32) {
        self.whole[call][number as usize] += 1;
    }

    pub fn note_short_cards(&mut self, number: u32) {
        self.short_cards[number as usize] += 1;
    }

    pub fn note(&mut self, call: usize, faults: &[Refusal]) {
        let first = faults.first().map_or(0, |fault| fault.0 as usize);
        self.seen[call][first] += 1;
        if faults.len() > 1 {
            self.ordered[call][first] += 1;
            self.pairs[call][first] |=
                faults[1..].iter().fold(0, |bits, fault| bits | 1 << fault.0);
        }
    }

    pub fn print(&self) {
        println!(
            "{} inputs, four calls each; times seen, of these with a later fault",
            self.count(CHECKS)
        );
        let line = |name: &str, columns: [String; 4]| {
            println!("{name:>8}{}", columns.map(|column| format!("{column:>24}")).concat());
        };
        line("refusal", NAMES.map(str::to_string));
        for number in std::iter::once(0).chain(in_order()) {
            let row = |call: usize| match number {
                0 => format!("{}", self.seen[call][0]),
                _ if !makes(call, number) => "-".to_string(),
                _ => {
                    let n = number as usize;
                    format!("{} {:>9}", self.seen[call][n], self.ordered[call][n])
                }
            };
            let name = if number == 0 { "none".to_string() } else { number.to_string() };
            line(&name, [0, 1, 2, 3].map(row));
        }
        let pairs: u32 = self.pairs.iter().flatten().map(|bits| bits.count_ones()).sum();
        println!("pairs of a refusal and a later fault, over the calls: {pairs}");
        println!("spans given to the Rust: {}, refused by it: {}", self.rust[0], self.rust[1]);
        self.print_whole();
    }

    pub fn print_whole(&self) {
        println!("whole calls compared, those on relistings among them: {}", self.calls());
        println!("whole calls by number, without relistings");
        for (call, name) in NAMES.iter().enumerate() {
            let early = (1..=17).chain([32]).filter(|&n| n != 13);
            let refused: u64 = early.map(|n| self.whole[call][n]).sum();
            let late = LATE.map(|n| format!(", {n}: {}", self.whole[call][n as usize])).concat();
            println!("{name:>16}  0: {}{late}, refused before: {refused}", self.whole[call][0]);
        }
        let before = BEFORE_31.map(|n| format!(" {n}: {}", self.short_cards[n as usize])).join(",");
        println!("with too short a card slice besides:{before}");
        self.print_besides();
    }

    /// What was counted by its name.
    pub fn print_besides(&self) {
        for (what, count) in &self.seen_besides {
            println!("{count:>8} {what}");
        }
    }

    /// What the comparisons beyond the checks should have seen and did not.
    fn missing_besides(&self) -> Vec<String> {
        let mut missing = self.none_of(&KINDS);
        for (call, name) in NAMES.iter().enumerate() {
            for number in [0, 13, 21, too_short(call as u32, 0).0] {
                if self.whole[call][number as usize] == 0 {
                    missing.push(format!("{name}: no whole call ended with {number}"));
                }
            }
        }
        let alone = BEFORE_31.into_iter().filter(|&n| self.short_cards[n as usize] == 0);
        missing.extend(alone.map(|n| format!("Area cards: {n} was never seen before 31")));
        let unseen = WANTED.iter().filter(|&&what| self.count(what) == 0);
        missing.extend(unseen.map(|what| format!("never: {what}")));
        missing.extend(self.none_of(&[marks::FORETOLD, lists::FORETOLD]));
        missing.extend(marks::missing(self, &marks::OF_JOBS));
        missing.extend(lists::missing(self));
        missing.extend(blocks::missing(self, true));
        missing.extend(measures::missing(self));
        missing.extend(lengths::missing(self));
        missing.extend(sorting::missing(self, false));
        missing.extend(sorting::missing(self, true));
        missing
    }

    /// What the run should have seen and did not.
    pub fn missing(&self) -> Vec<String> {
        let mut missing = Vec::new();
        for (call, name) in NAMES.iter().enumerate() {
            if self.seen[call][0] == 0 {
                missing.push(format!("{name}: no input passed"));
            }
            for number in in_order().filter(|&number| makes(call, number)) {
                let n = number as usize;
                if self.seen[call][n] == 0 {
                    missing.push(format!("{name}: refusal {number} was never seen"));
                } else if self.ordered[call][n] == 0 {
                    missing.push(format!("{name}: refusal {number} never had a later fault"));
                }
                for later in in_order().filter(|&later| wins(call, number, later)) {
                    if self.pairs[call][n] & 1 << later == 0 {
                        missing.push(format!("{name}: {number} was never seen before {later}"));
                    }
                }
            }
        }
        if self.rust[1] == 0 || self.rust[0] == self.rust[1] {
            missing.push("the Rust's own checks were not both passed and failed".to_string());
        }
        missing.extend(self.missing_besides());
        missing
    }
}

//! Compares the proved library with document 01's checks, stated anew, and with the real Rust.
//!
//!     driver quick
//!     driver long [CASES | SECONDSs | CALLScalls] [SEED]
//!     driver random CASES SEED
//!     driver heap CASES SEED
//!     driver family NAME CASES SEED
//!     driver case SEED NUMBER
//!     driver blocks SEED
//!     driver lengths [CASES SEED]
//!     driver bytes CALLS SEED [BYTE]
//!     driver record FILE SEED
//!
//! `random` is the random cases alone; `family` those of one family: damaged, maps, records,
//! corridors, slanted, cards, own-orders, one-head, thresholds, marks or mark-lists. `heap` is random cases with every slice an allocation of its own and of
//! just its length, for valgrind.
//! `blocks` is what is run whole of blocks of thresholds (blocks.rs);
//! `lengths` is the lengths and totals alone, with so many random ones (lengths.rs); `bytes` writes what so many calls
//! leave to standard output, compared with nothing, and with BYTE says which call left that byte (bytes.rs).
//! `record` writes the list that crates/replay reads (record.rs).
//! Every run prints its seed; `case` runs one random case of a seed again. Exit status 0 means
//! that nothing differed and that everything that should occur did: in `quick` and `long` all that
//! tally.rs and coverage.rs ask for, in the others some comparison of each kind that they have.

mod blocks;
mod bytes;
mod calls;
mod cards;
mod checks;
mod compare;
mod corridors;
mod coverage;
mod damage;
mod definition;
mod draft;
mod exhaustive;
mod expect;
mod families;
mod heads;
mod known;
mod lengths;
mod lent;
mod lists;
mod maps;
mod marks;
mod measures;
mod memory;
mod merging;
mod orders;
mod own;
mod partition;
mod record;
mod records;
mod regions;
mod rng;
mod rows;
mod run;
mod rust;
mod shrink;
mod slanted;
mod smoke;
mod sorting;
mod splits;
mod tally;
mod thresholds;
mod values;
mod whole;

use blocks::{OWN, WRITTEN};
use lengths::{LENGTHS, TOTALS};
use regions::{ENVELOPES, LINKS, REGIONS};
use run::Run;
use std::process::exit;
use std::time::{Duration, Instant};
use tally::{
    CHECKS, KINDS, MARKED, MARK_LISTS, PARTITIONS, PLANS, RECORDS, RELISTINGS, STATED, WHOLE,
};

const QUICK_SEED: u64 = 1;
const QUICK_CASES: u64 = 90_000;
const LONG_SEED: u64 = 2;
/// So many slanted corridors meet each limit on each side.
const ENOUGH_SLANTED: u64 = 2000;
/// So many jobs about own sources reach all that is counted of them.
const ENOUGH_OWN: u64 = 20_000;
/// So many jobs with blocks of their own meet each limit, and have groups of every size.
const ENOUGH_BLOCKS: u64 = 20_000;
/// So many jobs, and so many lists, have marks of every kind.
const ENOUGH_MARKS: u64 = 20_000;
const LONG: Limit = Limit::Time(Duration::from_secs(600));

enum Limit {
    Cases(u64),
    Time(Duration),
    /// Whole calls compared.
    Calls(u64),
}

fn main() {
    memory::name_the_case_on_a_fault();
    let arguments: Vec<String> = std::env::args().skip(1).collect();
    let arguments: Vec<&str> = arguments.iter().map(String::as_str).collect();
    match arguments[..] {
        ["quick"] => whole(QUICK_SEED, Limit::Cases(QUICK_CASES), 50),
        ["long"] => whole(LONG_SEED, LONG, 200),
        ["long", limit] => whole(LONG_SEED, parse_limit(limit), 200),
        ["long", limit, seed] => whole(parse(seed), parse_limit(limit), 200),
        ["random", cases, seed] => {
            let (mut run, mut done) = (Run::new(parse(seed)), 0);
            while done < parse(cases) {
                done = families::round(&mut run, done);
            }
            // What follows is numbered from 1, apart from the random cases.
            run.start(0);
            families::small_maps(&mut run);
            families::limits(&mut run);
            families::sizes(&mut run);
            families::sorts(&mut run);
            families::own_sources(&mut run);
            families::marks(&mut run);
            blocks::all(&mut run);
            lengths::compare(&mut run, lengths::CASES);
            let done = format!("seed {seed}: {done} random cases, nothing differs");
            end(run.tally.none_of(&KINDS), &done)
        }
        ["heap", cases, seed] => {
            let (mut run, mut done) = (Run::on_heap(parse(seed)), 0);
            while done < parse(cases) {
                done = families::round(&mut run, done);
            }
            let mut rng = run.start(0);
            blocks::of_000(&mut run);
            lengths::random(&mut run, parse(cases), &mut rng);
            run.tally.print_whole();
            let done = format!("seed {seed}: {done} random cases on the heap, nothing differs");
            end(run.tally.none_of(&KINDS), &done)
        }
        ["family", name, cases, seed] => {
            let (start, mut run) = (Instant::now(), Run::new(parse(seed)));
            let Some(family) = families::NAMES.iter().position(|&known| known == name) else {
                usage()
            };
            for number in 0..parse(cases) {
                families::case(&mut run, (family as u64 + 1) << 32 | number);
            }
            run.tally.print_whole();
            let time = start.elapsed().as_secs_f64();
            let done =
                format!("seed {seed}: {cases} cases of {name}, nothing differs; {time:.1} s");
            let mut missing = run.tally.none_of(kinds(name));
            if name == "slanted" && parse(cases) >= ENOUGH_SLANTED {
                missing.extend(measures::missing(&run.tally));
            }
            if matches!(name, "own-orders" | "one-head") && parse(cases) >= ENOUGH_OWN {
                missing.extend(sorting::missing(&run.tally, name == "one-head"));
            }
            if name == "marks" && parse(cases) >= ENOUGH_MARKS {
                missing.extend(marks::missing(&run.tally, &marks::OF_JOBS));
            }
            if name == "mark-lists" && parse(cases) >= ENOUGH_MARKS {
                missing.extend(lists::missing(&run.tally));
            }
            if name == "thresholds" && parse(cases) >= ENOUGH_BLOCKS {
                coverage::print();
                missing.extend(blocks::missing(&run.tally, false));
                missing.extend(coverage::missing_at_limits());
            }
            end(missing, &done)
        }
        ["case", seed, number] => {
            let (mut run, case) = (Run::new(parse(seed)), parse(number));
            if !families::case(&mut run, case) {
                eprintln!("case {case} is of the exhaustive families, which a whole run repeats");
                exit(2);
            }
            let had = |kind: &str| run.tally.count(kind) > 0;
            let of_each = if had(RECORDS) {
                &[RECORDS][..]
            } else if had(MARK_LISTS) {
                &[MARK_LISTS]
            } else if had(WHOLE[0]) {
                &WHOLE
            } else if had(WHOLE[2]) {
                &WHOLE[2..3]
            } else {
                &WHOLE[3..]
            };
            end(run.tally.none_of(of_each), &format!("seed {seed} case {number}: nothing differs"))
        }
        ["blocks", seed] => {
            let (start, mut run) = (Instant::now(), Run::new(parse(seed)));
            blocks::all(&mut run);
            run.tally.print_whole();
            let time = start.elapsed().as_secs_f64();
            let done = format!("seed {seed}: blocks, nothing differs; {time:.1} s");
            end(run.tally.none_of(&[OWN, CHECKS, WHOLE[0], WHOLE[1], WHOLE[2], WHOLE[3]]), &done)
        }
        ["lengths"] => lengths(lengths::CASES, lengths::SEED),
        ["lengths", cases, seed] => lengths(parse(cases), parse(seed)),
        ["bytes", calls, seed] => bytes::write(parse(calls), parse(seed), None),
        ["bytes", calls, seed, byte] => bytes::write(parse(calls), parse(seed), Some(parse(byte))),
        ["record", file, seed] => record::record(file, parse(seed)),
        _ => usage(),
    }
}

/// The kinds of comparison that a family has.
fn kinds(family: &str) -> &'static [&'static str] {
    match family {
        "damaged" => &[CHECKS, WHOLE[0], WHOLE[1], WHOLE[2], WHOLE[3]],
        "maps" => &[PARTITIONS, REGIONS, WHOLE[0], WHOLE[1], WHOLE[2], WHOLE[3]],
        "records" => &[RECORDS],
        "marks" => &[MARKED, WHOLE[2]],
        "mark-lists" => &[MARK_LISTS],
        "cards" => &[WHOLE[3], STATED],
        "own-orders" | "one-head" => &WHOLE,
        "thresholds" => &[WRITTEN, RELISTINGS, WHOLE[0], WHOLE[1], WHOLE[2], WHOLE[3]],
        _ => {
            &[PLANS, RELISTINGS, REGIONS, LINKS, ENVELOPES, WHOLE[0], WHOLE[1], WHOLE[2], WHOLE[3]]
        }
    }
}

/// The lengths and totals alone.
fn lengths(cases: u64, seed: u64) -> ! {
    let (start, mut run) = (Instant::now(), Run::new(seed));
    lengths::compare(&mut run, cases);
    run.tally.print_besides();
    let mut missing = run.tally.none_of(&[LENGTHS, TOTALS]);
    missing.extend(lengths::missing(&run.tally));
    let [lengths, totals] = [LENGTHS, TOTALS].map(|kind| run.tally.count(kind));
    let time = start.elapsed().as_secs_f64();
    end(
        missing,
        &format!("seed {seed}: {lengths} lengths, {totals} totals, nothing differs; {time:.1} s"),
    )
}

/// Ends the run with what it did, and with status 1 where it left out what it should have tested.
fn end(missing: Vec<String>, done: &str) -> ! {
    if missing.is_empty() {
        println!("{done}");
        exit(0)
    }
    missing.iter().for_each(|what| println!("not tested: {what}"));
    println!("failed: {} not tested; {done}", missing.len());
    exit(1)
}

fn usage() -> ! {
    eprintln!("usage: driver quick | long [CASES | SECONDSs | CALLScalls] [SEED]");
    eprintln!("       driver random CASES SEED | heap CASES SEED | family NAME CASES SEED");
    eprintln!("       driver case SEED NUMBER | blocks SEED | lengths [CASES SEED]");
    eprintln!("       driver record FILE SEED | bytes CALLS SEED [BYTE]");
    exit(2)
}

fn parse(text: &str) -> u64 {
    text.parse().unwrap_or_else(|_| usage())
}

fn parse_limit(text: &str) -> Limit {
    if let Some(calls) = text.strip_suffix("calls") {
        Limit::Calls(parse(calls))
    } else if let Some(seconds) = text.strip_suffix('s') {
        Limit::Time(Duration::from_secs(parse(seconds)))
    } else {
        Limit::Cases(parse(text))
    }
}

/// The oracle's own check, the exhaustive families, random cases up to the limit, the table.
fn whole(seed: u64, limit: Limit, rounds: usize) {
    let start = Instant::now();
    println!("seed {seed}");
    oracle::count::uncounted(|| smoke::all(seed));
    let mut run = Run::new(seed);
    exhaustive::all(&mut run, rounds);
    families::small_maps(&mut run);
    families::limits(&mut run);
    families::sizes(&mut run);
    families::sorts(&mut run);
    families::own_sources(&mut run);
    families::marks(&mut run);
    blocks::all(&mut run);
    lengths::compare(&mut run, lengths::CASES);
    let mut done = 0;
    while match limit {
        Limit::Cases(cases) => done < cases,
        Limit::Time(time) => start.elapsed() < time,
        Limit::Calls(calls) => run.tally.calls() < calls,
    } {
        done = families::round(&mut run, done);
    }
    run.tally.print();
    coverage::print();
    let mut missing = run.tally.missing();
    missing.extend(coverage::missing());
    let (calls, time) = (run.tally.calls(), start.elapsed().as_secs_f64());
    end(missing, &format!("{done} random cases, {calls} whole calls compared; {time:.1} s"))
}

//! What the library returned, as coverage: libFuzzer keeps an input that sets a counter not set so
//! far. And how often each number came, printed at the end of a run.

use crate::checks::{Refusal, CARDS, MARK};
use crate::expect::{Closing, CARD};
use std::sync::atomic::{AtomicU64, AtomicU8, Ordering::Relaxed};
use std::sync::Once;

/// The numbers that a call may end with, from 0.
const MOST_NUMBERS: usize = 33;
/// Counters of a call: numbers, details by number, kept and merged boundaries or areas with a ramp and
/// of several elevations, observations more than the job's, labels, the most own sources of a kept boundary, doubles left out,
/// merged boundaries by the block's largest group, boundaries of several region pairs by their marks.
const EACH: usize = 2048;
const DETAILS: usize = MOST_NUMBERS;
const KEPT: usize = DETAILS + MOST_NUMBERS * 16;
const OBSERVED: usize = KEPT + 16 * 16;
const LABELS: usize = OBSERVED + 16;
const OWN: usize = LABELS + 64;
const DOUBLES: usize = OWN + 16;
const GROUPS: usize = DOUBLES + 16;
const CLOSED: usize = GROUPS + 17 * 17;
const _: () = assert!(CLOSED + 8 * 8 * 8 <= EACH);

#[link_section = "__libfuzzer_extra_counters"]
static COUNTERS: [AtomicU8; 4 * EACH] = [const { AtomicU8::new(0) }; 4 * EACH];

/// Calls by call and number, and answers with fewer boundaries than the job.
static NUMBERS: [[AtomicU64; MOST_NUMBERS]; 4] =
    [const { [const { AtomicU64::new(0) }; MOST_NUMBERS] }; 4];
static MERGED: AtomicU64 = AtomicU64::new(0);
/// Those among them with a largest group of over four, and with a smallest of two.
static OF_SIZES: [AtomicU64; 2] = [const { AtomicU64::new(0) }; 2];
/// Answers that leave out doubles of own sources, and those with over 48 own sources of a boundary.
static OF_OWN: [AtomicU64; 2] = [const { AtomicU64::new(0) }; 2];
/// Boundaries of several region pairs that Mark left without a mark, that it marked though they are no bridges, and bridges among them.
static OF_SEVERAL: [AtomicU64; 3] = [const { AtomicU64::new(0) }; 3];

extern "C" {
    fn atexit(function: extern "C" fn()) -> i32;
}

pub fn note(
    call: u32,
    (number, detail): Refusal,
    [job, thresholds]: [&[u8]; 2],
    work: &[u8],
    out: &[u8],
) {
    static AT_END: Once = Once::new();
    // The function prints counters that live as long as the process.
    AT_END.call_once(|| assert_eq!(unsafe { atexit(print) }, 0, "a function for the end"));
    let set = |i: usize| COUNTERS[call as usize * EACH + i].store(1, Relaxed);
    let number = (number as usize).min(MOST_NUMBERS - 1);
    NUMBERS[call as usize][number].fetch_add(1, Relaxed);
    set(number);
    set(DETAILS + 16 * number + log(detail).min(15));
    if [0, 13, 22, 23, 31].contains(&number) {
        let labels = (0..work.len() / 10).map(|cell| word(work, cell)).max().unwrap_or(0);
        set(LABELS + (labels as usize).min(16 + log(labels.into())));
    }
    if number != 0 {
        return;
    }
    let boundaries = word(job, 3) as usize;
    if call == MARK {
        let marked = out[..boundaries].iter().filter(|&&mark| mark == 1).count();
        set(KEPT + 16 * marked.min(15) + boundaries.min(15));
        return;
    }
    if call == CARDS {
        let cards = || out[..detail as usize].chunks_exact(CARD);
        let ramps = cards().filter(|card| word(card, 5) == 1).count();
        let several = |card: &&[u8]| (6..10).filter(|&i| word(card, i) > 0).count() > 1;
        set(KEPT + 16 * ramps.min(15) + cards().filter(several).count().min(15));
        return;
    }
    let [kept, observations] = [0, 1].map(|i| word(out, i) as usize);
    let merged = boundaries.wrapping_sub(kept);
    set(KEPT + 16 * merged.min(15) + boundaries.min(15));
    set(OBSERVED + observations.wrapping_sub(word(job, 4) as usize).min(15));
    if merged > 0 {
        let [smallest, largest] = [2, 3].map(|i| word(thresholds, i) as usize);
        set(GROUPS + 17 * largest.min(16) + merged.min(16));
        MERGED.fetch_add(1, Relaxed);
        OF_SIZES[0].fetch_add(u64::from(largest > 4), Relaxed);
        OF_SIZES[1].fetch_add(u64::from(smallest == 2), Relaxed);
    }
    let came = own(&job[word(job, 8) as usize..], boundaries);
    let [came, left] = [came, own(&out[24..], kept)];
    let most = left.iter().copied().max().unwrap_or(0);
    let doubles = came.iter().sum::<u64>().wrapping_sub(left.iter().sum());
    set(OWN + log(most).min(15));
    set(DOUBLES + log(doubles).min(15));
    OF_OWN[0].fetch_add(u64::from(doubles > 0), Relaxed);
    OF_OWN[1].fetch_add(u64::from(most > 48), Relaxed);
}

/// What Mark made of boundaries that have several region pairs: left without a mark, marked though no bridge, or a bridge.
pub fn note_marks(closing: &Closing, marks: &[u8]) {
    let mut pairs = vec![0; marks.len()];
    closing.records.iter().for_each(|record| pairs[record[0] as usize] += 1);
    let mut counts = [0_usize; 3];
    for (i, &mark) in marks.iter().enumerate().filter(|&(i, _)| pairs[i] > 1) {
        let kind = if closing.bridges.contains(&i) { 2 } else { usize::from(mark == 1) };
        counts[kind] += 1;
    }
    let place = counts.iter().fold(0, |place, &count| 8 * place + count.min(7));
    COUNTERS[MARK as usize * EACH + CLOSED + place].store(1, Relaxed);
    for (all, count) in OF_SEVERAL.iter().zip(counts) {
        all.fetch_add(count as u64, Relaxed);
    }
}

/// The numbers of own sources of so many boundary records.
fn own(records: &[u8], count: usize) -> Vec<u64> {
    (0..count).map(|i| word(&records[40 * i..], 6).into()).collect()
}

/// Binary digits.
fn log(value: u64) -> usize {
    (64 - value.leading_zeros()) as usize
}

/// Word i of a slice, 0 past its end.
fn word(bytes: &[u8], i: usize) -> u32 {
    let word = bytes.get(4 * i..4 * i + 4).and_then(|bytes| bytes.try_into().ok());
    word.map_or(0, u32::from_le_bytes)
}

extern "C" fn print() {
    let mut calls = 0;
    for (numbers, name) in NUMBERS.iter().zip(crate::NAMES) {
        let counts = numbers.iter().map(|count| count.load(Relaxed)).enumerate();
        let seen: Vec<_> = counts.filter(|&(_, count)| count > 0).collect();
        calls += seen.iter().map(|&(_, count)| count).sum::<u64>();
        let seen: Vec<_> = seen.iter().map(|(i, count)| format!("{i}: {count}")).collect();
        eprintln!("calls of {name} by number: {}", seen.join(", "));
    }
    let [merged, largest, smallest] =
        [&MERGED, &OF_SIZES[0], &OF_SIZES[1]].map(|count| count.load(Relaxed));
    let [doubles, many] = [0, 1].map(|i| OF_OWN[i].load(Relaxed));
    eprintln!(
        "calls: {calls}; answers with merges: {merged}, of these with a largest group of over 4: {largest}, \
         with a smallest of 2: {smallest}; without doubles of own sources that came: {doubles}; \
         with over 48 own sources of a boundary: {many}"
    );
    let [unmarked, marked, bridges] = [0, 1, 2].map(|i| OF_SEVERAL[i].load(Relaxed));
    eprintln!(
        "calls of Mark, boundaries of several region pairs: without a mark {unmarked}, marked and no bridge {marked}, bridges {bridges}"
    );
}

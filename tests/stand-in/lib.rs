//! Stands for the proved libraries: the same C functions, from the oracle, with faults that can be
//! switched on by name. It shows that the driver finds each of them; no part of the product.

mod blocks;
#[path = "../driver/checks.rs"]
#[allow(dead_code)]
mod checks;
#[path = "../oracle/exact_length.rs"]
#[allow(dead_code)]
mod exact_length;
#[path = "../driver/expect.rs"]
#[allow(dead_code)]
mod expect;
#[path = "../driver/heads.rs"]
#[allow(dead_code)]
mod heads;
#[path = "../driver/known.rs"]
mod known;
mod marks;
mod own;
#[path = "../driver/rng.rs"]
#[allow(dead_code)]
mod rng;
#[path = "../driver/rust.rs"]
#[allow(dead_code)]
mod rust;
#[path = "../driver/splits.rs"]
#[allow(dead_code)]
mod splits;
#[path = "../driver/thresholds.rs"]
#[allow(dead_code)]
mod thresholds;

use checks::{Refusal, BY_LIST, CARDS, HEADER, MARK, NONE, REDUCE, SPAN};
use exact_length::half_root;
use expect::{Accepted, Expected, CARD, MOST_PAIRS, WORK};
use oracle::api::{Context, SpanPartition};
use oracle::fault;
use std::collections::BTreeMap;
use std::slice;
use thresholds::{BLOCK, OF_000};

#[repr(C)]
pub struct CallResult {
    number: u32,
    detail: u64,
}

fn result((number, detail): Refusal) -> CallResult {
    CallResult { number, detail }
}

type In = *const u8;
type Out = *mut u8;

/// A lent slice that is read.
fn read<'a>(start: In, length: usize) -> &'a [u8] {
    // The caller lends these bytes for the call.
    unsafe { slice::from_raw_parts(start, length) }
}

/// A lent slice that is written.
fn write<'a>(start: Out, length: usize) -> &'a mut [u8] {
    // As above, and nothing else of the call overlaps them.
    unsafe { slice::from_raw_parts_mut(start, length) }
}

/// The refusal of the checks, with their faults.
fn refusal(call: u32, job: &[u8], list: &[u8]) -> Refusal {
    if call == BY_LIST && list.len() > 1 << 30 {
        // Too long to be looked at span by span.
        let told = if list.len() % SPAN != 0 { (14, 0) } else { (15, (list.len() / SPAN) as u64) };
        return checks::faults(call, job, &[]).first().copied().unwrap_or(told);
    }
    let faults = checks::faults(call, job, list);
    let first = faults.first().copied().unwrap_or(NONE);
    if call == BY_LIST && fault::on("coincident_ends_refused_by_list") {
        let own = checks::faults(REDUCE, job, list);
        if let Some(&(12, i)) = own.first() {
            return (12, i);
        }
    }
    if first.0 == 4 && fault::on("boundary_count_not_told") {
        return (4, 0);
    }
    if first.0 == 12 && fault::on("all_ends_before_coincidence") {
        return faults.iter().copied().find(|fault| fault.0 == 11).unwrap_or(first);
    }
    first
}

#[no_mangle]
pub extern "C" fn probe_check(call: u32, job: In, jl: usize, list: In, ll: usize) -> CallResult {
    result(refusal(call, read(job, jl), read(list, ll)))
}

#[no_mangle]
pub extern "C" fn probe_span_ends(
    job: In,
    jl: usize,
    list: In,
    ll: usize,
    which: u32,
    i: u32,
    out: Out,
    ol: usize,
) -> usize {
    let (job, list, out) = (read(job, jl), read(list, ll), write(out, ol));
    let call = if which == 0 { REDUCE } else { BY_LIST };
    if refusal(call, job, list) != NONE {
        return 0;
    }
    let mut part = checks::span_ends(job, list, which, i);
    if part.len() == 16 && which == 0 && fault::on("part_eight_late") {
        let at = part.as_ptr() as usize - job.as_ptr() as usize + 8;
        part = &job[at..at + 16];
    }
    if part.len() <= ol {
        out[..part.len()].copy_from_slice(part);
    }
    part.len()
}

/// Labels and zeros, with the faults of the work slice.
fn fill(labels: &[u32], work: &mut [u8]) {
    let zeros = if fault::on("zero_fill_short") { 8 } else { WORK } * labels.len();
    work[4 * labels.len()..zeros.max(4 * labels.len())].fill(0);
    for (bytes, &label) in work.chunks_exact_mut(4).zip(labels) {
        let label = label - u32::from(label > 0 && fault::on("labels_from_zero"));
        let mut word = label.to_le_bytes();
        if fault::on("label_bytes_reversed") {
            word.reverse();
        }
        bytes.copy_from_slice(&word);
    }
    if work.len() > WORK * labels.len() && fault::on("work_tail_written") {
        work[WORK * labels.len()] = 0;
    }
}

/// True if there are too many pairs.
fn too_many(pairs: usize) -> bool {
    pairs > MOST_PAIRS || pairs == MOST_PAIRS && fault::on("full_pairs_refused")
}

#[no_mangle]
pub extern "C" fn probe_partition(
    job: In,
    jl: usize,
    work: Out,
    wl: usize,
    out: Out,
    ol: usize,
) -> CallResult {
    let (job, work, out) = (read(job, jl), write(work, wl), write(out, ol));
    let Accepted { partition, .. } = match expect::accepted(REDUCE, job, &[], &OF_000) {
        Ok(accepted) => accepted,
        Err(refusal) => return result(refusal),
    };
    fill(partition.labels(), work);
    if too_many(expect::pairs(&partition)) {
        return result((13, 0));
    }
    let mut words = vec![partition.areas().len() as u32, expect::pairs(&partition) as u32];
    for span in partition.boundaries() {
        words.extend([span.removed_edge_count, span.separated_edge_count]);
    }
    for (owner, span) in (0..).zip(partition.boundaries()) {
        words.extend(span.region_pairs.iter().flat_map(|pair| [owner, pair[0], pair[1]]));
    }
    let bytes: Vec<u8> = words.iter().flat_map(|word| word.to_le_bytes()).collect();
    if out.len() < bytes.len() {
        return result((22, bytes.len() as u64));
    }
    out[..bytes.len()].copy_from_slice(&bytes);
    result((0, bytes.len() as u64))
}

#[no_mangle]
pub extern "C" fn probe_bridges(
    records: In,
    rl: usize,
    work: Out,
    wl: usize,
    marks: Out,
    ml: usize,
) -> CallResult {
    let (records, _, marks) = (read(records, rl), write(work, wl), write(marks, ml));
    let word = |at: usize| u32::from_le_bytes(records[at..at + 4].try_into().unwrap());
    let mut records: Vec<_> =
        (0..rl / 12).map(|i| [0, 4, 8].map(|field| word(12 * i + field))).collect();
    if fault::on("parallel_records_once") {
        let mut seen = std::collections::BTreeSet::new();
        records.retain(|&[_, left, right]| seen.insert([left, right]));
    }
    if fault::on("last_record_forgotten") {
        records.pop();
    }
    let mut bridges = oracle::api::bridges_of(&records);
    if fault::on("whole_boundary_taken_away") {
        // An owner of two records is no bridge.
        let mut count = BTreeMap::new();
        records.iter().for_each(|record| *count.entry(record[0] as usize).or_insert(0) += 1);
        bridges.retain(|owner| count[owner] == 1);
    }
    for (i, mark) in marks.iter_mut().enumerate() {
        *mark = u8::from(bridges.contains(&i));
    }
    result((0, 0))
}

#[no_mangle]
pub extern "C" fn probe_marks(
    records: In,
    rl: usize,
    work: Out,
    wl: usize,
    marks: Out,
    ml: usize,
) -> CallResult {
    let (records, work, marks) = (read(records, rl), write(work, wl), write(marks, ml));
    let said = marks::refusal(records, wl, ml);
    if said.0 == 0 || fault::on("list_written_and_refused") && said.0 == 5 {
        marks::write(records, work, marks);
    }
    result(said)
}

#[no_mangle]
pub extern "C" fn probe_plan(
    job: In,
    jl: usize,
    list: In,
    ll: usize,
    which: u32,
    work: Out,
    wl: usize,
    out: Out,
    ol: usize,
) -> CallResult {
    let (job, list, work, out) = (read(job, jl), read(list, ll), write(work, wl), write(out, ol));
    let call = if which == 0 { REDUCE } else { BY_LIST };
    let accepted = match expect::accepted(call, job, list, &OF_000) {
        Ok(accepted) => accepted,
        Err(refusal) => return result(refusal),
    };
    fill(accepted.partition.labels(), work);
    let mut goes: Vec<u32> = (0..accepted.job.boundaries.len() as u32).collect();
    let groups = accepted.groups();
    let first_only = if fault::on("first_group_only") { 1 } else { groups.len() };
    for group in groups.iter().take(first_only) {
        let retained =
            if fault::on("first_member_kept") { group.members[0] } else { group.retained };
        group.members.iter().for_each(|&member| goes[member] = retained as u32);
    }
    let bytes: Vec<u8> = goes.iter().flat_map(|word| word.to_le_bytes()).collect();
    out[..bytes.len()].copy_from_slice(&bytes);
    result((0, bytes.len() as u64))
}

#[no_mangle]
pub extern "C" fn probe_thresholds(block: Out, bl: usize) -> u64 {
    if bl < BLOCK {
        return 0;
    }
    write(block, bl)[..BLOCK].copy_from_slice(&OF_000);
    BLOCK as u64
}

/// What the partition in context says of a region or a link, where the labels are those that it has.
fn known(
    job: &[u8],
    labels: &[u8],
    out: &mut [u8],
    say: impl Fn(&rust::Job, &SpanPartition, &Context) -> Vec<u8>,
) -> CallResult {
    let Accepted { job, partition, .. } = match expect::accepted(REDUCE, job, &[], &OF_000) {
        Ok(accepted) => accepted,
        Err(refusal) => return result(refusal),
    };
    if labels.len() < 4 * partition.labels().len() {
        return result((21, 0));
    }
    let bytes = say(&job, &partition, &Context::new(&job.grid, &partition, &job.bases));
    if out.len() < bytes.len() {
        return result((22, bytes.len() as u64));
    }
    out[..bytes.len()].copy_from_slice(&bytes);
    result((0, bytes.len() as u64))
}

#[no_mangle]
pub extern "C" fn probe_region(
    job: In,
    jl: usize,
    labels: In,
    ll: usize,
    region: u32,
    out: Out,
    ol: usize,
) -> CallResult {
    known(read(job, jl), read(labels, ll), write(out, ol), |_, partition, context| {
        let words = known::region_words(partition, context, region);
        words.iter().flat_map(|word| word.to_le_bytes()).collect()
    })
}

#[no_mangle]
pub extern "C" fn probe_link(
    job: In,
    jl: usize,
    labels: In,
    ll: usize,
    region: u32,
    first: u32,
    second: u32,
    out: Out,
    ol: usize,
) -> CallResult {
    known(read(job, jl), read(labels, ll), write(out, ol), |job, _, context| {
        let both = [first as usize, second as usize];
        let links = context.links(&job.boundaries);
        let link = links.iter().find(|link| link.region == region && link.boundaries == both);
        link.map_or(vec![0xFF; 24], known::link_bytes)
    })
}

/// The bits of an f64, and 1 if it is exact, 0 if not, 2 if there is none.
#[repr(C)]
pub struct Marked {
    bits: u64,
    exact: u32,
}

const NO_LENGTH: Marked = Marked { bits: 0, exact: 2 };

fn marked(value: f64, exact: bool) -> Marked {
    Marked { bits: value.to_bits(), exact: u32::from(exact) }
}

/// The greatest whole number whose square is at most d, by halving.
fn root(d: u32) -> u64 {
    let (mut low, mut high) = (0, 1 << 16);
    while high - low > 1 {
        let middle = (low + high) / 2;
        if middle * middle <= u64::from(d) {
            low = middle;
        } else {
            high = middle;
        }
    }
    low
}

/// The same by Newton's steps.
fn root_by_steps(d: u32) -> u64 {
    let (d, mut root) = (u64::from(d), u64::from(d).max(1));
    while root * root > d {
        root = (root + d / root) / 2;
    }
    root
}

/// Whether d is a square, with the faults of the mark.
fn is_exact(d: u32) -> bool {
    let root = root(d);
    let rest = u64::from(d) - root * root;
    if fault::on("same_length_mark_by_steps") {
        return root_by_steps(d).pow(2) == u64::from(d);
    }
    if fault::on("same_length_mark_by_f64") {
        // Below 2^53 the f64 root is whole just where the root is.
        return f64::from(d).sqrt().fract() == 0.0;
    }
    if fault::on("length_mark_with_rest_1") {
        return rest <= 1;
    }
    if fault::on("length_mark_below_a_square") {
        return rest == 0 || rest == 2 * root;
    }
    if fault::on("length_mark_of_even_roots") {
        return rest == 0 && root % 2 == 0;
    }
    if fault::on("length_mark_not_of_0") {
        return rest == 0 && d > 0;
    }
    if fault::on("length_mark_not_of_the_greatest") {
        return rest == 0 && root < 23_170;
    }
    rest == 0
}

/// The length of d, with the faults of its value.
fn length(d: u32) -> f64 {
    let value = half_root(u64::from(d));
    if d % 1009 == 500 && fault::on("length_one_unit_more") {
        return value.next_up();
    }
    if d % 65_521 == 65_520 && fault::on("length_one_unit_less") {
        return value.next_down();
    }
    if d == 0 && fault::on("length_of_0_negative") {
        return -value;
    }
    value
}

/// Whether d is taken, with the faults of the limit.
fn taken(d: u32) -> bool {
    let most = 1 << 29;
    if d == most && fault::on("length_of_the_greatest_refused") {
        return false;
    }
    d <= most
}

#[no_mangle]
pub extern "C" fn probe_length(d: u32) -> Marked {
    if !taken(d) && fault::on("length_refused_as_inexact") {
        return marked(0.0, false);
    }
    if taken(d) {
        marked(length(d), is_exact(d))
    } else {
        NO_LENGTH
    }
}

/// The parts in the order in which they are added, with the faults of that order.
fn ordered(parts: &[u32]) -> Vec<u32> {
    let mut parts = parts.to_vec();
    if fault::on("total_in_listed_order") {
        return parts;
    }
    // Two add up alike either way round.
    if fault::on("same_total_of_two_as_listed") && parts.len() == 2 {
        return parts;
    }
    parts.sort_by(|&d, &e| length(d).total_cmp(&length(e)));
    if fault::on("total_descending") {
        parts.reverse();
    }
    if fault::on("total_least_last") {
        parts.rotate_left(1);
    }
    if fault::on("total_of_equal_parts_once") {
        parts.dedup();
    }
    parts
}

/// The mark of a total of parts in ascending order, which were listed so; with its faults.
fn total_is_exact(parts: &[u32], listed: &[u32], value: f64) -> bool {
    if fault::on("total_mark_by_or") {
        return parts.iter().any(|&d| is_exact(d));
    }
    if fault::on("total_mark_by_last") {
        return listed.last().is_some_and(|&d| is_exact(d));
    }
    if fault::on("total_mark_by_greatest") {
        return parts.last().is_some_and(|&d| is_exact(d));
    }
    if fault::on("total_mark_without_least") {
        return parts[parts.len().min(2) - 1..].iter().all(|&d| is_exact(d));
    }
    if fault::on("total_mark_by_moved") {
        let moved = parts.iter().zip(listed).filter(|(d, e)| d != e);
        return moved.into_iter().all(|(&d, _)| is_exact(d));
    }
    if fault::on("total_mark_of_rounded") {
        return (2.0 * value).fract() == 0.0;
    }
    // It does not matter in which order they are asked.
    if fault::on("same_total_mark_from_greatest") {
        return !parts.iter().rev().any(|&d| !is_exact(d));
    }
    parts.iter().all(|&d| is_exact(d))
}

#[no_mangle]
pub extern "C" fn probe_chain(count: u32, d: u32, e: u32, f: u32) -> Marked {
    let all = [d, e, f];
    if count == 4 && fault::on("total_of_four_taken") {
        return probe_chain(3, d, e, f);
    }
    if !(1..=3).contains(&count) {
        return NO_LENGTH;
    }
    let listed = &all[..count as usize];
    let looked_at = if fault::on("total_refused_beyond_count") { &all[..] } else { listed };
    if !looked_at.iter().all(|&d| taken(d)) {
        return NO_LENGTH;
    }
    let parts = ordered(listed);
    let value = parts[1..].iter().fold(length(parts[0]), |sum, &d| sum + length(d));
    marked(value, total_is_exact(&parts, listed, value))
}

/// Whether the slice that is written is too short, with the faults of cards.
fn too_short(call: u32, expected: &Expected, length: usize) -> bool {
    let needed = expected.written.len();
    if call == CARDS && length == needed && needed > 0 && fault::on("cards_exact_refused") {
        return true;
    }
    if call == CARDS && length == 0 && fault::on("cards_empty_refused") {
        return true;
    }
    length < needed
}

/// The refusal of a slice that is too short, with the faults of cards.
fn late(call: u32, expected: &Expected) -> Refusal {
    let (number, detail) = expect::too_short(call, expected.written.len());
    if call == CARDS && fault::on("cards_detail_one_more") {
        return (number, detail + CARD as u64);
    }
    if call == CARDS && fault::on("cards_detail_in_areas") {
        return (number, detail / CARD as u64);
    }
    if call == CARDS && fault::on("cards_22") {
        return (22, detail);
    }
    (number, detail)
}

/// The faults of the cards' words.
fn card_faults(job: &[u8], labels: &[u32], cards: &mut Vec<u8>) {
    let words = cards.chunks_exact(4).map(|word| u32::from_le_bytes(word.try_into().unwrap()));
    let mut words: Vec<u32> = words.collect();
    let blocked: Vec<u8> = labels
        .iter()
        .zip(&job[HEADER..])
        .filter(|(&label, _)| label == 0)
        .map(|(_, &cell)| cell)
        .collect();
    if fault::on("cards_from_label_0") && !blocked.is_empty() {
        let mut none = [0; 10];
        none[0] = blocked.len() as u32;
        words.splice(0..0, none);
        words.truncate(cards.len() / 4);
    }
    for (i, card) in words.chunks_exact_mut(10).enumerate() {
        if fault::on("cards_column_without_8") {
            card[3] -= 8;
        }
        if fault::on("cards_row_without_8") {
            card[4] -= 8;
        }
        if fault::on("cards_box_in_cells") {
            card[1..5].iter_mut().for_each(|edge| *edge /= 8);
        }
        if fault::on("cards_least_and_greatest_swapped") {
            card[1..5].rotate_left(2);
        }
        if fault::on("cards_rows_before_columns") {
            card.swap(1, 2);
            card.swap(3, 4);
        }
        if fault::on("cards_ramp_dropped") {
            card[5] = 0;
        }
        if fault::on("cards_ramp_last") {
            card[5..].rotate_left(1);
        }
        if fault::on("cards_levels_modulo_2") {
            card[6] += card[8];
            card[7] += card[9];
            card[8..].fill(0);
        }
        if fault::on("cards_level_3_left_out") {
            card[9] = 0;
        }
        if fault::on("cards_blocked_in_first") && i == 0 {
            card[0] += blocked.len() as u32;
        }
        if fault::on("cards_blocked_levels_in_first") && i == 0 {
            blocked.iter().for_each(|cell| card[6 + usize::from(cell >> 3 & 3)] += 1);
        }
        if fault::on("cards_blocked_ramp_in_first") && i == 0 {
            card[5] |= u32::from(blocked.iter().any(|cell| cell & 4 != 0));
        }
    }
    if fault::on("cards_one_late") && !words.is_empty() {
        words.rotate_right(10);
    }
    if fault::on("cards_last_cell_forgotten") && labels.last().is_some_and(|&label| label > 0) {
        let last = labels.last().map_or(0, |&label| label as usize);
        words[10 * (last - 1)] -= 1;
    }
    *cards = words.iter().flat_map(|word| word.to_le_bytes()).collect();
    if fault::on("cards_bytes_turned") {
        cards.chunks_exact_mut(4).for_each(|word| word.reverse());
    }
}

/// A whole call, with faults of its order and of what it leaves.
fn whole(
    call: u32,
    job: &[u8],
    list: &[u8],
    block: &[u8],
    work: &mut [u8],
    out: &mut [u8],
) -> CallResult {
    let mut refused = refusal(call, job, list);
    let mut taken = vec![];
    if checks::takes_block(call) {
        refused = blocks::refusal(block, refused);
        taken = blocks::taken(block);
    }
    let block = &taken[..];
    if refused.0 == 32 && fault::on("block_tested_after_work") {
        let good = Expected::of(call, job, list, &OF_000);
        if good.refusal == NONE && work.len() < good.work() {
            return result((21, 0));
        }
    }
    if refused != NONE {
        if fault::on("work_cleared_on_refusal") {
            work.fill(0);
        }
        return result(refused);
    }
    let mut expected = Expected::of(call, job, list, block);
    if call == CARDS {
        card_faults(job, &expected.labels, &mut expected.written);
    }
    if call == MARK && expected.pairs <= MOST_PAIRS {
        expected.written = marks::marks(&expected.closing.records, expected.written.len());
    }
    let answers = call == REDUCE || call == BY_LIST;
    if answers && expected.pairs <= MOST_PAIRS {
        own::faults(call, job, list, block, &mut expected.written);
    }
    let late = late(call, &expected);
    let unmerged = || {
        let accepted = expect::accepted(call, job, list, block).ok().expect("no refusal");
        let count = accepted.job.boundaries.len();
        24 + 40 * count as u64
    };
    let short = too_short(call, &expected, out.len());
    if short && fault::on("short_answer_before_work") {
        return result(late);
    }
    if work.len() < expected.work() - usize::from(fault::on("work_one_short_taken")) {
        return result((21, 0));
    }
    if work.len() < expected.work() {
        return result((0, expected.written.len() as u64));
    }
    if too_many(expected.pairs) {
        if !fault::on("work_whole_at_13") {
            fill(&expected.labels, work);
        }
        if call == CARDS && out.len() < CARD && fault::on("cards_31_before_13") {
            let areas = expected.labels.iter().copied().max().unwrap_or(0);
            return result((31, CARD as u64 * u64::from(areas)));
        }
        return result((13, 0));
    }
    fill(&expected.labels, work);
    if short {
        if fault::on("header_before_length_test") && out.len() >= 24 && answers {
            out[..24].copy_from_slice(&expected.written[..24]);
        }
        if answers && fault::on("unmerged_length_told") {
            return result((22, unmerged()));
        }
        if answers && fault::on("own_written_before_length_test") {
            // The first source, where it fits.
            let word =
                |at: usize| u32::from_le_bytes(expected.written[at..at + 4].try_into().unwrap());
            let from = word(16) as usize;
            if word(8) > 0 && from + 8 <= out.len() {
                out[from..from + 8].copy_from_slice(&expected.written[from..from + 8]);
            }
        }
        if answers && job[20] > 1 && fault::on("own_one_more_told") {
            return result((late.0, late.1 + 8));
        }
        if call == CARDS && fault::on("cards_that_fit_written") {
            let fitting = out.len() / CARD * CARD;
            out[..fitting].copy_from_slice(&expected.written[..fitting]);
        }
        return result(late);
    }
    let length = expected.written.len();
    let stale: Vec<u8> = out[..length].iter().skip(20).step_by(CARD).copied().collect();
    out[..length].copy_from_slice(&expected.written);
    if call == CARDS && fault::on("cards_not_cleared") {
        // What the ramp's word held before stays in it.
        let ramps = out[..length].iter_mut().skip(20).step_by(CARD);
        ramps.zip(stale).for_each(|(ramp, before)| *ramp |= before);
    }
    if call == CARDS && fault::on("cards_counted_not_bytes") {
        return result((0, (length / CARD) as u64));
    }
    if call == MARK && fault::on("mark_turned") {
        out[..length].iter_mut().for_each(|mark| *mark ^= 1);
    }
    if out.len() > length && fault::on("byte_past_the_end") {
        out[length] = 0;
    }
    if fault::on("answer_tail_zeroed") {
        out[length..].fill(0);
    }
    if work.len() > HEADER && fault::on("byte_before_a_slice") {
        // A byte of the caller's that was not lent.
        unsafe { *work.as_mut_ptr().sub(1) = 0 };
    }
    if fault::on("read_past_the_job") {
        // As above, at the other end.
        let past = unsafe { std::ptr::read_volatile(job.as_ptr().add(job.len())) };
        return result((0, length as u64 + u64::from(past == 1 && list.len() == SPAN)));
    }
    result((0, length as u64))
}

#[no_mangle]
pub extern "C" fn chokes_mark(
    job: In,
    jl: usize,
    work: Out,
    wl: usize,
    marks: Out,
    ml: usize,
) -> CallResult {
    whole(MARK, read(job, jl), &[], &[], write(work, wl), write(marks, ml))
}

#[no_mangle]
pub extern "C" fn chokes_reduce(
    job: In,
    jl: usize,
    thresholds: In,
    tl: usize,
    work: Out,
    wl: usize,
    answer: Out,
    al: usize,
) -> CallResult {
    let block = read(thresholds, tl);
    let said = whole(REDUCE, read(job, jl), &[], block, write(work, wl), write(answer, al));
    blocks::touch(thresholds, tl);
    said
}

#[no_mangle]
pub extern "C" fn chokes_reduce_by_list(
    job: In,
    jl: usize,
    list: In,
    ll: usize,
    thresholds: In,
    tl: usize,
    work: Out,
    wl: usize,
    answer: Out,
    al: usize,
) -> CallResult {
    let (list, block) = (read(list, ll), read(thresholds, tl));
    let said = whole(BY_LIST, read(job, jl), list, block, write(work, wl), write(answer, al));
    blocks::touch(thresholds, tl);
    said
}

#[no_mangle]
pub extern "C" fn chokes_area_cards(
    job: In,
    jl: usize,
    work: Out,
    wl: usize,
    cards: Out,
    cl: usize,
) -> CallResult {
    whole(CARDS, read(job, jl), &[], &[], write(work, wl), write(cards, cl))
}

//! Marks of the stand-in, by searching: from a region of a record, what is reached over the records of the other boundaries. With
//! the faults of the rule, and those of `probe_marks`.

use crate::expect::{Record, MOST_PAIRS};
use oracle::api::bridges_of;
use oracle::fault;
use std::collections::{BTreeMap, BTreeSet};

/// The owners that a bare list may have.
const OWNERS: usize = 256;
const RECORD: usize = 12;

/// The records, by place, at each region.
type Places = BTreeMap<u32, Vec<usize>>;

/// All regions that are reached from one over the records that may be used.
fn reached(
    from: u32,
    records: &[Record],
    at: &Places,
    may: &dyn Fn(usize) -> bool,
) -> BTreeSet<u32> {
    let (mut reached, mut open) = (BTreeSet::from([from]), vec![from]);
    while let Some(region) = open.pop() {
        for &k in at[&region].iter().filter(|&&k| may(k)) {
            let [_, left, right] = records[k];
            let other = if left == region { right } else { left };
            if reached.insert(other) {
                open.push(other);
            }
        }
    }
    reached
}

/// The marks of so many boundaries.
pub fn marks(records: &[Record], boundaries: usize) -> Vec<u8> {
    let mut records = records.to_vec();
    let records = &mut records;
    if fault::on("marks_regions_of_8_bits") {
        records
            .iter_mut()
            .for_each(|record| record[1..].iter_mut().for_each(|r| *r = *r % 256 + 1));
    }
    if fault::on("marks_last_record_forgotten") {
        records.pop();
    }
    if fault::on("marks_pairs_once") {
        let mut seen = BTreeSet::new();
        records.retain(|&[_, left, right]| seen.insert([left, right]));
    }
    // It does not matter which way or in which order records are joined, or that one is of one region.
    if fault::on("same_marks_records_turned") {
        records.iter_mut().for_each(|record| record.swap(1, 2));
    }
    if fault::on("same_marks_from_the_last") {
        records.reverse();
    }
    if fault::on("same_marks_without_loops") {
        records.retain(|record| record[1] != record[2]);
    }
    let records = &records[..];
    let mut at = Places::new();
    for (k, &[_, left, right]) in records.iter().enumerate() {
        [left, right].iter().for_each(|&region| at.entry(region).or_default().push(k));
    }
    let mut own = vec![vec![]; boundaries];
    for (k, record) in records.iter().enumerate() {
        // A list is read as though its owners were below 256.
        own[record[0] as usize % boundaries].push(k);
    }
    let wants_bridges = fault::begins("marks_") || fault::begins("same_marks_");
    let bridges = if wants_bridges { bridges_of(records) } else { BTreeSet::new() };
    let bridge = |owner: usize| u8::from(bridges.contains(&owner));
    let by_bridges = || (0..boundaries).map(bridge).collect();
    if fault::on("marks_are_bridges") {
        return by_bridges();
    }
    // Owners that rise strictly have one record each, and with one record the two rules are one.
    if fault::on("marks_rising_for_strictly_rising") && records.is_sorted_by_key(|record| record[0])
    {
        return by_bridges();
    }
    let strictly = |records: &[Record]| records.windows(2).all(|pair| pair[0][0] < pair[1][0]);
    if fault::on("marks_last_two_not_tested") && strictly(&records[..records.len().max(1) - 1]) {
        return by_bridges();
    }
    if fault::on("same_marks_rising_by_bridges") && strictly(records) {
        return by_bridges();
    }
    let mut before = None;
    let mut marks = vec![0; boundaries];
    for (owner, mark) in marks.iter_mut().enumerate() {
        *mark = of_one(owner, before, records, &at, &own, &bridge);
        if !own[owner].is_empty() {
            before = Some(owner);
        }
    }
    if fault::on("marks_last_boundary_not") && boundaries > 1 {
        marks[boundaries - 1] = 0;
    }
    marks
}

/// The mark of one boundary; `before` is the one before it that has records.
fn of_one(
    owner: usize,
    before: Option<usize>,
    records: &[Record],
    at: &Places,
    own: &[Vec<usize>],
    bridge: &dyn Fn(usize) -> u8,
) -> u8 {
    let mine = &own[owner];
    if mine.is_empty() {
        return fault::on("marks_of_none_1").into();
    }
    if mine.len() == 2 && fault::on("marks_of_two_by_bridge") {
        return bridge(owner);
    }
    if mine.len() == 1 && fault::on("same_marks_of_one_by_bridge") {
        return bridge(owner);
    }
    let last_before = before.map(|before| {
        (0..records.len()).rev().find(|k| !own[before].contains(k)).unwrap_or(records.len())
    });
    let half = own.len() / 2;
    let may = |k: usize| {
        let of = records[k][0] as usize % own.len();
        if fault::on("marks_own_joined") {
            return true;
        }
        // All that was joined for the one before, and for those before that.
        if fault::on("marks_joins_left") && before.is_some() {
            return true;
        }
        if fault::on("marks_one_join_left") && last_before == Some(k) {
            return true;
        }
        if fault::on("marks_own_but_first_joined") {
            return k != mine[0];
        }
        if fault::on("marks_without_next_boundary") && of == owner + 1 {
            return false;
        }
        if fault::on("marks_of_one_half") && (of < half) != (owner < half) {
            return false;
        }
        of != owner
    };
    let looked_at = if fault::on("marks_by_first_record") {
        &mine[..1]
    } else if fault::on("marks_by_last_record") {
        &mine[mine.len() - 1..]
    } else {
        mine
    };
    let mut seen: Vec<BTreeSet<u32>> = vec![];
    let mut parted = |k: usize| {
        let [_, left, right] = records[k];
        if !seen.iter().any(|part| part.contains(&left)) {
            seen.push(reached(left, records, at, &may));
        }
        let part = seen.iter().find(|part| part.contains(&left));
        !part.is_some_and(|part| part.contains(&right))
    };
    if fault::on("marks_every_parted") {
        return looked_at.iter().all(|&k| parted(k)).into();
    }
    if fault::on("marks_where_joined") {
        return (!looked_at.iter().all(|&k| parted(k))).into();
    }
    looked_at.iter().any(|&k| parted(k)).into()
}

/// The refusal of a bare list, 0 with the count where there is none, with the faults of its tests.
pub fn refusal(records: &[u8], work: usize, marks: usize) -> (u32, u64) {
    let (count, regions) = (records.len() / RECORD, work / 4);
    let list = read(records);
    if records.len() % RECORD != 0 && !fault::on("list_uneven_taken") {
        return (1, 0);
    }
    let most = MOST_PAIRS - usize::from(fault::on("list_of_4096_refused"));
    if count > most {
        return (2, if fault::on("list_count_not_told") { 0 } else { count as u64 });
    }
    let owner_past = OWNERS + usize::from(fault::on("list_owner_256_taken"));
    let first = u32::from(!fault::on("list_region_0_taken"));
    let regions = (regions + usize::from(fault::on("list_region_past_work_taken"))) as u32;
    let last = regions - u32::from(regions > 0 && fault::on("list_last_region_refused"));
    let unfit = |&[owner, left, right]: &Record| {
        let region = |region: u32| first <= region && region <= last;
        let fits = owner < owner_past as u32 && region(left);
        !(fits && (region(right) || fault::on("list_right_not_tested")))
            || left == right && fault::on("list_loop_refused")
    };
    let unfit = list.iter().position(unfit);
    let falls = list.windows(2).position(|pair| {
        pair[1][0] < pair[0][0]
            || pair[1][0] == pair[0][0] && fault::on("list_equal_owners_refused")
    });
    let falls = falls.filter(|_| !fault::on("list_order_not_tested"));
    let late = u64::from(!fault::on("list_place_of_the_one_before"));
    let order = falls.map(|place| (5, place as u64 + late));
    if let Some(order) = order.filter(|_| fault::on("list_order_before_fit")) {
        return order;
    }
    if let Some(place) = unfit {
        return (3, place as u64);
    }
    if let Some(order) = order.filter(|_| fault::on("list_order_before_marks")) {
        return order;
    }
    if marks < OWNERS + usize::from(fault::on("list_256_marks_refused")) {
        return (4, 0);
    }
    order.unwrap_or((0, if fault::on("list_0_told") { 0 } else { count as u64 }))
}

/// The records of a bare list's bytes.
pub fn read(records: &[u8]) -> Vec<Record> {
    let word = |at: &[u8]| u32::from_le_bytes(at.try_into().expect("four bytes"));
    let record = |record: &[u8]| [word(&record[..4]), word(&record[4..8]), word(&record[8..12])];
    records.chunks_exact(RECORD).map(record).collect()
}

/// What a bare list leaves of work and marks.
pub fn write(records: &[u8], work: &mut [u8], marks: &mut [u8]) {
    let words = work.len() / 4 * 4;
    if !fault::on("list_work_not_cleared") {
        work[..words].fill(0);
    }
    if fault::on("list_work_cleared_to_its_end") {
        work.fill(0);
    }
    marks[..OWNERS].copy_from_slice(&self::marks(&read(records), OWNERS));
    if fault::on("list_marks_past_256_cleared") {
        marks[OWNERS..].fill(0);
    }
}

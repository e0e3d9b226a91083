//! Bare lists of records against bridges by their definition: a record is taken away and its two
//! regions are still joined, or not.

use crate::calls::{self, record_words};
use crate::draft::Input;
use crate::expect::{Joined, Record};
use crate::lent::Lent;
use crate::rng::Rng;
use crate::tally::{Tally, RECORDS};
use oracle::api;
use std::collections::BTreeSet;

const OWNERS: usize = 256;
/// Work for the walk over 4,096 records and 8,192 regions.
const WORK: usize = 1 << 20;
/// What work holds before a call.
const DIRTY: u8 = 0x77;
/// Up to here every record is taken away by itself.
const SMALL: usize = 600;

/// The owners of which some record, taken away alone, parts its two regions.
pub fn by_removal(records: &[Record]) -> BTreeSet<usize> {
    let regions = records.iter().map(|&[_, left, right]| left.max(right)).max().unwrap_or(0);
    let mut bridges = BTreeSet::new();
    for (i, &[owner, left, right]) in records.iter().enumerate() {
        if bridges.contains(&(owner as usize)) {
            continue;
        }
        let others = records.iter().enumerate().filter(|&(j, _)| j != i).map(|other| other.1);
        let mut joined = Joined::by(regions as usize + 1, others);
        if joined.root(left) != joined.root(right) {
            bridges.insert(owner as usize);
        }
    }
    bridges
}

/// Records of one of several shapes, in any order and with any owners.
pub fn random(rng: &mut Rng) -> Vec<Record> {
    let most = match rng.below(200) {
        0 => 4096,
        1..=9 => 300,
        _ => 14,
    };
    shaped(rng.below(6), most, rng)
}

/// Up to `most` records. Shapes: random with few regions or many, a chain, a cycle, a tree whose
/// records are at times doubled, cycles strung together.
pub fn shaped(shape: usize, most: usize, rng: &mut Rng) -> Vec<Record> {
    let count = if most > 4000 { most } else { rng.below(most + 1) };
    let regions = (2 * count).max(2);
    let few = rng.within(2, (count as u32 / 2).max(3));
    let mut records: Vec<Record> = Vec::new();
    for i in 0..count as u32 {
        let [left, right] = match shape {
            0 => [rng.within(1, few), rng.within(1, few)],
            1 => [rng.within(1, regions as u32), rng.within(1, regions as u32)],
            2 => [i + 1, i + 2],
            3 => [i + 1, (i + 1) % count as u32 + 1],
            4 => match records.last() {
                Some(&[_, left, right]) if rng.one_in(3) => [right, left],
                _ => [rng.within(1, i + 1), i + 2],
            },
            _ => {
                // Every fifth region is tied back to the one four before it.
                let back = if i % 6 == 5 { i - 3 } else { i + 2 };
                [i + 1, back.max(1)]
            }
        };
        if left != right {
            records.push([0, left.min(right), left.max(right)]);
        }
    }
    let owners = rng.pick(&[1, 3, OWNERS, OWNERS]);
    for i in (1..records.len()).rev() {
        records.swap(i, rng.below(i + 1));
    }
    let alone = records.len() <= OWNERS && rng.one_in(2);
    for (i, record) in records.iter_mut().enumerate() {
        record[0] = if alone { i } else { rng.below(owners) } as u32;
    }
    records
}

pub fn compare(records: &[Record], lent: &mut Lent, tally: &mut Tally) -> Result<(), String> {
    let bridges = if records.len() <= SMALL || tally.count("record lists by removal, large") < 6 {
        if records.len() > SMALL {
            tally.see("record lists by removal, large");
        }
        let bridges = by_removal(records);
        if api::bridges_of(records) != bridges {
            return Err(format!("the Rust's bridges are not {bridges:?}"));
        }
        bridges
    } else {
        api::bridges_of(records)
    };
    for (what, holds) in [
        ("record lists of 4,096", records.len() == 4096),
        ("record lists with bridges and others", !bridges.is_empty() && bridges.len() < OWNERS),
        ("record lists without bridges", bridges.is_empty() && records.len() > 1),
    ] {
        if holds {
            tally.see(what);
        }
    }
    // The records stand where a job would.
    let bytes = Input { job: record_words(records), ..Input::default() };
    let mut marks = vec![0xA5; OWNERS];
    let lent = lent.lend(&bytes, &vec![DIRTY; WORK], &marks);
    let said = calls::bridges(lent.job, lent.work, lent.out);
    tally.see(RECORDS);
    for (owner, mark) in marks.iter_mut().enumerate() {
        *mark = u8::from(bridges.contains(&owner));
    }
    if said.0 != 0 {
        return Err(format!("bridges: expected no refusal, got {said:?}"));
    }
    let work = lent.work.to_vec();
    lent.check("bridges", &bytes, &work, Some(&marks))
}

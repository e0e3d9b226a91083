//! Own sources in the answer: the calls on slices of just the length, one byte short and some sources short, and what the runs
//! reached.

use crate::checks::{BY_LIST, CALLS, NONE, REDUCE, SOURCE};
use crate::draft::Input;
use crate::expect::{self, Expected};
use crate::heads::{head, number};
use crate::lent::Lent;
use crate::merging;
use crate::own::LENGTHS;
use crate::rng::Rng;
use crate::rust::Group;
use crate::splits;
use crate::tally::Tally;
use crate::values::{sorted_ends, Boundary, Source, Values};
use crate::whole;
use std::collections::{BTreeMap, BTreeSet};

/// What both families reach.
const BOTH: [&str; 11] = [
    "own sources of a boundary by itself",
    "own sources of 2 merged members",
    "own sources of 3 merged members",
    "own sources of 4 merged members",
    "own sources without a double",
    "own sources with a double within a member",
    "own sources with a double across members",
    "own sources that are all equal",
    "own sources that another kept boundary has too",
    "own sources that an observation has too",
    "own sources of a member that stands beside others' observations",
];
/// So many of one head, of which the table has 4,096, are a chance of next to nothing.
const ONE_HEAD: [&str; 4] = [
    "12 own sources of one head",
    "1,000 own sources of one head",
    "12 own sources of one head with 32 equal low digits",
    "1,000 own sources of one head with 32 equal low digits",
];
/// By the model of the sort; in random order the splits look at 4,096 sources ten times each.
const SPLITS: [&str; 2] = [
    "own sources sorted by halves of their range",
    "1,000 own sources that the splits look at 60 times each",
];

fn kept_of(count: usize) -> String {
    format!("{count} own sources kept")
}

/// What `own-orders` reaches, or `one-head`; a whole run has both.
pub fn missing(tally: &Tally, heads: bool) -> Vec<String> {
    let mut names: Vec<String> = BOTH.iter().map(|name| name.to_string()).collect();
    names.extend(LENGTHS.map(kept_of));
    if heads {
        names.extend(ONE_HEAD.iter().map(|name| name.to_string()));
    } else {
        names.extend(SPLITS.iter().map(|name| name.to_string()));
    }
    names.retain(|name| tally.count(name) == 0);
    names.iter().map(|name| format!("never: {name}")).collect()
}

pub fn compare(
    input: &Input,
    lent: &mut Lent,
    rng: &mut Rng,
    tally: &mut Tally,
) -> Result<(), String> {
    for call in CALLS {
        let expected = Expected::of(call, &input.job, &input.list, &input.thresholds);
        if expected.refusal != NONE {
            return Err(format!("a job about own sources is refused: {:?}", expected.refusal));
        }
        let (work, out) = (expected.work(), expected.written.len());
        let mut lengths = vec![out, out - 1, out + 1 + rng.below(40)];
        if call == REDUCE || call == BY_LIST {
            lengths.push(out.saturating_sub(SOURCE * (1 + rng.below(20))));
            lengths.push(rng.below(out));
        }
        for out in lengths {
            whole::one(call, &expected, input, [work, out], lent, rng, tally)?;
        }
    }
    for call in [REDUCE, BY_LIST] {
        let read = expect::accepted(call, &input.job, &input.list, &input.thresholds);
        let Ok(accepted) = read else { continue };
        let groups = oracle::count::uncounted(|| accepted.groups());
        note(&Values::read(input).boundaries, &groups, tally);
    }
    if rng.one_in(8) {
        return merging::compare(input, lent, rng, tally);
    }
    Ok(())
}

/// The kept boundaries as their members, each by rank.
fn kept<'a>(boundaries: &'a [Boundary], groups: &[Group]) -> Vec<Vec<&'a Boundary>> {
    let alone = |i: &usize| !groups.iter().any(|group| group.members.contains(i));
    let alone = (0..boundaries.len()).filter(alone).map(|i| vec![i]);
    let all = groups.iter().map(|group| group.members.clone()).chain(alone);
    let members = all.map(|members| {
        let mut members: Vec<_> = members.into_iter().map(|i| &boundaries[i]).collect();
        members.sort_by_key(|boundary| sorted_ends(boundary.ends));
        members
    });
    members.collect()
}

/// Counts what the own sources of a run have.
fn note(boundaries: &[Boundary], groups: &[Group], tally: &mut Tally) {
    let mut owners: BTreeMap<Source, usize> = BTreeMap::new();
    let observed: BTreeSet<Source> = boundaries
        .iter()
        .flat_map(|boundary| &boundary.observations)
        .flat_map(|observation| observation.sources.iter().copied())
        .collect();
    for (kept, members) in kept(boundaries, groups).into_iter().enumerate() {
        let firsts = note_kept(&members, tally);
        let mut other = |source: &Source| *owners.entry(*source).or_insert(kept) != kept;
        if firsts.iter().filter(|source| other(source)).count() > 0 {
            tally.see(BOTH[8]);
        }
        if firsts.iter().any(|source| observed.contains(source)) {
            tally.see(BOTH[9]);
        }
    }
}

/// Those of a kept boundary: the first of each kind, as the library writes them.
fn note_kept(members: &[&Boundary], tally: &mut Tally) -> Vec<Source> {
    let mut places: BTreeMap<Source, usize> = BTreeMap::new();
    let (mut firsts, mut within, mut across) = (vec![], false, false);
    for (member, boundary) in members.iter().enumerate() {
        for &source in &boundary.sources {
            match places.insert(source, member) {
                None => firsts.push(source),
                Some(before) => {
                    within |= before == member;
                    across |= before != member;
                }
            }
        }
    }
    let own: usize = members.iter().map(|member| member.sources.len()).sum();
    let standing = |member: &&&Boundary| member.observations.is_empty();
    let stands = members.iter().any(|member| standing(&member) && !member.sources.is_empty());
    let work = splits::work(&numbers(&firsts));
    let rows = [
        (BOTH[members.len().min(4) - 1], own > 1),
        (BOTH[4], own > 1 && own == firsts.len()),
        (BOTH[5], within),
        (BOTH[6], across),
        (BOTH[7], own > 1 && firsts.len() == 1),
        (BOTH[10], stands && members.iter().filter(standing).count() < members.len()),
        (SPLITS[0], work.halved > 0),
        (SPLITS[1], firsts.len() >= 1000 && work.looked >= 60 * firsts.len()),
    ];
    rows.into_iter().filter(|row| row.1).for_each(|row| tally.see(row.0));
    if LENGTHS.contains(&firsts.len()) {
        tally.see(&kept_of(firsts.len()));
    }
    note_heads(&firsts, tally);
    firsts
}

fn numbers(sources: &[Source]) -> Vec<u64> {
    sources.iter().map(|&source| number(source)).collect()
}

/// How many have one head, and how many of these one second id.
fn note_heads(sources: &[Source], tally: &mut Tally) {
    let most = |of: fn(u64) -> u64| {
        let mut keys: Vec<u64> = numbers(sources).into_iter().map(of).collect();
        keys.sort_unstable();
        keys.chunk_by(|a, b| a == b).map(<[u64]>::len).max().unwrap_or(0)
    };
    let [alike, low] = [most(head), most(|x| head(x) << 32 | x & 0xFFFF_FFFF)];
    let rows = [alike >= 12, alike >= 1000, low >= 12, low >= 1000];
    ONE_HEAD.into_iter().zip(rows).filter(|row| row.1).for_each(|row| tally.see(row.0));
}

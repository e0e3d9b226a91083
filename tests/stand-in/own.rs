//! Faults of own sources, such as a library could have that looks for the first of each kind by heads and digits and sorts
//! them in the answer.

use crate::expect;
use crate::heads::{head, number};
use crate::rust::{self, Group};
use crate::splits;
use oracle::api::{TopologyBoundary, TopologyObservation};
use oracle::fault;
use std::collections::BTreeSet;

type Source = [u32; 2];

/// The answer with the fault that is on, where it is one of these.
pub fn faults(call: u32, job: &[u8], list: &[u8], block: &[u8], written: &mut Vec<u8>) {
    if !fault::begins("own_") {
        return;
    }
    let Ok(accepted) = expect::accepted(call, job, list, block) else { return };
    let (mut kept, groups) = (accepted.kept(), accepted.groups());
    let job = &accepted.job;
    let mut before = BTreeSet::new();
    for boundary in &mut kept {
        let members = members(boundary, &job.boundaries, &groups);
        let all: Vec<Source> = members.iter().flat_map(|m| m.sources.iter().copied()).collect();
        let own = boundary.sources.clone();
        // Of several with the same ends these may be another's.
        if BTreeSet::from_iter(all.iter()) == BTreeSet::from_iter(own.iter()) {
            in_firsts(boundary, &members, &all, &before);
            in_order(boundary, &firsts(&all, |source| source));
            in_observations(boundary, &members);
        }
        before.extend(own);
    }
    *written = rust::answer(&kept);
}

fn ends(boundary: &TopologyBoundary) -> [[u32; 2]; 2] {
    let mut ends = boundary.endpoints.map(|end| [end.x, end.y]);
    ends.sort_unstable();
    ends
}

/// The members of a kept boundary, by rank.
fn members<'a>(
    kept: &TopologyBoundary,
    boundaries: &'a [TopologyBoundary],
    groups: &[Group],
) -> Vec<&'a TopologyBoundary> {
    let same = |&i: &usize| ends(&boundaries[i]) == ends(kept);
    let group = groups.iter().find(|group| same(&group.retained));
    let alone = || (0..boundaries.len()).find(same).into_iter().collect();
    let members = group.map_or_else(alone, |group| group.members.clone());
    let mut members: Vec<_> = members.into_iter().map(|i| &boundaries[i]).collect();
    members.sort_by_key(|member| ends(member));
    members
}

/// Those of a list that are the first with their mark.
fn firsts<T: Ord>(list: &[Source], mark: impl Fn(Source) -> T) -> Vec<Source> {
    let mut seen = BTreeSet::new();
    list.iter().copied().filter(|&source| seen.insert(mark(source))).collect()
}

/// Faults of which sources are written.
fn in_firsts(
    kept: &mut TopologyBoundary,
    members: &[&TopologyBoundary],
    all: &[Source],
    before: &BTreeSet<Source>,
) {
    if fault::on("own_doubles_within_members_only") {
        kept.sources = members.iter().flat_map(|member| firsts(&member.sources, |s| s)).collect();
    }
    if fault::on("own_look_up_into_the_one_before") {
        kept.sources.retain(|source| !before.contains(source));
    }
    if fault::on("own_equal_heads_are_equal") {
        kept.sources = firsts(all, |source| head(number(source)));
    }
    if fault::on("own_equal_after_32_digits") {
        kept.sources = firsts(all, |source| [head(number(source)) as u32, source[1]]);
    }
    if fault::on("own_equal_after_40_digits") {
        kept.sources =
            firsts(all, |source| [source[0] & 0xFF, source[1], head(number(source)) as u32]);
    }
    kept.sources.sort_unstable();
}

/// Faults of the sort of those that are listed, and of how far it goes.
fn in_order(kept: &mut TopologyBoundary, listed: &[Source]) {
    let numbers: Vec<u64> = listed.iter().map(|&source| number(source)).collect();
    let (own, seen) = (&mut kept.sources, &mut kept.observations);
    let count = own.len();
    let wrong_at =
        |limit: usize| count == limit && numbers.windows(2).any(|pair| pair[1] < pair[0]);
    let swapped = fault::on("own_wrong_at_12") && wrong_at(12)
        || fault::on("own_wrong_at_13") && wrong_at(13)
        || fault::on("own_wrong_at_64") && wrong_at(64)
        || fault::on("own_wrong_at_4096") && wrong_at(4096)
        || fault::on("own_halves_wrong") && splits::work(&numbers).halved > 0;
    if swapped {
        own.swap(count - 2, count - 1);
    }
    if fault::on("own_second_id_first") {
        own.sort_unstable_by_key(|&[first, second]| [second, first]);
    }
    if fault::on("own_stored_twice") && count > 12 && own[..] != *listed {
        own[1] = own[0];
    }
    if fault::on("own_part_too_short") && count > 1 {
        *own = listed.to_vec();
        own[..count - 1].sort_unstable();
    }
    let next = seen.iter_mut().find_map(|observation| observation.sources.first_mut());
    if let (Some(last), Some(next)) = (own.last_mut(), next) {
        if *next < *last && fault::on("own_part_too_long") {
            std::mem::swap(last, next);
        }
    }
}

/// Faults of the members that stand as observations.
fn in_observations(kept: &mut TopologyBoundary, members: &[&TopologyBoundary]) {
    let alone = members.len() == 1 && kept.observations.is_empty();
    if alone && !kept.sources.is_empty() && fault::on("own_alone_stands") {
        let (endpoints, width_pixels) = (kept.endpoints, kept.width_pixels);
        let sources = kept.sources.clone();
        kept.observations = vec![TopologyObservation { endpoints, width_pixels, sources }];
    }
    let stands = |member: &&&TopologyBoundary| member.observations.is_empty();
    let standing = members.iter().filter(stands).count();
    if 0 < standing && standing < members.len() && fault::on("own_none_stands_beside_others") {
        let standing: Vec<_> = members.iter().filter(stands).map(|member| ends(member)).collect();
        let ends = |seen: &TopologyObservation| seen.endpoints.map(|end| [end.x, end.y]);
        kept.observations.retain(|seen| !standing.contains(&ends(seen)));
    }
}

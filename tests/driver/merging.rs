//! Runs that merge: the plan against the groups that the Rust merged, relistings of a run, and
//! lists of merges carried out one at a time.

use crate::calls;
use crate::checks::{BY_LIST, REDUCE};
use crate::draft::Input;
use crate::expect::{self, Accepted, Expected, MOST_PAIRS};
use crate::lent::Lent;
use crate::regions;
use crate::rng::Rng;
use crate::rust::Group;
use crate::tally::{Tally, NAMES, PLANS, RELISTINGS, WHOLE};
use crate::thresholds;
use crate::values::{self, sorted_ends, Boundary, Values};
use crate::whole;
use oracle::thresholds::Thresholds;

pub fn compare(
    input: &Input,
    lent: &mut Lent,
    rng: &mut Rng,
    tally: &mut Tally,
) -> Result<(), String> {
    for call in [REDUCE, BY_LIST] {
        let read = expect::accepted(call, &input.job, &input.list, &input.thresholds);
        let Ok(accepted) = read else { continue };
        if expect::pairs(&accepted.partition) > MOST_PAIRS {
            continue;
        }
        // These runs are not the call's.
        let groups = oracle::count::uncounted(|| accepted.groups());
        note(call, &accepted, &groups, tally);
        // The probe's plan is with the numbers of 000.
        if input.thresholds == thresholds::OF_000 {
            plan(call, input, &accepted, &groups, lent, rng, tally)?;
        }
        relistings(call, input, &groups, lent, rng, tally)?;
    }
    whole::compare(input, lent, rng, tally)?;
    regions::compare(input, lent, rng, tally)
}

/// Where each boundary goes, by input index.
fn plan(
    call: u32,
    input: &Input,
    accepted: &Accepted,
    groups: &[Group],
    lent: &mut Lent,
    rng: &mut Rng,
    tally: &mut Tally,
) -> Result<(), String> {
    let mut goes: Vec<u32> = (0..accepted.job.boundaries.len() as u32).collect();
    for group in groups {
        group.members.iter().for_each(|&member| goes[member] = group.retained as u32);
    }
    let bytes: Vec<u8> = goes.iter().flat_map(|word| word.to_le_bytes()).collect();
    let which = if call == REDUCE { 0 } else { rng.pick(&[1, 2, u32::MAX]) };
    let labels = accepted.partition.labels();
    let mut work = vec![rng.byte(); expect::WORK * labels.len()];
    let lent = lent.lend(input, &work, &vec![0xA5; bytes.len()]);
    let said = calls::plan(lent.job, lent.list, which, lent.work, lent.out);
    tally.see(PLANS);
    if said.0 != 0 {
        return Err(format!("plan: expected no refusal, got {said:?}"));
    }
    if *lent.out != bytes[..] {
        let words = lent.out.chunks_exact(4).map(|word| word[0]).collect::<Vec<_>>();
        return Err(format!("plan of {}: expected {goes:?}, got {words:?}", NAMES[call as usize]));
    }
    expect::fill_work(labels, &mut work);
    lent.check("plan", input, &work, Some(&bytes))
}

/// The run listed another way gives the same answer, and so do the merges one at a time.
fn relistings(
    call: u32,
    input: &Input,
    groups: &[Group],
    lent: &mut Lent,
    rng: &mut Rng,
    tally: &mut Tally,
) -> Result<(), String> {
    let values = Values::read(input);
    if !values.distinct_ends() {
        return Ok(());
    }
    let answer = Expected::of(call, &input.job, &input.list, &input.thresholds).written;
    let relisted = values.relisted(rng);
    let again = relisted.draft().input();
    let other = Expected::of(call, &again.job, &again.list, &again.thresholds).written;
    if other != answer {
        return Err("the Rust's answer depends on the listing".to_string());
    }
    same(call, &again, &answer, lent, tally)?;
    if call == REDUCE {
        // The same run as one of Reduce by list.
        let spans = relisted.boundaries.iter().map(|boundary| boundary.ends).collect();
        let listed = Values { spans, ..relisted.clone() }.draft().input();
        same(BY_LIST, &listed, &answer, lent, tally)?;
    }
    tally.see(RELISTINGS);
    merges(&values.boundaries, &relisted.boundaries, groups, &answer, rng, tally)
}

/// That the call gives these answer bytes.
fn same(
    call: u32,
    input: &Input,
    answer: &[u8],
    lent: &mut Lent,
    tally: &mut Tally,
) -> Result<(), String> {
    let cells = u32::from_le_bytes(input.job[24..28].try_into().expect("four bytes"));
    let bases = u32::from_le_bytes(input.job[28..32].try_into().expect("four bytes"));
    let work = vec![0x77; expect::WORK * (bases - cells) as usize];
    let lent = lent.lend(input, &work, &vec![0x99; answer.len()]);
    let said = calls::whole(call)(lent.job, lent.list, lent.thresholds, lent.work, lent.out);
    tally.see(WHOLE[call as usize]);
    if whole::most(call, &input.job).is_some_and(|most| answer.len() > most) {
        return Err(format!("an answer of {} bytes", answer.len()));
    }
    if said == (0, answer.len() as u64) && *lent.out == *answer {
        return Ok(());
    }
    let name = NAMES[call as usize];
    Err(format!("{name}: a relisting gives another answer, {said:?} for {}", answer.len()))
}

/// A list of merges on another listing: serial groups before flat ones, otherwise in any order. The
/// sources are counted after each merge.
fn merges(
    boundaries: &[Boundary],
    relisted: &[Boundary],
    groups: &[Group],
    answer: &[u8],
    rng: &mut Rng,
    tally: &mut Tally,
) -> Result<(), String> {
    let of_kind = |serial: bool| groups.iter().filter(move |group| group.serial == serial);
    let serial = values::shuffled(of_kind(true).collect(), rng);
    let flat = values::shuffled(of_kind(false).collect(), rng);
    let came_in = values::sources(boundaries);
    let mut left = relisted.to_vec();
    for group in serial.into_iter().chain(flat) {
        let ends = |&i: &usize| sorted_ends(boundaries[i].ends);
        let members: Vec<_> = group.members.iter().map(ends).collect();
        left = values::merge(&left, &members, ends(&group.retained));
        if values::sources(&left) != came_in {
            return Err("a merge loses or makes sources".to_string());
        }
        tally.see("merges one at a time");
    }
    if values::answer(&left) != answer {
        return Err("the merges one at a time give another answer".to_string());
    }
    Ok(())
}

/// Counts the groups by kind and size, and what else the run had.
pub fn note(call: u32, accepted: &Accepted, groups: &[Group], tally: &mut Tally) {
    tally.see("runs that may merge");
    let of_000 = accepted.numbers == Thresholds::DECLARED;
    for group in groups {
        let kind = if group.serial { "serial" } else { "flat" };
        tally.see(&format!("{kind} groups of {}, {}", group.members.len(), NAMES[call as usize]));
        let [centres, ends] = extent(accepted, group);
        if group.serial && of_000 && centres == 384.0 {
            tally.see("serial groups at 384.0");
        }
        if !group.serial && of_000 && ends == 128.0 {
            tally.see("flat groups at 128.0");
        }
        if group.members.iter().any(|&i| accepted.job.boundaries[i].observations.is_empty()) {
            tally.see("groups with a member without observations");
        }
    }
    if groups.len() > 1 {
        tally.see("runs with several groups");
    }
    if groups.iter().any(|group| group.serial) && groups.iter().any(|group| !group.serial) {
        tally.see("runs with both kinds");
    }
}

/// The greatest distance between two points of a list.
fn greatest(points: &[[f64; 2]]) -> f64 {
    let apart = |[ax, ay]: [f64; 2], [bx, by]: [f64; 2]| {
        let (x, y) = (ax - bx, ay - by);
        (x * x + y * y).sqrt()
    };
    let all = points.iter().flat_map(|&a| points.iter().map(move |&b| apart(a, b)));
    all.fold(0.0, f64::max)
}

/// The greatest distances within a group: between centres, and between first or last ends.
fn extent(accepted: &Accepted, group: &Group) -> [f64; 2] {
    let ends = group.members.iter().map(|&i| {
        let mut ends = accepted.job.boundaries[i].endpoints;
        ends.sort();
        ends.map(|end| [f64::from(end.x), f64::from(end.y)])
    });
    let ends: Vec<_> = ends.collect();
    let centre = |[a, b]: &[[f64; 2]; 2]| [(a[0] + b[0]) / 2.0, (a[1] + b[1]) / 2.0];
    let centres: Vec<_> = ends.iter().map(centre).collect();
    let [first, last] = [0, 1].map(|k| ends.iter().map(|ends| ends[k]).collect::<Vec<_>>());
    [greatest(&centres), greatest(&first).max(greatest(&last))]
}

//! Makes a draft smaller while a test on it still fails.

use crate::draft::{Boundary, Draft};
use crate::thresholds::OF_000;

/// The smallest draft found, by steps each of which keeps `fails` true.
pub fn shrink(mut draft: Draft, fails: impl Fn(&Draft) -> bool) -> Draft {
    while let Some(smaller) = steps(&draft).into_iter().find(|smaller| fails(smaller)) {
        draft = smaller;
    }
    draft
}

/// Drafts that are each a step smaller, the largest steps first.
fn steps(draft: &Draft) -> Vec<Draft> {
    let mut steps = Vec::new();
    let mut step = |applies: bool, change: &dyn Fn(&mut Draft)| {
        if applies {
            let mut smaller = draft.clone();
            change(&mut smaller);
            steps.push(smaller);
        }
    };
    let block = &draft.thresholds;
    step(*block != OF_000, &|d| d.thresholds = OF_000.to_vec());
    // Each number by itself.
    for [from, to] in [[0, 4], [4, 8], [8, 12], [12, 16]].into_iter().chain(wide()) {
        let differs = block.get(from..to).is_some_and(|field| *field != OF_000[from..to]);
        step(differs, &|d| d.thresholds[from..to].copy_from_slice(&OF_000[from..to]));
    }
    let shared = !draft.observations.is_empty() || !draft.sources.is_empty();
    step(shared, &|d| {
        (d.observations, d.sources) = (vec![], vec![]);
        d.boundaries.iter_mut().for_each(|b| (b.sources, b.observations) = (0, 0));
    });
    step(draft.width > 1 || draft.height > 1, &|d| {
        (d.width, d.height) = (d.width.min(1), d.height.min(1));
        d.cells.truncate((d.width * d.height) as usize);
    });
    step(draft.list_tail.len() > 1, &|d| d.list_tail.truncate(1));
    step(!draft.list_tail.is_empty(), &|d| d.list_tail.clear());
    step(draft.gap.is_some(), &|d| d.gap = None);
    step(draft.length.is_some(), &|d| d.length = None);
    for [start, end] in ranges(draft.patches.len()) {
        step(true, &|d| drop(d.patches.drain(start..end)));
    }
    for [start, end] in ranges(draft.list.len()) {
        step(true, &|d| drop(d.list.drain(start..end)));
    }
    for [start, end] in ranges(draft.bases.len()) {
        step(true, &|d| drop(d.bases.drain(start..end)));
    }
    for [start, end] in ranges(draft.boundaries.len()) {
        step(true, &|d| drop(d.boundaries.drain(start..end)));
    }
    for [start, end] in ranges(draft.observations.len()) {
        step(true, &|d| drop(d.observations.drain(start..end)));
    }
    for [start, end] in ranges(draft.sources.len()) {
        step(true, &|d| drop(d.sources.drain(start..end)));
    }
    step(draft.cells.iter().any(|&cell| cell != 0), &|d| d.cells.fill(0));
    step(draft.bases.iter().any(|base| *base != [0; 3]), &|d| d.bases.fill([0; 3]));
    let plain = [0, 0, 1, 0];
    for i in 0..draft.boundaries.len() {
        let boundary = &draft.boundaries[i];
        step(boundary.ends != plain, &|d| d.boundaries[i].ends = plain);
        step(boundary.bits != 0, &|d| d.boundaries[i].bits = 0);
        step(boundary.ramp != [0; 4] || boundary.ramp_id != 0, &|d| {
            let Boundary { ramp, ramp_id, .. } = &mut d.boundaries[i];
            (*ramp, *ramp_id) = ([0; 4], 0);
        });
    }
    for i in 0..draft.list.len() {
        step(draft.list[i] != plain, &|d| d.list[i] = plain);
    }
    steps
}

/// Where the f64 of a block stand.
fn wide() -> impl Iterator<Item = [usize; 2]> {
    (2..8).map(|i| [8 * i, 8 * i + 8])
}

/// All, each half, then (of few) each single one of `count` records.
fn ranges(count: usize) -> Vec<[usize; 2]> {
    let half = count / 2;
    let mut ranges = vec![[0, count], [0, half], [half, count]];
    if count <= 32 {
        ranges.extend((0..count).map(|i| [i, i + 1]));
    }
    ranges.retain(|[start, end]| start < end);
    ranges
}

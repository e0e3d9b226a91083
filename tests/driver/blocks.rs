//! Blocks of thresholds: jobs with other numbers than those of 000, often with a limit that one of the job's own measures
//! just meets; blocks that are refused; the Rust with numbers written into its constants; and the block of 000 itself.

use crate::calls;
use crate::checks::{self, BY_LIST, NONE, REDUCE, SPAN};
use crate::damage::{self, REFUSALS};
use crate::draft::{valid, Draft, Input};
use crate::expect::{self, Accepted, Expected};
use crate::lent::Lent;
use crate::memory::{Guarded, Room};
use crate::merging;
use crate::rng::Rng;
use crate::rows::{row, turned, upright, FLAT, RAMP};
use crate::run::{hex, Run};
use crate::rust::{self, Group};
use crate::tally::{Tally, NAMES};
use crate::thresholds::{block, BLOCK, OF_000};
use crate::{compare, corridors, maps, measures, slanted, whole};
use oracle::api::{Context, Measured};
use oracle::free::with_thresholds;
use oracle::thresholds::Thresholds;
use std::collections::BTreeSet;

/// Kinds of comparison: a run that has none of one fails.
pub const OWN: &str = "blocks of 000 compared";
pub const WRITTEN: &str = "answers of the Rust with other numbers written into it";
const WRITTEN_MERGED: [&str; 2] =
    ["answers of that Rust with a group", "answers of that Rust without one"];

const LARGEST: f64 = 16_384.0;
/// Sizes at the ends of their range, and those of 000.
const SIZES: [[usize; 2]; 4] = [[2, 2], [2, 16], [16, 16], [3, 4]];
/// The most members of a group.
const MOST: usize = 16;
/// What can come after 32 once the checks pass.
const AFTER_32: [u32; 3] = [21, 13, 22];

/// The f64 of a block by their names, with the ends of their ranges.
const MEASURES: [(&str, f64); 6] = [
    ("chain", LARGEST),
    ("width", LARGEST),
    ("geometry", LARGEST),
    ("flat duplicate", LARGEST),
    ("flat envelope", LARGEST),
    ("cosine", 1.0),
];

fn measures(numbers: &Thresholds) -> [f64; 6] {
    let [chain, width, geometry] = [numbers.chain, numbers.width, numbers.geometry];
    [chain, width, geometry, numbers.duplicate, numbers.envelope, numbers.cosine]
}

fn of_measures([least, most]: [usize; 2], measures: [f64; 6]) -> Thresholds {
    let [chain, width, geometry, duplicate, envelope, cosine] = measures;
    Thresholds { least, most, chain, width, geometry, duplicate, envelope, cosine }
}

/// The limits as wide as they may be.
const WIDEST: Thresholds = Thresholds {
    least: 2,
    most: MOST,
    chain: LARGEST,
    width: LARGEST,
    geometry: LARGEST,
    duplicate: LARGEST,
    envelope: LARGEST,
    cosine: 0.0,
};

/// Any numbers that are admitted: often an end of the range, that of 000, or any bits.
fn admitted(rng: &mut Rng) -> Thresholds {
    let least = rng.within(2, 16);
    let sizes = [least as usize, rng.within(least, 16) as usize];
    let usual = measures(&Thresholds::DECLARED);
    let measures = [0, 1, 2, 3, 4, 5].map(|i| {
        let most = MEASURES[i].1;
        let any = f64::from_bits(rng.next() % (most.to_bits() + 1));
        let some = most * (rng.below(1001) as f64 / 1000.0);
        rng.pick(&[0.0, most, usual[i], usual[i], any, some, some / 16.0, f64::from_bits(1)])
    });
    of_measures(if rng.one_in(2) { rng.pick(&SIZES) } else { sizes }, measures)
}

/// The limits that a job's own measures just meet.
fn own(draft: &Draft) -> measures::Own {
    let read = || expect::accepted(REDUCE, &draft.input().job, &[], &OF_000);
    let own = oracle::count::uncounted(read).map(|accepted| measures::own(&accepted));
    own.unwrap_or_default()
}

/// Numbers for a job: of one or a few the limit that a measure of the job just meets, or a unit in the last place to either
/// side of it; the others as wide as may be, those of 000, or any.
fn about(draft: &Draft, rng: &mut Rng) -> Thresholds {
    let own = own(draft);
    let mut numbers = match rng.below(6) {
        0..=2 => WIDEST,
        3 | 4 => Thresholds::DECLARED,
        _ => admitted(rng),
    };
    let count = draft.boundaries.len().clamp(2, MOST);
    let any = rng.within(2, count as u32) as usize;
    let [below, above] = [(count - 1).max(2), (count + 1).min(MOST)];
    let sizes = [[2, MOST], [2, count], [count, count], [count, MOST], [2, below], [above, MOST]];
    [numbers.least, numbers.most] = match rng.below(4) {
        0 => [numbers.least, numbers.most],
        1 => rng.pick(&SIZES),
        2 => [any, count],
        _ => rng.pick(&sizes),
    };
    let mut measures = measures(&numbers);
    let met = [own.chain, own.width, own.geometry, own.duplicate, own.envelope, own.cosine];
    for round in 0..rng.pick(&[1, 1, 1, 2, 3]) {
        let i = rng.below(6);
        // Without a serial group what is flat is seen.
        if round == 0 && rng.below(3) < if i < 3 { 1 } else { 2 } {
            measures[0] = 0.0;
        }
        if !met[i].is_empty() {
            measures[i] = next_to(&met[i], MEASURES[i].1, rng);
        }
    }
    of_measures([numbers.least, numbers.most], measures)
}

/// A limit that one of these just meets, or a unit in the last place to either side of it.
fn next_to(met: &[f64], most: f64, rng: &mut Rng) -> f64 {
    let bits = rng.pick(met).to_bits() as i64 + rng.pick(&[0, 0, 1, -1]);
    f64::from_bits(bits.clamp(0, most.to_bits() as i64) as u64)
}

/// A job that may merge, with a block of its own.
pub fn random(rng: &mut Rng) -> Draft {
    let mut draft = match rng.below(12) {
        0 | 1 => corridors::random(rng),
        2 | 3 => slanted::random(rng),
        4 => maps::random(rng),
        5 => return chain(rng).unwrap_or_else(|| row(3, RAMP, false, rng)),
        _ => {
            let (count, cell) = (rng.pick(&[2, 2, 3, 3, 4, 4, 5, 6]), rng.pick(&[FLAT, RAMP]));
            let count = if rng.one_in(3) { rng.within(2, 17) as usize } else { count };
            row(count, cell, rng.one_in(3), rng)
        }
    };
    let numbers = about(&draft, rng);
    draft.thresholds =
        if rng.one_in(8) { written::BLOCK.to_vec() } else { block(&numbers).to_vec() };
    draft
}

/// A chain that its sum or its ends alone can turn down, with a limit next to one of these. Its centres are any steps apart,
/// so that the order of the sum tells, or so many times one step: then sum and ends are equal but for rounding.
fn chain(rng: &mut Rng) -> Option<Draft> {
    let step = |rng: &mut Rng| [rng.within(8, 20) as i32, rng.within(0, 20) as i32];
    let (in_line, one) = (rng.one_in(2), step(rng));
    let count = if in_line { rng.within(2, 4) } else { rng.within(3, 9) };
    let steps = (0..count).map(|_| {
        let (times, any) = (rng.within(1, 4) as i32, step(rng));
        if in_line {
            one.map(|at| 2 * at * times)
        } else {
            [2 * any[0], any[1] * rng.pick(&[1, -1])]
        }
    });
    let steps: Vec<_> = steps.collect();
    let mut draft = (0..8).find_map(|_| slanted::by_steps(&steps, rng))?;
    turned(&mut draft, rng);
    let met = own(&draft).chain;
    if !met.is_empty() {
        let numbers = Thresholds { chain: next_to(&met, LARGEST, rng), ..WIDEST };
        draft.thresholds = block(&numbers).to_vec();
    }
    Some(draft)
}

/// As all that merge, and: the Rust merges where the measures say so; where the block is that of the numbers written into
/// the Rust, both ways of running it with them give the same answer.
pub fn compare(
    input: &Input,
    lent: &mut Lent,
    rng: &mut Rng,
    tally: &mut Tally,
) -> Result<(), String> {
    for call in [REDUCE, BY_LIST] {
        let read = || expect::accepted(call, &input.job, &input.list, &input.thresholds);
        let Ok(accepted) = oracle::count::uncounted(read) else { continue };
        if expect::pairs(&accepted.partition) > expect::MOST_PAIRS {
            continue;
        }
        oracle::count::uncounted(|| -> Result<(), String> {
            let groups = accepted.groups();
            note(call, &accepted, &groups, tally);
            if call == REDUCE {
                measures::hold(&accepted, &groups, tally)?;
            }
            written(call, input, &accepted, &groups, tally)
        })?;
    }
    merging::compare(input, lent, rng, tally)
}

/// Where the block is that of the numbers written into the Rust, its answer is the one with these numbers in force.
fn written(
    call: u32,
    input: &Input,
    accepted: &Accepted,
    groups: &[Group],
    tally: &mut Tally,
) -> Result<(), String> {
    if input.thresholds != written::BLOCK {
        return Ok(());
    }
    let listed = || rust::spans(&input.list, SPAN);
    let spans = if call == REDUCE { rust::own_spans(&input.job) } else { listed() };
    tally.see(WRITTEN);
    tally.see(WRITTEN_MERGED[usize::from(groups.is_empty())]);
    if written::answer(&input.job, &spans) == rust::answer(&accepted.kept()) {
        Ok(())
    } else {
        Err("the Rust with the numbers written into it gives another answer".to_string())
    }
}

fn with_end(name: &str, end: f64) -> String {
    format!("blocks with {name} {end:?}")
}

fn with_sizes([least, most]: [usize; 2]) -> String {
    format!("blocks with sizes {least} and {most}")
}

fn refused_of(kind: &str, members: usize) -> String {
    format!("{kind} groups of {members} turned down for their size alone")
}

/// Counts the ends of ranges that a block has, and the groups of over 16 members.
fn note(call: u32, accepted: &Accepted, groups: &[Group], tally: &mut Tally) {
    let numbers = &accepted.numbers;
    for ((name, most), number) in MEASURES.iter().zip(measures(numbers)) {
        if [0.0, *most].contains(&number) {
            tally.see(&with_end(name, number));
        }
    }
    let sizes = [numbers.least, numbers.most];
    if SIZES.contains(&sizes) {
        tally.see(&with_sizes(sizes));
    }
    if call == REDUCE && accepted.job.boundaries.len() > MOST && groups.is_empty() {
        for (serial, kind) in [(true, "serial"), (false, "flat")] {
            let over = of_any_size(accepted, serial).into_iter().filter(|&members| members > MOST);
            over.for_each(|members| tally.see(&refused_of(kind, members)));
        }
    }
}

/// The sizes of the groups of links that only their size can turn down: all links pass, and the limits that are left are as
/// wide as they may be; flat ones on ground that is flat all over, where there is no serial group.
fn of_any_size(accepted: &Accepted, serial: bool) -> Vec<usize> {
    let Accepted { job, partition, numbers } = accepted;
    let walkable = job.grid.cells().iter().filter(|cell| cell.walkable);
    let ground: BTreeSet<_> = walkable.map(|cell| (cell.ramp, cell.elevation)).collect();
    let flat = ground.len() == 1 && ground.iter().all(|cell| !cell.0);
    let open = if serial {
        numbers.chain == LARGEST
    } else {
        flat && numbers.chain == 0.0 && numbers.duplicate == LARGEST && numbers.cosine == 0.0
    };
    if !open {
        return vec![];
    }
    let context = Context::new(&job.grid, partition, &job.bases);
    let links = with_thresholds(*numbers, || context.links(&job.boundaries));
    let bridges = context.bridges();
    let of_kind = |link: &Measured| {
        if serial {
            link.boundaries.iter().all(|i| bridges.contains(i))
        } else {
            link.inside_flat
        }
    };
    let mut groups: Vec<(BTreeSet<usize>, bool)> = vec![];
    for link in links.into_iter().filter(of_kind) {
        let nodes = BTreeSet::from(link.boundaries);
        let (with, mut rest): (Vec<_>, Vec<_>) =
            groups.into_iter().partition(|group| !group.0.is_disjoint(&nodes));
        let passing = !serial || link.passing;
        rest.push(
            with.into_iter().fold((nodes, passing), |all, one| (&all.0 | &one.0, all.1 && one.1)),
        );
        groups = rest;
    }
    groups.into_iter().filter(|group| group.1).map(|group| group.0.len()).collect()
}

/// What a run must have seen of blocks, besides what coverage.rs asks for; refused ones are not in the family.
pub fn missing(tally: &Tally, refused: bool) -> Vec<String> {
    let mut names: Vec<String> = WRITTEN_MERGED.iter().map(|name| name.to_string()).collect();
    for (name, most) in MEASURES {
        names.extend([with_end(name, 0.0), with_end(name, most)]);
    }
    names.extend(SIZES.map(with_sizes));
    for call in [REDUCE, BY_LIST] {
        let name = NAMES[call as usize];
        for members in 2..=MOST {
            names.extend(
                ["serial", "flat"].map(|kind| format!("{kind} groups of {members}, {name}")),
            );
        }
        if refused {
            names.extend(AFTER_32.map(|number| before(number, name)));
        }
    }
    names.extend(["serial", "flat"].map(|kind| refused_of(kind, MOST + 1)));
    names.push(measures::FORETOLD.to_string());
    names.retain(|name| tally.count(name) == 0);
    names.into_iter().map(|name| format!("never: {name}")).collect()
}

/// Rows of 2 to 17 spans, serial and flat ones, with the largest size below theirs, theirs and 16.
pub fn sizes(run: &mut Run) {
    for (count, serial) in (2..=MOST + 1).flat_map(|count| [(count, true), (count, false)]) {
        for most in BTreeSet::from([count - 1, count, MOST]) {
            for round in 0..3 {
                let mut rng = run.next_case();
                let most = most.clamp(2, MOST);
                let numbers = if serial {
                    Thresholds { least: most.min(count), most, ..WIDEST }
                } else {
                    // Serial groups are turned down by the chain, and of few members by the least besides.
                    let least = if rng.one_in(2) { most } else { 2 };
                    Thresholds { least, most, chain: 0.0, ..WIDEST }
                };
                let cell = if serial { RAMP } else { FLAT };
                let mut draft = row(count, cell, !serial && round == 2, &mut rng);
                draft.thresholds = block(&numbers).to_vec();
                run.draft(&draft, &mut rng, compare);
            }
        }
    }
}

/// Cases whose groups are known beforehand.
pub fn worked(run: &mut Run) {
    let usual = Thresholds::DECLARED;
    let sized = |least: usize, most: usize| Thresholds { least, most, ..usual };
    let flat_only = |least: usize, most: usize| Thresholds { chain: 0.0, ..sized(least, most) };
    // Spans, ground, numbers; whether the group of all of them is there, and serial.
    let cases = [
        (5, RAMP, sized(3, 5), Some(true)),
        (5, RAMP, sized(3, 4), None),
        (5, FLAT, flat_only(3, 5), Some(false)),
        (5, FLAT, flat_only(3, 4), None),
        (2, RAMP, sized(2, 4), Some(true)),
        (2, RAMP, sized(3, 4), None),
        (2, FLAT, sized(2, 2), Some(true)),
        (2, FLAT, sized(3, 4), Some(false)),
        (2, FLAT, sized(16, 16), Some(false)),
        (16, RAMP, sized(16, 16), Some(true)),
        (16, RAMP, sized(2, 15), None),
        (17, RAMP, sized(2, 16), None),
        (8, FLAT, Thresholds { duplicate: 112.0, ..flat_only(2, 8) }, Some(false)),
        (8, FLAT, Thresholds { duplicate: 111.5, ..flat_only(2, 8) }, None),
    ];
    for (count, cell, numbers, serial) in cases {
        let draft = Draft { thresholds: block(&numbers).to_vec(), ..upright(1, count, cell) };
        known(run, &draft, &serial.map_or(vec![], |serial| vec![(count, serial)]));
    }
    // As many boundaries as there may be: in chains of the largest size, and in one chain.
    for (cell, chain, serial) in [(RAMP, LARGEST, true), (FLAT, 0.0, false)] {
        let thresholds = block(&Thresholds { chain, ..WIDEST }).to_vec();
        let sixteen = Draft { thresholds: thresholds.clone(), ..upright(MOST, MOST, cell) };
        known(run, &sixteen, &[(MOST, serial); MOST]);
        known(run, &Draft { thresholds, ..upright(1, MOST * MOST, cell) }, &[]);
    }
    ends_apart(run);
}

/// Centres in line, 1 and 3 steps of 8 columns and rows apart: rounded, the sum of the distances is a unit in the last place
/// less than the distance of the ends, so that a limit of just the sum shows the test of the ends.
fn ends_apart(run: &mut Run) {
    let [sum, apart] = [0x4046_A09E_667F_3BCC, 0x4046_A09E_667F_3BCD].map(f64::from_bits);
    let mut rng = run.next_case();
    let found = (0..200).find_map(|_| slanted::by_steps(&[[16, 16], [48, 48]], &mut rng));
    let draft = found.expect("a chain by these steps");
    for (chain, serial) in
        [(sum.next_down(), None), (sum, None), (apart, Some(true)), (apart.next_up(), Some(true))]
    {
        let numbers = Thresholds { chain, geometry: LARGEST, ..Thresholds::DECLARED };
        let draft = Draft { thresholds: block(&numbers).to_vec(), ..draft.clone() };
        known(run, &draft, &serial.map_or(vec![], |serial| vec![(3, serial)]));
    }
}

/// A job with groups of just these sizes, serial or not.
fn known(run: &mut Run, draft: &Draft, wanted: &[(usize, bool)]) {
    let mut rng = run.next_case();
    let input = draft.input();
    let read = || {
        let accepted = expect::accepted(REDUCE, &input.job, &[], &input.thresholds);
        let groups = accepted.map_or(vec![], |accepted| accepted.groups());
        groups.iter().map(|group| (group.members.len(), group.serial)).collect::<Vec<_>>()
    };
    let groups = oracle::count::uncounted(read);
    if groups != wanted {
        let difference = format!("a worked case: expected {wanted:?}, the Rust has {groups:?}");
        run.report(&difference, &hex("as it was", &input));
    }
    run.draft(draft, &mut rng, compare);
}

fn before(number: u32, name: &str) -> String {
    format!("32 before {number}, {name}")
}

/// Blocks of every length, with each byte at each value, and damaged in every way, these with every later fault.
pub fn damaged(run: &mut Run) {
    let mut rng = run.next_case();
    let good = valid([3, 2], [1, 3, 1, 2, 3], &mut rng);
    let mut try_block = |run: &mut Run, thresholds: Vec<u8>| {
        run.draft(&Draft { thresholds, ..good.clone() }, &mut rng, compare::compare);
    };
    let bases = [OF_000, block(&WIDEST), written::BLOCK];
    for base in bases {
        for length in 0..=2 * BLOCK + 1 {
            let mut block = base.to_vec();
            block.resize(length, 0);
            try_block(run, block);
        }
    }
    for (at, value) in (0..BLOCK).flat_map(|at| (0..=255).map(move |value| (at, value))) {
        let mut block = OF_000.to_vec();
        block[at] = value;
        try_block(run, block);
    }
    for base in bases {
        for block in damage::blocks(&base) {
            for later in REFUSALS.into_iter().map(Some).chain([None]) {
                let mut rng = run.next_case();
                let mut draft = valid([3, 2], [1, 2, 1, 2, 2], &mut rng);
                if let Some(later) = later {
                    damage::damage(later, &mut draft, &mut rng);
                }
                draft.thresholds.clone_from(&block);
                run.draft(&draft, &mut rng, compare::compare);
            }
            let mut rng = run.next_case();
            let draft = valid([3, 2], [1, 2, 1, 2, 2], &mut rng);
            run.draft(&Draft { thresholds: block, ..draft }, &mut rng, late);
        }
    }
    let mut rng = run.next_case();
    let many = maps::many_pairs(expect::MOST_PAIRS + 1, &mut rng);
    for block in damage::blocks(&OF_000).into_iter().step_by(7) {
        run.draft(&Draft { thresholds: block, ..many.clone() }, &mut rng, late);
    }
}

/// A bad block together with slices that are too short, or with too many region pairs.
fn late(input: &Input, lent: &mut Lent, rng: &mut Rng, tally: &mut Tally) -> Result<(), String> {
    for call in [REDUCE, BY_LIST] {
        let of = |block: &[u8]| Expected::of(call, &input.job, &input.list, block);
        let (good, bad) = (of(&OF_000), of(&input.thresholds));
        if good.refusal != NONE || !checks::bad_block(&input.thresholds) {
            return Err("a good job and a bad block are wanted".to_string());
        }
        let (work, out) = (good.work(), good.written.len());
        let lengths = [[work, out], [work - 1, out], [0, 0], [work, out.saturating_sub(1)]];
        for [work, out] in lengths {
            let (number, _) = good.left(&vec![0; work], &vec![0; out]).result;
            tally.see(&before(number, NAMES[call as usize]));
            whole::one(call, &bad, input, [work, out], lent, rng, tally)?;
        }
    }
    Ok(())
}

/// The library's own block of 000, on slices of many lengths: at a page that can't be touched, and allocated.
pub fn of_000(run: &mut Run) {
    let mut rng = run.next_case();
    let guarded = Guarded::new(2 * BLOCK).expect("room for a block");
    for mut room in [Room::Guarded(guarded), Room::Heap(Box::default())] {
        for length in 0..=2 * BLOCK {
            let slice = room.last(length);
            let fill = rng.byte();
            slice.fill(fill);
            let mut after = vec![fill; length];
            let written = if length < BLOCK { 0 } else { BLOCK };
            after[..written].copy_from_slice(&OF_000[..written]);
            let said = calls::thresholds_of_000(slice);
            run.tally.see(OWN);
            if said != written as u64 || *slice != after[..] {
                let difference = format!("the block of 000 in {length} bytes: {said}, {slice:?}");
                run.report(&difference, &hex("its block", &Input::default()));
            }
        }
    }
}

/// All that is run whole.
pub fn all(run: &mut Run) {
    of_000(run);
    worked(run);
    sizes(run);
    damaged(run);
}

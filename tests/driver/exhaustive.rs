//! Small families of inputs, each run whole.

use crate::calls;
use crate::checks::{self, BY_LIST, CALLS, CARDS, HEADER, MARK, NONE, REDUCE, SPAN};
use crate::compare::{checked, compare};
use crate::damage::{damage, REFUSALS};
use crate::draft::{valid, Draft, Input, Patch, LARGEST_WIDTH, NO_ANCHOR};
use crate::expect::Expected;
use crate::memory::Guarded;
use crate::rng::Rng;
use crate::run::{hex, Run};
use crate::thresholds::OF_000;

/// All families. `rounds` is how often each pair of kinds of damage is drawn.
pub fn all(run: &mut Run, rounds: usize) {
    lengths(run);
    header_words(run);
    single_bytes(run);
    widths(run);
    anchors(run);
    ends(run);
    ramps(run);
    limits(run);
    largest_maps(run);
    pairs(run, rounds);
    huge(run);
}

/// A small draft with records in every section, on a map that is not square.
fn small(rng: &mut Rng) -> Draft {
    valid([3, 2], [2, 3, 2, 5, 3], rng)
}

/// A draft as it is, and one whose every section has a fault.
fn good_and_bad(rng: &mut Rng) -> [Draft; 2] {
    let good = small(rng);
    let mut bad = good.clone();
    for refusal in [6, 7, 8, 9, 10, 11, 12, 16, 17] {
        damage(refusal, &mut bad, rng);
    }
    [good, bad]
}

/// Every length of the job's slice up to 17 bytes too many, and every length of the list's.
fn lengths(run: &mut Run) {
    let mut rng = run.next_case();
    for draft in good_and_bad(&mut rng) {
        let whole = draft.input();
        for length in 0..=whole.job.len() + 17 {
            let mut input = whole.clone();
            input.job.resize(length, 0);
            run.input(&input, &mut rng);
        }
        for length in 0..=whole.list.len() + 17 {
            let mut input = whole.clone();
            input.list.resize(length, 0);
            run.input(&input, &mut rng);
        }
    }
}

/// Each word of the header, and each two of them, off by edge amounts or at edge values.
fn header_words(run: &mut Run) {
    let mut rng = run.next_case();
    let add = [1, u32::MAX, 2, 8, 12, 28, 40, 1 << 29, 1 << 30, 1 << 31];
    let set = [0, 1, 48, 256, 257, 1024, 1025, 4096, 4097, 1 << 16, u32::MAX];
    let both = [1, u32::MAX, 8, 1 << 30];
    for draft in good_and_bad(&mut rng) {
        for word in 0..12 {
            let added = add.map(|more| Patch::Add(word, more));
            let patches = added.into_iter().chain(set.map(|value| Patch::Set(word, value)));
            for patch in patches {
                run.draft(&Draft { patches: vec![patch], ..draft.clone() }, &mut rng, compare);
            }
            for other in 0..word {
                for (one, two) in both.iter().flat_map(|&one| both.map(|two| (one, two))) {
                    let patches = vec![Patch::Add(word, one), Patch::Add(other, two)];
                    run.draft(&Draft { patches, ..draft.clone() }, &mut rng, compare);
                }
            }
        }
    }
}

/// Each byte of a small input at each of its values.
fn single_bytes(run: &mut Run) {
    let mut rng = run.next_case();
    let whole = small(&mut rng).input();
    let vary = |bytes: &[u8]| -> Vec<Vec<u8>> {
        let at = |i: usize| {
            let bytes = bytes.to_vec();
            (0..=255).map(move |value| {
                let mut bytes = bytes.clone();
                bytes[i] = value;
                bytes
            })
        };
        (0..bytes.len()).flat_map(at).collect()
    };
    for job in vary(&whole.job) {
        run.input(&Input { job, ..whole.clone() }, &mut rng);
    }
    for list in vary(&whole.list) {
        run.input(&Input { list, ..whole.clone() }, &mut rng);
    }
}

/// Width bits about each edge, in each boundary.
fn widths(run: &mut Run) {
    let mut rng = run.next_case();
    let edges = [0, LARGEST_WIDTH, 1 << 32, 1 << 63, f64::INFINITY.to_bits(), 0x7FF8 << 48];
    let draft = small(&mut rng);
    for i in 0..draft.boundaries.len() {
        for edge in edges {
            for sign in [0, 1 << 63] {
                for more in [0, 1, u64::MAX, 1 << 32, 1 << 52] {
                    let mut draft = draft.clone();
                    draft.boundaries[i].bits = (edge ^ sign).wrapping_add(more);
                    run.draft(&draft, &mut rng, compare);
                }
            }
        }
    }
}

/// Anchors about the map's edges and about the two halves of 'no anchor', in each base.
fn anchors(run: &mut Run) {
    let mut rng = run.next_case();
    let draft = small(&mut rng);
    let edges = [0, 1, 2, 3, 4, 1 << 31, NO_ANCHOR - 1, NO_ANCHOR];
    for i in 0..draft.bases.len() {
        for (column, row) in edges.iter().flat_map(|&column| edges.map(|row| (column, row))) {
            let mut draft = draft.clone();
            draft.bases[i][1..].copy_from_slice(&[column, row]);
            run.draft(&draft, &mut rng, compare);
        }
    }
}

/// All ends whose coordinates are edge values, of a boundary and of a span, first and last.
fn ends(run: &mut Run) {
    let mut rng = run.next_case();
    let draft = small(&mut rng);
    let edges = [0, 16, 17, 24, 25];
    let points = || edges.iter().flat_map(|&x| edges.map(|y| [x, y]));
    for ([ax, ay], [bx, by]) in points().flat_map(|a| points().map(move |b| (a, b))) {
        for last in [false, true] {
            let mut own = draft.clone();
            let mut listed = draft.clone();
            let i = if last { draft.boundaries.len() - 1 } else { 0 };
            own.boundaries[i].ends = [ax, ay, bx, by];
            let i = if last { draft.list.len() - 1 } else { 0 };
            listed.list[i] = [ax, ay, bx, by];
            run.draft(&own, &mut rng, compare);
            run.draft(&listed, &mut rng, compare);
        }
    }
}

/// Every ramp end, with each other byte of the ramp zero or not.
fn ramps(run: &mut Run) {
    let mut rng = run.next_case();
    let draft = valid([2, 1], [0, 2, 0, 0, 1], &mut rng);
    for (end, bits) in (0..=255).flat_map(|end| (0..8).map(move |bits| (end, bits))) {
        for id in [0, 1, 1 << 8, 1 << 16, 1 << 24] {
            let mut draft = draft.clone();
            draft.boundaries[1].ramp = [end, bits & 1, bits >> 1 & 1, bits >> 2 & 1];
            draft.boundaries[1].ramp_id = id;
            run.draft(&draft, &mut rng, compare);
        }
    }
}

/// Each count at its limit and on both sides of it, everything else in keeping.
fn limits(run: &mut Run) {
    let mut rng = run.next_case();
    for (which, limit) in [256, 256, 1024, 4096, 256].into_iter().enumerate() {
        for count in limit - 1..=limit + 1 {
            let mut counts = [1, 2, 2, 2, 1];
            counts[which] = count;
            let draft = valid([2, 2], counts, &mut rng);
            run.draft(&draft, &mut rng, compare);
        }
    }
}

/// Maps at the largest sides and one past them; a fault in the very last record of each kind.
fn largest_maps(run: &mut Run) {
    let mut rng = run.next_case();
    for sides in [[1024, 1], [1, 1024], [1025, 1], [1, 1025]] {
        let draft = valid(sides, [1, 1, 1, 1, 1], &mut rng);
        run.draft(&draft, &mut rng, compare);
    }
    let draft = valid([1024, 1024], [256, 8, 1024, 4096, 8], &mut rng);
    run.draft(&draft, &mut rng, compare);
    let mut last_cell = draft.clone();
    last_cell.cells[1024 * 1024 - 1] = 32;
    run.draft(&last_cell, &mut rng, compare);
    let mut last_base = draft.clone();
    last_base.bases[255][1..].copy_from_slice(&[1023, 1024]);
    run.draft(&last_base, &mut rng, compare);
    let mut last_ends = draft.clone();
    last_ends.boundaries[7].ends = [0, 0, 8192, 8193];
    last_ends.list[7] = [8192, 8192, 8192, 8192];
    run.draft(&last_ends, &mut rng, compare);
}

/// Every two kinds of damage on one input, in both orders.
fn pairs(run: &mut Run, rounds: usize) {
    for (one, two) in REFUSALS.iter().flat_map(|&one| REFUSALS.map(|two| (one, two))) {
        for _ in 0..rounds {
            let mut rng = run.next_case();
            let mut draft = small(&mut rng);
            damage(one, &mut draft, &mut rng);
            damage(two, &mut draft, &mut rng);
            run.draft(&draft, &mut rng, compare);
        }
    }
}

/// Lengths that pass 32 bits: a job that is right in its low 32 bits only, lists of over 2^32 spans,
/// a slice for cards that is too short in its low 32 bits only, and a block that is right in them only. The pages are
/// zeros that nothing has to hold.
fn huge(run: &mut Run) {
    let mut rng = run.next_case();
    let input = small(&mut rng).input();
    let (more, spans) = (1 << 32, (1 << 32) + 3);
    let rooms = (Guarded::new(more + input.job.len()), Guarded::new(spans * SPAN + 8));
    let (Some(mut job), Some(mut list)) = rooms else {
        eprintln!("no room for slices of over 2^32 bytes: these lengths were not tried");
        return;
    };
    let long = job.last(more + input.job.len());
    long[..input.job.len()].copy_from_slice(&input.job);
    let list = list.last(spans * SPAN + 8);
    let expect = |call: u32, job: &[u8], list: &[u8], refusal: checks::Refusal| {
        let got = checked(call, job, list);
        if got != refusal {
            let lengths = format!("job of {} bytes, list of {}", job.len(), list.len());
            let difference = format!("call {call}, {lengths}: expected {refusal:?}, got {got:?}");
            run.report(&difference, &hex("as it was", &input));
        }
    };
    for call in CALLS {
        expect(call, long, &input.list, (5, 0));
        expect(call, &long[..more], &input.list, (5, 0));
        expect(call, &long[..more + HEADER - 1], &input.list, (5, 0));
    }
    for call in [REDUCE, MARK, CARDS] {
        expect(call, &input.job, list, NONE);
    }
    expect(BY_LIST, &input.job, list, (14, 0));
    expect(BY_LIST, &input.job, &list[8..], (15, spans as u64));
    expect(BY_LIST, &input.job, &list[8 + 3 * SPAN..], (15, 1 << 32));

    let expected = Expected::of(CARDS, &input.job, &[], &[]);
    let (mut work, cards) = (vec![0; expected.work()], &mut list[..more + 1]);
    let said = calls::whole(CARDS)(&input.job, &[], &[], &mut work, cards);
    let length = expected.written.len();
    if said != (0, length as u64) || cards[..length] != expected.written {
        let difference = format!("Area cards, a slice of 2^32 + 1 bytes: got {said:?}");
        run.report(&difference, &hex("as it was", &input));
    }

    if !run.heeds() {
        // Such a run has the block of 000 alone.
        return;
    }
    list[..OF_000.len()].copy_from_slice(&OF_000);
    let expected = Expected::of(REDUCE, &input.job, &[], &OF_000);
    for (call, length) in
        [REDUCE, BY_LIST].into_iter().flat_map(|c| [0, 63, 64, 65].map(|l| (c, l)))
    {
        let (mut work, mut out) = (vec![7; expected.work()], vec![7; expected.written.len()]);
        let block = &list[..more + length];
        let said = calls::whole(call)(&input.job, &input.list, block, &mut work, &mut out);
        if said != (32, 0) || work.iter().chain(&out).any(|&byte| byte != 7) {
            let difference = format!("a block of 2^32 + {length} bytes: got {said:?}");
            run.report(&difference, &hex("as it was", &input));
        }
    }
}

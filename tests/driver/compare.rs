//! Everything that is compared on one input.

use crate::calls;
use crate::checks::{self, Refusal, CALLS, CARDS, HEADER, NONE, SPAN};
use crate::draft::Input;
use crate::lent::Lent;
use crate::memory::Room;
use crate::rng::Rng;
use crate::rust;
use crate::tally::{Tally, CHECKS, PARTS};
use crate::whole;
use oracle::api::{self, AreaError, TerrainGrid};

/// Compares all that the library says of an input with what it should say. An error names the
/// first difference.
pub fn compare(
    input: &Input,
    lent: &mut Lent,
    rng: &mut Rng,
    tally: &mut Tally,
) -> Result<(), String> {
    let (job, list, out) = lent.inputs(&input.job, &input.list);
    let mut expected = [NONE; 4];
    for call in CALLS {
        // The probe's checks are those without the block.
        let faults = checks::faults(call, &input.job, &input.list);
        let first = faults.first().copied().unwrap_or(NONE);
        let got = checked(call, job, list);
        if got != first {
            return Err(format!("call {call}: expected {first:?}, got {got:?}, of {faults:?}"));
        }
        expected[call as usize] = first;
        let all = checks::all_faults(call, &input.job, &input.list, &input.thresholds);
        tally.note(call as usize, &all);
    }
    tally.see(CHECKS);
    parts(input, [job, list], expected, out, rng, tally)?;
    if *job != input.job[..] || *list != input.list[..] {
        return Err("job or list bytes were changed".to_string());
    }
    compare_spans(&input.job, &input.list, expected, tally)?;
    whole::compare(input, lent, rng, tally)
}

/// The refusal of a call's checks. No probe has those of Area cards by themselves: the call is lent
/// nothing, and every map has a cell, so that it gives 21 just where they pass.
pub fn checked(call: u32, job: &[u8], list: &[u8]) -> Refusal {
    if call != CARDS {
        return calls::check(call, job, list);
    }
    let said = calls::whole(CARDS)(job, list, &[], &mut [], &mut []);
    if said == (21, 0) {
        NONE
    } else {
        said
    }
}

/// The ends of span i for several choices and indexes.
fn parts(
    input: &Input,
    lent: [&[u8]; 2],
    expected: [Refusal; 4],
    out: &mut Room,
    rng: &mut Rng,
    tally: &mut Tally,
) -> Result<(), String> {
    let (job, list) = (&input.job, &input.list);
    for which in [0, 1, rng.word()] {
        let accepted = expected[usize::from(which != 0)] == NONE;
        let count = if which != 0 {
            (list.len() / SPAN) as u32
        } else if job.len() >= HEADER {
            u32::from_le_bytes([job[12], job[13], job[14], job[15]])
        } else {
            0
        };
        let any = rng.below(count.max(1) as usize) as u32;
        // Indexes whose offset wraps to 0 in 32 bits are among them.
        let far = rng.pick(&[1 << 28, 1 << 29, 1 << 31]);
        for i in [0, count.wrapping_sub(1), count, any, far, rng.word(), u32::MAX] {
            let part = if accepted { checks::span_ends(job, list, which, i) } else { &[] };
            let size = rng.pick(&[16, 16, 17, 24, 64, 15, 0]);
            let out = out.last(size);
            out.fill(0xA5);
            let mut after = out.to_vec();
            if part.len() <= size {
                after[..part.len()].copy_from_slice(part);
            }
            let length = calls::span_ends(lent[0], lent[1], which, i, out);
            if length != part.len() || *out != after[..] {
                return Err(format!(
                    "part of choice {which}, index {i}: expected {part:?}, got length {length}, \
                     and {out:?} in {size} bytes"
                ));
            }
            if length > 0 {
                tally.see(PARTS[usize::from(which != 0)]);
            }
        }
    }
    Ok(())
}

/// What the Rust's own checks say of spans, as refusals of the list.
fn refusal(grid: &TerrainGrid, spans: &[[u32; 4]]) -> Refusal {
    match api::partition(grid, spans) {
        Ok(_) => NONE,
        Err(AreaError::TooManyBoundarySpans { actual }) => (15, actual as u64),
        Err(AreaError::EndpointOutOfBounds { span, .. }) => (16, span as u64),
        Err(AreaError::ZeroLengthSpan { span, .. }) => (17, span as u64),
    }
}

/// Where only the checks that the Rust makes too are left to decide, it must say the same:
/// of the list 15, 16 and 17; of the boundaries' own ends 11 and 12.
fn compare_spans(
    job: &[u8],
    list: &[u8],
    expected: [Refusal; 4],
    tally: &mut Tally,
) -> Result<(), String> {
    let mut compare = |what: &str, expected: Refusal, spans: Vec<[u32; 4]>| {
        let said = refusal(&rust::grid(job), &spans);
        tally.rust[0] += 1;
        tally.rust[1] += u64::from(said != NONE);
        if said == expected {
            Ok(())
        } else {
            Err(format!("{what}: expected {expected:?}, the Rust says {said:?}"))
        }
    };
    if matches!(expected[1].0, 0 | 15 | 16 | 17) {
        compare("list", expected[1], rust::spans(list, SPAN))?;
    }
    let (number, index) = expected[0];
    if matches!(number, 0 | 11 | 12) {
        let as_span = if number == 0 { NONE } else { (number + 5, index) };
        compare("boundaries", as_span, rust::own_spans(job))?;
    }
    Ok(())
}

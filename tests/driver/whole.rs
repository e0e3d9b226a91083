//! The four calls in whole: number, detail, and every byte of work and of answer, marks or cards, on
//! slices that are exact, short and longer.

use crate::calls;
use crate::cards;
use crate::checks::{self, CALLS, CARDS, MARK, NONE};
use crate::draft::Input;
use crate::expect::{Expected, CARD, MOST_PAIRS};
use crate::lent::Lent;
use crate::marks;
use crate::rng::Rng;
use crate::tally::{Tally, NAMES, WHOLE};

pub fn compare(
    input: &Input,
    lent: &mut Lent,
    rng: &mut Rng,
    tally: &mut Tally,
) -> Result<(), String> {
    CALLS.into_iter().try_for_each(|call| each(call, input, lent, rng, tally))
}

/// One of the calls, on slices of every kind.
pub fn each(
    call: u32,
    input: &Input,
    lent: &mut Lent,
    rng: &mut Rng,
    tally: &mut Tally,
) -> Result<(), String> {
    let expected = Expected::of(call, &input.job, &input.list, &input.thresholds);
    let mut lent_lengths = lengths(&expected, rng);
    let written = expected.refusal == NONE && expected.pairs <= MOST_PAIRS;
    let most = if written { most(call, &input.job) } else { None };
    if let Some(most) = most {
        if expected.written.len() > most {
            return Err(format!("{} bytes, over {most}", expected.written.len()));
        }
        // For cards that is much more than they take.
        if call != CARDS || rng.one_in(16) {
            lent_lengths.push([expected.work(), most]);
        }
    }
    for [work, out] in lent_lengths {
        one(call, &expected, input, [work, out], lent, rng, tally)?;
    }
    if call == MARK && written {
        marks::note(&expected.closing, &expected.written, &marks::OF_JOBS, tally);
    }
    Ok(())
}

/// CHOKES_ANSWER_BYTES or CHOKES_CARDS_BYTES of include/chokes.h, for the sides and counts of a job.
pub fn most(call: u32, job: &[u8]) -> Option<usize> {
    let words = job.chunks_exact(4).take(6);
    let words: Vec<_> =
        words.map(|word| u32::from_le_bytes(word.try_into().unwrap()) as usize).collect();
    let [width, height, _, boundaries, observations, sources] = words[..] else { return None };
    match call {
        MARK => None,
        CARDS => Some(CARD * width * height),
        _ => Some(24 + 40 * boundaries + 28 * (observations + boundaries) + 16 * sources),
    }
}

/// Lengths of work and of answer, marks or cards: exact; the second one short; both longer; now and
/// then the first one short, or both.
fn lengths(expected: &Expected, rng: &mut Rng) -> Vec<[usize; 2]> {
    let (work, out) = (expected.work(), expected.written.len());
    if expected.refusal != NONE {
        return vec![[rng.below(40), rng.below(40)]];
    }
    if expected.pairs > MOST_PAIRS {
        return vec![[work, 0], [work + 3, 200], [work - 1, 200]];
    }
    let short = out.saturating_sub(rng.pick(&[1, 1, 8, 28, 40, out.max(1)]));
    let mut lengths = vec![[work, out], [work + rng.below(9), short]];
    lengths.push([work + rng.below(50), out + 1 + rng.below(100)]);
    if rng.one_in(4) {
        let less = work - rng.pick(&[1, 1, work]);
        lengths.push([less, rng.pick(&[out, short])]);
    }
    lengths
}

/// One call, compared whole.
pub fn one(
    call: u32,
    expected: &Expected,
    input: &Input,
    [work, out]: [usize; 2],
    lent: &mut Lent,
    rng: &mut Rng,
    tally: &mut Tally,
) -> Result<(), String> {
    let (work, out) = (vec![rng.byte(); work], vec![rng.byte(); out]);
    let left = expected.left(&work, &out);
    tally.note_whole(call as usize, left.result.0);
    if call == CARDS && out.len() < CARD && checks::walkable(&input.job) > 0 {
        tally.note_short_cards(left.result.0);
    }
    let name = NAMES[call as usize];
    let lent = lent.lend(input, &work, &out);
    let said = calls::whole(call)(lent.job, lent.list, lent.thresholds, lent.work, lent.out);
    tally.see(WHOLE[call as usize]);
    if calls::watched() {
        // Another library may leave something else; what is told of the calls is looked at, and all of them are made.
        return Ok(());
    }
    if said != left.result {
        return Err(format!("{name}: expected {:?}, got {said:?}", left.result));
    }
    if call == MARK && said.0 == 0 {
        let meets = expected.closing.meets(&lent.out[..said.1 as usize]);
        meets.map_err(|difference| format!("{name}: {difference}"))?;
    }
    lent.check(name, input, &left.work, Some(&left.out))?;
    if call == CARDS && said.0 == 0 {
        let written = &lent.out[..said.1 as usize];
        cards::add_up(&input.job, written)?;
        cards::note(&input.job, written, tally);
    }
    Ok(())
}

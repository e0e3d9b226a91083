//! Area cards: maps with ramps and elevations of many kinds, on slices of every telling length; the
//! words of a card stated anew, and the cells of all cards together.

use crate::checks::{self, CARDS, HEADER, NONE};
use crate::draft::{Draft, Input};
use crate::expect::{Expected, CARD, MOST_PAIRS};
use crate::lent::Lent;
use crate::maps::{self, Shape};
use crate::rng::Rng;
use crate::tally::{Tally, STATED};
use crate::whole;

const WALKABLE: u8 = 1;
const RAMP: u8 = 4;

/// A map of a shape with some spans, whose ramps and elevations are of one of many kinds.
pub fn random(rng: &mut Rng) -> Draft {
    let mut draft = match rng.below(40) {
        0 => maps::many_pairs(rng.pick(&[4095, 4096, 4097, 4100]), rng),
        1 => maps::with_spans([1, 1], Shape::Noise, rng.below(3), rng),
        2 => maps::with_spans(rng.pick(&[[1, 1024], [1024, 1]]), Shape::Noise, 8, rng),
        3 | 4 => {
            let sides = [rng.within(1, 40), rng.within(1, 40)];
            maps::with_spans(sides, Shape::Checkerboard, 2, rng)
        }
        _ => maps::random(rng),
    };
    let (width, kind) = (draft.width, rng.below(10));
    let (one, level) = (rng.below(draft.cells.len()), rng.below(4) as u8);
    for (i, cell) in draft.cells.iter_mut().enumerate() {
        let column = (i as u32 % width) as u8;
        let elevation = match kind {
            0 => 3,
            1 => level,
            2 => column / 2 % 4,
            _ => *cell >> 3 & 3,
        };
        let ramp = match kind {
            0 | 3 => i == one,
            1 | 4 => false,
            5 => true,
            _ => *cell & RAMP != 0,
        };
        // Now and then holes, or nothing that is walkable.
        let blocked = kind == 6 && rng.one_in(3) || kind == 7;
        let rest = *cell & if blocked { 2 } else { 2 | WALKABLE };
        *cell = rest | u8::from(ramp) * RAMP | elevation << 3;
    }
    draft
}

/// The call in whole on slices of many lengths.
pub fn compare(
    input: &Input,
    lent: &mut Lent,
    rng: &mut Rng,
    tally: &mut Tally,
) -> Result<(), String> {
    let expected = Expected::of(CARDS, &input.job, &input.list, &input.thresholds);
    let (work, cards) = (expected.work(), expected.written.len());
    let mut lengths = vec![[work, 0], [work, cards], [work + rng.below(9), cards + 1]];
    for less in [1, 4, CARD - 1, CARD, CARD + 1] {
        lengths.push([work, cards.saturating_sub(less)]);
    }
    for more in [4, CARD - 1, CARD, CARD + 1] {
        lengths.push([work, cards + more]);
    }
    if expected.refusal == NONE {
        lengths.push([work - 1, cards]);
        lengths.push([work - 1, 0]);
    }
    if expected.refusal == NONE && expected.pairs <= MOST_PAIRS {
        if expected.written != stated(&input.job, &expected.labels) {
            return Err("the Rust's cards are not those of the paper".to_string());
        }
        (0..cards / CARD).for_each(|_| tally.see(STATED));
    }
    for lengths in lengths {
        whole::one(CARDS, &expected, input, lengths, lent, rng, tally)?;
    }
    Ok(())
}

/// The cards by the paper: for each label in order its cells; 8c, 8r of its leftmost and topmost
/// cell; 8c + 8, 8r + 8 of its rightmost and lowest; whether one is a ramp; its cells of each elevation.
fn stated(job: &[u8], labels: &[u32]) -> Vec<u8> {
    let width = u32::from_le_bytes(job[..4].try_into().expect("four bytes"));
    let areas = labels.iter().copied().max().unwrap_or(0);
    let mut members = vec![vec![]; areas as usize];
    for (&label, i) in labels.iter().zip(0..).filter(|(&label, _)| label > 0) {
        members[label as usize - 1].push(i);
    }
    let card = |cells: &Vec<u32>| {
        let columns = || cells.iter().map(|i| 8 * (i % width));
        let rows = || cells.iter().map(|i| 8 * (i / width));
        let byte = |&i: &u32| job[HEADER + i as usize];
        let level = |of: u8| cells.iter().filter(|i| byte(i) / 8 == of).count() as u32;
        let least = [columns().min(), rows().min()].map(|side| side.expect("a cell"));
        let most = [columns().max(), rows().max()].map(|side| side.expect("a cell") + 8);
        let ramp = u32::from(cells.iter().any(|i| byte(i) & RAMP != 0));
        let count = cells.len() as u32;
        [&[count], &least[..], &most, &[ramp], &[0, 1, 2, 3].map(level)].concat()
    };
    members.iter().flat_map(card).flat_map(u32::to_le_bytes).collect()
}

/// The cards' words.
fn words(cards: &[u8]) -> Vec<u32> {
    let words = cards.chunks_exact(4).map(|word| u32::from_le_bytes(word.try_into().unwrap()));
    words.collect()
}

/// That the cards' cells are all the walkable ones of the job's bytes.
pub fn add_up(job: &[u8], cards: &[u8]) -> Result<(), String> {
    let cells: usize = words(cards).iter().step_by(CARD / 4).map(|&cells| cells as usize).sum();
    let walkable = checks::walkable(job);
    if cells == walkable {
        Ok(())
    } else {
        Err(format!("the cards have {cells} cells, the job {walkable} walkable ones"))
    }
}

/// Counts what the cards of a job have.
pub fn note(job: &[u8], cards: &[u8], tally: &mut Tally) {
    let words = words(cards);
    let cards = || words.chunks_exact(CARD / 4);
    let areas = cards().count();
    let ramps = cards().filter(|card| card[5] == 1).count();
    let side = |at: usize| u32::from_le_bytes(job[at..at + 4].try_into().expect("four bytes"));
    let corner = [side(0), side(4)].map(|side| 8 * side);
    let several = |card: &[u32]| card[6..].iter().filter(|&&cells| cells > 0).count() > 1;
    let rows = [
        ("cards of no area", areas == 0),
        ("cards of over 256 areas", areas > 256),
        ("cards of 524,288 areas", areas == 524_288),
        ("cards with a ramp and without", 0 < ramps && ramps < areas),
        ("cards of several elevations", cards().any(several)),
        ("cards of elevation 3", cards().any(|card| card[9] > 0)),
        ("cards at the map's far corner", cards().any(|card| card[3..5] == corner)),
    ];
    rows.into_iter().filter(|row| row.1).for_each(|row| tally.see(row.0));
}

//! Writes the seeds of a fuzz run to a folder: the jobs that are named, and inputs of the driver's
//! families.
//!
//!     seeds FOLDER JOB...

#[path = "../driver/record/across.rs"]
#[allow(dead_code)]
mod across;
#[path = "../driver/checks.rs"]
#[allow(dead_code)]
mod checks;
#[path = "../driver/corridors.rs"]
#[allow(dead_code)]
mod corridors;
#[path = "../driver/damage.rs"]
#[allow(dead_code)]
mod damage;
#[path = "../driver/draft.rs"]
#[allow(dead_code)]
mod draft;
#[path = "../driver/heads.rs"]
#[allow(dead_code)]
mod heads;
#[path = "../driver/maps.rs"]
#[allow(dead_code)]
mod maps;
#[path = "../driver/orders.rs"]
#[allow(dead_code)]
mod orders;
#[path = "../driver/own.rs"]
#[allow(dead_code)]
mod own;
#[path = "../driver/rng.rs"]
#[allow(dead_code)]
mod rng;
#[path = "../driver/rust.rs"]
#[allow(dead_code)]
mod rust;
#[path = "../driver/splits.rs"]
#[allow(dead_code)]
mod splits;
#[path = "../driver/thresholds.rs"]
#[allow(dead_code)]
mod thresholds;
#[path = "../driver/values.rs"]
#[allow(dead_code)]
mod values;

#[allow(dead_code)]
mod case;

use case::Case;
use damage::REFUSALS;
use draft::{Draft, Input};
use oracle::thresholds::Thresholds;
use rng::Rng;
use std::{env, fs, io};
use thresholds::block;

/// The longest input of a run, as tests/fuzz/run has it.
const LONGEST: usize = 16_384;

fn main() -> io::Result<()> {
    let mut arguments = env::args().skip(1);
    let folder = arguments.next().expect("a folder");
    let mut written = 0;
    let mut write = |case: Case| -> io::Result<()> {
        let bytes = case.bytes();
        if bytes.len() <= LONGEST {
            fs::write(format!("{folder}/{written:04}"), bytes)?;
            written += 1;
        }
        Ok(())
    };
    for file in arguments {
        let job = fs::read(file)?;
        let ends = rust::own_spans(&job).into_iter().flatten();
        let list = ends.flat_map(u32::to_le_bytes).collect();
        write(Case { lengths: 5, fill: 0, input: Input { job, list, ..Input::default() } })?;
    }
    for (number, draft) in drafts() {
        let mut rng = Rng::of_case(1, number);
        write(Case { lengths: rng.byte(), fill: rng.byte(), input: draft.input() })?;
    }
    println!("{written} seeds in {folder}");
    Ok(())
}

/// Admitted numbers.
fn numbers(rng: &mut Rng) -> Thresholds {
    let least = rng.within(2, 4);
    let most = rng.within(least, 16) as usize;
    let length = |rng: &mut Rng| rng.pick(&[0.0, 8.0, 16.0, 32.0, 128.0, 384.0, 16_384.0]);
    Thresholds {
        least: least as usize,
        most,
        chain: length(rng),
        width: length(rng),
        geometry: length(rng),
        duplicate: length(rng),
        envelope: length(rng),
        cosine: rng.pick(&[0.0, 0.5, Thresholds::DECLARED.cosine, 1.0]),
    }
}

/// Drafts damaged for each refusal, maps, corridors, also with other blocks of thresholds and long chains with large groups, own sources,
/// spans across several areas, and region pairs at their limit and one over.
fn drafts() -> Vec<(u64, Draft)> {
    let mut drafts = Vec::new();
    let mut make = |number: u64, draft: &dyn Fn(&mut Rng) -> Draft| {
        drafts.push((number, draft(&mut Rng::of_case(2, number))));
    };
    for (i, refusal) in (0..64).zip(REFUSALS.into_iter().cycle()) {
        make(1 << 32 | i, &|rng| {
            let mut draft = draft::random(rng);
            damage::damage(refusal, &mut draft, rng);
            draft
        });
    }
    (0..100).for_each(|i| make(2 << 32 | i, &maps::random));
    (0..100).for_each(|i| make(4 << 32 | i, &corridors::random));
    (0..60).for_each(|i| {
        make(6 << 32 | i, &|rng| {
            let mut draft = corridors::random(rng);
            draft.thresholds = block(&numbers(rng)).to_vec();
            draft
        });
    });
    (2..=17).for_each(|spans| {
        make(9 << 32 | u64::from(spans), &|rng| {
            let mut draft = corridors::long(2 * spans + 1, spans, rng);
            let sizes = Thresholds { least: 2, most: 16, ..Thresholds::DECLARED };
            draft.thresholds = block(&sizes).to_vec();
            draft
        });
    });
    (0..60).for_each(|i| make(7 << 32 | i, &own::random));
    (0..20).for_each(|i| make(8 << 32 | i, &own::one_head));
    (0..80).for_each(|i| make(10 << 32 | i, &across::random));
    (0..20).for_each(|i| make(11 << 32 | i, &across::one_long));
    make(12 << 32, &across::case_8);
    make(13 << 32, &|rng| across::many_areas(false, rng));
    for pairs in [4096, 4097] {
        make(5 << 32 | pairs as u64, &|rng| maps::many_pairs(pairs, rng));
    }
    drafts
}

//! A draft that the calls accept, from any bytes: what is read is kept where it may stand.

use crate::block;
use crate::checks::{BASE, BOUNDARY, HEADER, OBSERVATION, SOURCE, SPAN};
use crate::draft::{Boundary, Draft, Input, Observation, LARGEST_WIDTH, NO_ANCHOR};

fn word(bytes: &[u8], at: usize) -> u32 {
    u32::from_le_bytes(bytes[at..at + 4].try_into().expect("four bytes"))
}

fn ends(record: &[u8]) -> [u32; 4] {
    [0, 4, 8, 12].map(|at| word(record, at))
}

fn bits(record: &[u8]) -> u64 {
    u64::from(word(record, 16)) | u64::from(word(record, 20)) << 32
}

/// The records of a section, as many as are counted and as there are bytes for.
fn records<'a>(rest: &mut &'a [u8], counted: u32, size: usize) -> Vec<&'a [u8]> {
    let count = (rest.len() / size).min(counted as usize);
    let (section, after) = rest.split_at(count * size);
    *rest = after;
    section.chunks_exact(size).collect()
}

/// The draft that these bytes are nearest to, by their counts.
pub fn nearest(input: &Input) -> Draft {
    let mut job = input.job.clone();
    job.resize(job.len().max(HEADER + 1), 0);
    let header = [0, 1, 2, 3, 4, 5].map(|i| word(&job, 4 * i));
    let mut rest = &job[HEADER..];
    let width = header[0].clamp(1, 1024.min(rest.len() as u32));
    let height = header[1].clamp(1, 1024.min(rest.len() as u32 / width));
    let cells = records(&mut rest, width * height, 1).concat();
    let mut draft = Draft { width, height, cells, ..Draft::default() };
    let bases = records(&mut rest, header[2], BASE);
    draft.bases = bases.iter().map(|base| [0, 4, 8].map(|at| word(base, at))).collect();
    let boundary = |record: &&[u8]| Boundary {
        ends: ends(record),
        bits: bits(record),
        sources: word(record, 24),
        observations: word(record, 28),
        ramp: [32, 33, 34, 35].map(|at| record[at]),
        ramp_id: word(record, 36),
    };
    draft.boundaries = records(&mut rest, header[3], BOUNDARY).iter().map(boundary).collect();
    let observation = |record: &&[u8]| Observation {
        ends: ends(record),
        bits: bits(record),
        sources: word(record, 24),
    };
    let observations = records(&mut rest, header[4], OBSERVATION);
    draft.observations = observations.iter().map(observation).collect();
    let sources = records(&mut rest, header[5], SOURCE);
    draft.sources = sources.iter().map(|source| [word(source, 0), word(source, 4)]).collect();
    draft.list = input.list.chunks_exact(SPAN).map(ends).collect();
    draft.thresholds.clone_from(&input.thresholds);
    mend(&mut draft);
    draft
}

/// Brings every field that may not stand within its limits.
pub fn mend(draft: &mut Draft) {
    let map = [draft.width, draft.height];
    draft.cells.resize((map[0] * map[1]) as usize, 1);
    draft.cells.iter_mut().for_each(|cell| *cell %= 32);
    draft.bases.truncate(256);
    for [_, column, row] in &mut draft.bases {
        if [*column, *row] != [NO_ANCHOR; 2] {
            [*column, *row] = [*column % map[0], *row % map[1]];
        }
    }
    draft.boundaries.truncate(256);
    for boundary in &mut draft.boundaries {
        mend_ends(&mut boundary.ends, map);
        if boundary.bits > LARGEST_WIDTH {
            boundary.bits %= LARGEST_WIDTH + 1;
        }
        boundary.ramp[0] %= 3;
        boundary.ramp[3] = 0;
        if boundary.ramp[0] == 0 {
            (boundary.ramp, boundary.ramp_id) = ([0; 4], 0);
        }
    }
    draft.list.truncate(256);
    draft.list.iter_mut().for_each(|span| mend_ends(span, map));
    block::mend(&mut draft.thresholds);
    mend_sums(draft);
}

/// Ends on the map that don't coincide.
fn mend_ends(ends: &mut [u32; 4], map: [u32; 2]) {
    for (i, end) in ends.iter_mut().enumerate() {
        let most = 8 * map[i % 2];
        if *end > most {
            *end %= most + 1;
        }
    }
    if ends[..2] == ends[2..] {
        ends[0] = if ends[0] == 0 { 1 } else { ends[0] - 1 };
    }
}

/// Each holder takes what it counts, as far as there is; what nobody takes goes.
fn mend_sums(draft: &mut Draft) {
    draft.observations.truncate(1024);
    let mut left = draft.observations.len() as u32;
    for boundary in &mut draft.boundaries {
        boundary.observations = boundary.observations.min(left);
        left -= boundary.observations;
    }
    draft.observations.truncate(draft.observations.len() - left as usize);
    draft.sources.truncate(4096);
    let mut left = draft.sources.len() as u32;
    let own = draft.boundaries.iter_mut().map(|boundary| &mut boundary.sources);
    let observed = draft.observations.iter_mut().map(|observation| &mut observation.sources);
    for count in own.chain(observed) {
        *count = (*count).min(left);
        left -= *count;
    }
    draft.sources.truncate(draft.sources.len() - left as usize);
}

//! A run as values, written from document 01: boundaries with their sources and observations, each
//! with its span; canonical copies, merges one at a time, and the answer that they make.

use crate::checks::{BASE, BOUNDARY, HEADER, OBSERVATION, SOURCE, SPAN};
use crate::draft::{self, Draft, Input};
use crate::rng::Rng;
use std::collections::BTreeSet;

pub type Source = [u32; 2];
pub type Ends = [u32; 4];

#[derive(Clone, Debug, PartialEq)]
pub struct Observation {
    pub ends: Ends,
    pub bits: u64,
    pub sources: Vec<Source>,
}

#[derive(Clone, Debug, PartialEq)]
pub struct Boundary {
    pub ends: Ends,
    pub bits: u64,
    pub ramp: [u8; 4],
    pub ramp_id: u32,
    pub sources: Vec<Source>,
    pub observations: Vec<Observation>,
}

/// A job as values; `map` has its cells, bases and block, `spans` is the list of Reduce by list.
#[derive(Clone)]
pub struct Values {
    pub map: Draft,
    pub boundaries: Vec<Boundary>,
    pub spans: Vec<Ends>,
}

fn word(bytes: &[u8], at: usize) -> u32 {
    u32::from_le_bytes(bytes[at..at + 4].try_into().expect("four bytes"))
}

fn ends(bytes: &[u8], at: usize) -> Ends {
    [0, 4, 8, 12].map(|field| word(bytes, at + field))
}

fn bits(bytes: &[u8], at: usize) -> u64 {
    u64::from(word(bytes, at)) | u64::from(word(bytes, at + 4)) << 32
}

impl Values {
    /// The values of a job that passes the checks.
    pub fn read(input: &Input) -> Self {
        let job = &input.job;
        let [width, height, bases, boundaries] = [0, 4, 8, 12].map(|at| word(job, at));
        let cells = (width * height) as usize;
        let map = Draft {
            width,
            height,
            cells: job[HEADER..HEADER + cells].to_vec(),
            bases: (0..bases as usize)
                .map(|i| [0, 4, 8].map(|field| word(job, HEADER + cells + BASE * i + field)))
                .collect(),
            thresholds: input.thresholds.clone(),
            ..Draft::default()
        };
        let [at_boundaries, mut at_observation, mut at_source] =
            [32, 36, 40].map(|at| word(job, at) as usize);
        let mut take = |count: u32| -> Vec<Source> {
            let from = at_source;
            at_source += SOURCE * count as usize;
            (0..count as usize)
                .map(|i| [word(job, from + SOURCE * i), word(job, from + SOURCE * i + 4)])
                .collect()
        };
        let boundaries = (0..boundaries as usize).map(|i| {
            let at = at_boundaries + BOUNDARY * i;
            let sources = take(word(job, at + 24));
            let observations = (0..word(job, at + 28)).map(|_| {
                let at = at_observation;
                at_observation += OBSERVATION;
                Observation {
                    ends: ends(job, at),
                    bits: bits(job, at + 16),
                    sources: take(word(job, at + 24)),
                }
            });
            Boundary {
                ends: ends(job, at),
                bits: bits(job, at + 16),
                ramp: job[at + 32..at + 36].try_into().expect("four bytes"),
                ramp_id: word(job, at + 36),
                observations: observations.collect(),
                sources,
            }
        });
        let boundaries = boundaries.collect();
        let spans = input.list.chunks_exact(SPAN).map(|span| ends(span, 0)).collect();
        Self { map, boundaries, spans }
    }

    pub fn draft(&self) -> Draft {
        let mut draft = Draft { list: self.spans.clone(), ..self.map.clone() };
        for boundary in &self.boundaries {
            draft.boundaries.push(draft::Boundary {
                ends: boundary.ends,
                bits: boundary.bits,
                sources: boundary.sources.len() as u32,
                observations: boundary.observations.len() as u32,
                ramp: boundary.ramp,
                ramp_id: boundary.ramp_id,
            });
            draft.sources.extend(&boundary.sources);
            for observation in &boundary.observations {
                draft.observations.push(draft::Observation {
                    ends: observation.ends,
                    bits: observation.bits,
                    sources: observation.sources.len() as u32,
                });
                draft.sources.extend(&observation.sources);
            }
        }
        draft
    }

    /// The same run listed another way: boundaries in any order, ends either way round, sources and
    /// observations shuffled; a span moves with its boundary where there are as many of both.
    pub fn relisted(&self, rng: &mut Rng) -> Self {
        let order = shuffled((0..self.boundaries.len()).collect(), rng);
        let mut boundaries: Vec<Boundary> =
            order.iter().map(|&i| self.boundaries[i].clone()).collect();
        for boundary in &mut boundaries {
            boundary.ends = turned(boundary.ends, rng);
            boundary.sources = shuffled(std::mem::take(&mut boundary.sources), rng);
            boundary.observations = shuffled(std::mem::take(&mut boundary.observations), rng);
            for observation in &mut boundary.observations {
                observation.sources = shuffled(std::mem::take(&mut observation.sources), rng);
            }
        }
        let spans: Vec<Ends> = if self.spans.len() == order.len() {
            order.iter().map(|&i| self.spans[i]).collect()
        } else {
            shuffled(self.spans.clone(), rng)
        };
        let spans = spans.into_iter().map(|span| turned(span, rng)).collect();
        Self { map: self.map.clone(), boundaries, spans }
    }

    /// True if no two boundaries have the same ends in either order.
    pub fn distinct_ends(&self) -> bool {
        let ends: BTreeSet<_> = self.boundaries.iter().map(|b| sorted_ends(b.ends)).collect();
        ends.len() == self.boundaries.len()
    }
}

pub fn shuffled<T>(mut list: Vec<T>, rng: &mut Rng) -> Vec<T> {
    for i in (1..list.len()).rev() {
        list.swap(i, rng.below(i + 1));
    }
    list
}

fn turned([ax, ay, bx, by]: Ends, rng: &mut Rng) -> Ends {
    if rng.one_in(2) {
        [bx, by, ax, ay]
    } else {
        [ax, ay, bx, by]
    }
}

/// The earlier end, by column, then row, first.
pub fn sorted_ends([ax, ay, bx, by]: Ends) -> Ends {
    if [bx, by] < [ax, ay] {
        [bx, by, ax, ay]
    } else {
        [ax, ay, bx, by]
    }
}

fn sorted_sources(mut sources: Vec<Source>) -> Vec<Source> {
    sources.sort_unstable();
    sources.dedup();
    sources
}

/// A place in IEEE 754's totalOrder.
fn total_order(bits: u64) -> u64 {
    if bits >> 63 == 0 {
        bits + (1 << 63)
    } else {
        u64::MAX - bits
    }
}

fn canonical_observation(observation: &Observation) -> Observation {
    Observation {
        ends: sorted_ends(observation.ends),
        bits: observation.bits,
        sources: sorted_sources(observation.sources.clone()),
    }
}

/// The canonical copy: earlier end first, own sources sorted, observations in order.
pub fn canonical(boundary: &Boundary) -> Boundary {
    let mut observations: Vec<_> =
        boundary.observations.iter().map(canonical_observation).collect();
    observations.sort_by_key(|seen| (seen.ends, total_order(seen.bits), seen.sources.clone()));
    Boundary {
        ends: sorted_ends(boundary.ends),
        sources: sorted_sources(boundary.sources.clone()),
        observations,
        ..boundary.clone()
    }
}

/// Puts one consolidated boundary in the stead of the members, which are known by their ends, with
/// the retained one's ends, width and ramp. It goes to the end of the list.
pub fn merge(boundaries: &[Boundary], members: &[Ends], retained: Ends) -> Vec<Boundary> {
    let (group, mut rest): (Vec<Boundary>, Vec<Boundary>) =
        boundaries.iter().cloned().partition(|b| members.contains(&sorted_ends(b.ends)));
    assert_eq!(group.len(), members.len(), "each member is in the list once");
    let keeps = group.iter().find(|boundary| sorted_ends(boundary.ends) == retained);
    let observations = group.iter().flat_map(|member| {
        let itself =
            Observation { ends: member.ends, bits: member.bits, sources: member.sources.clone() };
        let seen = member.observations.clone();
        if seen.is_empty() {
            vec![itself]
        } else {
            seen
        }
    });
    rest.push(canonical(&Boundary {
        sources: group.iter().flat_map(|member| member.sources.clone()).collect(),
        observations: observations.collect(),
        ..keeps.expect("the retained member").clone()
    }));
    rest
}

/// The answer that the boundaries make, each as its canonical copy, ordered by ends.
pub fn answer(boundaries: &[Boundary]) -> Vec<u8> {
    let mut kept: Vec<_> = boundaries.iter().map(canonical).collect();
    kept.sort_by_key(|boundary| boundary.ends);
    let values = Values { map: Draft::default(), boundaries: kept, spans: vec![] };
    let draft = values.draft();
    // A job without cells and bases has the records of an answer after its header.
    let job = draft.input().job;
    let records = &job[HEADER..];
    let [boundaries, observations, sources] =
        [draft.boundaries.len(), draft.observations.len(), draft.sources.len()];
    let from_observations = 24 + BOUNDARY * boundaries;
    let from_sources = from_observations + OBSERVATION * observations;
    let total = from_sources + SOURCE * sources;
    let header = [boundaries, observations, sources, from_observations, from_sources, total];
    let header = header.iter().flat_map(|&word| (word as u32).to_le_bytes());
    header.chain(records.iter().copied()).collect()
}

/// The own sources, and all sources, own and observed.
pub fn sources(boundaries: &[Boundary]) -> [BTreeSet<Source>; 2] {
    let own: BTreeSet<_> = boundaries.iter().flat_map(|b| b.sources.iter().copied()).collect();
    let observations = boundaries.iter().flat_map(|boundary| boundary.observations.iter());
    let observed = observations.flat_map(|observation| observation.sources.iter().copied());
    let all = own.iter().copied().chain(observed).collect();
    [own, all]
}

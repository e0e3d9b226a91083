//! The oracle's side: a job's bytes as the Rust's values, and the Rust's values as answer bytes.

use crate::checks::{BASE, BOUNDARY, HEADER, OBSERVATION, SOURCE};
use oracle::api::{
    self, Context, PixelPosition, RampBoundary, RampSide, Region, SpanPartition, TerrainGrid,
    TopologyBase, TopologyBoundary, TopologyObservation, WalkPosition,
};
use std::collections::BTreeSet;

pub const NO_ANCHOR: u32 = u32::MAX;

/// A job that has passed the checks, as the Rust takes it.
pub struct Job {
    pub grid: TerrainGrid,
    pub bases: Vec<TopologyBase>,
    pub boundaries: Vec<TopologyBoundary>,
}

impl Job {
    pub fn own_spans(&self) -> Vec<[u32; 4]> {
        let ends = self.boundaries.iter().map(|boundary| {
            let [a, b] = boundary.endpoints;
            [a.x, a.y, b.x, b.y]
        });
        ends.collect()
    }

    pub fn partition(&self, spans: &[[u32; 4]]) -> SpanPartition {
        api::partition(&self.grid, spans).expect("checked spans")
    }

    /// The boundaries that are bridges.
    pub fn bridges(&self, partition: &SpanPartition) -> BTreeSet<usize> {
        Context::new(&self.grid, partition, &self.bases).bridges()
    }

    /// The boundaries that are kept.
    pub fn kept(&self, partition: &SpanPartition) -> Vec<TopologyBoundary> {
        Context::new(&self.grid, partition, &self.bases).collapse(&self.boundaries)
    }

    /// A card for each area, by label.
    pub fn cards(&self, partition: &SpanPartition) -> Vec<u8> {
        let context = Context::new(&self.grid, partition, &self.bases);
        let cards = partition.areas().iter().zip(1..).flat_map(|(area, label)| {
            assert_eq!(area.id, label, "areas by label");
            card_words(&context.region(label).expect("an area has a region"))
        });
        cards.flat_map(u32::to_le_bytes).collect()
    }

    /// The partition by the boundaries' own ends, and the boundaries that are kept.
    pub fn reduce(&self) -> (SpanPartition, Vec<TopologyBoundary>) {
        let partition = self.partition(&self.own_spans());
        let kept = self.kept(&partition);
        (partition, kept)
    }

    /// The groups that the Rust merges. Each boundary gets a source that names it, so that what is
    /// kept names its members; on a map of nothing but ramps only serial groups are left.
    pub fn groups(&self, partition: &SpanPartition) -> Vec<Group> {
        let named = self.boundaries.iter().enumerate().map(|(i, boundary)| TopologyBoundary {
            sources: vec![[i as u32, 0]],
            observations: vec![],
            ..boundary.clone()
        });
        let named: Vec<_> = named.collect();
        let merged = |grid: &TerrainGrid| -> Vec<TopologyBoundary> {
            let kept = Context::new(grid, partition, &self.bases).collapse(&named);
            kept.into_iter().filter(|boundary| boundary.sources.len() > 1).collect()
        };
        let serial = merged(&api::all_ramps(&self.grid));
        let group = |boundary: TopologyBoundary| {
            let names = boundary.sources.iter().map(|source| source[0] as usize);
            let members: Vec<_> = names.collect();
            // Of members alike in ends and width the first in input order is retained.
            let alike = |&&i: &&usize| {
                let mut ends = named[i].endpoints;
                ends.sort();
                ends == boundary.endpoints && named[i].width_pixels == boundary.width_pixels
            };
            let retained = *members.iter().find(alike).expect("a retained member");
            Group { serial: serial.contains(&boundary), members, retained }
        };
        merged(&self.grid).into_iter().map(group).collect()
    }
}

/// A group that is merged: its members by input index, and the one that is retained.
pub struct Group {
    pub serial: bool,
    pub members: Vec<usize>,
    pub retained: usize,
}

/// The words of a region's card: cells, least and greatest column and row, ramp, cells of each
/// elevation.
pub fn card_words(region: &Region) -> [u32; 10] {
    let count = |cells: usize| u32::try_from(cells).expect("a count of cells");
    let [left, top, right, bottom] = region.bounds.map(|pixels| {
        assert_eq!(f64::from(pixels as u32), pixels, "a box of whole pixels");
        pixels as u32
    });
    let [e0, e1, e2, e3] = region.elevation_counts.map(count);
    [count(region.cells), left, top, right, bottom, region.has_ramp.into(), e0, e1, e2, e3]
}

/// Reads fields one after another.
struct Reader<'a>(&'a [u8]);

impl<'a> Reader<'a> {
    fn bytes(&mut self, count: usize) -> &'a [u8] {
        let (field, rest) = self.0.split_at(count);
        self.0 = rest;
        field
    }

    fn word(&mut self) -> u32 {
        u32::from_le_bytes(self.bytes(4).try_into().expect("four bytes"))
    }

    fn width(&mut self) -> f64 {
        f64::from_bits(u64::from_le_bytes(self.bytes(8).try_into().expect("eight bytes")))
    }

    fn ends(&mut self) -> [PixelPosition; 2] {
        api::ends([self.word(), self.word(), self.word(), self.word()])
    }
}

/// The header's first six words: sides and counts.
fn counts(job: &[u8]) -> [usize; 6] {
    let mut header = Reader(job);
    [0; 6].map(|_| header.word() as usize)
}

pub fn grid(job: &[u8]) -> TerrainGrid {
    let [width, height, ..] = counts(job);
    api::grid(width as u32, height as u32, &job[HEADER..HEADER + width * height])
}

/// The own ends of the job's boundaries.
pub fn own_spans(job: &[u8]) -> Vec<[u32; 4]> {
    let [width, height, bases, boundaries, ..] = counts(job);
    let start = HEADER + width * height + BASE * bases;
    spans(&job[start..start + BOUNDARY * boundaries], BOUNDARY)
}

/// The spans that records of `size` bytes begin with.
pub fn spans(bytes: &[u8], size: usize) -> Vec<[u32; 4]> {
    let span = |record| {
        let mut record = Reader(record);
        [0; 4].map(|_| record.word())
    };
    bytes.chunks_exact(size).map(span).collect()
}

pub fn job(job: &[u8]) -> Job {
    let [width, height, bases, boundaries, observations, _] = counts(job);
    let mut cursor = Reader(&job[HEADER + width * height..]);
    let bases = (0..bases).map(|_| {
        let [id, x, y] = [0; 3].map(|_| cursor.word());
        let none = x == NO_ANCHOR && y == NO_ANCHOR;
        TopologyBase { id, route_anchor: (!none).then_some(WalkPosition { x, y }) }
    });
    let bases = bases.collect();
    let mut records = Reader(cursor.bytes(BOUNDARY * boundaries));
    let mut observed = Reader(cursor.bytes(OBSERVATION * observations));
    let mut take = |count: u32| -> Vec<[u32; 2]> {
        (0..count).map(|_| [cursor.word(), cursor.word()]).collect()
    };
    let boundaries = (0..boundaries).map(|_| {
        let (endpoints, width_pixels) = (records.ends(), records.width());
        let (own, seen) = (records.word(), records.word());
        let &[end, lower_elevation, upper_elevation, _] = records.bytes(4) else { unreachable!() };
        let id = records.word();
        let side = if end == 1 { RampSide::Lower } else { RampSide::Upper };
        let ramp = RampBoundary { id, end: side, lower_elevation, upper_elevation };
        let sources = take(own);
        let observations = (0..seen).map(|_| TopologyObservation {
            endpoints: observed.ends(),
            width_pixels: observed.width(),
            sources: take(observed.word()),
        });
        TopologyBoundary {
            endpoints,
            width_pixels,
            sources,
            observations: observations.collect(),
            ramp: (end != 0).then_some(ramp),
        }
    });
    Job { grid: grid(job), bases, boundaries: boundaries.collect() }
}

/// The answer that the Rust's kept boundaries make.
pub fn answer(kept: &[TopologyBoundary]) -> Vec<u8> {
    let mut boundaries = Vec::new();
    let mut observations = Vec::new();
    let mut sources = Vec::new();
    let words = |bytes: &mut Vec<u8>, words: &[u32]| {
        words.iter().for_each(|word| bytes.extend(word.to_le_bytes()));
    };
    for boundary in kept {
        let [a, b] = boundary.endpoints;
        words(&mut boundaries, &[a.x, a.y, b.x, b.y]);
        boundaries.extend(boundary.width_pixels.to_bits().to_le_bytes());
        words(
            &mut boundaries,
            &[boundary.sources.len() as u32, boundary.observations.len() as u32],
        );
        let ramp = boundary.ramp.map_or([0; 4], |ramp| {
            let end = if ramp.end == RampSide::Lower { 1 } else { 2 };
            [end, ramp.lower_elevation, ramp.upper_elevation, 0]
        });
        boundaries.extend(ramp);
        words(&mut boundaries, &[boundary.ramp.map_or(0, |ramp| ramp.id)]);
        boundary.sources.iter().for_each(|source| words(&mut sources, source));
        for observation in &boundary.observations {
            let [a, b] = observation.endpoints;
            words(&mut observations, &[a.x, a.y, b.x, b.y]);
            observations.extend(observation.width_pixels.to_bits().to_le_bytes());
            words(&mut observations, &[observation.sources.len() as u32]);
            observation.sources.iter().for_each(|source| words(&mut sources, source));
        }
    }
    let from_observations = 24 + boundaries.len();
    let from_sources = from_observations + observations.len();
    let header = [
        kept.len(),
        observations.len() / OBSERVATION,
        sources.len() / SOURCE,
        from_observations,
        from_sources,
        from_sources + sources.len(),
    ];
    let mut answer = Vec::new();
    words(&mut answer, &header.map(|word| word as u32));
    [answer, boundaries, observations, sources].concat()
}

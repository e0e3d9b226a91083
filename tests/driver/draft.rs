//! An input as values: a job and a span list that the encoder lays out by the paper, with every
//! field free, so that a damaged input is one whose values or bytes were changed on purpose.

use crate::checks::HEADER;
use crate::rng::Rng;
pub use crate::rust::NO_ANCHOR;
use crate::thresholds;

/// The bits of 16,384.0, the largest width.
pub const LARGEST_WIDTH: u64 = 0x40D0_0000_0000_0000;

#[derive(Clone, Default)]
pub struct Boundary {
    pub ends: [u32; 4],
    pub bits: u64,
    pub sources: u32,
    pub observations: u32,
    /// Ramp end, lower and upper elevation, the zero byte.
    pub ramp: [u8; 4],
    pub ramp_id: u32,
}

#[derive(Clone, Default)]
pub struct Observation {
    pub ends: [u32; 4],
    pub bits: u64,
    pub sources: u32,
}

/// A change to a word of the header, after the layout.
#[derive(Clone, Copy)]
pub enum Patch {
    Set(usize, u32),
    Add(usize, u32),
}

/// A length of the job's slice: a number of bytes, or more or fewer than the records give.
#[derive(Clone, Copy)]
pub enum Length {
    To(usize),
    By(isize),
}

#[derive(Clone)]
pub struct Draft {
    pub width: u32,
    pub height: u32,
    pub cells: Vec<u8>,
    pub bases: Vec<[u32; 3]>,
    pub boundaries: Vec<Boundary>,
    pub observations: Vec<Observation>,
    pub sources: Vec<[u32; 2]>,
    pub patches: Vec<Patch>,
    /// Bytes put in before a section (0 to 4), the offsets from there on moved along.
    pub gap: Option<(usize, usize)>,
    /// The job's length where it is not what the records give.
    pub length: Option<Length>,
    pub list: Vec<[u32; 4]>,
    /// Bytes after the last whole span.
    pub list_tail: Vec<u8>,
    /// The block, that of 000 where nothing else is said.
    pub thresholds: Vec<u8>,
}

impl Default for Draft {
    fn default() -> Self {
        Self {
            width: 0,
            height: 0,
            cells: vec![],
            bases: vec![],
            boundaries: vec![],
            observations: vec![],
            sources: vec![],
            patches: vec![],
            gap: None,
            length: None,
            list: vec![],
            list_tail: vec![],
            thresholds: thresholds::OF_000.to_vec(),
        }
    }
}

/// The bytes that a call is lent.
#[derive(Clone, PartialEq)]
pub struct Input {
    pub job: Vec<u8>,
    pub list: Vec<u8>,
    pub thresholds: Vec<u8>,
}

impl Default for Input {
    /// No job and no list, and the block of 000.
    fn default() -> Self {
        Self { job: vec![], list: vec![], thresholds: thresholds::OF_000.to_vec() }
    }
}

fn put<const N: usize>(bytes: &mut Vec<u8>, words: [u32; N]) {
    words.iter().for_each(|word| bytes.extend(word.to_le_bytes()));
}

impl Draft {
    pub fn input(&self) -> Input {
        let mut list = Vec::new();
        self.list.iter().for_each(|&span| put(&mut list, span));
        list.extend(&self.list_tail);
        Input { job: self.job(), list, thresholds: self.thresholds.clone() }
    }

    fn job(&self) -> Vec<u8> {
        let mut sections = [self.cells.clone(), vec![], vec![], vec![], vec![]];
        self.bases.iter().for_each(|&base| put(&mut sections[1], base));
        for boundary in &self.boundaries {
            let bytes = &mut sections[2];
            put(bytes, boundary.ends);
            bytes.extend(boundary.bits.to_le_bytes());
            put(bytes, [boundary.sources, boundary.observations]);
            bytes.extend(boundary.ramp);
            put(bytes, [boundary.ramp_id]);
        }
        for observation in &self.observations {
            let bytes = &mut sections[3];
            put(bytes, observation.ends);
            bytes.extend(observation.bits.to_le_bytes());
            put(bytes, [observation.sources]);
        }
        self.sources.iter().for_each(|&source| put(&mut sections[4], source));

        let mut job = vec![0; HEADER];
        let mut header = [0; 12];
        let counts =
            [self.bases.len(), self.boundaries.len(), self.observations.len(), self.sources.len()];
        header[0] = self.width;
        header[1] = self.height;
        header[2..6].copy_from_slice(&counts.map(|count| count as u32));
        for (i, section) in sections.iter().enumerate() {
            if let Some((before, size)) = self.gap.filter(|gap| gap.0 == i) {
                job.resize(job.len() + size, before as u8);
            }
            header[6 + i] = job.len() as u32;
            job.extend(section);
        }
        header[11] = job.len() as u32;
        for &patch in &self.patches {
            match patch {
                Patch::Set(word, value) => header[word] = value,
                Patch::Add(word, more) => header[word] = header[word].wrapping_add(more),
            }
        }
        for (i, word) in header.iter().enumerate() {
            job[4 * i..4 * i + 4].copy_from_slice(&word.to_le_bytes());
        }
        match self.length {
            Some(Length::To(length)) => job.resize(length, 0),
            Some(Length::By(more)) => job.resize(job.len().saturating_add_signed(more), 0),
            None => {}
        }
        job
    }

    /// A point of the map, its right and lower edges included.
    pub fn point(&self, rng: &mut Rng) -> [u32; 2] {
        [self.width, self.height].map(|side| {
            let most = side.saturating_mul(8);
            if rng.one_in(4) {
                rng.pick(&[0, most])
            } else {
                rng.within(0, most.min(1 << 20))
            }
        })
    }

    /// Two distinct points of the map.
    pub fn span(&self, rng: &mut Rng) -> [u32; 4] {
        let [ax, ay] = self.point(rng);
        let [bx, by] = self.point(rng);
        if [ax, ay] != [bx, by] {
            [ax, ay, bx, by]
        } else if ax == 0 {
            [ax, ay, ax + 1, by]
        } else {
            [ax, ay, ax - 1, by]
        }
    }

    pub fn boundary(&self, rng: &mut Rng) -> Boundary {
        let (ramp, ramp_id) = match rng.below(4) {
            0 => ([rng.pick(&[1, 2]), rng.byte(), rng.byte(), 0], rng.word()),
            _ => ([0; 4], 0),
        };
        Boundary {
            ends: self.span(rng),
            bits: width_bits(rng),
            ramp,
            ramp_id,
            ..Boundary::default()
        }
    }

    pub fn base(&self, rng: &mut Rng) -> [u32; 3] {
        let id = value(rng);
        match rng.below(4) {
            0 => [id, NO_ANCHOR, NO_ANCHOR],
            1 => [id, self.width.saturating_sub(1), self.height.saturating_sub(1)],
            _ => [
                id,
                rng.below(self.width.max(1) as usize) as u32,
                rng.below(self.height.max(1) as usize) as u32,
            ],
        }
    }

    /// Gives out `observations` and `sources` anew over the boundaries there are.
    pub fn share(&mut self, observations: usize, sources: usize, rng: &mut Rng) {
        let holders = self.boundaries.len();
        let observations = if holders == 0 { 0 } else { observations };
        let sources = if holders == 0 { 0 } else { sources };
        for boundary in &mut self.boundaries {
            (boundary.sources, boundary.observations) = (0, 0);
        }
        for _ in 0..observations {
            self.boundaries[rng.below(holders)].observations += 1;
        }
        self.observations = (0..observations).map(|_| observation(rng)).collect();
        for _ in 0..sources {
            match rng.below(holders + observations) {
                i if i < holders => self.boundaries[i].sources += 1,
                i => self.observations[i - holders].sources += 1,
            }
        }
        self.sources = (0..sources).map(|_| [value(rng), value(rng)]).collect();
    }
}

/// A free number: often one of a few, so that equal ones occur.
fn value(rng: &mut Rng) -> u32 {
    let any = rng.word();
    rng.pick(&[0, 1, 2, 3, 8, u32::MAX, any, any])
}

/// Width bits that pass.
fn width_bits(rng: &mut Rng) -> u64 {
    let eight = 8.0_f64.to_bits();
    let any = rng.next() % (LARGEST_WIDTH + 1);
    rng.pick(&[0, 1, eight, LARGEST_WIDTH, LARGEST_WIDTH - 1, any, any])
}

/// An observation: its ends and bits are free.
fn observation(rng: &mut Rng) -> Observation {
    let (fit, any) = (width_bits(rng), rng.next());
    let bits = rng.pick(&[f64::NAN.to_bits(), 1 << 63, u64::MAX, fit, any]);
    Observation { ends: [0; 4].map(|_| value(rng)), bits, sources: 0 }
}

/// How large a random input is.
struct Sizes {
    sides: [u32; 2],
    bases: usize,
    boundaries: usize,
    observations: usize,
    sources: usize,
    spans: usize,
}

fn sizes(rng: &mut Rng) -> Sizes {
    let few = |rng: &mut Rng, most: usize| rng.below(most + 1);
    let small = |rng: &mut Rng, side: u32, most: usize| Sizes {
        sides: [rng.within(1, side), rng.within(1, side)],
        bases: few(rng, most),
        boundaries: few(rng, most),
        observations: few(rng, most),
        sources: few(rng, 2 * most),
        spans: few(rng, most),
    };
    match rng.below(64) {
        0..=43 => small(rng, 8, 4),
        44..=57 => small(rng, 40, 20),
        58..=60 => Sizes {
            sides: rng.pick(&[[1024, 1], [1, 1024], [1024, 2], [3, 1023]]),
            ..small(rng, 8, 6)
        },
        // Each count at its limit or one below it.
        _ => {
            let near = |rng: &mut Rng, limit: usize| limit - rng.below(2);
            Sizes {
                sides: [rng.within(1, 9), rng.within(1, 9)],
                bases: near(rng, 256),
                boundaries: near(rng, 256),
                observations: near(rng, 1024),
                sources: near(rng, 4096),
                spans: near(rng, 256),
            }
        }
    }
}

/// A draft of given sides and counts that all four calls accept.
pub fn valid(sides: [u32; 2], counts: [usize; 5], rng: &mut Rng) -> Draft {
    let [bases, boundaries, observations, sources, spans] = counts;
    let [width, height] = sides;
    let mut draft = Draft { width, height, ..Draft::default() };
    draft.cells = (0..width * height).map(|_| rng.byte() % 32).collect();
    draft.bases = (0..bases).map(|_| draft.base(rng)).collect();
    draft.boundaries = (0..boundaries).map(|_| draft.boundary(rng)).collect();
    draft.share(observations, sources, rng);
    draft.list = (0..spans).map(|_| draft.span(rng)).collect();
    draft
}

/// A random draft that all four calls accept.
pub fn random(rng: &mut Rng) -> Draft {
    let sizes = sizes(rng);
    let counts = [sizes.bases, sizes.boundaries, sizes.observations, sizes.sources, sizes.spans];
    valid(sizes.sides, counts, rng)
}

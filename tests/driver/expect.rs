//! What each call must leave: the paper's checks first, then what the Rust finds. The Rust has no rule for marks: they are what
//! their definition says of the records that the Rust finds.

use crate::checks::{self, Refusal, BY_LIST, CARDS, MARK, NONE, SPAN};
use crate::rust::{self, Group, Job};
use crate::thresholds;
use oracle::api::{SpanPartition, TopologyBoundary};
use oracle::free::with_thresholds;
use oracle::thresholds::Thresholds;
use std::collections::BTreeSet;

/// The most region pairs that a run may have.
pub const MOST_PAIRS: usize = 4096;
/// Bytes of work for each cell.
pub const WORK: usize = 10;
/// Bytes of a card.
pub const CARD: usize = 40;

/// The refusal of a slice that is too short for what a call writes, so many bytes.
pub fn too_short(call: u32, length: usize) -> Refusal {
    match call {
        MARK => (23, 0),
        CARDS => (31, length as u64),
        _ => (22, length as u64),
    }
}

/// What an input settles of a call, whatever slices are lent.
pub struct Expected {
    call: u32,
    pub refusal: Refusal,
    pub cells: usize,
    pub labels: Vec<u32>,
    pub pairs: usize,
    /// The answer's bytes, the marks, or the cards.
    pub written: Vec<u8>,
    /// Of Mark, what the marks rest on.
    pub closing: Closing,
}

/// Result, work and answer, marks or cards at the end of a call.
#[derive(PartialEq)]
pub struct Left {
    pub result: Refusal,
    pub work: Vec<u8>,
    pub out: Vec<u8>,
}

/// A job that a call accepts, with the Rust's partition by the spans that the call takes, and the numbers that it
/// merges with: those of the block, or of 000 where the call takes none.
pub struct Accepted {
    pub job: Job,
    pub partition: SpanPartition,
    pub numbers: Thresholds,
}

impl Accepted {
    /// The boundaries that the Rust keeps with these numbers.
    pub fn kept(&self) -> Vec<TopologyBoundary> {
        with_thresholds(self.numbers, || self.job.kept(&self.partition))
    }

    /// The groups that the Rust merges with these numbers.
    pub fn groups(&self) -> Vec<Group> {
        with_thresholds(self.numbers, || self.job.groups(&self.partition))
    }
}

/// The job as the call takes it, where its checks accept it and the block.
pub fn accepted(call: u32, job: &[u8], list: &[u8], block: &[u8]) -> Result<Accepted, Refusal> {
    if let Some(&refusal) = checks::all_faults(call, job, list, block).first() {
        return Err(refusal);
    }
    let block = if checks::takes_block(call) { block } else { &thresholds::OF_000 };
    let job = rust::job(job);
    let spans = if call == BY_LIST { rust::spans(list, SPAN) } else { job.own_spans() };
    let partition = job.partition(&spans);
    Ok(Accepted { job, partition, numbers: thresholds::numbers(block) })
}

/// Region pairs over all spans.
pub fn pairs(partition: &SpanPartition) -> usize {
    partition.boundaries().iter().map(|span| span.region_pairs.len()).sum()
}

/// A record: the boundary that it is of, left region, right region.
pub type Record = [u32; 3];

/// The records of the spans of a partition, in the spans' order.
pub fn records(partition: &SpanPartition) -> Vec<Record> {
    let spans = (0..).zip(partition.boundaries());
    spans
        .flat_map(|(i, span)| span.region_pairs.iter().map(move |&[left, right]| [i, left, right]))
        .collect()
}

/// Regions joined so far, each with a parent.
pub struct Joined(Vec<u32>);

impl Joined {
    pub fn root(&mut self, mut region: u32) -> u32 {
        while self.0[region as usize] != region {
            let above = self.0[region as usize];
            self.0[region as usize] = self.0[above as usize];
            region = above;
        }
        region
    }

    pub fn by<'a>(regions: usize, records: impl Iterator<Item = &'a Record>) -> Self {
        let mut joined = Self((0..regions as u32).collect());
        for &[_, left, right] in records {
            let (left, right) = (joined.root(left), joined.root(right));
            joined.0[left as usize] = right;
        }
        joined
    }
}

/// Records whose regions are numbered from 0 on, and how many these are.
pub fn numbered(records: &[Record]) -> (Vec<Record>, usize) {
    let mut regions: Vec<u32> =
        records.iter().flat_map(|&[_, left, right]| [left, right]).collect();
    regions.sort_unstable();
    regions.dedup();
    let number = |region: u32| regions.binary_search(&region).expect("a region of a record") as u32;
    let records = records.iter().map(|&[owner, left, right]| [owner, number(left), number(right)]);
    (records.collect(), regions.len())
}

/// Marks by their definition: for each boundary that has a record, the records of all others are joined afresh, and the mark is
/// 1 if a record of its own has its two regions apart. A boundary without a record has 0.
pub fn marks(records: &[Record], boundaries: usize) -> Vec<u8> {
    let (records, regions) = numbered(records);
    let mut marks = vec![0; boundaries];
    for (i, mark) in (0..).zip(&mut marks) {
        let mut own = records.iter().filter(|record| record[0] == i).peekable();
        if own.peek().is_some() {
            let mut others = Joined::by(regions, records.iter().filter(|record| record[0] != i));
            *mark = own.any(|&[_, left, right]| others.root(left) != others.root(right)).into();
        }
    }
    marks
}

/// What marks rest on: the records of the boundaries, and the boundaries that the Rust finds to be bridges.
#[derive(Default)]
pub struct Closing {
    pub records: Vec<Record>,
    pub bridges: BTreeSet<usize>,
}

impl Closing {
    /// That marks agree with the bridges where the two rules meet: a boundary with just one record is marked if it is a bridge and
    /// only then, and every bridge is marked.
    pub fn meets(&self, marks: &[u8]) -> Result<(), String> {
        let mut records = vec![0; marks.len()];
        self.records.iter().for_each(|record| records[record[0] as usize] += 1);
        for (i, (&mark, records)) in marks.iter().zip(records).enumerate() {
            let bridge = self.bridges.contains(&i);
            if bridge && mark != 1 {
                return Err(format!("boundary {i}: a bridge, and its mark is {mark}"));
            }
            if records == 1 && mark != u8::from(bridge) {
                return Err(format!("boundary {i}: one record and no bridge, its mark is {mark}"));
            }
        }
        Ok(())
    }
}

impl Expected {
    pub fn of(call: u32, job: &[u8], list: &[u8], block: &[u8]) -> Self {
        let accepted = match accepted(call, job, list, block) {
            Ok(accepted) => accepted,
            Err(refusal) => {
                let (labels, written, closing) = (vec![], vec![], Closing::default());
                return Self { call, refusal, cells: 0, labels, pairs: 0, written, closing };
            }
        };
        let Accepted { job, partition, .. } = &accepted;
        let pairs = pairs(partition);
        let mut closing = Closing::default();
        let written = if pairs > MOST_PAIRS {
            vec![]
        } else if call == MARK {
            closing = Closing { records: records(partition), bridges: job.bridges(partition) };
            marks(&closing.records, job.boundaries.len())
        } else if call == CARDS {
            job.cards(partition)
        } else {
            rust::answer(&accepted.kept())
        };
        let labels = partition.labels().to_vec();
        Self { call, refusal: NONE, cells: labels.len(), labels, pairs, written, closing }
    }

    /// The bytes of work that the call needs.
    pub fn work(&self) -> usize {
        WORK * self.cells
    }

    /// What the call must leave of these slices.
    pub fn left(&self, work: &[u8], out: &[u8]) -> Left {
        let (mut work, mut out) = (work.to_vec(), out.to_vec());
        let result = if self.refusal != NONE {
            self.refusal
        } else if work.len() < self.work() {
            (21, 0)
        } else {
            fill_work(&self.labels, &mut work);
            self.end(&mut out)
        };
        Left { result, work, out }
    }

    fn end(&self, out: &mut [u8]) -> Refusal {
        let length = self.written.len();
        if self.pairs > MOST_PAIRS {
            (13, 0)
        } else if out.len() < length {
            too_short(self.call, length)
        } else {
            out[..length].copy_from_slice(&self.written);
            (0, length as u64)
        }
    }
}

/// A u32 label for each cell, then zeros to ten times the cells.
pub fn fill_work(labels: &[u32], work: &mut [u8]) {
    work[..WORK * labels.len()].fill(0);
    for (bytes, label) in work.chunks_exact_mut(4).zip(labels) {
        bytes.copy_from_slice(&label.to_le_bytes());
    }
}

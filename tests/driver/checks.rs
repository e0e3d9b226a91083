//! Document 01's refusals 1 to 12 and 14 to 17, and 32 of a block of thresholds, and the ends of span i, stated
//! from the paper. Whole numbers are u128 here, so that no sum or product wraps.

pub const REDUCE: u32 = 0;
pub const BY_LIST: u32 = 1;
pub const MARK: u32 = 2;
pub const CARDS: u32 = 3;
pub const CALLS: [u32; 4] = [REDUCE, BY_LIST, MARK, CARDS];

/// Bytes of the header, and of a record of each section.
pub const HEADER: usize = 48;
pub const BASE: usize = 12;
pub const BOUNDARY: usize = 40;
pub const OBSERVATION: usize = 28;
pub const SOURCE: usize = 8;
pub const SPAN: usize = 16;

/// A refusal's number and detail; (0, 0) stands for none.
pub type Refusal = (u32, u64);
pub const NONE: Refusal = (0, 0);

const NO_ANCHOR: u128 = 4_294_967_295;
const LARGEST_WIDTH_BITS: u128 = 0x40D0_0000_0000_0000;
/// A block of thresholds: its length, its count of numbers and where they begin, the sizes that a group may have, and
/// the bits of the largest length and of the largest cosine.
const BLOCK: usize = 64;
const BLOCK_COUNT: u128 = 8;
const BLOCK_OFFSET: u128 = 8;
const GROUP_SIZES: [u128; 2] = [2, 16];
const LARGEST_LENGTH_BITS: u128 = 0x40D0_0000_0000_0000;
const LARGEST_COSINE_BITS: u128 = 0x3FF0_0000_0000_0000;

/// A little-endian number of `size` bytes, where the slice has them all.
fn number(bytes: &[u8], at: usize, size: usize) -> Option<u128> {
    let field = bytes.get(at..at.checked_add(size)?)?;
    Some(field.iter().rev().fold(0, |value, &byte| value << 8 | u128::from(byte)))
}

fn field(bytes: &[u8], at: usize, size: usize) -> u128 {
    number(bytes, at, size).expect("a field of a whole record")
}

/// Two ends as column, row, column, row.
fn ends(record: &[u8]) -> [u128; 4] {
    [0, 4, 8, 12].map(|at| field(record, at, 4))
}

/// Where each section begins by the counts, with the total length last.
struct Layout {
    starts: [u128; 6],
}

impl Layout {
    fn new(word: impl Fn(usize) -> u128) -> Self {
        let sizes = [
            word(0) * word(1),
            word(2) * BASE as u128,
            word(3) * BOUNDARY as u128,
            word(4) * OBSERVATION as u128,
            word(5) * SOURCE as u128,
        ];
        let mut starts = [HEADER as u128; 6];
        for i in 0..5 {
            starts[i + 1] = starts[i] + sizes[i];
        }
        Self { starts }
    }

    /// The bytes of a section, as far as the slice goes.
    fn section<'a>(&self, job: &'a [u8], section: usize) -> &'a [u8] {
        let limit = |at: u128| at.min(job.len() as u128) as usize;
        &job[limit(self.starts[section])..limit(self.starts[section + 1])]
    }

    /// The records of a section, as many as the slice holds whole.
    fn records<'a>(&self, job: &'a [u8], section: usize, size: usize) -> Vec<&'a [u8]> {
        self.section(job, section).chunks_exact(size).collect()
    }
}

/// Faults in the paper's order, each number at its first offender.
#[derive(Default)]
struct Faults(Vec<Refusal>);

impl Faults {
    fn note(&mut self, number: u32, holds: bool, detail: u128) {
        if holds && self.0.iter().all(|fault| fault.0 != number) {
            self.0.push((number, detail as u64));
        }
    }

    /// Ends past the map, then ends that coincide, record by record.
    fn note_ends(&mut self, past: u32, coincide: Option<u32>, map: [u128; 2], records: &[&[u8]]) {
        for (i, record) in records.iter().enumerate() {
            let [ax, ay, bx, by] = ends(record);
            let off = ax > map[0] * 8 || bx > map[0] * 8 || ay > map[1] * 8 || by > map[1] * 8;
            self.note(past, off, i as u128);
            if let Some(coincide) = coincide {
                self.note(coincide, ax == bx && ay == by, i as u128);
            }
        }
    }
}

/// True where the call takes a block of thresholds.
pub fn takes_block(call: u32) -> bool {
    call == REDUCE || call == BY_LIST
}

/// True if a block of thresholds is to be refused.
pub fn bad_block(block: &[u8]) -> bool {
    if block.len() != BLOCK {
        return true;
    }
    let word = |at: usize| field(block, at, 4);
    let [smallest, largest] = [word(8), word(12)];
    let sizes = GROUP_SIZES[0] <= smallest && smallest <= largest && largest <= GROUP_SIZES[1];
    let bits = |at: usize| field(block, at, 8);
    let lengths = [16, 24, 32, 40, 48].iter().all(|&at| bits(at) <= LARGEST_LENGTH_BITS);
    let header = word(0) == BLOCK_COUNT && word(4) == BLOCK_OFFSET;
    !(header && sizes && lengths && bits(56) <= LARGEST_COSINE_BITS)
}

/// Every fault of an input with its block, in order: 32 comes before all others.
pub fn all_faults(call: u32, job: &[u8], list: &[u8], block: &[u8]) -> Vec<Refusal> {
    let mut all = faults(call, job, list);
    if takes_block(call) && bad_block(block) {
        all.insert(0, (32, 0));
    }
    all
}

/// Every fault of a job and list, in order: the first is the refusal. Faults after the first are
/// those that can be read where the counts place the records.
pub fn faults(call: u32, job: &[u8], list: &[u8]) -> Vec<Refusal> {
    let mut faults = Faults::default();
    let word = |i: usize| number(job, 4 * i, 4);
    let over = |i: usize, most: u128| word(i).is_some_and(|count| count > most);
    let side = |i: usize| word(i).is_some_and(|side| !(1..=1024).contains(&side));

    faults.note(1, job.len() < HEADER, 0);
    faults.note(2, side(0) || side(1), 0);
    faults.note(3, over(2, 256) || over(4, 1024) || over(5, 4096), 0);
    faults.note(4, over(3, 256), word(3).unwrap_or(0));
    if job.len() >= HEADER {
        job_faults(call, job, &mut faults);
    }
    if call == BY_LIST {
        faults.note(14, list.len() % SPAN != 0, 0);
        faults.note(15, list.len() / SPAN > 256, (list.len() / SPAN) as u128);
        if let (Some(width), Some(height)) = (word(0), word(1)) {
            let spans: Vec<_> = list.chunks_exact(SPAN).collect();
            faults.note_ends(16, Some(17), [width, height], &spans);
        }
    }
    faults.0
}

/// The faults from 5 to 12, of a job that has a header.
fn job_faults(call: u32, job: &[u8], faults: &mut Faults) {
    let word = |i: usize| field(job, 4 * i, 4);
    let layout = Layout::new(word);

    let misplaced = (0..6).any(|i| word(6 + i) != layout.starts[i]);
    faults.note(5, misplaced || job.len() as u128 != layout.starts[5], 0);

    let cell = layout.section(job, 0).iter().position(|&cell| cell >= 32);
    faults.note(6, cell.is_some(), cell.unwrap_or(0) as u128);
    for (i, base) in layout.records(job, 1, BASE).iter().enumerate() {
        let (column, row) = (field(base, 4, 4), field(base, 8, 4));
        let none = column == NO_ANCHOR && row == NO_ANCHOR;
        faults.note(7, !none && (column >= word(0) || row >= word(1)), i as u128);
    }

    let boundaries = layout.records(job, 2, BOUNDARY);
    let observations = layout.records(job, 3, OBSERVATION);
    if boundaries.len() as u128 == word(3) && observations.len() as u128 == word(4) {
        let sum = |records: &[&[u8]], at: usize| -> u128 {
            records.iter().map(|record| field(record, at, 4)).sum()
        };
        let sources = sum(&boundaries, 24) + sum(&observations, 24);
        faults.note(8, sum(&boundaries, 28) != word(4) || sources != word(5), 0);
    }
    for (i, boundary) in boundaries.iter().enumerate() {
        let [end, lower, upper, zero] = [32, 33, 34, 35].map(|at| boundary[at]);
        let rest = lower != 0 || upper != 0 || field(boundary, 36, 4) != 0;
        faults.note(9, end > 2 || zero != 0 || end == 0 && rest, i as u128);
    }
    for (i, boundary) in boundaries.iter().enumerate() {
        faults.note(10, field(boundary, 16, 8) > LARGEST_WIDTH_BITS, i as u128);
    }
    let coincide = (call != BY_LIST).then_some(12);
    faults.note_ends(11, coincide, [word(0), word(1)], &boundaries);
}

/// The walkable cells of a job, as far as there are bytes where the sides place them.
pub fn walkable(job: &[u8]) -> usize {
    if job.len() < HEADER {
        return 0;
    }
    let layout = Layout::new(|i| field(job, 4 * i, 4));
    layout.section(job, 0).iter().filter(|&&cell| cell & 1 == 1).count()
}

/// The ends of span i: of the job's boundaries where `which` is 0, else of the list. Empty past
/// the last one; the caller has seen that the call's checks pass.
pub fn span_ends<'a>(job: &'a [u8], list: &'a [u8], which: u32, i: u32) -> &'a [u8] {
    let word = |i: usize| field(job, 4 * i, 4);
    let (bytes, start, size, count) = if which == 0 {
        (job, Layout::new(word).starts[2] as usize, BOUNDARY, word(3))
    } else {
        (list, 0, SPAN, (list.len() / SPAN) as u128)
    };
    if u128::from(i) < count {
        let at = start + size * i as usize;
        &bytes[at..at + 16]
    } else {
        &[]
    }
}

//! Bare lists of records given to `probe_marks`: the marks of 256 owners against their definition, and its refusals.

use crate::calls::{self, record_words};
use crate::checks::Refusal;
use crate::draft::Input;
use crate::expect::{self, Closing, Record};
use crate::lent::Lent;
use crate::marks::{self, Sides, OF_LISTS};
use crate::rng::Rng;
use crate::run::Run;
use crate::tally::Tally;
use crate::values::shuffled;
use oracle::api;

pub const OWNERS: usize = 256;
/// The most records of a list.
pub const MOST: usize = 4096;
const RECORD: usize = 12;
/// What work and marks hold before a call.
const DIRTY: [u8; 2] = [0x77, 0xA5];

/// The bytes of records, and the lengths of work and marks.
#[derive(Clone)]
pub struct List {
    pub records: Vec<u8>,
    pub work: usize,
    pub marks: usize,
}

impl List {
    /// A list on slices that are just long enough.
    pub fn of(records: &[Record]) -> Self {
        let regions = records.iter().map(|&[_, left, right]| left.max(right)).max().unwrap_or(0);
        Self { records: record_words(records), work: 4 * regions as usize, marks: OWNERS }
    }

    /// The records that the bytes have in whole.
    fn read(&self) -> Vec<Record> {
        let word =
            |at: usize| u32::from_le_bytes(self.records[at..at + 4].try_into().expect("four"));
        let whole = 0..self.records.len() / RECORD;
        whole.map(|i| [0, 4, 8].map(|field| word(RECORD * i + field))).collect()
    }

    /// The list as it is printed where it shows a difference.
    pub fn text(&self) -> String {
        let (work, marks) = (self.work, self.marks);
        format!(
            "{} bytes of records, {work} of work, {marks} marks: {:?}\n",
            self.records.len(),
            self.read()
        )
    }

    /// All that is to be refused of it, in the order of the tests.
    fn faults(&self) -> Vec<Refusal> {
        let (records, regions) = (self.read(), self.work / 4);
        let fits = |&[owner, left, right]: &Record| {
            let region = |region: u32| region >= 1 && region as usize <= regions;
            (owner as usize) < OWNERS && region(left) && region(right)
        };
        let unfit = records.iter().position(|record| !fits(record));
        let falls = records.windows(2).position(|pair| pair[1][0] < pair[0][0]);
        let tests = [
            (self.records.len() % RECORD != 0).then_some((1, 0)),
            (records.len() > MOST).then_some((2, records.len() as u64)),
            unfit.map(|place| (3, place as u64)),
            (self.marks < OWNERS).then_some((4, 0)),
            falls.map(|place| (5, place as u64 + 1)),
        ];
        tests.into_iter().flatten().collect()
    }
}

/// Lists of which it is known what is marked.
pub const FORETOLD: &str = "lists whose marks are foretold";

/// What a whole run must have seen of lists besides their marks.
const WANTED: [&str; 6] = [
    "lists of 64 records",
    "lists of 65 records",
    "lists of 4,096 records",
    "lists with a record of one region twice",
    "lists with records that have the lower region last",
    "lists of which work has bytes past the last word",
];

/// What should have been seen of lists and was not: of every refusal that it came, and came before each later one.
pub fn missing(tally: &Tally) -> Vec<String> {
    let mut missing = marks::missing(tally, &OF_LISTS);
    let refused = (1..=5).map(refused);
    let ordered =
        (1..=5).flat_map(|number| (number + 1..=5).map(move |later| before(number, later)));
    let wanted = WANTED.iter().map(|what| what.to_string()).chain(refused).chain(ordered);
    missing
        .extend(wanted.filter(|what| tally.count(what) == 0).map(|what| format!("never: {what}")));
    missing
}

fn refused(number: u32) -> String {
    format!("lists refused with {number}")
}

fn before(number: u32, later: u32) -> String {
    format!("lists refused with {number} before {later}")
}

pub fn compare(list: &List, lent: &mut Lent, tally: &mut Tally) -> Result<(), String> {
    let (records, faults) = (list.read(), list.faults());
    let [mut work, mut marks] = [vec![DIRTY[0]; list.work], vec![DIRTY[1]; list.marks]];
    let bytes = Input { job: list.records.clone(), ..Input::default() };
    let lent = lent.lend(&bytes, &work, &marks);
    let said = calls::marks(lent.job, lent.work, lent.out);
    if let Some(&refusal) = faults.first() {
        tally.see(&refused(refusal.0));
        faults[1..].iter().for_each(|later| tally.see(&before(refusal.0, later.0)));
        if said != refusal {
            return Err(format!("marks: expected {refusal:?}, got {said:?}, of {faults:?}"));
        }
        return lent.check("marks", &bytes, &work, Some(&marks));
    }
    let bridges = api::bridges_of(&records);
    let expected = expect::marks(&records, OWNERS);
    if said != (0, records.len() as u64) {
        return Err(format!("marks: expected (0, {}), got {said:?}", records.len()));
    }
    let closing = Closing { records, bridges };
    let meets = closing.meets(&lent.out[..OWNERS]);
    meets.map_err(|difference| format!("marks: {difference}"))?;
    work[..list.work / 4 * 4].fill(0);
    marks[..OWNERS].copy_from_slice(&expected);
    lent.check("marks", &bytes, &work, Some(&marks))?;
    marks::note(&closing, &expected, &OF_LISTS, tally);
    let records = &closing.records;
    let holds = [
        records.len() == 64,
        records.len() == 65,
        records.len() == MOST,
        records.iter().any(|&[_, left, right]| left == right),
        records.iter().any(|&[_, left, right]| left > right),
        list.work % 4 != 0,
    ];
    WANTED.iter().zip(holds).filter(|row| row.1).for_each(|row| tally.see(row.0));
    Ok(())
}

/// A list, at times damaged.
pub fn random(rng: &mut Rng) -> List {
    let count = match rng.below(400) {
        0 => MOST,
        1..=8 => rng.below(300),
        9..=24 => rng.pick(&[63, 64, 65]),
        25..=100 => rng.below(31),
        _ => rng.below(10),
    };
    let mut list = shaped(rng.below(SHAPES), count, rng);
    if rng.one_in(6) {
        damage(&mut list, rng);
    }
    list
}

/// The shapes of a list: of pairs of regions, and of corridors.
pub const SHAPES: usize = PAIRS + 3;
const PAIRS: usize = 9;

/// So many records of a shape, of corridors at most so many, with owners of some kind and regions numbered anyhow.
pub fn shaped(shape: usize, count: usize, rng: &mut Rng) -> List {
    let mut records = if shape < PAIRS {
        let mut pairs = pairs(shape, count, rng);
        if rng.one_in(4) {
            // Another graph beside, with the same owners.
            let (half, regions) = (count / 2, 2 * count as u32 + 2);
            pairs.truncate(count - half);
            let beside = self::pairs(rng.below(PAIRS), half, rng);
            pairs.extend(beside.iter().map(|pair| pair.map(|region| region + regions)));
        }
        owned(&pairs, rng)
    } else {
        corridors(shape, count, rng)
    };
    for record in &mut records {
        if rng.one_in(2) {
            record.swap(1, 2);
        }
    }
    if !records.is_empty() && rng.one_in(8) {
        let at = rng.below(records.len());
        records[at][2] = records[at][1];
    }
    let regions = renumber(&mut records, rng);
    let more = rng.pick(&[0, 0, 1, 2, 3]);
    let marks = OWNERS + rng.pick(&[0, 0, 0, 1, 5, 300]);
    List { records: record_words(&records), work: 4 * regions + more, marks }
}

/// Pairs of regions from 1 on: at random of few or of many, a path, a star, a cycle, a tree whose pairs are at times doubled,
/// cycles strung together, triangles in a row, and a path that now and then goes back.
fn pairs(shape: usize, count: usize, rng: &mut Rng) -> Vec<[u32; 2]> {
    let few = rng.within(2, (count as u32 / 2).max(3));
    let many = (2 * count as u32).max(2);
    let mut pairs: Vec<[u32; 2]> = Vec::new();
    for i in 0..count as u32 {
        let pair = match shape {
            0 => [rng.within(1, few), rng.within(1, few)],
            1 => [rng.within(1, many), rng.within(1, many)],
            2 => [i + 1, i + 2],
            3 => [1, i + 2],
            4 => [i + 1, (i + 1) % count as u32 + 1],
            5 => match pairs.last() {
                Some(&[left, right]) if rng.one_in(3) => [right, left],
                _ => [rng.within(1, i + 1), i + 2],
            },
            6 => [i + 1, if i % 6 == 5 { i - 3 } else { i + 2 }],
            7 => [2 * (i / 3) + 1 + u32::from(i % 3 == 2), 2 * (i / 3) + 2 + u32::from(i % 3 > 0)],
            _ => [i + 1, if rng.one_in(5) { rng.within(1, i + 2) } else { i + 2 }],
        };
        pairs.push(pair);
    }
    pairs
}

/// The pairs with owners, in the order of these: each its own, one for all, few, any, or one for some that follow one another.
fn owned(pairs: &[[u32; 2]], rng: &mut Rng) -> Vec<Record> {
    let kind = rng.below(7);
    let mut owner = 0;
    let few = rng.within(2, 5) as usize;
    let owners: Vec<usize> = (0..pairs.len())
        .map(|i| match kind {
            0 | 1 if pairs.len() <= OWNERS => i,
            // Each its own but one, which is the one before's.
            2 if pairs.len() <= OWNERS => i - usize::from(i > pairs.len() / 2),
            3 => 0,
            4 => rng.below(few),
            5 => rng.below(OWNERS),
            _ => {
                owner += usize::from(rng.one_in(few));
                owner % OWNERS
            }
        })
        .collect();
    // Which of the 256 they are.
    let count = owners.iter().max().map_or(0, |most| most + 1);
    let mut names = shuffled((0..OWNERS as u32).collect(), rng);
    names.truncate(count);
    if rng.one_in(2) {
        names.sort_unstable();
    }
    let records = owners.iter().zip(pairs).map(|(&i, &[left, right])| [names[i], left, right]);
    let mut records = shuffled(records.collect(), rng);
    records.sort_by_key(|record| record[0]);
    records
}

/// Corridors that each owner's span goes across: apart, joined at both ends, or joined with one more that no span cuts.
fn corridors(shape: usize, count: usize, rng: &mut Rng) -> Vec<Record> {
    let corridors = if count == MOST { 16 } else { rng.within(1, 5) };
    let spans = (count as u32 / corridors).min(OWNERS as u32);
    let first = rng.within(0, OWNERS as u32 - spans);
    let sides = [Sides::Apart, Sides::Joined, Sides::WithUncut][shape - PAIRS];
    let mut records = across(corridors, spans, sides);
    records.iter_mut().for_each(|record| record[0] += first);
    if rng.one_in(4) {
        // Some of them are cut once less.
        records.retain(|_| !rng.one_in(10));
    }
    records
}

/// So many corridors and spans, with a record for each of both.
fn across(corridors: u32, spans: u32, sides: Sides) -> Vec<Record> {
    let region = |corridor: u32, piece: u32| match sides {
        Sides::Joined if piece == spans => 2,
        Sides::Joined if piece == 0 => 1,
        Sides::WithUncut if piece == 0 || piece == spans => 1,
        _ => 3 + corridor * (spans + 1) + piece,
    };
    let record = |span, corridor| [span, region(corridor, span), region(corridor, span + 1)];
    (0..spans).flat_map(|span| (0..corridors).map(move |corridor| record(span, corridor))).collect()
}

/// 4,096 regions joined by twos, these again by twos, and so on; the last record is of the two that are then deepest where of two
/// parts either one goes under the other.
fn doubling() -> Vec<Record> {
    let steps = (0..12).map(|i| 1 << i);
    let pairs = steps.flat_map(|step| (1..4096).step_by(2 * step).map(move |at| [at, at + step]));
    let pairs: Vec<_> = pairs.chain([[1, 4096]]).collect();
    let record = |(i, &[left, right]): (usize, &[usize; 2])| {
        [(i * (OWNERS - 1) / (MOST - 1)) as u32, left as u32, right as u32]
    };
    pairs.iter().enumerate().map(record).collect()
}

/// Corridors of which it is known what is marked, cases 5 to 8 of the paper's table, and the deepest joins.
pub fn worked(run: &mut Run) {
    for (corridors, spans) in [(2, 2), (3, 5), (4, 16), (5, 13), (16, 255), (16, 256)] {
        for (sides, bridge, mark) in
            [(Sides::Apart, 1, 1), (Sides::Joined, 0, 1), (Sides::WithUncut, 0, 0)]
        {
            let (records, count) = (across(corridors, spans, sides), spans as usize);
            let bridges: Vec<usize> = (0..bridge * count).collect();
            foretold(run, &records, &vec![mark; count], &bridges);
        }
    }
    for (records, marks, bridges) in CASES {
        foretold(run, records, marks, bridges);
    }
    run.next_case();
    run.marks(&List::of(&doubling()));
}

/// A list whose marks and bridges are known.
fn foretold(run: &mut Run, records: &[Record], marks: &[u8], bridges: &[usize]) {
    run.next_case();
    let stated = expect::marks(records, marks.len());
    if stated != marks || api::bridges_of(records).iter().ne(bridges) {
        run.report("marks or bridges are not as foretold", &List::of(records).text());
    }
    run.tally.see(FORETOLD);
    run.marks(&List::of(records));
}

/// Cases 5 to 8: records, marks, bridges.
const CASES: [(&[Record], &[u8], &[usize]); 4] = [
    (&[[0, 1, 2], [1, 2, 3]], &[1, 1], &[0, 1]),
    (&[[0, 1, 2], [1, 2, 3], [2, 1, 3]], &[0, 0, 0], &[]),
    (&[[0, 1, 2], [1, 1, 2]], &[0, 0], &[]),
    (&[[0, 1, 2], [0, 2, 3], [0, 1, 3]], &[1], &[]),
];

/// Gives the regions other numbers, now and then, and says how many regions work has a word for.
fn renumber(records: &mut [Record], rng: &mut Rng) -> usize {
    let most = records.iter().map(|&[_, left, right]| left.max(right)).max().unwrap_or(0);
    let (numbers, most) = match rng.below(6) {
        0 => (shuffled((1..=most).collect(), rng), most),
        // Any of many more, some of them over 2^16.
        1 if rng.one_in(8) => {
            let gap = rng.pick(&[3, 300, 65_536 / most.max(1) + 1]).min(2_000_000 / most.max(1));
            let numbers = (1..=most).map(|region| gap * (region - 1) + rng.within(1, gap));
            (shuffled(numbers.collect(), rng), gap * most)
        }
        _ => ((1..=most).collect(), most),
    };
    for record in records {
        record[1..].iter_mut().for_each(|region| *region = numbers[*region as usize - 1]);
    }
    (most + rng.pick(&[0, 0, 1, 7])) as usize
}

/// One to three kinds of damage.
fn damage(list: &mut List, rng: &mut Rng) {
    for _ in 0..rng.pick(&[1, 1, 2, 2, 3]) {
        let number = if rng.one_in(40) { 2 } else { rng.pick(&[1, 3, 3, 4, 5, 5]) };
        spoil(list, number, rng);
    }
}

/// Makes the list one that has this refusal; none where it has too few records for that.
fn spoil(list: &mut List, number: u32, rng: &mut Rng) {
    let mut records = list.read();
    let tail = list.records[RECORD * records.len()..].to_vec();
    let regions = list.work as u32 / 4;
    match number {
        1 => return list.records.extend(vec![0; 1 + rng.below(RECORD - 1)]),
        2 => {
            let last = records.last().copied().unwrap_or([0, 1, 1]);
            records.resize(MOST + rng.pick(&[1, 1, 2, 904]), last);
        }
        3 if records.is_empty() => {}
        3 if rng.one_in(6) => {
            // Less work than the last region needs.
            let fitting = records.iter().flat_map(|record| &record[1..]).filter(|&&r| r <= regions);
            let last = fitting.max().map_or(0, |&region| region as usize);
            list.work = (4 * last).saturating_sub(rng.pick(&[1, 4]));
        }
        3 => {
            let at = rng.below(records.len());
            let past = [(0, 256), (1, regions + 1), (2, regions + 1), (1, 0), (2, 0)];
            let (field, value) = rng.pick(&past);
            records[at][field] = if rng.one_in(5) { u32::MAX } else { value };
        }
        4 => list.marks = rng.pick(&[0, 1, 255, 255]),
        _ if records.len() < 2 => {}
        _ => {
            let at = 1 + rng.below(records.len() - 1);
            if records[at - 1][0] == 0 {
                records[at - 1][0] = rng.within(1, OWNERS as u32 - 1);
            }
            records[at][0] = rng.below(records[at - 1][0] as usize) as u32;
        }
    }
    list.records = [record_words(&records), tail].concat();
}

/// Every refusal with every choice of later ones.
pub fn refusals(run: &mut Run) {
    for choice in 1..1 << 5 {
        let mut rng = run.next_case();
        let chosen: Vec<u32> = (1..=5).filter(|number| choice >> (number - 1) & 1 == 1).collect();
        let mut list = List::of(&[]);
        // A record that doesn't fit may hide that its owner falls: then another one is drawn.
        while list.faults().iter().map(|fault| fault.0).ne(chosen.iter().copied()) {
            list = List::of(&across(3, 4, Sides::Joined));
            chosen.iter().rev().for_each(|&number| spoil(&mut list, number, &mut rng));
        }
        run.marks(&list);
    }
}

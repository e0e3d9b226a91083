//! Marks: on maps whose boundaries have 16 region pairs each and on maps whose boundaries have one, and of bare lists of records.
//!
//! The Rust has no marks: beside them stands the time of its bridges, which on the same map are its partition and its walk. The plain way
//! to marks is here to be timed with the library, and to be held to it: for each boundary the records of all others joined afresh.

use crate::across::Across;
use crate::checks::MARK;
use crate::draft::{Boundary, Draft, Input};
use crate::rng::Rng;
use crate::{agree, by_rust, calls, grow, least, rust, Lent, ROUNDS};
use oracle::api::{self, SpanPartition};
use std::hint::black_box;

/// A record: owner, left region, right region.
type Record = [u32; 3];

const OWNERS: u32 = 256;
/// Records of an owner, and of all.
const EACH: u32 = 16;
const RECORDS: u32 = OWNERS * EACH;
/// The most regions that so many records have.
const REGIONS: u32 = 2 * RECORDS;

/// Mark of an older library, where bench/run was given one.
#[cfg(older)]
mod older {
    use crate::checks::Refusal;

    #[repr(C)]
    struct CallResult {
        number: u32,
        detail: u64,
    }

    #[link(name = "older")]
    extern "C" {
        fn older_mark(
            job: *const u8,
            job_len: usize,
            work: *mut u8,
            work_len: usize,
            marks: *mut u8,
            marks_len: usize,
        ) -> CallResult;
    }

    pub fn mark(job: &[u8], work: &mut [u8], marks: &mut [u8]) -> Refusal {
        let (w, m) = (work.as_mut_ptr(), marks.as_mut_ptr());
        // Each slice is passed as its start and length, and they overlap nowhere.
        let said = unsafe { older_mark(job.as_ptr(), job.len(), w, work.len(), m, marks.len()) };
        (said.number, said.detail)
    }
}

/// The time of Mark of the older library; of none it is infinite.
#[cfg(older)]
fn by_older(lent: &mut Lent) -> f64 {
    let Lent { input, work, out } = lent;
    let spans = rust::own_spans(&input.job).len() as u64;
    assert!(older::mark(&input.job, work, out) == (0, spans), "the older library takes the job");
    least(|| {
        black_box(older::mark(&input.job, work, out));
    })
}

#[cfg(not(older))]
fn by_older(_: &mut Lent) -> f64 {
    f64::INFINITY
}

/// The records of a partition, by boundary.
pub fn records(partition: &SpanPartition) -> Vec<Record> {
    let spans = (0..).zip(partition.boundaries());
    spans
        .flat_map(|(i, span)| span.region_pairs.iter().map(move |pair| [i, pair[0], pair[1]]))
        .collect()
}

/// Regions joined so far, each with a parent.
struct Joined(Vec<u32>);

impl Joined {
    fn root(&mut self, mut region: u32) -> u32 {
        while self.0[region as usize] != region {
            let above = self.0[region as usize];
            self.0[region as usize] = self.0[above as usize];
            region = above;
        }
        region
    }
}

/// Marks by the plain way: the records of all other boundaries joined afresh, and 1 where one of its own is then parted. The list is
/// by owner, and each region at most `regions`.
pub fn afresh(records: &[Record], owners: usize, regions: u32) -> Vec<u8> {
    let mut joined = Joined(vec![]);
    let mut mark = |owner: u32| {
        let own = records.partition_point(|record| record[0] < owner)
            ..records.partition_point(|record| record[0] <= owner);
        joined.0.clear();
        joined.0.extend(0..=regions);
        for &[_, left, right] in records[..own.start].iter().chain(&records[own.end..]) {
            let [left, right] = [joined.root(left), joined.root(right)];
            joined.0[left as usize] = right;
        }
        records[own].iter().any(|&[_, left, right]| joined.root(left) != joined.root(right))
    };
    (0..owners as u32).map(|owner| mark(owner).into()).collect()
}

/// The marks of a job by the plain way, from the Rust's region pairs.
pub fn marks_of(input: &Input) -> Vec<u8> {
    let job = rust::job(&input.job);
    let spans = job.own_spans();
    let records = records(&job.partition(&spans));
    let regions = records.iter().map(|record| record[1].max(record[2])).max().unwrap_or(0);
    afresh(&records, spans.len(), regions)
}

/// A time, or that there is none.
fn time(time: f64) -> String {
    if time.is_finite() {
        format!("{time:.3}")
    } else {
        "not run".to_string()
    }
}

fn ratio(time: f64, to: f64) -> String {
    if to.is_finite() {
        format!("{:.2}", time / to)
    } else {
        "".to_string()
    }
}

/// Times by which the same work was done, the least of some turns.
fn in_turn<const N: usize>(rounds: usize, mut runs: [&mut dyn FnMut() -> f64; N]) -> [f64; N] {
    let mut times = [f64::INFINITY; N];
    for _ in 0..rounds {
        for (time, run) in times.iter_mut().zip(&mut runs) {
            *time = time.min(run());
        }
    }
    times
}

/// 16 corridors crossed by 256 boundaries: 4,096 region pairs, 16 of each boundary.
pub fn crossed(joined: bool, uncut: bool) -> Draft {
    let across = Across { corridors: EACH, spans: OWNERS, joined, uncut };
    let [width, height] = across.sides();
    let bits = 8.0_f64.to_bits();
    let boundaries =
        across.ends().into_iter().map(|ends| Boundary { ends, bits, ..Boundary::default() });
    let list = across.ends();
    Draft {
        width,
        height,
        cells: across.cells(),
        boundaries: boundaries.collect(),
        list,
        ..Draft::default()
    }
}

/// The three maps of `crossed`, with their bridges and marks: 256 or none.
pub fn crossings() -> [(&'static str, Draft, [usize; 2]); 3] {
    [
        ("16 corridors, each span across all", crossed(false, false), [256, 256]),
        ("the same, corridors joined at both ends", crossed(true, false), [0, 256]),
        ("joined, and one more corridor that no span cuts", crossed(true, true), [0, 0]),
    ]
}

/// Mark on a map, with the Rust's partition and bridges, and Mark of the older library.
fn on_map(what: &str, draft: &Draft, rounds: usize, seen: [usize; 2], each: usize) {
    let mut lent = Lent::new(draft);
    agree(MARK, what, &mut lent);
    let input = lent.input.clone();
    let bridges = by_rust(MARK, &input).iter().filter(|&&mark| mark == 1).count();
    let marks = marks_of(&input).iter().filter(|&&mark| mark == 1).count();
    assert_eq!([bridges, marks], seen, "bridges and marks of {what}");
    let job = rust::job(&input.job);
    let partition = job.partition(&job.own_spans());
    let pairs = || partition.boundaries().iter().map(|span| span.region_pairs.len());
    assert!(pairs().all(|pairs| pairs == each), "region pairs of a boundary of {what}");
    let mut older = Lent::new(draft);
    let [rust, older, library] = in_turn(
        rounds,
        [
            &mut || least(|| drop(black_box(by_rust(MARK, &input)))),
            &mut || by_older(&mut older),
            &mut || {
                least(|| {
                    black_box(lent.call(MARK));
                })
            },
        ],
    );
    println!(
        "| {what} | {bridges} | {marks} | {rust:.3} | {} | {library:.3} | {} | {} |",
        time(older),
        ratio(library, rust),
        ratio(library, older)
    );
}

fn head(title: &str) {
    let columns = [
        "bridges",
        "marks",
        "Rust, its bridges, ms",
        "older library, its bridges, ms",
        "library, ms",
        "to the Rust",
        "to the older",
    ];
    println!("\n| {title} | {} |\n|---|{}", columns.join(" | "), "--:|".repeat(columns.len()));
}

/// Lists of 4,096 records, 16 of each owner, by owner.
fn lists() -> Vec<(&'static str, Vec<Record>)> {
    let mut rng = Rng::new(5);
    let owned = |pair: &mut dyn FnMut(u32) -> [u32; 2]| -> Vec<Record> {
        (0..RECORDS)
            .map(|i| (i / EACH, pair(i)))
            .map(|(owner, [left, right])| [owner, left, right])
            .collect()
    };
    let mut random = |regions: u32| owned(&mut |_| random_pair(regions, &mut rng));
    let mut shuffled: Vec<u32> = (1..=RECORDS).collect();
    let mut shuffle = Rng::new(7);
    for i in (1..shuffled.len()).rev() {
        shuffled.swap(i, shuffle.below(i + 1));
    }
    let mut lists = vec![
        ("random pairs of 8,192 regions", random(REGIONS)),
        ("random pairs of 4,096 regions", random(RECORDS)),
        ("random pairs of 2,048 regions", random(2048)),
        ("random pairs of 512 regions", random(512)),
        ("one path, a boundary's records in a row", owned(&mut |i| [i + 1, i + 2])),
        (
            "one path, a boundary's records 256 apart",
            owned(&mut |i| {
                let at = i / EACH + OWNERS * (i % EACH);
                [at + 1, at + 2]
            }),
        ),
        (
            "one path, its records in random order",
            owned(&mut |i| [shuffled[i as usize], shuffled[i as usize] + 1]),
        ),
        ("one cycle", owned(&mut |i| [i + 1, (i + 1) % RECORDS + 1])),
        ("a star", owned(&mut |i| [1, i + 2])),
        ("the deepest leaves of joined trees", owned(&mut deep_leaves())),
    ];
    for (what, draft, _) in crossings() {
        let job = rust::job(&draft.input().job);
        lists.push((what, records(&job.partition(&job.own_spans()))));
    }
    lists
}

/// The second half of the records joins 2,048 regions pair by pair, trees of one height each time, by the deepest region of each, of
/// which the right tree comes to lie below the left; the first half asks again and again for the deepest ones.
fn deep_leaves() -> impl FnMut(u32) -> [u32; 2] {
    let (half, digits) = (RECORDS / 2, 11);
    let mut joins = vec![];
    for height in 0..digits {
        let size = 1 << height;
        joins.extend((0..half).step_by(2 * size as usize).map(|at| [at + size, at + 2 * size]));
    }
    joins.push([half - 1, half]);
    move |i| match i.checked_sub(half) {
        Some(i) => joins[i as usize],
        // The last region has a way of 11 up to its root, those that lack one binary digit of it a way of 10.
        None => [half - (1 << (i % digits)), half],
    }
}

/// Bridges and marks of bare lists.
fn bare() {
    list_head("4,096 records, 16 of each of 256 boundaries");
    for (what, records) in lists() {
        assert_eq!(records.len(), RECORDS as usize, "records of {what}");
        list(what, &records);
    }
    list_head("256 records, one of each of 256 boundaries");
    let mut rng = Rng::new(6);
    let mut of_each = |what: &str, pair: &dyn Fn(u32, &mut Rng) -> [u32; 2]| {
        let records = (0..OWNERS).map(|i| (i, pair(i, &mut rng)));
        list(what, &records.map(|(i, [left, right])| [i, left, right]).collect::<Vec<_>>());
    };
    of_each("one path", &|i, _| [i + 1, i + 2]);
    of_each("one cycle", &|i, _| [i + 1, (i + 1) % OWNERS + 1]);
    of_each("random pairs of 512 regions", &|_, rng| random_pair(2 * OWNERS, rng));
}

fn random_pair(regions: u32, rng: &mut Rng) -> [u32; 2] {
    let left = rng.within(1, regions - 1);
    [left, rng.within(left + 1, regions)]
}

fn list_head(title: &str) {
    let columns = [
        "bridges",
        "marks",
        "Rust's walk for bridges, ms",
        "all others joined afresh, ms",
        "library, bridges, ms",
        "library, marks, ms",
        "marks to afresh",
        "marks to the Rust's walk",
    ];
    println!("\n| {title} | {} |\n|---|{}", columns.join(" | "), "--:|".repeat(columns.len()));
}

/// A list, held to the Rust's walk and to the plain way, and the times of all four.
fn list(what: &str, records: &[Record]) {
    let owners = OWNERS as usize;
    let bytes = calls::record_words(records);
    let regions = records.iter().map(|record| record[1].max(record[2])).max().expect("records");
    let plain = || afresh(black_box(records), owners, regions);
    let mut work = vec![0; 4 * regions as usize];
    let mut found = [vec![7; owners], vec![7; owners]];
    let said = [
        calls::bridges(&bytes, &mut work, &mut found[0]),
        calls::marks(&bytes, &mut work, &mut found[1]),
    ];
    assert_eq!(said.map(|said| said.0), [0, 0], "refusals of {what}");
    let walked = api::bridges_of(records);
    let bridges: Vec<u8> = (0..owners).map(|i| walked.contains(&i).into()).collect();
    assert!(found == [bridges, plain()], "bridges and marks of {what}");
    let [bridges, marks] = found.map(|found| found.iter().filter(|&&mark| mark == 1).count());
    let lent = || (vec![0; 4 * regions as usize], vec![0; owners]);
    let (mut one, mut two) = (lent(), lent());
    let [rust, plain, walk, closing] = in_turn(
        ROUNDS,
        [
            &mut || least(|| drop(black_box(api::bridges_of(black_box(records))))),
            &mut || least(|| drop(black_box(plain()))),
            &mut || {
                least(|| {
                    black_box(calls::bridges(&bytes, &mut one.0, &mut one.1));
                })
            },
            &mut || {
                least(|| {
                    black_box(calls::marks(&bytes, &mut two.0, &mut two.1));
                })
            },
        ],
    );
    println!(
        "| {what} | {bridges} | {marks} | {rust:.3} | {plain:.3} | {walk:.3} | {closing:.3} | {} | {} |",
        ratio(closing, plain),
        ratio(closing, rust)
    );
}

pub fn rows() {
    head("Mark, 256 boundaries of 16 region pairs each");
    for (what, draft, seen) in crossings() {
        let what = format!("{} × {}, {what}", draft.width, draft.height);
        on_map(&what, &draft, ROUNDS, seen, EACH as usize);
    }
    head("Mark, 256 boundaries of one region pair each");
    let all = OWNERS as usize;
    for (what, draft) in [
        ("1,024 × 6, one corridor", crate::one_chain()),
        ("256 × 256, 16 corridors, 16 spans each", crate::chains()),
        ("256 × 256, 32 corridors, 8 spans each", grow::corridors(OWNERS)),
        ("1,024 × 1,024, 128 corridors", crate::bands()),
    ] {
        on_map(what, &draft, 4 * ROUNDS, [all, all], 1);
    }
    bare();
}

//! Times the proved library and the real Rust on the same inputs, and measures the library's stack.
//!
//!     bench [quick | grow | own | stack | chains | marks]
//!
//! `quick` leaves out the largest maps, and `grow` all but the families that grow, which are also
//! plotted to docs/benchmark.svg; `own` is the rows of own sources alone, `stack` the stack, `chains` the rows of long chains, `marks`
//! those of marks.
//! The Rust has its eight numbers as constants, and the library is lent a block of just those (`DECLARED`), which every draft
//! has. Built with the numbers of 000 the program times all rows, built with a larger group those of long chains alone (bench/run).
//! Times are in milliseconds, the least of several runs. Of a whole call the Rust's time begins with
//! the job's bytes and ends with the answer's, as the library's does; of a partition it is that of
//! `partition_by_spans` alone, where the library checks the job besides; of area cards that of
//! `partition_by_spans` and `PartitionContext::new`, where the library checks the job and writes bytes.

#[path = "../tests/driver/record/across.rs"]
#[allow(dead_code)]
mod across;
#[path = "../tests/driver/calls.rs"]
#[allow(dead_code, unused_imports)]
mod calls;
#[path = "../tests/driver/checks.rs"]
#[allow(dead_code)]
mod checks;
#[path = "../tests/driver/draft.rs"]
#[allow(dead_code)]
mod draft;
mod grow;
#[path = "../tests/driver/heads.rs"]
#[allow(dead_code)]
mod heads;
#[path = "../tests/driver/maps.rs"]
#[allow(dead_code)]
mod maps;
mod marks;
#[path = "../tests/driver/orders.rs"]
#[allow(dead_code)]
mod orders;
mod own;
mod plot;
#[path = "../tests/driver/rng.rs"]
#[allow(dead_code)]
mod rng;
#[path = "../tests/driver/rust.rs"]
#[allow(dead_code)]
mod rust;
#[path = "../tests/driver/splits.rs"]
#[allow(dead_code)]
mod splits;
mod stack;
#[path = "../tests/driver/thresholds.rs"]
#[allow(dead_code)]
mod thresholds;

use checks::{Refusal, BY_LIST, CALLS, CARDS, MARK, REDUCE};
use draft::{Boundary, Draft, Input};
use maps::Shape;
use oracle::api::{self, Context};
use oracle::thresholds::Thresholds;
use rng::Rng;
use std::hint::black_box;
use std::time::{Duration, Instant};

const NAMES: [&str; 4] = ["Reduce", "Reduce by list", "Mark", "Area cards"];
/// The numbers that stand in the Rust.
const DECLARED: Thresholds = Thresholds::DECLARED;
/// The largest group of 000.
const LARGEST_OF_000: usize = 4;
/// The largest answer of any job.
const ANSWER: usize = 1 << 18;
/// Bytes of work for each cell, and of a card.
const WORK: usize = 10;
const CARD: usize = 40;
/// How often the two sides take turns.
const ROUNDS: usize = 5;

/// The least time of some runs: at least three, more while they are short.
fn least(mut run: impl FnMut()) -> f64 {
    let start = Instant::now();
    let (mut least, mut runs) = (f64::INFINITY, 0);
    while runs < 2 || runs < 1000 && start.elapsed() < Duration::from_millis(60) {
        let once = Instant::now();
        run();
        least = least.min(once.elapsed().as_secs_f64() * 1e3);
        runs += 1;
    }
    least
}

/// A row of the table: what was run, the Rust's time, the library's, and their ratio.
fn row(what: &str, rust: f64, library: f64) {
    println!("| {what} | {rust:.3} | {library:.3} | {:.2} |", library / rust);
}

fn head(title: &str) {
    println!("\n| {title} | Rust, ms | library, ms | ratio |\n|---|--:|--:|--:|");
}

/// The slices of a call, lent again and again.
struct Lent {
    input: Input,
    work: Vec<u8>,
    out: Vec<u8>,
}

impl Lent {
    fn new(draft: &Draft) -> Self {
        let work = vec![0; WORK * (draft.width * draft.height) as usize];
        Self { input: draft.input(), work, out: vec![0; ANSWER] }
    }

    fn call(&mut self, call: u32) -> Refusal {
        let Input { job, list, thresholds } = &self.input;
        calls::whole(call)(job, list, thresholds, &mut self.work, &mut self.out)
    }
}

/// A map of a shape with boundaries across it, and as many sources.
fn job(side: u32, shape: Shape, boundaries: usize, sources: usize) -> Draft {
    let mut rng = Rng::of_case(7, u64::from(side) << 32 | (boundaries * 5000 + sources) as u64);
    let mut draft = maps::with_spans([side, side], shape, 0, &mut rng);
    draft.boundaries = (0..boundaries)
        .map(|i| {
            // Across the map near a diagonal line, each 24 pixels long.
            let at = 8 + (i as u32 * 8 * (side - 4) / boundaries as u32);
            let ends = [at, at, at + rng.within(0, 3), at + 24];
            Boundary { ends, bits: 24.0_f64.to_bits(), ..Boundary::default() }
        })
        .collect();
    draft.share(sources.min(1024) / 4, sources, &mut rng);
    draft.list = draft.boundaries.iter().map(|boundary| boundary.ends).collect();
    draft
}

/// Spans from edge to edge of the map, so that each cuts much.
fn across(side: u32, shape: Shape, spans: usize) -> Draft {
    let mut rng = Rng::of_case(11, u64::from(side) + spans as u64);
    let mut draft = maps::with_spans([side, side], shape, 0, &mut rng);
    let most = 8 * side;
    draft.boundaries = (0..spans)
        .map(|i| {
            let at = most * (i as u32 / 2 + 1) / (spans as u32 / 2 + 1);
            let ends = if i % 2 == 0 { [at, 0, at, most / 16] } else { [0, at, most / 16, at] };
            Boundary { ends, bits: 8.0_f64.to_bits(), ..Boundary::default() }
        })
        .collect();
    draft
}

/// Bands of walkable cells: in 34 of them four boundaries follow one another, in 26 two, and in the
/// others one: 256 boundaries, of which 128 regions make links, on a map of 1,024 cells a side.
fn bands() -> Draft {
    let (side, mut rng) = (1024, Rng::new(13));
    let mut draft = maps::with_spans([side, side], Shape::Open, 0, &mut rng);
    for (cell, i) in draft.cells.iter_mut().zip(0..) {
        *cell = u8::from(i / side % 8 < 6);
    }
    let mut columns = vec![];
    for band in 0..128 {
        let count = match band {
            0..34 => 4,
            34..60 => 2,
            _ => 1,
        };
        columns.extend((0..count).map(|i| (band, 800 + 96 * i)));
    }
    draft.boundaries = columns
        .into_iter()
        .map(|(band, x)| {
            let ends = [x, 64 * band, x, 64 * band + 48];
            Boundary { ends, bits: 48.0_f64.to_bits(), ..Boundary::default() }
        })
        .collect();
    draft.boundaries.truncate(256);
    draft.list = draft.boundaries.iter().map(|boundary| boundary.ends).collect();
    draft
}

/// 16 corridors of six rows on a map of 256 cells a side, each crossed by 16 boundaries that follow one another: with a largest
/// group of 16 every chain is merged.
fn chains() -> Draft {
    let (side, mut rng) = (256, Rng::new(37));
    let mut draft = maps::with_spans([side, side], Shape::Open, 0, &mut rng);
    for (cell, i) in draft.cells.iter_mut().zip(0..) {
        *cell = u8::from(i / side % 16 < 6);
    }
    draft.bases.clear();
    let places = (0..16).flat_map(|band| (0..16).map(move |i| (band, 200 + 96 * i)));
    draft.boundaries = places.map(|(band, x)| across_band(x, 128 * band)).collect();
    draft.list = draft.boundaries.iter().map(|boundary| boundary.ends).collect();
    draft
}

/// One corridor of six rows, crossed by 256 boundaries that follow one another: too many for any group.
fn one_chain() -> Draft {
    let mut draft = maps::with_spans([1024, 6], Shape::Open, 0, &mut Rng::new(41));
    draft.cells.fill(1);
    draft.bases.clear();
    draft.boundaries = (0..256).map(|i| across_band(16 + 32 * i, 0)).collect();
    draft.list = draft.boundaries.iter().map(|boundary| boundary.ends).collect();
    draft
}

/// A boundary across a corridor of six rows.
fn across_band(x: u32, y: u32) -> Boundary {
    Boundary { ends: [x, y, x, y + 48], bits: 48.0_f64.to_bits(), ..Boundary::default() }
}

/// Partition, links and groups; and what the library's plan takes beyond its partition, against what
/// the Rust takes after its own, which merges besides. The two are run in turn.
fn plans(what: &str, draft: &Draft) {
    let mut lent = Lent::new(draft);
    let ready = rust::job(&lent.input.job);
    let spans = ready.own_spans();
    let partition = ready.partition(&spans);
    let rust = least(|| drop(black_box(ready.kept(black_box(&ready.partition(&spans))))));
    let merging = least(|| drop(black_box(ready.kept(black_box(&partition)))));
    let Lent { input, work, out } = &mut lent;
    let (mut whole, mut first) = (f64::INFINITY, f64::INFINITY);
    for _ in 0..20 {
        whole = whole.min(least(|| {
            black_box(calls::plan(&input.job, &input.list, REDUCE, work, out));
        }));
        first = first.min(least(|| {
            black_box(calls::partition(&input.job, work, out));
        }));
    }
    row(&format!("partition, links and groups, {what}"), rust, whole);
    row(&format!("links and groups alone, {what}"), merging, whole - first);
}

/// The partition by itself.
fn partition(what: &str, draft: &Draft) {
    let mut lent = Lent::new(draft);
    let ready = rust::job(&lent.input.job);
    let spans = ready.own_spans();
    let rust = least(|| drop(black_box(ready.partition(black_box(&spans)))));
    let library = least(|| {
        black_box(calls::partition(&lent.input.job, &mut lent.work, &mut lent.out));
    });
    row(what, rust, library);
}

/// Area cards, the two sides in turn.
fn cards(what: &str, draft: &Draft) {
    let mut lent = Lent::new(draft);
    let expected = by_rust(CARDS, &lent.input);
    lent.out.resize(expected.len(), 0);
    assert!(lent.call(CARDS) == (0, expected.len() as u64), "the cards of {what} are written");
    assert!(lent.out == expected, "the two sides agree on {what}");
    let ready = rust::job(&lent.input.job);
    let spans = ready.own_spans();
    let (mut rust, mut library) = (f64::INFINITY, f64::INFINITY);
    for _ in 0..ROUNDS {
        rust = rust.min(least(|| {
            let partition = ready.partition(black_box(&spans));
            drop(black_box(Context::new(&ready.grid, &partition, &ready.bases)));
        }));
        library = library.min(least(|| {
            black_box(lent.call(CARDS));
        }));
    }
    let areas = expected.len() / CARD;
    row(&format!("{what}, areas: {areas}"), rust, library);
}

/// That a call succeeds with what the Rust makes of the job, or, of Mark, with the marks that its region pairs give.
fn agree(call: u32, what: &str, lent: &mut Lent) {
    let expected =
        if call == MARK { marks::marks_of(&lent.input) } else { by_rust(call, &lent.input) };
    let length = expected.len();
    let after = lent.out[length..].to_vec();
    assert!(lent.call(call) == (0, length as u64), "the two sides agree on {what}");
    assert!(lent.out[..length] == expected, "the two sides write the same of {what}");
    assert!(lent.out[length..] == after, "nothing else is written of {what}");
}

/// The times of Reduce on some jobs, of which each run takes the next; the two sides in turn.
fn timed_in_turn(what: &str, lent: &mut [Lent]) -> (f64, f64) {
    lent.iter_mut().for_each(|lent| agree(REDUCE, what, lent));
    let (mut rust, mut library) = (f64::INFINITY, f64::INFINITY);
    let (count, mut turns) = (lent.len(), [0, 0]);
    for _ in 0..ROUNDS {
        rust = rust.min(least(|| {
            turns[0] += 1;
            drop(black_box(by_rust(REDUCE, &lent[turns[0] % count].input)));
        }));
        library = library.min(least(|| {
            turns[1] += 1;
            black_box(lent[turns[1] % count].call(REDUCE));
        }));
    }
    (rust, library)
}

/// The times of a whole call from bytes to bytes, the two sides in turn.
fn timed(call: u32, what: &str, lent: &mut Lent) -> (f64, f64) {
    agree(call, what, lent);
    let (mut rust, mut library) = (f64::INFINITY, f64::INFINITY);
    for _ in 0..ROUNDS {
        rust = rust.min(least(|| drop(black_box(by_rust(call, &lent.input)))));
        library = library.min(least(|| {
            black_box(lent.call(call));
        }));
    }
    (rust, library)
}

fn whole(call: u32, what: &str, draft: &Draft) {
    let (rust, library) = timed(call, what, &mut Lent::new(draft));
    row(&format!("{}, {what}", NAMES[call as usize]), rust, library);
}

/// Where a call's time goes: the checks, the partition with its region pairs, and the marks, or of the Rust the bridges.
fn parts(what: &str, draft: &Draft) {
    let mut lent = Lent::new(draft);
    let job = rust::job(&lent.input.job);
    let spans = job.own_spans();
    let partition = job.partition(&spans);
    let read = least(|| drop(black_box(rust::job(black_box(&lent.input.job)))));
    let check = least(|| {
        black_box(calls::check(MARK, &lent.input.job, &lent.input.list));
    });
    row(&format!("reading the job (the library: its checks), {what}"), read, check);
    let (mut rust, mut library) = (f64::INFINITY, f64::INFINITY);
    for _ in 0..ROUNDS {
        rust = rust.min(least(|| drop(black_box(job.partition(black_box(&spans))))));
        library = library.min(least(|| {
            black_box(calls::partition(&lent.input.job, &mut lent.work, &mut lent.out));
        }));
    }
    row(&format!("the partition, {what}"), rust, library - check);
    let bridges = least(|| drop(black_box(job.bridges(black_box(&partition)))));
    let (_, mark) = timed(MARK, what, &mut lent);
    row(
        &format!("the Rust's bridges, the library's marks (Mark less its partition), {what}"),
        bridges,
        mark - library,
    );
    whole(MARK, what, draft);
    whole(REDUCE, what, draft);
}

/// What the Rust makes of a job: the answer's bytes, the cards, or, beside Mark, a byte for each boundary that says if it is a bridge.
fn by_rust(call: u32, input: &Input) -> Vec<u8> {
    let job = rust::job(&input.job);
    let spans = if call == BY_LIST { rust::spans(&input.list, 16) } else { job.own_spans() };
    let partition = job.partition(&spans);
    if call == MARK {
        let bridges = job.bridges(&partition);
        (0..spans.len()).map(|i| u8::from(bridges.contains(&i))).collect()
    } else if call == CARDS {
        job.cards(&partition)
    } else {
        rust::answer(&job.kept(&partition))
    }
}

/// Chains of many boundaries, by a largest group that merges those of 16 or merges none.
fn long_chains() {
    let Thresholds { most, chain, .. } = DECLARED;
    head(&format!(
        "chains of many boundaries, groups of up to {most}, chains up to {chain} pixels"
    ));
    let jobs = [
        ("256 × 256, 16 chains of 16", chains(), if most < 16 { 256 } else { 16 }),
        ("1,024 × 6, one chain of 256", one_chain(), 256),
    ];
    for (what, draft, kept) in &jobs {
        for call in [REDUCE, BY_LIST] {
            let mut lent = Lent::new(draft);
            let (rust, library) = timed(call, what, &mut lent);
            assert_eq!(lent.out[..4], u32::to_le_bytes(*kept), "kept boundaries of {what}");
            row(&format!("{}, {what}: {kept} kept", NAMES[call as usize]), rust, library);
        }
    }
}

fn bridges() {
    head("bridges of 4,096 records over up to 8,192 regions");
    let mut rng = Rng::new(5);
    let mut shapes: [(&str, Vec<[u32; 3]>); 3] = [
        ("chain", (0..4096).map(|i| [i % 256, i + 1, i + 2]).collect()),
        ("cycle", (0..4096).map(|i| [i % 256, i + 1, (i + 1) % 4096 + 1]).collect()),
        ("random pairs", vec![]),
    ];
    shapes[2].1 = (0..4096)
        .map(|i| {
            let left = rng.within(1, 8191);
            [i % 256, left, rng.within(left + 1, 8192)]
        })
        .collect();
    for (name, records) in &shapes {
        let bytes = calls::record_words(records);
        let (mut work, mut marks) = (vec![0; 1 << 20], vec![0; 256]);
        let rust = least(|| drop(black_box(api::bridges_of(black_box(records)))));
        let library = least(|| {
            black_box(calls::bridges(&bytes, &mut work, &mut marks));
        });
        row(name, rust, library);
    }
}

fn stacks() {
    println!("\nstack of a call, bytes beyond an empty thread's");
    let mut rng = Rng::new(3);
    let long = [("16 chains of 16", chains()), ("one chain of 256", one_chain())];
    let jobs = [
        ("1,024 × 1,024, 256 boundaries, 4,096 sources", job(1024, Shape::Open, 256, 4096)),
        ("4,096 region pairs", maps::many_pairs(4096, &mut rng)),
        ("4,096 region pairs, 16 of each boundary", marks::crossed(true, false)),
        ("64 × 64, 4 boundaries", job(64, Shape::Noise, 4, 8)),
        ("1,000 sources of one boundary that are spread eight times", grow::deepest()),
        ("1,000 sources of one observation that are spread eight times", grow::deepest_observed()),
        (
            "4,096 own sources in the worst order for the splits",
            own::of_one(4096, orders::Listing::Worst, &mut rng),
        ),
    ];
    let of_000 = DECLARED.most == LARGEST_OF_000;
    for (what, draft) in long.iter().chain(jobs.iter().filter(|_| of_000)) {
        for call in CALLS.into_iter().filter(|&call| of_000 || call == REDUCE || call == BY_LIST) {
            let mut lent = Lent::new(draft);
            lent.out.resize(ANSWER.max(CARD * lent.work.len() / WORK), 0);
            let used = stack::used(&mut || {
                black_box(lent.call(call));
            });
            let name = NAMES[call as usize];
            if of_000 {
                println!("{used:>10}  {name}, {what}");
            } else {
                println!("{used:>10}  {name}, {what}, groups of up to {}", DECLARED.most);
            }
        }
    }
}

/// The families that grow: tables, and the plot.
fn growing() {
    let families = grow::families();
    grow::print(&families);
    grow::sorts();
    own::rows();
    std::fs::write("docs/benchmark.svg", plot::svg(&families)).expect("docs can be written");
}

fn main() {
    let named = |name: &str| std::env::args().any(|argument| argument == name);
    let quick = named("quick");
    if DECLARED.most != LARGEST_OF_000 {
        if !named("stack") {
            long_chains();
        }
        return if !named("chains") {
            stacks()
        };
    }
    if named("grow") {
        return growing();
    }
    if named("stack") {
        return stacks();
    }
    if named("own") {
        return own::rows();
    }
    if named("chains") {
        return long_chains();
    }
    if named("marks") {
        return marks::rows();
    }
    let sides: &[u32] = if quick { &[64, 256] } else { &[64, 256, 1024] };
    let largest = sides[sides.len() - 1];

    head("partition");
    for spans in [0, 256] {
        let what = format!("{largest} × {largest} open, {spans} spans");
        partition(&what, &across(largest, Shape::Open, spans));
    }
    head("growth of the partition, 16 spans");
    let shapes = [(Shape::Spiral, "spiral"), (Shape::Comb, "comb"), (Shape::Noise, "noise")];
    for (shape, name) in shapes {
        for side in [128, 256, 512, 1024].into_iter().filter(|&side| side <= largest) {
            partition(&format!("{name} {side} × {side}"), &across(side, shape, 16));
        }
    }
    bridges();
    marks::rows();
    if !quick {
        head("the plan: 1,024 × 1,024 bands, 256 boundaries, 128 links");
        plans("bands", &bands());
    }
    head("whole calls, from bytes to bytes");
    if !quick {
        whole(REDUCE, "1,024 × 1,024 bands, 256 boundaries, 128 links", &bands());
    }
    for call in [REDUCE, BY_LIST, MARK] {
        for &side in sides {
            for (boundaries, sources) in [(4, 8), (256, 8), (4, 4096), (256, 4096)] {
                if call == MARK && sources > 8 {
                    continue;
                }
                let what = format!("{side} × {side}, {boundaries} boundaries, {sources} sources");
                whole(call, &what, &job(side, Shape::Open, boundaries, sources));
            }
        }
    }
    long_chains();
    head("area cards");
    for &side in sides {
        for boundaries in [4, 256] {
            let what = format!("{side} × {side}, {boundaries} boundaries");
            cards(&what, &job(side, Shape::Open, boundaries, 8));
        }
    }
    if !quick {
        cards("1,024 × 1,024, every second cell", &across(1024, Shape::Checkerboard, 0));
    }
    head("parts of a call");
    for (side, boundaries) in [(64, 4), (64, 256), (largest, 256)] {
        let what = format!("{side} × {side}, {boundaries} boundaries");
        parts(&what, &job(side, Shape::Open, boundaries, 8));
    }
    if !quick {
        growing();
    }
    stacks();
}

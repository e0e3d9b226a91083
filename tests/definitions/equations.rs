//! Writes random small jobs, and a few at limits, as a file of equations: what the definitions give is
//! what the Rust gave, half of them with a block of thresholds of other numbers than 000's; and blocks that are refused
//! or admitted. Marks are not the Rust's: of its region pairs, those of all other boundaries are joined afresh for each boundary. Every
//! third job has spans across several areas; a run fails where no boundary of several region pairs is marked without being a bridge, or none
//! has no mark.

#[path = "../driver/checks.rs"]
#[allow(dead_code)]
mod checks;
#[path = "../driver/draft.rs"]
#[allow(dead_code)]
mod draft;
#[path = "../driver/expect.rs"]
#[allow(dead_code)]
mod expect;
#[path = "../driver/rng.rs"]
#[allow(dead_code)]
mod rng;
#[path = "../driver/rust.rs"]
#[allow(dead_code)]
mod rust;
#[path = "../driver/thresholds.rs"]
#[allow(dead_code)]
mod thresholds;

use checks::{BY_LIST, REDUCE};
use draft::{Boundary, Draft, Input, Observation};
use expect::Expected;
use oracle::api::{
    self, Context, PixelPosition, RampBoundary, RampSide, Region, TopologyBase, TopologyBoundary,
    TopologyObservation, WalkPosition,
};
use oracle::free::with_thresholds;
use oracle::thresholds::Thresholds;
use thresholds::block;

/// The names that the equations compute with, and short ones for values.
const HEAD: &str = "\
use Rattle.std.specs.Prelude.{◌≡◌, refl, List, [], ◌∷◌, ℕ, false, replicate}
use Rattle.std.proofs.Math.Option.{some}
use Rattle.std.specs.Float.{binary64}
use Rattle.std.specs.Float.Ieee.{neg, add, sub, mul, div, lt, le, of_bits, of_int, to_bits}
use mathlib.Core.List.{flat_map}
use Rattle.order.specs.Lists.{gather, up_from, has}
use Rattle.order.specs.Sorting.{sort, insert, sort_once, include}
use Rattle.order.specs.Keys.{lex_le}
use Rattle.length.specs.Length.{length_of}
use Rattle.length.specs.Total.{total_key}
use Rattle.format.specs.Values.{Base, Ramp, Observation, Boundary, Job}
use Rattle.format.specs.declared.records.Source.{Source}
use Rattle.format.specs.Records.{span_at, base_at, ramp_at, boundary_at, observation_at, source_at}
use Rattle.format.specs.Records.{span_bytes, ramp_bytes, source_bytes, boundary_bytes, observation_bytes}
use Rattle.format.specs.Header.{counts_at, header_at, offsets_of}
use Rattle.format.specs.Decode.{decode, decode_list, job_with, base_records, boundary_records, observation_records, source_records}
use Rattle.format.specs.Decode.{decode_boundaries, source_count}
use Rattle.format.specs.Encode.{encode_answer, answer_words, encode_boundaries, boundary_record, observation_record, observations_of, sources_of}
use Rattle.position.specs.Order.{pos_same, pos_le, canonical}
use Rattle.position.specs.declared.Span.{Span}
use Rattle.graph.specs.Parts.{component_of}
use Rattle.graph.specs.Labels.{count}
use Rattle.grid.specs.Directions.{eight}
use Rattle.thresholds.specs.Block.{block_at, block_fault, limits_in, head_bytes, number_bytes, block_bytes, numbers000, block000}
use Rattle.context.specs.Anchors.{anchors_of}
use Rattle.context.specs.Listing.{span_key, ends_key}
use Rattle.serial_merging.specs.Keys.{source_key, sources_key, observation_key}
use Rattle.serial_merging.specs.Copies.{canon_observation, canon, copies_of}
use Rattle.serial_merging.specs.Consolidation.{or_itself, observed, consolidate}
use Rattle.serial_merging.specs.Groups.{all_groups}
use Rattle.serial_merging.specs.Kept.{members_of, consolidated, slot, kept}
use Rattle.serial_merging.specs.Runs.{reduce_run, items_of, canon_item, groups_of, kept_of, rules_answer}
use Rattle.areas.specs.Areas.{area_labels}
use Rattle.areas.specs.Assessments.{records}
use Rattle.areas.specs.Words.{labelled}
use Rattle.results.specs.Rules.{grid_of, rules_on, rules_of}
use Rattle.wire.specs.Bytes.{part, splice, number, number_at, words, bytes}
use Rattle.context.specs.RegionStats.{region_stats}
use Rattle.context.specs.Cards.{cards, card_bytes, card_words}
use Rattle.checks.specs.Checks.{first_refusal, each}
use Rattle.checks.specs.Single.{list_checks, span_check, header_checks, cell_check, base_check, sums_fault, ramp_check, width_check, ends_check, span_checks}
use Rattle.checks_calls.specs.Refusals.{layout_checks, record_checks, job_checks, ends_checks, boundary_checks, reduce_checks, by_list_checks}
use Rattle.results.specs.Results.{own_ends, labels_of, marks_of, left_by, after_work, outcome, writing, reduced, reduce_with, reduce_by_list_with}
use Rattle.results.specs.Calls.{reduce_result, reduce_by_list_result}

abbrev span : ℕ → ℕ → ℕ → ℕ → Span
span a b c d = record { a = record { x = a; y = b }; b = record { x = c; y = d } }

abbrev source : ℕ → ℕ → Source
source m n = record { from = m; to = n }

abbrev seen : Span → ℕ → List Source → Observation
seen e b s = record { ends = e; bits = b; sources = s }

abbrev ramp : ℕ → ℕ → ℕ → ℕ → Ramp
ramp e l u i = record { end = e; lower = l; upper = u; id = i }

abbrev boundary : Span → ℕ → Ramp → List Source → List Observation → Boundary
boundary e b r s o = record { ends = e; bits = b; ramp = r; sources = s; observations = o }

abbrev base : ℕ → ℕ → ℕ → Base
base i x y = record { id = i; anchor = some (record { x = x; y = y }) }
";

/// A block's numbers, read.
const READING: &str = "limits_in block_fault block_at number_at number part";
/// The bytes of that of 000.
const OF_000_READ: &str =
    "block000 block_bytes head_bytes number_bytes numbers000 words flat_map bytes";
/// And tested before all else; then that the job has a header.
const REFUSING: &str = "reduce_result reduce_by_list_result reduce_with reduce_by_list_with reduced writing outcome \
    first_refusal block_fault block_at number_at number part reduce_checks boundary_checks job_checks layout_checks";
const LABELLING: &str = "area_labels component_of count up_from";
const MARKING: &str = "marks_of component_of count up_from";
/// Cards are computed of maps of so many cells at the most: of 40 the prover runs out of steps.
const CARDED: usize = 20;
/// Of the labels that the equation before has found.
const CARDING: &str = "cards card_bytes card_words region_stats words flat_map bytes up_from";
const KEEPING: &str = "rules_on anchors_of kept_of groups_of items_of canon_item all_groups kept slot \
    consolidated consolidate members_of observed or_itself copies_of canon canon_observation canonical \
    pos_le ends_key span_key source_key sources_key observation_key total_key sort insert sort_once include \
    lex_le gather up_from has component_of count length_of of_int of_bits to_bits neg add sub mul div lt le";

/// The numbers of 000.
const OF_000: Thresholds = Thresholds::DECLARED;
/// The most of a length, and of the cosine.
const LONGEST: f64 = 16_384.0;
const STRAIGHT: f64 = 1.0;

/// Admitted numbers, often with larger groups than 000's or with pairs of bridges, and with limits about what small maps have.
fn numbers(rng: &mut Rng) -> Thresholds {
    let least = 2 + rng.below(3) as usize;
    Thresholds {
        least,
        most: least + rng.below(17 - least as u64) as usize,
        chain: rng.pick(&[384.0, 384.0, 24.0, 16.0, 8.0, 32.5, LONGEST, 0.0]),
        width: rng.pick(&[8.0, 4.5, 0.0, LONGEST]),
        geometry: rng.pick(&[16.0, 16.0, 4.0, 0.0, LONGEST]),
        duplicate: rng.pick(&[128.0, 128.0, 16.0, 8.0, 0.0, LONGEST]),
        envelope: rng.pick(&[32.0, 32.0, 4.0, 0.0, LONGEST]),
        cosine: rng.pick(&[OF_000.cosine, 0.996, 0.5, 0.0, STRAIGHT]),
    }
}

/// Blocks that are not admitted, one for each rule.
fn refused_blocks() -> Vec<Vec<u8>> {
    let good = block(&OF_000).to_vec();
    let with = |at: usize, bytes: &[u8]| {
        let mut block = good.clone();
        block[at..at + bytes.len()].copy_from_slice(bytes);
        block
    };
    let sizes = |least: u32, most: u32| {
        let bytes = [least.to_le_bytes(), most.to_le_bytes()].concat();
        with(8, &bytes)
    };
    let mut blocks = vec![
        vec![],
        good[..63].to_vec(),
        [&good[..], &[0]].concat(),
        with(0, &[9]),
        with(4, &[0]),
        sizes(1, 4),
        sizes(5, 4),
        sizes(3, 17),
    ];
    for (at, most) in
        [16, 24, 32, 40, 48].map(|at| (at, LONGEST)).into_iter().chain([(56, STRAIGHT)])
    {
        for value in [most.next_up(), -0.0, f64::NAN, f64::INFINITY] {
            blocks.push(with(at, &value.to_le_bytes()));
        }
    }
    blocks
}

/// The numbers of 000, and admitted ones at the ends of their ranges.
fn admitted() -> Vec<Thresholds> {
    let of = |least: usize, most: usize, length: f64, cosine: f64| Thresholds {
        least,
        most,
        chain: length,
        width: length,
        geometry: length,
        duplicate: length,
        envelope: length,
        cosine,
    };
    vec![OF_000, of(2, 2, 0.0, 0.0), of(2, 16, LONGEST, STRAIGHT), of(16, 16, LONGEST, 0.0)]
}

/// A whole call, from bytes to bytes, besides what REFUSING and KEEPING open.
const CALLING: &str = "after_work labelled splice limits_in by_list_checks list_checks span_check header_checks record_checks each \
    cell_check base_check sums_fault ramp_check width_check ends_checks ends_check span_checks header_at offsets_of span_at ramp_at \
    boundary_at observation_at base_at bytes words flat_map boundary_records observation_records source_count pos_same decode decode_list \
    job_with decode_boundaries counts_at base_records source_records source_at area_labels records rules_answer encode_answer answer_words \
    encode_boundaries boundary_record observation_record observations_of sources_of ramp_bytes boundary_bytes observation_bytes source_bytes \
    span_bytes";
/// Whole calls are computed of maps of so many cells at the most.
const CALLED: usize = 22;

/// splitmix64.
struct Rng(u64);

impl Rng {
    fn below(&mut self, limit: u64) -> u64 {
        self.0 = self.0.wrapping_add(0x9E37_79B9_7F4A_7C15);
        let mut z = self.0;
        z = (z ^ (z >> 30)).wrapping_mul(0xBF58_476D_1CE4_E5B9);
        z = (z ^ (z >> 27)).wrapping_mul(0x94D0_49BB_1331_11EB);
        (z ^ (z >> 31)) % limit
    }

    fn one_in(&mut self, limit: u64) -> bool {
        self.below(limit) == 0
    }

    fn pick(&mut self, values: &[f64]) -> f64 {
        values[self.below(values.len() as u64) as usize]
    }

    fn position(&mut self, width: u64, height: u64) -> PixelPosition {
        PixelPosition { x: self.below(width) as u32, y: self.below(height) as u32 }
    }

    fn sources(&mut self, limit: u64) -> Vec<[u32; 2]> {
        (0..self.below(limit)).map(|_| [self.below(4) as u32, self.below(4) as u32]).collect()
    }
}

fn list<T>(values: impl IntoIterator<Item = T>, write: impl Fn(T) -> String) -> String {
    let cons: String = values.into_iter().map(|value| write(value) + " ∷ ").collect();
    format!("{cons}[]")
}

fn span([a, b]: [PixelPosition; 2]) -> String {
    format!("(span {} {} {} {})", a.x, a.y, b.x, b.y)
}

/// The ten words of an area's card.
fn words(region: &Region) -> Vec<u32> {
    let numbers = [region.cells as u32].into_iter().chain(region.bounds.map(|edge| edge as u32));
    let ramp = [u32::from(region.has_ramp)].into_iter();
    numbers.chain(ramp).chain(region.elevation_counts.map(|count| count as u32)).collect()
}

fn words_of([a, b]: [PixelPosition; 2]) -> [u32; 4] {
    [a.x, a.y, b.x, b.y]
}

fn sources(sources: &[[u32; 2]]) -> String {
    list(sources, |[from, to]| format!("source {from} {to}"))
}

fn observation(seen: &TopologyObservation) -> String {
    let bits = seen.width_pixels.to_bits();
    format!("seen {} {bits} ({})", span(seen.endpoints), sources(&seen.sources))
}

fn boundary(boundary: &TopologyBoundary) -> String {
    let ramp = boundary.ramp.map_or("ramp 0 0 0 0".into(), |ramp| {
        let end = if ramp.end == RampSide::Lower { 1 } else { 2 };
        format!("ramp {end} {} {} {}", ramp.lower_elevation, ramp.upper_elevation, ramp.id)
    });
    format!(
        "boundary {} {} ({ramp}) ({}) ({})",
        span(boundary.endpoints),
        boundary.width_pixels.to_bits(),
        sources(&boundary.sources),
        list(&boundary.observations, observation)
    )
}

/// Boundaries of several region pairs: not marked, marked without being a bridge, and bridges.
type Kinds = [usize; 3];
const UNMARKED: usize = 0;
const MARKED: usize = 1;
const BRIDGE: usize = 2;

/// What is written of a job, and what it shows.
struct Found {
    text: String,
    removed: usize,
    kinds: Kinds,
}

/// With the region pairs of all other boundaries joined, the two regions of one of its own are apart. The pairs are by boundary.
fn is_choke(pairs: &[Vec<[u32; 2]>], boundary: usize) -> bool {
    // Each region has a name, at first its own; to join two is to give all of one name the other.
    let regions = pairs.iter().flatten().flatten().max().map_or(0, |&most| most as usize);
    let mut names: Vec<usize> = (0..=regions).collect();
    for (i, others) in pairs.iter().enumerate() {
        for [left, right] in others.iter().filter(|_| i != boundary) {
            let [old, new] = [left, right].map(|&region| names[region as usize]);
            names.iter_mut().filter(|name| **name == old).for_each(|name| *name = new);
        }
    }
    pairs[boundary].iter().any(|[left, right]| names[*left as usize] != names[*right as usize])
}

/// A corridor of one or two rows, crossed by spans that are often close enough to merge; or level corridors joined at their ends, crossed by spans
/// that go across several.
struct Job {
    width: u32,
    height: u32,
    cells: Vec<u8>,
    bases: Vec<TopologyBase>,
    boundaries: Vec<TopologyBoundary>,
    /// What it is merged with; none stands for the block of 000.
    numbers: Option<Thresholds>,
}

impl Job {
    /// Jobs of slanted spans, with the least widths that meet a limit and with one unit in the last
    /// place less: of a transverse envelope, and of a flat one that reaches past the spans' ends.
    fn at_limits() -> Vec<Self> {
        let across: [[u32; 4]; 3] = [[8, 0, 8, 16], [12, 0, 14, 14], [24, 0, 24, 16]];
        let ramps = [1, 5, 5, 1, 1, 1, 1, 1];
        let deep: Vec<u8> = (0..40).map(|cell| u8::from(cell < 5 || cell % 5 == 1)).collect();
        let beside = [[7, 0, 9, 10], [16, 0, 20, 9]];
        let jobs = [0, 1].map(|less| {
            [
                Self::of([4, 2], &ramps, &across, 0x3fea_d78e_e8aa_c437 - less),
                Self::of([5, 8], &deep, &beside, 0x406a_92e0_6205_3c06 - less),
            ]
        });
        jobs.into_iter().flatten().collect()
    }

    fn of([width, height]: [u32; 2], cells: &[u8], spans: &[[u32; 4]], bits: u64) -> Self {
        let boundary = |&span: &[u32; 4]| TopologyBoundary {
            endpoints: api::ends(span),
            width_pixels: f64::from_bits(bits),
            sources: vec![],
            observations: vec![],
            ramp: None,
        };
        let boundaries = spans.iter().map(boundary).collect();
        Self { width, height, cells: cells.to_vec(), bases: vec![], boundaries, numbers: None }
    }

    fn random(rng: &mut Rng) -> Self {
        let (width, height) = (5 + rng.below(6) as u32, 1 + rng.below(2) as u32);
        let cell = |rng: &mut Rng| {
            let blocked = height > 1 && rng.one_in(9);
            u8::from(!blocked) | u8::from(rng.one_in(25)) << 2 | u8::from(rng.one_in(30)) << 3
        };
        let cells = (0..width * height).map(|_| cell(rng)).collect();
        let mut boundaries = Vec::new();
        let mut x = 4 + rng.below(9) as u32;
        for _ in 0..2 + rng.below(4) {
            if x <= width * 8 {
                boundaries.push(Self::boundary(rng, x, width * 8, height * 8));
                x += if rng.one_in(6) { 3 } else { 8 * (1 + rng.below(2) as u32) };
            }
        }
        for i in (1..boundaries.len()).rev() {
            boundaries.swap(i, rng.below(i as u64 + 1) as usize);
        }
        let anchor = WalkPosition { x: rng.below(width.into()) as u32, y: 0 };
        let base = TopologyBase { id: 1, route_anchor: Some(anchor) };
        let bases = if rng.one_in(4) { vec![base] } else { Vec::new() };
        let numbers = rng.one_in(2).then(|| numbers(rng));
        Self { width, height, cells, bases, boundaries, numbers }
    }

    /// Two level corridors that are mostly joined at both ends, at times a third, and upright spans across the first two, now and then
    /// across another number of them; some stand twice.
    fn long(rng: &mut Rng) -> Self {
        let corridors = 2 + u32::from(rng.one_in(3));
        let (width, height) = (5 + rng.below(4 - u64::from(corridors)) as u32, 2 * corridors - 1);
        let ends = [rng.one_in(8), rng.one_in(8)];
        let open = |row: u32, column: u32| {
            row % 2 == 0 || column == 0 && !ends[0] || column + 1 == width && !ends[1]
        };
        let cells =
            (0..width * height).map(|i| u8::from(open(i / width, i % width))).collect::<Vec<_>>();
        let mut boundaries = Vec::new();
        let mut x = 8 + 8 * rng.below(2) as u32;
        while boundaries.len() < 4 && x < 8 * width {
            let rows = if rng.one_in(4) { 2 * rng.below(corridors.into()) as u32 + 1 } else { 3 };
            let spans = 1 + usize::from(rng.one_in(5));
            for _ in 0..spans {
                boundaries.push(Self::boundary(rng, x, 8 * width, 8 * rows));
            }
            x += 8 * (1 + rng.below(2) as u32);
        }
        for i in (1..boundaries.len()).rev() {
            boundaries.swap(i, rng.below(i as u64 + 1) as usize);
        }
        let numbers = rng.one_in(2).then(|| numbers(rng));
        Self { width, height, cells, bases: vec![], boundaries, numbers }
    }

    fn boundary(rng: &mut Rng, x: u32, right: u32, bottom: u32) -> TopologyBoundary {
        let slant = if rng.one_in(3) { rng.below(4) as u32 } else { 0 };
        let far = PixelPosition { x: (x + slant).min(right), y: bottom };
        let mut endpoints = [PixelPosition { x, y: 0 }, far];
        if rng.one_in(2) {
            endpoints.swap(0, 1);
        }
        let end = if rng.one_in(2) { RampSide::Lower } else { RampSide::Upper };
        let ramp = RampBoundary { id: 3, end, lower_elevation: 0, upper_elevation: 1 };
        TopologyBoundary {
            endpoints,
            width_pixels: rng.pick(&[8.0, 8.0, 8.0, 12.5, 16.0, 24.0, 30.0, 0.0]),
            sources: rng.sources(4),
            observations: (0..rng.below(3).saturating_sub(1))
                .map(|_| TopologyObservation {
                    endpoints: [rng.position(40, 9), rng.position(40, 9)],
                    width_pixels: rng.pick(&[8.0, -1.0, 3.5]),
                    sources: rng.sources(3),
                })
                .collect(),
            ramp: rng.one_in(14).then_some(ramp),
        }
    }

    /// The job, its spans as a list, and its block, as bytes.
    fn input(&self) -> Input {
        let numbers = self.numbers.unwrap_or(OF_000);
        let mut draft = Draft { width: self.width, height: self.height, ..Draft::default() };
        draft.thresholds = block(&numbers).to_vec();
        draft.cells.clone_from(&self.cells);
        for base in &self.bases {
            let anchor = base.route_anchor.expect("an anchor");
            draft.bases.push([base.id, anchor.x, anchor.y]);
        }
        for boundary in &self.boundaries {
            let (ramp, ramp_id) = boundary.ramp.map_or(([0; 4], 0), |ramp| {
                let end = if ramp.end == RampSide::Lower { 1 } else { 2 };
                ([end, ramp.lower_elevation, ramp.upper_elevation, 0], ramp.id)
            });
            draft.sources.extend(&boundary.sources);
            for seen in &boundary.observations {
                draft.sources.extend(&seen.sources);
                draft.observations.push(Observation {
                    ends: words_of(seen.endpoints),
                    bits: seen.width_pixels.to_bits(),
                    sources: seen.sources.len() as u32,
                });
            }
            draft.list.push(words_of(boundary.endpoints));
            draft.boundaries.push(Boundary {
                ends: words_of(boundary.endpoints),
                bits: boundary.width_pixels.to_bits(),
                sources: boundary.sources.len() as u32,
                observations: boundary.observations.len() as u32,
                ramp,
                ramp_id,
            });
        }
        draft.input()
    }

    /// Both calls in whole, from bytes to bytes, on slices of just the length that is asked, for Reduce, and longer ones.
    fn called(&self, k: usize, block: &str, opened: &str) -> String {
        let input = self.input();
        let mut text = unfoldable(&format!("bytes{k}"), &input.job);
        text += &unfoldable(&format!("list{k}"), &input.list);
        for (call, name, more) in [(REDUCE, "reduce", 0), (BY_LIST, "reduce_by_list", 3)] {
            let expected = Expected::of(call, &input.job, &input.list, &input.thresholds);
            let lengths = [expected.work() + more, expected.written.len() + more];
            let left = expected.left(&vec![7; lengths[0]], &vec![9; lengths[1]]);
            let [work, out] = [&left.work, &left.out].map(|bytes| list(bytes, u8::to_string));
            let lent = lengths.map(|length| length.to_string());
            let (number, detail) = left.result;
            let listed = if call == BY_LIST { format!("list{k} ") } else { String::new() };
            text += &format!(
                "\n{name}{k} : {name}_result bytes{k} {listed}{block} (replicate {} 7) (replicate {} 9) ≡ \
                 left_by {number} {detail} ({work}) ({out})\n\
                 unfolding bytes{k} list{k} {}\n{name}{k} = refl\n",
                lent[0],
                lent[1],
                each_once(&[opened, REFUSING, CALLING, KEEPING])
            );
        }
        text
    }

    /// The job and its equations, those of cards and of whole calls if the map is small; how many boundaries the Rust merged away; those of
    /// several region pairs by kind.
    fn equations(&self, k: usize) -> Found {
        let grid = api::grid(self.width, self.height, &self.cells);
        let spans: Vec<_> = self.boundaries.iter().map(|b| words_of(b.endpoints)).collect();
        let partition = api::partition(&grid, &spans).expect("spans on the map");
        let context = Context::new(&grid, &partition, &self.bases);
        let bridges = context.bridges();
        let numbers = self.numbers.unwrap_or(OF_000);
        let kept = with_thresholds(numbers, || context.collapse(&self.boundaries));
        let bases = list(&self.bases, |base| {
            let anchor = base.route_anchor.expect("an anchor");
            format!("base {} {} {}", base.id, anchor.x, anchor.y)
        });
        let job = format!(
            "unfoldable job{k} : Job\njob{k} = record {{ width = {}; height = {}; cells = {}; bases = {bases}; boundaries = {} }}\n",
            self.width,
            self.height,
            list(&self.cells, u8::to_string),
            list(&self.boundaries, boundary)
        );
        let equation = |name: &str, left: &str, right: String, opened: &str| {
            format!("\n{name}{k} : {left} ≡ {right}\nunfolding job{k} {opened}\n{name}{k} = refl\n")
        };
        let (named, block) = match self.numbers {
            None => ("block000".to_string(), String::new()),
            Some(numbers) => {
                (format!("block{k}"), unfoldable(&format!("block{k}"), &block(&numbers)))
            }
        };
        let opened = if block.is_empty() { OF_000_READ } else { &named };
        let own_ends = format!("(own_ends job{k})");
        let records: Vec<_> =
            partition.boundaries().iter().map(|b| b.region_pairs.clone()).collect();
        let marks: Vec<u8> = (0..spans.len()).map(|i| u8::from(is_choke(&records, i))).collect();
        let mut kinds = Kinds::default();
        for (i, (pairs, &mark)) in records.iter().zip(&marks).enumerate() {
            let bridge = bridges.contains(&i);
            assert!(!bridge || mark == 1, "a bridge is marked");
            if pairs.len() > 1 {
                kinds[if bridge { BRIDGE } else { mark.into() }] += 1;
            } else {
                assert_eq!(bridge, mark == 1, "of one region pair the two are the same");
            }
        }
        let regions: Vec<_> = (1..).map_while(|label| context.region(label)).collect();
        let cards = list(regions.iter().flat_map(words), |word| word.to_string());
        let labels = list(partition.labels(), u32::to_string);
        let carded = equation(
            "cards",
            &format!("cards (grid_of job{k}) ({labels}) {}", regions.len()),
            format!("words ({cards})"),
            CARDING,
        );
        let text = [
            job,
            block,
            equation(
                "labels",
                &format!("labels_of eight job{k} {own_ends}"),
                labels.clone(),
                LABELLING,
            ),
            equation(
                "marks",
                &format!("marks_of eight job{k}"),
                list(marks, |mark| mark.to_string()),
                MARKING,
            ),
            if self.cells.len() <= CARDED { carded } else { String::new() },
            if self.cells.len() <= CALLED { self.called(k, &named, opened) } else { String::new() },
            equation(
                "kept",
                &format!(
                    "kept_of (rules_of (limits_in {named}) eight job{k}) (reduce_run job{k}.boundaries)"
                ),
                list(&kept, boundary),
                &format!("{opened} {READING} {KEEPING}"),
            ),
        ];
        Found { text: text.concat(), removed: spans.len() - kept.len(), kinds }
    }
}

/// The names of some lists, each once, as `unfolding` has them.
fn each_once(lists: &[&str]) -> String {
    let mut names: Vec<&str> = Vec::new();
    for name in lists.iter().flat_map(|list| list.split_whitespace()) {
        if !names.contains(&name) {
            names.push(name);
        }
    }
    names.join(" ")
}

/// Bytes as a list by name.
fn unfoldable(name: &str, bytes: &[u8]) -> String {
    format!("\nunfoldable {name} : List ℕ\n{name} = {}\n", list(bytes, u8::to_string))
}

/// Of each block that is refused: 32 whatever job, list and slices it comes with, all left as it was.
fn refusals() -> String {
    let mut text = String::new();
    for (k, block) in refused_blocks().iter().enumerate() {
        let bad = format!("bad{k}");
        text += &unfoldable(&bad, block);
        text += &format!(
            "\nrefused{k} : (job work answer : List ℕ) → reduce_result job {bad} work answer ≡ left_by 32 0 work answer\n\
             unfolding {bad} {REFUSING}\nrefused{k} job work answer = refl\n\
             \nrefused-by-list{k} : (job list work answer : List ℕ) → reduce_by_list_result job list {bad} work answer ≡ left_by 32 0 work answer\n\
             unfolding {bad} {REFUSING}\nrefused-by-list{k} job list work answer = refl\n"
        );
    }
    text
}

/// Of each block at the ends of its ranges: it has no fault, and these limits; with no job it is 1.
fn admissions() -> String {
    let mut text = String::new();
    for (k, numbers) in admitted().into_iter().enumerate() {
        let good = format!("good{k}");
        let Thresholds { least, most, .. } = numbers;
        let bits = |value: f64| format!("of_bits binary64 {}", value.to_bits());
        let [chain, width, geometry] = [numbers.chain, numbers.width, numbers.geometry].map(bits);
        let [duplicate, envelope, cosine] =
            [numbers.duplicate, numbers.envelope, numbers.cosine].map(bits);
        text += &unfoldable(&good, &block(&numbers));
        text += &format!(
            "\nadmitted{k} : block_fault {good} ≡ false\nunfolding {good} {READING}\nadmitted{k} = refl\n\
             \nread{k} : limits_in {good} ≡ record {{ least_spans = {least}; most_spans = {most}; chain = {chain}; width = {width}; \
             geometry = {geometry}; duplicate = {duplicate}; envelope = {envelope}; cosine = {cosine} }}\n\
             unfolding {good} {READING}\nread{k} = refl\n\
             \nthen{k} : (work answer : List ℕ) → reduce_result [] {good} work answer ≡ left_by 1 0 work answer\n\
             unfolding {good} {REFUSING}\nthen{k} work answer = refl\n"
        );
    }
    text
}

fn main() {
    let mut numbers = std::env::args().skip(1).map(|word| word.parse().expect("a number"));
    let jobs = numbers.next().expect("how many jobs");
    let mut rng = Rng(numbers.next().expect("a seed"));
    let (mut merged, mut kinds) = ([0; 6], Kinds::default());
    println!("{HEAD}");
    println!("{}{}", refusals(), admissions());
    let at_limits = Job::at_limits();
    for (k, job) in at_limits.iter().enumerate() {
        println!("{}", job.equations(jobs as usize + k).text);
    }
    for k in 0..jobs as usize {
        // A merge is looked for, or marks that are no bridges and none at all: of a few tries the one that has most is taken.
        let found = if k % 3 == 1 {
            let tries = (0..3).map(|_| Job::long(&mut rng).equations(k));
            tries.max_by_key(|found| found.kinds[MARKED].min(1) + found.kinds[UNMARKED].min(1))
        } else {
            let tries = 1 + rng.below(3);
            let tries = (0..tries).map(|_| Job::random(&mut rng).equations(k));
            tries.max_by_key(|found| found.removed)
        };
        let found = found.expect("a try");
        merged[found.removed.min(5)] += 1;
        kinds.iter_mut().zip(found.kinds).for_each(|(all, more)| *all += more);
        println!("{}", found.text);
    }
    eprintln!("jobs by how many boundaries the Rust merged away, from none: {merged:?}");
    let [unmarked, marked, bridges] = kinds;
    eprintln!("boundaries of several region pairs: {unmarked} without a mark, {marked} with one and no bridge, {bridges} bridges");
    if unmarked == 0 || marked == 0 {
        eprintln!("failed: a boundary of several region pairs without a mark, and one with a mark that is no bridge, have to be there");
        std::process::exit(1);
    }
}

//! What 000 measures of a job's links, stated anew in f64 with each operation in 000's order, how far each
//! measure is from its limit, and the limits that a job's own measures just meet.

use crate::expect::Accepted;
use crate::rust::Group;
use crate::tally::Tally;
use oracle::exact_length::exact_length;
use oracle::thresholds::Thresholds;
use std::collections::{BTreeMap, BTreeSet};

type Vector = [f64; 2];
type Range = [f64; 2];

/// As far from the limit as the nearest cosines of near spans and the nearest sums of three lengths
/// that are not just 384.
const NEXT_TO_COSINE: f64 = 1e-11;
const NEXT_TO_384: f64 = 2e-11;

/// A link, before its width comes in.
pub struct Link {
    pub nodes: [usize; 2],
    distance: f64,
    /// Across the link and along it.
    envelopes: [f64; 2],
    /// Along the first span and across it: the least and the greatest edge of a cell, and of an end.
    cells: [Range; 2],
    ends: [Range; 2],
    /// The line of centres and the first span lie along no axis.
    slanted: [bool; 2],
}

/// A limit of a link; those of the flat envelope are along the first span (0) or across it (1).
#[derive(Clone, Copy)]
pub enum Limit {
    Transverse,
    Longitudinal,
    Below(usize),
    Above(usize),
}

pub const LIMITS: [Limit; 6] = [
    Limit::Transverse,
    Limit::Longitudinal,
    Limit::Below(0),
    Limit::Above(0),
    Limit::Below(1),
    Limit::Above(1),
];

/// The limits that a run of slanted corridors must have met, on every side.
const MET: [&str; 8] = [
    "transverse envelope",
    "longitudinal envelope",
    "flat envelope along, a quarter of the width, below",
    "flat envelope along, a quarter of the width, above",
    "flat envelope along, 32, below",
    "flat envelope along, 32, above",
    "flat envelope across, 32, below",
    "flat envelope across, 32, above",
];
const SIDES: [&str; 3] = ["1 or 2 ulp inside", "just met", "1 or 2 ulp beyond"];
/// The cosine of near spans comes no nearer to its limit than some thousand units in the last place,
/// and a sum that isn't 384 no nearer to it than a hundred: the nearest there are.
const NEAREST: [&str; 5] = [
    "slanted: cosine next to the limit, parallel",
    "slanted: cosine next to the limit, not parallel",
    "slanted: sum just 384",
    "slanted: sum of three next to 384, under",
    "slanted: sum of three next to 384, over",
];

/// What is counted of runs where the measures settle whether there is a group.
pub const FORETOLD: &str = "runs whose merging was foretold";

/// A number's place in the order of all, the next number's being one more.
fn place(x: f64) -> i64 {
    let bits = x.to_bits() as i64;
    if bits < 0 {
        i64::MIN - bits
    } else {
        bits
    }
}

fn tolerance(axis: usize, width: f64, envelope: f64) -> f64 {
    if axis == 0 {
        envelope.max(width / 4.0)
    } else {
        envelope
    }
}

impl Link {
    /// How many units in the last place the measure is inside its limit, at a width.
    pub fn room(&self, limit: Limit, width: f64, numbers: &Thresholds) -> i64 {
        let geometry = numbers.geometry;
        let tolerance = |axis: usize| tolerance(axis, width, numbers.envelope);
        let [limit, measure] = match limit {
            Limit::Transverse => [1.5 * width + geometry, self.envelopes[0]],
            Limit::Longitudinal => [self.distance + width / 2.0 + geometry, self.envelopes[1]],
            Limit::Below(axis) => [self.cells[axis][0], self.ends[axis][0] - tolerance(axis)],
            Limit::Above(axis) => [self.ends[axis][1] + tolerance(axis), self.cells[axis][1]],
        };
        place(limit).saturating_sub(place(measure))
    }

    /// The lesser width of the two spans.
    fn width(&self, accepted: &Accepted) -> f64 {
        let [one, two] = self.nodes.map(|node| accepted.job.boundaries[node].width_pixels);
        one.min(two)
    }

    fn slanted(&self, limit: Limit) -> bool {
        self.slanted[usize::from(matches!(limit, Limit::Below(_) | Limit::Above(_)))]
    }
}

fn name(limit: Limit, width: f64) -> &'static str {
    let wide = usize::from(width / 4.0 <= 32.0);
    MET[match limit {
        Limit::Transverse => 0,
        Limit::Longitudinal => 1,
        Limit::Below(0) => 2 + 2 * wide,
        Limit::Above(0) => 3 + 2 * wide,
        Limit::Below(_) => 6,
        Limit::Above(_) => 7,
    }]
}

fn dot(p: Vector, v: Vector) -> f64 {
    p[0] * v[0] + p[1] * v[1]
}

fn minus(p: Vector, q: Vector) -> Vector {
    [p[0] - q[0], p[1] - q[1]]
}

fn scaled(v: Vector) -> Vector {
    let length = exact_length(v[0], v[1]);
    [v[0] / length, v[1] / length]
}

fn across(v: Vector) -> Vector {
    [-v[1], v[0]]
}

fn reach(v: Vector) -> f64 {
    v[0].abs() + v[1].abs()
}

fn range(values: impl Iterator<Item = f64>) -> Range {
    values.fold([f64::INFINITY, f64::NEG_INFINITY], |[low, high], value| {
        [low.min(value), high.max(value)]
    })
}

/// A boundary's ends, the earlier first.
fn ends(accepted: &Accepted, node: usize) -> [Vector; 2] {
    let mut ends = accepted.job.boundaries[node].endpoints;
    ends.sort();
    ends.map(|end| [f64::from(end.x), f64::from(end.y)])
}

fn centre([a, b]: [Vector; 2]) -> Vector {
    [(a[0] + b[0]) / 2.0, (a[1] + b[1]) / 2.0]
}

fn link(accepted: &Accepted, nodes: [usize; 2], region: u32) -> Link {
    let spans = nodes.map(|node| ends(accepted, node));
    let centres = spans.map(centre);
    let between = minus(centres[1], centres[0]);
    let (unit, span_unit) = (scaled(between), scaled(minus(spans[0][1], spans[0][0])));
    let columns = accepted.job.grid.width() as usize;
    let of_region = |&(_, label): &(usize, &u32)| *label == region;
    let labels = accepted.partition.labels().iter().enumerate().filter(of_region);
    let cells: Vec<Vector> = labels
        .map(|(i, _)| [(i % columns) as f64 * 8.0 + 4.0, (i / columns) as f64 * 8.0 + 4.0])
        .collect();
    let envelope = |v: Vector| {
        let [low, high] = range(cells.iter().map(|&cell| dot(minus(cell, centres[0]), v)));
        high - low + 8.0 * reach(v)
    };
    let edges = |v: Vector| {
        let [low, high] = range(cells.iter().map(|&cell| dot(cell, v)));
        let radius = 4.0 * reach(v);
        [low - radius, high + radius]
    };
    let of_ends = |v: Vector| range(spans.iter().flatten().map(|&end| dot(end, v)));
    Link {
        nodes,
        distance: exact_length(between[0], between[1]),
        envelopes: [envelope(across(unit)), envelope(unit)],
        cells: [edges(span_unit), edges(across(span_unit))],
        ends: [of_ends(span_unit), of_ends(across(span_unit))],
        slanted: [unit, span_unit].map(|v| v[0] != 0.0 && v[1] != 0.0),
    }
}

/// The links of a job without anchors and ramp boundaries.
pub fn links(accepted: &Accepted) -> Vec<Link> {
    let spans = accepted.partition.boundaries();
    let mut touch: BTreeMap<u32, BTreeSet<usize>> = BTreeMap::new();
    for (i, span) in spans.iter().enumerate() {
        for &region in span.region_pairs.iter().flatten() {
            touch.entry(region).or_default().insert(i);
        }
    }
    let full = |&i: &usize| {
        let span = &spans[i];
        span.removed_edge_count == span.separated_edge_count && span.region_pairs.len() == 1
    };
    let mut links = Vec::new();
    for (region, nodes) in touch {
        let mut nodes: Vec<_> = nodes.into_iter().collect();
        nodes.sort_by(|&i, &j| {
            ends(accepted, i).partial_cmp(&ends(accepted, j)).expect("whole numbers")
        });
        if let ([one, two], true) = (&nodes[..], nodes.iter().all(full)) {
            if centre(ends(accepted, *one)) != centre(ends(accepted, *two)) {
                links.push(link(accepted, [*one, *two], region));
            }
        }
    }
    links
}

/// Counts the limits of 000 that the job's links meet.
pub fn note(accepted: &Accepted, tally: &mut Tally) {
    let links = links(accepted);
    for link in &links {
        let width = link.width(accepted);
        for limit in LIMITS.into_iter().filter(|&limit| link.slanted(limit)) {
            let room = link.room(limit, width, &Thresholds::DECLARED);
            if room.abs() <= 2 {
                let side = SIDES[(1 - room.signum()) as usize];
                tally.see(&format!("slanted: {}, {side}", name(limit, width)));
            }
        }
        let parallel = Thresholds::DECLARED.cosine;
        let cosine = near_cosine(accepted, link.nodes, &Thresholds::DECLARED).unwrap_or(0.0);
        if (cosine - parallel).abs() < NEXT_TO_COSINE {
            tally.see(NEAREST[usize::from(cosine < parallel)]);
        }
    }
    let sum = sum(&links);
    if links.len() > 1 && sum == 384.0 && links.iter().any(|link| link.slanted[0]) {
        tally.see(NEAREST[2]);
    }
    if links.len() == 3 && sum != 384.0 && (sum - 384.0).abs() < NEXT_TO_384 {
        tally.see(NEAREST[if sum < 384.0 { 3 } else { 4 }]);
    }
}

/// The cosine of the angle between two spans, and the distances of their ends.
fn parallel(accepted: &Accepted, nodes: [usize; 2]) -> (f64, [f64; 2]) {
    let [a, b] = nodes.map(|node| ends(accepted, node));
    let [from, to] = [minus(a[1], a[0]), minus(b[1], b[0])];
    let dot = dot(from, to);
    let cosine = dot.abs() / exact_length(from[0], from[1]) / exact_length(to[0], to[1]);
    let b = if dot < 0.0 { [b[1], b[0]] } else { b };
    (cosine, [0, 1].map(|i| exact_length(a[i][0] - b[i][0], a[i][1] - b[i][1])))
}

/// The cosine of the angle between two spans, where both pairs of their ends are near.
fn near_cosine(accepted: &Accepted, nodes: [usize; 2], numbers: &Thresholds) -> Option<f64> {
    let (cosine, apart) = parallel(accepted, nodes);
    apart.iter().all(|&apart| apart <= numbers.duplicate).then_some(cosine)
}

/// Whether a run merges, where the measures settle it: a chain of spans over ramps, or on flat ground one whose links are all
/// flat or none, with no anchors and every region of the map in the chain.
fn foretold(accepted: &Accepted) -> Option<bool> {
    let (groups, numbers) = (groups(links(accepted)), &accepted.numbers);
    let [links] = &groups[..] else { return None };
    let boundaries = &accepted.job.boundaries;
    if boundaries.iter().any(|boundary| boundary.ramp.is_some()) {
        return None;
    }
    let pairs = accepted.partition.boundaries().iter().flat_map(|span| &span.region_pairs);
    let regions: BTreeSet<u32> = pairs.flatten().copied().collect();
    let count = boundaries.len();
    if links.len() + 1 != count || regions.len() != count + 1 || !accepted.job.bases.is_empty() {
        return None;
    }
    let inside = |link: &Link, limits: &[Limit]| {
        limits.iter().all(|&limit| link.room(limit, link.width(accepted), numbers) >= 0)
    };
    let walkable = accepted.job.grid.cells().iter().filter(|cell| cell.walkable);
    let ramps: BTreeSet<_> = walkable.map(|cell| (cell.ramp, cell.elevation)).collect();
    let apart = chain_ends(accepted, links)?;
    let serial = || {
        let pass = links.iter().all(|link| inside(link, &LIMITS[..2]));
        let far = sum(links) > numbers.chain || apart > numbers.chain;
        (numbers.least..=numbers.most).contains(&count) && pass && !far
    };
    match (count, ramps.first()) {
        _ if ramps.len() != 1 => None,
        (2.., Some((false, _))) => {
            let near = |pair: [usize; 2]| {
                near_cosine(accepted, pair, numbers).is_some_and(|cosine| cosine >= numbers.cosine)
            };
            let flat = |link: &&Link| near(link.nodes) && inside(link, &LIMITS[2..]);
            match links.iter().filter(flat).count() {
                _ if serial() => Some(true),
                0 => Some(false),
                // Each with each in both orders, and with itself: rounding may tell them apart.
                all if all == links.len() => {
                    let each = (0..count).flat_map(|one| (0..count).map(move |two| [one, two]));
                    Some(count <= numbers.most && each.into_iter().all(near))
                }
                _ => None,
            }
        }
        (2.., Some((true, _))) => Some(serial()),
        _ => None,
    }
}

/// That the Rust, which found these groups, merges where the measures settle whether it does.
pub fn hold(accepted: &Accepted, groups: &[Group], tally: &mut Tally) -> Result<(), String> {
    let Some(merges) = foretold(accepted) else { return Ok(()) };
    tally.see(FORETOLD);
    if groups.is_empty() == merges {
        return Err(format!("measures: the Rust has {} groups", groups.len()));
    }
    Ok(())
}

/// How far apart the centres of the two spans are that are in one link each.
fn chain_ends(accepted: &Accepted, links: &[Link]) -> Option<f64> {
    let mut count: BTreeMap<usize, usize> = BTreeMap::new();
    links.iter().flat_map(|link| link.nodes).for_each(|node| *count.entry(node).or_default() += 1);
    let ends: Vec<usize> = count.into_iter().filter(|entry| entry.1 == 1).map(|e| e.0).collect();
    let [one, two] = ends[..] else { return None };
    let [one, two] = [one, two].map(|node| centre(self::ends(accepted, node)));
    Some(exact_length(one[0] - two[0], one[1] - two[1]))
}

/// The limits that a job's own measures just meet, by the number that they are of.
#[derive(Default)]
pub struct Own {
    pub chain: Vec<f64>,
    pub width: Vec<f64>,
    pub geometry: Vec<f64>,
    pub duplicate: Vec<f64>,
    pub envelope: Vec<f64>,
    pub cosine: Vec<f64>,
}

/// The number that a limit made of it is just `wanted` with, where some number about `guess` is.
fn just(wanted: f64, guess: f64, limit: impl Fn(f64) -> f64) -> Option<f64> {
    let near = |off: i64| f64::from_bits((guess.to_bits() as i64).saturating_add(off) as u64);
    let all = [0, 1, -1, 2, -2, 3, -3].map(near).into_iter();
    all.filter(|number| *number >= 0.0).find(|&number| limit(number) == wanted)
}

/// The links in their connected groups.
fn groups(links: Vec<Link>) -> Vec<Vec<Link>> {
    let mut groups: Vec<Vec<Link>> = vec![];
    for link in links {
        let meets = |group: &Vec<Link>| {
            group.iter().any(|other| other.nodes.iter().any(|node| link.nodes.contains(node)))
        };
        let (with, mut rest): (Vec<_>, Vec<_>) = groups.into_iter().partition(meets);
        rest.push(with.into_iter().flatten().chain([link]).collect());
        groups = rest;
    }
    groups
}

/// The limits of all that is measured of a job.
pub fn own(accepted: &Accepted) -> Own {
    let mut own = Own::default();
    for group in groups(links(accepted)) {
        own.chain.push(sum(&group));
        own.chain.extend(chain_ends(accepted, &group));
        let nodes: BTreeSet<usize> = group.iter().flat_map(|link| link.nodes).collect();
        let widths = nodes.iter().map(|&node| accepted.job.boundaries[node].width_pixels);
        let least = widths.clone().fold(f64::INFINITY, f64::min);
        own.width.extend(widths.filter_map(|wide| just(wide, wide - least, |t| least + t)));
        for (&one, &two) in nodes.iter().flat_map(|one| nodes.iter().map(move |two| (one, two))) {
            let (cosine, apart) = parallel(accepted, [one, two]);
            own.cosine.push(cosine);
            own.duplicate.extend(apart);
        }
        for link in &group {
            let wide = link.width(accepted);
            let [across, along] = link.envelopes;
            own.geometry.extend(just(across, across - 1.5 * wide, |g| 1.5 * wide + g));
            let rest = link.distance + wide / 2.0;
            own.geometry.extend(just(along, along - rest, |g| rest + g));
            for (cells, ends) in link.cells.iter().zip(link.ends) {
                own.envelope.extend(just(cells[0], ends[0] - cells[0], |t| ends[0] - t));
                own.envelope.extend(just(cells[1], cells[1] - ends[1], |t| ends[1] + t));
            }
        }
    }
    own
}

/// The sum of the distances, in ascending order.
fn sum(links: &[Link]) -> f64 {
    let mut distances: Vec<_> = links.iter().map(|link| link.distance).collect();
    distances.sort_by(f64::total_cmp);
    distances.iter().sum()
}

/// The limits that were never met, or not on one of their sides.
pub fn missing(tally: &Tally) -> Vec<String> {
    let limits = MET.iter().flat_map(|limit| SIDES.map(|side| format!("slanted: {limit}, {side}")));
    let all = limits.chain(NEAREST.map(str::to_string));
    all.filter(|what| tally.count(what) == 0).map(|what| format!("never: {what}")).collect()
}

//! Upright corridors side by side and level spans across all of them, so that a boundary has a region pair in each corridor.

use crate::draft::{valid, Boundary, Draft};
use crate::rng::Rng;

const CELL: u32 = 8;

/// Corridors of one column, a blocked column between each two, and the spans, one below each row but the last.
#[derive(Clone, Copy)]
pub struct Across {
    pub corridors: u32,
    pub spans: u32,
    /// The first row and the last join all corridors: no region pair is a bridge, and to close a boundary parts the two rows.
    pub joined: bool,
    /// One more corridor that no span cuts: joined as well, it holds the two rows together, and to close a boundary parts nothing.
    pub uncut: bool,
}

impl Across {
    pub fn sides(&self) -> [u32; 2] {
        [2 * (self.corridors + u32::from(self.uncut)) - 1, self.spans + 1]
    }

    pub fn cells(&self) -> Vec<u8> {
        let [width, height] = self.sides();
        let places = (0..height).flat_map(|row| (0..width).map(move |column| (row, column)));
        let open = |(row, column): (u32, u32)| {
            column % 2 == 0 || self.joined && (row == 0 || row + 1 == height)
        };
        places.map(|place| u8::from(open(place))).collect()
    }

    /// The ends of each span, from the upper edge down.
    pub fn ends(&self) -> Vec<[u32; 4]> {
        let right = CELL * (2 * self.corridors - 1);
        (1..=self.spans).map(|row| [0, CELL * row, right, CELL * row]).collect()
    }
}

/// Some corridors and spans: at times a span that reaches only some of them, one listed twice, or a cell blocked or opened; in any
/// order. The list has the same spans, or some of them.
pub fn random(rng: &mut Rng) -> Draft {
    let across = Across {
        corridors: rng.within(2, 5),
        spans: rng.within(2, 6),
        joined: !rng.one_in(5),
        uncut: rng.one_in(3),
    };
    let sides = across.sides();
    let bases = rng.below(2);
    let mut draft = valid(sides, [bases, 0, 0, 0, 0], rng);
    draft.cells = across.cells();
    for _ in 0..rng.pick(&[0, 0, 0, 1, 2]) {
        let at = rng.below(draft.cells.len());
        draft.cells[at] ^= 1;
    }
    let mut spans = across.ends();
    if rng.one_in(3) {
        let short = rng.below(spans.len());
        spans[short][2 * rng.below(2)] = CELL * rng.within(1, 2 * across.corridors - 2);
    }
    if rng.one_in(3) {
        spans.push(spans[rng.below(spans.len())]);
    }
    for i in (1..spans.len()).rev() {
        spans.swap(i, rng.below(i + 1));
    }
    draft.boundaries = spans.iter().map(|&ends| Boundary { ends, ..draft.boundary(rng) }).collect();
    let (observations, sources) = (rng.below(3), rng.below(5));
    draft.share(observations, sources, rng);
    let listed = if rng.one_in(4) { rng.below(spans.len() + 1) } else { spans.len() };
    draft.list = spans[..listed].to_vec();
    draft
}

/// Corridors joined at both ends, and one span across all of them, first, last or anywhere in the list; each other one cuts one
/// corridor.
pub fn one_long(rng: &mut Rng) -> Draft {
    let (corridors, spans) = (rng.within(2, 3), rng.within(3, 7));
    let across = Across { corridors, spans, joined: true, uncut: rng.one_in(3) };
    let mut draft = valid(across.sides(), [0; 5], rng);
    draft.cells = across.cells();
    let mut spans = across.ends();
    let long = spans.remove(rng.below(spans.len()));
    for span in &mut spans {
        let left = 2 * CELL * rng.below(corridors as usize) as u32;
        (span[0], span[2]) = (left, left + CELL);
    }
    let at = rng.below(spans.len() + 1);
    spans.insert(rng.pick(&[0, at, spans.len(), spans.len()]), long);
    draft.boundaries = spans.iter().map(|&ends| Boundary { ends, ..draft.boundary(rng) }).collect();
    draft.list = spans;
    draft
}

/// Corridors joined at both ends and spans across all of them, so many that there are over 256 areas.
pub fn many_areas(uncut: bool, rng: &mut Rng) -> Draft {
    let across = Across { corridors: 12, spans: 24, joined: true, uncut };
    let mut draft = valid(across.sides(), [0; 5], rng);
    draft.cells = across.cells();
    draft.list = across.ends();
    let ends = draft.list.iter();
    draft.boundaries = ends.map(|&ends| Boundary { ends, ..draft.boundary(rng) }).collect();
    draft
}

/// Case 8 of the paper as a map: one span across three corridors, each of which leads from another one of three regions to
/// another, so that every region pair has a way round by the other two. The third region goes round the span's left end.
pub fn case_8(rng: &mut Rng) -> Draft {
    let rows = [
        "...#...", //
        ".#.#.#.", //
        ".#.#.#.", //
        ".#...#.", //
        ".#####.", //
        ".......",
    ];
    let mut draft = valid([7, 6], [0; 5], rng);
    draft.cells = rows.concat().bytes().map(|cell| u8::from(cell == b'.')).collect();
    let ends = [2 * CELL, 2 * CELL, 7 * CELL, 2 * CELL];
    draft.boundaries = vec![Boundary { ends, ..draft.boundary(rng) }];
    draft.list = vec![ends];
    draft
}

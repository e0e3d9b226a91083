//! Maps and spans that try the partition: walls of many shapes, and spans that pass through
//! centres, along edges and corners, or are very short or long.

use crate::draft::{valid, Boundary, Draft};
use crate::rng::Rng;

const WALKABLE: u8 = 1;

/// The shapes of maps.
#[derive(Clone, Copy)]
pub enum Shape {
    Open,
    Noise,
    Comb,
    Checkerboard,
    Spiral,
    Rooms,
    Stripes,
}

pub const SHAPES: [Shape; 7] = [
    Shape::Open,
    Shape::Noise,
    Shape::Comb,
    Shape::Checkerboard,
    Shape::Spiral,
    Shape::Rooms,
    Shape::Stripes,
];

/// The cells of a map: which are walkable is the shape's, the other bits are random.
pub fn cells([width, height]: [u32; 2], shape: Shape, rng: &mut Rng) -> Vec<u8> {
    let (period, dense) = (rng.within(2, 5), rng.within(1, 15) as usize);
    let spiral = matches!(shape, Shape::Spiral).then(|| spiral([width, height]));
    let mut cells = Vec::with_capacity((width * height) as usize);
    for (row, column) in (0..height).flat_map(|row| (0..width).map(move |column| (row, column))) {
        let walkable = match shape {
            Shape::Open => true,
            Shape::Noise => rng.below(16) >= dense,
            Shape::Comb => column % 2 == 0 || row == (column / 2 % 2) * (height - 1),
            Shape::Checkerboard => (row + column) % 2 == 0,
            Shape::Spiral => spiral.as_ref().is_some_and(|s| s[(row * width + column) as usize]),
            Shape::Rooms => {
                let wall = row % period == period - 1 || column % period == period - 1;
                !wall || rng.one_in(4)
            }
            Shape::Stripes => (row + column) % period != 0 || rng.one_in(6),
        };
        cells.push((rng.byte() & 30) | u8::from(walkable) * WALKABLE);
    }
    cells
}

/// A path of one cell's width that winds inwards, with walls between its turns.
fn spiral([width, height]: [u32; 2]) -> Vec<bool> {
    let (width, height) = (width as i32, height as i32);
    let mut open = vec![false; (width * height) as usize];
    let (mut x, mut y, mut dx, mut dy) = (0, 0, 1, 0);
    let free = |open: &[bool], x: i32, y: i32| {
        x >= 0 && y >= 0 && x < width && y < height && !open[(y * width + x) as usize]
    };
    let inside = |x: i32, y: i32| x >= 0 && y >= 0 && x < width && y < height;
    open[0] = true;
    let mut turns = 0;
    while turns < 2 {
        let (nx, ny) = (x + dx, y + dy);
        // A wall is left before the last turn of the path.
        let beyond = (nx + dx, ny + dy);
        let clear = !inside(beyond.0, beyond.1) || free(&open, beyond.0, beyond.1);
        if free(&open, nx, ny) && clear {
            (x, y, turns) = (nx, ny, 0);
            open[(y * width + x) as usize] = true;
        } else {
            (dx, dy) = (-dy, dx);
            turns += 1;
        }
    }
    open
}

/// A span on the map, of one of many kinds; its ends are distinct and either way round.
pub fn span(draft: &Draft, rng: &mut Rng) -> [u32; 4] {
    let most = [8 * draft.width, 8 * draft.height];
    let cell = |rng: &mut Rng| [rng.below(draft.width as usize), rng.below(draft.height as usize)];
    let centre = |rng: &mut Rng| cell(rng).map(|side| 8 * side as u32 + 4);
    let corner = |rng: &mut Rng| [rng.within(0, draft.width) * 8, rng.within(0, draft.height) * 8];
    let near = |rng: &mut Rng, [x, y]: [u32; 2], reach: u32| {
        let mut moved =
            |at: u32, most: u32| rng.within(at.saturating_sub(reach), (at + reach).min(most));
        [moved(x, most[0]), moved(y, most[1])]
    };
    let diagonal = |rng: &mut Rng, [x, y]: [u32; 2]| {
        let down = rng.one_in(2);
        let room = (most[0] - x).min(if down { most[1] - y } else { y });
        let length = rng.within(0, room);
        [x + length, if down { y + length } else { y - length }]
    };
    let (a, b) = match rng.below(9) {
        // Through centres, along a row or column, or any way.
        0 => (centre(rng), centre(rng)),
        1 => {
            let a = centre(rng);
            let b = draft.point(rng);
            (a, if rng.one_in(2) { [a[0], b[1]] } else { [b[0], a[1]] })
        }
        // Along edges and corners of cells.
        2 => (corner(rng), corner(rng)),
        3 => {
            let (a, b) = (corner(rng), corner(rng));
            (a, if rng.one_in(2) { [a[0], b[1]] } else { [b[0], a[1]] })
        }
        // Very short, often about a centre or a corner.
        4 => {
            let at = if rng.one_in(2) { centre(rng) } else { corner(rng) };
            let a = near(rng, at, 2);
            (a, near(rng, a, 3))
        }
        // From one edge of the map to another.
        5 => ([0, rng.within(0, most[1])], [most[0], rng.within(0, most[1])]),
        6 => ([rng.within(0, most[0]), 0], [rng.within(0, most[0]), most[1]]),
        // At 45 degrees, through centres or corners.
        7 => {
            let a = if rng.one_in(2) { centre(rng) } else { corner(rng) };
            (a, diagonal(rng, a))
        }
        // About one step, so that several spans of a map may cut it.
        _ => {
            let at = [4.min(most[0] - 4) + 4, 4];
            (near(rng, at, 9), near(rng, at, 9))
        }
    };
    let [mut a, b] = if rng.one_in(2) { [a, b] } else { [b, a] };
    if a == b {
        a[0] = if a[0] == 0 { 1 } else { a[0] - 1 };
    }
    [a[0], a[1], b[0], b[1]]
}

/// Sides of a map: mostly small, now and then a line or up to 40 cells.
fn sides(rng: &mut Rng) -> [u32; 2] {
    match rng.below(400) {
        0 => rng.pick(&[[1, 1024], [1024, 1]]),
        1..=8 => [rng.within(1, 40), rng.within(1, 40)],
        9..=20 => [1, 1],
        21..=40 => rng.pick(&[[1, 9], [9, 1], [2, 12], [12, 2]]),
        _ => [rng.within(1, 9), rng.within(1, 9)],
    }
}

/// A job whose map and spans try the partition; the list has spans of the same kinds.
pub fn random(rng: &mut Rng) -> Draft {
    let sides = sides(rng);
    with_spans(sides, rng.pick(&SHAPES), rng.pick(&[0, 1, 1, 2, 2, 3, 4, 6, 8]), rng)
}

pub fn with_spans(sides: [u32; 2], shape: Shape, spans: usize, rng: &mut Rng) -> Draft {
    let bases = rng.below(3);
    let mut draft = valid(sides, [bases, 0, 0, 0, 0], rng);
    draft.cells = cells(sides, shape, rng);
    for _ in 0..spans {
        let ends = match draft.boundaries.last() {
            Some(last) if rng.one_in(12) => last.ends,
            _ => span(&draft, rng),
        };
        let boundary = Boundary { ends, ..draft.boundary(rng) };
        draft.boundaries.push(boundary);
    }
    let (observations, sources) = (rng.below(3), rng.below(5));
    draft.share(observations, sources, rng);
    let listed = if rng.one_in(4) { rng.below(4) } else { spans };
    draft.list = (0..listed).map(|_| span(&draft, rng)).collect();
    draft
}

/// A job with `pairs` region pairs, of which 3,951 are of a block whose every cell is alone; each
/// other one is a span's at one step below it.
pub fn many_pairs(pairs: usize, rng: &mut Rng) -> Draft {
    let (columns, rows) = (27, 26);
    let mut draft = valid([columns, rows + 2], [0; 5], rng);
    let blocked = |row: u32| row == rows;
    draft.cells = (0..columns * (rows + 2)).map(|i| u8::from(!blocked(i / columns))).collect();
    let bottom = 8 * rows;
    let mut spans: Vec<[u32; 4]> = (1..columns).map(|c| [8 * c, 0, 8 * c, bottom]).collect();
    spans.extend((1..rows).map(|r| [0, 8 * r, 8 * columns, 8 * r]));
    spans.extend((3951..pairs).map(|_| [8, bottom + 9, 8, bottom + 16]));
    draft.boundaries = spans.iter().map(|&ends| Boundary { ends, ..draft.boundary(rng) }).collect();
    draft.list = spans;
    draft
}

/// Rows of open cells, apart from one another, and spans that go across all of them: a region pair
/// for each row and span.
pub fn rows_parted(rows: u32, spans: u32, rng: &mut Rng) -> Draft {
    let (width, height) = (spans + 1, 2 * rows - 1);
    let mut draft = valid([width, height], [0; 5], rng);
    draft.cells = (0..width * height).map(|i| u8::from(i / width % 2 == 0)).collect();
    let ends = |span: u32| [8 * span, 0, 8 * span, 8 * height];
    draft.boundaries =
        (1..=spans).map(|span| Boundary { ends: ends(span), ..draft.boundary(rng) }).collect();
    draft.share(rng.below(70), rng.below(70), rng);
    draft.list = (1..=spans).map(ends).collect();
    draft
}

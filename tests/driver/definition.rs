//! Labels and assessments from the paper's definitions alone: every step of the map against every
//! span, no strip; for small maps.

use crate::calls::Assessment;

/// Labels, areas and assessments of a map whose walkable cells are given.
pub fn partition(
    [width, height]: [u32; 2],
    walkable: &[bool],
    spans: &[[u32; 4]],
) -> (Vec<u32>, u32, Vec<Assessment>) {
    let steps = steps([width, height], walkable);
    let at = |cell: usize| {
        let (column, row) = (cell as i64 % i64::from(width), cell as i64 / i64::from(width));
        [8 * column + 4, 8 * row + 4]
    };
    let cut = |span: &[u32; 4], &[one, two]: &[usize; 2]| cuts(*span, at(one), at(two));
    // The part of a cell is named by its first cell in row order.
    let mut part: Vec<usize> = (0..walkable.len()).collect();
    for step in steps.iter().filter(|step| !spans.iter().any(|span| cut(span, step))) {
        let [one, two] = step.map(|cell| part[cell]);
        let (first, other) = (one.min(two), one.max(two));
        part.iter_mut().filter(|name| **name == other).for_each(|name| *name = first);
    }
    let mut labels = vec![0; walkable.len()];
    let mut areas = 0;
    for cell in (0..walkable.len()).filter(|&cell| walkable[cell]) {
        areas += u32::from(part[cell] == cell);
        labels[cell] = if part[cell] == cell { areas } else { labels[part[cell]] };
    }
    let assess = |span: &[u32; 4]| {
        let removed: Vec<_> = steps.iter().filter(|step| cut(span, step)).collect();
        let between = removed.iter().map(|step| step.map(|cell| labels[cell]));
        let between = between.filter(|[one, two]| one != two);
        let mut pairs: Vec<_> = between.map(|[a, b]| [a.min(b), a.max(b)]).collect();
        let separated = pairs.len() as u32;
        pairs.sort_unstable();
        pairs.dedup();
        Assessment { removed: removed.len() as u32, separated, pairs }
    };
    let assessments = spans.iter().map(assess).collect();
    (labels, areas, assessments)
}

/// Pairs of walkable neighbours of eight; a diagonal one has both side cells walkable.
fn steps([width, height]: [u32; 2], walkable: &[bool]) -> Vec<[usize; 2]> {
    let (width, height) = (width as usize, height as usize);
    let open = |x: usize, y: usize| x < width && y < height && walkable[y * width + x];
    let mut steps = Vec::new();
    for (x, y) in (0..height).flat_map(|y| (0..width).map(move |x| (x, y))) {
        let mut add = |one: (usize, usize), two: (usize, usize)| {
            // Both cells are walkable, and so are the two beside a diagonal step.
            if open(one.0, one.1) && open(two.0, two.1) && open(one.0, two.1) && open(two.0, one.1)
            {
                steps.push([one.1 * width + one.0, two.1 * width + two.0]);
            }
        };
        add((x, y), (x + 1, y));
        add((x, y), (x, y + 1));
        add((x, y), (x + 1, y + 1));
        add((x + 1, y), (x, y + 1));
    }
    steps
}

/// True if the span cuts the step between two centres: their sides differ, and the point where the
/// step meets the span's line is on the span.
fn cuts([ax, ay, bx, by]: [u32; 4], one: [i64; 2], two: [i64; 2]) -> bool {
    let mut ends = [[ax, ay], [bx, by]].map(|end| end.map(i64::from));
    ends.sort_unstable();
    let [a, b] = ends;
    let side = |p: [i64; 2]| (b[0] - a[0]) * (p[1] - a[1]) - (b[1] - a[1]) * (p[0] - a[0]);
    let (from, to) = (side(one), side(two));
    if (from >= 0) == (to >= 0) {
        return false;
    }
    // The step's point at from ÷ (from − to) of its way, with every coordinate times |from − to|.
    let (whole, part) = ((from - to).abs(), from.abs());
    (0..2).all(|axis| {
        let point = one[axis] * whole + (two[axis] - one[axis]) * part;
        let (low, high) = (a[axis].min(b[axis]), a[axis].max(b[axis]));
        low * whole <= point && point <= high * whole
    })
}

//! The plot of the families: a panel each, time against size, both axes logarithmic.

use crate::grow::{thousands, Family, Point};
use std::fmt::Write;

const PANEL: [f64; 2] = [400.0, 250.0];
/// Left, top, right and lower edge of a panel's frame within it.
const FRAME: [f64; 4] = [64.0, 30.0, 376.0, 204.0];
const TOP: f64 = 40.0;
/// Name, colour and dashes of each line.
const LINES: [(&str, &str, &str); 3] = [
    ("Reduce by the Rust", "#c2410c", ""),
    ("Reduce by the library", "#1d4ed8", ""),
    ("one pass at memory speed", "#6b7280", "4 3"),
];

/// The lines' times at a point; the pass is that over the cells, so that it stands beside these.
fn times(family: &Family, point: &Point) -> [Option<f64>; 3] {
    [Some(point.rust), Some(point.library), (family.axis == "cells").then_some(point.limit)]
}

/// Times to mark on the axis, from one not above the least to one not below the most: powers of ten,
/// and where there are few of them also twice and five times these.
fn marks(least: f64, most: f64) -> Vec<f64> {
    let steps: &[f64] = if most / least > 200.0 { &[1.0] } else { &[1.0, 2.0, 5.0] };
    let all = (-6..6).flat_map(|decade| steps.iter().map(move |step| step * 10_f64.powi(decade)));
    let mut marks: Vec<f64> = all.collect();
    let from = marks.iter().rposition(|&mark| mark <= least).unwrap_or(0);
    let to = marks.iter().position(|&mark| mark >= most).unwrap_or(marks.len() - 1);
    marks.truncate(to + 1);
    marks.split_off(from)
}

/// Where a number lies between two others by its logarithm, 0 to 1.
fn along(number: f64, [low, high]: [f64; 2]) -> f64 {
    (number / low).log10() / (high / low).log10()
}

fn text(out: &mut String, [x, y]: [f64; 2], anchor: &str, words: &str) {
    let _ = writeln!(out, "<text x='{x:.0}' y='{y:.0}' text-anchor='{anchor}'>{words}</text>");
}

fn line(out: &mut String, [x1, y1]: [f64; 2], [x2, y2]: [f64; 2], style: &str) {
    let _ = writeln!(out, "<path d='M{x1:.1} {y1:.1}L{x2:.1} {y2:.1}' fill='none' {style}/>");
}

fn panel(out: &mut String, family: &Family, [left, top]: [f64; 2]) {
    let points: Vec<_> = family.points.iter().filter(|point| point.size > 0).collect();
    let all: Vec<f64> = points.iter().flat_map(|point| times(family, point)).flatten().collect();
    let least = all.iter().copied().fold(f64::INFINITY, f64::min);
    let most = all.iter().copied().fold(0.0, f64::max);
    let marks = marks(least, most);
    let heights = [marks[0], marks[marks.len() - 1]];
    let sizes = [points[0].size as f64, points[points.len() - 1].size as f64];
    let x = |size: f64| left + FRAME[0] + along(size, sizes) * (FRAME[2] - FRAME[0]);
    let y = |time: f64| top + FRAME[3] - along(time, heights) * (FRAME[3] - FRAME[1]);

    text(out, [left + (FRAME[0] + FRAME[2]) / 2.0, top + 20.0], "middle", &family.title);
    for time in marks {
        let digits = -time.log10().floor().min(0.0) as usize;
        let ends = [[x(sizes[0]), y(time)], [x(sizes[1]), y(time)]];
        line(out, ends[0], ends[1], "stroke='#e5e7eb'");
        text(out, [left + FRAME[0] - 6.0, y(time) + 4.0], "end", &format!("{time:.digits$}"));
    }
    let every = points.len().div_ceil(7);
    for (i, point) in points.iter().enumerate() {
        let at = x(point.size as f64);
        line(out, [at, top + FRAME[3]], [at, top + FRAME[3] + 4.0], "stroke='#6b7280'");
        if i % every == 0 {
            text(out, [at, top + FRAME[3] + 17.0], "middle", &thousands(point.size));
        }
    }
    let middle = left + (FRAME[0] + FRAME[2]) / 2.0;
    text(out, [middle, top + FRAME[3] + 34.0], "middle", family.axis);
    let (beside, half) = (left + 14.0, top + (FRAME[1] + FRAME[3]) / 2.0);
    let turn = format!("transform='rotate(-90 {beside:.0} {half:.0})'");
    let place = format!("x='{beside:.0}' y='{half:.0}' text-anchor='middle'");
    let _ = writeln!(out, "<text {place} {turn}>milliseconds</text>");

    for (i, (_, colour, dashes)) in LINES.iter().enumerate() {
        let mut path = String::new();
        for point in &points {
            if let Some(time) = times(family, point)[i] {
                let pen = if path.is_empty() { 'M' } else { 'L' };
                let _ = write!(path, "{pen}{:.1} {:.1}", x(point.size as f64), y(time));
            }
        }
        if !path.is_empty() {
            let style = format!("stroke='{colour}' stroke-width='2' stroke-dasharray='{dashes}'");
            let _ = writeln!(out, "<path d='{path}' fill='none' {style}/>");
        }
    }
}

/// The plot as an SVG image, two panels a row.
pub fn svg(families: &[Family]) -> String {
    let rows = families.len().div_ceil(2) as f64;
    let [width, height] = [2.0 * PANEL[0], TOP + rows * PANEL[1]];
    let mut out = format!(
        "<svg xmlns='http://www.w3.org/2000/svg' viewBox='0 0 {width} {height}' width='{width}' \
         height='{height}' font-family='sans-serif' font-size='12' fill='#111827'>\n\
         <rect width='{width}' height='{height}' fill='white'/>\n<g>\n"
    );
    let mut at = 120.0;
    for (name, colour, dashes) in LINES {
        let style = format!("stroke='{colour}' stroke-width='2' stroke-dasharray='{dashes}'");
        line(&mut out, [at, 20.0], [at + 30.0, 20.0], &style);
        text(&mut out, [at + 36.0, 24.0], "start", name);
        at += 180.0;
    }
    for (i, family) in families.iter().enumerate() {
        panel(&mut out, family, [(i % 2) as f64 * PANEL[0], TOP + (i / 2) as f64 * PANEL[1]]);
    }
    out + "</g>\n</svg>\n"
}

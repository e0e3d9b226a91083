//! Assembles the oracle, a crate of the real Rust, from a checkout of broodmap.
//!
//!     extract SOURCES OUT [NUMBER ...]
//!
//! SOURCES holds broodmap-analysis/src; OUT receives the crate, with lib.rs at its root.
//! Whole files are taken as they are, single items by their first line. There are three edits:
//! `.hypot(` becomes `.exact_length(`, the project's own length (exact_length.rs), the driver
//! is told a link's envelopes (api.rs), and the eight constants of the merging are free: each use of
//! one becomes a read of the numbers that are in force on the thread (free.rs), while the constants
//! themselves stay and are those of `Thresholds::DECLARED` (thresholds.rs). Where eight NUMBERs are
//! given, nothing is free: they are written into the constants, in the order of the text.
//! Whatever is not as expected (a missing or doubled text, another number of edits, another
//! fingerprint) ends the program with a message and a nonzero status.

use std::fmt::Display;
use std::path::Path;
use std::{fs, process};

/// Ends the program: `what` is wrong about `text` in `file`.
fn fail(file: &str, what: impl Display, text: &str) -> ! {
    eprintln!("extract: {file}: {what}: {text}");
    process::exit(1);
}

/// A source file: its path under broodmap-analysis/src, and its lines without unit tests.
struct Source {
    path: &'static str,
    lines: Vec<String>,
}

impl Source {
    fn read(sources: &Path, path: &'static str) -> Self {
        let file = sources.join("broodmap-analysis/src").join(path);
        let text = fs::read_to_string(&file)
            .unwrap_or_else(|error| fail(path, error, &file.display().to_string()));
        let lines = text.trim_end().lines().map(|line| line.trim_end().to_string());
        Self { path, lines: without_tests(lines.collect()) }
    }

    /// The number of the only line for which `wanted` holds.
    fn only(&self, text: &str, wanted: impl Fn(&str) -> bool) -> usize {
        let found: Vec<_> = (0..self.lines.len()).filter(|&i| wanted(&self.lines[i])).collect();
        if found.len() != 1 {
            fail(self.path, format!("expected once, found {} times", found.len()), text);
        }
        found[0]
    }

    /// A one-line item that begins with `start`.
    fn line(&self, start: &str) -> String {
        let line = &self.lines[self.only(start, |line| line.starts_with(start))];
        if !line.ends_with(';') {
            fail(self.path, "expected an item of one line", start);
        }
        format!("{line}\n")
    }

    /// The item whose first line is `first`, with the comments and attributes above it, up to
    /// the closing brace of its own indent.
    fn block(&self, first: &str) -> String {
        let at = self.only(first, |line| line == first);
        let above = |line: &&String| {
            let text = line.trim_start();
            text.starts_with("///") || text.starts_with("#[")
        };
        let start = at - self.lines[..at].iter().rev().take_while(above).count();
        let indent = first.len() - first.trim_start().len();
        let close = format!("{}}}", " ".repeat(indent));
        let Some(length) = self.lines[at..].iter().position(|line| *line == close) else {
            fail(self.path, "no closing brace for", first)
        };
        let item = self.lines[start..=at + length].join("\n") + "\n";
        if item.matches('{').count() != item.matches('}').count() {
            fail(self.path, "braces don't match in", first);
        }
        item
    }

    fn whole(&self) -> String {
        self.lines.join("\n") + "\n"
    }

    /// The extracted text with its lengths made exact: `edits` of them, no other `hypot`.
    fn checked(&self, text: String, edits: usize, fingerprint: u64) -> String {
        let calls = text.matches(".hypot(").count();
        if calls != edits || text.matches("hypot").count() != edits {
            fail(self.path, format!("expected {edits} times, found {calls} calls"), ".hypot(");
        }
        if fnv(&text) != fingerprint {
            let found = format!("{:#018x}, expected {fingerprint:#018x}", fnv(&text));
            fail(self.path, "the text is not that of the named commit, fingerprint", &found);
        }
        let text = text.replace(".hypot(", ".exact_length(");
        if edits == 0 {
            text
        } else {
            format!("use crate::exact_length::ExactLength;\n{text}")
        }
    }
}

/// Leaves out a module of unit tests, which is no part of the oracle.
fn without_tests(lines: Vec<String>) -> Vec<String> {
    let mut kept = Vec::new();
    let mut rest = lines.into_iter().peekable();
    while let Some(line) = rest.next() {
        if line != "#[cfg(test)]" {
            kept.push(line);
            continue;
        }
        match rest.next() {
            Some(item) if item.starts_with("mod ") && item.ends_with('{') => {
                while rest.next().is_some_and(|line| line != "}") {}
            }
            Some(item) if item.starts_with("mod ") => {}
            other => kept.extend([Some(line), other].into_iter().flatten()),
        }
    }
    while kept.last().is_some_and(|line| line.is_empty()) {
        kept.pop();
    }
    kept
}

/// FNV-1a in 64 bits: tells whether the text is the expected one.
fn fnv(text: &str) -> u64 {
    text.bytes().fold(0xcbf2_9ce4_8422_2325, |hash, byte| {
        (hash ^ u64::from(byte)).wrapping_mul(0x0000_0100_0000_01b3)
    })
}

/// The grid: positions, cells, index, neighbours, and the constructor. No routes, no assets.
fn grid(sources: &Path) -> String {
    let source = Source::read(sources, "lib.rs");
    let constants = [
        "const MAX_TILES_PER_AXIS: usize = ",
        "const WALK_CELLS_PER_TILE: usize = ",
        "const MAX_CELLS_PER_AXIS: usize = ",
        "const MAX_CELL_COUNT: usize = ",
        "const ORTHOGONAL_COST: u64 = ",
        "const DIAGONAL_COST: u64 = ",
    ];
    let types = [
        "pub struct WalkPosition {",
        "pub struct TerrainCell {",
        "pub struct TerrainGrid {",
        "pub enum AnalysisError {",
        "pub enum Endpoint {",
        "fn validate_grid_shape(width: u32, height: u32) -> Result<usize, AnalysisError> {",
    ];
    let methods = [
        "    pub fn from_cells(",
        "    pub fn width(&self) -> u32 {",
        "    pub fn height(&self) -> u32 {",
        "    pub fn cells(&self) -> &[TerrainCell] {",
        "    pub fn cell(&self, position: WalkPosition) -> Option<&TerrainCell> {",
        "    fn index(&self, position: WalkPosition) -> Option<usize> {",
        "    fn position(&self, index: usize) -> WalkPosition {",
        "    fn neighbors(&self, position: WalkPosition) -> impl Iterator<Item = (WalkPosition, u64)> + '_ {",
    ];
    let mut text = String::new();
    text.extend(constants.map(|start| source.line(start)));
    text.extend(types.map(|first| source.block(first)));
    text += "impl TerrainGrid {\n";
    text.extend(methods.map(|first| source.block(first)));
    text += "}\n";
    source.checked(text, 0, 0x4e86_3d39_b566_201a)
}

fn positions(sources: &Path) -> String {
    let source = Source::read(sources, "bases/mod.rs");
    source.checked(source.block("pub struct PixelPosition {"), 0, 0x65f9_35eb_aad0_f731)
}

fn topology(sources: &Path) -> String {
    let source = Source::read(sources, "topology/mod.rs");
    let types = [
        "pub struct TopologyBase {",
        "pub enum RampSide {",
        "pub struct RampBoundary {",
        "pub struct TopologyObservation {",
        "pub struct TopologyBoundary {",
    ];
    let text = types.map(|first| source.block(first)).concat();
    source.checked(text, 0, 0x0242_b442_88eb_ee3e)
}

fn whole(sources: &Path, path: &'static str, edits: usize, fingerprint: u64) -> String {
    let source = Source::read(sources, path);
    source.checked(source.whole(), edits, fingerprint)
}

/// A constant of the merging: how its item begins, how often it is used besides, and what stands for
/// it in `Thresholds`.
struct Constant {
    name: &'static str,
    item: &'static str,
    uses: usize,
    field: &'static str,
}

const fn constant(
    name: &'static str,
    item: &'static str,
    uses: usize,
    field: &'static str,
) -> Constant {
    Constant { name, item, uses, field }
}

const CONSTANTS: [Constant; 8] = [
    constant("MAX_GROUP_SPANS", "const MAX_GROUP_SPANS: usize = ", 1, "most"),
    constant("MIN_GROUP_SPANS", "const MIN_GROUP_SPANS: usize = ", 1, "least"),
    constant("MAX_CHAIN_DISTANCE_PIXELS", "const MAX_CHAIN_DISTANCE_PIXELS: f64 = ", 2, "chain"),
    constant("WIDTH_TOLERANCE_PIXELS", "const WIDTH_TOLERANCE_PIXELS: f64 = ", 1, "width"),
    constant("GEOMETRY_TOLERANCE_PIXELS", "const GEOMETRY_TOLERANCE_PIXELS: f64 = ", 2, "geometry"),
    constant(
        "FLAT_DUPLICATE_DISTANCE_PIXELS",
        "const FLAT_DUPLICATE_DISTANCE_PIXELS: f64 = ",
        1,
        "duplicate",
    ),
    constant(
        "FLAT_ENVELOPE_TOLERANCE_PIXELS",
        "const FLAT_ENVELOPE_TOLERANCE_PIXELS: f64 = ",
        2,
        "envelope",
    ),
    constant("PARALLEL_COSINE", "const PARALLEL_COSINE: f64 = ", 1, "cosine"),
];

/// The merging with its constants free, or with these numbers in them.
fn with_constants(path: &str, text: &str, numbers: &[String]) -> String {
    for constant in CONSTANTS {
        let items = text.lines().filter(|line| line.starts_with(constant.item)).count();
        let named = text.matches(constant.name).count();
        if items != 1 || named != 1 + constant.uses {
            let found = format!("expected {} uses, found {items} items, {named}", constant.uses);
            fail(path, found, constant.name);
        }
    }
    let mut made = String::new();
    for line in text.lines() {
        let mut line = line.to_string();
        match CONSTANTS.iter().position(|constant| line.starts_with(constant.item)) {
            Some(i) if !numbers.is_empty() => {
                line = format!("{}{};", CONSTANTS[i].item, numbers[i]);
            }
            None if numbers.is_empty() => {
                for constant in CONSTANTS {
                    line = line.replace(constant.name, &format!("free::now().{}", constant.field));
                }
            }
            _ => {}
        }
        made += &line;
        made += "\n";
    }
    made
}

/// The merging, with the driver's module in it, which is handed both envelopes of every link.
fn serial(sources: &Path, numbers: &[String]) -> String {
    let path = "topology/serial.rs";
    let text = whole(sources, path, 4, 0x5367_c996_6883_a973);
    let test = "            (transverse_envelope <= ";
    if text.matches(test).count() != 1 {
        fail(path, "expected once", test);
    }
    let told = "            api::saw(index, transverse_envelope, longitudinal_envelope);\n";
    let text = with_constants(path, &text, numbers).replace(test, &format!("{told}{test}"));
    let free = if numbers.is_empty() { "pub mod free;\n" } else { "" };
    format!("{text}pub mod api;\n{free}pub mod thresholds;\n")
}

/// What the project puts around the extracted items: module heads and re-exports.
const ROOT: &str = "\
pub mod areas;
pub mod bases;
pub mod exact_length;
pub mod topology;
pub use areas::{AreaError, BoundaryAssessment, BoundarySpan, PartitionArea, SpanPartition};
pub use bases::PixelPosition;
pub use topology::serial::{api, thresholds};
use thiserror::Error;
";
const FREE: &str = "pub use topology::serial::free;\n";
const TOPOLOGY_HEAD: &str = "\
pub(crate) mod context;
pub mod serial;
use crate::{PixelPosition, WalkPosition};
";

fn main() {
    let arguments: Vec<String> = std::env::args().collect();
    let (sources, out, numbers) = match &arguments[..] {
        [_, sources, out, numbers @ ..] if [0, CONSTANTS.len()].contains(&numbers.len()) => {
            (Path::new(sources), Path::new(out), numbers)
        }
        _ => {
            eprintln!("usage: extract SOURCES OUT [NUMBER ...], eight numbers or none");
            process::exit(2);
        }
    };
    let free = if numbers.is_empty() { FREE } else { "" };
    let mut files = vec![
        ("lib.rs", ROOT.to_string() + free + &grid(sources)),
        ("bases.rs", positions(sources)),
        ("areas.rs", whole(sources, "areas.rs", 0, 0x2a78_c1c8_ae3c_de6a)),
        ("topology/mod.rs", TOPOLOGY_HEAD.to_string() + &topology(sources)),
        ("topology/context.rs", whole(sources, "topology/context.rs", 1, 0x1887_1eae_522b_2549)),
        ("topology/serial.rs", serial(sources, numbers)),
        ("topology/serial/api.rs", include_str!("api.rs").to_string()),
        ("topology/serial/thresholds.rs", include_str!("thresholds.rs").to_string()),
        ("exact_length.rs", include_str!("exact_length.rs").to_string()),
    ];
    if numbers.is_empty() {
        files.push(("topology/serial/free.rs", include_str!("free.rs").to_string()));
    }
    for (path, text) in files {
        let file = out.join(path);
        let folder = file.parent().expect("a file has a folder");
        let written = fs::create_dir_all(folder).and_then(|()| fs::write(&file, text));
        if let Err(error) = written {
            fail(path, error, &file.display().to_string());
        }
    }
}

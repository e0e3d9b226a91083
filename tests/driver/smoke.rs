//! That the oracle is the Rust of the paper: its cases on a map, lengths, and whole runs.

use crate::draft::{self, Boundary, Draft};
use crate::rng::Rng;
use crate::rust;
use oracle::api::{self, AnalysisError, Context, TerrainGrid};
use oracle::exact_length::{exact_length, half_root};
use std::collections::BTreeSet;

pub fn all(seed: u64) {
    lengths(seed);
    two_cells();
    corridor();
    grids();
    whole_runs(seed);
    println!(
        "oracle: lengths, cases 2 to 4, the corridor and whole runs are as the paper has them"
    );
}

/// The rounded root against the machine's square root, which IEEE 754 rounds correctly.
fn lengths(seed: u64) {
    assert_eq!(exact_length(3.0, -4.0), 5.0, "doubled differences 6, 8");
    assert_eq!(exact_length(0.5, 0.0), 0.5);
    let mut rng = Rng::new(seed);
    let largest = 1 << 29;
    let random: Vec<u64> = (0..100_000).map(|_| rng.next() % (largest + 1)).collect();
    for d in (0..100_000).chain(random).chain([largest - 1, largest]) {
        assert_eq!(half_root(d), (d as f64).sqrt() / 2.0, "half the root of {d}");
    }
}

/// Cases 2 to 4: a map of two walkable cells and one span.
fn two_cells() {
    let grid = api::grid(2, 1, &[1, 1]);
    for (span, labels, steps) in [
        ([8, 0, 8, 8], [1, 2], [1, 1]),
        ([4, 0, 4, 8], [1, 2], [1, 1]),
        ([4, 8, 4, 0], [1, 2], [1, 1]),
        ([12, 0, 12, 8], [1, 1], [0, 0]),
    ] {
        let partition = api::partition(&grid, &[span]).expect("a span on the map");
        let found = &partition.boundaries()[0];
        assert_eq!(partition.labels(), labels, "labels by {span:?}");
        assert_eq!([found.removed_edge_count, found.separated_edge_count], steps, "{span:?}");
        let bridges = Context::new(&grid, &partition, &[]).bridges();
        assert_eq!(bridges.contains(&0), labels[0] != labels[1], "bridge by {span:?}");
    }
}

/// Case 12: one boundary is kept, two where the second cell holds an anchor.
fn corridor() {
    let boundary = |column| Boundary {
        ends: [column, 0, column, 8],
        bits: 8.0_f64.to_bits(),
        sources: 1,
        ..Boundary::default()
    };
    let mut draft = Draft {
        width: 4,
        height: 1,
        cells: vec![1; 4],
        boundaries: vec![boundary(8), boundary(16)],
        sources: vec![[1, 2], [2, 1]],
        ..Draft::default()
    };
    let job = draft.input().job;
    assert_eq!(job.len(), 148);
    let (labels, answer) = reduce(&job);
    assert_eq!(labels, [1, 2, 3, 3]);

    // The paper's listing: header, boundary, observations, sources.
    let eight = 0x4020_0000;
    let words: [&[u32]; 5] = [
        &[1, 2, 4, 64, 120, 152],
        &[8, 0, 8, 8, 0, eight, 2, 2, 0, 0],
        &[8, 0, 8, 8, 0, eight, 1],
        &[16, 0, 16, 8, 0, eight, 1],
        &[1, 2, 2, 1, 1, 2, 2, 1],
    ];
    let bytes: Vec<u8> = words.concat().iter().flat_map(|word| word.to_le_bytes()).collect();
    assert_eq!(answer, bytes, "the corridor's answer");

    draft.bases = vec![[0, 1, 0]];
    let (_, answer) = reduce(&draft.input().job);
    assert_eq!(answer[..4], 2_u32.to_le_bytes(), "boundaries kept about an anchor");
}

/// Labels and answer of the Rust, partitioned by the boundaries' own ends.
fn reduce(job: &[u8]) -> (Vec<u32>, Vec<u8>) {
    let job = rust::job(job);
    let (partition, kept) = job.reduce();
    (partition.labels().to_vec(), rust::answer(&kept))
}

/// The Rust's constructor refuses just the sides that refusal 2 names, and elevation 3.
fn grids() {
    let sides = [0, 1, 2, 1023, 1024, 1025, 65_536, u32::MAX];
    for (width, height) in sides.iter().flat_map(|&width| sides.map(|height| (width, height))) {
        let fits = |side| (1..=1024).contains(&side);
        let said = TerrainGrid::from_cells(width, height, vec![]);
        let refused = matches!(said, Err(AnalysisError::InvalidGridDimensions { .. }));
        assert_eq!(refused, !(fits(width) && fits(height)), "sides {width}, {height}");
    }
    for byte in 0..32 {
        let made = TerrainGrid::from_cells(1, 1, vec![api::cell(byte)]);
        assert_eq!(made.is_ok(), byte < 24, "cell byte {byte}");
        assert_eq!(api::grid(1, 1, &[byte]).cells(), [api::cell(byte)]);
    }
}

/// Random jobs through all of the oracle: it ends, and no own source comes or goes.
fn whole_runs(seed: u64) {
    for case in 0..500 {
        let mut rng = Rng::of_case(seed, case);
        let job = rust::job(&draft::random(&mut rng).input().job);
        let (_, kept) = job.reduce();
        let own = |boundaries: &[api::TopologyBoundary]| -> BTreeSet<[u32; 2]> {
            boundaries.iter().flat_map(|boundary| boundary.sources.clone()).collect()
        };
        assert_eq!(own(&kept), own(&job.boundaries), "own sources of case {case}");
    }
}

//! What the driver reaches of the oracle. A child of the module of the serial merging, so that
//! private items are within reach and no visibility is edited.

use super::{
    bridge_boundary_indices, candidate_links, collapse_serial_boundaries, full_graph,
    measure_links, EdgeRecord, FullGraph,
};
use crate::topology::context::PartitionContext;
use std::cell::RefCell;
use std::collections::{BTreeMap, BTreeSet};

pub use crate::topology::{
    RampBoundary, RampSide, TopologyBase, TopologyBoundary, TopologyObservation,
};
pub use crate::{
    AnalysisError, AreaError, BoundaryAssessment, BoundarySpan, PartitionArea, PixelPosition,
    SpanPartition, TerrainCell, TerrainGrid, WalkPosition,
};

/// A cell from its byte in a job.
pub fn cell(byte: u8) -> TerrainCell {
    TerrainCell {
        walkable: byte & 1 != 0,
        terrain_buildable: byte & 2 != 0,
        ramp: byte & 4 != 0,
        elevation: byte >> 3 & 3,
    }
}

/// The grid of a job. The Rust's constructor makes it, save where it refuses elevation 3, which
/// the port accepts: there the same fields are filled in directly.
pub fn grid(width: u32, height: u32, cells: &[u8]) -> TerrainGrid {
    let cells: Vec<_> = cells.iter().copied().map(cell).collect();
    match TerrainGrid::from_cells(width, height, cells.clone()) {
        Err(AnalysisError::InvalidElevation { elevation: 3, .. }) => {
            TerrainGrid { width, height, cells }
        }
        made => made.expect("a checked job has a grid"),
    }
}

/// The grid with every cell a ramp, where no group is flat.
pub fn all_ramps(grid: &TerrainGrid) -> TerrainGrid {
    let cells = grid.cells.iter().map(|&cell| TerrainCell { ramp: true, ..cell }).collect();
    TerrainGrid { cells, ..*grid }
}

/// Two ends as column, row, column, row.
pub fn ends([ax, ay, bx, by]: [u32; 4]) -> [PixelPosition; 2] {
    [PixelPosition { x: ax, y: ay }, PixelPosition { x: bx, y: by }]
}

pub fn partition(grid: &TerrainGrid, spans: &[[u32; 4]]) -> Result<SpanPartition, AreaError> {
    let spans: Vec<_> = spans.iter().map(|&span| BoundarySpan { endpoints: ends(span) }).collect();
    grid.partition_by_spans(&spans)
}

/// What the Rust knows of one region.
pub struct Region {
    pub cells: usize,
    /// Least column and row, greatest column and row, in pixels.
    pub bounds: [f64; 4],
    pub has_ramp: bool,
    pub elevations: u8,
    pub elevation_counts: [usize; 4],
}

/// A link that the Rust looks at, measured.
pub struct Measured {
    pub region: u32,
    /// By input index, the first by canonical ends first.
    pub boundaries: [usize; 2],
    /// Transverse and longitudinal; none of a region without cells.
    pub envelopes: Option<[f64; 2]>,
    pub passing: bool,
    pub inside_flat: bool,
}

thread_local! {
    /// Both envelopes of each link, by its index, as the Rust has them when it tests them.
    static ENVELOPES: RefCell<BTreeMap<usize, [f64; 2]>> = const { RefCell::new(BTreeMap::new()) };
}

/// The Rust's measuring says what it found (extract.rs).
pub(super) fn saw(link: usize, transverse: f64, longitudinal: f64) {
    ENVELOPES.with_borrow_mut(|all| all.insert(link, [transverse, longitudinal]));
}

/// A partition in context, as the Rust's merging takes it.
pub struct Context<'a>(PartitionContext<'a>);

impl<'a> Context<'a> {
    pub fn new(
        grid: &'a TerrainGrid,
        partition: &'a SpanPartition,
        bases: &[TopologyBase],
    ) -> Self {
        Self(PartitionContext::new(grid, partition, bases))
    }

    /// The labels of the anchors' cells.
    pub fn anchored(&self) -> &BTreeSet<u32> {
        &self.0.anchored
    }

    /// The boundaries that touch each region.
    pub fn incidents(&self) -> &BTreeMap<u32, BTreeSet<usize>> {
        &self.0.incidents
    }

    pub fn region(&self, label: u32) -> Option<Region> {
        self.0.stats.get(&label).map(|stats| Region {
            cells: stats.cells,
            bounds: [stats.min_x, stats.min_y, stats.max_x, stats.max_y],
            has_ramp: stats.has_ramp,
            elevations: stats.elevations,
            elevation_counts: stats.elevation_counts,
        })
    }

    /// The links between boundaries, measured.
    pub fn links(&self, boundaries: &[TopologyBoundary]) -> Vec<Measured> {
        let mut links = candidate_links(boundaries, &self.0, &full_graph(&self.0));
        ENVELOPES.with_borrow_mut(BTreeMap::clear);
        let passing = measure_links(&mut links, &self.0);
        let envelopes = ENVELOPES.take();
        let measured = links.iter().enumerate().map(|(i, link)| Measured {
            region: link.region,
            boundaries: link.nodes,
            envelopes: envelopes.get(&i).copied(),
            passing: passing.contains(&i),
            inside_flat: link.inside_flat_envelope,
        });
        measured.collect()
    }

    /// The boundaries that are bridges.
    pub fn bridges(&self) -> BTreeSet<usize> {
        bridge_boundary_indices(&full_graph(&self.0))
    }

    /// The kept boundaries.
    pub fn collapse(&self, boundaries: &[TopologyBoundary]) -> Vec<TopologyBoundary> {
        collapse_serial_boundaries(boundaries, &self.0)
    }
}

/// The owners that are bridges of a bare list of records: owner, left, right.
pub fn bridges_of(records: &[[u32; 3]]) -> BTreeSet<usize> {
    let mut graph = FullGraph::default();
    for &[owner, left, right] in records {
        let edge = graph.edges.len();
        graph.edges.push(EdgeRecord { boundary: owner as usize, left, right });
        graph.adjacency.entry(left).or_default().push(edge);
        graph.adjacency.entry(right).or_default().push(edge);
    }
    bridge_boundary_indices(&graph)
}

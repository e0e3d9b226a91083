//! The eight numbers of the merging.

/// They stand in the order of a block of thresholds.
#[derive(Clone, Copy, Debug, PartialEq)]
pub struct Thresholds {
    /// Of a serial group.
    pub least: usize,
    /// Of a group of either kind.
    pub most: usize,
    pub chain: f64,
    pub width: f64,
    pub geometry: f64,
    pub duplicate: f64,
    pub envelope: f64,
    pub cosine: f64,
}

impl Thresholds {
    /// Those that the constants of the text have: the numbers of 000, or what was written there.
    pub const DECLARED: Self = Self {
        least: super::MIN_GROUP_SPANS,
        most: super::MAX_GROUP_SPANS,
        chain: super::MAX_CHAIN_DISTANCE_PIXELS,
        width: super::WIDTH_TOLERANCE_PIXELS,
        geometry: super::GEOMETRY_TOLERANCE_PIXELS,
        duplicate: super::FLAT_DUPLICATE_DISTANCE_PIXELS,
        envelope: super::FLAT_ENVELOPE_TOLERANCE_PIXELS,
        cosine: super::PARALLEL_COSINE,
    };
}

//! What the Rust knows of a region and of a link, as the library's functions tell it.

use crate::rust::card_words;
use oracle::api::{Context, Measured, SpanPartition};

/// The words of a region: its area's cells; cells, box, ramp and cells of each elevation; anchored.
pub fn region_words(partition: &SpanPartition, context: &Context, label: u32) -> [u32; 12] {
    let area = partition.areas().iter().find(|area| area.id == label);
    let mut words = [0; 12];
    words[0] = area.map_or(0, |area| area.cell_count as u32);
    if let Some(region) = context.region(label) {
        words[1..11].copy_from_slice(&card_words(&region));
    }
    words[11] = u32::from(context.anchored().contains(&label));
    words
}

/// The bytes of a link: 0 empty, 1 within or 2 beyond; both envelopes' bits; inside the flat one.
pub fn link_bytes(link: &Measured) -> Vec<u8> {
    let kind = match link.envelopes {
        None => 0u32,
        Some(_) if link.passing => 1,
        Some(_) => 2,
    };
    let bits = link.envelopes.map_or([0; 2], |both| both.map(f64::to_bits));
    let mut bytes = kind.to_le_bytes().to_vec();
    bits.iter().for_each(|bits| bytes.extend(bits.to_le_bytes()));
    bytes.extend(u32::from(link.inside_flat).to_le_bytes());
    bytes
}

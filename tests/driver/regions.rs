//! Regions and links: statistics, cell counts and anchors of the regions of a partition, and both
//! envelopes of every link, compared with the Rust's word by word.

use crate::checks::{Refusal, REDUCE};
use crate::draft::Input;
use crate::expect::{self, Accepted, MOST_PAIRS};
use crate::known::{link_bytes, region_words};
use crate::lent::Lent;
use crate::rng::Rng;
use crate::rust::Job;
use crate::tally::Tally;
use crate::thresholds;
use oracle::api::{Context, SpanPartition};

/// Kinds of comparison: a run of maps or corridors that has none of one fails.
pub const REGIONS: &str = "regions compared";
pub const LINKS: &str = "links compared";
pub const ENVELOPES: &str = "envelopes compared";

/// Cells looked at for the regions of one partition; beyond, some of its regions are drawn.
const MOST_LOOKS: usize = 60_000;

#[repr(C)]
struct CallResult {
    number: u32,
    detail: u64,
}

#[link(name = "probe")]
extern "C" {
    fn probe_region(
        job: *const u8,
        job_len: usize,
        labels: *const u8,
        labels_len: usize,
        region: u32,
        out: *mut u8,
        out_len: usize,
    ) -> CallResult;
    fn probe_link(
        job: *const u8,
        job_len: usize,
        labels: *const u8,
        labels_len: usize,
        region: u32,
        first: u32,
        second: u32,
        out: *mut u8,
        out_len: usize,
    ) -> CallResult;
}

/// What is known of a region by the labels. The slices are lent for the call and overlap nowhere.
fn region(job: &[u8], labels: &[u8], region: u32, out: &mut [u8]) -> Refusal {
    let (ins, outs) = ((labels.as_ptr(), labels.len()), (out.as_mut_ptr(), out.len()));
    let said =
        unsafe { probe_region(job.as_ptr(), job.len(), ins.0, ins.1, region, outs.0, outs.1) };
    (said.number, said.detail)
}

/// What the link of two boundaries measures in a region.
fn link(job: &[u8], labels: &[u8], [region, a, b]: [u32; 3], out: &mut [u8]) -> Refusal {
    let (ins, outs) = ((labels.as_ptr(), labels.len()), (out.as_mut_ptr(), out.len()));
    let said =
        unsafe { probe_link(job.as_ptr(), job.len(), ins.0, ins.1, region, a, b, outs.0, outs.1) };
    (said.number, said.detail)
}

pub fn compare(
    input: &Input,
    lent: &mut Lent,
    rng: &mut Rng,
    tally: &mut Tally,
) -> Result<(), String> {
    // The probes are with the numbers of 000.
    let read = expect::accepted(REDUCE, &input.job, &[], &thresholds::OF_000);
    let Ok(Accepted { job, partition, .. }) = read else { return Ok(()) };
    if expect::pairs(&partition) > MOST_PAIRS {
        return Ok(());
    }
    let labels: Vec<u8> = partition.labels().iter().flat_map(|label| label.to_le_bytes()).collect();
    // These runs are not a call's.
    oracle::count::uncounted(|| {
        let context = Context::new(&job.grid, &partition, &job.bases);
        regions(input, &labels, &partition, &context, lent, rng, tally)?;
        links(input, &labels, &job, &context, lent, rng, tally)
    })
}

/// Labels to look at: all, or some where there are many cells; one that no cell has besides.
fn some_labels(areas: u32, cells: usize, rng: &mut Rng) -> Vec<u32> {
    let most = (MOST_LOOKS / cells.max(1)).max(2);
    let mut labels: Vec<u32> = if areas as usize <= most {
        (1..=areas).collect()
    } else {
        (0..most).map(|_| 1 + rng.below(areas as usize) as u32).collect()
    };
    labels.push(areas + 1);
    labels
}

fn regions(
    input: &Input,
    labels: &[u8],
    partition: &SpanPartition,
    context: &Context,
    lent: &mut Lent,
    rng: &mut Rng,
    tally: &mut Tally,
) -> Result<(), String> {
    let areas = partition.areas().len() as u32;
    for label in some_labels(areas, partition.labels().len(), rng) {
        let words = region_words(partition, context, label);
        let bytes: Vec<u8> = words.iter().flat_map(|word| word.to_le_bytes()).collect();
        let call = |job: &[u8], labels: &[u8], out: &mut [u8]| region(job, labels, label, out);
        one(&format!("region {label}"), input, labels, &bytes, call, lent, rng)?;
        if label <= areas {
            tally.see(REGIONS);
            if words[11] == 1 {
                tally.see("regions with an anchor");
            }
            if words[7..11].iter().filter(|&&cells| cells > 0).count() > 1 {
                tally.see("regions of several elevations");
            }
        }
    }
    Ok(())
}

fn links(
    input: &Input,
    labels: &[u8],
    job: &Job,
    context: &Context,
    lent: &mut Lent,
    rng: &mut Rng,
    tally: &mut Tally,
) -> Result<(), String> {
    for found in context.links(&job.boundaries) {
        let mut touching: Vec<_> = context.incidents()[&found.region].iter().copied().collect();
        let mut both = found.boundaries;
        touching.sort_unstable();
        both.sort_unstable();
        if touching != both {
            return Err(format!("the Rust's link of {both:?}, where {touching:?} touch"));
        }
        let [a, b] = found.boundaries.map(|i| i as u32);
        let call = |job: &[u8], labels: &[u8], out: &mut [u8]| {
            link(job, labels, [found.region, a, b], out)
        };
        let name = format!("link of {a} and {b} in {}", found.region);
        one(&name, input, labels, &link_bytes(&found), call, lent, rng)?;
        tally.see(LINKS);
        tally.see(if found.passing { "links within" } else { "links beyond" });
        if !found.inside_flat {
            tally.see("links outside the flat envelope");
        }
        if found.envelopes.is_some() {
            tally.see(ENVELOPES);
            tally.see(ENVELOPES);
        }
    }
    Ok(())
}

/// One call on labels and a slice of this or a greater length, now and then a shorter one.
fn one(
    name: &str,
    input: &Input,
    labels: &[u8],
    bytes: &[u8],
    call: impl Fn(&[u8], &[u8], &mut [u8]) -> Refusal,
    lent: &mut Lent,
    rng: &mut Rng,
) -> Result<(), String> {
    let more = rng.pick(&[0, 0, 0, 1, 9]);
    let (short, cramped) = (rng.one_in(16), rng.one_in(16) && !labels.is_empty());
    let mut out = vec![rng.byte(); if short { bytes.len() - 1 } else { bytes.len() + more }];
    let lent_labels = if cramped { &labels[1..] } else { labels };
    let lent = lent.lend(input, lent_labels, &out);
    let said = call(lent.job, lent.work, lent.out);
    let expected = if cramped {
        (21, 0)
    } else if short {
        (22, bytes.len() as u64)
    } else {
        out[..bytes.len()].copy_from_slice(bytes);
        (0, bytes.len() as u64)
    };
    if said != expected {
        return Err(format!("{name}: expected {expected:?}, got {said:?}"));
    }
    lent.check(name, input, lent_labels, Some(&out))
}

//! The partition of a job by its boundaries' own ends, compared with the Rust's, and on small maps
//! with the definitions.

use crate::calls::{self, partition_words, Assessment};
use crate::checks::REDUCE;
use crate::definition;
use crate::draft::Input;
use crate::expect::{self, Accepted, MOST_PAIRS, WORK};
use crate::lent::Lent;
use crate::rng::Rng;
use crate::tally::{Tally, PARTITIONS};
use crate::thresholds;
use oracle::api::SpanPartition;

/// Steps times spans, up to which the definitions are computed too.
const SMALL: usize = 400;
/// Bytes for both numbers, the most spans and the most pairs.
const MOST_ROOM: usize = 8 + 256 * 8 + MOST_PAIRS * 12;

pub fn assessments(partition: &SpanPartition) -> Vec<Assessment> {
    let spans = partition.boundaries().iter().map(|span| Assessment {
        removed: span.removed_edge_count,
        separated: span.separated_edge_count,
        pairs: span.region_pairs.clone(),
    });
    spans.collect()
}

pub fn compare(
    input: &Input,
    lent: &mut Lent,
    rng: &mut Rng,
    tally: &mut Tally,
) -> Result<(), String> {
    let read = expect::accepted(REDUCE, &input.job, &[], &thresholds::OF_000);
    let Ok(Accepted { job, partition, .. }) = read else { return Ok(()) };
    let spans = assessments(&partition);
    let (labels, areas) = (partition.labels(), partition.areas().len() as u32);
    if labels.len() * spans.len() <= SMALL {
        let sides = [partition.width(), partition.height()];
        let walkable: Vec<_> = job.grid.cells().iter().map(|cell| cell.walkable).collect();
        let defined = definition::partition(sides, &walkable, &job.own_spans());
        if defined != (labels.to_vec(), areas, spans.clone()) {
            return Err(format!("the Rust's {labels:?} {spans:?} is not {defined:?}"));
        }
        tally.see("partitions held to the definitions");
    }
    note(&partition, &spans, tally);

    let more = rng.pick(&[0, 0, 1, 7, 40]);
    let before = rng.byte();
    let mut work = vec![before; WORK * labels.len() + more];
    let expected = partition_words(areas, &spans);
    let pairs = expect::pairs(&partition);
    let room = if pairs > MOST_PAIRS { MOST_ROOM } else { expected.len() + more };
    let mut out = vec![before; room];
    let lent = lent.lend(input, &work, &out);
    let said = calls::partition(lent.job, lent.work, lent.out);
    expect::fill_work(labels, &mut work);
    let result = if pairs > MOST_PAIRS {
        tally.see("partitions: 13");
        (13, 0)
    } else {
        out[..expected.len()].copy_from_slice(&expected);
        (0, expected.len() as u64)
    };
    tally.see(PARTITIONS);
    if said != result {
        return Err(format!("partition: expected {result:?}, got {said:?}"));
    }
    lent.check("partition", input, &work, (pairs <= MOST_PAIRS).then_some(&out[..]))
}

/// Counts what the partition had in it.
fn note(partition: &SpanPartition, spans: &[Assessment], tally: &mut Tally) {
    let any = |test: fn(&Assessment) -> bool| spans.iter().any(test);
    let rows = [
        ("partitions with a span that cuts nothing", any(|span| span.removed == 0)),
        ("partitions with a span that goes round", any(|s| s.separated < s.removed)),
        ("partitions with a span of several pairs", any(|span| span.pairs.len() > 1)),
        ("partitions of no area", partition.areas().is_empty()),
        ("partitions of over 256 areas", partition.areas().len() > 256),
    ];
    rows.into_iter().filter(|row| row.1).for_each(|row| tally.see(row.0));
}

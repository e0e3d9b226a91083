//! The functions of the proved static libraries. All of them have to be there: tests/libraries fails where one is
//! missing, and so does linking.

use crate::checks::{Refusal, BY_LIST, CARDS, MARK, REDUCE};
#[cfg(without_blocks)]
use crate::thresholds::OF_000;
use std::sync::OnceLock;

/// A call on job, list, block of thresholds, work and the slice that it writes: the answer, the marks or the cards.
/// Mark and Area cards take no block.
pub type Whole = fn(&[u8], &[u8], &[u8], &mut [u8], &mut [u8]) -> Refusal;

pub fn whole(call: u32) -> Whole {
    match call {
        BY_LIST => library::reduce_by_list,
        MARK => library::mark,
        CARDS => library::area_cards,
        _ => library::reduce,
    }
}

/// What is told of every call as it ends: which call, its job, its result, work, and the slice that it writes.
pub type Watch = fn(u32, &[u8], Refusal, &[u8], &[u8]);
/// None but in a run that wants to be told.
pub static WATCH: OnceLock<Watch> = OnceLock::new();

/// The result of a call, once it was told.
fn told(call: u32, job: &[u8], result: Refusal, work: &[u8], out: &[u8]) -> Refusal {
    if let Some(watch) = WATCH.get() {
        watch(call, job, result, work, out);
    }
    result
}

/// True in a run that is told of every call.
pub fn watched() -> bool {
    WATCH.get().is_some()
}

pub use library::{bridges, check, marks, partition, plan, span_ends, thresholds_of_000};

/// The libraries' own declarations. Of a slice its start is passed, then its length; the slices
/// are lent for the call and overlap nowhere.
mod library {
    use super::*;

    #[repr(C)]
    struct CallResult {
        number: u32,
        detail: u64,
    }

    impl CallResult {
        fn pair(self) -> Refusal {
            (self.number, self.detail)
        }
    }

    type In = *const u8;
    type Out = *mut u8;

    #[link(name = "probe")]
    extern "C" {
        fn probe_check(call: u32, job: In, job_len: usize, list: In, list_len: usize)
            -> CallResult;
        fn probe_span_ends(
            job: In,
            job_len: usize,
            list: In,
            list_len: usize,
            which: u32,
            i: u32,
            out: Out,
            out_len: usize,
        ) -> usize;
        fn probe_partition(
            job: In,
            job_len: usize,
            work: Out,
            work_len: usize,
            out: Out,
            out_len: usize,
        ) -> CallResult;
        fn probe_bridges(
            records: In,
            records_len: usize,
            work: Out,
            work_len: usize,
            marks: Out,
            marks_len: usize,
        ) -> CallResult;
        fn probe_marks(
            records: In,
            records_len: usize,
            work: Out,
            work_len: usize,
            marks: Out,
            marks_len: usize,
        ) -> CallResult;
        fn probe_plan(
            job: In,
            job_len: usize,
            list: In,
            list_len: usize,
            which: u32,
            work: Out,
            work_len: usize,
            out: Out,
            out_len: usize,
        ) -> CallResult;
        fn probe_thresholds(block: Out, block_len: usize) -> u64;
    }

    #[link(name = "chokes")]
    extern "C" {
        fn chokes_mark(
            job: In,
            job_len: usize,
            work: Out,
            work_len: usize,
            marks: Out,
            marks_len: usize,
        ) -> CallResult;
        fn chokes_area_cards(
            job: In,
            job_len: usize,
            work: Out,
            work_len: usize,
            cards: Out,
            cards_len: usize,
        ) -> CallResult;
    }

    // Before version 2 the two took no block of thresholds.
    #[link(name = "chokes")]
    #[cfg(not(without_blocks))]
    extern "C" {
        fn chokes_reduce(
            job: In,
            job_len: usize,
            thresholds: In,
            thresholds_len: usize,
            work: Out,
            work_len: usize,
            answer: Out,
            answer_len: usize,
        ) -> CallResult;
        fn chokes_reduce_by_list(
            job: In,
            job_len: usize,
            list: In,
            list_len: usize,
            thresholds: In,
            thresholds_len: usize,
            work: Out,
            work_len: usize,
            answer: Out,
            answer_len: usize,
        ) -> CallResult;
    }

    #[link(name = "chokes")]
    #[cfg(without_blocks)]
    extern "C" {
        fn chokes_reduce(
            job: In,
            job_len: usize,
            work: Out,
            work_len: usize,
            answer: Out,
            answer_len: usize,
        ) -> CallResult;
        fn chokes_reduce_by_list(
            job: In,
            job_len: usize,
            list: In,
            list_len: usize,
            work: Out,
            work_len: usize,
            answer: Out,
            answer_len: usize,
        ) -> CallResult;
    }

    /// A slice as the two arguments that it is passed as.
    macro_rules! call {
        (@ [$f:ident $($done:expr),*]) => { $f($($done),*) };
        (@ [$f:ident $($done:expr),*] read $s:ident $($rest:tt)*) => {
            call!(@ [$f $($done,)* $s.as_ptr(), $s.len()] $($rest)*)
        };
        (@ [$f:ident $($done:expr),*] write $s:ident $($rest:tt)*) => {
            call!(@ [$f $($done,)* $s.as_mut_ptr(), $s.len()] $($rest)*)
        };
        (@ [$f:ident $($done:expr),*] number $s:ident $($rest:tt)*) => {
            call!(@ [$f $($done,)* $s] $($rest)*)
        };
        ($f:ident $($rest:tt)*) => { unsafe { call!(@ [$f] $($rest)*) } };
    }

    /// Number and detail of the checks 1 to 12 and 14 to 17 that the call makes.
    pub fn check(call: u32, job: &[u8], list: &[u8]) -> Refusal {
        call!(probe_check number call read job read list).pair()
    }

    /// The length of the part, whose bytes begin `out` where they fit.
    pub fn span_ends(job: &[u8], list: &[u8], which: u32, i: u32, out: &mut [u8]) -> usize {
        call!(probe_span_ends read job read list number which number i write out)
    }

    /// The partition of a job by its own ends, on job, work and the slice for what was found.
    pub fn partition(job: &[u8], work: &mut [u8], out: &mut [u8]) -> Refusal {
        call!(probe_partition read job write work write out).pair()
    }

    /// The bridges of a list of records, on records, work and marks.
    pub fn bridges(records: &[u8], work: &mut [u8], marks: &mut [u8]) -> Refusal {
        call!(probe_bridges read records write work write marks).pair()
    }

    /// The marks of a list of records in the order of their owners, on records, work and marks.
    pub fn marks(records: &[u8], work: &mut [u8], marks: &mut [u8]) -> Refusal {
        call!(probe_marks read records write work write marks).pair()
    }

    /// Where each boundary goes, on job, list, a choice of spans, work and the slice for it.
    pub fn plan(job: &[u8], list: &[u8], which: u32, work: &mut [u8], out: &mut [u8]) -> Refusal {
        call!(probe_plan read job read list number which write work write out).pair()
    }

    /// The result of a call that takes no block, where the numbers of 000 are wanted.
    #[cfg(without_blocks)]
    fn taking_none(block: &[u8], said: CallResult) -> CallResult {
        assert_eq!(block, OF_000, "such a library has these alone");
        said
    }

    /// 64, where the block of 000 then begins the slice; 0 where that is shorter.
    pub fn thresholds_of_000(block: &mut [u8]) -> u64 {
        call!(probe_thresholds write block)
    }

    pub fn mark(job: &[u8], _: &[u8], _: &[u8], work: &mut [u8], marks: &mut [u8]) -> Refusal {
        let said = call!(chokes_mark read job write work write marks).pair();
        told(MARK, job, said, work, marks)
    }

    pub fn reduce(
        job: &[u8],
        _: &[u8],
        block: &[u8],
        work: &mut [u8],
        answer: &mut [u8],
    ) -> Refusal {
        #[cfg(not(without_blocks))]
        let said = call!(chokes_reduce read job read block write work write answer);
        #[cfg(without_blocks)]
        let said = taking_none(block, call!(chokes_reduce read job write work write answer));
        told(REDUCE, job, said.pair(), work, answer)
    }

    pub fn reduce_by_list(
        job: &[u8],
        list: &[u8],
        block: &[u8],
        work: &mut [u8],
        answer: &mut [u8],
    ) -> Refusal {
        #[cfg(not(without_blocks))]
        let said =
            call!(chokes_reduce_by_list read job read list read block write work write answer);
        #[cfg(without_blocks)]
        let said = taking_none(
            block,
            call!(chokes_reduce_by_list read job read list write work write answer),
        );
        told(BY_LIST, job, said.pair(), work, answer)
    }

    pub fn area_cards(
        job: &[u8],
        _: &[u8],
        _: &[u8],
        work: &mut [u8],
        cards: &mut [u8],
    ) -> Refusal {
        let said = call!(chokes_area_cards read job write work write cards).pair();
        told(CARDS, job, said, work, cards)
    }
}

/// What `probe_partition` writes, as u32 words: the areas and the pairs of all spans; then the
/// removed and separated steps of each span; then the pairs, each after its span.
pub fn partition_words(areas: u32, spans: &[Assessment]) -> Vec<u8> {
    let mut words = vec![areas, spans.iter().map(|span| span.pairs.len() as u32).sum()];
    spans.iter().for_each(|span| words.extend([span.removed, span.separated]));
    for (span, owner) in spans.iter().zip(0..) {
        span.pairs.iter().for_each(|pair| words.extend([owner, pair[0], pair[1]]));
    }
    // Word by word: one chain of iterators compiles to a branch on bytes that were never written, which valgrind reports.
    let mut bytes = Vec::with_capacity(4 * words.len());
    words.iter().for_each(|word| bytes.extend(word.to_le_bytes()));
    bytes
}

#[derive(Clone, Debug, PartialEq)]
pub struct Assessment {
    pub removed: u32,
    pub separated: u32,
    pub pairs: Vec<[u32; 2]>,
}

/// The records that `probe_bridges` and `probe_marks` take: owner, left, right.
pub fn record_words(records: &[[u32; 3]]) -> Vec<u8> {
    records.iter().flatten().flat_map(|word| word.to_le_bytes()).collect()
}

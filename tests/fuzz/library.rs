//! The four calls of include/chokes.h.

use crate::checks::{Refusal, BY_LIST, CARDS, MARK};

#[repr(C)]
struct CallResult {
    number: u32,
    detail: u64,
}

#[link(name = "chokes")]
extern "C" {
    fn chokes_mark(
        job: *const u8,
        job_length: usize,
        work: *mut u8,
        work_length: usize,
        marks: *mut u8,
        marks_length: usize,
    ) -> CallResult;
    fn chokes_reduce(
        job: *const u8,
        job_length: usize,
        thresholds: *const u8,
        thresholds_length: usize,
        work: *mut u8,
        work_length: usize,
        answer: *mut u8,
        answer_length: usize,
    ) -> CallResult;
    fn chokes_reduce_by_list(
        job: *const u8,
        job_length: usize,
        list: *const u8,
        list_length: usize,
        thresholds: *const u8,
        thresholds_length: usize,
        work: *mut u8,
        work_length: usize,
        answer: *mut u8,
        answer_length: usize,
    ) -> CallResult;
    fn chokes_area_cards(
        job: *const u8,
        job_length: usize,
        work: *mut u8,
        work_length: usize,
        cards: *mut u8,
        cards_length: usize,
    ) -> CallResult;
}

/// A call on job, list, block of thresholds, work and the slice that it writes: the answer, the marks or the cards.
pub fn call(
    call: u32,
    [job, list, thresholds]: [&[u8]; 3],
    work: &mut [u8],
    out: &mut [u8],
) -> Refusal {
    let (j, jn, l, ln) = (job.as_ptr(), job.len(), list.as_ptr(), list.len());
    let (t, tn) = (thresholds.as_ptr(), thresholds.len());
    let (w, wn, o, on) = (work.as_mut_ptr(), work.len(), out.as_mut_ptr(), out.len());
    // Each slice is passed as its start and length, and they overlap nowhere.
    let result = unsafe {
        match call {
            BY_LIST => chokes_reduce_by_list(j, jn, l, ln, t, tn, w, wn, o, on),
            MARK => chokes_mark(j, jn, w, wn, o, on),
            CARDS => chokes_area_cards(j, jn, w, wn, o, on),
            _ => chokes_reduce(j, jn, t, tn, w, wn, o, on),
        }
    };
    (result.number, result.detail)
}

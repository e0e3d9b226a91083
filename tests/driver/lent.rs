//! The memory that a call is lent: each slice ends at a page that can't be touched, and begins
//! after bytes that must stay as they are; or each is an allocation of its own and of just its length.

use crate::draft::Input;
use crate::memory::{Guarded, Room};

/// Bytes before each slice that are looked at after the call.
const BEFORE: usize = 64;
const UNTOUCHED: u8 = 0x5A;

pub struct Lent {
    rooms: [Room; 5],
}

/// The slices of one call.
pub struct Slices<'a> {
    pub job: &'a mut [u8],
    pub list: &'a mut [u8],
    pub thresholds: &'a mut [u8],
    pub work: &'a mut [u8],
    pub out: &'a mut [u8],
    before: [&'a mut [u8]; 5],
}

impl Lent {
    /// Room for the largest job, list, block, work and answer or cards of a run.
    pub fn new() -> Self {
        let room = |size| Guarded::new(size).expect("room for the slices of a call");
        let sizes = [1 << 21, 1 << 17, 1 << 12, 11 << 20, 41 << 20];
        Self { rooms: sizes.map(|size| Room::Guarded(room(size))) }
    }

    pub fn on_heap() -> Self {
        Self { rooms: [0; 5].map(|_| Room::Heap(Box::default())) }
    }

    /// Slices for job and list alone, and the room for what is written.
    pub fn inputs(&mut self, job: &[u8], list: &[u8]) -> (&mut [u8], &mut [u8], &mut Room) {
        let [jobs, lists, _, _, outs] = &mut self.rooms;
        let (jobs, lists) = (jobs.last(job.len()), lists.last(list.len()));
        jobs.copy_from_slice(job);
        lists.copy_from_slice(list);
        (jobs, lists, outs)
    }

    /// Slices that hold these bytes.
    pub fn lend(&mut self, input: &Input, work: &[u8], out: &[u8]) -> Slices<'_> {
        let [jobs, lists, blocks, works, outs] = &mut self.rooms;
        fn of<'a>(room: &'a mut Room, bytes: &[u8]) -> (&'a mut [u8], &'a mut [u8]) {
            let before = if matches!(room, Room::Heap(_)) { 0 } else { BEFORE };
            let (before, slice) = room.last(before + bytes.len()).split_at_mut(before);
            before.fill(UNTOUCHED);
            slice.copy_from_slice(bytes);
            (before, slice)
        }
        let (b0, job) = of(jobs, &input.job);
        let (b1, list) = of(lists, &input.list);
        let (b2, thresholds) = of(blocks, &input.thresholds);
        let (b3, work) = of(works, work);
        let (b4, out) = of(outs, out);
        Slices { job, list, thresholds, work, out, before: [b0, b1, b2, b3, b4] }
    }
}

impl Slices<'_> {
    /// That the slices hold these bytes after a call, and that nothing before them has changed. What
    /// is written is left open where `out` is none.
    pub fn check(
        &self,
        call: &str,
        input: &Input,
        work: &[u8],
        out: Option<&[u8]>,
    ) -> Result<(), String> {
        let differs = |what: &str, bytes: &[u8], expected: &[u8]| {
            let at = (0..bytes.len()).find(|&i| bytes[i] != expected[i]);
            at.map_or(Ok(()), |i| {
                let (expected, got) = (around(expected, i), around(bytes, i));
                Err(format!("{call}: {what} differs at byte {i}: expected {expected}, got {got}"))
            })
        };
        differs("the job", self.job, &input.job)?;
        differs("the list", self.list, &input.list)?;
        differs("the block", self.thresholds, &input.thresholds)?;
        differs("work", self.work, work)?;
        differs("what is written", self.out, out.unwrap_or(self.out))?;
        if self.before.iter().flat_map(|before| before.iter()).any(|&byte| byte != UNTOUCHED) {
            return Err(format!("{call}: bytes before a slice were changed"));
        }
        Ok(())
    }
}

/// The bytes from the word of byte i on, as hexadecimal digits.
fn around(bytes: &[u8], i: usize) -> String {
    let start = i / 4 * 4;
    let part = &bytes[start..bytes.len().min(start + 16)];
    part.iter().map(|byte| format!("{byte:02x}")).collect()
}

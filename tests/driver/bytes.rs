//! What the four calls leave, as one stream of bytes: two libraries that leave the same write the same stream.
//!
//! Of each call: which one it is and its number (u32), its detail, the lengths of work and of the answer, the marks or the
//! cards (u64), and all bytes of both slices at exit. Before version 3 a mark told whether the boundary is a bridge, and since
//! then whether closing the whole of it parts the two regions of one of its records; the two differ only where a boundary has
//! several records. There the mark is held to the library's own rule, and the stream has the same byte for both.

use crate::calls::WATCH;
use crate::checks::{Refusal, MARK};
use crate::exhaustive;
use crate::expect::Expected;
use crate::families;
use crate::memory;
use crate::run::Run;
use crate::tally::NAMES;
use std::io::{stdout, BufWriter, Stdout, Write};
use std::process::exit;
use std::sync::atomic::Ordering;
use std::sync::Mutex;

/// How often each pair of kinds of damage is drawn, as in a long run.
const ROUNDS: usize = 200;
/// Of a slice, no more than this is written: a few are of over 2^32 bytes, which no memory holds.
const MOST: usize = 1 << 26;

/// Stands for the mark of a boundary with several records; no mark is 2.
const HELD: u8 = 2;

struct Stream {
    to: BufWriter<Stdout>,
    /// How many of each call were told, and the bytes of them all.
    calls: [u64; 4],
    bytes: u64,
    marks: Marks,
    /// The byte whose call is looked for; nothing is written then.
    wanted: Option<u64>,
}

static STREAM: Mutex<Option<Stream>> = Mutex::new(None);

impl Stream {
    fn calls(&self) -> u64 {
        self.calls.iter().sum()
    }

    fn put(&mut self, bytes: &[u8]) {
        self.bytes += bytes.len() as u64;
        if self.wanted.is_none() && self.to.write_all(bytes).is_err() {
            eprintln!("bytes: nobody reads on after {} calls", self.calls());
            exit(1);
        }
    }

    fn call(&mut self, call: u32, job: &[u8], (number, detail): Refusal, work: &[u8], out: &[u8]) {
        let held = (call == MARK && number == 0).then(|| self.marks.held(job, out));
        let out = held.as_deref().unwrap_or(out);
        let before = self.bytes;
        self.calls[call as usize] += 1;
        [call, number].iter().for_each(|word| self.put(&word.to_le_bytes()));
        let lengths = [work.len() as u64, out.len() as u64];
        [detail, lengths[0], lengths[1]].iter().for_each(|word| self.put(&word.to_le_bytes()));
        [work, out].iter().for_each(|slice| self.put(&slice[..slice.len().min(MOST)]));
        let Some(wanted) = self.wanted.filter(|&wanted| wanted < self.bytes) else { return };
        let (seed, case) =
            (memory::SEED.load(Ordering::Relaxed), memory::CASE.load(Ordering::Relaxed));
        let (place, name) = (self.calls(), NAMES[call as usize]);
        eprintln!(
            "call {place}, {name}, of seed {seed} case {case}: byte {} of {}; it gave {number} {detail}, \
             {} bytes of work and {} besides",
            wanted - before,
            self.bytes - before,
            lengths[0],
            lengths[1]
        );
        exit(0)
    }
}

/// The marks told so far, of boundaries with one record at most and with several, and how many of the latter are other by
/// the one rule than by the other.
#[derive(Default)]
struct Marks {
    single: u64,
    several: u64,
    parting: u64,
    /// The last job that was marked.
    job: Vec<u8>,
    /// Whether each of its boundaries has several records, its mark, and 1 if it is a bridge.
    known: Vec<(bool, u8, u8)>,
}

impl Marks {
    /// The slice that Mark left, once the marks of boundaries with several records are as the library's rule has them.
    fn held(&mut self, job: &[u8], out: &[u8]) -> Vec<u8> {
        if self.job != job {
            let Expected { written, closing, .. } = Expected::of(MARK, job, &[], &[]);
            let records = |i: usize| closing.records.iter().filter(move |r| r[0] as usize == i);
            let known = written.iter().enumerate().map(|(i, &mark)| {
                (records(i).count() > 1, mark, u8::from(closing.bridges.contains(&i)))
            });
            self.known = known.collect();
            self.job = job.to_vec();
        }
        let mut left = out.to_vec();
        for (i, (byte, &(several, mark, bridge))) in left.iter_mut().zip(&self.known).enumerate() {
            if !several {
                self.single += 1;
                continue;
            }
            let due = if cfg!(marks_are_bridges) { bridge } else { mark };
            if *byte != due {
                let case = memory::CASE.load(Ordering::Relaxed);
                eprintln!(
                    "case {case}: boundary {i} has several records and mark {byte}, not {due}"
                );
                exit(1);
            }
            self.several += 1;
            self.parting += u64::from(mark != bridge);
            *byte = HELD;
        }
        left
    }
}

fn watch(call: u32, job: &[u8], result: Refusal, work: &[u8], out: &[u8]) {
    let mut stream = STREAM.lock().expect("one thread");
    stream.as_mut().expect("set before the first call").call(call, job, result, work, out);
}

/// The calls told up to now.
fn calls() -> u64 {
    STREAM.lock().expect("one thread").as_ref().map_or(0, Stream::calls)
}

/// Runs the families of a long run until so many calls were made, and writes what each left; or, where a byte is
/// named (the first is 0), says which call it is of.
pub fn write(least: u64, seed: u64, wanted: Option<u64>) -> ! {
    let to = BufWriter::with_capacity(1 << 16, stdout());
    *STREAM.lock().expect("one thread") =
        Some(Stream { to, calls: [0; 4], bytes: 0, marks: Marks::default(), wanted });
    WATCH.set(watch).expect("set once");
    let mut run = Run::heedless(seed);
    let mut done = 0;
    // Random cases first, so that few calls have some of each family.
    while calls() < least / 2 {
        done = families::round(&mut run, done);
    }
    run.start(0);
    exhaustive::all(&mut run, ROUNDS);
    families::small_maps(&mut run);
    families::limits(&mut run);
    families::sizes(&mut run);
    families::sorts(&mut run);
    families::own_sources(&mut run);
    families::marks(&mut run);
    while calls() < least {
        done = families::round(&mut run, done);
    }
    finish(least)
}

/// Ends with the counts, and with status 1 where a call was never made.
fn finish(least: u64) -> ! {
    let mut stream = STREAM.lock().expect("one thread");
    let stream = stream.as_mut().expect("set before the first call");
    let flushed = stream.to.flush().is_ok();
    let each: Vec<String> =
        NAMES.iter().zip(stream.calls).map(|(name, calls)| format!("{name} {calls}")).collect();
    eprintln!("{} calls, {} bytes ({})", stream.calls(), stream.bytes, each.join(", "));
    let Marks { single, several, parting, .. } = stream.marks;
    eprintln!("{single} marks of boundaries with one record at most");
    eprintln!(
        "{several} marks of boundaries with several records, {parting} of them 1 by closing and of no bridge"
    );
    let all = stream.calls.iter().all(|&calls| calls > 0)
        && stream.calls() >= least
        && [single, parting].iter().all(|&marks| marks > 0);
    if stream.wanted.is_some() {
        eprintln!("bytes: the stream has no such byte");
    }
    exit(i32::from(!(flushed && all && stream.wanted.is_none())))
}

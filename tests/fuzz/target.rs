//! A libFuzzer target: the four calls of the static library on each input, held to what the checks
//! of the paper and the real Rust say that they leave. The Rust is compiled with coverage counters;
//! what the library returns counts as coverage as well (`features`).

#![no_main]

#[path = "../driver/checks.rs"]
#[allow(dead_code)]
mod checks;
#[path = "../driver/damage.rs"]
#[allow(dead_code)]
mod damage;
#[path = "../driver/draft.rs"]
#[allow(dead_code)]
mod draft;
#[path = "../driver/expect.rs"]
#[allow(dead_code)]
mod expect;
#[path = "../driver/heads.rs"]
#[allow(dead_code)]
mod heads;
#[path = "../driver/lent.rs"]
#[allow(dead_code)]
mod lent;
#[path = "../driver/memory.rs"]
#[allow(dead_code)]
mod memory;
#[path = "../driver/orders.rs"]
#[allow(dead_code)]
mod orders;
#[path = "../driver/rng.rs"]
#[allow(dead_code)]
mod rng;
#[path = "../driver/rust.rs"]
#[allow(dead_code)]
mod rust;
#[path = "../driver/splits.rs"]
#[allow(dead_code)]
mod splits;
#[path = "../driver/thresholds.rs"]
mod thresholds;

mod block;
mod case;
mod features;
mod library;
mod mutate;
mod nearest;

use case::Case;
use checks::{CALLS, MARK, NONE};
use draft::Input;
use expect::{Expected, MOST_PAIRS};
use lent::Lent;
use rng::Rng;
use std::cell::RefCell;
use std::slice;

const NAMES: [&str; 4] = ["Reduce", "Reduce by list", "Mark", "Area cards"];

extern "C" {
    fn LLVMFuzzerMutate(data: *mut u8, size: usize, most: usize) -> usize;
}

thread_local! {
    static LENT: RefCell<Lent> = RefCell::new(Lent::new());
}

/// Runs one input; a difference ends the process, and libFuzzer keeps the input.
///
/// # Safety
/// `data` has `size` bytes.
#[no_mangle]
pub unsafe extern "C" fn LLVMFuzzerTestOneInput(data: *const u8, size: usize) -> i32 {
    let bytes = if size == 0 { &[] } else { slice::from_raw_parts(data, size) };
    let case = Case::read(bytes);
    LENT.with_borrow_mut(|lent| {
        for call in CALLS {
            let expected =
                Expected::of(call, &case.input.job, &case.input.list, &case.input.thresholds);
            for lengths in lengths(&expected, case.lengths) {
                if let Err(difference) = one(call, &expected, &case, lengths, lent) {
                    panic!("{difference}");
                }
            }
        }
    });
    0
}

/// Lengths of work and of answer, marks or cards: just what is asked, and those that the case chooses.
fn lengths(expected: &Expected, choice: u8) -> Vec<[usize; 2]> {
    let (work, out) = (expected.work(), expected.written.len());
    let [more, less] = [choice / 8, choice / 64].map(usize::from);
    if expected.refusal != NONE {
        return vec![[more, less]];
    }
    let other = match choice % 8 {
        0 => [work.saturating_sub(1 + less), out],
        1 => [0, out + more],
        2 => [work, 0],
        3 | 4 => [work + more, out.saturating_sub(1 + less)],
        _ => [work + more, out + more],
    };
    if expected.pairs > MOST_PAIRS {
        return vec![[work, more], other];
    }
    vec![[work, out], other]
}

/// One call, compared whole: number, detail, and every byte of work and of answer, marks or cards.
fn one(
    call: u32,
    expected: &Expected,
    case: &Case,
    [work, out]: [usize; 2],
    lent: &mut Lent,
) -> Result<(), String> {
    let (work, out) = (vec![case.fill; work], vec![!case.fill; out]);
    let left = expected.left(&work, &out);
    let name = NAMES[call as usize];
    let Input { job, thresholds, .. } = &case.input;
    let lent = lent.lend(&case.input, &work, &out);
    let inputs = [&*lent.job, lent.list, lent.thresholds];
    let said = library::call(call, inputs, lent.work, lent.out);
    features::note(call, said, [job, thresholds], lent.work, lent.out);
    if call == MARK && said.0 == 0 {
        features::note_marks(&expected.closing, &lent.out[..expected.written.len()]);
    }
    if said != left.result {
        return Err(format!("{name}: expected {:?}, got {said:?}", left.result));
    }
    lent.check(name, &case.input, &left.work, Some(&left.out))
}

/// The next input: three times in eight libFuzzer's own changes of bytes; once those with every
/// count, offset and field set right; else changes of values, now and then with damage.
///
/// # Safety
/// `data` has room for `most` bytes, of which `size` are the input.
#[no_mangle]
pub unsafe extern "C" fn LLVMFuzzerCustomMutator(
    data: *mut u8,
    size: usize,
    most: usize,
    seed: u32,
) -> usize {
    let mut rng = Rng::new(seed.into());
    let kind = rng.below(8);
    let size = if kind < 4 { LLVMFuzzerMutate(data, size, most) } else { size };
    if kind < 3 {
        return size;
    }
    let mut case = Case::read(slice::from_raw_parts(data, size));
    mutate::mutate(&mut case, kind > 3, &mut rng);
    let bytes = case.bytes();
    if bytes.len() > most {
        return LLVMFuzzerMutate(data, size, most);
    }
    slice::from_raw_parts_mut(data, bytes.len()).copy_from_slice(&bytes);
    bytes.len()
}

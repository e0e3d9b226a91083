//! Runs inputs one after another and stops at the first difference.

use crate::compare;
use crate::draft::{Draft, Input};
use crate::expect::Record;
use crate::lent::Lent;
use crate::lists::{self, List};
use crate::memory;
use crate::records;
use crate::rng::Rng;
use crate::shrink::shrink;
use crate::tally::Tally;
use crate::thresholds::OF_000;
use std::cell::RefCell;
use std::fs;
use std::path::Path;
use std::process;
use std::sync::atomic::Ordering;
use std::time::{Duration, Instant};

/// A comparison of all that is said of an input; an error names the first difference.
pub type Compare = fn(&Input, &mut Lent, &mut Rng, &mut Tally) -> Result<(), String>;

/// Where an input that shows a difference is written.
const FOLDER: &str = "target/driver";
/// How long a draft is made smaller.
const SHRINKING: Duration = Duration::from_secs(20);

pub struct Run {
    pub seed: u64,
    pub tally: Tally,
    lent: RefCell<Lent>,
    case: u64,
    /// False where a difference from what is expected is passed over.
    heeds: bool,
}

impl Run {
    pub fn new(seed: u64) -> Self {
        Self::with(seed, Lent::new())
    }

    /// A run whose slices are allocations of their own.
    pub fn on_heap(seed: u64) -> Self {
        Self::with(seed, Lent::on_heap())
    }

    /// A run that makes the calls, whatever comes of them, always with the block of 000.
    pub fn heedless(seed: u64) -> Self {
        Self { heeds: false, ..Self::new(seed) }
    }

    pub fn heeds(&self) -> bool {
        self.heeds
    }

    /// The bytes that are lent for a draft.
    fn bytes(&self, draft: &Draft) -> Input {
        let input = draft.input();
        if self.heeds {
            input
        } else {
            Input { thresholds: OF_000.to_vec(), ..input }
        }
    }

    fn with(seed: u64, lent: Lent) -> Self {
        memory::SEED.store(seed, Ordering::Relaxed);
        Self { seed, tally: Tally::default(), lent: RefCell::new(lent), case: 0, heeds: true }
    }

    /// The random numbers of the next case.
    pub fn next_case(&mut self) -> Rng {
        self.start(self.case + 1)
    }

    /// The random numbers of a case.
    pub fn start(&mut self, case: u64) -> Rng {
        self.case = case;
        memory::CASE.store(case, Ordering::Relaxed);
        Rng::of_case(self.seed, case)
    }

    /// An input that is bytes only.
    pub fn input(&mut self, input: &Input, rng: &mut Rng) {
        let lent = &mut self.lent.borrow_mut();
        let said = compare::compare(input, lent, rng, &mut self.tally);
        if let (Err(difference), true) = (said, self.heeds) {
            self.report(&difference, &hex("as it was", input));
        }
    }

    /// A bare list of records.
    pub fn records(&mut self, records: &[Record]) {
        if !self.heeds {
            // They are given to no call.
            return;
        }
        let said = records::compare(records, &mut self.lent.borrow_mut(), &mut self.tally);
        if let Err(difference) = said {
            self.report(&difference, &format!("records {records:?}\n"));
        }
    }

    /// A bare list of records for the marks of its owners.
    pub fn marks(&mut self, list: &List) {
        if !self.heeds {
            // It is given to no call.
            return;
        }
        let said = lists::compare(list, &mut self.lent.borrow_mut(), &mut self.tally);
        if let Err(difference) = said {
            self.report(&difference, &list.text());
        }
    }

    /// An input from a draft, which is made smaller where it shows a difference.
    pub fn draft(&mut self, draft: &Draft, rng: &mut Rng, compare: Compare) {
        let input = self.bytes(draft);
        let before = rng.clone();
        let said = compare(&input, &mut self.lent.borrow_mut(), rng, &mut self.tally);
        if let (Err(difference), true) = (said, self.heeds) {
            let again = |draft: &Draft| {
                let lent = &mut self.lent.borrow_mut();
                compare(&draft.input(), lent, &mut before.clone(), &mut Tally::default()).err()
            };
            eprintln!("{}", self.line(&difference));
            let start = Instant::now();
            let differs = |draft: &Draft| start.elapsed() < SHRINKING && again(draft).is_some();
            let smallest = shrink(draft.clone(), differs);
            let difference_then = again(&smallest).unwrap_or_else(|| "as above".to_string());
            let title = format!("made smaller: {difference_then}");
            let text = hex(&title, &smallest.input()) + &hex("as it was", &input);
            self.report(&difference, &text);
        }
    }

    fn line(&self, difference: &str) -> String {
        format!("seed {} case {}: {difference}", self.seed, self.case)
    }

    /// Says what differs, writes the input and ends the run.
    pub fn report(&self, difference: &str, input: &str) -> ! {
        let line = self.line(difference);
        eprintln!("{line}");
        eprint!("{}", input.chars().take(2000).collect::<String>());
        let file = Path::new(FOLDER).join("mismatch.txt");
        match fs::create_dir_all(FOLDER).and_then(|()| fs::write(&file, line + "\n" + input)) {
            Ok(()) => eprintln!("written to {}", file.display()),
            Err(error) => eprintln!("{}: {error}", file.display()),
        }
        process::exit(1)
    }
}

pub fn hex(title: &str, input: &Input) -> String {
    let digits = |bytes: &[u8]| bytes.iter().map(|byte| format!("{byte:02x}")).collect::<String>();
    let [job, list, block] = [&input.job, &input.list, &input.thresholds].map(|part| digits(part));
    format!("{title}\njob  {job}\nlist {list}\nblock {block}\n")
}

//! Counts how often the platform's hypot is not the correctly rounded length: over all pairs of
//! half-pixel differences of a map, each pair in both orders.

#[path = "oracle/exact_length.rs"]
#[allow(dead_code)]
mod exact_length;

use exact_length::half_root;

/// The largest difference of a map of 1,024 cells a side, in half pixels.
const MOST: u64 = 16_384;

#[derive(Default)]
struct Count {
    pairs: u64,
    /// Pairs whose hypot is not the nearest f64, by how many f64s it is off: above, below.
    above: [u64; 3],
    below: [u64; 3],
    /// Of those, pairs whose length is a multiple of a half, which f64 has exactly.
    exact: u64,
    first: Option<[u64; 2]>,
}

impl Count {
    fn pair(&mut self, a: u64, b: u64, length: f64) {
        self.pairs += 1;
        let came = (a as f64 / 2.0).hypot(b as f64 / 2.0);
        if came == length {
            return;
        }
        let off = came.to_bits().abs_diff(length.to_bits()) as usize;
        let by_size = if came > length { &mut self.above } else { &mut self.below };
        by_size[off.min(3) - 1] += 1;
        self.exact += u64::from((2.0 * length).fract() == 0.0);
        self.first.get_or_insert([a, b]);
    }

    fn differ(&self) -> u64 {
        self.above.iter().chain(&self.below).sum()
    }

    fn print(&self, what: &str) {
        let share = 100.0 * self.differ() as f64 / self.pairs as f64;
        println!("{what}: {} of {} differ ({share:.3} %)", self.differ(), self.pairs);
        println!("  above by 1, 2, more f64s: {:?}; below: {:?}", self.above, self.below);
        println!("  of a length that is a multiple of a half: {}", self.exact);
        if let Some([a, b]) = self.first {
            println!("  the first: {a} and {b} half pixels");
        }
    }
}

fn main() {
    let (mut shorter_first, mut longer_first) = (Count::default(), Count::default());
    for b in 0..=MOST {
        for a in 0..=b {
            let length = half_root(a * a + b * b);
            shorter_first.pair(a, b, length);
            if a < b {
                longer_first.pair(b, a, length);
            }
        }
    }
    shorter_first.print("hypot(a/2, b/2), a <= b");
    longer_first.print("hypot(a/2, b/2), a > b");
    let pairs = shorter_first.pairs + longer_first.pairs;
    println!("all {pairs} pairs: {} differ", shorter_first.differ() + longer_first.differ());
}

//! Tries all threes of centre distances whose sum is about 384, the chain limit of 000: in any order the f64 sum is on
//! the same side of 384. A distance is half the root of a sum of two squares, D.

#[path = "oracle/exact_length.rs"]
#[allow(dead_code)]
mod exact_length;

use exact_length::half_root;
use std::process::exit;

/// Twice the limit, as the roots of D are twice the distances.
const LIMIT: u64 = 768;
/// A third root within 10^-9 of what is missing has its square within this of a whole number; the f64
/// errors of that square are below 10^-8.
const NEAR: f64 = 1e-5;
const ORDERS: [[usize; 3]; 3] = [[0, 1, 2], [0, 2, 1], [1, 2, 0]];

/// For each number below the limit's square, whether it is a sum of two squares.
fn sums_of_squares() -> Vec<bool> {
    let mut sums = vec![false; (LIMIT * LIMIT) as usize];
    for x in 0..LIMIT {
        for y in (0..=x).take_while(|y| x * x + y * y < LIMIT * LIMIT) {
            sums[(x * x + y * y) as usize] = x > 0;
        }
    }
    sums
}

fn main() {
    let sums = sums_of_squares();
    let squares: Vec<u64> = (0..LIMIT * LIMIT).filter(|&d| sums[d as usize]).collect();
    let roots: Vec<f64> = squares.iter().map(|&d| (d as f64).sqrt()).collect();
    let (mut pairs, mut threes, mut exact) = (0_u64, 0_u64, 0_u64);
    // By how much the nearest sums are under and over 384, and of which squares.
    let mut nearest = [(f64::INFINITY, [0; 3]); 2];
    for (i, first) in roots.iter().enumerate() {
        for (j, second) in roots.iter().enumerate().skip(i) {
            let third = LIMIT as f64 - first - second;
            if third < second - 0.5 {
                break;
            }
            pairs += 1;
            let square = (third * third).round();
            if (third * third - square).abs() > NEAR || !sums[square as usize] {
                continue;
            }
            threes += 1;
            let three = [squares[i], squares[j], square as u64];
            let lengths = three.map(half_root);
            let sum = |[a, b, c]: [usize; 3]| lengths[a] + lengths[b] + lengths[c];
            let over = ORDERS.map(|order| sum(order) > 384.0);
            if over != [over[0]; 3] {
                println!("the order tells: {three:?}");
                exit(1);
            }
            let off = sum(ORDERS[0]) - 384.0;
            exact += u64::from(off == 0.0);
            let side = &mut nearest[usize::from(over[0])];
            if off != 0.0 && off.abs() < side.0 {
                *side = (off.abs(), three);
            }
        }
    }
    println!(
        "{pairs} pairs of distances, {threes} with a third that comes near 384, {exact} just 384"
    );
    for (side, (off, three)) in ["under", "over"].iter().zip(nearest) {
        println!(
            "nearest {side} 384: by {off:e}, the squares of twice the distances are {three:?}"
        );
    }
    println!("in any order a sum is on the same side");
}

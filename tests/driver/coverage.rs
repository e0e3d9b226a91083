//! Which way the comparisons of the Rust went (oracle/counted.txt): each must go both ways, save those
//! that the list says can't.

use oracle::count::{counts, LIST};

pub fn print() {
    println!("the Rust's comparisons, times true and false");
    for ((name, never), [no, yes]) in LIST.iter().zip(counts()) {
        let reason = never.iter().zip(["false", "true"]).filter(|(reason, _)| !reason.is_empty());
        let reason = reason.map(|(reason, way)| format!("  never {way}: {reason}"));
        println!("{yes:>12}{no:>12} {name}{}", reason.collect::<String>());
    }
}

/// Of these, what is about a limit that is just met or missed by a unit, and the ends of a chain.
pub fn missing_at_limits() -> Vec<String> {
    let at =
        |name: &String| ["just", "one unit", "ends over"].iter().any(|part| name.contains(part));
    missing().into_iter().filter(at).collect()
}

/// What never went one of its ways, and what did so though the list says that it can't.
pub fn missing() -> Vec<String> {
    let mut missing = Vec::new();
    for ((name, never), counts) in LIST.iter().zip(counts()) {
        for ((reason, count), way) in never.iter().zip(counts).zip(["false", "true"]) {
            if reason.is_empty() && count == 0 {
                missing.push(format!("{name}: never {way}"));
            }
            if !reason.is_empty() && count != 0 {
                missing.push(format!("{name}: was {way}, which can't be: {reason}"));
            }
        }
    }
    missing
}

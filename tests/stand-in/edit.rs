//! Puts the faults of edits.txt into a copy of the oracle's sources, each behind a switch.
//!
//!     edit SOURCES COPY

use std::path::Path;
use std::{env, fs, process};

fn main() {
    let [sources, copy] = [1, 2].map(|i| env::args().nth(i).expect("two folders"));
    for line in include_str!("edits.txt").lines().filter(|line| !line.starts_with('#')) {
        let [name, file, old, new] = line.split(" | ").collect::<Vec<_>>()[..] else {
            eprintln!("edit: no four parts: {line}");
            process::exit(1)
        };
        let read = |folder: &str| fs::read_to_string(Path::new(folder).join(file)).expect(file);
        let (before, mut text) = (read(&sources), read(&copy));
        let on = format!("crate::fault::on(\"{name}\")");
        if new.contains("ON ") && before.contains(old) {
            text = text.replace(old, &new.replace("ON ", &format!("{on} ")));
        } else if let ([_], Some(at)) =
            (&before.matches(old).collect::<Vec<_>>()[..], text.rfind(old))
        {
            // Where the place was edited before, its last branch is the Rust's.
            let switched = format!("(if {on} {{ {new} }} else {{ {old} }})");
            text.replace_range(at..at + old.len(), &switched);
        } else {
            eprintln!("edit: {name}: not there once: {old}");
            process::exit(1)
        }
        fs::write(Path::new(&copy).join(file), text).expect("the copy can be written");
    }
}

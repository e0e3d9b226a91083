//! Puts counters into a copy of the oracle's sources, at the expressions of counted.txt.
//!
//!     instrument SOURCES COPY
//!
//! COPY holds the same files as SOURCES. An expression that does not stand there once ends the program.

use std::ops::Range;
use std::path::Path;
use std::{env, fs, process};

/// One line of the list.
struct Counted<'a> {
    name: &'a str,
    file: &'a str,
    expression: &'a str,
    test: &'a str,
    condition: &'a str,
    first: Option<&'a str>,
    never: [&'a str; 2],
}

fn fail(what: &str, text: &str) -> ! {
    eprintln!("instrument: {what}: {text}");
    process::exit(1)
}

impl<'a> Counted<'a> {
    fn read(line: &'a str) -> Self {
        let [name, file, expression, more @ ..] = &line.split(" | ").collect::<Vec<_>>()[..] else {
            fail("fewer than three parts", line)
        };
        let labels = ["is ", "when ", "first ", "never false: ", "never true: "];
        if let Some(part) = more.iter().find(|part| !labels.iter().any(|l| part.starts_with(l))) {
            fail("unknown part", part)
        }
        let [test, condition, first, never_false, never_true] =
            labels.map(|label| more.iter().find_map(|part| part.strip_prefix(label)));
        Self {
            name,
            file,
            expression,
            test: test.unwrap_or("it"),
            condition: condition.unwrap_or("true"),
            first,
            never: [never_false, never_true].map(|reason| reason.unwrap_or("")),
        }
    }
}

/// Where the expression stands, whatever the space between its words.
fn places(text: &str, expression: &str) -> Vec<Range<usize>> {
    let end = |start: usize| {
        let mut at = start;
        for (i, word) in expression.split_whitespace().enumerate() {
            let rest = text[at..].trim_start();
            if (i > 0) == (rest.len() == text[at..].len()) {
                return None;
            }
            rest.strip_prefix(word)?;
            at = text.len() - rest.len() + word.len();
        }
        Some(at)
    };
    let first = expression.split_whitespace().next().unwrap_or_else(|| fail("empty", expression));
    let starts = text.match_indices(first).map(|(start, _)| start);
    starts.filter_map(|start| Some(start..end(start)?)).collect()
}

/// The only place of the expression.
fn place(text: &str, counted: &Counted) -> Range<usize> {
    let [place] = &places(text, counted.expression)[..] else {
        fail(&format!("{}: not there once", counted.name), counted.expression)
    };
    place.clone()
}

fn main() {
    let [sources, copy] = [1, 2].map(|i| env::args().nth(i).expect("two folders"));
    let lines = include_str!("counted.txt").lines().filter(|line| !line.starts_with('#'));
    let list: Vec<_> = lines.map(Counted::read).collect();
    let in_copy = |file: &str| Path::new(&copy).join(file);
    let read = |path: &Path| {
        fs::read_to_string(path)
            .unwrap_or_else(|error| fail(&error.to_string(), &path.display().to_string()))
    };
    for (i, counted) in list.iter().enumerate() {
        let same =
            |other: &&Counted| (other.file, other.expression) == (counted.file, counted.expression);
        if list[..i].iter().any(|other| same(&other)) {
            continue;
        }
        place(&read(&Path::new(&sources).join(counted.file)), counted);
        let path = in_copy(counted.file);
        let mut text = read(&path);
        let at = place(&text, counted);
        let of_it = || list.iter().enumerate().filter(|(_, other)| same(other));
        let first: String =
            of_it().filter_map(|(_, other)| Some(format!("{}; ", other.first?))).collect();
        let counts = of_it().map(|(index, other)| {
            format!("if {} {{ crate::count::seen({index}, {}); }} ", other.condition, other.test)
        });
        let counts: String = counts.collect();
        let with = format!("({{ {first}let it = {}; {counts}it }})", &text[at.clone()]);
        text.replace_range(at, &with);
        fs::write(path, text).expect("the copy can be written");
    }
    let rows = list.iter().map(|counted| format!("({:?}, {:?}),\n", counted.name, counted.never));
    let rows: String = rows.collect();
    let table = format!("pub const LIST: [(&str, [&str; 2]); {}] = [\n{rows}];\n", list.len());
    let count = include_str!("count.rs").to_string() + &table;
    fs::write(in_copy("count.rs"), count).expect("the copy can be written");
    let root = read(&in_copy("lib.rs")) + "pub mod count;\n";
    fs::write(in_copy("lib.rs"), root).expect("the copy can be written");
}

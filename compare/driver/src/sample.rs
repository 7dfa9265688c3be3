//! A sample of what the crate answers, as inputs of the program that document 01 describes and the lines that it must print. No git is asked,
//! so that every run makes the same bytes. Refusals 6 to 9 are left out, for a stand-in numbers them.

use crate::{
    ask,
    inputs::{Input, damage, edges, history},
    seeded::Seeded,
    shapes::Verification,
    tally::Tally,
};
use std::{fs, path::Path};

const CASES: usize = 300;
/// The longest chain of the sample, and how many cases have the same answer at most.
const LONGEST: usize = 3_000;
const ALIKE: usize = 12;

/// The lines for an answer.
fn lines(v: &Verification) -> String {
    if v.number > 0 {
        return format!("refused {} {} {}\n", v.number, v.file, v.place);
    }
    let length = if v.cyclic == 1 { "cyclic".to_owned() } else { v.length.to_string() };
    let mut lines = format!("accepted {} {length}\n", v.commits);
    for (key, count) in v.counts.iter().enumerate().filter(|(_, count)| **count > 0) {
        let key = if key == 65 { "more".to_owned() } else { key.to_string() };
        lines += &format!("parents {key} {count}\n");
    }
    lines
}

/// The input as a record of the program's stored cases: a letter, a length, and the list behind its own length before the chain.
fn record(input: &Input) -> Vec<u8> {
    let size = |n: usize| (n as u32).to_be_bytes();
    let whole = [&size(input.list.len())[..], &input.list, &input.chain].concat();
    [b"v", &size(whole.len())[..], &whole].concat()
}

/// Inputs without an end: those on a line first, then spoiled ones.
fn inputs() -> impl Iterator<Item = Input> {
    let mut s = Seeded::new(300);
    edges::all().into_iter().step_by(5).chain(std::iter::from_fn(move || {
        let shape = history::shape(&mut s);
        let files = history::chain(&mut s, shape);
        Some(if s.once_in(8) { files.input("synthetic") } else { damage::chain(&mut s, &files) })
    }))
}

/// Writes FOLDER/sample.stdin and FOLDER/sample.stdout. Says whether the port agreed.
pub fn write(folder: &Path) -> bool {
    let (mut s, mut t) = (Seeded::new(301), Tally::default());
    let (mut stdin, mut stdout, mut texts) = (Vec::new(), String::new(), Vec::new());
    for input in inputs().filter(|input| input.chain.len() <= LONGEST) {
        ask::input(&mut t, &mut s, &input);
        let text = t.verified.take().map(|v| lines(&v)).unwrap_or_default();
        let grouped = ["6", "7", "8", "9"].iter().any(|n| text.starts_with(&format!("refused {n} ")));
        if grouped || texts.iter().filter(|other| **other == text).count() >= ALIKE {
            continue;
        }
        stdin.extend(record(&input));
        stdout += &text;
        texts.push(text);
        if texts.len() == CASES {
            break;
        }
    }
    fs::write(folder.join("sample.stdin"), stdin).expect("a place for the sample");
    fs::write(folder.join("sample.stdout"), stdout).expect("a place for the sample");
    println!("sample: {} cases, {} kinds of answer", texts.len(), texts.iter().collect::<std::collections::BTreeSet<_>>().len());
    t.disagreements.is_empty()
}

//! The table of a run: cases, questions, refusals, known differences and disagreements.

use crate::{inputs::Input, rows::Row, tally::Tally};
use std::{collections::BTreeMap, fs, path::Path};

/// Numbers of refusals, a few to a line; 0 is none.
fn numbers(what: &str, met: &BTreeMap<u32, u64>) {
    println!("{what}, by number (0: none):");
    let met: Vec<String> = met.iter().map(|(number, count)| format!("{number}: {count}")).collect();
    met.chunks(8).for_each(|line| println!("    {}", line.join("   ")));
}

/// Writes an input beside the build, so that it can be looked at.
fn keep(folder: &Path, name: &str, input: &Input) {
    let kept = fs::write(folder.join(format!("{name}.chain")), &input.chain)
        .and_then(|()| fs::write(folder.join(format!("{name}.list")), &input.list));
    if let Err(error) = kept {
        println!("{name} could not be written: {error}");
    }
}

fn rows(tally: &Tally, folder: &Path) {
    println!("known differences met, by row of docs/DIFFERENCES.md, with the size of the smallest input:");
    for row in Row::ALL {
        let (number, about) = row.name();
        match tally.rows.get(&row) {
            None => println!("    {number:>3}  {about}: not met"),
            Some((count, input)) => {
                let size = if input.size() > 0 { format!("{} bytes", input.size()) } else { "no bytes kept".to_owned() };
                println!("    {number:>3}  {about}: {count} ({size}, {})", input.kind);
                if input.size() < 1 << 20 {
                    keep(folder, &format!("row-{number}"), input);
                }
            }
        }
    }
}

/// How many kinds of disagreement are shown.
const SHOWN: usize = 20;

fn disagreements(tally: &Tally, folder: &Path) {
    for (k, found) in tally.disagreements.values().enumerate().take(SHOWN) {
        println!("disagreement {k}: {} times, smallest of {} bytes ({})", found.count, found.input.size(), found.input.kind);
        println!("    question: {}\n    expected: {}\n    the port: {}", found.question, found.expected, found.got);
        keep(folder, &format!("disagree-{k}"), &found.input);
    }
    let compared: u64 = tally.questions.values().sum();
    println!("disagreements: {} in {compared} answers", tally.disagreements.len());
}

/// Whether every known difference that was met is a row of the page, which lies below the folder that the run starts in.
pub fn has_rows(tally: &Tally) -> bool {
    let page = fs::read_to_string("docs/DIFFERENCES.md").unwrap_or_default();
    let missing: Vec<&str> = tally.rows.keys().filter(|row| !row.is_in(&page)).map(|row| row.name().0).collect();
    if !missing.is_empty() {
        println!("docs/DIFFERENCES.md lacks rows: {}", missing.join(", "));
    }
    missing.is_empty()
}

pub fn print(tally: &Tally, folder: &Path) {
    println!("cases, by kind:");
    tally.cases.iter().for_each(|(kind, count)| println!("    {kind}: {count}"));
    println!("questions, each asked of both sides:");
    tally.questions.iter().for_each(|(question, count)| println!("    {question}: {count}"));
    numbers("refusals that were answered", &tally.refusals);
    numbers("what verification said of a chain", &tally.verdicts);
    rows(tally, folder);
    println!("refusals 6 to 9 that the stand-in tells apart otherwise: {}", tally.regrouped);
    disagreements(tally, folder);
}

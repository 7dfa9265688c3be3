//! Runs the Rust crate beside the port and compares every answer: `compare short|long|plant|sample`, `compare SEED N`,
//! `compare fuzz SECONDS SEED`, or `compare peers N [SEED]`.

mod answers;
mod ask;
mod caught;
mod fence;
mod fuzz;
mod inputs;
mod judge;
mod layout;
mod list;
mod original;
mod peers;
mod plan;
mod plant;
mod port;
mod rows;
mod sample;
mod seeded;
mod shapes;
mod table;
mod tally;
mod texts;

use plan::Plan;
use std::{
    path::{Path, PathBuf},
    process::ExitCode,
    time::Instant,
};
use tally::Tally;

/// Runs a plan, prints its table and says whether the two sides agree.
fn compare(plan: &Plan, folder: &Path) -> bool {
    let start = Instant::now();
    let mut tally = Tally::default();
    plan.run(&mut tally, folder);
    table::print(&tally, folder);
    println!("comparison: {} cases in {:.1} s", tally.total(), start.elapsed().as_secs_f64());
    table::has_rows(&tally) && tally.disagreements.is_empty()
}

/// Which question notices a planted error first, and after how many cases.
fn noticed(error: usize, folder: &Path) -> Option<String> {
    plant::choose(error);
    let mut tally = Tally::until_first();
    Plan::planted().run(&mut tally, folder);
    plant::choose(0);
    let found = tally.disagreements.values().next()?;
    Some(format!("case {}, {}", tally.total(), found.question))
}

/// Plants each error in turn; each must be noticed, and nothing where none is planted.
fn planted(folder: &Path) -> bool {
    let mut all = true;
    for (k, error) in ["nothing"].iter().chain(&plant::ERRORS).enumerate() {
        let by = noticed(k, folder);
        all &= by.is_some() == (k > 0);
        println!("planted: {error}: {}", by.map_or("not noticed".to_owned(), |by| format!("noticed at {by}")));
    }
    println!("planted: {}", if all { "each error was noticed" } else { "NOT AS IT SHOULD BE" });
    all
}

fn main() -> ExitCode {
    caught::prepare();
    let words: Vec<String> = std::env::args().skip(1).collect();
    let words: Vec<&str> = words.iter().map(String::as_str).collect();
    let folder = PathBuf::from(std::env::var("FOLDER").unwrap_or_else(|_| "target/compare".to_owned()));
    let numbers: Vec<u64> = words.iter().filter_map(|word| word.parse().ok()).collect();
    let agreed = match (&words[..], &numbers[..]) {
        (["short"], _) => planted(&folder) & compare(&Plan::short(), &folder),
        (["long"], _) => planted(&folder) & compare(&Plan::long(), &folder),
        (["plant"], _) => planted(&folder),
        (["fuzz", ..], [seconds, seed]) => {
            fuzz::run(*seconds, *seed);
            true
        }
        (["peers", ..], [count]) => peers::run(*count, 1, &folder),
        (["peers", ..], [count, seed]) => peers::run(*count, *seed, &folder),
        (["outside"], _) => fuzz::outside(),
        (["sample"], _) => sample::write(&folder),
        (_, [seed, count]) => compare(&Plan::random(*seed, *count as usize), &folder),
        _ => {
            println!("compare short|long|plant|sample, compare SEED N, compare fuzz SECONDS SEED, or compare peers N [SEED]");
            return ExitCode::from(2);
        }
    };
    if agreed { ExitCode::SUCCESS } else { ExitCode::FAILURE }
}

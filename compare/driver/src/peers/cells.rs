//! The table of verdicts: ours against git's, with what git says and the smallest input of each cell.

use super::verdict::{Said, Verdict};
use crate::inputs::Input;
use std::{collections::BTreeMap, fs, path::Path};

#[derive(Default)]
struct Cell {
    count: u64,
    lines: BTreeMap<String, u64>,
    smallest: Option<Input>,
}

/// By our refusal's number, 0 for none, and git's verdict.
#[derive(Default)]
pub struct Cells(BTreeMap<(u32, Verdict), Cell>);

/// How many of git's messages are shown of a cell.
const SHOWN: usize = 8;

impl Cell {
    /// The most frequent messages, each with its count.
    fn said(&self) -> String {
        let mut lines: Vec<(&String, &u64)> = self.lines.iter().collect();
        lines.sort_by_key(|(_, count)| std::cmp::Reverse(**count));
        let one =
            |(line, count): &(&String, &u64)| if line.is_empty() { format!("nothing ({count})") } else { format!("`{line}` ({count})") };
        let rest = if lines.len() > SHOWN { format!(", and {} more", lines.len() - SHOWN) } else { String::new() };
        lines.iter().take(SHOWN).map(one).collect::<Vec<_>>().join(", ") + &rest
    }
}

/// Whether the two disagree, or git does not come to a verdict.
fn differ(number: u32, verdict: Verdict) -> bool {
    match verdict {
        Verdict::Accepted | Verdict::Unread | Verdict::Warned => number > 0,
        Verdict::Refused => number == 0,
        Verdict::Crashed | Verdict::TimedOut => true,
    }
}

fn ours(number: u32) -> String {
    if number == 0 { "accepted".to_owned() } else { format!("refused by {number}") }
}

impl Cells {
    pub fn add(&mut self, number: u32, said: Said, input: Input) {
        let cell = self.0.entry((number, said.verdict)).or_default();
        cell.count += 1;
        *cell.lines.entry(said.line).or_default() += 1;
        if cell.smallest.as_ref().is_none_or(|smallest| input.size() < smallest.size()) {
            cell.smallest = Some(input);
        }
    }

    fn count(&self, number: u32, verdict: Verdict) -> u64 {
        self.0.get(&(number, verdict)).map_or(0, |cell| cell.count)
    }

    /// The table alone: a row for each verdict of ours, and their sums.
    fn table(&self) {
        let names: Vec<&str> = Verdict::ALL.iter().map(|verdict| verdict.name().0).collect();
        println!("| This port | {} |\n|---|{}", names.join(" | "), "---:|".repeat(names.len()));
        let row = |name: String, counts: [u64; 6]| println!("| {name} | {} |", counts.map(|n| n.to_string()).join(" | "));
        let mut numbers: Vec<u32> = self.0.keys().map(|(number, _)| *number).collect();
        numbers.dedup();
        for number in &numbers {
            row(ours(*number), Verdict::ALL.map(|verdict| self.count(*number, verdict)));
        }
        row("all".to_owned(), Verdict::ALL.map(|verdict| numbers.iter().map(|number| self.count(*number, verdict)).sum()));
    }

    /// The table, then each cell of disagreement; its smallest input is written to FOLDER/peer-NUMBER-VERDICT.chain and .list.
    pub fn print(&self, folder: &Path) {
        self.table();
        for ((number, verdict), cell) in self.0.iter().filter(|((number, verdict), _)| differ(*number, *verdict)) {
            let Some(input) = &cell.smallest else { continue };
            let (heading, word) = verdict.name();
            let name = format!("peer-{number}-{word}");
            println!(
                "- {}, {heading}: {} times; it says {}; smallest of {} bytes, {name}",
                ours(*number),
                cell.count,
                cell.said(),
                input.size()
            );
            let kept = fs::write(folder.join(format!("{name}.chain")), &input.chain)
                .and_then(|()| fs::write(folder.join(format!("{name}.list")), &input.list));
            kept.unwrap_or_else(|error| println!("{name} could not be written: {error}"));
        }
    }
}

//! Git as a peer: the graphs of small repositories are spoiled and shown to `git commit-graph verify` and to the port; the verdicts are tabulated.

mod cells;
mod shown;
mod verdict;

use crate::{
    inputs::{
        Files, damage,
        git::{self, Repository, Shape},
    },
    port,
    seeded::Seeded,
};
use cells::Cells;
use shown::Shown;
use std::{path::Path, time::Instant};
use verdict::Verdict;

const REPOSITORIES: usize = 24;

/// A small history: one file, or a chain of up to 3; both generation versions; merges of up to 2, 3 or 5 parents.
fn shape(s: &mut Seeded, k: usize) -> Shape {
    Shape { commits: s.between(1, 14), most_parents: [2, 3, 5][k / 3 % 3], files: 1 + k % 3, version: 1 + (k / 2 % 2) as u32 }
}

/// Shows a graph to both; says whether both accept it.
fn show(cells: &mut Cells, repository: &Repository, shown: &Shown) -> bool {
    shown.put(repository);
    let said = verdict::ask(repository, shown.ended);
    let input = shown.input();
    let number = port::verify((&input.chain, &input.list)).number;
    let both = number == 0 && said.verdict == Verdict::Accepted;
    cells.add(number, said, input);
    both
}

/// A spoiled graph, which is not the sound one; now and then the names are spoiled too.
fn spoiled(s: &mut Seeded, sound: &Files) -> Shown {
    loop {
        let mut shown = Shown::of(&damage::files(s, sound));
        if s.once_in(10) {
            shown.spoil_names(s);
        }
        if shown != Shown::of(sound) {
            return shown;
        }
    }
}

/// Shows so many graphs and prints the table. Both must accept what git wrote.
pub fn run(count: u64, seed: u64, folder: &Path) -> bool {
    let (start, mut s) = (Instant::now(), Seeded::new(seed));
    let mut repositories = Vec::new();
    for k in 0..REPOSITORIES {
        let shape = shape(&mut s, k);
        repositories.push(git::kept(&mut s, folder, shape));
    }
    let mut sound = Cells::default();
    let good = repositories.iter().filter(|(repository, files)| show(&mut sound, repository, &Shown::of(files))).count();
    println!("peers: both accept {good} of {REPOSITORIES} graphs as git wrote them");
    let mut cells = Cells::default();
    for _ in 0..count {
        let (repository, files) = &repositories[s.below(REPOSITORIES)];
        show(&mut cells, repository, &spoiled(&mut s, files));
    }
    cells.print(folder);
    println!("peers: {count} spoiled graphs with seed {seed} in {:.1} s", start.elapsed().as_secs_f64());
    good == REPOSITORIES
}

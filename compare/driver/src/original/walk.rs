//! The crate's walk over a commit's parents, and the states between its steps.

use super::{Stop, row};
use crate::{answers::Word, caught::caught};
use gix_commitgraph::file::{Commit, commit::Parents};

/// What one step answers.
#[derive(Clone, Debug)]
pub enum Met {
    Parent(u32),
    Stopped(Stop),
    End,
}

/// A step of a walk: the phase and the EDGE number before it and after it, and what it answers.
#[derive(Clone, Debug)]
pub struct Stride {
    pub from: (u32, usize),
    pub met: Met,
    pub to: (u32, usize),
}

const FIRST: (u32, usize) = (0, 0);
const SECOND: (u32, usize) = (1, 0);
const EXHAUSTED: (u32, usize) = (3, 0);

fn next(parents: &mut Parents<'_>) -> Met {
    match caught(|| parents.next()) {
        Err(panic) => Met::Stopped(panic.into()),
        Ok(None) => Met::End,
        Ok(Some(Ok(pos))) => Met::Parent(pos.0),
        Ok(Some(Err(error))) => Met::Stopped(Stop::by(&[error.to_string()])),
    }
}

/// The answers of a walk, up to the first that is no parent. Behind it the crate must say that the walk is at its end.
fn answers(commit: Commit<'_>) -> Vec<Met> {
    let mut parents = commit.iter_parents();
    let mut met = Vec::new();
    loop {
        met.push(next(&mut parents));
        if !matches!(met.last(), Some(Met::Parent(_))) {
            assert!(matches!(next(&mut parents), Met::End), "the crate's walk goes on behind its end");
            return met;
        }
    }
}

/// The state after a parent. The crate hides its states: this one follows from the second word, and from whether anything comes behind.
fn after(from: (u32, usize), second: Word, behind: &Met) -> (u32, usize) {
    if from == FIRST {
        return SECOND;
    }
    let edge = if from.0 == 2 { Some(from.1) } else { (second.0 == 2).then_some(second.1 as usize) };
    match (edge, behind) {
        (None, _) | (_, Met::End) => EXHAUSTED,
        (Some(k), _) => (2, k + 1),
    }
}

/// A whole walk, its last step included, which is a refusal or the end.
pub fn walk(commit: Commit<'_>) -> Vec<Stride> {
    let second = row(commit).second;
    let met = answers(commit);
    let mut from = FIRST;
    let mut strides = Vec::new();
    for (k, here) in met.iter().enumerate() {
        let to = match here {
            Met::Parent(_) => after(from, second, &met[k + 1]),
            _ => EXHAUSTED,
        };
        strides.push(Stride { from, met: here.clone(), to });
        from = to;
    }
    strides
}

//! The walk over a commit's parents, step by step and as a list.

use crate::{
    answers::{Answer, Refusal},
    judge,
    original::walk::{Met, Stride, walk},
    rows::Row,
    shapes::{Step, Total},
    tally::Tally,
};
use gix_commitgraph::file::Commit;

/// A phase, and an EDGE number for the phase within EDGE.
pub type From = (u32, usize);

/// The steps that are expected, each with where it starts; and the parents, or the refusal that the walk meets.
pub struct Walked {
    pub steps: Vec<(From, Step)>,
    pub parents: Answer<Vec<u32>>,
    at: Refusal,
}

/// What is expected of a step. `at` has the file and the place of its refusals.
pub fn expected_step(t: &mut Tally, stride: &Stride, at: Refusal) -> Step {
    match &stride.met {
        Met::Parent(pos) => Step::parent(*pos, stride.to),
        Met::End => Step::end(),
        Met::Stopped(stop) => {
            let number = judge::number(t, stop.clone()).number;
            Step::refused(Refusal { number, ..at })
        }
    }
}

/// The walk of a commit of the crate; or of none, where the question for it is refused.
pub fn expected(t: &mut Tally, commit: Answer<Commit<'_>>, at: Refusal) -> Walked {
    let commit = match commit {
        Ok(commit) => commit,
        Err(r) => return Walked { steps: vec![((0, 0), Step::refused(r))], parents: Err(r), at: r },
    };
    let strides = walk(commit);
    let steps: Vec<(From, Step)> = strides.iter().map(|s| (s.from, expected_step(t, s, at))).collect();
    let (_, last) = steps[steps.len() - 1];
    let parents = match last.kind {
        1 => Err(Refusal { number: last.number, ..at }),
        _ => Ok(steps.iter().filter(|(_, s)| s.kind == 0).map(|(_, s)| s.parent).collect()),
    };
    Walked { steps, parents, at }
}

/// Every step from where the walk stands; and one more from its end, from a phase that is none, and with a number that does not count there.
pub fn steps(t: &mut Tally, question: &'static str, pos: u32, walked: &Walked, port: impl Fn(From) -> Step) {
    for (from, step) in &walked.steps {
        t.held(question, (pos, from), *step, port(*from));
    }
    let refused = matches!(walked.parents, Err(r) if r.number == 40);
    let end = if refused { walked.steps[0].1 } else { Step::end() };
    for from in [(3, 0), (3, 7), (4, 1), (u32::MAX, 0)] {
        t.held(question, (pos, from), end, port(from));
    }
    t.held(question, (pos, "first, with a number"), walked.steps[0].1, port((0, 5)));
}

pub fn count(t: &mut Tally, pos: u32, walked: &Walked, port: Total) {
    let count = walked.parents.as_ref().map(Vec::len).map_err(|r| *r);
    t.held("file parent count", pos, Total::of(count), port);
}

/// The lengths of the lent lists: all from 0 to one more than the parents; of very many parents the ends.
fn rooms(count: usize) -> Vec<usize> {
    if count <= 80 { (0..count + 2).collect() } else { vec![0, 1, 2, count - 1, count, count + 1] }
}

/// What stands in the lent list before.
fn marked(room: usize) -> Vec<u32> {
    (0..room as u32).map(|k| 0xa5a5_0000 + k).collect()
}

/// How many entries stand behind the lent list, to see that they stay.
const BEHIND: usize = 2;

/// Parent lists. A list that is too short is refused by 55, which is no refusal of the crate (row 10); then nothing is written.
pub fn lists(t: &mut Tally, question: &'static str, pos: u32, walked: &Walked, port: impl Fn(&mut [u32]) -> Total) {
    let most = walked.parents.as_ref().map_or(2, Vec::len);
    for room in rooms(most) {
        let mut held = marked(room + BEHIND);
        let answer = match &walked.parents {
            Err(refusal) => Err(*refusal),
            Ok(parents) if parents.len() > room => {
                t.row(Row::Added);
                Err(Refusal { number: 55, ..walked.at })
            }
            Ok(parents) => {
                held[..parents.len()].copy_from_slice(parents);
                Ok(parents.len())
            }
        };
        let mut out = marked(room + BEHIND);
        t.held(question, (pos, room), Total::of(answer), port(&mut out[..room]));
        t.equal("what a parent list holds", (pos, room), &held[..], &out[..]);
    }
}

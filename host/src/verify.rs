//! Verification, and the type that only it can make.

use crate::{Error, Graph, ffi, file::Commit, shapes::Refuses};
use std::{collections::BTreeMap, ops::Deref, path::Path};

/// What an accepted graph adds up to.
#[derive(Clone, Debug, Eq, PartialEq)]
pub struct Outcome {
    /// The number of steps in the longest history, or none where some commit is its own ancestor.
    pub longest_path_length: Option<u32>,
    pub num_commits: u32,
    /// How many commits have how many parents; 65 stands for more than 64.
    pub parent_counts: BTreeMap<u32, u32>,
}

/// A graph that verification accepted. Nothing else makes one, so what takes it is kept from bytes that were not verified:
///
/// ```
/// fn page(graph: &jampreso::Accepted) -> u32 { graph.num_commits() }
/// ```
///
/// ```compile_fail
/// fn page(graph: &jampreso::Accepted) -> u32 { graph.num_commits() }
/// fn doubtful(graph: &jampreso::Graph) -> u32 { page(graph) }
/// ```
#[derive(Clone, Debug)]
pub struct Accepted {
    graph: Graph,
    outcome: Outcome,
}

impl Accepted {
    pub fn outcome(&self) -> &Outcome {
        &self.outcome
    }
}

impl Deref for Accepted {
    type Target = Graph;

    fn deref(&self) -> &Graph {
        &self.graph
    }
}

/// Reads the graph at a path and verifies it.
pub fn verify(path: impl AsRef<Path>) -> Result<Accepted, Error> {
    crate::at(path)?.verify()
}

impl Graph {
    /// The graph as an accepted one, or the refusal.
    pub fn verify(self) -> Result<Accepted, Error> {
        let outcome = self.outcome()?;
        Ok(Accepted { graph: self, outcome })
    }

    /// Verifies, and then calls `processor` with each commit by position. It sees only commits of an accepted graph.
    pub fn verify_integrity<E>(&self, mut processor: impl FnMut(&Commit<'_>) -> Result<(), E>) -> Result<Outcome, Error>
    where
        E: std::error::Error + Send + Sync + 'static,
    {
        let outcome = self.outcome()?;
        for commit in self.iter_commits() {
            processor(&commit).map_err(|e| Error::Stopped(e.to_string()))?;
        }
        Ok(outcome)
    }

    fn outcome(&self) -> Result<Outcome, Error> {
        let v = ffi::verify(self.lent()).answer().map_err(|told| self.refused(told))?;
        let counts = (0..).zip(v.counts).filter(|(_, n)| *n > 0).collect();
        Ok(Outcome { longest_path_length: (v.cyclic == 0).then_some(v.length), num_commits: v.commits, parent_counts: counts })
    }
}

//! Traversal of one file and verification of a chain by the crate, with how many commits were passed on before it stopped.

use super::{Said, Stop, chain::Chain, file::Original};
use crate::caught::caught;
use gix_commitgraph::{file::verify::Outcome as FileOutcome, verify::Outcome};
use std::{cell::Cell, convert::Infallible};

/// An answer, and how often the caller's function was called.
pub struct Counted<T> {
    pub said: Said<T>,
    pub calls: u32,
}

pub fn traverse(original: &Original) -> Counted<FileOutcome> {
    let calls = Cell::new(0);
    let answer = caught(|| {
        original.file.traverse(|_| {
            calls.set(calls.get() + 1);
            Ok(())
        })
    });
    let said = answer.map_err(Stop::from).and_then(|a| a.map_err(|error| Stop::by(&error.texts())));
    Counted { said, calls: calls.get() }
}

pub fn verify(chain: &Chain) -> Counted<Outcome> {
    let calls = Cell::new(0);
    let answer = caught(|| {
        chain.graph.verify_integrity(|_| {
            calls.set(calls.get() + 1);
            Ok::<_, Infallible>(())
        })
    });
    let said = answer.map_err(Stop::from).and_then(|a| a.map_err(|error| Stop::by(&error.texts())));
    Counted { said, calls: calls.get() }
}

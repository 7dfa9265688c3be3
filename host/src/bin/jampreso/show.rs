//! `show`: one commit.

use crate::{
    commit,
    fail::Fail,
    out::{Out, complain},
    sight::{Sight, View},
};
use jampreso::Commit;
use std::path::Path;

pub fn run(out: &mut Out, path: &Path, which: Option<&str>, as_json: bool) -> Result<u8, Fail> {
    let sight = Sight::read(path)?;
    sight.troubles.iter().for_each(|e| complain(&e.to_string()));
    let (view, found) = match which {
        Some(word) => sight.find(word)?,
        None => newest(&sight)?,
    };
    if as_json {
        out.line(&commit::object(view, &found))?;
    } else {
        commit::show(out, view, &found)?;
    }
    Ok(sight.status())
}

/// Without a word: the first commit of the highest generation.
fn newest(sight: &Sight) -> Result<(&View, Commit<'_>), Fail> {
    let mut best: Option<(&View, Commit<'_>)> = None;
    for view in &sight.views {
        for commit in view.graph.iter_commits() {
            if best.as_ref().is_none_or(|(_, b)| b.generation() < commit.generation()) {
                best = Some((view, commit));
            }
        }
    }
    best.ok_or_else(|| Fail::Absent("there are no commits here".into()))
}

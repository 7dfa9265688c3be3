//! `log`: first parents back from a commit.

use crate::{
    commit,
    fail::Fail,
    json,
    out::{Out, complain},
    sight::{Sight, View},
    time,
};
use jampreso::{Commit, Position};
use std::path::Path;

/// What comes after a commit on the way back.
enum Next<'a> {
    Commit(Commit<'a>),
    Root,
    Ended(String),
}

pub fn run(out: &mut Out, path: &Path, word: &str, as_json: bool) -> Result<u8, Fail> {
    let sight = Sight::read(path)?;
    let (view, start) = sight.find(word)?;
    let ended = follow(out, view, start, as_json)?;
    out.end()?;
    sight.troubles.iter().for_each(|e| complain(&e.to_string()));
    match ended {
        None => Ok(sight.status()),
        Some(why) => Err(Fail::Absent(why)),
    }
}

/// Follows first parents and shows each commit, each at most once. Answers why it ended before a root.
fn follow(out: &mut Out, view: &View, start: Commit<'_>, as_json: bool) -> Result<Option<String>, Fail> {
    let mut seen = vec![false; view.graph.num_commits() as usize];
    let mut at = start;
    out.text(if as_json { "{\"log\":[" } else { "" })?;
    let ended = loop {
        let pos = at.graph_position();
        seen[pos.0 as usize] = true;
        if as_json {
            out.text(if pos == start.graph_position() { "\n" } else { ",\n" })?;
            out.text(&commit::object(view, &at))?;
        } else {
            out.line(&format!("{} {}  {} {pos}", at.id(), time::short(at.committer_timestamp()), view.word()))?;
        }
        match next(view, &at, &seen) {
            Next::Commit(commit) => at = commit,
            Next::Root => break None,
            Next::Ended(why) => break Some(why),
        }
    };
    if as_json {
        let why = ended.as_ref().map_or("null".to_owned(), |w| json::quoted(w));
        out.line(&format!("\n],\"ended\":{why}}}"))?;
    }
    Ok(ended)
}

fn next<'a>(view: &'a View, at: &Commit<'_>, seen: &[bool]) -> Next<'a> {
    match at.parent1() {
        Ok(None) => Next::Root,
        Err(e) => Next::Ended(e.to_string()),
        Ok(Some(pos)) if !view.resolves() => {
            Next::Ended(format!("the first parent is position {pos} of the whole chain, which is not at hand"))
        }
        Ok(Some(pos)) if seen.get(pos.0 as usize) == Some(&true) => {
            Next::Ended(format!("the history comes back to position {pos}: that commit is its own ancestor"))
        }
        Ok(Some(Position(pos))) => match view.graph.try_commit_at(Position(pos)) {
            Ok(commit) => Next::Commit(commit),
            Err(e) => Next::Ended(format!("the first parent is position {pos}: {e}")),
        },
    }
}

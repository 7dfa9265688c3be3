//! One commit in words and as JSON.

use crate::{json, out::Out, sight::View, time};
use jampreso::{Commit, Error, file::Parent};
use std::{io, ops::Range};

/// No more parents of a commit than this are shown; a file can claim millions. That there are more is said.
pub const MOST: usize = 4096;

/// Some bytes of a file, in words.
pub fn bytes(at: &Range<usize>) -> String {
    format!("bytes {} to {}", at.start, at.end.saturating_sub(1))
}

pub fn show(out: &mut Out, view: &View, commit: &Commit<'_>) -> io::Result<()> {
    let file = commit.file();
    out.field("id", &format!("{}  ({})", commit.id(), bytes(&commit.id_place())))?;
    out.field("tree", &format!("{}  ({})", commit.root_tree_id(), bytes(&commit.tree_place())))?;
    let (when, read) = (commit.committer_timestamp(), bytes(&commit.date_place()));
    out.field("time", &format!("{} = {when} s  ({read})", time::words(when)))?;
    out.field("generation", &format!("{}  ({read})", commit.generation()))?;
    out.field(view.word(), &if view.alone.is_some() { commit.position().to_string() } else { commit.graph_position().to_string() })?;
    out.field("file", &format!("{}, position {} in it", jampreso::plain(file.path()), commit.position()))?;
    let mut name = "parents";
    for (k, step) in commit.iter_places().take(MOST + 1).enumerate() {
        let text = if k == MOST { "and more".to_owned() } else { step.map_or_else(|e| e.to_string(), |p| parent(view, &p)) };
        out.field(name, &text)?;
        name = "";
    }
    if name == "parents" {
        out.field(name, "none")?;
    }
    entry(commit).map_or(Ok(()), |e| out.field("trouble", &e.to_string()))
}

/// What is wrong with its id, its fan bucket or its tree. A refusal of its walk stands among the parents.
fn entry(commit: &Commit<'_>) -> Option<Error> {
    commit.trouble().filter(|e| e.number() >= Some(60))
}

/// A parent in words.
fn parent(view: &View, parent: &Parent) -> String {
    let who = match view.parent(parent.position) {
        Some(id) => id.to_string(),
        None if view.resolves() => "no such commit here".to_owned(),
        None => "of the whole chain".to_owned(),
    };
    format!("position {} {who}  ({})", parent.position, bytes(&parent.at))
}

pub fn object(view: &View, commit: &Commit<'_>) -> String {
    let (mut parents, mut refusal) = (Vec::new(), None);
    for step in commit.iter_places().take(MOST + 1) {
        match step {
            Ok(_) if parents.len() == MOST => parents.push("\"and more\"".to_owned()),
            Ok(p) => parents.push(parent_object(view, &p)),
            Err(e) => refusal = Some(e),
        }
    }
    let mut object = json::Object::new();
    if view.alone.is_none() {
        object = object.raw("position", commit.graph_position());
    }
    object = object.raw("file", view.alone.unwrap_or(commit.file().index())).raw("file_position", commit.position());
    object = object.text("id", &commit.id().to_hex()).raw("id_at", commit.id_place().start);
    object = object.text("tree", &commit.root_tree_id().to_hex()).raw("tree_at", commit.tree_place().start);
    object =
        object.raw("generation", commit.generation()).raw("time", commit.committer_timestamp()).raw("date_at", commit.date_place().start);
    object = object.text("date", &time::short(commit.committer_timestamp())).raw("parents", json::array(parents));
    match entry(commit).or(refusal) {
        Some(e) => object.raw("refusal", json::error(&e)).done(),
        None => object.done(),
    }
}

fn parent_object(view: &View, parent: &Parent) -> String {
    let object = json::Object::new().raw("position", parent.position);
    let object = match view.parent(parent.position) {
        Some(id) => object.text("id", &id.to_hex()),
        None => object.raw("id", "null"),
    };
    object.raw("at", parent.at.start).raw("size", parent.at.len()).done()
}

/// The parents on one line, as positions; and the refusal that ended them.
pub fn brief(commit: &Commit<'_>) -> (String, Option<Error>) {
    let mut text = String::new();
    for (k, step) in commit.iter_parents().take(MOST + 1).enumerate() {
        match step {
            Ok(_) if k == MOST => text.push_str(" and more"),
            Ok(pos) => text.push_str(&format!(" {pos}")),
            Err(e) => return (text, Some(e)),
        }
    }
    (text, None)
}

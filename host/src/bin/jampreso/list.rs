//! `list`: every commit, by position; also of a chain that does not open.

use crate::{
    commit,
    fail::Fail,
    json,
    out::{Colour, Out, complain},
    progress,
    sight::{Sight, View},
    time,
};
use jampreso::{Commit, plain};
use std::{io::IsTerminal, path::Path};

pub fn run(out: &mut Out, path: &Path, as_json: bool) -> Result<u8, Fail> {
    let sight = Sight::read(path)?;
    let write = |out: &mut Out| if as_json { whole(out, path, &sight) } else { lines(out, &sight) };
    if std::io::stdout().is_terminal() {
        write(out)?
    } else {
        progress::during("listing the commits", || write(out))?
    }
    if as_json {
        return Ok(sight.status());
    }
    sight.troubles.iter().for_each(|e| complain(&e.to_string()));
    Ok(sight.status())
}

fn lines(out: &mut Out, sight: &Sight) -> Result<(), Fail> {
    for view in &sight.views {
        if let Some(index) = view.alone {
            head(out, sight, view, index)?;
        }
        for commit in view.graph.iter_commits() {
            line(out, view, &commit)?;
        }
    }
    Ok(out.end()?)
}

/// What is said before a file that stands alone.
fn head(out: &mut Out, sight: &Sight, view: &View, index: usize) -> Result<(), Fail> {
    let name = out.paint(Colour::Name, &plain(&sight.chain.members()[index].path));
    let whose = if view.resolves() { "parents too" } else { "parents by position in the whole chain" };
    Ok(out.line(&format!("file {index} alone: {name} (file positions, {whose})"))?)
}

fn line(out: &mut Out, view: &View, found: &Commit<'_>) -> Result<(), Fail> {
    let (parents, refusal) = commit::brief(found);
    let place = match view.alone {
        Some(index) => format!("{index}:{}", found.position()),
        None => found.graph_position().to_string(),
    };
    let refusal = refusal.map_or(String::new(), |e| match e.refused() {
        Some(r) => out.paint(Colour::Bad, &format!(" [refused {}: {}]", r.number, r.title())),
        None => format!(" [{e}]"),
    });
    let (id, generation) = (found.id(), found.generation());
    let when = time::short(found.committer_timestamp());
    Ok(out
        .line(&format!("{place:>9} {id} {generation:>9} {when}{}{parents}{refusal}", if parents.is_empty() { "" } else { "  parents" }))?)
}

/// One JSON document, a line for each commit.
fn whole(out: &mut Out, path: &Path, sight: &Sight) -> Result<(), Fail> {
    let opens = sight.troubles.is_empty();
    let front = json::Object::new().path("path", path).raw("opens", opens).done();
    out.text(front.trim_end_matches('}'))?;
    out.text(",\"commits\":[")?;
    let mut first = true;
    for view in &sight.views {
        for found in view.graph.iter_commits() {
            out.text(if first { "\n" } else { ",\n" })?;
            out.text(&commit::object(view, &found))?;
            first = false;
        }
    }
    out.text("\n],\"refusals\":")?;
    Ok(out.line(&format!("{}}}", json::array(sight.troubles.iter().map(json::error))))?)
}

//! The commits as a table, where each id, tree, time and parent knows the bytes that it was read from.

use super::{Seen, escape};
use crate::{
    out::{counted, grouped},
    sight::View,
    time,
};
use jampreso::{Commit, Id, file::Parent};
use std::ops::Range;

/// No more rows than a browser shows with ease.
const ROWS: usize = 2000;
/// Nor more parents in a row.
const PARENTS: usize = 100;
const LINE: usize = 16;

pub fn section(seen: &Seen) -> String {
    let all = || seen.sight.views.iter().flat_map(|v| v.graph.iter_commits().map(move |c| (v, c)));
    let total: u64 = seen.sight.views.iter().map(|v| u64::from(v.graph.num_commits())).sum();
    let rows: String = all().take(ROWS).map(|(v, c)| row(seen, v, &c)).collect();
    let left = if total > ROWS as u64 { format!("<p>The first {} are shown.</p>", grouped(ROWS as u64)) } else { String::new() };
    let head = "<tr><th>position</th><th>id</th><th>tree</th><th>time</th><th>generation</th><th>parents</th></tr>";
    format!(
        "<section><h2>{}</h2>{left}<table><thead>{head}</thead><tbody>{rows}</tbody></table></section>",
        counted(total, "commit", "commits")
    )
}

fn row(seen: &Seen, view: &View, commit: &Commit<'_>) -> String {
    let index = view.alone.unwrap_or(commit.file().index());
    let place = match view.alone {
        Some(k) => format!("{k}:{} <small>file position</small>", commit.position()),
        None => commit.graph_position().to_string(),
    };
    let (mut parents, mut bad) = (String::new(), guilty(seen, view, commit));
    for (k, step) in commit.iter_places().take(PARENTS + 1).enumerate() {
        match step {
            Ok(_) if k == PARENTS => parents.push_str("and more"),
            Ok(p) => parents.push_str(&parent(seen, view, index, &p)),
            Err(e) => bad = Some(e.to_string()),
        }
    }
    let words = bad.as_ref().map_or(String::new(), |w| format!("<p class=\"bad\">{}</p>", escape(w)));
    let class = if bad.is_some() { " class=\"damaged\"" } else { "" };
    let id = read(seen, index, commit.id_place(), "id", &short(commit.id()), &commit.id().to_hex());
    let tree = read(seen, index, commit.tree_place(), "tree", &short(commit.root_tree_id()), &commit.root_tree_id().to_hex());
    let when = read(seen, index, commit.date_place(), "date", &time::short(commit.committer_timestamp()), "generation and time");
    format!(
        "<tr{class}><td>{place}</td><td>{id}</td><td>{tree}</td><td>{when}</td><td>{}</td><td>{parents}{words}</td></tr>\n",
        commit.generation()
    )
}

/// What is wrong with this commit by itself, or that verification or its file's own traversal stopped at it.
fn guilty(seen: &Seen, view: &View, commit: &Commit<'_>) -> Option<String> {
    let index = view.alone.unwrap_or(commit.file().index());
    let chain = seen.verdict.as_ref().filter(|e| e.refused().is_some_and(|r| r.file as usize == index));
    let alone = seen.known.get(index).and_then(|k| k.met.as_ref());
    if let Some(trouble) = alone.and_then(|_| commit.trouble()) {
        return Some(trouble.to_string());
    }
    let here = |e: &&jampreso::Error| {
        e.refused().is_some_and(|r| r.commit.is_some_and(|(_, id)| id == commit.id()) && r.place == u64::from(commit.position().0))
    };
    chain.filter(here).or(alone.filter(here)).map(|e| e.to_string())
}

fn short(id: Id) -> String {
    id.to_hex()[..12].to_owned()
}

fn parent(seen: &Seen, view: &View, index: usize, parent: &Parent) -> String {
    let (text, full) = match view.parent(parent.position) {
        Some(id) => (format!("{} {}", parent.position, short(id)), format!("parent {id}")),
        None if view.resolves() => (format!("{} (no such commit)", parent.position), "a position outside the chain".to_owned()),
        None => (format!("{} (of the whole chain)", parent.position), "a position of the whole chain".to_owned()),
    };
    read(seen, index, parent.at.clone(), "parent", &text, &full)
}

/// A button that knows its bytes and some around them.
fn read(seen: &Seen, index: usize, at: Range<usize>, class: &str, text: &str, full: &str) -> String {
    let all = seen.sight.chain.bytes(index);
    let from = (at.start / LINE * LINE).saturating_sub(LINE);
    let to = (at.end.div_ceil(LINE) * LINE + LINE).min(all.len());
    let hex: String = all.get(from..to).unwrap_or_default().iter().map(|b| format!("{b:02x}")).collect();
    let place =
        format!("data-file=\"{index}\" data-at=\"{}\" data-size=\"{}\" data-from=\"{from}\" data-hex=\"{hex}\"", at.start, at.len());
    format!("<button class=\"{class}\" title=\"{}\" {place}>{}</button>", escape(full), escape(text))
}

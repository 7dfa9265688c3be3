//! A file as a bar of its chunks, to scale, with what is damaged marked.

use super::{Seen, escape};
use crate::{
    commit::bytes,
    files::{Known, named},
    out::counted,
};
use jampreso::{Error, Refused, file, plain};
use std::ops::Range;

/// No more damaged places than this are marked in a file.
const MARKS: usize = 1000;

/// A stretch of a file: its class, its words and its bytes.
struct Stretch {
    class: String,
    words: String,
    at: Range<usize>,
}

pub fn section(seen: &Seen, known: &Known) -> String {
    let member = &seen.sight.chain.members()[known.index];
    let name = escape(&plain(&member.path));
    if let Some(trouble) = &member.trouble {
        return format!(
            "<article><h3>{} <code>{name}</code></h3><p class=\"bad\">{}</p></article>",
            known.index,
            escape(&trouble.to_string())
        );
    }
    let met = refusals(seen, known);
    let mut damage: Vec<Range<usize>> = met.iter().filter_map(|e| e.refused()).map(|r| damaged(known, r, member.size())).collect();
    damage.extend(more(known, member.size()).into_iter().filter(|at| !damage.contains(at)).collect::<Vec<_>>());
    let stretches = stretches(known, member.size());
    let drawn: String = stretches.iter().map(|s| draw(s, member.size(), &damage)).collect();
    let marks: String = damage
        .iter()
        .map(|at| format!("<i class=\"hurt\" title=\"damaged: {}\" style=\"{}\"></i>", bytes(at), scale(at, member.size())))
        .collect();
    let key: String = stretches.iter().map(|s| format!("<li class=\"{}\">{}, {}</li>", s.class, escape(&s.words), size(&s.at))).collect();
    let words: String = met.iter().map(|e| format!("<p class=\"bad\">{}</p>", escape(&e.to_string()))).collect();
    let (k, all) = (known.index, counted(member.size() as u64, "byte", "bytes"));
    let head = format!("<h3>{k} <code>{name}</code></h3><p>{all}, {}{}</p>", named(member.kind), opened(known));
    let bar = format!("<div class=\"bar\" data-file=\"{k}\" data-size=\"{}\">{drawn}{marks}</div>", member.size());
    format!("<article>{head}{bar}<ul class=\"key\">{key}</ul>{words}</article>")
}

fn size(at: &Range<usize>) -> String {
    format!("{} at {}", counted(at.len() as u64, "byte", "bytes"), at.start)
}

fn opened(known: &Known) -> String {
    let trailer = known.trailer.as_ref().map_or("", |(_, _, right)| if *right { ", trailer right" } else { ", trailer wrong" });
    let file = known.opened.as_ref().ok().and_then(|g| g.file(0));
    file.map_or(String::new(), |f| {
        let commits = counted(f.num_commits().into(), "commit", "commits");
        format!(", {commits}, {}{trailer}", counted(f.base_graph_count().into(), "base", "bases"))
    })
}

/// What the file meets by itself, and what the chain meets in it.
fn refusals<'a>(seen: &'a Seen, known: &'a Known) -> Vec<&'a Error> {
    let path = &seen.sight.chain.members()[known.index].path;
    let here =
        seen.verdict.as_ref().filter(|e| e.refused().is_some_and(|r| r.path.as_ref() == Some(path) && r.file as usize == known.index));
    let mut all: Vec<&Error> = known.met.iter().collect();
    let again = |e: &&Error| !all.iter().any(|m| m.number() == e.number());
    let more: Vec<&Error> = here.into_iter().filter(again).collect();
    all.extend(more);
    all
}

/// The file from its start to its end: known chunks, the trailer, and what lies before and between.
fn stretches(known: &Known, size: usize) -> Vec<Stretch> {
    let mut parts: Vec<(String, Range<usize>)> = known.chunks.iter().filter(|(_, at)| at.end <= size).cloned().collect();
    parts.extend(known.trailer.iter().map(|(at, _, _)| ("trailer".to_owned(), at.clone())));
    let (mut all, mut from) = (Vec::new(), 0);
    for (name, at) in parts {
        if from < at.start {
            all.push(gap(from..at.start));
        }
        from = from.max(at.end);
        all.push(Stretch { class: name.to_lowercase(), words: name, at });
    }
    if from < size {
        all.push(gap(from..size));
    }
    all
}

fn gap(at: Range<usize>) -> Stretch {
    let words = if at.start == 0 { "header and index" } else { "other bytes" };
    Stretch { class: "gap".to_owned(), words: words.to_owned(), at }
}

fn scale(at: &Range<usize>, size: usize) -> String {
    let whole = size.max(1) as f64;
    format!("left:{:.4}%;width:{:.4}%", at.start as f64 / whole * 100.0, at.len() as f64 / whole * 100.0)
}

fn draw(s: &Stretch, size: usize, damage: &[Range<usize>]) -> String {
    let hurt = damage.iter().any(|d| d.start < s.at.end && s.at.start < d.end);
    let more = if hurt { " damaged" } else { "" };
    format!("<b class=\"{}{more}\" style=\"{}\" title=\"{}: {}\"></b>", s.class, scale(&s.at, size), escape(&s.words), bytes(&s.at))
}

/// What is wrong with each commit by itself, in a file that meets some refusal.
fn more(known: &Known, size: usize) -> Vec<Range<usize>> {
    let file = known.opened.as_ref().ok().filter(|_| known.met.is_some()).and_then(|g| g.file(0));
    let troubles = file.into_iter().flat_map(|f| f.iter_commits()).filter_map(|c| c.trouble());
    troubles.filter_map(|e| e.refused().map(|r| damaged(known, r, size))).take(MARKS).collect()
}

/// The bytes that a refusal is about, as far as that can be told.
fn damaged(known: &Known, refused: &Refused, size: usize) -> Range<usize> {
    let chunk = |name: &str| known.chunks.iter().find(|(n, _)| n == name).map(|(_, at)| at.clone());
    let front = 0..known.chunks.iter().map(|(_, at)| at.start).min().unwrap_or(size);
    let commit = || known.opened.as_ref().ok()?.file(0)?.try_commit_at(file::Position(refused.place as u32)).ok();
    let row = || commit().map(|c| c.tree_place().start..c.date_place().end);
    let found = match refused.number {
        10 | 11 | 61 => chunk("BASE"),
        13 | 22 => chunk("CDAT"),
        15 | 20 => chunk("OIDF"),
        17 | 21 => chunk("OIDL"),
        18 => Some(known.chunks.iter().map(|(_, at)| at.end).max().unwrap_or(0).min(size)..size),
        62 | 63 => known.trailer.as_ref().map(|(at, _, _)| at.clone()),
        64..=66 => commit().map(|c| c.id_place()),
        67 => commit().map(|c| c.tree_place()),
        69 => commit().map(|c| c.date_place()),
        50..=54 | 68 => row(),
        _ => None,
    };
    found.unwrap_or(front)
}

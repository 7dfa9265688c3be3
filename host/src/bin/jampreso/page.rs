//! `files --html`: one page with each file as a bar of its chunks, the refusals in words, and the commits with their bytes.

mod bar;
mod table;

use crate::{
    fail::{Fail, status},
    files::{self, Known},
    out::counted,
    sight::Sight,
};
use jampreso::{Error, plain};
use std::{
    fs,
    io::Read,
    path::{Path, PathBuf},
};

const STYLE: &str = include_str!("page/page.css");
const SCRIPT: &str = include_str!("page/page.js");
const START: &str = "<!doctype html>";

/// What the page is made of.
pub struct Seen {
    pub sight: Sight,
    pub known: Vec<Known>,
    pub verdict: Option<Error>,
}

pub fn run(path: &Path, to: &Path) -> Result<u8, Fail> {
    guard(to)?;
    let sight = Sight::read(path)?;
    let (known, verdict) = (Known::all(&sight.chain), files::verdict(&sight.chain));
    let seen = Seen { sight, known, verdict };
    fs::write(to, page(path, &seen)).map_err(|e| Fail::Write(to.to_owned(), e))?;
    Ok(seen.verdict.iter().chain(seen.known.iter().filter_map(|k| k.met.as_ref())).map(status).max().unwrap_or(0))
}

/// Only a page is written over: nobody shall lose a graph by a slip in the order of the words.
fn guard(to: &Path) -> Result<(), Fail> {
    let mut front = Vec::new();
    match fs::metadata(to) {
        Ok(found) if found.is_file() && found.len() > 0 => {
            let read = fs::File::open(to).and_then(|f| f.take(START.len() as u64).read_to_end(&mut front));
            read.map_err(|e| Fail::Write(PathBuf::from(to), e))?;
            if front == START.as_bytes() {
                Ok(())
            } else {
                Err(Fail::Usage(format!("{} is there and is no page, so it is left alone", plain(to))))
            }
        }
        _ => Ok(()),
    }
}

fn page(path: &Path, seen: &Seen) -> String {
    let title = escape(&plain(path));
    let files: String = seen.known.iter().map(|k| bar::section(seen, k)).collect();
    let policy = "default-src 'none'; style-src 'unsafe-inline'; script-src 'unsafe-inline'";
    [
        format!("{START}\n<html lang=\"en\"><head><meta charset=\"utf-8\"><title>commit-graph: {title}</title>"),
        format!("<meta http-equiv=\"Content-Security-Policy\" content=\"{policy}\"><style>{STYLE}</style></head>"),
        format!("<body><header><h1>{title}</h1>{}</header><main>", banner(seen)),
        format!("<section><h2>{}</h2>{files}</section>", counted(seen.known.len() as u64, "file", "files")),
        table::section(seen),
        "</main><aside id=\"bytes\" aria-live=\"polite\">Click an id, a tree, a time or a parent to see its bytes.</aside>".to_owned(),
        format!("<script>{SCRIPT}</script></body></html>\n"),
    ]
    .concat()
}

/// The verdict, and why the chain does not open where it does not.
fn banner(seen: &Seen) -> String {
    let commits: u64 = seen.sight.views.iter().map(|v| u64::from(v.graph.num_commits())).sum();
    let head = match &seen.verdict {
        None => format!("<p class=\"good\">Verification accepted the chain, {}.</p>", counted(commits, "commit", "commits")),
        Some(e) => format!("<p class=\"bad\">Not accepted; what follows is only what is stored. {}</p>", escape(&e.to_string())),
    };
    let troubles = seen.sight.troubles.iter().filter(|t| Some(*t) != seen.verdict.as_ref());
    head + &troubles.map(|t| format!("<p class=\"bad\">{}</p>", escape(&t.to_string()))).collect::<String>()
}

/// Text that a page shows as it is.
pub fn escape(text: &str) -> String {
    let mut all = String::with_capacity(text.len());
    for c in text.chars() {
        match c {
            '&' => all.push_str("&amp;"),
            '<' => all.push_str("&lt;"),
            '>' => all.push_str("&gt;"),
            '"' => all.push_str("&quot;"),
            '\'' => all.push_str("&#39;"),
            c => all.push(c),
        }
    }
    all
}

//! `files`: each file of a chain, and what is in it.

use crate::{
    fail::{Fail, status},
    json,
    out::{Colour, Out, counted, grouped},
    sight,
};
use jampreso::{Chain, Error, Graph, Id, plain};
use std::{ops::Range, path::Path};

/// What is known of a file.
pub struct Known {
    pub index: usize,
    pub opened: Result<Graph, Error>,
    pub chunks: Vec<(String, Range<usize>)>,
    /// What going through it alone meets first.
    pub met: Option<Error>,
    /// Its trailer, and whether that is right.
    pub trailer: Option<(Range<usize>, Id, bool)>,
}

impl Known {
    pub fn ask(chain: &Chain, index: usize) -> Known {
        let opened = chain.alone(index);
        let chunks = chain.chunks(index).unwrap_or_default().into_iter().map(|(id, at)| (spelt(id), at)).collect();
        Known { index, opened, chunks, met: chain.traverse(index).err(), trailer: chain.trailer(index).ok() }
    }

    pub fn all(chain: &Chain) -> Vec<Known> {
        let what = format!("checking {}", counted(chain.members().len() as u64, "file", "files"));
        crate::progress::during(&what, || (0..chain.members().len()).map(|k| Known::ask(chain, k)).collect())
    }
}

/// The name of a chunk: its four letters, or its number where they are not all letters and digits.
fn spelt(id: u32) -> String {
    let letters = id.to_be_bytes();
    if letters.iter().all(u8::is_ascii_alphanumeric) { letters.map(char::from).iter().collect() } else { format!("0x{id:08x}") }
}

/// What a name says, in words.
pub fn named(kind: u32) -> &'static str {
    match kind {
        0 => "claims no checksum",
        1 => "claims a checksum",
        _ => "claims a checksum that cannot be read",
    }
}

/// Why the chain as a whole is no good, if it is not: it does not open, or verification refuses it.
pub fn verdict(chain: &Chain) -> Option<Error> {
    crate::progress::during("verifying the chain", || chain.graph().and_then(|g| g.verify()).err())
}

pub fn run(out: &mut Out, path: &Path, as_json: bool) -> Result<u8, Fail> {
    let chain = sight::read(path)?;
    let (known, verdict) = (Known::all(&chain), verdict(&chain));
    if as_json {
        let files = json::array(known.iter().map(|k| object(&chain, k)));
        let last = verdict.as_ref().map_or("null".to_owned(), json::error);
        out.line(&json::Object::new().path("path", path).raw("files", files).raw("refusal", last).done())?;
    } else {
        for file in &known {
            describe(out, &chain, file)?;
        }
        let line =
            verdict.as_ref().map_or_else(|| out.paint(Colour::Good, "the chain is accepted"), |e| out.paint(Colour::Bad, &e.to_string()));
        out.line(&line)?;
    }
    Ok(verdict.iter().chain(known.iter().filter_map(|k| k.met.as_ref())).map(status).max().unwrap_or(0))
}

fn describe(out: &mut Out, chain: &Chain, known: &Known) -> Result<(), Fail> {
    let member = &chain.members()[known.index];
    let name = out.paint(Colour::Name, &plain(&member.path));
    out.line(&format!("file {}: {name}", known.index))?;
    if let Some(trouble) = &member.trouble {
        return Ok(out.field("trouble", &trouble.to_string())?);
    }
    out.field("name", named(member.kind))?;
    out.field("size", &counted(member.size() as u64, "byte", "bytes"))?;
    if let Some(file) = known.opened.as_ref().ok().and_then(|g| g.file(0)) {
        out.field("commits", &grouped(file.num_commits()))?;
        out.field("bases", &file.base_graph_count().to_string())?;
        for id in file.iter_base_graph_ids() {
            out.field("", &id.to_string())?;
        }
    }
    for (name, at) in &known.chunks {
        out.field(name, &format!("{} at {}", counted(at.len() as u64, "byte", "bytes"), at.start))?;
    }
    if let Some((at, id, right)) = &known.trailer {
        let word = if *right { out.paint(Colour::Good, "right") } else { out.paint(Colour::Bad, "wrong") };
        out.field("trailer", &format!("{word}, {id} at {}", at.start))?;
    }
    match &known.met {
        Some(e) => Ok(out.field("met", &e.to_string())?),
        None => Ok(()),
    }
}

fn object(chain: &Chain, known: &Known) -> String {
    let member = &chain.members()[known.index];
    let mut object = json::Object::new().raw("file", known.index).path("path", &member.path).raw("kind", member.kind);
    object = object.raw("size", member.size());
    if let Some(file) = known.opened.as_ref().ok().and_then(|g| g.file(0)) {
        let bases = json::array(file.iter_base_graph_ids().map(|id| json::quoted(&id.to_hex())));
        object = object.raw("commits", file.num_commits()).raw("bases", bases);
    }
    let chunk = |(name, at): &(String, Range<usize>)| json::Object::new().text("id", name).raw("at", at.start).raw("size", at.len()).done();
    object = object.raw("chunks", json::array(known.chunks.iter().map(chunk)));
    if let Some((at, id, right)) = &known.trailer {
        let trailer = json::Object::new().raw("at", at.start).text("digest", &id.to_hex()).raw("right", right).done();
        object = object.raw("trailer", trailer);
    }
    match &known.met {
        Some(e) => object.raw("refusal", json::error(e)).done(),
        None => object.done(),
    }
}

//! `verify`: whether a chain is accepted.

use crate::{
    fail::{Fail, status},
    json,
    out::{Colour, Out, counted, grouped},
    progress, sight,
};
use jampreso::{Chain, Error, Outcome, Refused, plain};
use std::path::Path;

pub fn run(out: &mut Out, path: &Path, as_json: bool) -> Result<u8, Fail> {
    let chain = match sight::read(path) {
        Ok(chain) => chain,
        Err(e) => return refuse(out, path, None, e, as_json),
    };
    let size: usize = chain.members().iter().map(|m| m.size()).sum();
    let what = format!("verifying {}", counted(size as u64, "byte", "bytes"));
    match progress::during(&what, || chain.graph().and_then(|g| g.verify())) {
        Ok(accepted) if as_json => out.line(&object(path, &chain, accepted.outcome()))?,
        Ok(accepted) => accept(out, path, &chain, accepted.outcome())?,
        Err(e) => return refuse(out, path, Some(&chain), e, as_json),
    }
    Ok(0)
}

fn accept(out: &mut Out, path: &Path, chain: &Chain, outcome: &Outcome) -> Result<(), Fail> {
    let head = out.paint(Colour::Good, "accepted");
    out.line(&format!("{head} {}", plain(path)))?;
    out.field("files", &chain.members().len().to_string())?;
    out.field("commits", &grouped(outcome.num_commits))?;
    let mut name = "parents";
    for (parents, commits) in &outcome.parent_counts {
        let key = if *parents > 64 { "more than 64".to_owned() } else { parents.to_string() };
        out.field(name, &format!("{key}: {}", counted((*commits).into(), "commit", "commits")))?;
        name = "";
    }
    let length = match outcome.longest_path_length {
        Some(n) => counted(n.into(), "step", "steps"),
        None => "none: a commit is its own ancestor".to_owned(),
    };
    Ok(out.field("longest path", &length)?)
}

fn object(path: &Path, chain: &Chain, outcome: &Outcome) -> String {
    let counts = outcome.parent_counts.iter().map(|(k, n)| json::Object::new().raw("parents", k).raw("commits", n).done());
    let length = outcome.longest_path_length.map_or("null".to_owned(), |n| n.to_string());
    let object = json::Object::new().raw("accepted", true).path("path", path).raw("files", chain.members().len());
    object.raw("commits", outcome.num_commits).raw("parent_counts", json::array(counts)).raw("longest_path", length).done()
}

fn refuse(out: &mut Out, path: &Path, chain: Option<&Chain>, error: Error, as_json: bool) -> Result<u8, Fail> {
    let code = status(&error);
    match &error {
        e if as_json => out.line(&json::Object::new().raw("accepted", false).path("path", path).raw("refusal", json::error(e)).done())?,
        Error::Refused(r) => tell(out, path, chain, r)?,
        _ => return Err(error.into()),
    }
    Ok(code)
}

/// A refusal in words.
fn tell(out: &mut Out, path: &Path, chain: Option<&Chain>, refused: &Refused) -> Result<(), Fail> {
    let head = out.paint(Colour::Bad, &format!("refused {}", refused.number));
    out.line(&format!("{head} {}: {}", plain(path), refused.title()))?;
    let files = chain.map_or(1, |c| c.members().len());
    if let Some(file) = &refused.path {
        out.field("file", &format!("{} ({} of {files})", plain(file), refused.file + 1))?;
    }
    if let Some((pos, id)) = &refused.commit {
        out.field("commit", &id.to_string())?;
        out.field("position", &format!("{pos}, in its file {}", refused.place))?;
    } else if !refused.spot().is_empty() {
        out.field("place", &refused.spot())?;
    }
    Ok(out.field("meaning", refused.sentence())?)
}

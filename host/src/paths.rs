//! From a path to the commit-graph files that it means.

use crate::{Error, read};
use std::{
    ffi::{OsStr, OsString},
    fs,
    io::ErrorKind,
    os::unix::ffi::{OsStrExt, OsStringExt},
    path::{Path, PathBuf},
};

/// The files of a chain, oldest first; or those that lie in a folder whose chain file could not be read, and why not.
#[derive(Debug)]
pub struct Names {
    pub paths: Vec<PathBuf>,
    pub trouble: Option<Error>,
}

const CHAIN: &str = "commit-graph-chain";
const DEPTH: u32 = 8;

/// The files that a path means: a repository, a git folder, its objects or objects/info, a commit-graphs folder, or a file.
pub fn names(path: &Path) -> Result<Names, Error> {
    named(path, DEPTH)
}

fn named(path: &Path, depth: u32) -> Result<Names, Error> {
    if depth == 0 {
        return Err(Error::unread(path, "the git folders point at each other without end"));
    }
    match there(path)? {
        None => Err(Error::unread(path, "there is no such file or folder")),
        Some(true) => folder(path, depth),
        Some(false) if path.file_name() == Some(OsStr::new(CHAIN)) => chain(parent(path)),
        Some(false) if path.file_name() == Some(OsStr::new(".git")) => pointer(path, b"gitdir: ", depth),
        Some(false) => Ok(Names { paths: vec![path.to_owned()], trouble: None }),
    }
}

/// Whether there is something, and whether it is a folder.
fn there(path: &Path) -> Result<Option<bool>, Error> {
    match fs::metadata(path) {
        Ok(found) => Ok(Some(found.is_dir())),
        Err(e) if matches!(e.kind(), ErrorKind::NotFound | ErrorKind::NotADirectory) => Ok(None),
        Err(e) => Err(Error::unread(path, e)),
    }
}

fn parent(path: &Path) -> &Path {
    match path.parent() {
        Some(p) if !p.as_os_str().is_empty() => p,
        _ => Path::new("."),
    }
}

/// The working tree's own .git comes first, since any name may stand beside it.
fn folder(path: &Path, depth: u32) -> Result<Names, Error> {
    let (git, objects) = (path.join(".git"), path.join("objects"));
    if there(&git)?.is_some() {
        return named(&git, depth - 1);
    }
    if there(&path.join(CHAIN))? == Some(false) {
        return chain(path);
    }
    let single = path.join("commit-graph");
    if there(&single)? == Some(false) {
        return Ok(Names { paths: vec![single], trouble: None });
    }
    for inner in [path.join("commit-graphs"), objects.join("info"), objects] {
        if there(&inner)? == Some(true) {
            return folder(&inner, depth - 1);
        }
    }
    if there(&path.join("commondir"))? == Some(false) {
        return pointer(&path.join("commondir"), b"", depth);
    }
    if path.file_name() == Some(OsStr::new("objects")) && there(&path.join("info"))? == Some(true) {
        return folder(&path.join("info"), depth - 1);
    }
    loose(path)
}

/// What a file that names a folder points at.
fn pointer(path: &Path, before: &[u8], depth: u32) -> Result<Names, Error> {
    let text = read::small(path)?;
    let line = text.split(|b| *b == b'\n').next().unwrap_or_default();
    match line.strip_prefix(before) {
        Some(rest) if !rest.is_empty() => named(&parent(path).join(OsStr::from_bytes(rest)), depth - 1),
        _ => Err(Error::unread(path, "it does not name a git folder")),
    }
}

/// The files that a chain file names, one a line.
fn chain(folder: &Path) -> Result<Names, Error> {
    let path = folder.join(CHAIN);
    let text = match read::small(&path) {
        Ok(text) => text,
        Err(trouble) => return found(folder, trouble),
    };
    let mut paths = Vec::new();
    let body = text.strip_suffix(b"\n").unwrap_or(&text);
    for line in body.split(|b| *b == b'\n').filter(|_| !text.is_empty()) {
        let line = line.strip_suffix(b"\r").unwrap_or(line);
        if line.iter().any(|b| *b == b'/' || *b == 0) {
            return Err(Error::unread(&path, format!("line {} is not the name of a file", paths.len() + 1)));
        }
        paths.push(folder.join(OsString::from_vec([b"graph-", line, b".graph"].concat())));
    }
    Ok(Names { paths, trouble: None })
}

/// A folder without a chain file: the graph files in it, for looking at each alone.
fn loose(path: &Path) -> Result<Names, Error> {
    let nothing = "there is no commit-graph here ('git commit-graph write --reachable' makes one)";
    let missing = Error::unread(&path.join(CHAIN), "there is no such file, so the order of the chain is not known");
    match found(path, missing) {
        Ok(names) if names.paths.is_empty() => Err(Error::unread(path, nothing)),
        other => other,
    }
}

fn found(path: &Path, trouble: Error) -> Result<Names, Error> {
    let list = fs::read_dir(path).map_err(|e| Error::unread(path, e))?;
    let name = |p: &PathBuf| p.file_name().is_some_and(|n| n.as_bytes().starts_with(b"graph-") && n.as_bytes().ends_with(b".graph"));
    let mut paths: Vec<PathBuf> = list.filter_map(|e| e.ok().map(|e| e.path())).filter(name).collect();
    paths.sort();
    Ok(Names { paths, trouble: Some(trouble) })
}

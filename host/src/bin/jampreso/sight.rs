//! What can be seen at a path: the graph, or where its chain does not open each file that opens alone.

use crate::{fail::Fail, progress};
use jampreso::{Chain, Commit, Error, Graph, Id, Position, file};
use std::path::Path;

/// One graph to look at. Where it is one file out of a chain, positions are the file's, and its parents cannot be told.
pub struct View {
    pub graph: Graph,
    pub alone: Option<usize>,
}

pub struct Sight {
    pub chain: Chain,
    pub views: Vec<View>,
    /// Why the chain does not open, and what does not open alone.
    pub troubles: Vec<Error>,
}

/// Reads a path's files, saying so if it takes long.
pub fn read(path: &Path) -> Result<Chain, Error> {
    progress::during(&format!("reading {}", jampreso::plain(path)), || Chain::read(path))
}

impl Sight {
    pub fn read(path: &Path) -> Result<Sight, Error> {
        let chain = read(path)?;
        match chain.graph() {
            Ok(graph) => {
                let single = chain.members().len() == 1 && graph.file(0).is_some_and(|f| f.base_graph_count() > 0);
                Ok(Sight { chain, views: vec![View { graph, alone: single.then_some(0) }], troubles: Vec::new() })
            }
            Err(trouble) => Ok(Sight::broken(chain, trouble)),
        }
    }

    fn broken(chain: Chain, trouble: Error) -> Sight {
        let (mut views, mut troubles) = (Vec::new(), vec![trouble]);
        for index in 0..chain.members().len() {
            match chain.alone(index) {
                Ok(graph) => views.push(View { graph, alone: Some(index) }),
                Err(e) if !same(&e, &troubles[0]) => troubles.push(numbered(e, index)),
                Err(_) => {}
            }
        }
        Sight { chain, views, troubles }
    }

    /// The status of what was seen: 0, or the highest of its troubles'.
    pub fn status(&self) -> u8 {
        self.troubles.iter().map(crate::fail::status).max().unwrap_or(0)
    }

    /// The commit that a word means: an id, the front of one, a position, or FILE:POSITION.
    pub fn find(&self, word: &str) -> Result<(&View, Commit<'_>), Fail> {
        if let Some((file, pos)) = pair(word) {
            return self.inside(file, pos);
        }
        match word.parse::<u32>() {
            Ok(pos) if word.len() <= 10 => return self.placed(pos),
            _ => {}
        }
        if let Ok(id) = word.parse::<Id>() {
            let found = self.views.iter().find_map(|v| v.graph.commit_by_id(id).map(|c| (v, c)));
            return found.ok_or_else(|| Fail::Absent(format!("no commit here has the id {id}")));
        }
        self.begun(word)
    }

    fn placed(&self, pos: u32) -> Result<(&View, Commit<'_>), Fail> {
        match &self.views[..] {
            [view] => Ok((view, view.graph.try_commit_at(Position(pos))?)),
            _ => Err(Fail::Absent(format!("the chain does not open, so position {pos} could be in any of its files; say FILE:{pos}"))),
        }
    }

    fn inside(&self, index: usize, pos: u32) -> Result<(&View, Commit<'_>), Fail> {
        let absent = || Fail::Absent(format!("there is no file {index} here that opens"));
        let view = self.views.iter().find(|v| v.alone.is_none_or(|k| k == index)).ok_or_else(absent)?;
        let file = view.graph.file(if view.alone.is_some() { 0 } else { index }).ok_or_else(absent)?;
        Ok((view, file.try_commit_at(file::Position(pos))?))
    }

    fn begun(&self, word: &str) -> Result<(&View, Commit<'_>), Fail> {
        let front = word.to_ascii_lowercase();
        if front.len() < 4 || front.len() > 40 || !front.bytes().all(|b| b.is_ascii_hexdigit()) {
            return Err(Fail::Usage(format!("{word:?} is no id (40 hexadecimal digits, or the first 4 and more of them) and no position")));
        }
        let all = |v: &'_ View| {
            v.graph.iter_commits().filter(|c| c.id().to_hex().starts_with(&front)).map(|c| c.graph_position()).collect::<Vec<_>>()
        };
        let found: Vec<(&View, Position)> = self.views.iter().flat_map(|v| all(v).into_iter().map(move |p| (v, p))).collect();
        match &found[..] {
            [] => Err(Fail::Absent(format!("no commit here has an id that starts with {front}"))),
            [(view, pos)] => Ok((view, view.graph.try_commit_at(*pos)?)),
            more => Err(Fail::Absent(format!("{} commits have ids that start with {front}", more.len()))),
        }
    }
}

/// A refusal of a file that was asked alone, with its number in the chain.
fn numbered(error: Error, index: usize) -> Error {
    match error {
        Error::Refused(r) => Error::Refused(jampreso::Refused { file: index as u32, ..r }),
        other => other,
    }
}

fn same(a: &Error, b: &Error) -> bool {
    match (a, b) {
        (Error::Refused(a), Error::Refused(b)) => a.path == b.path && a.number == b.number && a.path.is_some(),
        _ => a == b,
    }
}

fn pair(word: &str) -> Option<(usize, u32)> {
    let (file, pos) = word.split_once(':')?;
    Some((file.parse().ok()?, pos.parse().ok()?))
}

impl View {
    /// Whether its parent positions are its own: not where it is a file that stands on others.
    pub fn resolves(&self) -> bool {
        self.alone.is_none() || self.graph.file(0).is_some_and(|f| f.base_graph_count() == 0)
    }

    /// The id of a parent, where that can be told.
    pub fn parent(&self, pos: Position) -> Option<Id> {
        if self.resolves() { self.graph.try_id_at(pos).ok() } else { None }
    }

    /// What its positions are called.
    pub fn word(&self) -> &'static str {
        if self.alone.is_some() { "file position" } else { "position" }
    }
}

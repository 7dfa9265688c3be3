//! Graph files as they lie in a repository, by their names, and the same files as the port is lent them.

use crate::{
    inputs::{Files, Input, git::Repository, trailer},
    list::Record,
    port,
    seeded::Seeded,
};
use std::{fs, io};

/// Files with their names, and whether the chain file's last line ends.
#[derive(PartialEq)]
pub struct Shown {
    files: Vec<(String, Vec<u8>)>,
    pub ended: bool,
}

const PLAIN: &str = "commit-graph";

fn name(record: &Record) -> String {
    record.path().to_string_lossy().into_owned()
}

/// What stands between `graph-` and `.graph`.
fn middle(name: &str) -> &str {
    name.strip_prefix("graph-").and_then(|rest| rest.strip_suffix(".graph")).unwrap_or("")
}

impl Shown {
    /// A file without a hash in its name stands alone; in a chain it is named by its trailer.
    pub fn of(files: &Files) -> Shown {
        let alone = files.0.len() == 1;
        let one = |(bytes, record): &(Vec<u8>, Record)| {
            let claimed = Record { kind: 1, hash: trailer(bytes), ..*record };
            (name(if alone || record.kind == 1 { record } else { &claimed }), bytes.clone())
        };
        Shown { files: files.0.iter().map(one).collect(), ended: true }
    }

    /// Another digit in a name, no digit there, upper case; or a chain file whose last line does not end. A plain file keeps its name.
    pub fn spoil_names(&mut self, s: &mut Seeded) {
        let at = s.below(self.files.len());
        let name = &mut self.files[at].0;
        if name == PLAIN {
            return;
        }
        let hash = middle(name).to_owned();
        let (before, after) = hash.split_at(s.below(hash.len()));
        let other = if after.starts_with('7') { "8" } else { "7" };
        match s.below(4) {
            0 => *name = format!("graph-{before}{other}{}.graph", &after[1..]),
            1 => *name = format!("graph-{before}z{}.graph", &after[1..]),
            2 => *name = format!("graph-{}.graph", hash.to_uppercase()),
            _ => self.ended = false,
        }
    }

    /// The chain and its list; each record follows from the file's name.
    pub fn input(&self) -> Input {
        let mut files = Files::default();
        for (name, bytes) in &self.files {
            let read = port::name(name.as_bytes());
            files.0.push((bytes.clone(), Record { length: bytes.len() as u32, kind: read.kind, hash: read.hash }));
        }
        files.input("peer")
    }

    /// The chain file: a line for each file.
    fn lines(&self) -> String {
        let lines: Vec<&str> = self.files.iter().map(|(name, _)| middle(name)).collect();
        lines.join("\n") + if self.ended { "\n" } else { "" }
    }

    /// Puts the files into the repository, and no others.
    pub fn put(&self, repository: &Repository) {
        let info = repository.0.join("objects/info");
        let split = info.join("commit-graphs");
        let put = || -> io::Result<()> {
            let _ = fs::remove_file(info.join(PLAIN));
            let _ = fs::remove_dir_all(&split);
            if let [(name, bytes)] = &self.files[..]
                && name == PLAIN
            {
                return fs::write(info.join(name), bytes);
            }
            fs::create_dir_all(&split)?;
            self.files.iter().try_for_each(|(name, bytes)| fs::write(split.join(name), bytes))?;
            fs::write(split.join("commit-graph-chain"), self.lines())
        };
        put().expect("a place for the graph");
    }
}

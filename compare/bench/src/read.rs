//! A chain that git wrote: its files end to end, and the list that names them.

use gix_commitgraph::{File, Graph};
use memmap2::Mmap;
use std::{fs, path::PathBuf};

pub struct Chain {
    pub bytes: Vec<u8>,
    pub list: Vec<u8>,
    pub files: Vec<(PathBuf, Vec<u8>)>,
    pub commits: u32,
}

/// The files of a folder: the one file, or those that `commit-graph-chain` names, in order.
fn paths(folder: &str) -> Vec<(PathBuf, u32)> {
    let Ok(names) = fs::read_to_string(format!("{folder}/commit-graph-chain")) else {
        return vec![(format!("{folder}/commit-graph").into(), 0)];
    };
    names.lines().map(|name| (format!("{folder}/graph-{name}.graph").into(), 1)).collect()
}

impl Chain {
    pub fn read(folder: &str) -> Chain {
        let (mut bytes, mut list, mut files) = (Vec::new(), Vec::new(), Vec::new());
        for (path, kind) in paths(folder) {
            let file = fs::read(&path).expect("a file of the chain");
            let claim = if kind == 1 { &file[file.len() - 20..] } else { &[0; 20] };
            list.extend([&(file.len() as u32).to_be_bytes()[..], &kind.to_be_bytes(), claim, &[0; 4]].concat());
            bytes.extend(&file);
            files.push((path, file));
        }
        let mut chain = Chain { bytes, list, files, commits: 0 };
        chain.commits = chain.graph().num_commits();
        chain
    }

    pub fn lent(&self) -> (&[u8], &[u8]) {
        (&self.bytes, &self.list)
    }

    /// Its files in memory, for the crate to open.
    pub fn maps(&self) -> Vec<(Mmap, PathBuf)> {
        self.files.iter().map(|(path, file)| (Mmap::from_bytes(file.clone()), path.clone())).collect()
    }

    pub fn graph(&self) -> Graph {
        opened(self.maps())
    }
}

pub fn opened(maps: Vec<(Mmap, PathBuf)>) -> Graph {
    let files = maps.into_iter().map(|(map, path)| File::new(map, path).expect("a sound file"));
    Graph::new(files.collect()).expect("a sound chain")
}

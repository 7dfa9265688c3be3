//! What the tests share: folders that vanish, repositories that git makes on the spot, and runs of the tool.
#![allow(dead_code)]

pub mod json;

use std::{
    collections::BTreeMap,
    env, fs,
    path::{Path, PathBuf},
    process::{Command, Output},
    sync::atomic::{AtomicU32, Ordering},
};

/// A folder of its own for one test.
pub struct Folder(pub PathBuf);

impl Folder {
    pub fn new() -> Folder {
        static NEXT: AtomicU32 = AtomicU32::new(0);
        let path = env::temp_dir().join(format!("jampreso-{}-{}", std::process::id(), NEXT.fetch_add(1, Ordering::Relaxed)));
        fs::create_dir_all(&path).unwrap();
        Folder(path)
    }

    pub fn join(&self, name: &str) -> PathBuf {
        self.0.join(name)
    }
}

impl Drop for Folder {
    fn drop(&mut self) {
        let _ = fs::remove_dir_all(&self.0);
    }
}

/// A repository with a small history: a root, two children, their merge, three more children of the root and a merge of four.
pub struct Repo {
    pub folder: Folder,
    pub ids: Vec<String>,
}

pub struct Row {
    pub tree: String,
    pub time: u64,
    pub parents: Vec<String>,
}

pub fn git(folder: &Path, args: &[&str]) -> String {
    let who = ["GIT_AUTHOR_NAME", "GIT_AUTHOR_EMAIL", "GIT_COMMITTER_NAME", "GIT_COMMITTER_EMAIL"];
    let mut command = Command::new("git");
    command
        .arg("-C")
        .arg(folder)
        .args(args)
        .envs(who.map(|k| (k, "keeper")))
        .env("GIT_CONFIG_GLOBAL", "/dev/null")
        .env("GIT_CONFIG_NOSYSTEM", "1");
    if let Some(date) = args.iter().find_map(|a| a.strip_prefix("coin ")) {
        command.env("GIT_AUTHOR_DATE", format!("{date} +0000")).env("GIT_COMMITTER_DATE", format!("{date} +0000"));
    }
    let out = command.output().unwrap();
    assert!(out.status.success(), "git {args:?}: {}", String::from_utf8_lossy(&out.stderr));
    String::from_utf8(out.stdout).unwrap().trim().to_owned()
}

impl Repo {
    pub fn new() -> Repo {
        let folder = Folder::new();
        git(&folder.0, &["init", "-q", "-b", "main"]);
        Repo { folder, ids: Vec::new() }
    }

    pub fn path(&self) -> &Path {
        &self.folder.0
    }

    /// A commit on these earlier ones, with a branch of its own.
    pub fn commit(&mut self, parents: &[usize]) -> &mut Repo {
        let name = format!("coin {}", 1_600_000_000 + 1000 * self.ids.len());
        let tree = git(self.path(), &["mktree", "--missing"]);
        let mut words = vec!["commit-tree".to_owned(), tree, "-m".to_owned(), name];
        parents.iter().for_each(|k| words.extend(["-p".to_owned(), self.ids[*k].clone()]));
        let id = git(self.path(), &words.iter().map(String::as_str).collect::<Vec<_>>());
        git(self.path(), &["update-ref", &format!("refs/heads/b{}", self.ids.len()), &id]);
        self.ids.push(id);
        self
    }

    pub fn write(&self, more: &[&str]) {
        git(self.path(), &[&["commit-graph", "write", "--reachable"], more].concat());
    }

    /// One file.
    pub fn single() -> Repo {
        let mut repo = Repo::new();
        repo.commit(&[]).commit(&[0]).commit(&[0]).commit(&[1, 2]).commit(&[0]).commit(&[0]).commit(&[0]).commit(&[3, 4, 5, 6]);
        repo.write(&[]);
        repo
    }

    /// A chain of three files.
    pub fn chain() -> Repo {
        let mut repo = Repo::new();
        let split = ["--split=no-merge"];
        repo.commit(&[]).commit(&[0]).commit(&[0]).write(&split);
        repo.commit(&[1, 2]).commit(&[0]).commit(&[0]).commit(&[0]).write(&split);
        repo.commit(&[3, 4, 5, 6]).commit(&[7]).write(&split);
        repo
    }

    pub fn info(&self) -> PathBuf {
        self.path().join(".git/objects/info")
    }

    pub fn graphs(&self) -> PathBuf {
        self.info().join("commit-graphs")
    }

    /// The files of the chain, oldest first.
    pub fn files(&self) -> Vec<PathBuf> {
        let text = fs::read_to_string(self.graphs().join("commit-graph-chain")).unwrap();
        text.lines().map(|l| self.graphs().join(format!("graph-{l}.graph"))).collect()
    }

    /// What git says of every commit, by id.
    pub fn said(&self) -> BTreeMap<String, Row> {
        let text = git(self.path(), &["log", "--branches", "--format=%H|%T|%ct|%P"]);
        let row = |line: &str| {
            let words: Vec<&str> = line.split('|').collect();
            let parents = words[3].split_whitespace().map(str::to_owned).collect();
            (words[0].to_owned(), Row { tree: words[1].to_owned(), time: words[2].parse().unwrap(), parents })
        };
        text.lines().map(row).collect()
    }
}

/// Writes over a file that git made read-only.
pub fn put(path: &Path, bytes: &[u8]) {
    let _ = fs::remove_file(path);
    fs::write(path, bytes).unwrap();
}

/// Runs the tool.
pub fn tool(args: &[&str]) -> Output {
    Command::new(env!("CARGO_BIN_EXE_jampreso")).args(args).output().unwrap()
}

/// What the tool printed, and its status. Complaints are one line each, and never a panic's.
pub fn said(args: &[&str]) -> (i32, String, String) {
    let out = tool(args);
    let (text, errors) = (String::from_utf8(out.stdout).unwrap(), String::from_utf8(out.stderr).unwrap());
    assert!(errors.lines().all(|l| l.starts_with("jampreso: ")), "{errors}");
    assert!(!errors.contains("panicked") && !errors.contains("internal error"), "{errors}");
    (out.status.code().unwrap(), text, errors)
}

//! Chains that git writes, in a folder that is removed again.

use super::Files;
use crate::seeded::Seeded;
use std::{
    fmt::Write as _,
    fs,
    io::Write,
    path::{Path, PathBuf},
    process::{Command, Stdio},
    sync::atomic::{AtomicUsize, Ordering::Relaxed},
};

/// How git is to write a chain.
#[derive(Clone, Copy, Debug)]
pub struct Shape {
    pub commits: usize,
    pub most_parents: usize,
    pub files: usize,
    pub version: u32,
}

/// Commits: times and parents, which are numbers of earlier ones. The last has as many parents as there may be.
fn history(seeded: &mut Seeded, shape: Shape) -> Vec<(u64, Vec<usize>)> {
    let one = |k: usize| {
        let most = if seeded.once_in(6) { shape.most_parents } else { 2 };
        let count = match k + 1 == shape.commits {
            true => shape.most_parents.min(k),
            false if seeded.once_in(12) => 0,
            false => seeded.between(1, most.min(k.max(1))).min(k),
        };
        let mut parents: Vec<usize> = (0..k).rev().take(3 * count).collect();
        seeded.shuffle(&mut parents);
        parents.truncate(count);
        let late = if seeded.once_in(20) { 1 << 33 } else { 0 };
        (1_500_000_000 + 60 * k as u64 + late, parents)
    };
    (0..shape.commits).map(one).collect()
}

/// What fast-import reads.
fn stream(commits: &[(u64, Vec<usize>)]) -> String {
    let mut text = String::new();
    for (k, (time, parents)) in commits.iter().enumerate() {
        let who = format!("A U Thor <author@example.com> {time} +0000");
        let note = format!("commit {k}\n");
        let _ = write!(text, "commit refs/heads/c{k}\nmark :{}\nauthor {who}\ncommitter {who}\ndata {}\n{note}", k + 1, note.len());
        for (j, parent) in parents.iter().enumerate() {
            let _ = writeln!(text, "{} :{}", if j == 0 { "from" } else { "merge" }, parent + 1);
        }
        let _ = write!(text, "M 100644 inline file\ndata {}\n{note}\n", note.len());
    }
    text
}

/// A bare repository, removed with its last holder.
pub struct Repository(pub PathBuf);

/// How many repositories were made, so that each has a place of its own.
static MADE: AtomicUsize = AtomicUsize::new(0);

impl Drop for Repository {
    fn drop(&mut self) {
        let _ = fs::remove_dir_all(&self.0);
    }
}

impl Repository {
    fn new(folder: &Path) -> Repository {
        let place = folder.join(format!("git-{}-{}", std::process::id(), MADE.fetch_add(1, Relaxed)));
        fs::create_dir_all(&place).expect("a folder for git");
        let made = Repository(place);
        made.git(&["init", "-q", "--bare", "."], "");
        made
    }

    /// Git in this repository, away from any settings of its user.
    pub fn command(&self, words: &[&str]) -> Command {
        let mut command = Command::new("git");
        command.args(["-c", "gc.auto=0", "-c", "core.multiPackIndex=false"]).args(words).current_dir(&self.0);
        for (key, _) in std::env::vars_os().filter(|(key, _)| key.to_string_lossy().starts_with("GIT_")) {
            command.env_remove(key);
        }
        command.env("GIT_CONFIG_NOSYSTEM", "1").env("GIT_CONFIG_GLOBAL", "/dev/null").env("HOME", &self.0).env("LC_ALL", "C");
        command
    }

    /// Runs git with this input.
    fn git(&self, words: &[&str], input: &str) {
        let mut child = self.command(words).stdin(Stdio::piped()).stdout(Stdio::null()).spawn().expect("git starts");
        child.stdin.take().unwrap().write_all(input.as_bytes()).expect("git reads its input");
        assert!(child.wait().expect("git ends").success(), "git {words:?} failed");
    }

    fn read(&self, name: &str) -> Vec<u8> {
        fs::read(self.0.join(name)).unwrap_or_else(|error| panic!("{name}: {error}"))
    }

    /// The ids of the commits, by the order in which they were made.
    fn ids(&self) -> Vec<String> {
        let text = String::from_utf8(self.read("marks")).unwrap();
        let mut marks: Vec<(usize, String)> =
            text.lines().map(|line| line.split_once(' ').unwrap()).map(|(k, id)| (k[1..].parse().unwrap(), id.to_owned())).collect();
        marks.sort();
        marks.into_iter().map(|(_, id)| id).collect()
    }

    fn write(&self, shape: Shape, bloom: bool, more: &[&str], ids: &[String]) {
        let version = format!("commitGraph.generationVersion={}", shape.version);
        let mut words = vec!["-c", &version, "commit-graph", "write", "--no-progress", "--stdin-commits"];
        words.extend(more);
        words.extend(bloom.then_some("--changed-paths"));
        self.git(&words, &(ids.join("\n") + "\n"));
    }
}

/// A chain of a history that git keeps.
pub fn chain(seeded: &mut Seeded, folder: &Path, shape: Shape) -> Files {
    kept(seeded, folder, shape).1
}

/// The same with its repository: one plain file, or a split chain with a layer for each part of the history.
pub fn kept(seeded: &mut Seeded, folder: &Path, shape: Shape) -> (Repository, Files) {
    let repository = Repository::new(folder);
    repository.git(&["fast-import", "--quiet", "--export-marks=marks"], &stream(&history(seeded, shape)));
    let ids = repository.ids();
    let bloom = seeded.once_in(4);
    let mut files = Files::default();
    if shape.files == 1 && seeded.once_in(2) {
        repository.write(shape, bloom, &[], &ids);
        files.push(repository.read("objects/info/commit-graph"), 0);
        return (repository, files);
    }
    for k in 1..=shape.files {
        let upto = (ids.len() * k / shape.files).max(1);
        repository.write(shape, bloom, &["--split=no-merge"], &ids[..upto]);
    }
    let chain = String::from_utf8(repository.read("objects/info/commit-graphs/commit-graph-chain")).unwrap();
    for hash in chain.lines() {
        files.push(repository.read(&format!("objects/info/commit-graphs/graph-{hash}.graph")), 1);
        let (_, record) = &files.0[files.0.len() - 1];
        assert_eq!(record.path(), Path::new(&format!("graph-{hash}.graph")), "git names a file by its trailer");
    }
    (repository, files)
}

/// A shape: 1 to 8 files, generation versions 1 and 2, merges of up to 2, 3, 8 or 70 parents, all by turns.
pub fn shape(seeded: &mut Seeded, k: usize) -> Shape {
    let most_parents = [2, 3, 8, 70][(k + k / 8) % 4];
    let least = if most_parents == 70 { 90 } else { 1 };
    Shape { commits: least + seeded.between(0, 60), most_parents, files: 1 + k % 8, version: 1 + (k / 8 % 2) as u32 }
}

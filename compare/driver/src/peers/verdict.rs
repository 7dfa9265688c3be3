//! What git says of the graph in a repository: how it ends, and the first line of its standard error.

use crate::inputs::git::Repository;
use std::{
    fs::{self, File},
    os::unix::process::ExitStatusExt,
    process::{Child, ExitStatus, Stdio},
    thread,
    time::{Duration, Instant},
};

#[derive(Clone, Copy, Debug, Eq, Ord, PartialEq, PartialOrd)]
pub enum Verdict {
    /// Status 0, without a word.
    Accepted,
    /// The same, where the chain file's last line does not end: git counts the lines by the file's size, and leaves the last out.
    Unread,
    /// Status 0, with an error or a warning.
    Warned,
    /// Any other status.
    Refused,
    /// Ended by a signal.
    Crashed,
    TimedOut,
}

impl Verdict {
    pub const ALL: [Verdict; 6] =
        [Verdict::Accepted, Verdict::Unread, Verdict::Warned, Verdict::Refused, Verdict::Crashed, Verdict::TimedOut];

    /// A heading, and a word for the names of files.
    pub fn name(self) -> (&'static str, &'static str) {
        match self {
            Verdict::Accepted => ("git accepts", "accepted"),
            Verdict::Unread => ("git accepts, last file unread", "unread"),
            Verdict::Warned => ("git accepts, with a warning", "warned"),
            Verdict::Refused => ("git refuses", "refused"),
            Verdict::Crashed => ("git crashes", "crashed"),
            Verdict::TimedOut => ("git takes over 10 s", "timed-out"),
        }
    }
}

pub struct Said {
    pub verdict: Verdict,
    pub line: String,
}

const LIMIT: Duration = Duration::from_secs(10);

/// The status, or nothing where the time is over.
fn wait(mut child: Child) -> Option<ExitStatus> {
    let start = Instant::now();
    while start.elapsed() < LIMIT {
        if let Some(status) = child.try_wait().expect("git can be waited for") {
            return Some(status);
        }
        thread::sleep(Duration::from_micros(300));
    }
    let _ = child.kill();
    let _ = child.wait();
    None
}

/// A line without what differs from graph to graph: `ID` for an id or what should be one, `N` for a number.
fn plain(line: &str) -> String {
    let mut plain = String::new();
    for word in line.split_inclusive(|c: char| !c.is_ascii_alphanumeric()) {
        let (word, end) = word.split_at(word.trim_end_matches(|c: char| !c.is_ascii_alphanumeric()).len());
        let hex = !word.is_empty() && word.chars().all(|c| c.is_ascii_hexdigit());
        plain += match word {
            _ if word.len() == 40 => "ID",
            _ if hex && word.contains(|c: char| c.is_ascii_digit() || c.is_ascii_uppercase()) => "N",
            _ => word,
        };
        plain += end;
    }
    plain
}

/// Shows the repository's graph to git; whether the chain file's last line ends is told.
pub fn ask(repository: &Repository, ended: bool) -> Said {
    let place = repository.0.join("stderr");
    let errors = File::create(&place).expect("a place for git's words");
    let mut command = repository.command(&["commit-graph", "verify", "--no-progress"]);
    command.stdin(Stdio::null()).stdout(Stdio::null()).stderr(errors);
    let status = wait(command.spawn().expect("git starts"));
    let text = String::from_utf8_lossy(&fs::read(&place).unwrap_or_default()).into_owned();
    let line = plain(text.lines().next().unwrap_or(""));
    let Some(status) = status else { return Said { verdict: Verdict::TimedOut, line } };
    match status.code() {
        None => Said { verdict: Verdict::Crashed, line: format!("signal {}: {line}", status.signal().unwrap_or(0)) },
        Some(0) if line.is_empty() && ended => Said { verdict: Verdict::Accepted, line },
        Some(0) if line.is_empty() => Said { verdict: Verdict::Unread, line },
        Some(0) => Said { verdict: Verdict::Warned, line },
        Some(_) => Said { verdict: Verdict::Refused, line },
    }
}

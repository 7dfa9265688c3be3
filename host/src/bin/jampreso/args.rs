//! The words of the command line.

use crate::fail::Fail;
use std::{ffi::OsString, path::PathBuf};

#[derive(Debug)]
pub enum Command {
    Help(Option<String>),
    Version,
    Explain(String),
    Verify(PathBuf),
    Show(PathBuf, Option<String>),
    List(PathBuf),
    Log(PathBuf, String),
    Files(PathBuf),
}

#[derive(Debug)]
pub struct Args {
    pub command: Command,
    pub json: bool,
    pub html: Option<PathBuf>,
}

/// The words by kind: options, and the rest in order.
#[derive(Default)]
struct Words {
    json: bool,
    html: Option<PathBuf>,
    help: bool,
    version: bool,
    plain: Vec<OsString>,
}

impl Words {
    fn sort(mut words: impl Iterator<Item = OsString>) -> Result<Words, Fail> {
        let mut sorted = Words::default();
        let mut open = true;
        while let Some(word) = words.next() {
            match word.to_str() {
                Some("--") if open => open = false,
                Some("--json") if open => sorted.json = true,
                Some("--html") if open => {
                    let to = words.next().ok_or_else(|| Fail::Usage("--html needs the name of a file to write".into()))?;
                    sorted.html = Some(PathBuf::from(to));
                }
                Some("--help" | "-h") if open => sorted.help = true,
                Some("--version" | "-V") if open => sorted.version = true,
                Some(other) if open && other.starts_with('-') && other.len() > 1 => {
                    return Err(Fail::Usage(format!("there is no option {other:?}")));
                }
                _ => sorted.plain.push(word),
            }
        }
        Ok(sorted)
    }
}

impl Args {
    pub fn read(words: impl Iterator<Item = OsString>) -> Result<Args, Fail> {
        let words = Words::sort(words)?;
        let first = words.plain.first().map(|w| w.to_string_lossy().into_owned());
        let command = match first {
            _ if words.version => Command::Version,
            _ if words.help => Command::Help(first),
            None => return Err(Fail::Usage("say what to do: verify, show, list, log, files or explain".into())),
            Some(name) => named(&name, &words.plain[1..])?,
        };
        if words.html.is_some() && !matches!(command, Command::Files(_) | Command::Help(_)) {
            return Err(Fail::Usage("--html goes with files only".into()));
        }
        Ok(Args { command, json: words.json, html: words.html })
    }
}

fn named(name: &str, rest: &[OsString]) -> Result<Command, Fail> {
    let path = |k: usize| rest.get(k).map(PathBuf::from).ok_or_else(|| Fail::Usage(format!("{name} needs a path")));
    let word = |k: usize| rest.get(k).map(|w| w.to_string_lossy().into_owned());
    let most = |n: usize| match rest.get(n) {
        Some(extra) => Err(Fail::Usage(format!("{name} does not know what to do with {extra:?}"))),
        None => Ok(()),
    };
    let (command, words) = match name {
        "help" => (Command::Help(word(0)), 1),
        "verify" => (Command::Verify(path(0)?), 1),
        "show" => (Command::Show(path(0)?, word(1)), 2),
        "list" => (Command::List(path(0)?), 1),
        "log" => (Command::Log(path(0)?, word(1).ok_or_else(|| Fail::Usage("log needs a path and an id".into()))?), 2),
        "files" => (Command::Files(path(0)?), 1),
        "explain" => (Command::Explain(word(0).ok_or_else(|| Fail::Usage("explain needs a number".into()))?), 1),
        other => return Err(Fail::Usage(format!("there is no command {other:?}"))),
    };
    most(words).map(|()| command)
}

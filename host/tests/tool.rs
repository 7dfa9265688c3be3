//! The tool's commands on sound graphs, their JSON, and wrong words.

mod common;

use common::{Folder, Repo, json, said};
use std::{
    io::Read,
    process::{Command, Stdio},
};

#[test]
fn verify() {
    let repo = Repo::single();
    let path = repo.path().to_str().unwrap();
    let (code, text, errors) = said(&["verify", path]);
    assert_eq!((code, errors.as_str()), (0, ""));
    let counts = ["0: 1 commit", "1: 5 commits", "2: 1 commit", "4: 1 commit"].join("\n                ");
    let rest = format!("  files         1\n  commits       8\n  parents       {counts}\n  longest path  3 steps\n");
    assert_eq!(text, format!("accepted {path}\n{rest}"));
}

#[test]
fn show() {
    let repo = Repo::chain();
    let path = repo.path().to_str().unwrap();
    let (code, text, _) = said(&["show", path, &repo.ids[7]]);
    assert_eq!(code, 0);
    for id in [3, 4, 5, 6].map(|k| &repo.ids[k]) {
        assert!(text.contains(id.as_str()), "{text}");
    }
    assert!(text.contains("Sunday, 13 September 2020, 14:23:20 UTC"), "{text}");
    let by_front = said(&["show", path, &repo.ids[7][..12]]).1;
    let position = jampreso::at(repo.path()).unwrap().lookup(repo.ids[7].parse::<jampreso::Id>().unwrap()).unwrap();
    assert_eq!(text, by_front);
    assert_eq!(text, said(&["show", path, &position.to_string()]).1);
    assert_eq!(text, said(&["show", path, &format!("2:{}", position.0 - 7)]).1);
    assert!(said(&["show", path]).1.contains(&repo.ids[8]));
}

#[test]
fn list() {
    let repo = Repo::chain();
    let (code, text, _) = said(&["list", repo.path().to_str().unwrap()]);
    assert_eq!((code, text.lines().count()), (0, 9));
    let ids: Vec<&str> = text.lines().map(|l| l.split_whitespace().nth(1).unwrap()).collect();
    assert!(repo.ids.iter().all(|id| ids.contains(&id.as_str())));
}

#[test]
fn log() {
    let repo = Repo::chain();
    let (code, text, _) = said(&["log", repo.path().to_str().unwrap(), &repo.ids[8]]);
    let ids: Vec<&str> = text.lines().map(|l| l.split_whitespace().next().unwrap()).collect();
    assert_eq!(code, 0);
    assert_eq!(ids, [8, 7, 3, 1, 0].map(|k| repo.ids[k].as_str()));
}

#[test]
fn objects() {
    let repo = Repo::chain();
    let (path, id) = (repo.path().to_str().unwrap(), repo.ids[7].as_str());
    let odd = Folder::new();
    let gone = odd.join("\u{1}\"\\");
    let gone = gone.to_str().unwrap();
    let all: [&[&str]; 7] = [
        &["verify", path],
        &["show", path, id],
        &["list", path],
        &["log", path, id],
        &["files", path],
        &["explain", "62"],
        &["verify", gone],
    ];
    for words in all {
        let (_, text, errors) = said(&[words, &["--json"]].concat());
        assert!(json::sound(&text), "{words:?}: {text}");
        assert_eq!(errors, "");
    }
}

#[test]
fn explain() {
    for meaning in jampreso::refusal::all() {
        let (code, text, _) = said(&["explain", &meaning.number.to_string()]);
        assert!(code == 0 && text.contains(meaning.sentence) && meaning.sentence.ends_with('.'), "{text}");
    }
    let numbers: Vec<u32> = jampreso::refusal::all().iter().map(|m| m.number).collect();
    let wanted: Vec<u32> = (1..=22).chain(30..=32).chain(40..=41).chain(50..=55).chain(60..=69).collect();
    assert_eq!(numbers, wanted);
}

#[test]
fn wrong_words() {
    let repo = Repo::single();
    let path = repo.path().to_str().unwrap();
    let wrong: [&[&str]; 12] = [
        &[],
        &["look"],
        &["verify"],
        &["verify", path, path],
        &["--loud", "verify", path],
        &["explain", "99"],
        &["explain", "-1"],
        &["explain", "x"],
        &["explain", ""],
        &["show", path, "xyz"],
        &["log", path],
        &["help", "look"],
    ];
    for words in wrong {
        let (code, text, errors) = said(words);
        assert_eq!((code, text.as_str(), errors.lines().count()), (2, "", 1), "{words:?} {errors}");
    }
    for words in [["show", path, "8"], ["show", path, "ffff"], ["show", path, "9:0"], ["show", path, "0:8"], ["show", path, "4294967296"]] {
        let (code, text, errors) = said(&words);
        assert_eq!((code, text.as_str(), errors.lines().count()), (1, "", 1), "{words:?} {errors}");
    }
}

#[test]
fn help() {
    for words in [&["--help"][..], &["help"], &["verify", "--help"], &["help", "files"], &["--version"]] {
        let (code, text, _) = said(words);
        assert!(code == 0 && text.starts_with("jampreso"), "{text}");
    }
}

/// The manual page and the help speak of the same commands and options.
#[test]
fn manual() {
    let page = include_str!("../jampreso.1").replace("\\-", "-");
    let help = said(&["--help"]).1;
    for word in ["verify", "show", "list", "log", "files", "explain", "--json", "--html", "--help", "--version"] {
        assert!(page.contains(word) && help.contains(word), "{word}");
    }
}

/// Whoever reads may stop reading.
#[test]
fn pipe() {
    let repo = Repo::single();
    let mut child = Command::new(env!("CARGO_BIN_EXE_jampreso"));
    let mut child = child.arg("list").arg(repo.path()).stdout(Stdio::piped()).stderr(Stdio::piped()).spawn().unwrap();
    drop(child.stdout.take());
    let mut errors = String::new();
    child.stderr.take().unwrap().read_to_string(&mut errors).unwrap();
    assert_eq!(errors, "");
    child.wait().unwrap();
}

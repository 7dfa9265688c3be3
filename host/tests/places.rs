//! Paths: every form that is understood, and what cannot be read.

mod common;

use common::{Folder, Repo, git, put, said};
use std::{ffi::OsStr, fs, os::unix::ffi::OsStrExt, os::unix::fs::PermissionsExt, path::Path, process::Command};

fn commits(path: &Path) -> u32 {
    jampreso::at(path).unwrap().num_commits()
}

#[test]
fn forms() {
    let (one, many) = (Repo::single(), Repo::chain());
    for path in
        [one.path().to_owned(), one.path().join(".git"), one.path().join(".git/objects"), one.info(), one.info().join("commit-graph")]
    {
        assert_eq!(commits(&path), 8, "{path:?}");
    }
    let chain = many.graphs().join("commit-graph-chain");
    for path in [many.path().to_owned(), many.path().join(".git"), many.info(), many.graphs(), chain] {
        assert_eq!(commits(&path), 9, "{path:?}");
    }
    assert_eq!(many.files().iter().map(|f| commits(f)).collect::<Vec<_>>(), [3, 4, 2]);
}

/// A second working tree has a file in place of its .git folder; a bare repository has no .git at all.
#[test]
fn elsewhere() {
    let (repo, other) = (Repo::chain(), Folder::new());
    let tree = other.join("tree");
    git(repo.path(), &["worktree", "add", "-q", "--detach", "--no-checkout", tree.to_str().unwrap(), &repo.ids[0]]);
    assert_eq!(commits(&tree), 9);
    let bare = other.join("bare");
    git(&other.0, &["clone", "-q", "--bare", repo.path().to_str().unwrap(), "bare"]);
    git(&bare, &["commit-graph", "write", "--reachable"]);
    assert_eq!(commits(&bare), 9);
}

#[test]
fn nothing() {
    let folder = Folder::new();
    let empty = folder.0.to_str().unwrap();
    let gone = folder.join("gone");
    for command in ["verify", "show", "list", "files"] {
        assert_eq!(said(&[command, empty]).0, 2);
        let (code, text, errors) = said(&[command, gone.to_str().unwrap()]);
        assert_eq!((code, text.as_str(), errors.lines().count()), (2, "", 1));
    }
    git(&folder.0, &["init", "-q"]);
    let (code, _, errors) = said(&["verify", empty]);
    assert_eq!(code, 2);
    assert!(errors.contains("there is no commit-graph here"), "{errors}");
}

#[test]
fn pointers() {
    let folder = Folder::new();
    for text in ["", "gitdir: ", "gitdir: .", "gitdir: ../gone", "nonsense", "gitdir: .git"] {
        put(&folder.join(".git"), text.as_bytes());
        assert_eq!(said(&["verify", folder.0.to_str().unwrap()]).0, 2, "{text}");
    }
}

/// Root may read everything, so there the tool is run as nobody.
#[test]
fn forbidden() {
    let repo = Repo::single();
    let file = repo.info().join("commit-graph");
    for closed in [file.clone(), repo.info()] {
        let before = fs::metadata(&closed).unwrap().permissions();
        fs::set_permissions(&closed, fs::Permissions::from_mode(0o000)).unwrap();
        let root = Command::new("id").arg("-u").output().unwrap().stdout == b"0\n";
        let copy = repo.path().join("tool");
        // By another program: a file that this one has open for writing could not be run.
        assert!(Command::new("cp").arg(env!("CARGO_BIN_EXE_jampreso")).arg(&copy).status().unwrap().success());
        let tool = copy.to_str().unwrap();
        let (name, mut args) =
            if root { ("setpriv", vec!["--reuid=65534", "--regid=65534", "--clear-groups", tool]) } else { (tool, vec![]) };
        let path = repo.path().to_str().unwrap();
        args.extend(["verify", path]);
        let out = Command::new(name).args(&args).output().unwrap();
        fs::set_permissions(&closed, before).unwrap();
        let errors = String::from_utf8_lossy(&out.stderr);
        assert_eq!(out.status.code(), Some(2), "{errors}");
        assert!(errors.contains("Permission denied") && errors.lines().count() == 1, "{errors}");
    }
}

#[test]
fn odd_names() {
    let (repo, folder) = (Repo::single(), Folder::new());
    let odd = folder.0.join(OsStr::from_bytes(b"coin \xff\n\x1b[31m"));
    fs::create_dir(&odd).unwrap();
    fs::copy(repo.info().join("commit-graph"), odd.join("commit-graph")).unwrap();
    fs::copy(repo.info().join("commit-graph"), odd.join(OsStr::from_bytes(b"graph-\xfe.graph"))).unwrap();
    assert_eq!(commits(&odd), 8);
    for flags in [&[][..], &["--json"]] {
        let out = Command::new(env!("CARGO_BIN_EXE_jampreso")).args(flags).arg("files").arg(&odd).output().unwrap();
        let text = String::from_utf8(out.stdout).unwrap();
        assert!(out.status.success() && !text.contains('\x1b') && text.contains("xff"), "{text}");
    }
    let named = odd.join(OsStr::from_bytes(b"graph-\xfe.graph"));
    assert_eq!(jampreso::verify(&named).unwrap_err().number(), Some(63));
}

#[test]
fn special() {
    let folder = Folder::new();
    assert!(Command::new("mkfifo").arg(folder.join("commit-graph")).status().unwrap().success());
    for path in [folder.join("commit-graph").to_str().unwrap(), folder.0.to_str().unwrap(), "/dev/zero", "/dev/null"] {
        let (code, _, errors) = said(&["verify", path]);
        assert_eq!((code, errors.contains("it is not a file")), (2, true), "{path}: {errors}");
    }
}

#[test]
fn large() {
    let folder = Folder::new();
    let file = fs::File::create(folder.join("commit-graph")).unwrap();
    for size in [1 << 42, (1 << 30) + 1] {
        file.set_len(size).unwrap();
        assert_eq!(jampreso::at(&folder.0).unwrap_err().number(), Some(1));
    }
    let (code, text, _) = said(&["verify", folder.0.to_str().unwrap()]);
    assert_eq!((code, text.starts_with("refused 1 ")), (1, true), "{text}");
}

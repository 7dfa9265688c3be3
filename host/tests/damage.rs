//! Damaged graphs: the refusals, half-broken chains, and that nothing panics on any change of a byte.

mod common;

use common::{Folder, Repo, put, said};
use jampreso::{Chain, Error};
use std::{fs, path::Path};

fn number(path: &Path) -> u32 {
    jampreso::verify(path).unwrap_err().number().unwrap_or_else(|| panic!("{path:?} was not refused"))
}

/// Everything that can be asked of a path, with the answers thrown away.
fn ask(path: &Path) {
    let Ok(chain) = Chain::read(path) else { return };
    for k in 0..chain.members().len() {
        let _ = (chain.traverse(k), chain.chunks(k), chain.trailer(k), chain.alone(k).map(|g| g.verify().is_ok()));
    }
    let Ok(graph) = chain.graph() else { return };
    for commit in graph.iter_commits() {
        let _ = (commit.id(), commit.root_tree_id(), commit.generation(), commit.committer_timestamp(), graph.lookup(commit.id()));
        let _ = (commit.trouble(), commit.date_place());
        for parent in commit.iter_places().take(100) {
            let _ = parent.map(|p| graph.try_commit_at(p.position).map(|c| c.id()));
        }
    }
    let _ = graph.verify();
}

#[test]
fn every_byte() {
    let (repo, folder) = (Repo::single(), Folder::new());
    let (sound, path) = (fs::read(repo.info().join("commit-graph")).unwrap(), folder.join("commit-graph"));
    for at in 0..sound.len() {
        let mut bytes = sound.clone();
        bytes[at] ^= if at % 2 == 0 { 0x80 } else { 0x01 };
        fs::write(&path, &bytes).unwrap();
        ask(&path);
        assert!(jampreso::verify(&path).is_err(), "byte {at}");
    }
    for size in (0..sound.len()).step_by(7) {
        fs::write(&path, &sound[..size]).unwrap();
        ask(&path);
        assert!(jampreso::verify(&path).is_err(), "{size} bytes");
    }
}

#[test]
fn trailer() {
    let (repo, folder) = (Repo::single(), Folder::new());
    let mut bytes = fs::read(repo.info().join("commit-graph")).unwrap();
    *bytes.last_mut().unwrap() ^= 1;
    let path = folder.join("commit-graph");
    fs::write(&path, &bytes).unwrap();
    assert_eq!(number(&path), 62);
    let name = path.to_str().unwrap();
    let (code, text, errors) = said(&["verify", name]);
    assert_eq!((code, errors.as_str()), (1, ""));
    assert!(text.contains("wrong checksum") && text.contains(name), "{text}");
    assert_eq!(said(&["list", name]).0, 0);
    assert!(said(&["files", name]).1.contains("wrong, "));
}

/// A commit with a wrong generation, in a file whose trailer was made right again: the refusal has the commit's id.
#[test]
fn generation() {
    let (repo, folder) = (Repo::single(), Folder::new());
    let graph = jampreso::at(repo.path()).unwrap();
    let commit = graph.commit_by_id(repo.ids[3].parse::<jampreso::Id>().unwrap()).unwrap();
    let mut bytes = fs::read(repo.info().join("commit-graph")).unwrap();
    bytes[commit.tree_place().end + 8 + 2] ^= 1;
    sign(&mut bytes);
    let path = folder.join("commit-graph");
    fs::write(&path, &bytes).unwrap();
    let Err(Error::Refused(refused)) = jampreso::verify(&path) else { panic!("accepted") };
    assert_eq!((refused.number, refused.file, refused.place), (69, 0, u64::from(commit.position().0)));
    assert_eq!(refused.commit, Some((commit.graph_position(), commit.id())));
    assert_eq!(refused.path, Some(path.clone()));
    let (code, text, _) = said(&["verify", path.to_str().unwrap()]);
    assert!(code == 1 && text.contains(&repo.ids[3]) && text.contains("generation"), "{text}");
}

/// Two commits without a tree: the file's own traversal tells the first, and each of them tells of itself.
#[test]
fn several() {
    let (repo, folder) = (Repo::single(), Folder::new());
    let graph = jampreso::at(repo.path()).unwrap();
    let mut bytes = fs::read(repo.info().join("commit-graph")).unwrap();
    let hurt: Vec<_> = graph.iter_commits().filter(|c| [2, 5].contains(&c.position().0)).collect();
    hurt.iter().for_each(|c| bytes[c.tree_place()].fill(0));
    sign(&mut bytes);
    let (path, page) = (folder.join("commit-graph"), folder.join("page.html"));
    fs::write(&path, &bytes).unwrap();
    let broken = jampreso::at(&path).unwrap();
    let told: Vec<_> = broken.iter_commits().filter_map(|c| c.trouble()?.refused().map(|r| (r.number, r.place))).collect();
    assert_eq!(told, [(67, 2), (67, 5)]);
    assert_eq!(number(&path), 67);
    let name = path.to_str().unwrap();
    assert!(said(&["show", name, "5"]).1.contains("trouble       refused 67"));
    assert!(!said(&["show", name, "4"]).1.contains("trouble"));
    said(&["files", "--html", page.to_str().unwrap(), name]);
    let text = fs::read_to_string(&page).unwrap();
    assert_eq!((text.matches("<tr class=\"damaged\">").count(), text.matches("class=\"hurt\"").count()), (2, 2));
}

/// A file that does not open still shows its chunks, and whether its trailer is right.
#[test]
fn shut() {
    let (repo, folder) = (Repo::single(), Folder::new());
    let mut bytes = fs::read(repo.info().join("commit-graph")).unwrap();
    let path = folder.join("commit-graph");
    for (signed, word) in [(false, "wrong, "), (true, "right, ")] {
        bytes[4] = 9;
        if signed {
            sign(&mut bytes);
        }
        fs::write(&path, &bytes).unwrap();
        let (code, text, _) = said(&["files", path.to_str().unwrap()]);
        assert!(code == 1 && text.contains("refused 4") && text.contains(word) && text.contains("CDAT"), "{text}");
    }
}

/// Chunks that nobody knows are shown too, by their letters or their number.
#[test]
fn unknown() {
    let (repo, folder) = (Repo::single(), Folder::new());
    let sound = fs::read(repo.info().join("commit-graph")).unwrap();
    let path = folder.join("commit-graph");
    let spot = sound.windows(4).position(|w| w == b"GDA2").unwrap();
    let size = |text: &str, name: &str| text.lines().find_map(|l| l.trim().strip_prefix(name).map(|r| r.trim().to_owned()));
    fs::write(&path, &sound).unwrap();
    let known = size(&said(&["files", path.to_str().unwrap()]).1, "GDA2").unwrap();
    for (id, name) in [(*b"COIN", "COIN"), ([0, b'\"', b'<', 7], "0x00223c07")] {
        let mut bytes = sound.clone();
        bytes[spot..spot + 4].copy_from_slice(&id);
        sign(&mut bytes);
        fs::write(&path, &bytes).unwrap();
        let (code, text, _) = said(&["files", path.to_str().unwrap()]);
        assert_eq!((code, size(&text, name)), (0, Some(known.clone())), "{text}");
    }
}

/// A wrong generation in the last file of a chain, which gets the name that its new trailer asks for.
#[test]
fn later() {
    let repo = Repo::chain();
    let graph = jampreso::at(repo.path()).unwrap();
    let commit = graph.commit_by_id(repo.ids[8].parse::<jampreso::Id>().unwrap()).unwrap();
    let mut bytes = fs::read(commit.file().path()).unwrap();
    bytes[commit.tree_place().end + 8 + 2] ^= 1;
    sign(&mut bytes);
    let sum = jampreso::Id::from_bytes(&bytes[bytes.len() - 20..]).unwrap();
    put(&repo.graphs().join(format!("graph-{sum}.graph")), &bytes);
    let list = repo.graphs().join("commit-graph-chain");
    let names: Vec<String> = fs::read_to_string(&list).unwrap().lines().take(2).map(str::to_owned).chain([sum.to_hex()]).collect();
    put(&list, (names.join("\n") + "\n").as_bytes());
    let Err(Error::Refused(refused)) = jampreso::verify(repo.path()) else { panic!("accepted") };
    assert_eq!((refused.number, refused.file, refused.place), (69, 2, u64::from(commit.position().0)));
    assert_eq!(refused.commit, Some((commit.graph_position(), commit.id())));
    assert_eq!(refused.path, Some(repo.files()[2].clone()));
}

/// A commit that names itself as its parent: with the largest generation the chain is accepted, without a length, and the way back ends.
#[test]
fn cyclic() {
    let (repo, folder) = (Repo::single(), Folder::new());
    let graph = jampreso::at(repo.path()).unwrap();
    let mut bytes = fs::read(repo.info().join("commit-graph")).unwrap();
    for commit in graph.iter_commits() {
        let row = commit.tree_place().end;
        bytes[row..row + 8].copy_from_slice(&[commit.graph_position().0.to_be_bytes(), 0x7000_0000_u32.to_be_bytes()].concat());
        bytes[row + 8..row + 12].copy_from_slice(&0xffff_fffc_u32.to_be_bytes());
    }
    sign(&mut bytes);
    let path = folder.join("commit-graph");
    fs::write(&path, &bytes).unwrap();
    let name = path.to_str().unwrap();
    assert_eq!(jampreso::verify(&path).unwrap().outcome().longest_path_length, None);
    let (code, text, _) = said(&["verify", name]);
    assert!(code == 0 && text.contains("own ancestor"), "{text}");
    let (code, text, errors) = said(&["log", name, &repo.ids[3]]);
    assert_eq!((code, text.lines().count(), errors.contains("own ancestor")), (1, 1, true), "{errors}");
}

/// Every command on copies with many bytes changed: an answer or one line, and a status of 0 to 2.
#[test]
fn tool() {
    let (repo, folder) = (Repo::single(), Folder::new());
    let (sound, path) = (fs::read(repo.info().join("commit-graph")).unwrap(), folder.join("commit-graph"));
    let (name, page) = (path.to_str().unwrap(), folder.join("page.html"));
    let mut seed: u64 = 7;
    let mut next = move |below: usize| {
        seed = seed.wrapping_mul(6_364_136_223_846_793_005).wrapping_add(1_442_695_040_888_963_407);
        (seed >> 33) as usize % below
    };
    for round in 0..40 {
        let mut bytes = sound.clone();
        for _ in 0..1 + round % 5 {
            let at = if round % 2 == 0 { next(sound.len()) } else { next(sound.len() - 1100) + 1092 };
            bytes[at] = next(256) as u8;
        }
        sign(&mut bytes);
        fs::write(&path, &bytes).unwrap();
        let html = ["files", "--html", page.to_str().unwrap(), name];
        for words in [
            &["verify", name][..],
            &["show", name],
            &["list", name],
            &["list", "--json", name],
            &["log", name, "7"],
            &["files", name],
            &html,
        ] {
            assert!((0..=2).contains(&said(words).0), "{words:?}");
        }
    }
}

/// Puts the right trailer behind changed bytes.
fn sign(bytes: &mut [u8]) {
    let end = bytes.len() - 20;
    let sum = jampreso::sha1(&bytes[..end]);
    bytes[end..].copy_from_slice(sum.as_bytes());
}

#[test]
fn missing() {
    let repo = Repo::chain();
    let (files, path) = (repo.files(), repo.path().to_str().unwrap().to_owned());
    fs::remove_file(&files[1]).unwrap();
    let (code, _, errors) = said(&["verify", &path]);
    assert!(code == 2 && errors.contains(files[1].to_str().unwrap()), "{errors}");
    let (code, text, errors) = said(&["list", &path]);
    assert_eq!((code, errors.lines().count()), (2, 1), "{errors}");
    assert_eq!(text.lines().filter(|l| l.starts_with("file ")).count(), 2);
    assert!(text.contains("0:2 ") && text.contains("2:1 ") && text.contains("parents by position in the whole chain"), "{text}");
    assert_eq!(said(&["show", &path, "2:1"]).0, 2);
    assert_eq!(said(&["show", &path, "5"]).0, 1);
    let (code, text, _) = said(&["show", &path, &repo.ids[0]]);
    assert!(code == 2 && text.contains(&repo.ids[0]) && text.contains("file position"), "{text}");
}

#[test]
fn half_broken() {
    let repo = Repo::chain();
    let files = repo.files();
    put(&files[1], &fs::read(&files[1]).unwrap()[..900]);
    let path = repo.path().to_str().unwrap();
    let (code, text, errors) = said(&["list", path]);
    assert_eq!((code, errors.lines().count()), (1, 1), "{errors}");
    assert!(errors.contains("refused 2") && text.contains("0:0 ") && text.contains("2:0 ") && !text.contains("1:0 "), "{text}");
    let (code, text, _) = said(&["list", "--json", path]);
    assert!(code == 1 && text.contains("\"opens\":false") && text.contains("\"number\":2"), "{text}");
    let (code, text, _) = said(&["files", path]);
    assert!(code == 1 && text.contains("refused 2") && text.contains("right, "), "{text}");
    let (code, _, errors) = said(&["log", path, &repo.ids[8]]);
    assert!(code == 1 && errors.contains("whole chain"), "{errors}");
}

/// A file that shrinks and vanishes after it was read changes no answer.
#[test]
fn shrinking() {
    let repo = Repo::chain();
    let graph = jampreso::at(repo.path()).unwrap();
    let before: Vec<jampreso::Id> = graph.iter_ids().collect();
    for path in repo.files() {
        put(&path, b"");
        fs::remove_file(&path).unwrap();
    }
    assert!(graph.iter_ids().eq(before));
    assert!(graph.verify().is_ok());
}

#[test]
fn members() {
    let repo = Repo::chain();
    let chain = repo.graphs().join("commit-graph-chain");
    let first = fs::read_to_string(&chain).unwrap().lines().next().unwrap().to_owned();
    put(&chain, format!("{first}\n").repeat(257).as_bytes());
    assert_eq!(number(repo.path()), 30);
    put(&chain, format!("{first}\n").repeat(256).as_bytes());
    assert_eq!(number(repo.path()), 60);
    put(&chain, b"");
    assert_eq!(number(repo.path()), 30);
    for text in ["../../x\n", "a\0b\n", "\n\n", "\u{e4}\n"] {
        put(&chain, text.as_bytes());
        assert_eq!(jampreso::at(repo.path()).unwrap_err().number(), None, "{text:?}");
    }
    fs::remove_file(&chain).unwrap();
    let (code, text, errors) = said(&["list", repo.path().to_str().unwrap()]);
    assert_eq!((code, text.lines().filter(|l| l.starts_with("file ")).count()), (2, 3), "{errors}");
}

/// A file of a chain, taken alone: its parents are positions of the whole chain and must not be shown as its own commits.
#[test]
fn alone() {
    let repo = Repo::chain();
    let tip = repo.files()[2].to_str().unwrap().to_owned();
    let (code, text, _) = said(&["show", &tip, &repo.ids[7]]);
    assert_eq!(code, 0);
    assert_eq!(text.matches("of the whole chain").count(), 4, "{text}");
    assert!(!text.contains(&repo.ids[8]), "{text}");
    assert_eq!(number(&repo.files()[2]), 60);
    let middle = repo.files()[1].to_str().unwrap().to_owned();
    for id in &repo.ids[3..7] {
        let text = said(&["show", &middle, id]).1 + &said(&["show", "--json", &middle, id]).1;
        assert!(repo.ids.iter().filter(|other| *other != id).all(|other| !text.contains(other.as_str())), "{text}");
        let (code, log, errors) = said(&["log", &middle, id]);
        assert!(code == 1 && log.lines().count() == 1 && errors.contains("whole chain"), "{errors}");
    }
}

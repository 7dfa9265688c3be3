//! The library on sound graphs: what it answers is what git says, on one file and on a chain.

mod common;

use common::Repo;
use jampreso::{Accepted, Graph, Id, Position, file};
use std::collections::BTreeMap;

fn agree(repo: &Repo, graph: &Graph) {
    let said = repo.said();
    assert_eq!(graph.num_commits() as usize, said.len());
    for (k, commit) in graph.iter_commits().enumerate() {
        let row = &said[&commit.id().to_hex()];
        assert_eq!(commit.graph_position(), Position(k as u32));
        assert_eq!(commit.root_tree_id().to_hex(), row.tree);
        assert_eq!(commit.committer_timestamp(), row.time);
        let parents: Vec<String> = commit.iter_parents().map(|p| graph.id_at(p.unwrap()).to_hex()).collect();
        assert_eq!(parents, row.parents);
        assert_eq!(commit.parent1().unwrap().map(|p| graph.id_at(p).to_hex()).as_ref(), row.parents.first());
        let highest = commit.iter_parents().map(|p| graph.commit_at(p.unwrap()).generation()).max().unwrap_or(0);
        assert_eq!(commit.generation(), highest + 1);
        assert_eq!(graph.lookup(commit.id()), Some(Position(k as u32)));
        assert_eq!(graph.commit_by_id(commit.id()), Some(commit));
        assert_eq!(graph.commit_at(Position(k as u32)), commit);
        assert_eq!(graph.id_at(Position(k as u32)), commit.id());
    }
    assert!(graph.iter_ids().eq(graph.iter_commits().map(|c| c.id())));
    assert_eq!(graph.lookup(Id::new([7; 20])), None);
}

fn check(accepted: &Accepted, commits: u32, counts: &[(u32, u32)], length: u32) {
    let outcome = accepted.outcome();
    assert_eq!(outcome.num_commits, commits);
    assert_eq!(outcome.longest_path_length, Some(length));
    assert_eq!(outcome.parent_counts, counts.iter().copied().collect::<BTreeMap<_, _>>());
}

#[test]
fn single() {
    let repo = Repo::single();
    let graph = jampreso::at(repo.path()).unwrap();
    agree(&repo, &graph);
    check(&graph.verify().unwrap(), 8, &[(0, 1), (1, 5), (2, 1), (4, 1)], 3);
}

#[test]
fn chain() {
    let repo = Repo::chain();
    let graph = jampreso::at(repo.path()).unwrap();
    agree(&repo, &graph);
    assert_eq!(graph.files().map(|f| f.num_commits()).collect::<Vec<_>>(), [3, 4, 2]);
    assert_eq!(graph.files().map(|f| f.first().0).collect::<Vec<_>>(), [0, 3, 7]);
    assert_eq!(graph.files().map(|f| f.path().to_owned()).collect::<Vec<_>>(), repo.files());
    let sums: Vec<Id> = graph.files().map(|f| f.verify_checksum().unwrap()).collect();
    assert_eq!(graph.file(2).unwrap().iter_base_graph_ids().collect::<Vec<_>>(), sums[..2]);
    check(&jampreso::verify(repo.path()).unwrap(), 9, &[(0, 1), (1, 6), (2, 1), (4, 1)], 4);
}

#[test]
fn processor() {
    let repo = Repo::chain();
    let graph = jampreso::at(repo.path()).unwrap();
    let mut seen = 0;
    let outcome = graph.verify_integrity(|_| {
        seen += 1;
        Ok::<_, std::io::Error>(())
    });
    assert_eq!(outcome.unwrap().num_commits, seen);
    let stopped = graph.verify_integrity(|_| Err(std::io::Error::other("enough")));
    assert_eq!(stopped.unwrap_err().to_string(), "stopped by the caller: enough");
}

/// The bytes that a parent is said to be read from hold its position.
#[test]
fn places() {
    for repo in [Repo::single(), Repo::chain()] {
        let graph = jampreso::at(repo.path()).unwrap();
        for commit in graph.iter_commits() {
            let bytes = std::fs::read(commit.file().path()).unwrap();
            assert_eq!(&bytes[commit.id_place()], commit.id().as_bytes());
            assert_eq!(&bytes[commit.tree_place()], commit.root_tree_id().as_bytes());
            let date = u64::from_be_bytes(bytes[commit.date_place()].try_into().unwrap());
            assert_eq!((date >> 34, date & 0x3_ffff_ffff), (commit.generation().into(), commit.committer_timestamp()));
            for parent in commit.iter_places().map(Result::unwrap) {
                let word = u32::from_be_bytes(bytes[parent.at].try_into().unwrap());
                assert_eq!(word & 0x7fff_ffff, parent.position.0);
            }
        }
    }
}

#[test]
fn outside() {
    let repo = Repo::chain();
    let graph = jampreso::at(repo.path()).unwrap();
    for pos in [9, 10, u32::MAX] {
        assert_eq!(graph.try_commit_at(Position(pos)).unwrap_err().number(), Some(40));
        assert_eq!(graph.try_id_at(Position(pos)).unwrap_err().number(), Some(40));
    }
    assert_eq!(graph.file(1).unwrap().try_commit_at(file::Position(4)).unwrap_err().number(), Some(40));
}

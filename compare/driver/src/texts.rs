//! Which refusal a text of the crate is: document 01's number, and the place where the text says it.

/// A fragment of a text, and the number that it means. The first that fits counts. Chunk ids are shown as numbers by the crate.
const TEXTS: &[(&str, u32)] = &[
    ("too small even for an empty graph", 2),
    ("does not start with expected signature", 3),
    ("Unsupported commit-graph file version", 4),
    ("uses unsupported hash version", 5),
    ("chunk [66, 65, 83, 69] has invalid size", 10),
    ("[66, 65, 83, 69] chunk contains", 11),
    ("stand-in: no chunk CDAT", 12),
    ("chunk [67, 68, 65, 84] has invalid size", 13),
    ("stand-in: no chunk OIDF", 14),
    ("chunk [79, 73, 68, 70] has invalid size", 15),
    ("stand-in: no chunk OIDL", 16),
    ("chunk [79, 73, 68, 76] has invalid size", 17),
    ("Expected commit-graph trailer to contain", 18),
    ("Chunk named [66, 65, 83, 69] was not found", 19),
    ("but [79, 73, 68, 76] chunk contains", 21),
    ("but [67, 68, 65, 84] chunk contains", 22),
    ("Commit-graph must contain at least one file", 30),
    ("should be composed of at most 256 files", 30),
    ("has a second parent but not a first parent", 50),
    ("first parent is an extra edge index", 51),
    ("commit-graph file has no extra edges list", 52),
    ("extra edges overflows the commit-graph file", 53),
    ("base graphs, but claims", 60),
    ("base graph at index ", 61),
    ("stand-in: the digest is not the one that was expected", 62),
    ("commit-graph filename should be", 63),
    ("has invalid ID", 64),
    ("is out of order relative to its predecessor", 65),
    ("has invalid root tree ID", 67),
    ("that is out of range", 68),
    ("'s generation should be", 69),
];

/// Fragments before a place.
const PLACES: &[&str] = &["base graph at index ", "commit at file position "];

/// The number that stands behind a fragment.
fn behind(text: &str, fragment: &str) -> Option<u64> {
    let (_, rest) = text.split_once(fragment)?;
    let end = rest.find(|c: char| !c.is_ascii_digit()).unwrap_or(rest.len());
    rest[..end].parse().ok()
}

/// The number of a text and the place in it.
fn read(text: &str) -> Option<(u32, Option<u64>)> {
    if let Some(number) = behind(text, "stand-in: chunk index refused by ") {
        return Some((number as u32, behind(text, " at entry ")));
    }
    let (_, number) = TEXTS.iter().find(|(fragment, _)| text.contains(fragment))?;
    Some((*number, PLACES.iter().find_map(|fragment| behind(text, fragment))))
}

/// The refusal that these texts mean, the innermost first.
pub fn refusal(texts: &[String]) -> (u32, Option<u64>) {
    let known = texts.iter().rev().find_map(|text| read(text));
    known.unwrap_or_else(|| panic!("no refusal has these texts: {texts:?}"))
}

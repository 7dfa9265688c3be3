//! The numbers of the refusals and what each means, in words.

/// What the place of a refusal counts.
#[derive(Clone, Copy, Debug, Eq, PartialEq)]
pub enum Place {
    Nothing,
    Entry,
    Fan,
    Record,
    Base,
    Commit,
}

/// What a refusal is about: the list of the files or the whole chain, the question, or one file.
#[derive(Clone, Copy, Debug, Eq, PartialEq)]
pub enum Subject {
    Chain,
    Question,
    File,
}

/// One refusal: its number, a few words, and a sentence on what it means.
#[derive(Clone, Copy, Debug)]
pub struct Meaning {
    pub number: u32,
    pub title: &'static str,
    pub sentence: &'static str,
    pub place: Place,
    pub subject: Subject,
}

impl Place {
    /// What the place is a number of.
    pub fn noun(self) -> &'static str {
        match self {
            Place::Nothing => "",
            Place::Entry => "index entry",
            Place::Fan => "fan entry",
            Place::Record => "record",
            Place::Base => "base",
            Place::Commit => "commit at file position",
        }
    }
}

/// What a number means, if it is a refusal's.
pub fn meaning(number: u32) -> Option<&'static Meaning> {
    ALL.iter().find(|m| m.number == number)
}

/// Every refusal there is, by number.
pub fn all() -> &'static [Meaning] {
    ALL
}

const fn chain(number: u32, title: &'static str, place: Place, sentence: &'static str) -> Meaning {
    Meaning { number, title, sentence, place, subject: Subject::Chain }
}

const fn asked(number: u32, title: &'static str, place: Place, sentence: &'static str) -> Meaning {
    Meaning { number, title, sentence, place, subject: Subject::Question }
}

const fn file(number: u32, title: &'static str, place: Place, sentence: &'static str) -> Meaning {
    Meaning { number, title, sentence, place, subject: Subject::File }
}

use Place::{Base, Commit, Entry, Fan, Nothing, Record};

const ALL: &[Meaning] = &[
    chain(1, "too large", Nothing, "The file, or all files of the chain together, have more than 1 GiB; nothing so large is read."),
    file(2, "too short", Nothing, "The file has fewer than 1,100 bytes; even a commit-graph without commits has that many."),
    file(3, "no commit-graph", Nothing, "The file does not begin with the letters CGPH, as every commit-graph file does."),
    file(4, "unknown version", Nothing, "The file says that it follows a version of the format other than 1."),
    file(5, "unknown hash", Nothing, "The file says that its ids come from a digest other than SHA-1."),
    file(6, "index cut short", Nothing, "The index, which says where each chunk lies, runs past the end of the file."),
    file(7, "index ends in the wrong place", Entry, "The index has its end mark before the last entry, or its last entry is no end mark."),
    file(8, "chunk named twice", Entry, "Two entries of the index name the same chunk."),
    file(
        9,
        "chunk out of bounds",
        Entry,
        "An entry of the index points into the index itself, past the end of the file, or back behind an earlier chunk.",
    ),
    file(10, "odd size of the base list", Nothing, "The BASE chunk is not made of whole ids of 20 bytes."),
    file(11, "wrong number of bases", Nothing, "The BASE chunk names more or fewer files than the header says."),
    file(12, "no commit data", Nothing, "The CDAT chunk, which has each commit's tree, parents and date, is missing."),
    file(13, "odd size of the commit data", Nothing, "The CDAT chunk is not made of whole entries of 36 bytes."),
    file(14, "no fan", Nothing, "The OIDF chunk, which counts the ids by their first byte, is missing."),
    file(15, "odd size of the fan", Nothing, "The OIDF chunk does not have the 1,024 bytes that 256 numbers take."),
    file(16, "no ids", Nothing, "The OIDL chunk, which lists the ids of the commits, is missing."),
    file(17, "odd size of the ids", Nothing, "The OIDL chunk is not made of whole ids of 20 bytes."),
    file(18, "no room for the trailer", Nothing, "After the chunks there must be the trailer of 20 bytes and nothing else."),
    file(19, "no base list", Nothing, "The header says that the file stands on others, but the BASE chunk that names them is missing."),
    file(20, "fan goes down", Fan, "An entry of the fan is lower than the one before it; these counts can only rise."),
    file(21, "number of ids", Nothing, "The OIDL chunk does not have as many ids as the last fan entry says."),
    file(22, "number of entries", Nothing, "The CDAT chunk does not have as many entries as the last fan entry says."),
    chain(30, "no files, or too many", Nothing, "A chain has at least 1 file and at most 256."),
    chain(31, "record out of shape", Record, "A record of the list that names the files does not keep to its layout."),
    chain(
        32,
        "lengths do not add up",
        Nothing,
        "The files that the list names are together longer or shorter than the bytes of the chain.",
    ),
    asked(40, "no such position", Nothing, "There is no commit at this position: the chain has fewer."),
    asked(41, "not an id", Nothing, "What was asked for is not an id: an id has 20 bytes."),
    file(50, "second parent without a first", Commit, "The commit stores a second parent but no first one."),
    file(
        51,
        "first parent in the wrong place",
        Commit,
        "The commit's first parent points into the EDGE chunk, where only further parents may stand.",
    ),
    file(52, "no further parents stored", Commit, "The commit has more than two parents, but the file has no EDGE chunk to hold them."),
    file(53, "further parents cut off", Commit, "The commit's further parents run past the end of the EDGE chunk."),
    file(54, "parent cut in two", Commit, "A parent's number is cut off by the end of the EDGE chunk."),
    file(55, "too many parents", Commit, "The commit has more parents than there was room for."),
    file(60, "wrong place in the chain", Nothing, "The file says it stands on another number of files than come before it in the chain."),
    file(61, "wrong base", Base, "The file names another file as its base than the one that stands there in the chain."),
    file(
        62,
        "wrong checksum",
        Nothing,
        "The trailer is not the SHA-1 of the file's bytes: the file has changed since it was written, or was not written to its end.",
    ),
    file(63, "wrong file name", Nothing, "The file's name claims another checksum than its trailer, or none that can be read."),
    file(64, "id of zeros", Commit, "The commit's id is all zeros, which names nothing."),
    file(65, "ids out of order", Commit, "The commit's id is not above the one before it; ids must rise, or they cannot be looked up."),
    file(66, "id in the wrong bucket", Commit, "The fan counts the commit's id under another first byte, so looking it up can miss it."),
    file(67, "no tree", Commit, "The commit's tree is all zeros, which names nothing."),
    file(
        68,
        "parent outside the chain",
        Commit,
        "A parent of the commit is at a position that no commit of this file or of those before it has.",
    ),
    file(69, "wrong generation", Commit, "The commit's generation is not one more than the highest among its parents."),
];

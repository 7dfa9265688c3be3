//! `--help`, for the tool and for each command.

use crate::{fail::Fail, out::Out};

const ALL: &str = "\
jampreso looks into git's commit-graph files and verifies them, by code that is proved.

  jampreso verify PATH              is the chain accepted? its commits, parents and longest path, or the refusal
  jampreso show PATH [COMMIT]       one commit: id, tree, time, generation, parents, and the bytes they were read from
  jampreso list PATH                every commit, by position; of a broken chain each file that opens alone
  jampreso log PATH COMMIT          first parents back from a commit
  jampreso files PATH               each file: name, size, commits, bases, chunks, trailer
  jampreso files --html OUT PATH    the same as a page with pictures
  jampreso explain NUMBER           what a refusal means

PATH    a repository, a .git folder, objects/info, a commit-graph file, a commit-graphs folder, or a graph-*.graph file
COMMIT  an id, the first 4 or more digits of one, a position, or FILE:POSITION; up to 10 digits from 0 to 9 are a position
--json  the answer as JSON        --help, --version

The status is 0 if all is well, 1 if something was refused or is not there, 2 if something could not be read or the command is wrong.";

const TOPICS: [(&str, &str); 6] =
    [("verify", VERIFY), ("show", SHOW), ("list", LIST), ("log", LOG), ("files", FILES), ("explain", EXPLAIN)];

const VERIFY: &str = "\
jampreso verify PATH [--json]

Reads the whole chain and verifies it. Accepted: the commits, how many have how many parents, and the number of steps in the longest
history. Refused: the first refusal, with the file's name, the commit's id and what it means. The status is 0 if the chain is accepted,
1 if it is refused, 2 if it could not be read.";

const SHOW: &str = "\
jampreso show PATH [COMMIT] [--json]

Shows one commit and the bytes of its file that each part was read from. Nothing is verified. COMMIT is an id, the first 4 or more
digits of one, a position, or FILE:POSITION. Without it, the first commit of the highest generation is shown.";

const LIST: &str = "\
jampreso list PATH [--json]

A line for each commit: position, id, generation, time, positions of the parents. Nothing is verified. Where the chain does not open,
each file that opens alone is listed with its file positions, as FILE:POSITION; the rest is its refusal, on standard error.";

const LOG: &str = "\
jampreso log PATH COMMIT [--json]

The commit, its first parent, and so on to a commit without parents. The status is 1 where the way ends before that.";

const FILES: &str = "\
jampreso files PATH [--json]
jampreso files --html OUT PATH

Each file: what its name claims, its size, commits, bases, chunks with their places and sizes, whether the trailer is right,
and the first refusal that the file meets by itself; then that of the chain. With --html, OUT becomes one page that needs nothing else.";

const EXPLAIN: &str = "\
jampreso explain NUMBER [--json]

What the refusal of this number means, and what its place counts.";

pub fn run(out: &mut Out, topic: Option<&str>) -> Result<u8, Fail> {
    let text = match topic {
        None | Some("help") => ALL,
        Some(name) => {
            TOPICS.iter().find(|(n, _)| *n == name).map(|(_, t)| *t).ok_or_else(|| Fail::Usage(format!("there is no command {name:?}")))?
        }
    };
    out.line(text)?;
    Ok(0)
}

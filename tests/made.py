"""What the scripts of the stored cases share: questions with their answers, histories that git makes, and files of chunks."""
import hashlib
import os
import subprocess
import sys
import tempfile

ZERO = bytes(4)
NONE = 0x70000000
EDGE = 0x80000000  # in a parent word: the rest is an EDGE index
LAST = 0x80000000  # in an EDGE word: no more to follow
FIRST, SECOND, RUN, EXHAUSTED = range(4)
WHO = "A U Thor <author@example.com>"
OWN = {"GIT_CONFIG_NOSYSTEM": "1", "GIT_CONFIG_GLOBAL": os.devnull, "LC_ALL": "C", "TZ": "UTC"}
SETTINGS = "gc.auto=0", "commitGraph.generationVersion=1", "core.commitGraph=false"

requests = []
answers = []


def be(width, n):
    return n.to_bytes(width, "big")


def noise(seed, size):
    """Bytes without a pattern, the same in every run."""
    return b"".join(hashlib.sha1(be(4, seed) + be(4, k)).digest() for k in range(size // 20 + 1))[:size]


def ask(kind, data, *lines):
    requests.append(kind + be(4, len(data)) + data)
    answers.extend(lines)


def folder(doc):
    """The folder that the command names."""
    if len(sys.argv) != 2:
        sys.exit(doc)
    return sys.argv[1]


def write(place):
    """Writes what a program reads and what it must print."""
    with open(os.path.join(place, "stdin"), "wb") as out:
        out.write(b"".join(requests))
    with open(os.path.join(place, "stdout"), "w", encoding="ascii", newline="\n") as out:
        out.write("".join(line + "\n" for line in answers))


# Histories, made by git.


def stream(commits):
    """What fast-import reads: for each commit its time and its parents, which are numbers of earlier ones."""
    out = []
    for k, (time, parents) in enumerate(commits):
        text = f"commit {k}\n"
        out.append(f"commit refs/heads/c{k}\nmark :{k + 1}\nauthor {WHO} {time} +0000\ncommitter {WHO} {time} +0000\ndata {len(text)}\n{text}")
        out += [f"{'merge' if j else 'from'} :{p + 1}\n" for j, p in enumerate(parents)]
        out.append(f"M 100644 inline file\ndata {len(text)}\n{text}\n")
    return "".join(out).encode()


class Repository:
    """A repository of these commits, in a folder that is removed again. `rows` has for each id its tree, its time and its parents, as git says
    them without a graph; `names[k]` is the id of commit k."""

    def __init__(self, commits):
        self.held = tempfile.TemporaryDirectory()
        self.git("init", "-q", "--bare", ".")
        self.git("fast-import", "--quiet", stdin=stream(commits))
        log = self.git("log", "--all", "--format=%H %T %ct %P").decode().splitlines()
        refs = self.git("for-each-ref", "--format=%(refname:short) %(objectname)").decode().split()
        self.rows = {words[0]: words[1:] for words in map(str.split, log)}
        self.names = {int(r[1:]): name for r, name in zip(refs[::2], refs[1::2])}
        assert len(self.rows) == len(self.names) == len(commits)

    def __enter__(self):
        return self

    def __exit__(self, *_):
        self.held.cleanup()

    def git(self, *words, stdin=None, graph=False):
        clean = {k: v for k, v in os.environ.items() if not k.startswith("GIT_")} | OWN | {"HOME": self.held.name}
        settings = [w for s in SETTINGS[: 2 if graph else 3] for w in ("-c", s)]
        run = subprocess.run(["git", *settings, *words], cwd=self.held.name, env=clean, input=stdin, stdout=subprocess.PIPE, check=True)
        return run.stdout

    def read(self, *path):
        with open(os.path.join(self.held.name, "objects", "info", *path), "rb") as f:
            return f.read()


# Files of chunks.


def offsets(parts, gap=0):
    """The offset of each entry of the index, the last included."""
    at = [8 + 12 * (len(parts) + 1) + gap]
    for body in parts.values():
        at.append(at[-1] + len(body))
    return at


def file(parts, bases=0, head=b"CGPH\1\1", count=None, ids={}, at={}, gap=0, tail=20):
    """A file of these chunks. To spoil it: another C in `count`, other ids and offsets of entries in `ids` and `at`, `gap` bytes between
    the index and the chunks, `tail` bytes after them. The trailer is the SHA-1 of what stands before it, spoiled or not."""
    names = dict(enumerate([*parts, ZERO])) | ids
    starts = dict(enumerate(offsets(parts, gap))) | at
    index = b"".join(names[k] + be(8, starts[k]) for k in range(len(parts) + 1))
    counts = bytes([len(parts) if count is None else count, bases])
    data = head + counts + index + bytes(gap) + b"".join(parts.values())
    return data + (hashlib.sha1(data).digest() * 2)[:tail]


def fan(ids):
    """The fan that counts the first bytes of these ids."""
    return b"".join(be(4, sum(i[0] <= k for i in ids)) for k in range(256))


def with_words(parts, chunk, words):
    """The same chunks with other words at some places of one chunk."""
    body = bytearray(parts[chunk])
    for at, n in words.items():
        body[at : at + 4] = be(4, n)
    return {**parts, chunk: bytes(body)}


def without(parts, chunk):
    return {name: body for name, body in parts.items() if name != chunk}

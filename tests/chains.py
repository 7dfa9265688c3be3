#!/usr/bin/env python3
"""Cases for the program chains: `python3 tests/chains.py FOLDER` writes FOLDER/stdin, what it reads, and FOLDER/stdout, what it must print.

git makes histories in a folder that is removed again, and writes them as chains, a file at a time. What must be printed of these is what git
says of the commits themselves, without their graph. Then chains are made and spoiled here, and what must be printed follows from what was put
into them by the rules of document 01, which stand here in plain words: nothing of the library is run. Every run makes the same bytes. Numbers
in the comments are those of the refusals."""
import itertools
from dataclasses import dataclass, replace

from made import EDGE, EXHAUSTED, FIRST, LAST, NONE, RUN, SECOND, Repository, ask, be, fan, file, folder, noise, with_words, without, write

PHASES = "first", "second", "edge", "exhausted"


# What a file stores, and what a chain of files answers.


@dataclass
class Row:
    """A commit: its id, its tree, its generation, its time and both parent words."""

    id: bytes
    tree: bytes
    generation: int = 1
    time: int = 0
    first: int = NONE
    second: int = NONE

    def entry(self):
        date = be(4, self.generation * 4 + self.time // 2**32) + be(4, self.time % 2**32)
        return self.tree + be(4, self.first) + be(4, self.second) + date

    def words(self):
        return f"{self.id.hex()} {self.tree.hex()} {self.generation} {self.time} {word(self.first)} {word(self.second)}"


@dataclass
class Stored:
    """A file: its commits, the bytes of its EDGE chunk if it has one, and the ids in BASE."""

    rows: list
    edge: bytes = None
    bases: tuple = ()

    def parts(self):
        ids = [r.id for r in self.rows]
        parts = {b"OIDF": fan(ids), b"OIDL": b"".join(ids), b"CDAT": b"".join(r.entry() for r in self.rows)}
        if self.edge is not None:
            parts[b"EDGE"] = self.edge
        if self.bases:
            parts[b"BASE"] = b"".join(self.bases)
        return parts

    def data(self):
        return file(self.parts(), len(self.bases))

    def find(self, x):
        """The place of an id: between the bounds of its fan bucket, by halving. None if it is absent."""
        low, high = (sum(r.id[0] < x[0] + k for r in self.rows) for k in (0, 1))
        while low < high:
            middle = (low + high) // 2
            if self.rows[middle].id == x:
                return middle
            low, high = (low, middle) if x < self.rows[middle].id else (middle + 1, high)
        return None


def word(w):
    """A parent word, as it is read."""
    return "none" if w == NONE else f"edge {w - EDGE}" if EDGE <= w else f"position {w}"


def refusal(number, file=0, place=0):
    return f"refused {number} {file} {place}"


def record(length, kind=0, claim=bytes(20), spare=bytes(4)):
    """A record of the list."""
    return be(4, length) + be(4, kind) + claim + spare


def records(files):
    """The list that names these files by their trailers."""
    return b"".join(record(len(data), 1, data[-20:].rjust(20, b"\0")) for data in files)


def no_position(g, r):
    """The words of a position that is refused."""
    return f"position {g} {r} {r} empty empty {r}"


def untouched(n):
    """So many entries of a list as they were before, and the one behind the list."""
    return ["_"] * (n + 1)


class Chain:
    """Files in order. A position is that of a commit when the rows of all files are counted through."""

    def __init__(self, *stored):
        self.stored = stored
        self.files = [s.data() for s in stored]
        self.spots = [(k, i) for k, s in enumerate(stored) for i in range(len(s.rows))]
        self.n = len(self.spots)

    def at(self, k, i=0):
        """The position of commit i of file k."""
        return sum(len(s.rows) for s in self.stored[:k]) + i

    def but(self, k, i, **words):
        """The same chain with other fields of commit i of file k."""
        rows = list(self.stored[k].rows)
        rows[i] = replace(rows[i], **words)
        return self.with_file(k, rows=rows)

    def with_file(self, k, **fields):
        """The same chain with other fields of file k."""
        stored = list(self.stored)
        stored[k] = replace(stored[k], **fields)
        return Chain(*stored)

    def stands(self, g):
        """The file of a position: its index, where it starts, its size, the position there and the file's commits."""
        k, i = self.spots[g]
        return f"file {k} {sum(map(len, self.files[:k]))} {len(self.files[k])} {i} {len(self.stored[k].rows)}"

    def position(self, g):
        if g < self.n:
            k, i = self.spots[g]
            return f"position {g} {self.stands(g)} fine {self.stored[k].rows[i].words()}"
        return no_position(g, refusal(40))

    def find(self, x):
        """Files in order, so the lowest position of an id that is stored twice."""
        if len(x) != 20:
            return refusal(41)
        for k, s in enumerate(self.stored):
            i = s.find(x)
            if i is not None:
                return f"at {self.at(k, i)}"
        return "absent"

    def step(self, g, phase, number=0):
        """The answer of a step, the phase after it and its EDGE number."""
        if self.n <= g:
            return refusal(40), EXHAUSTED, 0
        k, i = self.spots[g]
        row, edge = self.stored[k].rows[i], self.stored[k].edge
        if phase == FIRST:
            if row.first == NONE:
                return (refusal(50, k, i) if row.second != NONE else "end"), EXHAUSTED, 0
            return (refusal(51, k, i), EXHAUSTED, 0) if EDGE <= row.first else (f"parent {row.first}", SECOND, 0)
        if phase == SECOND:
            if row.second < EDGE:
                return ("end" if row.second == NONE else f"parent {row.second}"), EXHAUSTED, 0
            return run(k, i, edge, row.second - EDGE)
        return run(k, i, edge, number) if phase == RUN else ("end", EXHAUSTED, 0)

    def walk(self, g):
        """The words of all steps from the first."""
        words, phase, number = [], FIRST, 0
        while True:
            answer, phase, number = self.step(g, phase, number)
            if not answer.startswith("parent"):
                return [*words, "." if answer == "end" else answer]
            words.append(answer.split()[1])

    def door(self, g, phase, number=0):
        """The same through the second door, which changes the walk in place: to what the step hands back, and a refusal ends it."""
        answer, phase, number = self.step(g, phase, number)
        return (answer, EXHAUSTED, 0) if answer.startswith("refused") else (answer, phase, number)

    def listed(self, g, size):
        """The count of the parents, and in a list of so many entries the parents and what stood behind them; or a refusal, and what stood
        there. The last entry is behind the list."""
        *parents, end = self.walk(g)
        if end == "." and size < len(parents):
            end = refusal(55, *self.spots[g])
        held = parents if end == "." else []
        return " ".join([f"count {len(held)}" if end == "." else end, *held, *untouched(size - len(held))])


def run(k, i, edge, number):
    """The step at an EDGE number, for commit i of file k."""
    if edge is None:
        return refusal(52, k, i), EXHAUSTED, 0
    left = edge[4 * number : 4 * number + 4]
    if len(left) < 4:
        return refusal(54 if left else 53, k, i), EXHAUSTED, 0
    w = int.from_bytes(left, "big")
    return (f"parent {w - LAST}", EXHAUSTED, 0) if LAST <= w else (f"parent {w}", RUN, number + 1)


# Questions.


def question(kind, files, named, asked, *lines):
    ask(kind, be(4, len(named)) + named + be(4, len(asked)) + asked + b"".join(files), *lines)


def whole(c, named=None):
    lines = [" ".join([c.position(g), "parents", *c.walk(g), "list", c.listed(g, 4)]) for g in range(c.n + 1)]
    ids = [c.stored[k].rows[i].id for k, i in c.spots] + [b""]
    found = [f"id {g} {c.find(x)}" for g, x in enumerate(ids)]
    question(b"w", c.files, records(c.files) if named is None else named, b"", f"open {c.n}", *lines, *found)


def forged(g, phase, number=0):
    """A walk, as it is asked for."""
    return be(4, g) + bytes([phase]) + be(8, number)


def stepped(g, answer, phase, number=0):
    """The words of a step from a walk of the commit at g."""
    return f"{answer} walk {g} {PHASES[phase]}" + (f" {number}" if phase == RUN else "")


def steps(c, *walks):
    """One step from each of these walks, by both doors: a position, a phase and, for some, an EDGE number."""
    lines = [f"{stepped(w[0], *c.step(*w))} door {stepped(w[0], *c.door(*w))}" for w in walks]
    question(b"s", c.files, records(c.files), b"".join(forged(*w) for w in walks), *lines)


def lists(c, *asked):
    """The parent list for each of these: a position, and how many entries are lent."""
    assert all(size <= 80 for _, size in asked)
    lines = [f"list {g} {size} {c.listed(g, size)}" for g, size in asked]
    question(b"l", c.files, records(c.files), b"".join(be(4, g) + be(4, size) for g, size in asked), *lines)


def find(c, x):
    question(b"f", c.files, records(c.files), x, c.find(x))


def positions(c, *asked):
    question(b"p", c.files, records(c.files), b"".join(be(4, g) for g in asked), *map(c.position, asked))


def refused(files, named, *why):
    """A whole chain that is refused: so is every question on it."""
    r = refusal(*why)
    line = " ".join([f"{no_position(0, r)} parents {r} list {r}", *untouched(4)])
    question(b"w", files, named, b"", r, line, f"id 0 {r}")


turns = itertools.count()


def refused_too(files, named, *why):
    """The same by one question, each in its turn. Its own checks come later: an id of 19 bytes, or the highest position."""
    r, g = refusal(*why), 2**32 - 1
    turn = next(turns) % 5
    if turn == 0:
        after = stepped(g, r, EXHAUSTED)
        question(b"s", files, named, forged(g, RUN, 3), f"{after} door {after}")
    elif turn == 1:
        question(b"f", files, named, bytes(19), r)
    elif turn == 2:
        question(b"p", files, named, be(4, g), no_position(g, r))
    elif turn == 3:
        question(b"l", files, named, be(4, g) + be(4, 2), " ".join([f"list {g} 2 {r}", *untouched(2)]))
    else:
        refused(files, named, *why)


# Chains that git wrote. A history is a list of files, and a file a list of commits, by time and parents.


TWO = [
    [(10, []), (11, []), (12, [0]), (13, [2, 1])],
    [(14, [3]), (15, [3, 1, 0]), (16, [4, 5]), (17, [6, 2, 1, 0])],
]
THREE = [
    [(20, []), (21, []), (22, []), (23, [0, 1])],
    [(24, [3, 1, 2]), (25, [4, 0]), (19, [1]), (26, [5, 6, 3, 2, 0])],
    [(27, [7, 6]), (28, [2]), (2**34 - 1, [9, 4, 1]), (29, [10, 7, 5, 3]), (2**32, [11])],
]
EIGHT = [
    [(0, []), (2**32 + 1, [])],
    [(1, [0])],
    [(2, [1, 2]), (3, [2, 0, 1])],
    [(4, [])],
    [(5, [4, 3]), (6, [0]), (7, [5, 6, 7])],
    [(8, [8, 5])],
    [(2**33, [9]), (9, [9, 8, 1, 4, 5]), (10, [1, 0])],
    [(11, [0, 2, 3, 5, 6, 9, 10, 12]), (12, [13, 11]), (13, [14]), (14, [12, 11, 10])],
]


def parent_words(parents, words):
    """Both parent words. More than two parents go into EDGE, behind the words that it has."""
    if len(parents) <= 2:
        return [*parents, NONE, NONE][:2]
    words += [*parents[1:-1], LAST + parents[-1]]
    return parents[0], EDGE + len(words) - len(parents) + 1


def said(rows, inside, place, bases):
    """A file of these ids, from what git says of them."""

    def generation(name):
        return 1 + max(map(generation, rows[name][2:]), default=0)

    stored, words = [], []
    for name in inside:
        tree, time, *parents = rows[name]
        first, second = parent_words([place[p] for p in parents], words)
        stored.append(Row(bytes.fromhex(name), bytes.fromhex(tree), generation(name), int(time), first, second))
    return Stored(stored, b"".join(be(4, w) for w in words) or None, tuple(bases))


def by_git(history):
    """The chain that git writes of a history, a file at a time. The place of an id: files in order, and in each the ids that git's rev-list
    says are new, sorted."""
    order = []
    with Repository([c for commits in history for c in commits]) as made:
        names = iter(made.names[k] for k in range(len(made.names)))
        inside = []
        for commits in history:
            new = list(itertools.islice(names, len(commits)))
            inside.append(sorted(made.git("rev-list", *new, "--not", *order).decode().split()))
            order += inside[-1]
            made.git("commit-graph", "write", "--split=no-merge", "--stdin-commits", stdin="\n".join([*new, ""]).encode(), graph=True)
        made.git("commit-graph", "verify", "--no-progress", graph=True)
        hashes = made.read("commit-graphs", "commit-graph-chain").decode().split()
        files = [made.read("commit-graphs", f"graph-{h}.graph") for h in hashes]
        parents = made.git("rev-list", "--all", "--parents").decode().splitlines()
    place = {name: g for g, name in enumerate(order)}
    bases = [bytes.fromhex(h) for h in hashes]
    c = Chain(*(said(made.rows, ids, place, bases[:k]) for k, ids in enumerate(inside)))
    assert c.files == files and [f[-20:] for f in files] == bases and len(files) == len(history)
    assert {place[p[0]]: [*(str(place[q]) for q in p[1:]), "."] for p in map(str.split, parents)} == {g: c.walk(g) for g in range(c.n)}
    return c


def across(c):
    """How many octopuses have a parent in another file."""
    spread = [{c.spots[int(p)][0] for p in c.walk(g)[:-1]} | {c.spots[g][0]} for g in range(c.n) if len(c.walk(g)) > 3]
    return sum(len(files) > 1 for files in spread)


# Made chains.


def row(seed, **fields):
    return Row(noise(seed, 20), noise(1000 + seed, 20), time=seed, **fields)


def stored(*rows, **fields):
    """A file of these commits, by their ids."""
    return Stored(sorted(rows, key=lambda r: r.id), **fields)


EMPTY = stored()


def few_files():
    """One file, files without commits, and a chain without any."""
    for c in Chain(EMPTY), Chain(EMPTY, EMPTY), Chain(stored(row(1), row(2))), Chain(EMPTY, stored(row(1)), EMPTY, stored(row(2), row(3)), EMPTY):
        whole(c)


def twice():
    """Ids that two files store: the oldest copy counts. Trees and times differ, so each position shows its own copy."""
    one = stored(row(1), row(2), row(3))
    again = replace(one, bases=(one.data()[-20:],))
    whole(Chain(one, again))
    copy = stored(*(replace(row(k + 10), id=noise(k, 20)) for k in (1, 3, 5)))
    whole(Chain(stored(row(7)), one, copy))
    third = stored(*(replace(row(k + 20), id=noise(k, 20)) for k in (2, 3, 5, 6)))
    whole(Chain(copy, EMPTY, stored(row(8), row(9)), third))


def unsorted():
    """Ids out of order: those that the halving leaves out, or that lie in another bucket, are absent, unless a later file has a copy."""
    near = sorted(bytes([128, *noise(k, 19)]) for k in range(6))
    mixed = Stored([replace(row(30 + k), id=x) for k, x in enumerate(near[:1] + near[4:] + near[1:4])])
    whole(Chain(mixed, stored(*(replace(row(40 + k), id=x) for k, x in enumerate(near[:5])))))
    whole(Chain(stored(row(1)), mixed))
    low, high = stored(row(1), row(2)).rows
    assert low.id[0] < high.id[0]
    whole(Chain(Stored([high, low]), stored(replace(row(50), id=low.id))))


def many_files():
    """256 files of 1,100 bytes, and more where there are commits. With 257 records: 30, and with 256 of the same the first file is met."""
    some = {
        0: stored(row(1)),
        1: stored(row(2, first=0)),
        100: stored(replace(row(3), id=noise(1, 20))),
        254: stored(row(4, first=2, second=0)),
        255: stored(row(5, first=3, second=EDGE, generation=2), row(6), edge=be(4, 2) + be(4, 1) + be(4, LAST)),
    }
    files = [some.get(k, EMPTY) for k in range(256)]
    assert len(EMPTY.data()) == 1100
    whole(Chain(*files))
    data = EMPTY.data()
    for number, n in (30, 257), (2, 256):
        refused([data], record(0) * (n - 1) + record(len(data)), number)


# The list.


def plain(*lengths):
    """A list that gives these lengths and claims nothing."""
    return b"".join(map(record, lengths))


def sums(c):
    """32: the lengths do not add up to the size. And lengths that do, but name other parts."""
    one, two = map(len, c.files)
    # they add up modulo 2^32
    for lengths in (one + 2**31, two + 2**31), (one + 2**32 - 2000, two + 2000), (one, two, 2**31, 2**31):
        refused(c.files, plain(*lengths), 32)
    # no file is looked at, so 5 and 7 bytes stand for two
    for lengths in (5,), (7,), (0,), (4, 7), (5, 8), (5, 7, 1), (5, 7, 5), (5, 7, 12), (5, 2**16 + 7), (2**31 + 5, 7), (2**32 - 1, 13):
        refused_too([bytes(12)], plain(*lengths), 32)
    for lengths in [1], [2**31] * 2, [2**28] * 16, [2**32 - 1] * 9, [2**32 - 1, 1]:
        refused_too([], plain(*lengths), 32)
    refused([*c.files, b"\0"], records(c.files), 32)
    # a record more that names no bytes: 2 at its file; a byte too many or too few in the first: 18
    for at, lengths in enumerate([(0, one, two), (one, 0, two), (one, two, 0)]):
        refused(c.files, plain(*lengths), 2, at)
    for lengths, number in ((one + 1, two - 1), 18), ((one - 1, two + 1), 18), ((one + two,), 18), ((1099, one + two - 1099), 2):
        refused(c.files, plain(*lengths), number)


def sizes(c):
    """30, whatever else is wrong."""
    good, bad = records(c.files), record(0, 3)
    for named in b"", good[:31]:
        refused(c.files, named, 30)
    for named in b"", bytes(1), bytes(31), bytes(33), bytes(63), bad[:31], bad + b"\0", good[:33], good[:-1], good + b"\0":
        for _ in range(5):
            refused_too([], named, 30)


def broken(at, *wrong):
    """Five records, the wrong ones from `at` on. They are good for no chain, since the lengths add up to 5."""
    good = [record(0), record(0, 1, noise(1, 20)), record(0, 2), record(5), record(0)]
    return b"".join(good[:at] + list(wrong) + good[at + len(wrong) :])


def layout():
    """31: a kind above 2; hash bytes where the kind claims none; spare bytes. The place is the first such record, whatever the lengths."""
    for at in 0, 2, 4:
        for kind in 3, 4, 255, 256, 257, 2**16, 2**24, 2**31 + 1, 2**32 - 1:
            refused_too([], broken(at, record(0, kind)), 31, 0, at)
        for k in range(20):
            claim = bytes(k) + bytes([1 << k % 8]) + bytes(19 - k)
            for kind in 0, 2:
                refused_too([], broken(at, record(0, kind, claim)), 31, 0, at)
        for k in range(4):
            spare = bytes(k) + bytes([128 >> k]) + bytes(3 - k)
            for kind in 0, 1, 2:
                refused_too([], broken(at, record(0, kind, noise(2, 20) if kind == 1 else bytes(20), spare)), 31, 0, at)
    three, stray, spare = record(0, 3), record(0, 0, bytes(19) + b"\1"), record(0, 1, bytes(20), b"\0\0\0\1")
    for wrong in (three, stray), (stray, spare), (spare, three), (stray, record(0), three), (record(2**32 - 1, 3), record(2**32 - 1, 3)):
        for at in 1, 2:
            refused([], broken(at, *wrong), 31, 0, at)


def kinds(c):
    """The kinds in sound lists, where a claim is not compared with a trailer; and 31 for sound files, and for no file."""
    sizes = [len(f) for f in c.files]
    for kind in (0, 1, 2), (2, 1, 0):
        claims = [noise(k, 20) if k == 1 else bytes(20) for k in kind]
        whole(c, b"".join(map(record, sizes, kind, claims)))
    whole(c, b"".join(record(size, 1) for size in sizes))
    for at, wrong in enumerate([(3, bytes(20), bytes(4)), (2, noise(1, 20), bytes(4)), (1, noise(1, 20), b"\0\1\0\0")]):
        refused(c.files, b"".join(record(size, *(wrong if k == at else [])) for k, size in enumerate(sizes)), 31, 0, at)
    refused([bytes(1100)], record(1100, 3), 31)


def opened(c):
    """A file refused at opening: its index, and the place in it."""
    stored = c.stored[1]
    parts, bases, data = stored.parts(), len(stored.bases), c.files[1]
    for spoiled, number, place in (
        (data[:1099], 2, 0),
        (file(parts, bases, head=b"CGPX\1\1"), 3, 0),
        (file(parts, bases, ids={2: bytes(4)}), 7, 2),
        (file(parts, bases, at={2: 2**40}), 9, 1),
        (file(parts, bases + 1), 11, 0),
        (file(without(parts, b"CDAT"), bases), 12, 0),
        (data + b"\0", 18, 0),
        (file(with_words(parts, b"OIDF", {4 * 99: 100}), bases), 20, 100),
        (file({**parts, b"CDAT": bytes(36)}, bases), 22, 0),
    ):
        files = [c.files[0], spoiled, c.files[2]]
        refused(files, records(files), number, 1, place)
    # by every question, and in each file; of two that are refused the first answers, and 31 and 32 come before both
    bad, worse = file(with_words(parts, b"OIDF", {4 * 7: 9}), bases), file(parts, bases, at={0: 0})
    for at in 0, 1, 1, 1, 1, 1, 2:
        files = [*c.files[:at], bad, *c.files[at + 1 :]]
        refused_too(files, records(files), 20, at, 8)
    for files, why in ([bad, worse, data], (20, 0, 8)), ([data, worse, bad], (9, 1, 0)):
        refused(files, records(files), *why)
    refused([bad, worse], records([bad]) + record(len(worse), 3), 31, 0, 1)
    refused([bad, worse], plain(len(bad), len(worse) + 1), 32)


# Positions, ids and single steps.


def by_position(c):
    """The ends of each file, the last position and those behind it."""
    ends = [c.at(k) + d for k in range(1, len(c.stored)) for d in (-1, 0)]
    positions(c, 0, *ends, c.n - 1, c.n, c.n + 1, 2**31 - 1, 2**31, 2**32 - 1)


def by_id():
    """41 for an id that is not of 20 bytes, though it starts or ends with a stored one."""
    x = noise(2, 20)
    c = Chain(stored(row(1)), stored(row(2), row(3)))
    for other in x, x[:19] + bytes([x[19] ^ 1]), bytes([x[0] ^ 128]) + x[1:], x[:19], x + b"\0":
        find(c, other)
    c = Chain(stored(row(2)))
    for other in x, b"", x[:1], x[1:], b"\0" + x, bytes(19), bytes(20), bytes(21), b"\xff" * 19, b"\xff" * 20, x + bytes(12), noise(1, 255):
        find(c, other)


def every_step(c):
    """Each phase at each commit, forged or not, and each EDGE number of its file, up to the one at the end; and behind the commits."""
    inside = [(g, phase) for g in range(c.n) for phase in (FIRST, SECOND, EXHAUSTED)]
    runs = [(g, RUN, j) for g, (k, _) in enumerate(c.spots) for j in range(len(c.stored[k].edge or b"") // 4 + 1)]
    steps(c, *inside, *runs, *((g, phase) for g in (c.n, c.n + 1, 2**32 - 1) for phase in (FIRST, SECOND, RUN, EXHAUSTED)))


FAR = 2**30, 2**32 - 1, 2**32, 2**62, 2**62 + 1, 2**63, 2**64 - 1  # their fourfold is small modulo 2^32 or 2^64, or they are large


def far_steps(c, k, i):
    """52 to 54 at EDGE numbers, for commit i of file k and for every other."""
    edge = c.stored[k].edge
    size = len(edge) // 4
    numbers = 0, size - 2, size - 1, size, size + 1, *FAR, 2**62 + size - 1
    for other in edge, None, b"", edge[:-1], edge[:-2], edge[:-3], edge + b"\0\0\0":
        steps(c.with_file(k, edge=other), *((c.at(k, i), RUN, j) for j in numbers))
    # EDGE of another file is not looked at
    steps(c.with_file(0, edge=be(4, 1) * 40), *((g, RUN, j) for g in range(c.n) for j in (size - 1, size, 39, 40)))


def spoiled_words(c, k, i):
    """50 and 51 for commit i of file k, and words that no check looks at: a position need not lie in the chain."""
    for first, second in (
        (NONE, 0),
        (NONE, NONE + 1),
        (NONE, 2**32 - 1),
        (EDGE, NONE),
        (2**32 - 1, EDGE),
        (c.n, NONE),
        (NONE - 1, NONE + 1),
        (EDGE - 1, EDGE - 1),
    ):
        whole(c.but(k, i, first=first, second=second))
    # 50 and 51 are tried from first only
    for first, second in (NONE, 1), (NONE, EDGE + 1), (EDGE, EDGE + 1), (EDGE + 1, NONE):
        steps(c.but(k, i, first=first, second=second), *((c.at(k, i), phase) for phase in (FIRST, SECOND, RUN, EXHAUSTED)))


def spoiled_edge(c, k, i):
    """52 to 54 by the walk of commit i of file k."""
    edge = c.stored[k].edge
    for other in None, b"", edge[:-1], edge[:-2], edge[:-3], edge[:-4], edge[:3], be(4, 5) * 9:
        whole(c.with_file(k, edge=other))
    for index in len(edge) // 4 - 1, len(edge) // 4, 2**30, 2**31 - 1:
        whole(c.but(k, i, second=EDGE + index))
    whole(c.but(k, i, second=EDGE + 2**31 - 1).with_file(k, edge=None))
    whole(c.but(k, i, second=EDGE).with_file(k, edge=be(4, NONE) + be(4, 0) + be(4, LAST + NONE)))


def once_each(c, k, i):
    """50 to 54 once each for commit i of file k."""
    edge = c.stored[k].edge
    for first, second in (NONE, 3), (EDGE, NONE):
        whole(c.but(k, i, first=first, second=second))
    for other in None, edge[:-4], edge[:-1]:
        whole(c.with_file(k, edge=other))


# Parent lists.


def every_list(c):
    """For each commit a list with no entry, one too few, as many as parents, and one more; for two of them 80. Behind the commits 40."""
    counts = [len(c.walk(g)) - 1 for g in range(c.n)]
    assert {0, 1, 2, 3} < set(counts)
    sizes = [(g, size) for g, n in enumerate(counts) for size in sorted({0, max(n - 1, 0), n, n + 1})]
    lists(c, *sizes, *((counts.index(n), 80) for n in (0, max(counts))), *((g, size) for g in (c.n, c.n + 1, 2**32 - 1) for size in (0, 3)))


def refused_lists(c, k, i):
    """50 to 54 for commit i of file k come before 55 and write nothing, however many parents were met: lists for fewer, as many and more."""
    g, edge = c.at(k, i), c.stored[k].edge
    spoiled = [c.but(k, i, first=first, second=second) for first, second in ((NONE, 3), (NONE, EDGE + 1), (EDGE, EDGE + 1))]
    spoiled += [c.with_file(k, edge=other) for other in (None, edge[:-4], edge[:-1])]
    assert [c.walk(g)[-1] for c in spoiled] == [refusal(number, k, i) for number in (50, 50, 51, 52, 53, 54)]
    assert [len(c.walk(g)) - 1 for c in spoiled] == [0, 0, 0, 1, 3, 3]
    for c in spoiled:
        lists(c, *((g, size) for size in (*range(len(c.walk(g)) + 1), 80)))


def long_lists():
    """A second parent in EDGE that is the last one, and more parents than the table counts or than the longest list holds."""
    rows, words = [row(1)], []
    for n in 2, 66, 80, 81:
        parents = [1000 * n + j for j in range(n)]
        rows.append(row(n, first=parents[0], second=EDGE + len(words)))
        words += [*parents[1:-1], LAST + parents[-1]]
    c = Chain(stored(row(2)), stored(*rows, edge=b"".join(be(4, w) for w in words)))
    counts = [len(c.walk(g)) - 1 for g in range(c.n)]
    assert sorted(counts) == [0, 0, 2, 66, 80, 81]
    lists(c, *((g, size) for g, n in enumerate(counts) for size in (0, n - 1, n, n + 1, 80) if 0 <= size <= 80))


def dates(c, k, i):
    """The date words at their ends."""
    for generation, time in (1, 12884901893), (2**30 - 1, 2**34 - 1), (0, 0):
        positions(c.but(k, i, generation=generation, time=time), c.at(k, i))


def octopus(c, k):
    """The last commit of file k with more than two parents; it is not the first of that file."""
    i = max(i for i, r in enumerate(c.stored[k].rows) if r.second >= EDGE)
    assert i > 0
    return i


def main():
    place = folder(__doc__)
    two, three, eight = map(by_git, (TWO, THREE, EIGHT))
    assert [across(c) for c in (two, three, eight)] == [2, 4, 5]
    for c in two, three, eight:
        whole(c)
    few_files()
    twice()
    unsorted()
    many_files()
    for cases in sums, sizes:
        cases(Chain(stored(row(1)), EMPTY))
    layout()
    made = Chain(EMPTY, stored(row(1), row(2), bases=(noise(9, 20),)), stored(row(3)))
    for cases in kinds, opened:
        cases(made)
    by_position(three)
    by_id()
    for c in two, three, eight:
        every_step(c)
    for cases in far_steps, spoiled_words, spoiled_edge, dates:
        cases(two, 1, octopus(two, 1))
    once_each(three, 2, octopus(three, 2))
    for c in two, three, eight:
        every_list(c)
    refused_lists(two, 1, octopus(two, 1))
    long_lists()
    write(place)


if __name__ == "__main__":
    main()

#!/usr/bin/env python3
"""Cases for the program answers: `python3 tests/answers.py FOLDER` writes FOLDER/stdin, what it reads, and FOLDER/stdout, what it must print.

git makes histories in a folder that is removed again, and writes the commit-graph file of each. What must be printed of these is what git
says of the commits themselves, without their graph. Then copies are spoiled, one thing at a time, with the answer next to each, as document
01 has it: nothing of the library is run here. Every run makes the same bytes. Numbers in the comments are those of the refusals."""
from made import EDGE, EXHAUSTED, FIRST, LAST, NONE, RUN, SECOND, Repository, ask, be, fan, file, folder, with_words, without, write


class History:
    """The file that git writes of these commits; `at[k]`, the position of commit k; for each position the words before its parents, and
    the positions of its parents, as git says them."""

    def __init__(self, commits):
        with Repository(commits) as made:
            made.git("commit-graph", "write", "--reachable", graph=True)
            self.data = made.read("commit-graph")
        place = {name: k for k, name in enumerate(sorted(made.rows))}
        self.at = {k: place[name] for k, name in made.names.items()}
        self.parents = {place[name]: [place[p] for p in row[2:]] for name, row in made.rows.items()}
        self.words = {place[name]: f"{name} {row[0]} {row[1]} {self.generation(place[name])}" for name, row in made.rows.items()}

    def generation(self, k):
        return 1 + max([self.generation(p) for p in self.parents[k]], default=0)

    def lines(self, other={}):
        """The lines of the file; the commits of `other` have another list of parents, or words for it."""
        tails = {**self.parents, **other}
        return [" ".join(map(str, [self.words[k], *tails[k]])) for k in sorted(tails)]


# Files of chunks.


def chunks(data):
    starts = [int.from_bytes(data[12 + 12 * k : 20 + 12 * k], "big") for k in range(data[6] + 1)]
    return {data[8 + 12 * k : 12 + 12 * k]: data[starts[k] : starts[k + 1]] for k in range(data[6])}


def with_parents(parts, k, first=None, second=None):
    """The same chunks with another first or second parent word of commit k."""
    words = {36 * k + 20: first, 36 * k + 24: second}
    return with_words(parts, b"CDAT", {at: n for at, n in words.items() if n is not None})


def with_edge(parts, *words, cut=0):
    """The same chunks with these words in EDGE, less `cut` bytes."""
    body = b"".join(be(4, n) for n in words)
    return {**parts, b"EDGE": body[: len(body) - cut]}


# Whole files.


def whole(data, lines, sought="OK"):
    ask(b"g", data, *lines, f"lookup {sought}", "counts OK")


def chain(n):
    return [(k, [k - 1] if k else []) for k in range(n)]


def octopus(n):
    """n commits without parents, one that has them all, and a child of it."""
    return [(1000 + k, []) for k in range(n)] + [(2000, range(n)), (2001, [n])]


MERGES = [(10, []), (11, []), (12, [0, 1]), (13, [1, 0]), (14, [2, 3]), (15, [3, 2]), (16, [4, 5]), (9, [0]), (8, [7, 6]), (17, [8, 0])]
RUNS = [*octopus(3), (2002, [4, 2, 1, 0]), (2003, [3, 4, 5]), (2004, [6]), (2005, [7, 5, 4, 3, 2, 1, 0])]
TIMES = [0, 1, 2**31 - 1, 2**31, 2**32 - 1, 2**32, 2**32 + 1, 2**33 - 1, 2**33, 3 * 2**32 - 1, 3 * 2**32, 2**34 - 2, 2**34 - 1]
DATES = [(t, [k - 1] if k % 2 else []) for k, t in enumerate(TIMES)] + [(0, [12, 0]), (2**34 - 1, [13, 3, 2])]


def by_git():
    for commits in chain(1), chain(20), MERGES, RUNS, DATES, octopus(64), octopus(65), octopus(70):
        h = History(commits)
        assert file(chunks(h.data)) == h.data
        whole(h.data, h.lines())


# Spoiled files. Commits of SMALL: two roots, a child, a merge, an octopus of 3 and one of 4, whose runs in EDGE git puts in the order of positions.

SMALL = [(10, []), (11, []), (12, [0]), (13, [2, 1]), (14, [3, 1, 0]), (15, [4, 2, 1, 0])]


class Small(History):
    def __init__(self):
        super().__init__(SMALL)
        self.parts = chunks(self.data)
        self.root, self.other, self.child, self.merge, self.three, self.four = (self.at[k] for k in range(6))
        runs = sorted([self.three, self.four])
        self.start = {runs[0]: 0, runs[1]: len(self.parents[runs[0]]) - 1}
        self.run = [p for k in runs for p in self.parents[k][1:]]
        assert len(self.parts[b"EDGE"]) == 4 * len(self.run) == 20

    def spoiled(self, parts, other):
        """Asks for a file whose commits of `other` have other parents."""
        whole(file(parts), self.lines(other))

    def edge(self, last=(), cut=0):
        """The words of EDGE, with the last bit at the numbers of `last` only."""
        return with_edge(self.parts, *(p + (LAST if k in last else 0) for k, p in enumerate(self.run)), cut=cut)


def same_answers(h):
    """What no answer depends on: the order of the chunks, unknown chunks, bytes after the last run of EDGE, the trailer."""
    for parts in dict(reversed(h.parts.items())), {b"ABCD": bytes(7), **h.parts}, {**h.parts, b"EDGE": h.parts[b"EDGE"] + bytes(6)}:
        h.spoiled(parts, {})
    whole(h.data[:-20] + bytes(20), h.lines())
    whole(file({b"OIDF": bytes(1024), b"OIDL": b"", b"CDAT": b""}), [])


def first_words(h):
    """50 and 51, which look at no EDGE chunk."""
    k = h.root
    for word in 0, NONE - 1, NONE + 1, EDGE, 2**32 - 1:
        h.spoiled(with_parents(h.parts, k, second=word), {k: [f"refused 50 0 {k}"]})
    for first, second in (EDGE, NONE), (EDGE, 0), (EDGE + NONE, EDGE), (2**32 - 1, 2**32 - 1):
        h.spoiled(with_parents(h.parts, k, first=first, second=second), {k: [f"refused 51 0 {k}"]})
    h.spoiled(with_parents(h.parts, h.three, first=NONE), {h.three: [f"refused 50 0 {h.three}"]})
    h.spoiled(with_parents(h.parts, h.merge, first=EDGE), {h.merge: [f"refused 51 0 {h.merge}"]})
    bare = without(with_parents(h.parts, h.three, first=EDGE + 1), b"EDGE")
    h.spoiled(with_parents(bare, h.four, second=NONE), {h.three: [f"refused 51 0 {h.three}"], h.four: [h.parents[h.four][0]]})


def parent_words(h):
    """Next to none and at the ends; a position is not checked against the file."""
    for word in 6, NONE - 1, NONE + 1, EDGE - 1:
        h.spoiled(with_parents(h.parts, h.root, first=word), {h.root: [word]})
        h.spoiled(with_parents(h.parts, h.merge, second=word), {h.merge: [h.parents[h.merge][0], word]})
    h.spoiled(with_parents(h.parts, h.merge, second=NONE), {h.merge: h.parents[h.merge][:1]})
    h.spoiled(with_parents(h.parts, h.merge, first=NONE, second=NONE), {h.merge: []})
    # the child shares the run of the octopus of 3, and its last word alone
    for k in 0, 1:
        parents = [h.root, *h.parents[h.three][1 + k :]]
        h.spoiled(with_parents(h.parts, h.child, second=EDGE + h.start[h.three] + k), {h.child: parents})


def edge_refused(h):
    begin = {k: h.parents[k][:1] for k in (h.three, h.four)}
    # 52: no EDGE chunk, whatever the index
    h.spoiled(without(h.parts, b"EDGE"), {k: [*p, f"refused 52 0 {k}"] for k, p in begin.items()})
    for index in 5, 2**31 - 1:
        parts = with_parents(with_parents(h.parts, h.three, second=EDGE + index), h.four, second=NONE)
        h.spoiled(without(parts, b"EDGE"), {h.three: [*begin[h.three], f"refused 52 0 {h.three}"], h.four: begin[h.four]})
        # 53: the index is that of the end of EDGE, or far behind it
        parts = with_parents(h.parts, h.three, second=EDGE + index)
        h.spoiled(parts, {h.three: [*begin[h.three], f"refused 53 0 {h.three}"]})
    # 53: an EDGE chunk of no bytes
    h.spoiled(with_edge(h.parts), {k: [*p, f"refused 53 0 {k}"] for k, p in begin.items()})
    # 53: no last bit up to the end, for both, for the later run, and over 300 words
    h.spoiled(h.edge(), {k: [*p, *h.run[h.start[k] :], f"refused 53 0 {k}"] for k, p in begin.items()})
    early, late = sorted(begin)
    h.spoiled(h.edge({h.start[late] - 1}), {late: [*h.parents[late], f"refused 53 0 {late}"]})
    parts = with_parents(with_edge(h.parts, *range(300)), h.four, second=EDGE + 299)
    parts = with_parents(parts, h.three, second=EDGE)
    tails = {h.three: [*begin[h.three], *range(300), f"refused 53 0 {h.three}"], h.four: [*begin[h.four], 299, f"refused 53 0 {h.four}"]}
    h.spoiled(parts, tails)
    # 54: 1 to 3 bytes of the last word, with its last bit and without
    for cut, last in (1, {4}), (2, set()), (3, {4}):
        h.spoiled(h.edge({h.start[late] - 1} | last, cut), {late: [*h.parents[late][:-1], f"refused 54 0 {late}"]})
    # 6 bytes of EDGE: at 1 there are 2 left, at 2 there is none
    for index, number in (1, 54), (2, 53):
        parts = with_parents(with_edge(h.parts, LAST + 3, 0, cut=2), h.three, second=EDGE + index)
        parts = with_parents(parts, h.four, second=EDGE)
        h.spoiled(parts, {h.three: [*begin[h.three], f"refused {number} 0 {h.three}"], h.four: [*begin[h.four], 3]})


def edge_words(h):
    """A word of EDGE is a position, 0x70000000 too."""
    first = h.parents[h.three][0]
    parts = with_parents(with_parents(h.parts, h.three, second=EDGE), h.four, second=NONE)
    for word, last in (NONE, 7), (NONE - 1, NONE), (NONE + 1, NONE + 1), (2**31 - 1, 2**31 - 1), (0, 0):
        other = {h.three: [first, word, word, last], h.four: h.parents[h.four][:1]}
        h.spoiled(with_edge(parts, word, word, LAST + last, 9), other)


def dates(h):
    """The words before the parents are those of other date words."""
    for high, low, generation, time in (
        (7, 5, 1, 12884901893),
        (2**32 - 1, 2**32 - 1, 1073741823, 17179869183),
        (0, 0, 0, 0),
        (2**32 - 4, 1, 1073741823, 1),
    ):
        k = h.merge
        name, tree, *_ = h.words[k].split()
        lines = h.lines()
        lines[k] = " ".join(map(str, [name, tree, time, generation, *h.parents[k]]))
        whole(file(with_words(h.parts, b"CDAT", {36 * k + 28: high, 36 * k + 32: low})), lines)


def other_ids(h):
    """Other ids at the same positions, sorted or not, with the fan that counts their first bytes."""
    ids = [bytes.fromhex(h.words[k][:40]) for k in range(6)]
    twin = [ids[0][:19] + b"\x40", ids[0][:19] + b"\x41"]
    near = [b"\x80" + i[1:] for i in sorted(ids, key=lambda i: i[1:])]
    for other, sought in (
        (twin + ids[2:], "OK"),  # two that differ in the last bit
        (near, "OK"),  # all in one bucket
        ([ids[1], ids[0], *ids[2:]], "BAD 0"),  # the bucket of the first byte has another id
        (near[:5] + near[4:5], "BAD 4"),  # a repeated id, which the halving meets at 5: it looks at 3, then there
        (near[:1] + near[4:] + near[1:4], "BAD 1"),  # the id at 1 is above that at 3, the middle, so the halving leaves it out
    ):
        lines = [i.hex() + line[40:] for i, line in zip(other, h.lines())]
        whole(file({**h.parts, b"OIDF": fan(other), b"OIDL": b"".join(other)}), lines, sought)


def unopened(h):
    for data, number in (b"", 2), (h.data[:-1], 18), (file(without(h.parts, b"CDAT")), 12):
        ask(b"g", data, f"refused {number} 0 0")
        ask(b"s", be(4, 0) + bytes([FIRST]) + be(8, 0) + data, f"refused {number} 0 0")


# Single steps.


def steps(parts, k, phase, number, line):
    ask(b"s", be(4, k) + bytes([phase]) + be(8, number) + file(parts), line)


def plain_steps(h):
    for phase in FIRST, SECOND:
        steps(h.parts, h.root, phase, 0, "end exhausted")
    for k in h.child, h.merge, h.three, h.four:
        steps(h.parts, k, FIRST, 0, f"parent {h.parents[k][0]} second")
    steps(h.parts, h.child, SECOND, 0, "end exhausted")
    steps(h.parts, h.merge, SECOND, 0, f"parent {h.parents[h.merge][1]} exhausted")
    for k in h.three, h.four:
        steps(h.parts, k, SECOND, 0, f"parent {h.parents[k][1]} edge {h.start[k] + 1}")
    # 50 and 51 are tried from first only
    steps(with_parents(h.parts, h.root, second=5), h.root, FIRST, 0, f"refused 50 0 {h.root} exhausted")
    steps(with_parents(h.parts, h.root, second=5), h.root, SECOND, 0, "parent 5 exhausted")
    steps(with_parents(h.parts, h.merge, first=EDGE), h.merge, FIRST, 0, f"refused 51 0 {h.merge} exhausted")
    steps(with_parents(h.parts, h.merge, first=EDGE), h.merge, SECOND, 0, f"parent {h.parents[h.merge][1]} exhausted")
    for parts, number in (without(h.parts, b"EDGE"), 52), (with_edge(h.parts), 53), (with_edge(h.parts, 0, cut=1), 54):
        steps(with_parents(parts, h.three, second=EDGE), h.three, SECOND, 0, f"refused {number} 0 {h.three} exhausted")


def forged_steps(h):
    """Phases that no walk of the commit hands out."""
    # at an EDGE number the commit's own words are not looked at
    last = {h.start[h.three] + 1, h.start[h.four] + 2}
    for k, p in enumerate(h.run):
        steps(h.parts, h.root, RUN, k, f"parent {p} " + ("exhausted" if k in last else f"edge {k + 1}"))
    steps(with_parents(h.parts, h.root, second=5), h.root, RUN, max(last), f"parent {h.run[max(last)]} exhausted")
    # the end of EDGE, past it, and numbers whose fourfold is small modulo 2^32 or 2^64
    for number in 5, 6, 2**30, 2**32 - 1, 2**32, 2**62, 2**62 + 1, 2**64 - 1:
        steps(h.parts, h.merge, RUN, number, f"refused 53 0 {h.merge} exhausted")
    for number in 0, 2**32 - 1, 2**64 - 1:
        steps(without(h.parts, b"EDGE"), h.merge, RUN, number, f"refused 52 0 {h.merge} exhausted")
        steps(with_edge(h.parts), h.merge, RUN, number, f"refused 53 0 {h.merge} exhausted")
    steps(with_edge(h.parts, 1, 2, cut=3), h.child, RUN, 0, "parent 1 edge 1")
    for cut in 1, 3:
        steps(with_edge(h.parts, 1, 2, cut=cut), h.child, RUN, 1, f"refused 54 0 {h.child} exhausted")
        steps(with_edge(h.parts, 1, 2, cut=cut), h.child, RUN, 2, f"refused 53 0 {h.child} exhausted")
    steps(with_edge(h.parts, NONE, LAST + NONE), h.child, RUN, 0, f"parent {NONE} edge 1")
    steps(with_edge(h.parts, NONE, LAST + NONE), h.child, RUN, 1, f"parent {NONE} exhausted")
    # exhausted stays so, whatever the words
    for k in h.root, h.merge, h.four:
        steps(h.parts, k, EXHAUSTED, 0, "end exhausted")
    steps(with_parents(h.parts, h.root, second=5), h.root, EXHAUSTED, 3, "end exhausted")
    # 40 comes before the phase
    for k in len(SMALL), 2**32 - 1:
        for phase in FIRST, SECOND, RUN, EXHAUSTED:
            steps(h.parts, k, phase, 0, "refused 40 0 0 exhausted")


def main():
    place = folder(__doc__)
    by_git()
    h = Small()
    whole(h.data, h.lines())
    for cases in same_answers, first_words, parent_words, edge_refused, edge_words, dates, other_ids, unopened, plain_steps, forged_steps:
        cases(h)
    write(place)


main()

#!/usr/bin/env python3
"""Cases for the program replay: `python3 tests/replay.py FOLDER` writes FOLDER/stdin, what it reads, and FOLDER/stdout, what it must print.

Each case is a whole input of the program that document 01 describes. The first part has that document's rules in plain words, from bytes to
the lines that are printed: nothing of the library is run. Then chains are made, by git and here, and spoiled in one thing or in two. Next to
each stands the answer that is meant, and the rules must give the same: for a refusal its number, file and place; for an accepted chain what
follows from the parents alone, which for git's chains are those that git says. Every run makes the same bytes. Numbers in the comments are
those of the refusals."""
import hashlib
from dataclasses import dataclass, field, replace

import compared
from chains import EIGHT, EMPTY, THREE, TWO, Chain, Row, Stored, by_git, parent_words, plain, record, records, refusal
from made import EDGE, LAST, NONE, ZERO, ask, be, fan, file, folder, noise, offsets, with_words, without, write

CAP = 2**30 - 1  # the highest generation


# The rules, on bytes.


class Refused(Exception):
    """A number, a file and a place."""


def refuse(number, file=0, place=0):
    raise Refused(number, file, place)


def number(data, at, width=4):
    return int.from_bytes(data[at : at + width], "big")


def named_files(named, size):
    """For each record of a list the length, the kind and the claim."""
    if not named or len(named) % 32 or len(named) // 32 > 256:
        refuse(30)
    files = []
    for k in range(len(named) // 32):
        one = named[32 * k : 32 * k + 32]
        length, kind, claim, spare = number(one, 0), number(one, 4), one[8:28], one[28:]
        if kind > 2 or kind != 1 and any(claim) or any(spare):
            refuse(31, 0, k)
        files.append((length, kind, claim))
    if sum(length for length, _, _ in files) != size:
        refuse(32)
    return files


def chunks_of(k, data):
    """The chunks of file k by their ids, and how many bytes follow them."""
    last = data[6]
    end = 8 + 12 * (last + 1)
    if len(data) < end:
        refuse(6, k)
    ids = [data[8 + 12 * e : 12 + 12 * e] for e in range(last + 1)]
    at = [number(data, 12 + 12 * e, 8) for e in range(last + 1)]
    for e in range(last):
        if ids[e] == ZERO:
            refuse(7, k, e)
        if ids[e] in ids[:e]:
            refuse(8, k, e)
        if at[e] < end or at[e] > len(data) or at[e + 1] < at[e] or at[e + 1] > len(data):
            refuse(9, k, e)
    if ids[last] != ZERO:
        refuse(7, k, last)
    return {ids[e]: data[at[e] : at[e + 1]] for e in range(last)}, len(data) - at[last]


def pieces(data, size):
    return [data[at : at + size] for at in range(0, len(data), size)]


class File:
    """A file that opens: its bytes, the ids in BASE, the fan's numbers, the ids and entries of its commits, and EDGE, None where it is missing."""

    def __init__(self, k, data):
        if len(data) > 2**30:
            refuse(1, k)
        if len(data) < 1100:
            refuse(2, k)
        if data[:4] != b"CGPH":
            refuse(3, k)
        if data[4] != 1:
            refuse(4, k)
        if data[5] != 1:
            refuse(5, k)
        chunks, behind = chunks_of(k, data)
        b, base = data[7], chunks.get(b"BASE")
        if base is not None and len(base) % 20:
            refuse(10, k)
        if base is not None and len(base) // 20 != b:
            refuse(11, k)
        if b"CDAT" not in chunks:
            refuse(12, k)
        if len(chunks[b"CDAT"]) % 36:
            refuse(13, k)
        if b"OIDF" not in chunks:
            refuse(14, k)
        if len(chunks[b"OIDF"]) != 1024:
            refuse(15, k)
        if b"OIDL" not in chunks:
            refuse(16, k)
        if len(chunks[b"OIDL"]) % 20:
            refuse(17, k)
        if behind != 20:
            refuse(18, k)
        if b > 0 and base is None:
            refuse(19, k)
        self.fan = [number(chunks[b"OIDF"], 4 * e) for e in range(256)]
        for e in range(1, 256):
            if self.fan[e] < self.fan[e - 1]:
                refuse(20, k, e)
        self.ids, self.entries = pieces(chunks[b"OIDL"], 20), pieces(chunks[b"CDAT"], 36)
        if len(self.ids) != self.fan[255]:
            refuse(21, k)
        if len(self.entries) != self.fan[255]:
            refuse(22, k)
        self.data, self.bases, self.edge = data, pieces(base or b"", 20), chunks.get(b"EDGE")

    def trailer(self):
        return self.data[-20:]

    def generation(self, i):
        return number(self.entries[i], 28) // 4

    def parents(self, k, i):
        """The parents of commit i, one by one."""
        first, second = number(self.entries[i], 20), number(self.entries[i], 24)
        if first == NONE:
            if second != NONE:
                refuse(50, k, i)
            return
        if first >= EDGE:
            refuse(51, k, i)
        yield first
        if second < EDGE:
            if second != NONE:
                yield second
            return
        at = 4 * (second - EDGE)
        while True:
            if self.edge is None:
                refuse(52, k, i)
            if len(self.edge) <= at:
                refuse(53, k, i)
            if len(self.edge) < at + 4:
                refuse(54, k, i)
            w = number(self.edge, at)
            if w >= LAST:
                yield w - LAST
                return
            yield w
            at += 4


def check_commit(k, f, i):
    """The rules for commit i of file k by its own fields."""
    x = f.ids[i]
    if not any(x):
        refuse(64, k, i)
    if i > 0 and x <= f.ids[i - 1]:
        refuse(65, k, i)
    low = f.fan[x[0] - 1] if x[0] > 0 else 0
    if i < low or f.fan[x[0]] <= i:
        refuse(66, k, i)
    if not any(f.entries[i][:20]):
        refuse(67, k, i)


def verified(named, chain):
    """The generation of every commit, and how many parents it has."""
    if len(chain) > 2**30:
        refuse(1)
    names, files, at = named_files(named, len(chain)), [], 0
    for k, (length, _, _) in enumerate(names):
        files.append(File(k, chain[at : at + length]))
        at += length
    generations = [f.generation(i) for f in files for i in range(len(f.ids))]
    counts = []
    for k, (f, (_, kind, claim)) in enumerate(zip(files, names)):
        if len(f.bases) != k:
            refuse(60, k)
        for j, base in enumerate(f.bases):
            if base != files[j].trailer():
                refuse(61, k, j)
        if hashlib.sha1(f.data[:-20]).digest() != f.trailer():
            refuse(62, k)
        if kind == 2 or kind == 1 and claim != f.trailer():
            refuse(63, k)
        limit = sum(len(g.ids) for g in files[: k + 1])
        for i in range(len(f.ids)):
            check_commit(k, f, i)
            highest, count = 0, 0
            for p in f.parents(k, i):
                if p >= limit:
                    refuse(68, k, i)
                highest, count = max(highest, generations[p]), count + 1
            if f.generation(i) != min(highest + 1, CAP):
                refuse(69, k, i)
            counts.append(count)
    return generations, counts


def traversed(named, data):
    """The lines of the traversal of one file: commits, highest and lowest generation, most parents; and a line for each count above 0."""
    if len(data) > 2**30:
        refuse(1)
    if len(named) != 32:
        refuse(30)
    (_, kind, claim), f = named_files(named, len(data))[0], File(0, data)
    if hashlib.sha1(data[:-20]).digest() != f.trailer():
        refuse(62)
    if kind == 2 or kind == 1 and claim != f.trailer():
        refuse(63)
    counts = []
    for i in range(len(f.ids)):
        check_commit(0, f, i)
        counts.append(len(list(f.parents(0, i))))
    generations = [f.generation(i) for i in range(len(f.ids))] or [0]
    keys = [min(n, 65) for n in counts]
    first = f"traversed {len(counts)} {max(generations)} {min(generations)} {max(counts, default=0)}"
    return [first, *(f"count {n} {keys.count(n)}" for n in sorted(set(keys)))]


def trailed(data):
    """The line of a file's trailer."""
    f = File(0, data)
    right = hashlib.sha1(data[:-20]).digest() == f.trailer()
    return [f"checksum {f.trailer().hex()} {'right' if right else refusal(62, 0, 0)}"]


def told(rule, *inputs):
    """The lines that a rule gives, or its refusal."""
    try:
        return rule(*inputs)
    except Refused as e:
        return [refusal(*e.args)]


def single(data):
    """The lines for the chain of an input as one file."""
    size = number(data, 0)
    named, chain = data[4 : 4 + size], data[4 + size :]
    return told(traversed, named, chain) + told(trailed, chain)


def printed(data):
    """The lines for an input."""
    size = number(data, 0)
    if len(data) < 4 or size > 12288 or len(data) < 4 + size or len(data) - 4 - size > 49152:
        return ["unreadable"]
    try:
        generations, counts = verified(data[4 : 4 + size], data[4 + size :])
    except Refused as e:
        return [refusal(*e.args)]
    highest = max(generations, default=1)
    table = [counts.count(n) for n in range(65)]
    table.append(len(counts) - sum(table))
    lines = [f"parents {'more' if n == 65 else n} {c}" for n, c in enumerate(table) if c]
    return [f"accepted {len(counts)} {'cyclic' if highest == CAP else highest - 1}", *lines]


# Questions, with the answer that is meant.


def replay(data):
    """Asks for an input; where its list has at most two records, also for the chain as one file."""
    lines = printed(data)
    if lines == ["unreadable"] or number(data, 0) > 64:
        ask(b"v", data, *lines)
    else:
        ask(b"t", data, *lines, *single(data))


def case(data, *lines):
    assert printed(data) == list(lines), (printed(data), lines)
    replay(data)


def whole(files, named=None):
    """The input for these files, which are named by their trailers if no list is given."""
    named = records(files) if named is None else named
    return be(4, len(named)) + named + b"".join(files)


def refused(files, *why, named=None):
    case(whole(files, named), refusal(*why))


def right_generations(parents):
    """The commits on the longest way from each commit to one without parents. Ways of more steps than there are commits go in a circle: the
    highest generation."""
    longest = [0] * len(parents)
    for _ in range(len(parents) + 1):
        longest = [1 + max((longest[p] for p in mine), default=0) for mine in parents]
    return [CAP if n > len(parents) else n for n in longest]


def accepted(c, files=None, named=None):
    """What is meant follows from the parents alone. The files are those of c, or others of the same commits."""
    parents = [[int(p) for p in c.walk(g)[:-1]] for g in range(c.n)]
    highest = max(right_generations(parents), default=1)
    keys = [min(len(p), 65) for p in parents]
    lines = [f"parents {'more' if n == 65 else n} {keys.count(n)}" for n in sorted(set(keys))]
    case(whole(files or sealed(c), named), f"accepted {c.n} {'cyclic' if highest == CAP else highest - 1}", *lines)


# Chains whose trailers and base ids are right.


@dataclass
class Own(Stored):
    """A file with ids for the fan to count that need not be its own, and chunks that no rule knows."""

    counted: list = None
    extra: dict = field(default_factory=dict)

    def parts(self):
        parts = super().parts()
        return self.extra | (parts if self.counted is None else parts | {b"OIDF": fan(self.counted)})


def history(*files, ids=None, **fields):
    """A chain of files, each a list of commits by their parents, which are positions. Ids are noise in order, if none are given, and stay counted
    in the fan if they are changed later. Generations are right, and times take all their bits."""
    rights = iter(right_generations([p for f in files for p in f]))
    stored = []
    for k, commits in enumerate(files):
        rows, words = [], []
        names = ids or sorted(noise(5000 + 1000 * k + i, 20) for i in range(len(commits)))
        for i, parents in enumerate(commits):
            first, second = parent_words(parents, words)
            rows.append(Row(names[i], noise(6000 + i, 20), next(rights), (3 - i % 4) * 2**32 + i, first, second))
        stored.append(Own(rows, b"".join(be(4, w) for w in words) or None, counted=names[: len(rows)], **fields))
    return Chain(*stored)


def turned(data, at, bits=1):
    """The same bytes with some bits of one turned."""
    return data[:at] + bytes([data[at] ^ bits]) + data[at + 1 :]


def sealed(c, bases={}, trailers={}):
    """The files of a chain, with the trailers before each in its BASE. To spoil them: other base ids of a file in `bases`, and bytes of a trailer
    to be turned in `trailers`. Later files name such a trailer as it is."""
    done = []
    for k, s in enumerate(c.stored):
        data = replace(s, bases=tuple(bases.get(k, [f[-20:] for f in done]))).data()
        done.append(turned(data, len(data) - 20 + trailers[k]) if k in trailers else data)
    return done


def mended(files):
    """The same files with base ids and trailers made right, first to last. BASE is the last chunk of each."""
    done = []
    for k, data in enumerate(files):
        data = data[: len(data) - 20 - 20 * k] + b"".join(f[-20:] for f in done)
        done.append(data + hashlib.sha1(data).digest())
    return done


def in_list(files, **others):
    """The list that names files by their trailers, but for some, as k0, k1 ..: the kind, and a claim."""
    return b"".join(record(len(data), *others.get(f"k{k}", (1, data[-20:]))) for k, data in enumerate(files))


# Small chains: one file, and two. A parent stands before its child or after it. In the second chain file 1 starts at position 3.
ONE = history([[1], [], [0, 1], [2, 1, 0]])
BOTH = history([[1], [], [0, 1]], [[4, 2], [0], [3, 2, 1, 0], []])
FILE = history([[]])  # one commit


# Accepted chains.


def by_git_accepted():
    """git's own chains of 1, 2, 3 and 8 files, which git verifies, and one of them by a name that claims nothing. The parents that the answer
    follows from are those of git's rev-list, as by_git has compared."""
    one = [[commit for commits in THREE for commit in commits]]
    for commits in one, TWO, THREE, EIGHT:
        c = by_git(commits)
        assert sealed(c) == c.files
        accepted(c)
    c = by_git(TWO)
    accepted(c, named=in_list(c.files, k0=(0,)))


def few_commits():
    """No commits at all, in one file and in several; one commit; and files without commits between others."""
    assert len(sealed(Chain(EMPTY))[0]) == 1100
    for c in Chain(EMPTY), Chain(EMPTY, EMPTY, EMPTY), FILE, Chain(EMPTY, *FILE.stored), history([[1], []], [], [[0], [2, 1]]):
        accepted(c)
    accepted(Chain(EMPTY), named=plain(1100))


def shapes():
    """Linear histories, up and down the positions; the same parent twice; parents in every other file; roots alone."""
    accepted(history([[]] + [[g] for g in range(49)]))
    accepted(history([[g + 1] for g in range(4)] + [[]], [[g + 1] for g in range(5, 8)] + [[0]]))
    accepted(history([[], [0, 0], [1, 1, 1], [2, 1, 2, 1]]))
    accepted(history([[]], [[0]], [[1, 0]], [[2, 1, 0], [3, 0, 1]]))
    accepted(history([[]] * 5))
    # the last position of the own file is still below its end, as first, second and EDGE word
    for parents in [1], [1, 1], [1, 1, 1]:
        accepted(history([parents, []]))
    for parents in [4], [0, 1, 4]:
        accepted(history([[], []], [[], parents, []]))


def circles():
    """Commits among their own ancestors: no length. They lie in one file, since no parent lies in a later one."""
    for parents in [0], [0, 0], [0, 0, 0]:
        accepted(history([parents]))
    accepted(history([[1], [0]]))
    accepted(history([[1], [2], [0], [], [3]]))
    # in the first, the middle and the last of the files, with children in later files and commits apart
    accepted(history([[1], [0]], [[1], []]))
    accepted(history([[], [0]], [[3, 0], [2, 1], [3]], [[4], [1]]))
    accepted(history([[], [0]], [[1], [2, 4, 1], [3, 0]]))
    # through EDGE
    accepted(history([[], [0, 0, 2], [0, 0, 0, 1]]))


def octopuses():
    """The keys at their ends: 0, 1, 2, 3, 63, 64, 65, 66 and 200 parents, alone and together, from the own file and from another."""
    for n in 64, 65, 66:
        accepted(history([[], [0] * n]))
    accepted(history([[], [0], [1, 0], [0] * 64, [1] * 65, [2] * 66, [3] * 64, [0] * 200]))
    accepted(history([[]] * 66, [list(range(n)) for n in (1, 2, 3, 63, 64, 65, 66)]))


def lengths():
    """The message that SHA-1 is taken of has every length modulo 64, by a chunk that no rule knows. Some with a wrong trailer: 62."""
    for rest in range(64):
        roots = [[]] * (rest % 8 == 5)
        least = len(sealed(history(roots, extra={b"PADD": b""}))[0]) - 20
        c = history(roots, extra={b"PADD": noise(rest, (rest - least) % 64)})
        assert (len(sealed(c)[0]) - 20) % 64 == rest
        accepted(c)
        if rest in (0, 55, 56):
            refused(sealed(c, trailers={0: rest % 20}), 62)


def unusual():
    """What the format allows and git does not write."""
    parts = ONE.stored[0].parts()
    # the chunks in another order, a gap behind the index, an empty BASE, an EDGE chunk that is not used, or longer than what is used
    accepted(ONE, [file(dict(list(parts.items())[k] for k in (2, 0, 3, 1)))])
    accepted(ONE, [file(parts, gap=5)])
    accepted(ONE, [file(parts | {b"BASE": b""})])
    accepted(FILE.with_file(0, edge=b""))
    accepted(ONE.with_file(0, edge=ONE.stored[0].edge + noise(3, 7)))
    accepted(BOTH.with_file(0, extra={b"GDA2": noise(1, 9), b"GDO2": b""}).with_file(1, extra={b"BIDX": noise(2, 4)}))
    # an EDGE run that two commits share, or its end; and a second parent in EDGE that is the last
    c = history([[], [0], [0, 1, 1, 0], [1, 1, 1, 0], [0, 1, 0]])
    assert [c.stored[0].rows[i].second - EDGE for i in (2, 3, 4)] == [0, 3, 6]
    accepted(c.but(0, 3, second=EDGE))
    accepted(c.but(0, 3, second=EDGE + 1))
    accepted(c.but(0, 4, second=EDGE + 4))
    accepted(c.but(0, 4, second=EDGE + 2, generation=2))
    # times and trees with few bits, and ids at both ends
    for tree in bytes(19) + b"\1", b"\x80" + bytes(19):
        accepted(FILE.but(0, 0, tree=tree))
    for time in 0, 2**32 - 1, 2**34 - 1:
        accepted(FILE.but(0, 0, time=time))
    accepted(history([[], [0], [1]], ids=[bytes(19) + b"\1", bytes(19) + b"\2", b"\xff" * 20]))


def again():
    """Ids that two files store are two commits. Ids of a later file may be lower: order is asked for in one file alone."""
    ids = sorted(noise(k, 20) for k in range(4))
    accepted(history([[], [0]], [[1], [2], [0, 1, 2]], ids=ids))
    low, high = (history([[]], ids=[bytes([k, *noise(k, 19)])]).stored[0] for k in (1, 200))
    accepted(Chain(high, low, high))


def names():
    """Names that claim nothing and names that claim the trailer; and 63: kind 2, and claims that are wrong."""
    c = Chain(*FILE.stored, EMPTY)
    files = sealed(c)
    for k in 0, 1:
        name = f"k{k}"
        accepted(c, named=in_list(files, **{name: (0,)}))
        refused(files, 63, k, named=in_list(files, **{name: ((2,), (1, files[0][-20:]))[k]}))
    one = sealed(FILE)
    for claim in bytes(20), turned(one[0][-20:], 0, 128), turned(one[0][-20:], 19):
        refused(one, 63, named=in_list(one, k0=(1, claim)))
    three = sealed(Chain(EMPTY, EMPTY, EMPTY))
    refused(three, 63, 2, named=in_list(three, k2=(2,)))
    # a trailer that starts or ends with a zero byte
    for at in 0, 19:
        c = next(c for c in (history([], extra={b"PADD": be(4, n)}) for n in range(10**5)) if sealed(c)[0][-20:][at] == 0)
        accepted(c)


# What can be read, and the list.


def unreadable():
    files = sealed(FILE)
    data = whole(files)
    for short in b"", b"\0", bytes(3), data[:4], data[:5], data[:35], be(4, 1), be(4, 33) + data[4:36]:
        case(short, "unreadable")
    for size in 2**24 + 32, 2**31 + 32, 2**32 - 1, 12289:
        case(be(4, size) + data[4:36], "unreadable")
    case(be(4, 12289) + bytes(12289), "unreadable")
    # 384 records are 30, and so is a list of no whole records
    case(be(4, 12288) + bytes(12288), refusal(30))
    for size in 0, 1, 16, 31, 33, 48, 63, 1000:
        case(be(4, size) + bytes(size), refusal(30))
    # as many files as there is room for, to the last byte, and one byte more
    c = Chain(*[EMPTY] * 33, *history([[], [0]], extra={b"PADD": bytes(12)}).stored)
    assert sum(map(len, sealed(c))) == 49152
    accepted(c)
    case(whole(sealed(c)) + b"\0", "unreadable")


def lists():
    """30, 31 and 32, whatever else is wrong."""
    one, both = sealed(FILE), sealed(Chain(EMPTY, EMPTY))
    # no file is looked at
    for named in b"", record(0)[:31], record(0) + b"\0", record(0, 3) + bytes(31), record(0, 3) * 257:
        refused([], 30, named=named)
    refused(one, 30, named=b"")
    for kind in 3, 4, 255, 256, 257, 2**16, 2**24 + 1, 2**31, 2**32 - 1:
        refused([], 31, 0, kind % 2, named=record(0) * (kind % 2) + record(1, kind) + record(0, 3))
    for at in range(20):
        for kind in 0, 2:
            claim = turned(bytes(20), at, 1 << at % 8)
            refused([], 31, 0, at % 3, named=record(0) * (at % 3) + record(7, kind, claim))
    for at in range(4):
        for kind in 0, 1, 2:
            refused([], 31, 0, at, named=record(0, 1) * at + record(0, kind, bytes(20), turned(bytes(4), at, 128 >> at)))
    refused(both, 31, 0, 1, named=in_list(both, k1=(0, both[1][-20:])))
    # 32: also where the lengths add up modulo 2^32
    size = len(one[0])
    for files, sizes in ([], (1,)), ([b"\0"], (0,)), (one, (size - 1,)), (one, (size + 1,)), ([b"CG"], (2, 1)):
        refused(files, 32, named=plain(*sizes))
    for sizes in (2**31, 2**31), (2**32 - 1, 1), (2**30,) * 4, (1, 2**32 - 1, 0), (2**32 - 1,) * 5:
        refused([], 32, named=plain(*sizes))
    refused(one, 32, named=plain(size, 2**31, 2**31))
    # lengths that add up and name other parts; 256 records
    refused([], 2, named=record(0))
    refused(one, 2, 1, named=records(one) + record(0) * 255)
    refused(one, 2, named=plain(1099, size - 1099))
    refused(one, 2, 1, named=plain(size, 0))
    one, two = map(len, both)
    refused(both, 18, named=plain(one + 1, two - 1))
    refused(both, 2, 2, named=plain(one, two, 0))


# Opening.


def openings(k):
    """File k, spoiled in each way that opening meets: the bytes, the number and the place. It has an EDGE chunk and k base ids. File 2 has a later
    rule broken besides, where that can be."""
    parts = history([[0, 0, 0]]).stored[0].parts() | ({b"BASE": noise(k, 20 * k)} if k else {})
    n, at, size = len(parts), offsets(parts), len(file(parts, k))
    fallen = with_words(parts, b"OIDF", {4 * (0, 127, 254)[k]: 3})

    def spoiled(chunks={}, besides={}, **how):
        return file(parts | chunks, k, **(besides | how if k == 2 else how))

    def head(*heads, **besides):
        return spoiled(head=heads[k], besides=besides)

    def sized(chunk, *sizes, **besides):
        return spoiled({chunk: bytes(sizes[k])}, besides)

    def renamed(*entries):
        return {"ids": {e: b"none" for e in entries}}

    zero, twice = ((0, 1), (2, 3), (n - 1, 2))[k]
    return [
        (spoiled(head=b"cgph\1\1")[:1099], 2, 0),
        (head(b"CGPh\1\1", b"CGPI\1\1", b"\0GPH\2\1"), 3, 0),
        (head(b"CGPH\0\1", b"CGPH\2\1", b"CGPH\xff\2"), 4, 0),
        (head(b"CGPH\1\2", b"CGPH\1\0", b"CGPH\1\x81", count=255), 5, 0),
        (spoiled(count=255 - k, besides={"ids": {0: ZERO}}), 6, 0),
        (spoiled(ids={zero: ZERO}, besides={"at": {zero + 1: 2**63}}), 7, zero),
        (spoiled(ids={n: b"\0\0\0\1"}), 7, n),
        (spoiled(ids={twice: b"OIDF"}, besides={"at": {twice + 1: 2**63}}), 8, twice),
        (spoiled(at={0: at[0] - 1}, besides={"ids": {1: ZERO}}), 9, 0),
        (spoiled(at={n: (size + 1, 2**32 + at[n], at[n - 1] - 1)[k]}, besides={"ids": {n: b"LAST"}}), 9, n - 1),
        (sized(b"BASE", 1, 41, 19), 10, 0),
        (sized(b"BASE", 20, 40, 20, **renamed(2)), 11, 0),
        (spoiled(ids={2: b"cdat"} | ({0: b"none"} if k == 2 else {})), 12, 0),
        (sized(b"CDAT", 35, 37, 1, **renamed(0)), 13, 0),
        (spoiled(ids={0: b"OIDf"} | ({1: b"none"} if k == 2 else {})), 14, 0),
        (sized(b"OIDF", 1020, 1028, 1023, **renamed(1)), 15, 0),
        (spoiled(ids={1: b"OIDM"}, besides={"tail": 19}), 16, 0),
        (sized(b"OIDL", 19, 21, 1, tail=21), 17, 0),
        (file(without(parts, b"BASE") if k == 2 else parts, k, tail=(19, 21, 0)[k]), 18, 0),
        (file(without(fallen if k == 2 else parts, b"BASE"), k + 1), 19, 0),
        (file(fallen | ({b"OIDL": b""} if k == 2 else {}), k), 20, (1, 128, 255)[k]),
        (spoiled({b"OIDL": bytes((0, 40, 60)[k])} | ({b"CDAT": b""} if k == 2 else {})), 21, 0),
        (sized(b"CDAT", 0, 72, 108), 22, 0),
    ]


def opened():
    """The first, the middle and the last file refused at opening: before a later file is met, and before verification meets an earlier one."""
    for spoiled, number, place in openings(0):
        refused([spoiled, b""], number, 0, place)
    empty = sealed(Chain(EMPTY))
    for spoiled, number, place in openings(1):
        refused([*empty, spoiled, b""], number, 1, place)
    wrong = sealed(Chain(EMPTY), trailers={0: 7})
    refused(wrong, 62)
    for spoiled, number, place in openings(2):
        refused([*wrong, spoiled], number, 1, place)
    spoiled, number, place = openings(2)[-3]
    refused([*sealed(Chain(EMPTY, EMPTY)), spoiled], number, 2, place)


def opened_in_order():
    """Of two files that opening refuses the first answers; 31 and 32 come before both. What verification meets comes after all."""
    spoiled = {number: (data, place) for data, number, place in openings(0)}
    refused([spoiled[22][0], spoiled[3][0]], 22)
    data = spoiled[3][0]
    refused([data], 31, 0, 1, named=records([data]) + record(0, 3))
    refused([data], 32, named=records([data]) + record(1))
    for first in sealed(FILE.but(0, 0, generation=2)), sealed(FILE, bases={0: [bytes(20)]}):
        refused([*first, data], 3, 1)
    files = [*sealed(FILE), data]
    refused(files, 3, 1, named=in_list(files, k0=(2,), k1=(2,)))


# Files and names.


def base_counts():
    """60: a count of bases that is not the file's index."""
    c = Chain(*FILE.stored, EMPTY, EMPTY)
    files = sealed(c)
    t = [f[-20:] for f in files]
    refused(sealed(FILE, bases={0: [bytes(20)]}), 60)
    for k, bases in (1, []), (1, t[:2]), (2, t[:1]):
        refused(sealed(Chain(*c.stored[: k + 1]), bases={k: bases}), 60, k)
    # a file of a chain's end alone, and others in another order
    refused(files[1:2], 60)
    refused([files[1], files[0]], 60)
    refused([files[0], files[2]], 60, 1)


def base_ids():
    """61: the first base id that is not the trailer of its file."""
    c = Chain(*FILE.stored, EMPTY, EMPTY, EMPTY)
    t = [f[-20:] for f in sealed(c)]
    for k, bases, place in (
        (1, [turned(t[0], 0, 128)], 0),
        (1, [turned(t[0], 19)], 0),
        (2, [t[1], t[0]], 0),
        (2, [t[0], turned(t[1], 19)], 1),
        (3, [t[0], t[1], t[1]], 2),
    ):
        refused(sealed(Chain(*c.stored[: k + 1]), bases={k: bases}), 61, k, place)
    # a file changed, with its trailer right and the later file as it was
    changed = sealed(c.but(0, 0, time=77))
    refused([changed[0], sealed(c)[1]], 61, 1)


def trailers():
    """62: a trailer that is not the SHA-1, or a byte before it that was changed, where no other rule is broken."""
    one = sealed(FILE)[0]
    for at in 0, 7, 16, 19:
        refused(sealed(FILE, trailers={0: at}), 62)
    three = Chain(EMPTY, EMPTY, *FILE.stored)
    for k in 1, 2:
        refused(sealed(Chain(*three.stored[: k + 1]), trailers={k: 9 * k}), 62, k)
    for other in bytes(20), one[-40:-20], hashlib.sha1(one[:-20] + bytes(20)).digest(), hashlib.sha1(one[:-21]).digest():
        refused([one[:-20] + other], 62)
    for at in len(one) - 21, len(one) - 56:  # the time, the tree
        refused([turned(one, at)], 62)


def file_order():
    """60, 61, 62, 63 and then the commits; file by file."""
    c = Chain(*FILE.stored, *history([], [[]]).stored[1:])
    zero, t = c.but(1, 0, id=bytes(20)), sealed(c)[0][-20:]
    both = {1: [bytes(20), bytes(20)]}
    for files, *why in (
        (sealed(zero, both, {1: 2}), 60, 1),
        (sealed(zero, {1: [bytes(20)]}, {1: 2}), 61, 1),
        (sealed(zero, {}, {1: 2}), 62, 1),
        (sealed(zero), 63, 1),
    ):
        refused(files, *why, named=in_list(files, k1=(2,)))
    refused(sealed(zero, {1: [turned(t, 9)]}), 61, 1)
    refused(sealed(zero), 64, 1)
    # the later file has a rule broken that is tried before
    wrong = c.but(0, 0, generation=2)
    refused(sealed(wrong, both, {1: 2}), 69)
    refused(sealed(wrong.but(1, 0, id=bytes(20))), 69)
    refused(sealed(c, {1: [t]}, {0: 2}), 62)
    files = sealed(c, both, {1: 2})
    refused(files, 63, named=in_list(files, k0=(2,)))
    three = Chain(*zero.stored, EMPTY)
    refused(sealed(three, {2: []}), 64, 1)
    refused(sealed(FILE.but(0, 0, tree=bytes(20)), {0: [t]}), 60)


# Commits by their own fields.


def ids():
    """64 and 65: ids of zeros, and ids that do not rise. The fan is kept, so that it is not met before."""
    for c, k, i in (ONE, 0, 0), (ONE, 0, 3), (BOTH, 1, 0), (BOTH, 1, 3):
        refused(sealed(c.but(k, i, id=bytes(20))), 64, k, i)
    refused(sealed(history([[], []], ids=[bytes(20), bytes(20)])), 64)
    for c, k, i in (ONE, 0, 1), (ONE, 0, 2), (BOTH, 1, 1), (BOTH, 1, 2):
        before = c.stored[k].rows[i - 1].id
        refused(sealed(c.but(k, i, id=be(20, int.from_bytes(before, "big") - i % 2))), 65, k, i)
    # neighbours in one bucket that differ in one byte
    x = noise(3, 20)
    for at in 1, 10, 19:
        pair = sorted([x, turned(x, at)])
        accepted(history([[], []], ids=pair))
        refused(sealed(history([[], []], ids=pair[::-1])), 65, 0, 1)
    refused(sealed(history([[], [], []], ids=[bytes(19) + b"\1", x, x])), 65, 0, 2)
    # a higher first byte with lower bytes behind it, and the other way round
    low, high = b"\x10" + b"\xff" * 19, b"\x11" + bytes(19)
    accepted(history([[], []], ids=[low, high]))
    refused(sealed(history([[], []], ids=[high, low]).with_file(0, counted=[high, high])), 65, 0, 1)


def named_by(*firsts):
    """Ids with these first bytes."""
    return [bytes([b, k]) + noise(b, 18) for k, b in enumerate(firsts)]


def buckets():
    """66: a commit outside the bucket of its id, below it or above."""
    for own, counted, place in (
        ([16], [15], 0),
        ([16], [17], 0),
        ([0], [1], 0),
        ([255], [254], 0),
        ([9, 9, 9], [9, 9, 10], 2),
        ([9, 9, 9], [8, 9, 9], 0),
        ([7, 9, 9], [7, 8, 9], 1),
        ([7, 8, 9], [7, 8, 8], 2),
        ([7, 8, 9], [7, 7, 9], 1),
        ([7, 8, 9], [8, 8, 9], 0),
        ([0, 0, 255, 255], [0, 0, 0, 255], 2),
        ([0, 0, 255, 255], [0, 1, 254, 255], 1),
    ):
        c = history([[]] * len(own), ids=named_by(*own))
        refused(sealed(c.with_file(0, counted=named_by(*counted))), 66, 0, place)
    accepted(history([[]] * 4, ids=named_by(0, 0, 255, 255)))
    # in a later file, where places and positions differ
    c = history([[], []], [[], [], []], ids=named_by(20, 30, 40))
    for counted, place in ([20, 30, 50], 2), ([20, 20, 40], 1):
        refused(sealed(c.with_file(1, counted=named_by(*counted))), 66, 1, place)


def swapped():
    """Ids of neighbours the wrong way round: 66 at the earlier if the fan counts them, 65 at the later if the fan follows the first."""
    for c, k, i in (ONE, 0, 0), (ONE, 0, 2), (BOTH, 1, 1):
        mine = [r.id for r in c.stored[k].rows]
        assert mine[i][0] < mine[i + 1][0]
        c = c.but(k, i, id=mine[i + 1]).but(k, i + 1, id=mine[i])
        refused(sealed(c), 66, k, i)
        refused(sealed(c.with_file(k, counted=mine[:i] + [mine[i + 1]] * 2 + mine[i + 2 :])), 65, k, i + 1)


def trees():
    """67."""
    for c, k, i in (ONE, 0, 0), (ONE, 0, 3), (BOTH, 1, 0), (BOTH, 1, 2):
        refused(sealed(c.but(k, i, tree=bytes(20))), 67, k, i)


# Parents and generations.


def run(*words, tail=b""):
    """An EDGE chunk of these words."""
    return b"".join(be(4, w) for w in words) + tail


def walks():
    """50 to 54."""
    for first, second, number in (NONE, 0, 50), (NONE, NONE + 1, 50), (EDGE, NONE, 51), (2**32 - 1, 0, 51):
        refused(sealed(ONE.but(0, 0, first=first, second=second)), number)
    refused(sealed(ONE.but(0, 3, first=NONE)), 50, 0, 3)
    refused(sealed(ONE.but(0, 3, first=EDGE)), 51, 0, 3)
    for i, first, number in (2, NONE, 50), (1, EDGE, 51):
        refused(sealed(BOTH.but(1, i, first=first, second=EDGE)), number, 1, i)
    # 52: no EDGE chunk, whatever the other file has
    refused(sealed(BOTH.but(0, 2, second=EDGE)), 52, 0, 2)
    refused(sealed(BOTH.with_file(1, edge=None).with_file(0, edge=BOTH.stored[1].edge)), 52, 1, 2)
    refused(sealed(ONE.with_file(0, edge=None)), 52, 0, 3)
    refused(sealed(FILE.but(0, 0, first=0, second=2**32 - 1)), 52)
    # 53 and 54: EDGE that ends too early, or that is met behind its end; the last bit that never comes
    edge = ONE.stored[0].edge
    for other, number in (edge[:-4], 53), (b"", 53), (edge[:-1], 54), (edge[:-2], 54), (edge[:-3], 54), (edge[:1], 54), (run(*[0] * 9), 53):
        refused(sealed(ONE.with_file(0, edge=other)), number, 0, 3)
    for index in len(edge) // 4, 2**30, 2**31 - 1:  # fourfold, the second is 0 modulo 2^32
        refused(sealed(ONE.but(0, 3, second=EDGE + index)), 53, 0, 3)
    edge = BOTH.stored[1].edge
    for other, number in (edge[:-4], 53), (edge[:-1], 54), (run(*[1] * 9, tail=bytes(2)), 54):
        refused(sealed(BOTH.with_file(1, edge=other)), number, 1, 2)
    two = history([[], [0]])
    for size, index, number in (8, 2, 53), (6, 1, 54), (6, 2, 53), (0, 0, 53), (3, 0, 54):
        refused(sealed(two.but(0, 1, second=EDGE + index).with_file(0, edge=bytes(size))), number, 0, 1)


def limits():
    """68: the first position behind the own file, as first word, second, and in EDGE; positions far behind; and none among EDGE words."""
    c = history([[], [0]], [[1], [2]], [[3]])
    refused(sealed(c.but(2, 0, first=5)), 68, 2)
    one, two = (Chain(*c.stored[:n]) for n in (1, 2))
    for c, k, i, end in (one, 0, 1, 2), (two, 1, 1, 4):
        refused(sealed(c.but(k, i, first=end)), 68, k, i)
        refused(sealed(c.but(k, i, first=0, second=end)), 68, k, i)
        for words in [end, LAST], [0, LAST + end]:
            refused(sealed(c.but(k, i, first=0, second=EDGE).with_file(k, edge=run(*words))), 68, k, i)
        # one lower is inside, so what is met is the generation
        refused(sealed(c.but(k, i, first=end - 1)), 69, k, i)
        refused(sealed(c.but(k, i, first=0, second=end - 1, generation=9)), 69, k, i)
    # in the later file, at its end, and far behind
    for i, p in (0, 2), (1, 3):
        refused(sealed(two.but(0, i, first=p)), 68, 0, i)
    for far in NONE - 1, NONE + 1, EDGE - 1:
        refused(sealed(ONE.but(0, 2, first=far)), 68, 0, 2)
        refused(sealed(ONE.but(0, 2, second=far)), 68, 0, 2)
    for words in [NONE, LAST], [0, LAST + NONE], [EDGE - 1, LAST]:
        refused(sealed(ONE.with_file(0, edge=run(*words))), 68, 0, 3)
    # a file with no commits adds none
    refused(sealed(Chain(EMPTY, *FILE.stored, EMPTY).but(1, 0, first=1)), 68, 1)
    refused(sealed(FILE.but(0, 0, first=1, generation=2)), 68)


def generations():
    """69: a generation that is wrong by one and by more. Where an earlier commit has the changed one as a parent, it meets that."""
    for c, k, i in (ONE, 0, 0), (ONE, 0, 3), (BOTH, 1, 2):
        right = c.stored[k].rows[i].generation
        for wrong in [right - 1, right + 1, 0, right + 2**28, CAP][: 2 if k else 5]:
            refused(sealed(c.but(k, i, generation=wrong)), 69, k, i)
    refused(sealed(ONE.but(0, 1, generation=2)), 69, 0, 0)
    refused(sealed(BOTH.but(1, 1, generation=4)), 69, 1, 0)
    refused(sealed(BOTH.but(1, 3, generation=0)), 69, 1, 3)
    # the highest parent counts, wherever it stands
    for parents in [2, 0, 1], [0, 2, 1], [0, 1, 2], [0, 2], [2, 0]:
        accepted(history([[], [0], [1], parents]))
    # a file position for a graph position would give 2 here, or 3
    c = history([[], [0], [1]], [[], [2], [4, 3]])
    refused(sealed(c.but(1, 1, generation=2)), 69, 1, 1)
    refused(sealed(c.but(1, 2, generation=3)), 69, 1, 2)


def at_the_cap():
    """A commit that is its own parent, with every other generation: 69. And generations next to the highest: one more, but not above it."""
    for wrong in 0, 1, 2, CAP - 1:
        refused(sealed(history([[0]]).but(0, 0, generation=wrong)), 69)
    refused(sealed(history([[], [1]]).but(0, 1, generation=2)), 69, 0, 1)
    refused(sealed(history([[]], [[1]]).but(1, 0, generation=3)), 69, 1)
    # where commit 0 is right by its parent, commit 1 is met
    c = history([[1], []])
    for child, parent, place in (
        (CAP, CAP - 1, 1),
        (CAP, CAP, 1),
        (CAP - 1, CAP - 1, 0),
        (CAP - 1, CAP, 0),
        (CAP, CAP - 2, 0),
        (0, CAP, 0),
    ):
        refused(sealed(c.but(0, 0, generation=child).but(0, 1, generation=parent)), 69, 0, place)
    # a circle whose generations rise, and one that is right but for one commit
    circle = history([[1], [2], [0]])
    refused(sealed(circle.but(0, 0, generation=3).but(0, 1, generation=2).but(0, 2, generation=1)), 69, 0, 2)
    for i in 0, 1, 2:
        refused(sealed(circle.but(0, i, generation=CAP - 1)), 69, 0, i)
    # a commit apart from the circle
    refused(sealed(history([[0]], [[0], []]).but(1, 1, generation=CAP)), 69, 1, 1)


def commit_order():
    """64, 65, 66, 67, then the parents as met, then 69. A commit's rules come before those of the next."""
    zero, x = bytes(20), [r.id for r in ONE.stored[0].rows]
    apart = ONE.with_file(0, counted=[*x[:2], turned(x[2], 0), x[3]])  # the fan puts commit 2 into the bucket next to its own
    worst = dict(tree=zero, first=NONE, second=0, generation=9)
    for c, fields, number in (
        (apart, dict(worst, id=zero), 64),
        (apart, dict(worst, id=x[1]), 65),
        (apart, worst, 66),
        (ONE, worst, 67),
        (ONE, dict(tree=zero, first=99), 67),
        (ONE, dict(tree=zero, generation=9), 67),
        (apart, dict(tree=zero), 66),
        (apart, dict(generation=9), 66),
        (ONE, dict(first=NONE, second=99, generation=9), 50),
        (ONE, dict(first=EDGE, second=99, generation=9), 51),
        (ONE, dict(first=0, second=99, generation=9), 68),
        (ONE, dict(first=99, second=EDGE + 9, generation=9), 68),
        (ONE, dict(first=0, second=EDGE + 9, generation=9), 53),
        (ONE, dict(first=0, second=EDGE + 1, generation=9), 69),
    ):
        refused(sealed(c.but(0, 2, **fields)), number, 0, 2)
    # no EDGE chunk: 50 and 51 come before 52, and so does 68 at the first parent
    bare = history([[1], []])
    for first, number in (NONE, 50), (EDGE, 51), (2, 68), (1, 52):
        refused(sealed(bare.but(0, 0, first=first, second=EDGE, generation=9)), number)
    # EDGE: a position that is too high before the end that is missing, and behind the last
    for words, tail, number in ([9], b"", 68), ([0, 9], b"\0", 68), ([0, 1], b"", 53), ([0, 1], b"\0", 54), ([0, LAST + 1, 9], b"", 69):
        refused(sealed(ONE.with_file(0, edge=run(*words, tail=tail)).but(0, 3, generation=9)), number, 0, 3)
    # the earlier commit answers, by the latest rule against the earliest
    late = ONE.but(0, 1, generation=9).but(0, 0, generation=10)
    for c, *why in (
        (late.but(0, 2, id=zero), 69, 0, 1),
        (late.but(0, 1, first=4).but(0, 2, id=zero), 68, 0, 1),
        (ONE.but(0, 1, first=EDGE).but(0, 3, id=zero), 51, 0, 1),
        (ONE.but(0, 0, tree=zero).but(0, 1, id=x[0]), 67, 0, 0),
        (ONE.but(0, 1, id=x[0]).but(0, 2, id=zero), 65, 0, 1),
        (ONE.but(0, 2, generation=1).but(0, 3, generation=1), 69, 0, 2),
        (ONE.but(0, 1, tree=zero).but(0, 0, generation=3), 69, 0, 0),
        (BOTH.but(0, 2, generation=9).but(1, 0, id=zero), 69, 0, 2),
        (BOTH.but(0, 2, second=3).but(1, 0, id=zero), 68, 0, 2),
        (BOTH.but(1, 3, id=zero).but(1, 2, generation=9), 69, 1, 2),
    ):
        refused(sealed(c), *why)


# Single bytes.


def single_bytes():
    """A chain of two files with some bits of one byte turned, and base ids and trailers made right again. What must be printed is what the
    rules say. Then a byte of BASE and bytes of the trailers themselves."""
    files = sealed(history([[], [0]], [[3, 1, 0], [1]]))
    for k, data in enumerate(files):
        fans = 8 + 12 * (4, 6)[k]
        ids = fans + 1024
        entries = ids + 40
        end = len(data) - 20 - 20 * k
        places = [6, 19, fans + 4 * data[ids] + 3, ids, entries + 23, entries + 27, entries + 31]
        places += [ids + 20, entries + 20, entries + 36 + 27, end - 8, end - 4, end - 1][: 6 * k]
        for j, at in enumerate(places):
            bits = noise(777 + 100 * k + j, 1)[0] | 1
            asked = whole(mended([*files[:k], turned(data, at, bits if j % 2 else 1), *files[k + 1 :]]))
            replay(asked)
    one, two = files
    refused([one, turned(two, len(two) - 25)], 61, 1)
    refused([one, turned(two, len(two) - 5)], 62, 1)
    refused([turned(one, len(one) - 5), two], 62)


# The rows of docs/DIFFERENCES.md that an input of the program can show, each by its smallest one.


def differences():
    empty, none = EMPTY.data(), file({b"OIDF": bytes(1024), b"OIDL": b"", b"CDAT": b""})
    assert empty == none and len(none) == 1100
    own = history([[0]])
    accepted(own)  # rows 1, 9a and 9c: most parents, counts of 0, no length
    refused([none], 63, named=record(1100, 2))  # row 2: the kind of a name such as graph-\xff.graph
    refused([file({**EMPTY.parts(), b"OIDF": be(4, 1) + bytes(1020)})], 20, 0, 1)  # row 3
    low = history([[]], ids=[b"\1" + bytes(19)])
    refused([file({**low.stored[0].parts(), b"OIDF": be(4, 1) * 256})], 66)  # row 4, and row 9b: no counts follow
    refused(sealed(own.with_file(0, edge=b"\0").but(0, 0, second=EDGE)), 54)  # row 5
    refused([], 30, named=record(0) * 257)  # row 7: 257 records
    more = history([[0] * 65])
    accepted(more)  # row 9
    for named, number in (b"", 30), (record(0, 3), 31), (record(1), 32):
        refused([], number, named=named)  # row 10
    refused([file(EMPTY.parts(), head=b"CGPH\1\2")], 5)  # row 11
    refused([file(EMPTY.parts(), count=0)], 7, 0, 0)  # row 12: C = 0, and the last id is not 0
    refused([file(EMPTY.parts(), at={0: 55})], 9, 0, 0)  # row 12: an offset inside the index
    accepted(Chain(EMPTY), [file({b"XTRA": b"", **EMPTY.parts()})])  # row 12: equal offsets


def sampled():
    """A sample of what the Rust crate answers, as the comparison stored it. The rules must say the same."""
    records, lines = compared.stored()
    wanted, at = [], 0
    while at < len(records):
        size = number(records, at + 1)
        data = records[at + 5 : at + 5 + size]
        at += 5 + size
        wanted += printed(data)
        ask(b"v", data, *printed(data))
    assert wanted == lines.decode().splitlines()


def main():
    place = folder(__doc__)
    for cases in by_git_accepted, few_commits, shapes, circles, octopuses, lengths, unusual, again, names, unreadable, lists:
        cases()
    for cases in opened, opened_in_order, base_counts, base_ids, trailers, file_order:
        cases()
    for cases in ids, buckets, swapped, trees, walks, limits, generations, at_the_cap, commit_order, single_bytes, differences, sampled:
        cases()
    write(place)


if __name__ == "__main__":
    main()

#!/usr/bin/env python3
"""Cases for the program opens: `python3 tests/opens.py FOLDER` writes FOLDER/stdin, what it reads, and FOLDER/stdout, what it must print.

A well-formed file is built and one thing in it is spoiled. The answer stands next to each case, as document 01 has it: nothing of the
library is run here. Every run makes the same bytes. Numbers in the comments are those of the refusals, at the place where they apply."""
from made import LAST, NONE, ZERO, ask, be, fan, file, folder, noise, offsets, with_words, write


def opens(data, commits, bases=0):
    ask(b"f", data, f"open {commits} {bases}")


def refused(data, number, place=0):
    ask(b"f", data, f"refused {number} 0 {place}")


def name(text, kind):
    digits = text[6:46].decode().lower() if kind == 1 else "0" * 40
    ask(b"n", text, f"name {kind} {digits}")


# Building.


def chunks(n, bases=0, edge=0):
    """The chunks of a well-formed file, in git's order: n commits without parents, `edge` words in EDGE, `bases` ids in BASE."""
    ids = sorted(noise(k, 20) for k in range(n))
    parts = {
        b"OIDF": fan(ids),
        b"OIDL": b"".join(ids),
        b"CDAT": b"".join(noise(1000 + k, 20) + be(4, NONE) + be(4, NONE) + be(4, 1 << 2) + be(4, k) for k in range(n)),
    }
    if edge:
        parts[b"EDGE"] = be(4, 0) * (edge - 1) + be(4, LAST)
    if bases:
        parts[b"BASE"] = noise(2000, 20 * bases)
    return parts


def with_fan(parts, entries):
    """The same chunks with other numbers in some entries of the fan."""
    return with_words(parts, b"OIDF", {4 * k: n for k, n in entries.items()})


def insert(parts, k, chunk, body):
    """The same chunks with one more before entry k."""
    pairs = list(parts.items())
    return dict(pairs[:k] + [(chunk, body)] + pairs[k:])


# Two commits, and all five chunks: OIDF, OIDL, CDAT, EDGE and BASE are entries 0 to 4, and the last entry is 5. AT has the offsets.
FIVE = chunks(2, bases=1, edge=2)
AT = offsets(FIVE)
SIZE = len(file(FIVE, 1))
# The same without BASE, for B = 0, and the least file of all.
FOUR = chunks(2, edge=2)
EMPTY = chunks(0)
# As many chunks as there can be: 252 with unknown ids and no bytes.
FULL = chunks(1) | {be(4, k): b"" for k in range(1, 253)}


# The cases.


def well_formed():
    opens(file(EMPTY), 0)  # 1,100 bytes
    refused(file(EMPTY)[:-1], 2)  # 1,099 bytes
    opens(file(chunks(1)), 1)
    opens(file(chunks(3)), 3)
    opens(file(chunks(9)), 9)
    opens(file(FOUR), 2)
    opens(file(FIVE, 1), 2, 1)
    opens(file(chunks(0, bases=1), 1), 0, 1)
    opens(file(chunks(3, bases=2), 2), 3, 2)
    opens(file(chunks(1, bases=255), 255), 1, 255)
    # EDGE has any size
    for size in 0, 1, 4, 6:
        opens(file({**FOUR, b"EDGE": bytes(size)}), 2)
    # a BASE chunk of no bytes has B ids for B = 0
    opens(file({**FIVE, b"BASE": b""}), 2)
    # unknown ids are skipped, with bytes and without, and whatever they look like
    for k in 0, 2, 5:
        opens(file(insert(FIVE, k, b"GDA2", noise(k, 9)), 1), 2, 1)
    opens(file(insert(insert(FOUR, 0, b"\xff\xff\xff\xff", b""), 5, b"\0\0\0\1", b"")), 2)
    opens(file(insert(FOUR, 1, b"base", bytes(7))), 2)
    # ids that differ in one byte are not the same id
    opens(file(insert(insert(FOUR, 2, b"ABCD", b""), 3, b"ABCE", b"")), 2)
    opens(file(insert(insert(FOUR, 2, b"ABCD", b""), 3, b"BBCD", b"")), 2)
    # the chunks stand in any order
    for order in (4, 3, 2, 1, 0), (2, 0, 4, 1, 3), (1, 4, 2, 3, 0):
        opens(file(dict(list(FIVE.items())[k] for k in order), 1), 2, 1)
    # the first chunk need not start where the index ends
    opens(file(FIVE, 1, gap=7), 2, 1)
    # C = 255
    opens(file(FULL), 1)
    # opening does not look at the trailer, at ids or at commits
    opens(file(FIVE, 1)[:-20] + bytes(20), 2, 1)
    opens(file({**FIVE, b"OIDL": bytes(40), b"CDAT": noise(1, 72)}, 1), 2, 1)


def header():
    for head in b"BGPH\1\1", b"CXPH\1\1", b"CG\0H\1\1", b"CGPh\1\1":
        refused(file(FIVE, 1, head=head), 3)
    for version in 0, 2:
        refused(file(FIVE, 1, head=b"CGPH" + bytes([version, 1])), 4)
        refused(file(FIVE, 1, head=b"CGPH" + bytes([1, version])), 5)


def index_size():
    refused(file(FIVE, 1, count=255), 6)
    refused(file(EMPTY, count=91), 6)  # 1,112 bytes of header and index in 1,100
    refused(file(EMPTY, count=90), 9, 0)  # 1,100 in 1,100 fit, and the first offset lies inside
    head = b"CGPH\1\1\xff\0"
    refused(head + bytes(3071), 6)  # 3,079 bytes: one less than the index of C = 255 takes
    refused(head + bytes(3072), 7, 0)


def index_ids():
    # 7: id 0 before the last entry, or another at the last
    for k in 0, 2, 4:
        refused(file(FIVE, 1, ids={k: ZERO}), 7, k)
    for last in b"OIDF", b"\0\0\0\1", b"\1\0\0\0":
        refused(file(FIVE, 1, ids={5: last}), 7, 5)
    refused(file(FULL, ids={255: b"LAST"}), 7, 255)
    refused(file(FIVE, 1, count=4), 7, 4)  # BASE is the last entry then
    refused(file(FIVE, 1, count=6), 9, 0)  # the index ends at 92 then, and the first offset is 80
    refused(file(FIVE, 1, count=6, gap=12), 7, 5)  # and at 92 the id 0 of entry 5 is met
    # 8: an id of an earlier entry, the first, the one before or another
    for k, earlier in (1, 0), (2, 0), (3, 1), (4, 0), (4, 3):
        refused(file(FIVE, 1, ids={k: list(FIVE)[earlier]}), 8, k)
    refused(file(insert(insert(FOUR, 0, b"ABCD", b""), 1, b"WXYZ", b""), ids={1: b"ABCD"}), 8, 1)
    refused(file(insert(insert(FOUR, 1, b"ABCD", b""), 5, b"WXYZ", b""), ids={5: b"ABCD"}), 8, 5)
    refused(file(FULL, ids={254: b"OIDF"}), 8, 254)
    refused(file(FIVE, 1, ids={k: b"SAME" for k in range(5)}), 8, 1)


def no_chunks():
    """C = 0: one entry, whose offset is never judged."""
    for at in 1080, 0, 1101, 2**64 - 1:
        refused(file({}, at={0: at}, gap=1060), 12)
    refused(file({}, ids={0: b"CDAT"}, gap=1060), 7, 0)
    refused(file({}, ids={0: b"\0\0\0\1"}, at={0: 2**64 - 1}, gap=1060), 7, 0)
    refused(file({}, bases=1, gap=1060), 12)


def index_offsets():
    """9: an offset that is wrong is met at the entry before it, as the next one; only the first is met at its own."""
    for low in 0, 8, AT[0] - 1:
        refused(file(FIVE, 1, at={0: low}), 9, 0)
    # above the size, or above 32 bits with low bits that are right
    for k in 0, 2, 5:
        for wrong in SIZE + 1, 2**32 + AT[k], 2**64 - 1:
            refused(file(FIVE, 1, at={k: wrong}), 9, max(k - 1, 0))
    refused(file(FIVE, 1, at={k: 2**63 + AT[k] for k in range(6)}), 9, 0)
    # the next offset is smaller
    for k in range(1, 6):
        refused(file(FIVE, 1, at={k: AT[k - 1] - 1}), 9, k - 1)
    refused(file(FIVE, 1, at={3: 0}), 9, 2)
    refused(file(FIVE, 1, at={2: AT[4], 4: AT[2]}), 9, 2)
    # at the size itself an offset is allowed: then other rules are broken
    refused(file(FOUR, at={4: len(file(FOUR))}), 18)
    refused(file(FOUR, at={3: len(file(FOUR)), 4: len(file(FOUR))}), 13)


def bases():
    for b, size in (1, 19), (1, 21), (2, 30), (0, 1), (0, 39):
        refused(file({**FIVE, b"BASE": noise(b, size)}, b), 10)
    for b, size in (1, 0), (1, 40), (2, 20), (0, 20), (0, 40):
        refused(file({**FIVE, b"BASE": noise(b, size)}, b), 11)
    for b in 1, 255:
        refused(file(FOUR, b), 19)


def sizes():
    refused(file(FIVE, 1, ids={2: b"cdat"}), 12)
    for size in 1, 71, 73:
        refused(file({**FIVE, b"CDAT": bytes(size)}, 1), 13)
    refused(file(FIVE, 1, ids={0: b"OIDf"}), 14)
    for size in 1020, 1023, 1025, 1028:
        refused(file({**FIVE, b"OIDF": bytes(size)}, 1), 15)
    refused(file({**FIVE, b"OIDF": b""}, 1, gap=1024), 15)
    refused(file(FIVE, 1, ids={1: b"OIDM"}), 16)
    for size in 1, 39, 41:
        refused(file({**FIVE, b"OIDL": bytes(size)}, 1), 17)
    for tail in 0, 19, 21, 40:
        refused(file(FIVE, 1, tail=tail), 18)
    refused(file(FOUR, at={4: offsets(FOUR)[4] + 1}), 18)  # EDGE one byte longer, 19 left
    refused(file(FOUR, at={4: offsets(FOUR)[4] - 1}), 18)  # one shorter, 21 left


def fans():
    # one entry above N, which the entry after it falls below
    for k in 1, 128, 254, 255:
        refused(file(with_fan(FIVE, {k - 1: 3}), 1), 20, k)
    refused(file(with_fan(FIVE, {9: 3, 199: 3}), 1), 20, 10)
    refused(file(with_fan(FIVE, {254: 2**31, 255: 2**31 - 1}), 1), 20, 255)
    refused(file(with_fan(EMPTY, {0: 1})), 20, 1)
    # the first fall of a fan of noise
    numbers = [int.from_bytes(noise(k, 4), "big") for k in range(256)]
    refused(file(with_fan(FIVE, dict(enumerate(numbers))), 1), 20, min(k for k in range(1, 256) if numbers[k] < numbers[k - 1]))


def commits():
    # N of other sizes; with N = 2^30 + 2 the ids take 40 bytes modulo 2^32, and the entries 72
    for n in 3, 2**30 + 2, 2**32 - 1:
        refused(file(with_fan(FIVE, {255: n}), 1), 21)
    for n in 0, 1, 3:
        refused(file({**FIVE, b"OIDL": bytes(20 * n)}, 1), 21)
        refused(file({**FIVE, b"CDAT": bytes(36 * n)}, 1), 22)
    refused(file({**FIVE, b"OIDL": bytes(60), b"CDAT": bytes(108)}, 1), 21)
    refused(file({**EMPTY, b"OIDL": bytes(20)}), 21)
    refused(file({**EMPTY, b"CDAT": bytes(36)}), 22)


def two_faults():
    """The earlier row answers; in the index, the earlier entry."""
    refused(file(FIVE, 1, head=b"XGPH\1\1")[:1099], 2)  # and 3
    refused(file(FIVE, 1, head=b"XGPH\2\1"), 3)  # and 4
    refused(file(FIVE, 1, head=b"CGPH\2\2"), 4)  # and 5
    refused(file(FIVE, 1, head=b"CGPH\1\2", count=255), 5)  # and 6
    refused(file(FIVE, 1, count=255, ids={0: ZERO}), 6)  # and 7 at 0
    refused(file(FIVE, 1, ids={1: ZERO, 3: ZERO}), 7, 1)  # and 7 at 3
    refused(file(FIVE, 1, ids={2: ZERO}, at={3: 2**64 - 1}), 7, 2)  # and 9 at 2
    refused(file(FIVE, 1, ids={0: ZERO, 1: b"OIDF", 5: b"LAST"}, at={0: 0}), 7, 0)  # and 9 at 0, 7 at 5
    refused(file(FIVE, 1, ids={3: b"OIDL"}, at={4: 2**64 - 1}), 8, 3)  # and 9 at 3
    refused(file(FIVE, 1, ids={1: b"OIDF", 2: ZERO}), 8, 1)  # and 7 at 2
    refused(file(FIVE, 1, ids={4: b"OIDF", 5: b"LAST"}), 8, 4)  # and 7 at 5
    refused(file(FIVE, 1, ids={1: ZERO}, at={0: 0}), 9, 0)  # and 7 at 1
    refused(file(FIVE, 1, ids={3: b"OIDF"}, at={2: 2**40}), 9, 1)  # and 8 at 3
    refused(file(FIVE, 1, ids={5: b"LAST"}, at={5: 2**64 - 1}), 9, 4)  # and 7 at 5
    refused(file({**FIVE, b"BASE": bytes(19)}, 1, ids={5: b"LAST"}), 7, 5)  # and 10
    refused(file({**FIVE, b"BASE": bytes(30)}, 3, ids={2: b"cdat"}), 10)  # and 11, 12
    refused(file(FIVE, 2, ids={2: b"cdat"}), 11)  # and 12
    refused(file(FIVE, 0, ids={0: b"oidf"}), 11)  # and 14
    refused(file(FIVE, 1, ids={0: b"oidf", 1: b"oidl", 2: b"cdat"}, tail=0), 12)  # and 14, 16, 18
    refused(file({**FIVE, b"CDAT": bytes(71)}, 1, ids={0: b"oidf"}), 13)  # and 14
    refused(file(FIVE, 1, ids={0: b"oidf", 1: b"oidl"}), 14)  # and 16
    refused(file({**FIVE, b"OIDF": bytes(1028)}, 1, ids={1: b"oidl"}), 15)  # and 16
    refused(file(FIVE, 1, ids={1: b"oidl"}, tail=19), 16)  # and 18
    refused(file({**FIVE, b"OIDL": bytes(39)}, 1, tail=21), 17)  # and 18
    refused(file(FOUR, 1, tail=19), 18)  # and 19
    refused(file(with_fan(FOUR, {7: 3}), 1), 19)  # and 20 at 8
    refused(file(with_fan({**FIVE, b"OIDL": bytes(60)}, {7: 3}), 1), 20, 8)  # and 21
    refused(file({**FIVE, b"OIDL": bytes(60), b"CDAT": bytes(36)}, 1), 21)  # and 22


def any_bytes():
    for data in b"", b"C", b"CGPH", b"CGPH\1\1\0\0", bytes(1099):
        refused(data, 2)
    for data in bytes(1100), b"\xff" * 1100:
        refused(data, 3)
    for size in 1, 8, 500, 1099:
        refused(noise(size, size), 2)
    for size in 1100, 1101, 2000:
        refused(noise(size, size), 3)
    # a right header and zeros, or noise: its first offset has high bits
    refused(b"CGPH\1\1\3\0" + bytes(1092), 7, 0)
    refused(b"CGPH\1\1\0\0" + bytes(1092), 12)
    refused(b"CGPH\1\1\3\0" + noise(3, 1092), 9, 0)


def prefixes():
    """Every prefix of a file of 1,200 bytes, whose header and index are whole in each that is not too small."""
    parts = chunks(1, edge=8)
    data, at = file(parts), offsets(parts)
    lines = []
    for size in range(len(data) + 1):
        cut = [k for k in range(len(parts)) if size < at[k + 1]]
        if size < 1100:
            lines.append("refused 2 0 0")
        elif cut:
            lines.append(f"refused 9 0 {cut[0]}")  # the next offset is above the size
        elif size < len(data):
            lines.append("refused 18 0 0")
        else:
            lines.append("open 1 0")
    assert len(data) == 1200
    ask(b"c", data, *lines)


def names():
    digits = b"0123456789abcdef" * 4
    mixed = b"9A3f07bD" + digits[:32]
    for size in range(61):
        name(b"graph-" + digits[:size] + b".graph", 1 if size == 40 else 2)
    for middle in digits[:40].upper(), mixed, mixed.swapcase(), b"0" * 40, b"9" * 40, b"A" * 40, b"F" * 40, b"a" * 40, b"f" * 40:
        name(b"graph-" + middle + b".graph", 1)
    # no digit, next to the digits in ASCII and elsewhere, at each end and in the middle
    for wrong in b"g/:@`G- .\0\xff":
        for k in 0, 19, 20, 39:
            name(b"graph-" + digits[:k] + bytes([wrong]) + digits[k + 1 : 40] + b".graph", 2)
    for middle in b"\0" * 40, b"\xff" * 40, b"-" + digits[:40], digits[:40] + b".", b"graph-" + digits[:40], b"." * 40, noise(1, 500):
        name(b"graph-" + middle + b".graph", 2)
    name(b"graph-.graph.graph", 2)
    name(b"graph-graph-.graph", 2)


def other_names():
    digits = b"0123456789abcdef0123456789ABCDEF01234567"
    for start in b"", b"graph", b"graph_", b"graph.", b"Graph-", b"raph-", b"ggraph-", b"/graph-", b"\0graph-", b"commit-graph-":
        name(start + digits + b".graph", 0)
    for end in b"", b"graph", b"-graph", b"_graph", b".Graph", b".grap", b".graphh", b".graph\n", b".graph\0", b".graph.lock":
        name(b"graph-" + digits + end, 0)
    for text in b"", b"-", b"graph", b"graph-", b".graph", b"graph.graph", b"graph-graph", b"graph--graph", b"graphgraph", b"graph-.grap":
        name(text, 0)
    for text in b"commit-graph", b"commit-graph-chain", b".graph-.graph-", b".graph-", b"\0" * 12, b"\xff" * 52, digits, noise(2, 52):
        name(text, 0)


def main():
    place = folder(__doc__)
    for cases in well_formed, header, index_size, index_ids, no_chunks, index_offsets, bases, sizes, fans, commits, two_faults, any_bytes:
        cases()
    for cases in prefixes, names, other_names:
        cases()
    write(place)


main()

#!/usr/bin/env python3
"""The case of the program chaincheck: `python3 tests/chaincheck.py FOLDER` writes FOLDER/stdin, what it reads, and FOLDER/stdout, what it must print.

A root, its child, and a merge of both, in a chain of one file that its list names by its hash. What must be printed is document 01's text."""
from made import NONE, answers, be, fan, file, folder, noise, requests, write

# The first and the second parent word and the generation of each commit.
COMMITS = (NONE, NONE, 1), (0, NONE, 2), (0, 1, 3)

ids = sorted(noise(k, 20) for k in range(3))
entries = (noise(1000 + k, 20) + be(4, a) + be(4, b) + be(4, g << 2) + be(4, k) for k, (a, b, g) in enumerate(COMMITS))
data = file({b"OIDF": fan(ids), b"OIDL": b"".join(ids), b"CDAT": b"".join(entries)})
record = be(4, len(data)) + be(4, 1) + data[-20:] + bytes(4)
requests.append(be(4, len(record)) + record + data)
answers.extend(["accepted 3 2", "parents 0 1", "parents 1 1", "parents 2 1"])
write(folder(__doc__))

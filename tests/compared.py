#!/usr/bin/env python3
"""The stored sample of the Rust crate's answers: `python3 tests/compared.py same|keep STDIN STDOUT`.

tests/compared.xz holds inputs of the program that document 01 describes, as records of replay's standard input, and the lines that the crate's
answers come to. `compare/run sample` makes both anew; `keep` stores them, `same` says whether they are those that are stored."""
import lzma
import os
import sys

STORED = os.path.join(os.path.dirname(__file__), "compared.xz")


def stored():
    """The records, and the lines."""
    with lzma.open(STORED) as f:
        size = int.from_bytes(f.read(4), "big")
        return f.read(size), f.read()


def main():
    word, *paths = sys.argv[1:]
    records, lines = (open(path, "rb").read() for path in paths)
    if word == "keep":
        with lzma.open(STORED, "wb", preset=9) as f:
            f.write(len(records).to_bytes(4, "big") + records + lines)
    elif stored() != (records, lines):
        sys.exit("compared: the stored sample is not what the crate answers")
    print(f"compared: {lines.count(10)} lines for {len(records)} bytes of input")


if __name__ == "__main__":
    main()

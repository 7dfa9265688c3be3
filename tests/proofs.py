"""Holds the proof files to what a reader can bear, and prints the figures that docs/DECISIONS.md gives.

A file is any .antt below crates/*/proofs. Left out of the bytes are the files that show results equal (Results.antt, Determined.antt)
and that show what an enum says (Saying.antt). A run is `.before` written several times in a row; it may be longer than six only where
it stands in a `let` whose name is used at least twice. A function's proof is what lies in its folder: Invariants.antt, Answers.antt and
Proof.antt, those that are there. A header is the comment that a file begins with, and a proof's header that of any of its files; the stock
line is the one that says only that a function meets its contract.
"""
import re
import sys
from pathlib import Path

WIDTH, RUN, BYTES = 160, 6, 760_000
APART = {"Results.antt", "Determined.antt", "Saying.antt"}
PROOF = ("Invariants.antt", "Answers.antt", "Proof.antt")


def long_runs(text):
    """Each run of more than six that stands in no `let` used twice: its line."""
    for m in re.finditer(r"(?:\s*\.before\b){%d,}" % (RUN + 1), text):
        start = text.rfind("\n", 0, m.start()) + 1
        line = text[start : text.find("\n", m.end())]
        name = re.search(r"let ([\w'′₀-₉·-]+)(?: :[^=]*)? = [^=]*$", text[start : m.start()])
        block = text[m.end() :].split("\n\n")[0]
        if not name or len(re.findall(r"(?<![\w.-])" + re.escape(name.group(1)) + r"(?![\w-])", block)) < 2:
            yield line.strip()


def is_plain(text):
    """Whether a file says at its head no more than that the function meets its contract."""
    head = text.split("\nuse ")[0]
    return re.fullmatch(r"-- `[^`]*` meets its contract\.", head) is not None or not text.startswith("--")


def main():
    files = sorted(Path("crates").glob("*/proofs/**/*.antt"))
    proofs = {}
    size = wide = before = stock = longest = 0
    bad = []
    for file in files:
        text = file.read_text()
        if file.name not in APART:
            size += len(text.encode())
        before += len(re.findall(r"\.before\b", text))
        for n, line in enumerate(text.split("\n"), 1):
            longest = max(longest, len(line))
            if len(line) > WIDTH:
                wide += 1
                bad.append(f"{file}:{n}: {len(line)} characters")
        bad += [f"{file}: a long path: {line}" for line in long_runs(text)]
        if file.name in PROOF:
            proofs.setdefault(file.parent, []).append(text)
    for folder, texts in proofs.items():
        whole = "\n".join(texts)
        loop = re.search(r"(?m)^(?:abbrev )?(?:pub )?(?:invariant|decreases)-\S+ :|^(?:abbrev )?(?:pub )?Inv-\w+ ", whole)
        plain = all(map(is_plain, texts))
        stock += plain
        if plain and (loop or whole.count("\n") > 60):
            bad.append(f"{folder}: a loop, or more than a screen, and no header says why it holds")
    print(
        f"proof files {len(files)}, of {len(proofs)} functions and of lemmas, {size:,} bytes; longest line {longest}, over {WIDTH}: {wide}; "
        f"`.before` {before:,}; stock headers {stock}"
    )
    if size > BYTES:
        bad.append(f"{size:,} bytes of proof, more than {BYTES:,}")
    for line in bad:
        print(line)
    sys.exit(len(bad) > 0)


main()

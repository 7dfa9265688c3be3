#!/usr/bin/env python3
"""Spells the names that this repository's own .antt files declare as today's Rattle does: words in snake case, a prime as an apostrophe.

usage: python3 tools/respell.py [--list] ROOT

It was run once, after the kit's port.py and before anything was mended by hand (docs/PORT.md). A name is turned wherever it stands as a word:
in .antt and .rt files, in must-fail edits, and in code spans of README.md and docs/. A name that begins with a capital letter stays, and so does
a name that a proof by hand gave to one need of its function. Names that would fall together with others have a spelling of their own in APART.
--list writes nothing and prints the old and new names.
Crate sha1 is renamed to digest, for the library has a crate of the old name.
"""

import os
import re
import sys

WORD = re.compile(r"[^\s(){}.;,@\"«»]+")
# A declaration, a field, a constructor, or a typed name of a let.
DECLARED = re.compile(
    r"^\s*(?:(?:pub|unfoldable|abbrev|record|data|let|in)\s+)*([^\s(){}.;,@\"«»:=]+)\s*(?:\([^=]*\)\s*|\{[^=]*\}\s*)*:\s(.*)"
)
LET = re.compile(r"\blet ([^\s(){}.;,@\"«»:=]+) (?::|=)")
BINDER = re.compile(r"[({]((?:[^\s(){}.;,@\"«»:=]+ )+): ")
NEED = re.compile(r"tie\.(Need|Inv|Measure|Given|the)\S*")
SYMBOLS = re.compile(r"[◌→≡≤<×⊎∙∷+*/%^&|←λℕ⊥·]")
# Names whose plain spelling is taken: by another name here, by the library, or by a tactic.
# A lemma that would have its function's name gets _lem.
APART = {
    **{
        name: re.sub("-", "_", name) + "_lem"
        for name in (
            "alien-by answer-of chunk-at commit-at commit-in edge-from edge-said edge-word entry-is extra-of extra-said file-back find_at "
            "gen-at id-at id-part length-of met_of opening_of parents-at part_by phase-of step_in tree-part"
        ).split()
    },
}


def files(root, ends):
    for folder in ("crates", "docs", "README.md"):
        top = os.path.join(root, folder)
        if os.path.isfile(top) and top.endswith(ends):
            yield top
        for at, dirs, names in os.walk(top):
            dirs[:] = sorted(d for d in dirs if d not in ("out", ".git"))
            for name in sorted(names):
                if name.endswith(ends):
                    yield os.path.join(at, name)


def plain(name):
    """The name in snake case."""
    if name in APART:
        return APART[name]
    if name[0].isupper():
        return name.replace("′", "'")
    words = re.sub(r"(?<=[a-z0-9])[A-Z]+", lambda m: "_" + m[0].lower(), name)
    return words.replace("-", "_").replace("′", "'")


def code(line):
    """The line without its comment."""
    return re.split(r"(?:^|\s)--(?:\s|$)", line, maxsplit=1)[0]


def declared(root):
    found, kept = {}, set()
    for path in files(root, (".antt",)):
        with open(path, encoding="utf-8") as f:
            for line in f:
                line = code(line)
                m = DECLARED.match(line)
                if m:
                    if NEED.match(m[2]):
                        kept.add(m[1])
                    else:
                        found.setdefault(m[1], set()).add(path)
                for name in LET.findall(line):
                    found.setdefault(name, set()).add(path)
                for many in BINDER.findall(line):
                    for name in many.split():
                        found.setdefault(name, set()).add(path)
                # a definition by clauses of a data type: constructors stand one a line as '  name : T', which DECLARED takes
    return found, kept


def table(root):
    found, kept = declared(root)
    turned = {}
    for name in sorted(found):
        if SYMBOLS.search(name) or name in kept and not name.endswith("-spec"):
            continue
        new = plain(name)
        if new != name:
            turned[name] = new
    return turned, found


def imported(text):
    """The names that a file takes from a library, which keep their spelling there."""
    names = set()
    for m in re.finditer(r"(?m)^\s*(?:pub )?(?:ghost )?use ([^\s;{]+)\.\{([^}]*)\}", text):
        if not m[1].startswith("Rattle.") or m[1].startswith("Rattle.std.") or m[1].startswith("Rattle.io."):
            for item in m[2].split(","):
                names.update(item.split()[:1])
    return names


def turn(text, turned, path, found):
    stay = imported(text)
    # A name that was plain before may be a Rust function's too: it turns only in the .antt files of the crate that declares it.
    crate = re.search(r"crates/\w+/", path)
    for name in turned:
        if re.fullmatch(r"[a-z0-9_]+", name):
            homes = {re.search(r"crates/\w+/", p)[0] for p in found[name]}
            if not path.endswith(".antt") or not crate or crate[0] not in homes:
                stay.add(name)

    def one(m):
        word = m[0]
        new = turned.get(word)
        return word if new is None or word in stay else new

    return WORD.sub(one, text)


def spans(text, turned):
    return re.sub(r"`[^`\n]+`", lambda m: re.sub(r"[\w'′-]+", lambda w: turned.get(w[0], w[0]), m[0]), text)


def crate_renamed(root):
    """Crate sha1 becomes crate digest; the function sha1 keeps its name."""
    old = os.path.join(root, "crates", "sha1")
    if os.path.isdir(old):
        os.rename(old, os.path.join(root, "crates", "digest"))
    for path in [os.path.join(root, "crates.txt"), *files(root, (".antt", ".rt", ".edit", ".md"))]:
        with open(path, encoding="utf-8") as f:
            text = f.read()
        new = re.sub(r"\bRattle\.sha1\.", "Rattle.digest.", text)
        new = re.sub(r"\bsha1::(?=sha1\b)", "digest::", new)
        new = re.sub(r"\bcrates/sha1/", "crates/digest/", new)
        new = new.replace("`sha1::sha1`", "`digest::sha1`")
        if path.endswith("crates.txt"):
            lines = []
            for line in text.splitlines(keepends=True):
                lines.append(line if line.startswith("#") and not line.startswith("# sha1:") else re.sub(r"\bsha1\b", "digest", line, count=9))
            new = "".join(lines)
        if new != text:
            with open(path, "w", encoding="utf-8") as f:
                f.write(new)


def main(argv):
    listing = "--list" in argv
    root = [a for a in argv if a != "--list"][0]
    turned, found = table(root)
    meets = {}
    for name in found:
        meets.setdefault(turned.get(name, name), []).append(name)
    for new, olds in sorted(meets.items()):
        if len(olds) > 1:
            print("falls together:", new, olds, [sorted(found[o])[:2] for o in olds] if listing else "")
    if listing:
        for old in sorted(turned):
            print(old, turned[old])
        return 0
    for path in files(root, (".antt", ".rt", ".edit", ".md")):
        with open(path, encoding="utf-8") as f:
            text = f.read()
        new = spans(text, turned) if path.endswith(".md") else turn(text, turned, path, found)
        if new != text:
            with open(path, "w", encoding="utf-8") as f:
                f.write(new)
    crate_renamed(root)
    return 0


if __name__ == "__main__":
    raise SystemExit(main(sys.argv[1:]))

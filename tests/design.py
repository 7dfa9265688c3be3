"""Counts the places of each point of docs/DESIGN-PASS.md, in crates/*/src (points 1 to 7) and crates/*/proofs (point 8).

    python3 tests/design.py             # a line for each point, with how many places
    python3 tests/design.py 3 5b        # the places of these points, file:line and what stands there
    python3 tests/design.py --at COMMIT # the same of another commit

It goes by the text alone, knows no place by name, and finds too much rather than too little: the page says which places are none, and why.
What is not printed has none.
"""
import io
import re
import shutil
import subprocess
import sys
import tarfile
from collections import defaultdict
from difflib import SequenceMatcher
from itertools import combinations
from pathlib import Path

COMMON = Path(shutil.which("rt") or ".").resolve().parents[1] / "rattle/std/proofs/Common.antt"  # of the kit that `rt` is of
RESULTS = ("Answers", "PartOf", "AskedPart", "RecordsOf", "Puts")  # facts of a result
LEAST = re.compile(
    r"if (\S+) < (\S+) \{ (\1|\2) = (\1|\2); \}|if (\w+) <=? (\w+) \{ (\5|\6)( \+ 1)? \} else|usize::MAX - \w+ <"
    r"|if (\S+) <=? (\S+) \{ (?:return )?0;? \}.*?(?:\9 - \10|\10 - \9)"
)
HEAD = re.compile(r'^( *)(?:pub(?:\(crate\))? )?(?:extern "C" )?fn (\w+)')


CLAUSE = re.compile(r" *(?:requires|ensures)\b[^{]*(?:\{ (.*) \})?")


def split(text):
    """What stands between the commas of a text that no bracket holds, and what follows the bracket that the text doesn't open."""
    parts, depth, start = [], 0, 0
    for k, x in enumerate(text):
        depth += (x in "([{<") - (x in ")]}" or x == ">" and text[k - 1] != "-")
        if depth < 0 or x == "," and depth == 0:
            parts.append(text[start:k].strip())
            start = k + 1
        if depth < 0:
            return parts, text[k + 1 :]
    return parts, ""


def signature(head):
    """The parameters of a function as (name, type), lifetimes left out, and its result."""
    rest = re.sub(r"'\w+ ", "", head[head.index("fn ") :])
    if re.match(r"fn \w+<", rest):
        rest = split(rest[rest.index("<") + 1 :])[1]
    params, rest = split(rest[rest.index("(") + 1 :])
    result = re.match(r"\s*-> (.*?)(?: where .*)?\s*[{;]?\s*$", rest)
    return [tuple(p.split(": ", 1)) for p in params if ": " in p], result[1] if result else ""


class Fn:
    """A function: where it stands, the comment above it, its parameters as (name, type), its result, its clauses and its body's lines."""

    def __init__(self, file, lines, i):
        self.file, self.line, self.name = file, i + 1, HEAD.match(lines[i])[2]
        self.comment = lines[i - 1].strip() if i and lines[i - 1].strip().startswith("//") else ""
        indent, head, j = HEAD.match(lines[i])[1], [], i
        while lines[j] != indent + "{" and not (lines[j].endswith(("{", ";", "}")) and not CLAUSE.match(lines[j])):
            head.append(lines[j])
            j += 1
        head.append(lines[j])
        end = lines.index(indent + "}", j) if lines[j].endswith("{") else j
        self.body = lines[j + 1 : end]
        self.rows = [(n, x.strip()) for n, x in enumerate(self.body, j + 2)]
        self.clauses = [m[1] for m in map(CLAUSE.match, head) if m and m[1]]
        self.params, self.result = signature(" ".join(x.strip() for x in head if not CLAUSE.match(x)))

    def at(self, what=""):
        return f"{self.file}:{self.line} {self.name}{' ' + what if what else ''}"


def texts(commit, ends):
    """Each file of the crates with one of these ends: its path below crates/, and its text."""
    if commit:
        tar = tarfile.open(fileobj=io.BytesIO(subprocess.check_output(["git", "archive", commit, "crates"])))
        found = {m.name[7:]: tar.extractfile(m).read().decode() for m in tar if m.isfile() and m.name.endswith(ends)}
    else:
        found = {str(p)[7:]: p.read_text() for p in Path("crates").glob("*/*/**/*") if str(p).endswith(ends)}
    return {f: found[f] for f in sorted(found) if re.match(r"\w+/(src|proofs)/", f)}


def code(commit):
    """The functions, the types as (file, line, keyword, name, marks, body), and every line of code as (file, line, text)."""
    fns, types, rows = [], [], []
    for file, text in texts(commit, ".rt").items():
        file, lines = file.replace("/src/", "/"), text.split("\n")
        for i, line in enumerate(lines):
            if HEAD.match(line):
                fns.append(Fn(file, lines, i))
            if not line.strip().startswith(("//", "ghost use", "use ")):
                rows.append((file, i + 1, line.strip()))
            m = re.match(r"pub (struct|enum) (\w+)(.*)", line)
            if m:
                end = lines.index("}", i) if m[3].endswith("{") else i
                marks = " ".join(x for x in lines[max(0, i - 2) : i] if x.startswith("#"))
                types.append((file, i + 1, m[1], m[2], marks, [x.strip(" ,") for x in lines[i + 1 : end]] or [m[3]]))
    return fns, types, rows


def shape(variants):
    """Which std type an enum has the shape of, if any: a case `Refused` is the error; else one case with a value and one without."""
    held = [re.match(r"(\w+)(?:\((.*)\))?", v) for v in variants if not v.startswith("//")]
    good = [m for m in held if m[1] != "Refused"]
    some = [m[2] for m in good if m[2]]
    one = some[0] if some else "()"
    inner = one if len(good) == 1 else f"Option<{one}>" if len(good) == 2 and len(some) == 1 else " | ".join(m[1] for m in good)
    error = [m[2] for m in held if m[1] == "Refused"]
    return f"Result<{inner}, {error[0]}>" if error else inner if inner.startswith("Option") else ""


def groups(items, key, size):
    """The items in groups with one key, where a group has at least `size` members that stand in different places."""
    by = defaultdict(list)
    for x in items:
        by[key(x)].append(x)
    return {k: v for k, v in by.items() if len(v) >= size}


def skeleton(lines):
    """What stands in lines, each name written as the number of the name that it is, and each literal as one sign."""
    seen, words = {}, re.findall(r"b?\"[^\"]*\"|b'.'|\w+|[^\w\s]", " ".join(x for x in lines if not x.strip().startswith("//")))
    keep = {"let", "mut", "if", "else", "match", "while", "for", "in", "loop", "return", "as", "pub", "enum", "struct"}
    sign = lambda w: "#" if re.match(r"\d|b?\"|b'", w) else w if w in keep or not re.match(r"\w", w) else str(seen.setdefault(w, len(seen)))
    return " ".join(map(sign, words))


def facts(fns):
    """Each fact of a clause that speaks of no result: split at the product, every number as N; of a fact with a name, the name."""
    for f in fns:
        for part in {p for c in f.clauses for p in re.sub(r"\b\d+\b", "N", c).split(" × ")}:
            part = re.sub(r"^\((.*)\)$", r"\1", part.strip())
            part = re.sub(r"^([A-Z]\w+) .*", r"\1", part)
            if "result" not in part and part not in RESULTS and not part.startswith("out.new"):
                yield f, part


def together(fns):
    """The sets of at least two parameters that three functions or more take, no set left out for a greater one that as many take."""
    sets = [(f, frozenset(f.params)) for f in fns if len(f.params) > 1]
    closed = {a & b for (_, a), (_, b) in combinations(sets, 2) if len(a & b) > 1}
    for s in closed:
        who = [f for f, t in sets if s <= t]
        if len(who) > 2:
            yield s, who


def points(commit):
    """Each point: its name, and the lines that say its places."""
    fns, types, rows = code(commit)
    numbers = []
    inner = [t for t in types if "repr(C)" not in t[4]]
    out = defaultdict(list)
    for file, line, kind, name, marks, body in types:
        c = "repr(C)" in marks
        if kind == "enum" and shape(body):
            out["1a an enum of the shape of Option or Result"].append(f"{file}:{line} {name} = {shape(body)}")
        flag = r"pub \w+: bool|pub (refusal: Refusal|verdict: Verdict)" + (r"|pub (has_\w+|found|right|cyclic): u32" if c else "")
        for b in body:
            if kind == "struct" and len(body) > 1 and re.fullmatch(flag, b):
                out["1b a flag, refusal or verdict with values beside it, in a struct"].append(f"{file}:{line} {name} {b[4:]}{' repr(C)' if c else ''}")
        for b in body:
            if kind == "struct" and re.match(r"pub (number|\w*kind|phase): u\d+", b):
                out["1d a number for a kind or a refusal, in a struct"].append(f"{file}:{line} {name} {b[4:]}{' repr(C)' if c else ''}")
            if re.match(r"Refused\(u32\)", b):
                out["1d a number for a kind or a refusal, in a struct"].append(f"{file}:{line} {name}::{b}")
    for f in fns:
        for n, t in f.params:
            if t == "bool" or n == "there":
                out["1c a flag among the parameters"].append(f.at(f"{n}: {t}"))
            if re.fullmatch(r"number|kind|phase|m", n) and re.fullmatch(r"u\d+", t):
                out["1f a parameter that is the number of a kind or a refusal"].append(f.at(f"{n}: {t}"))
        told = re.search(r"[Rr]efusals? \d|The kind of", f.comment) or f.name.endswith(("_rule", "_kind"))
        if f.result == "u32" and told or f.result == "Refusal" and "efusals" in f.comment:
            numbers.append(f.name)
        if f.name in numbers and f.result in ("u32", "Refusal"):
            out["1e a function that answers the number of a kind or a refusal, 0 for none"].append(f.at(f"-> {f.result}"))
        last = re.search(r"or (`\w+`|N\b|[1-9]\d*)", f.comment)
        if re.fullmatch(r"u\d+|usize", f.result) and last and ", " + last[0] in f.comment:
            out["1g a function that answers a number past the last where there is none"].append(f.at(f"-> {f.result}, {last[0]}"))
    for file, line, text in rows:
        if re.match(r"pub const \w+: u32 = \d+;", text):
            out["1h a constant that is a refusal's number"].append(f"{file}:{line} {text[10:-1]}")
    for f in fns:
        for n, line in enumerate(f.body):
            m = re.match(r" *if 0 < (\w+)(\.number|\(.*\))? \{", line)
            by = rf"let {m and m[1]} = (\w+::)?({'|'.join(numbers)})\("
            if m and (m[2] == ".number" or m[1] in numbers or re.search(by, "\n".join(f.body))):
                out["1i a test of a refusal's number, where `?` would stand"].append(f.at(line.strip(" {")))
    for v in groups([f for f in fns if len(skeleton(f.body).split()) > 12], lambda f: skeleton(f.body) + str(len(f.params)), 2).values():
        out["2a functions alike but for names and literals"].append(" = ".join(f.at() for f in v))
    for v in groups(inner, lambda t: t[2] + skeleton(t[5]), 2).values():
        out["2b types alike but for names"].append(" = ".join(f"{t[0]}:{t[1]} {t[3]}" for t in v))
    long = [(f, w) for f in fns for w in [skeleton(f.body).split()] if len(w) > 24]
    for (f, a), (g, b) in combinations(long, 2):
        near = SequenceMatcher(None, a, b, autojunk=False)
        if a != b and near.quick_ratio() > 0.8 and near.ratio() > 0.8:
            out["2e functions nearly alike: more than four parts in five"].append(f"{f.at()} = {g.at()}: {near.ratio():.2f}")
    for name, v in groups(fns, lambda f: f.name, 2).items():
        if name != "main":
            out["2c functions of one name"].append(f"{name}: " + ", ".join(f"{f.file}:{f.line}" for f in v))
    runs = defaultdict(list)
    for f in fns:
        lines = [x.strip() for x in f.body if not x.strip().startswith("//")]
        for n in range(len(lines) - 2):
            if len(" ".join(lines[n : n + 3])) > 70:
                runs[" ".join(lines[n : n + 3])].append(f)
    seen = set()
    for text, v in runs.items():
        who = tuple(f.at() for f in v)
        if len(set(who)) > 1 and who not in seen:
            out["2d three lines or more that stand in two functions or more"].append(f"{' = '.join(who)}: {text[:70]}")
        seen.add(who)
    for f in fns:
        for line, text in f.rows:
            if re.match(r"('\w+: )?(while|loop)\b", text):
                out["3 a loop by `while` or `loop`"].append(f"{f.file}:{line} {f.name}: {text.rstrip(' {')}")
    for file, line, kind, name, _, body in inner:
        if sorted(body) == ["Equal", "Greater", "Less"]:
            out["4a order and equality by hand"].append(f"{file}:{line} enum {name}")
    for f in fns:
        own = [t for _, t in f.params]
        body = " ".join(x.strip() for x in f.body)
        if f.result in ("bool", "Order") and (len(own) > 1 and own[0] == own[1] and len(own) < 4 and own[0] != "usize" or "Order::" in body):
            out["4a order and equality by hand"].append(f.at(f"-> {f.result}"))
        named = [bool(re.search(r"(^|::)[A-Z]\w*$", t)) for t in own + [f.result]]
        if f.result and 0 < len(own) < 4 and not any(t.startswith("&") for t in own) and (named[-1] or any(named) and len(own) == 1):
            out["4b a value made of a value: conversion by hand"].append(f.at(f"({', '.join(own)}) -> {f.result}"))
        if re.search(r"\b(print|number|put|word|figure)\(|io::(print|write)", body) and "main" != f.name:
            out["4c printing by hand"].append(f.at())
        if re.search(r"/ 0x1|\* 256 \+|\* 0x1_0000_0000|^x as \w+$|b'0'|\b48\b|<< n", body):
            out["4d bytes, digits and bits of a number by hand"].append(f.at())
        if re.search(r"while .*\w+\[[^\]]*\] = \w+\[[^\]]*\];", body):
            out["4e a copy byte by byte"].append(f.at())
        for m in re.finditer(LEAST, body):
            out["4f min, max or a difference that stops at 0, by hand"].append(f.at(m[0][:60]))
    for fact, v in groups(list(facts(fns)), lambda x: x[1], 3).items():
        out["5a a fact in the contracts of three functions or more"].append(f"{len(v)} x `{fact}`: " + ", ".join(f.at() for f, _ in v))
    for s, who in sorted(together(fns), key=lambda x: (-len(x[1]), -len(x[0]), sorted(x[0]))):
        what = ", ".join(f"{n}: {t}" for n, t in sorted(s))
        places = ", ".join(f"{f.file.split('/')[0]}::{f.name}" for f in who)
        out["5b parameters that three functions or more take together"].append(f"{len(who)} x ({what}): {places}")
    for f in fns:
        body = " ".join(x.strip() for x in f.body)
        lent = [f"{n}: {t}" for n, t in f.params if t.startswith("&mut [") or n == "at"]
        if any("&mut [" in x for x in lent):
            out["6a a lent buffer with a place, a length or a count beside it"].append(f.at(f"({', '.join(lent)}){f.result and ' -> ' + f.result}"))
        for name in re.findall(r"let (?:mut )?(\w+) = (?:\[[^\]]*; \d+\]|room\(\)|io::buffer\(\));", body):
            for m in re.finditer(rf"&(mut )?{name}\[(\.\.\w+|\w+\.\.)\]", body):
                out["6b an array of which a part counts, its length in another local"].append(f.at(m[0]))
        if re.search(r"\([^()]+ - [^()]+\) / 2", body):
            out["6d a sorted list searched by halving"].append(f.at())
    for file, line, kind, name, marks, body in types:
        for b in body:
            if kind == "struct" and re.search(r"\[\w+; \d+\]", b):
                out["6c an array in a struct"].append(f"{file}:{line} {name} {b[4:]}{' repr(C)' if 'repr(C)' in marks else ''}")
    for f in fns:
        for line, text in f.rows:
            if re.search(r"\btable\[", text):
                out["6e a row of a table by index arithmetic"].append(f"{f.file}:{line} {f.name}: {text[:60]}")
        tests = re.findall(r"if (\w+) (?:==|<) (?:0x)?[\d_]+ \{|(?:^|\s)(b'.'|\d+) =>", "\n".join(f.body))
        bytes_ = [b for _, b in tests if b]
        names = [a for a, _ in tests if a]
        if bytes_ or any(names.count(a) > 2 for a in names):
            out["7 a switch on which step to run"].append(f.at(f"on {' '.join(bytes_) or names[0]}"))
        for n, t in f.params:
            if t == "bool" and n == "tried":
                out["7 a switch on which step to run"].append(f.at(f"on {n}"))
    return out, proofs(commit)


def proofs(commit):
    """Point 8: counts of answers and lemmas, imports that std's Common has, and lets that several answers of one file repeat."""
    out = defaultdict(list)
    words = set(re.findall(r"[^\s,{}]+", " ".join(re.findall(r"\{([^}]*)\}", COMMON.read_text()))))
    for file, text in texts(commit, ".antt").items():
        if "/proofs/" not in file:
            continue
        short = file.replace("/proofs/", "/")
        whole = re.sub(r"\n +", " ", text)
        if file.endswith("/Answers.antt"):
            for m in re.finditer(r"^pub (\S+) : goal\.\S+\n(?:unfolding .*\n)?\1(?: \S+)* =(.*)", whole, re.M):
                stock = re.fullmatch(r"\s*(search rules|omega arith|refl|grind arith|search rules depth \d+)\s*", m[2])
                out["8a an answer"].append(f"{short} {m[1]}")
                if stock:
                    out["8b an answer that is a tactic with no fact of its own"].append(f"{short} {m[1]}")
            lets = re.findall(r"\blet (.*?) in$", re.sub(r"=\n +", "= ", text), re.M)
            for x in sorted(set(lets)):
                if lets.count(x) > 2:
                    out["8e a let that three answers of a file or more repeat"].append(f"{short} {lets.count(x)} x let {x[:90]}")
        for m in re.finditer(r"^( *)(?:abbrev )?(?:pub )?(\S+) : (?!goal\.)", text, re.M):
            if not file.endswith(("/Invariants.antt", "/Results.antt")) and re.search(rf"^{m[1]}{re.escape(m[2])}( .*)? =", text, re.M):
                out["8c a lemma"].append(f"{short} {m[2]}")
        for n, line in enumerate(text.split("\n"), 1):
            m = re.match(r"use ((?!Rattle)[\w.]+)\.\{(.*)\}", line)
            if m and all(w.strip() in words for w in m[2].split(",")):
                deep = m[1].startswith(("mathlib.Core", "native.Mathlib"))
                name = "8d an import that std's Common has, of mathlib.Core or native.Mathlib" if deep else "8f the same, of another module below std"
                out[name].append(f"{short}:{n} {m[1]}")
    return out


def main():
    args = sys.argv[1:]
    commit = args[args.index("--at") + 1] if "--at" in args else None
    wanted = [a for a in args if re.match(r"\d", a) and a != commit]
    found, proved = points(commit)
    for name, places in sorted({**found, **proved}.items()):
        if not wanted or any(name.startswith(w) for w in wanted):
            print(f"{name}: {len(places)}")
            for p in places if wanted else []:
                print(f"    {p}")


main()

"""For each public function of the library, and each conversion by `From`, the lines that show: any two results that its promise allows on the
same arguments are equal.

Makes crates/NAME/proofs/Results.antt from the sources. A lemma is stated over the promise as the function's caller learns it
(`Reads.Learnt`, which the prover makes of the contract itself), so nothing of a contract is written twice. With --check nothing is written, and a
file that differs, or a public function or a conversion that has no lemma and no row in docs/EXCEPTIONS.md, is told and fails.
"""
import re
import sys
from pathlib import Path

CRATES = Path("crates")
EXCEPTIONS = Path("docs/EXCEPTIONS.md")
HEAD = "-- Any two results that a public function's promise allows on the same arguments are equal. Made by tests/results.py.\n"
RESERVED = {"open": "«open»"}
# a promise of another form than those below: the crate's own file of this name has the lemma
BY_HAND = {
    ("fit", "of"): "Same",
    ("fit", "asked"): "Same",
    ("fit", "edge"): "Same",
    ("walk", "next_parent"): "Steps",
}


def sources(crate):
    """The crate's public modules: the path of each, and its text."""
    lib = (crate / "src/lib.rt").read_text()
    yield (), lib
    for name in re.findall(r"(?m)^pub mod (\w+);", lib):
        yield (name,), (crate / f"src/{name}.rt").read_text()


def public(text):
    """Each public function: the type that it is a method of, its name, its parameters, its result and its ensures."""
    kind = None
    lines = text.split("\n")
    for at, line in enumerate(lines):
        m = re.match(r"impl(?:<[^>]*>)? (?:\w+ for )?(\w+)", line)
        if m:
            kind = m.group(1)
        elif line.startswith("}"):
            kind = None
        m = re.match(r'( *)pub (?:extern "C" )?fn (\w+)', line)
        if not m:
            continue
        end = at
        while not (lines[end] == m.group(1) + "{" or lines[end].endswith(") {") or re.search(r"-> [^{]* \{$", lines[end])):
            end += 1
        whole = "\n".join(lines[at : end + 1])
        yield kind, m.group(2), whole


def snake(word):
    return re.sub(r"(?<=[a-z0-9])(?=[A-Z])", "_", word).lower()


def conversions(text):
    """Each conversion by `From`: the name that the prover has for it, a short name, one that tells it from others to that type, and what it gives."""
    for m in re.finditer(r"(?ms)^impl\b[^{]*?\bFrom<([^{]+)>\s+for\s+(\w+).*?^}$", text):
        words = re.findall(r"\w+", m.group(1).replace("()", "Unit"))
        short = snake(m.group(2)) + "_from"
        told = "_".join([short, *(snake(w) for w in words if w not in ("Result", "Option", "Refusal"))])
        gives = re.search(r"(?s)ghost from_gives = \{\s*λ \S+ r\.\s+(.*?)\s*\};", m.group(0))
        yield f"{m.group(2)}From" + "".join(w[0].upper() + w[1:] for w in words), short, told, gives.group(1) if gives else ""


def parameters(whole):
    inner = whole[whole.index("(") + 1 :]
    depth, out, word = 1, [], ""
    for c in inner:
        depth += (c in "([") - (c in ")]")
        if depth == 0:
            break
        if c == "," and depth == 1:
            out.append(word.strip())
            word = ""
        else:
            word += c
    return [p for p in out + [word.strip()] if p]


def ensured(whole):
    """What each ensures says, between its braces."""
    for m in re.finditer(r"\bensures\*?(?: \w+)? \{", whole):
        depth, end = 1, m.end()
        while depth:
            depth += (whole[end] == "{") - (whole[end] == "}")
            end += 1
        yield whole[m.end() : end - 1].strip()


def place(i, n):
    """Where clause i of n lies in what is learnt."""
    return "" if n == 1 else ".1" * i + (".0" if i < n - 1 else "")


def lemmas(name, whole):
    """Each lemma of a function: its ending, its statement and its proof; none where the promise determines nothing."""
    result = re.search(r"\) -> (.*?)(?:\n| \{|$)", whole)
    part = result is not None and result.group(1).startswith("&")
    clauses = list(ensured(whole))
    n = len(clauses)
    if result is None and n == 0:
        return [("determined", "Determined {}", "refl")]
    out = []
    for i, claim in enumerate(clauses):
        at = place(i, n)
        for k, fact in enumerate(re.split(r"\)\s*× \(", claim.strip("()")) if claim.startswith("(") else [claim]):
            here = at + (f".{k}" if claim.startswith("(") else "")
            p, q = f"p{here}", f"q{here}"
            held = re.match(r"(\w+)\.new ≡ ", fact)
            if "determined" in [x[0] for x in out] and not held:
                continue
            if part and re.match(r"(PartOf|RecordsOf|AskedPart|IdPart|TreePart) ", fact):
                out.append(("determined", "DeterminedPart {}", f"same_part {p} {q}"))
            elif fact.startswith("Answers ") and fact.split()[2] == "result":
                out.append(("determined", "Determined {}", f"same {p}.is {q}.is"))
            elif fact.startswith("result ≡ "):
                out.append(("determined", "Determined {}", f"same {p} {q}"))
            elif held:
                which = [x.split(":")[0].strip() for x in parameters(whole)].index(held.group(1))
                out.append(("held", f"DeterminedHeld (λ κs e. e{'.1' * which}.0.now) {{}}", f"same {p} {q}"))
    return out


def short_names(file):
    """The names that a file which stands has for the modules that it uses. They stay: to spell one anew would have all that stands above proved anew."""
    text = file.read_text() if file.exists() else ""
    return dict(re.findall(r"(?m)^use (\S+\.Reads) as (\S+)$", text))


def page(crate):
    """The text of a crate's Results.antt, and the functions that it cannot speak of."""
    uses, body, missing, seen, given = [], [], [], set(), short_names(crate / "proofs/Results.antt")

    def add(path, short, longer, found):
        """The lemmas of one function, under its short name, or the longer one where that is taken."""
        short = longer if short in seen else short
        seen.add(short)
        module = ".".join([f"Rattle.{crate.name}.proofs", *path, "Reads"])
        alias = given.get(module, RESERVED.get(short, short))
        uses.append(f"use {module} as {alias}\n")
        for ending, claim, proof in found:
            said = claim.format(alias + ".Learnt")
            body.append(f"\npub {short}_{ending} : {said}\n{short}_{ending} κs a y z d e p q = {proof}\n")

    for path, text in sources(crate):
        for kind, name, whole in public(text):
            if (crate.name, name) in BY_HAND:
                hand = crate / f"proofs/{BY_HAND[crate.name, name]}.antt"
                if not re.search(rf"(?m)^(?:abbrev )?pub {name}_determined :", hand.read_text()):
                    missing.append((path, name))
                continue
            found = lemmas(name, whole)
            if "held" not in [x[0] for x in found] and "&mut" in whole.split("ensures")[0]:
                found = []  # what it leaves in what it was lent has no equation
            if re.search(rf"fn {name}<[A-Z]", whole):
                found = []  # what a type parameter does is not known
            if "determined" not in [x[0] for x in found] and ") ->" in whole or not found:
                missing.append((path, name))
                continue
            add([*path, *([kind] if kind else []), name], name, "_".join([*path, name]), found)
        for name, short, told, gives in conversions(text):
            if gives.startswith("r ≡ "):
                add([*path, name, "from"], short, told, [("determined", "Determined {}", "same p q")])
            else:
                missing.append((path, f"{name}::from"))
    if not body:
        return None, missing
    words = "".join(body)
    names = [x for x in ("same", "same_part", "Determined", "DeterminedPart", "DeterminedHeld") if re.search(rf"(?<![\w-]){x}(?![\w-])", words)]
    first = "use Rattle.std.proofs.Common.{refl}\n" if " = refl\n" in words else ""
    first += f"use Rattle.words.proofs.Determined.{{{', '.join(names)}}}\n" if names else ""
    return HEAD + first + "".join(uses) + words, missing


def main():
    check = "--check" in sys.argv
    exceptions = EXCEPTIONS.read_text()
    bad = 0
    for crate in sorted(CRATES.iterdir()):
        if not (crate / "src/lib.rt").exists():
            continue
        text, missing = page(crate)
        for path, name in missing:
            full = "::".join([crate.name, *path, name])
            if full not in exceptions:
                print(f"{full}: no lemma that two results are equal, and no row in {EXCEPTIONS}")
                bad += 1
        if text is None:
            continue
        file, lib = crate / "proofs/Results.antt", crate / "proofs/Lib.antt"
        mods = lib.read_text() if lib.exists() else ""
        if check:
            if not file.exists() or file.read_text() != text or "pub mod Results\n" not in mods:
                print(f"{file}: not what {sys.argv[0]} makes")
                bad += 1
        else:
            file.parent.mkdir(exist_ok=True)
            file.write_text(text)
            if "pub mod Results\n" not in mods:
                lib.write_text(mods + "pub mod Results\n")
    sys.exit(bad > 0)


main()

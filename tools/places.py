#!/usr/bin/env python3
"""Counts, in crates/*/src, the places that may read like an older language.

    places.py            a line of counts for each point
    places.py N          the places of point N, one a line
    places.py --at DIR   the same in another checkout

It goes by the text, so a place found is one to look at, and no verdict.
"""
import itertools
import re
import sys
from difflib import SequenceMatcher
from pathlib import Path

PATTERNS = {
    "1": [
        r"^\s*(pub(\(crate\))? )?enum ",
        r"\b(kind|code|number|ground|cause|block|procedure)\s*:\s*(u8|u32|usize)\b",
        r"\b(?!test\b)\w+\s*:\s*bool\b",
        r"-> usize$|-> usize *\{",
    ],
    "3": [
        r"\bfor \w+ in [^{]*\.\.",
        r"\bwhile ",
        r"\bloop \{",
        r"\+= 1\b|saturating_add\(1\)",
        r"\.enumerate\(\) \{",
        r"\bfor \w+ in \w+ \{|\bfor \w+ in self\.\w+ \{",
    ],
    "4": [
        r"\bfn (is|eq|of|number|name|text|kind|with|report|written|line_error|copy_entries|put_all)\(",
        r" as u8 [=<>!]",
        r"Ok\((\(\)|\w+)\) => Ok\((\(\)|\w+)\),$",
        r"Err\(\w+\) => (return )?Err\(",
        r"Some\(\w+\) => Some\(\w+\),$",
        r"let .*\.(number|block|entry|item);$",
    ],
    "6": [
        r"&('\w+ )?mut \[",
        r"\[[^\]\[]+; \w+\]",
        r"^\s*(pub )?(used|placed|first|count|start): ",
    ],
    "7": [r"\bmatch .*\{$"],
}


def sources(root):
    return sorted(root.glob("crates/*/src/*.rt"))


def by_pattern(root, point):
    for path in sources(root):
        for number, line in enumerate(path.read_text().splitlines(), 1):
            if line.lstrip().startswith(("//", "ghost use", "use ")):
                continue
            if any(re.search(p, line) for p in PATTERNS[point]):
                yield f"{path.relative_to(root)}:{number}: {line.strip()}"


FUNCTION = re.compile(r"^( *)(?:pub(?:\(crate\))? )?fn (\w+).*?^\1\}$|^( *)(?:pub )?fn (\w+)[^\n]*\{\}$", re.M | re.S)


def functions(root):
    """Each function: file, name, head without clauses, clauses, body."""
    for path in sources(root):
        for found in FUNCTION.finditer(path.read_text()):
            text = found.group(0)
            name = found.group(2) or found.group(4)
            clauses = re.findall(r"^\s*(?:requires|ensures)\b[^\n{]*\{(.*)\}$", text, re.M)
            code = re.sub(r"^\s*(?:requires|ensures)\b.*$", "", text, flags=re.M)
            head, _, body = code.partition("{")
            yield path.relative_to(root), name, head, clauses, body


def shape(body):
    """The body's tokens, with every name and number made alike."""
    words = re.findall(r"\w+|[^\w\s]", re.sub(r"//.*", "", body))
    keep = {"if", "else", "match", "for", "in", "return", "let", "Some", "None", "Ok", "Err", "self", "mut"}
    return [w if w in keep or not re.match(r"\w", w) else "x" for w in words]


def twins(root):
    shapes = [(f, n, shape(b)) for f, n, _, _, b in functions(root)]
    shapes = [s for s in shapes if len(s[2]) >= 16]
    for (f, n, a), (g, m, b) in itertools.combinations(shapes, 2):
        if abs(len(a) - len(b)) * 5 <= max(len(a), len(b)):
            ratio = SequenceMatcher(None, a, b, autojunk=False).ratio()
            if ratio >= 0.85:
                yield f"{f} {n} ~ {g} {m} ({ratio:.2f})"


def repeated(root):
    facts, together = {}, {}
    for path, name, head, clauses, _ in functions(root):
        place = f"{path}:{name}"
        for clause in clauses:
            for fact in re.split(r" × ", clause.strip()):
                fact = re.sub(r"\.(now|old|new|entry|exit)\b", "", fact.strip(" ()"))
                facts.setdefault(fact, set()).add(place)
        parameters = sorted(set(re.findall(r"\b(\w+): ([^,()]+(?:\([^)]*\))?)", head.partition("(")[2])))
        for pair in itertools.combinations(parameters, 2):
            together.setdefault(pair, set()).add(place)
    for fact, places in sorted(facts.items()):
        if len(places) >= 3:
            yield f"fact in {len(places)}: {fact}"
    for (a, b), places in sorted(together.items()):
        if len(places) >= 3:
            yield f"together in {len(places)}: {a[0]}: {a[1].strip()}, {b[0]}: {b[1].strip()}"


def proofs(root):
    for path in sorted(root.glob("crates/*/proofs/**/*.antt")):
        yield f"{path.relative_to(root)}: {len(path.read_text().splitlines())} lines"


def places(root, point):
    made = {"2": twins, "5": repeated, "8": proofs}
    return list(made[point](root) if point in made else by_pattern(root, point))


def main(words):
    root = Path(__file__).resolve().parent.parent
    if "--at" in words:
        at = words.index("--at")
        root = Path(words[at + 1]).resolve()
        del words[at : at + 2]
    if words:
        print(*places(root, words[0]), sep="\n")
    else:
        for point in "12345678":
            print(f"point {point}: {len(places(root, point))}")


main(sys.argv[1:])

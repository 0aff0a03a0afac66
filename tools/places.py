#!/usr/bin/env python3
"""Lists the places of crates/*/src that the design pass looks at (docs/DESIGN-PASS.md): places.py POINT [FOLDER].

POINT is 1 to 8, or `all` for the counts alone. FOLDER is a checkout, by default the one that this script stands in.
What it prints are candidates, found by their text; which of them are places is said on the page.
"""
import collections
import itertools
import pathlib
import re
import sys

ROOT = pathlib.Path(sys.argv[2] if len(sys.argv) > 2 else pathlib.Path(__file__).resolve().parent.parent)
KEYWORDS = set("fn let mut if else match for while in return self Self Ok Err Some None as pub crate const use impl struct enum true false".split())


def sources():
    for path in sorted(ROOT.glob("crates/*/src/**/*.rt")):
        text = path.read_text()
        cut = text.find("#[cfg(test)]\nmod tests")
        if path.parent.parent.name.endswith("checks"):
            continue
        yield path.relative_to(ROOT / "crates"), text if cut < 0 else text[:cut]


def lines(pattern):
    found = []
    for path, text in sources():
        for number, line in enumerate(text.split("\n"), 1):
            if not line.lstrip().startswith("//") and re.search(pattern, line):
                found.append(f"{path}:{number}: {line.strip()}")
    return found


FN = re.compile(r"^( *)(?:pub(?:\([a-z]+\))? )?fn (\w+)(.*?)\n\1\{(.*?)\n?\1?\}", re.S | re.M)


def functions():
    for path, text in sources():
        for found in FN.finditer(text):
            yield path, text[: found.start()].count("\n") + 1, found.group(2), found.group(3), found.group(4)


def shape(body):
    words = re.findall(r"[A-Za-z_]\w*|\d[\d_]*|\S", re.sub(r"//.*", "", body))
    return " ".join(w if w in KEYWORDS else "x" if re.match(r"[A-Za-z_]", w) else "0" if w[0].isdigit() else w for w in words)


def twins():
    groups = collections.defaultdict(list)
    for path, number, name, _, body in functions():
        form = shape(body)
        if len(form.split()) >= 12:
            groups[form].append(f"{path}:{number}: {name}")
    for path, text in sources():
        for found in re.finditer(r"(?:struct|const) (\w+)[^;{]*[{](.*?)\n\}", text, re.S):
            form = re.sub(r"\s+", " ", re.sub(r"//.*|ghost .*|pub(\(crate\))? ", "", found.group(2)))
            groups[form].append(f"{path}:{text[: found.start()].count(chr(10)) + 1}: {found.group(1)}")
    return [" = ".join(g) for g in groups.values() if len(g) > 1]


def facts():
    groups = collections.defaultdict(set)
    for path, number, name, head, _ in functions():
        for fact in re.findall(r"requires \w* ?\{ (.*?) \}\n", head + "\n"):
            groups[path.parts[0], re.sub(r"\b(self|hours|meter|list|x|days|totals)\b", "_", fact)].add(f"{path}:{number}: {name}")
    return [f"{crate}: {fact}: " + ", ".join(sorted(g)) for (crate, fact), g in groups.items() if len(g) > 2]


def parameters():
    groups = collections.defaultdict(set)
    for path, number, name, head, _ in functions():
        inside = head[: head.find(")")]
        names = sorted(set(re.findall(r"(\w+): ", inside)))
        for three in itertools.combinations(names, 3):
            groups[path.parts[0], three].add(f"{name}")
    return [f"{crate}: {', '.join(three)}: " + ", ".join(sorted(g)) for (crate, three), g in sorted(groups.items()) if len(g) > 2]


def proofs():
    found = []
    for path in sorted(ROOT.glob("crates/*")):
        files = list(path.glob("proofs/**/*.antt"))
        if files:
            long = sum(f.read_text().count("\n") for f in files)
            answers = sum(f.name == "Answers.antt" for f in files)
            invariants = sum(f.name == "Invariants.antt" for f in files)
            found.append(f"{path.name}: {long} lines, {answers} files of answers, {invariants} of invariants")
    return found


def general():
    """Lemmas whose statement names nothing of the repository: the library may have them."""
    found = []
    for path in sorted(ROOT.glob("crates/*/proofs/*.antt")):
        text = path.read_text()
        ours = set()
        for use in re.finditer(r"use Rattle\.(\w+)\.[^\n{]*\{([^}]*)\}", text):
            if use.group(1) != "std":
                ours |= {name.strip().split(" as ")[-1].strip("◌ ") for name in use.group(2).split(",")}
        ours |= set(re.findall(r"^(?:abbrev |unfoldable )?(?:pub )?([\w'-]+) :", text, re.M))
        for lemma in re.finditer(r"^(?:pub )?([\w'-]+) : (.*(?:\n    .*)*)", text, re.M):
            if not set(re.findall(r"[A-Za-z_][\w'-]*", lemma.group(2))) & (ours - {lemma.group(1)}):
                found.append(f"{path.relative_to(ROOT / 'crates')}: {lemma.group(1)} : " + " ".join(lemma.group(2).split()))
    return found


POINTS = {
    "1": lambda: lines(r"^ *(pub(\(crate\))? )?enum \w+") + lines(r"&mut .*-> bool|\b(kind|weekday): u\d+|fn (kind_\w+|weekday)\(.*-> (Result<)?u32"),
    "2": twins,
    "3": lambda: lines(r"\bwhile |for \w+ in \(?\w+\.\.|^ +\w+ \+= (?!.*\.measured\.)"),
    "4": lambda: lines(r"^ *impl(<.*?>)? (Drop|PartialEq|Eq|Ord|PartialOrd|Clone|Copy) for|fn (number|from_number|kind_of)\(|-> &'static str|^ *const \w+: \w+ = \w+ \{|-> Result<String, (AllocError|NoRoom)>"),
    "5": lambda: facts() + parameters(),
    "6": lambda: lines(r"^ +(pub(\(crate\))? )?(count|len): (u8|usize),|^ +(pub )?(first|second|meter): usize,|: Vec<Vec<|: &mut Vec<bool>|let mut count\b"),
    "7": lambda: lines(r"\bdyn |: fn\(|\b(mark|figure|keyword|form|kind): (Mark|Figure|Keyword|Form|MeterForm|TableKind)\b"),
    "8": lambda: proofs() + general(),
}

if len(sys.argv) < 2 or (sys.argv[1] not in POINTS and sys.argv[1] != "all"):
    sys.exit(__doc__)
for point in POINTS if sys.argv[1] == "all" else [sys.argv[1]]:
    found = POINTS[point]()
    if sys.argv[1] != "all":
        print("\n".join(found))
    print(f"point {point}: {len(found)}")

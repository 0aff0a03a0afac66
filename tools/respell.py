#!/usr/bin/env python3
"""Respells the repository's own names in specs/ and proofs/ as today's Rattle spells names: facts and records in camel case
(`Adds-up` becomes `AddsUp`), every other definition, field and lemma in snake case (`week-of` becomes `week_of`). A lemma that would
get the name of a function of its crate gets `_lem` behind it, and OWN says the few names that would fall together with another.

usage: tools/respell.py     at the top of the repository

Names are those that a specs/ or proofs/ file declares, and they are respelled in its crate and in the crates above it. Names that the
check makes (of goals, steps and measures) and names of the library stay. It changes .antt files, the lines of must-fail/*.edit, and in
.rt files what stands outside strings and characters; comments stay as they are. It prints the names that still fall together. A
second run changes nothing."""
import collections
import glob
import re

# names that the rule above would make fall together with another name, a field or a parameter of the code
OWN = {
    "Days-agree": "SeasonDaysAgree",
    "Sites-agree": "SeasonSitesAgree",
    "event-hours": "season_event_hours",
    "meter-hours": "hours_of_meter",
}
MADE = ("decreases-", "invariant-", "ghost-", "returns-", "loop-")
DECL = re.compile(r"^(?P<pre>(?:abbrev |unfoldable |pub |record |data )*)(?P<name>[^\s(){}:,;]+)(?P<rest>.*)$")
INNER = re.compile(r"^\s+(?P<pre>(?:abbrev |unfoldable |pub )*)(?P<name>[^\s(){}:,;.=]+)\s*:\s")
SKIP = ("--", "use ", "mod ", "pub mod ", "module ", "unfolding", "ruleset", "pub ruleset", "mutual", "where", "infix", "let ", "|", "in ")
GOAL = re.compile(r"\bgoal\.([^\s(){}:,;]+)")
STD = re.compile(r"use (?:Rattle\.std|borrow|Prim|mathlib|lib|denote)\.[^;\n]*\{([^}]*)\}")
ALIAS = re.compile(r"use [^;\n{]* as ([\w-]+)")


def read(p):
    with open(p, encoding="utf-8") as f:
        return f.read()


def antt(crate="*"):
    return sorted(p for d in ("specs", "proofs") for p in glob.glob(f"crates/{crate}/{d}/**/*.antt", recursive=True))


def code(crate="*"):
    return sorted(glob.glob(f"crates/{crate}/src/**/*.rt", recursive=True))


def crates():
    """Each crate with the crates that it sees: itself and those below it."""
    lines = [line.split("#")[0].split(":") for line in read("crates.txt").split("\n") if ":" in line.split("#")[0]]
    below = {name.strip().split()[0]: deps.split() for name, deps in lines}

    def seen(name):
        return {name}.union(*(seen(d) for d in below[name] if d in below))

    return {name: seen(name) for name in below}


def declared(crate):
    """The names that a crate declares: each with what it is, a field, a lemma or another definition."""
    found = collections.defaultdict(set)
    for p in antt(crate):
        inside = False
        for line in read(p).split("\n"):
            if line and not line[0].isspace():
                inside = bool(re.match(r"(pub )?(record|data) ", line))
            if not line.strip() or line.lstrip().startswith(SKIP):
                continue
            if line[0].isspace():
                if m := INNER.match(line):
                    found[m["name"]].add("field" if inside else "other" if "abbrev" in m["pre"] or "unfoldable" in m["pre"] else "lemma")
            elif m := DECL.match(line):
                lemma = not re.search(r"abbrev|unfoldable|record|data", m["pre"]) and "/specs/" not in p
                found[m["name"]].add("lemma" if lemma and re.match(r"\s*:", m["rest"]) else "other")
    return found


def respelled(name):
    if name[0].isupper():
        return "".join(p[:1].upper() + p[1:] for p in name.split("-"))
    return name.replace("-", "_")


class Names:
    def __init__(self):
        self.sees = crates()
        self.library, self.made, self.aliases = set(), set(), set()
        for p in antt() + code():
            text = read(p)
            for m in STD.finditer(text):
                self.library |= {w.strip().split(" as ")[0] for w in m[1].split(",")}
            self.made |= set(GOAL.findall(text))
            self.aliases |= set(ALIAS.findall(text))
        self.of = {crate: {n: k for n, k in declared(crate).items() if self.own(n)} for crate in self.sees}
        self.functions = {crate: {f for p in code(crate) for f in re.findall(r"\bfn (\w+)", read(p))} for crate in self.sees}

    def own(self, name):
        return "-" in name and name not in self.made and name not in self.library and not name.startswith(MADE)

    def seen_in(self, crate):
        """The names that can stand in a crate: each with its new spelling and whether it is a field."""
        names = {}
        for other in sorted(self.sees[crate]):
            for name, kinds in self.of[other].items():
                new = OWN.get(name, respelled(name))
                lemma = new + "_lem" if kinds == {"lemma"} and new in self.functions[other] else new
                was = names.get(name, (new, lemma, False))
                names[name] = (new, lemma if lemma != new else was[1], was[2] or "field" in kinds)
        return names

    def turned(self, crate, text):
        names = self.seen_in(crate)
        if not names:
            return text
        pattern = re.compile(r"(?<![\w'\-])(" + "|".join(re.escape(n) for n in sorted(names, key=len, reverse=True)) + r")(?![\w'\-])")

        def one(m):
            plain, lemma, field = names[m[1]]
            before = text[: m.start()]
            if before.endswith("."):
                head = re.search(r"([\w'\-]+)\.$", before)
                module = head and (head[1] in self.aliases or head[1][0].isupper())
                return lemma if module else plain if field else m[1]
            line = before[before.rfind("\n") + 1 :]
            if line[:1].isspace() and not line.strip(" ") and re.match(r"\s*=", text[m.end() :]):
                return plain
            return lemma

        return pattern.sub(one, text)


CODE_STAYS = r"""("(?:[^"\\]|\\.)*"|b?'(?:[^'\\\n]|\\[^\n]{1,8})'|//[^\n]*)"""
ANTT_STAYS = r"((?m:^\s*--[^\n]*))"


def outside(stays, text, turn):
    """The text with what stands outside comments (and strings and characters of code) turned."""
    return "".join(p if i % 2 else turn(p) for i, p in enumerate(re.split(stays, text)))


def main():
    names, count, changed = Names(), 0, 0
    for crate in sorted(names.sees):
        seen = names.seen_in(crate)
        count += len(names.of[crate])
        there = {w for p in antt(crate) for w in re.findall(r"(?<![\w'\-.])([\w']+)(?![\w'\-])", read(p))}
        together = collections.defaultdict(set)
        for old, (_, new, _) in seen.items():
            together[new].add(old)
        for new, olds in sorted(together.items()):
            if len(olds) > 1 or new in there:
                print(f"fall together in {crate}: {new}, of {', '.join(sorted(olds))}")
    for crate in sorted(names.sees):
        for p in antt(crate) + code(crate) + sorted(glob.glob(f"crates/{crate}/must-fail/*.edit")):
            text = read(p)
            stays = CODE_STAYS if p.endswith(".rt") else ANTT_STAYS
            new = outside(stays, text, lambda part: names.turned(crate, part))
            if new != text:
                changed += 1
                with open(p, "w", encoding="utf-8") as f:
                    f.write(new)
    print(f"{count} names respelled, {changed} files changed")


main()

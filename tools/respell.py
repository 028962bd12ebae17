#!/usr/bin/env python3
"""Brings the repository's own names to the spelling of today's Rattle: words and lemmas in snake case.

usage: tools/respell.py [--table]

Run once, right after port.py, at the top of the repository. Every definition, lemma, field and local name that specs/ or proofs/ declares and
that is written with dashes or in camel case is written with underscores, wherever it stands: in .antt files, in clauses of .rt files, in
comments between backticks. A name with an operator in it keeps the dash before the operator. Where two names would fall together, the one
that is defined keeps the name and the lemma gets _lem. Names of the kit, of goals and of what a proof file reads of the code stay as they are.
--table prints old and new names and changes nothing.
"""
import collections
import glob
import os
import re
import sys

ID = r"[^\s(){}\[\],;.«»\"`:@#]+"
KEYWORDS = r"(?:pub|abbrev|unfoldable|data|record|opaque|ruleset)"
OWN = "|".join(sorted(os.path.basename(it) for it in glob.glob("crates/*")))

# Names that port.py made one, by the files in which the lemma is meant.
FELL_TOGETHER = {
    "at_least": ["crates/plan/"],
    "kind_at": ["crates/step/specs/Laws.antt"],
    "new_row": ["crates/explore/proofs/"],
    "or_else": ["crates/theory/specs/Wire/WritingSteps.antt"],
    "room_for": ["crates/explore/proofs/Trying.antt", "crates/laying/proofs/"],
    "row_at": ["crates/judge/proofs/Products.antt"],
    "row_of": ["crates/numbering/proofs/"],
}
# Of two lemmas that would fall together, the one that is renamed.
LATER = {}


def files():
    for kind in ("specs", "proofs"):
        yield from sorted(glob.glob(f"crates/*/{kind}/**/*.antt", recursive=True))


def is_proof(path):
    return os.path.basename(path) == "Proof.antt"


def snake(name):
    if re.match(r"D-", name):
        return name
    if re.match(r"[A-Z][A-Za-z0-9]*[a-z]", name):
        return name
    name = re.sub(r"([a-z0-9])([A-Z])(?=[a-z]|$|-|')", lambda m: m.group(1) + "_" + m.group(2).lower(), name)
    parts = name.split("-")
    out = parts[0]
    for part in parts[1:]:
        out += ("_" if re.match(r"[A-Za-z0-9ℤ]", part) else "-") + part
    return out


def declared():
    """Each own name with how it is declared: 'word' for a definition, 'lemma' else."""
    found = collections.defaultdict(set)
    goals = set()
    for path in files():
        for line in open(path, encoding="utf-8"):
            if line.strip().startswith("--"):
                continue
            line = line.rstrip()
            signature = re.match(rf"^\s*((?:{KEYWORDS}\s+)*)({ID})(?:\s+[({{].*?)?\s:(?:\s(.*))?$", line)
            head = re.match(rf"^\s*((?:{KEYWORDS}\s+)+)({ID})", line)
            it = signature or head
            if it is None or it.group(2) in ("let", "module", "use", "open", "elim", "where"):
                continue
            name, words = it.group(2), it.group(1).split()
            kind = "word" if {"abbrev", "unfoldable", "data", "record"} & set(words) else "lemma"
            if is_proof(path):
                says = (signature.group(3) or "") if signature else ""
                if says.startswith("tie.") and not says.startswith("tie.Start"):
                    goals.add(name)
                    continue
                if "statement" in says or re.match(r"(invariant-|decreases-|μ-)", name) or "-μ-" in name:
                    goals.add(name)
                    continue
            found[name].add(kind)
    return found, goals


def local_names():
    found = set()
    for path in files():
        text = "\n".join(it for it in open(path, encoding="utf-8").read().split("\n") if not it.strip().startswith("--"))
        for m in re.finditer(rf"\blet ({ID})", text):
            found.add(m.group(1))
        for m in re.finditer(r"[({]([^(){}:=]*?) : ", text):
            found |= set(m.group(1).split())
        for m in re.finditer(r"λ ([^.()]*)\.", text):
            found |= set(m.group(1).split())
    return found


def imported():
    found = set()
    for path in list(files()) + sorted(glob.glob("crates/*/src/**/*.rt", recursive=True)):
        for m in re.finditer(r"(?m)^\s*(?:pub |ghost )*use ([^\s{;]+)\.\{([^{}]*)\}", open(path, encoding="utf-8").read()):
            if not re.match(rf"Rattle\.(?:{OWN})\.", m.group(1)):
                found |= {it.strip().split(" as ")[-1] for it in m.group(2).split(",")}
    return found


def table():
    own, goals = declared()
    kit = imported()
    local = {it for it in local_names() if "-" in it} - kit - set(own)
    names = {it for it in own if it not in kit}
    by_new = collections.defaultdict(set)
    for it in names:
        by_new[snake(it)].add(it)
    new = {}
    for target, olds in by_new.items():
        ordered = sorted(olds, key=lambda it: ("word" not in own[it], "-" in it, "_" in it, it))
        if target in kit and target not in names:
            ordered = [None] + ordered
        for i, old in enumerate(ordered):
            if old is not None:
                new[old] = target if i == 0 else target + "_lem" + ("" if i == 1 else str(i))
    for it in local:
        new.setdefault(it, snake(it))
    for it in goals - set(own):
        new.pop(it, None)
    return {a: b for a, b in new.items() if a != b}, own, goals, kit


TOKEN = re.compile(ID)
# Fields that are spelled as a lemma is: a field's name is its record's own.
FIELDS = {"start-row", "some-letters", "spelt-from", "goes_on", "no-atom", "held_in", "refused-by"}
# Where such a name is declared in a section and is a lemma all the same.
SECTIONS = {"goes_on": "t.stopped"}
# The aliases of modules: behind them stands a lemma, and behind any other dot a field, a step of the code or a folder.
ALIASES = ("bodies",)


def plain(name):
    return re.sub(r"_lem\d*$", "", name)


def turned(text, new):
    def one(m):
        name = m.group(0)
        to = new.get(name, name)
        before, behind = text[: m.start()], text[m.end() :]
        if before.endswith(".") and not re.search(rf"(?<![\w.])(?:{'|'.join(ALIASES)})\.$", before):
            return plain(to) if to != name else to
        if name in FIELDS:
            given = re.match(r" = ", behind) and (not before.strip() or re.search(r"[{;]\s*$", before))
            if given and (before.startswith(" ") or before.strip()):
                return plain(to)
            section = name in SECTIONS and behind.startswith(" : " + SECTIONS[name])
            if re.match(r"\s+pub $", before) and re.match(r" :| \(", behind) and not section:
                return plain(to)
        return to

    return TOKEN.sub(one, text)


def in_comment(text, new):
    text = re.sub(r"`[^`]*`", lambda m: turned(m.group(0), new), text)
    return TOKEN.sub(lambda m: new.get(m.group(0), m.group(0)) if re.match(r"[a-z]+[A-Z]", m.group(0)) else m.group(0), text)


def turn_file(path, new, mark):
    lines = open(path, encoding="utf-8").read().split("\n")
    out = []
    for line in lines:
        at = line.find(mark)
        while at > 0 and not line[at - 1].isspace():
            at = line.find(mark, at + 1)
        code, comment = (line, "") if at < 0 else (line[:at], line[at:])
        if mark == "//":
            code = re.sub(r'("(?:[^"\\]|\\.)*")|([^"]+)', lambda m: m.group(1) or turned(m.group(2), new), code)
        else:
            code = turned(code, new)
        out.append(code + in_comment(comment, new))
    text = "\n".join(out)
    if text != "\n".join(lines):
        open(path, "w", encoding="utf-8").write(text)
        return 1
    return 0


def main():
    new, own, goals, kit = table()
    if "--table" in sys.argv:
        for a, b in sorted(new.items()):
            print(a, b)
        return
    changed = 0
    for path in files():
        here = dict(new)
        for name, places in FELL_TOGETHER.items():
            if any(path.startswith(it) for it in places):
                here[name] = name + "_lem"
        changed += turn_file(path, here, "--")
    words = {a: plain(b) for a, b in new.items()}
    words = {a: b for a, b in words.items() if a != b}
    for path in sorted(glob.glob("crates/*/src/**/*.rt", recursive=True)):
        changed += turn_file(path, words, "//")
    print(f"respell: {len(new)} names, {changed} files")


main()

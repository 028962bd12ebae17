#!/usr/bin/env python3
"""Checks the names of the project: `python3 tools/names.py`, from the repository's root.

It prints nothing and exits 0 where all is well; else it prints a line for each fault and exits 1.

1. A definition is defined once in all crates. It is a public name of specs/ or proofs/ that is declared as an `abbrev`, `unfoldable`, a record, data or
   a ruleset.
2. A law, any other public name, is defined once in its crate. What a function's Answers.antt or Invariants.antt declares is its own, and no law.
3. The head of each group of theory (specs/GROUP.antt) has, above the `pub mod` line of a file, a line `--   name   meaning` for each name of
   that file that is used outside the group, and for no other name.
4. A name that a line `use M.{..}` brings in is used in the file. (The records of a function's Goals may be there for their fields.)
5. A name in backticks in docs/ and README.md is in crates/, include/, rust/ or bench/. A name is one word with a capital, an underscore or a hyphen. A
   path that begins with crates/ is there, with or without `.antt` or `.edit`. (docs/PORT.md, docs/DESIGN-PASS.md and docs/LOOK-BACK.md tell of names that were.)
6. Each `old:` text of a must-fail edit is in its file exactly once, where the pairs before it are applied.
7. The calls that pelohuaki_archive exports have the parameters and the contracts of those of pelohuaki_c.
"""
import re
import sys
from collections import defaultdict
from pathlib import Path

THEORY = Path("crates/theory/specs")
USE = re.compile(r"^[ \t]*(?:ghost )?(?:pub )?use ([^\s{;]+?)(?:\.\{([^}]*)\}| as ([^\s;]+))?;?[ \t]*$", re.M)
MODULE = re.compile(r"Rattle\.(\w+)\.(?:specs|proofs)\.(.+)")
COMMENT = {".antt": re.compile(r"(^|(?<=\s))--(\s.*|-*)$", re.M), ".rt": re.compile(r"//.*$", re.M)}
BETWEEN = r"\s(){};,."  # what no name has in it

faults = []


def fault(place, text):
    faults.append(f"{place}: {text}")


def is_operator(name):
    return "◌" in name


class Source:
    """A file of antt or Rattle: what it brings in, and the rest of its text without comments."""

    def __init__(self, path):
        self.path, self.crate = path, path.parts[1]
        text = COMMENT[path.suffix].sub("", path.read_text())
        self.code = USE.sub("", text)
        self.names = []  # (module, name there, name here)
        self.aliases = []  # (module, alias)
        for module, names, alias in USE.findall(text):
            if alias:
                self.aliases.append((module, alias))
            for name in filter(None, map(str.strip, names.split(","))):
                there, _, here = name.partition(" as ")
                self.names.append((module, there.strip(), (here or there).strip()))
        # a word behind a dot, as in `q.n`, is a field
        self.words = set(re.split(f"[{BETWEEN}]+", re.sub(rf"\.[^{BETWEEN}]+", " ", self.code)))

    def has(self, name):
        """An operator is used by its parts or by its whole name."""
        return name in self.words or is_operator(name) and all(p in self.words for p in name.split("◌") if p)

    def uses(self):
        """(crate, module, name) of each name of a crate that the file brings in, or that it has as `alias.name`."""
        found = [(module, there) for module, there, _ in self.names]
        for module, alias in self.aliases:
            found += [(module, n) for n in re.findall(rf"(?<![^{BETWEEN}]){re.escape(alias)}\.([^{BETWEEN}]+)", self.code)]
        for module, name in found:
            known = MODULE.fullmatch(module)
            if known:
                yield known[1], known[2], name

    def publics(self):
        """(name, kind, line) of each public name: a `definition`, a `law`, a `field` or a `constructor`."""
        block = None  # the record or data around a line: what it is, its indent, the indent of what is in it
        for number, line in enumerate(self.path.read_text().split("\n"), 1):
            words, indent = line.split(), len(line) - len(line.lstrip())
            if not words or words[0].startswith("--"):
                continue
            if block and indent > block[1]:
                block[2] = block[2] or indent
                if indent == block[2] and block[0] == "data" and words[1:2] == [":"]:
                    yield words[0], "constructor", number
                if indent == block[2] and block[0] == "record" and words[0] == "pub":
                    yield words[1], "field", number
                continue
            block = None
            kind = "definition" if words[0] in ("unfoldable", "abbrev") and words.pop(0) else "law"
            public = words[0] == "pub" and words.pop(0)
            what = words.pop(0) if words[0] in ("record", "data", "ruleset", "mod", "use") else ""
            if what in ("record", "data"):
                block = [what if public else "", indent, 0]
            if public and what not in ("mod", "use"):
                yield re.split(r"[(){}:]", words[0])[0], "definition" if what else kind, number


def defined_once(sources):
    places = defaultdict(list)
    for s in (s for s in sources if s.path.name not in ("Answers.antt", "Invariants.antt")):
        for name, kind, line in s.publics():
            if kind in ("definition", "law"):
                places[s.crate if kind == "law" else "", name].append(f"{s.path}:{line}")
    for (crate, name), at in sorted(places.items()):
        if len(at) > 1:
            fault(at[0], f"the {'law' if crate else 'definition'} {name} is defined again at {', '.join(at[1:])}")


def heads_right(sources):
    wanted = defaultdict(set)  # (group, file): its names that are used outside the group
    for s in sources:
        group = s.path.relative_to(THEORY).parts[0] if s.path.is_relative_to(THEORY) else ""
        for crate, module, name in s.uses():
            at = tuple(module.split("."))
            if crate == "theory" and at[0] != group:
                wanted[at].add(name)
    files = {s.path: s for s in sources}
    for head in sorted(p for p in THEORY.glob("*.antt") if p.with_suffix("").is_dir()):
        above = []
        for line in head.read_text().split("\n"):
            entry, module = re.match(r"--   (\S+)\s{2,}\S", line), re.match(r"pub mod (\S+)", line)
            if entry:
                above.append(entry[1])
            if module:
                file, outside = module[1], wanted[head.stem, module[1]]
                there = {name for name, _, _ in files[head.with_suffix("") / f"{file}.antt"].publics()}
                for name in sorted(set(above)):
                    if above.count(name) > 1:
                        fault(head, f"{name} stands above {file} more than once")
                    if name not in there:
                        fault(head, f"{name} stands above {file} and is no public name of it")
                    elif name not in outside:
                        fault(head, f"{name} stands above {file} and is not used outside {head.stem}")
                for name in sorted(outside - set(above)):
                    fault(head, f"{name} of {file} is used outside {head.stem} and does not stand above {file}")
                above = []


def imports_used(sources):
    for s in sources:
        for module, _, here in s.names:
            if not s.has(here) and not module.endswith(".Goals"):
                fault(s.path, f"{here} of {module} is not used")


def documents_right(sources):
    known = set()
    for s in sources:
        known.update(re.split(f"[{BETWEEN}:&<>\\[\\]]+", s.code), s.path.with_suffix("").parts)
    for path in (p for folder in ("include", "rust", "bench") for p in Path(folder).glob("**/*")):
        if path.suffix in (".h", ".rs", ".toml") and "target" not in path.parts:
            known.update(re.findall(r"[\w-]+", path.read_text()))
    for page in [*sorted(p for p in Path("docs").glob("**/*.md") if p.name not in ("PORT.md", "DESIGN-PASS.md", "LOOK-BACK.md")), Path("README.md")]:
        text = re.sub(r"^```.*?^```", lambda block: "\n" * block[0].count("\n"), page.read_text(), flags=re.M | re.S)
        for number, line in enumerate(text.split("\n"), 1):
            for name in re.findall(r"`([^`\s]+)`", line):
                if re.fullmatch(r"[^\W\d]\w*(-\w+)*", name) and re.search(r"[A-Z_-]", name) and name not in known:
                    fault(f"{page}:{number}", f"`{name}` is no name of the project")
            for path in re.findall(r"crates/[\w/.-]*\w", line):
                if "NAME" not in path and not any(Path(path + end).exists() for end in ("", ".antt", ".edit")):
                    fault(f"{page}:{number}", f"{path} is not there")


def edits_right():
    for edit in sorted(Path("crates").glob("*/must-fail/*.edit")):
        texts, path, old = {}, None, ""
        for line in edit.read_text().split("\n"):
            if line.startswith("file: "):
                path = edit.parent.parent / line[6:]
                texts.setdefault(path, path.read_text() if path.is_file() else "")
            elif line.startswith("old: "):
                old = line[5:]
            elif line.startswith("new:"):
                times = texts.get(path, "").count(old) if old else 0
                if times == 1:
                    texts[path] = texts[path].replace(old, line[4:].removeprefix(" "))
                else:
                    fault(edit, f"its text is in {path} {times} times: {old.strip()}")
                old = ""


def calls_of(crate):
    """The public calls of a crate, each with its parameters, result and contract."""
    text = COMMENT[".rt"].sub("", Path(f"crates/{crate}/src/lib.rt").read_text())
    found = re.findall(r'^pub (?:extern "C" )?fn (\w+)(.*?)^\{', text, re.M | re.S)
    return {name: re.sub(r"\s+|,(?=\s*\))", "", rest) for name, rest in found}


def exports_alike():
    ours, exported = calls_of("pelohuaki_c"), calls_of("pelohuaki_archive")
    for name in sorted(ours.keys() | exported.keys()):
        if ours.get(name) != exported.get(name):
            fault("crates/pelohuaki_archive/src/lib.rt", f"{name} is not as pelohuaki_c has it")


antt = [Source(p) for part in ("specs", "proofs") for p in sorted(Path("crates").glob(f"*/{part}/**/*.antt"))]
both = antt + [Source(p) for p in sorted(Path("crates").glob("*/src/**/*.rt"))]
defined_once(antt)
heads_right(both)
imports_used(both)
documents_right(both)
edits_right()
exports_alike()
print(*faults, sep="\n", end="\n" if faults else "")
sys.exit(1 if faults else 0)

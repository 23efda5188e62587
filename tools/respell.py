#!/usr/bin/env python3
"""Brings the names of the definitions and lemmas to today's spelling: words in snake case, types in camel case.

usage: python3 tools/respell.py [--dry]      at the top of the repository, once, right after the kit's port.py

It renames what specs/ and proofs/ declare, where it is declared and wherever it is named: in clauses, imports, must-fail edits of
specs/ and, between backticks, in README.md and docs/. Functions of src/, exported names, strings, inputs and outputs keep theirs.
It stops where two names of one file would fall together.
"""
import collections
import os
import re
import sys

ROOT = "crates"
NAME = r"(?<![\w'·«-])[^\W\d_][\w'·]*(?:-[\w'·*+]+)*"
DECLARED = re.compile(r"^(\s*)((?:(?:pub|abbrev|unfoldable)\s+)*)(?:(record|data)\s+)?(%s)((?:\s+[({].*)?)\s*:(?:\s|$)(.*)$" % NAME)
NOT_NAMES = {"let", "in", "where", "use", "mod", "elim", "module", "unfolding", "record", "data"}
# names that would fall together with another, or with a word of the language, and what they are called instead
SPECIAL = {}
try:
    with open(os.path.join(os.path.dirname(os.path.realpath(__file__)), "respell.txt"), encoding="utf-8") as it:
        for line in it:
            if line.strip() and not line.startswith("#"):
                old, new = line.split()
                SPECIAL[old] = new
except FileNotFoundError:
    pass


def files(*endings):
    for folder, dirs, names in os.walk(ROOT):
        dirs[:] = sorted(d for d in dirs if d != "out")
        for n in sorted(names):
            if n.endswith(endings):
                yield os.path.join(folder, n)


def text(path):
    with open(path, encoding="utf-8") as it:
        return it.read()


def snake(word):
    word = re.sub(r"(?<=[a-z0-9])([A-Z])", r"_\1", word)
    return word.lower()


def today(name):
    """A name in today's spelling."""
    if name in SPECIAL:
        return SPECIAL[name]
    if name[0].isupper() and "-" in name:
        first, *rest = name.split("-")
        if name in TYPES:
            return first + "".join(r[:1].upper() + r[1:] for r in rest)
        return first + "-" + "_".join(snake(r) for r in rest)
    if name[0].isupper():
        return name
    parts = ["get_or" if p == "getD" else p for p in name.split("-")]
    return "_".join(p if p[:1].isupper() else snake(p) for p in parts)


TYPES = set()


def own():
    """The names that a file of specs/ or a file of lemmas declares, but those of a function's own proof."""
    found = collections.defaultdict(set)
    for path in files(".antt"):
        if path.endswith("/Proof.antt"):
            continue
        for line in text(path).splitlines():
            m = DECLARED.match(line)
            if not m or m.group(4) in NOT_NAMES:
                continue
            name = m.group(4)
            found[name].add(path)
            if m.group(3) or re.search(r"→ Type \d$|: Type \d$|^Type \d$", line):
                TYPES.add(name)
    return found


def words(t):
    return set(re.findall(NAME, t))


def turned(t, names, walk=False):
    """The text with its names respelled; in a walk by hand what stands behind a dot is a step of the walk and stays."""

    def one(m):
        behind_dot = t[m.start() - 1 : m.start()] == "."
        if walk and behind_dot and not re.search(r"(?<![\w'])[A-Z]\w*\.$", t[: m.start()][-40:]):
            return m.group(0)
        return names.get(m.group(0), m.group(0))

    return re.sub(NAME, one, t)


def clauses(t, names):
    """A source file with the names in its clauses and ghost imports respelled, and nothing else."""
    out, at = [], 0
    for m in re.finditer(r"ghost use [^;]*;|(?:requires|ensures|ghost|invariant|decreases)\b[^\n{;=]*\{|#!?\[tactic[^\n]*\]", t):
        if m.start() < at:
            continue
        end = m.end()
        if t[m.end() - 1] == "{" and not m.group(0).startswith("ghost use"):
            depth = 1
            while depth:
                depth += {"{": 1, "}": -1}.get(t[end], 0)
                end += 1
        out += [t[at : m.start()], turned(t[m.start() : end], names)]
        at = end
    return "".join(out) + t[at:]


def main(argv):
    declared = own()
    names = {n: today(n) for n in declared if today(n) != n}
    clash = 0
    for path in files(".antt"):
        t = text(path)
        t = re.sub(r"--.*", "", t)
        there = words(re.sub(r"\bRattle(\.[\w'+]+)+", "", t))
        mapped = {}
        for w in sorted(there):
            to = names.get(w, w)
            if to in mapped and mapped[to] != w:
                print(f"{path}: {mapped[to]} and {w} are both {to}")
                clash += 1
            mapped[to] = w
    # what a clause would take for a parameter, a field or a constant
    for path in files(".rt"):
        t = text(path)
        cited = {names[w] for w in words(" ".join(re.findall(r"ghost use [^;]*;", t))) if w in names}
        local = set(re.findall(r"(?:let (?:mut )?|[(,]\s*(?:mut )?|^\s+(?:pub )?)(\w+):(?!:)", t, re.M)) | set(re.findall(r"let (?:mut )?(\w+)", t))
        for w in sorted(cited & local):
            print(f"{path}: {w} is a definition and a parameter, a field or a local")
            clash += 1
    print(f"{len(names)} names of {len(declared)}, {clash} fall together")
    if "--dry" in argv:
        return 0
    if clash:
        return 1
    # a module `specs.contracts` is made, so a file of that name goes by another
    for path in list(files(".antt")):
        if path.endswith("/specs/Contracts.antt"):
            os.rename(path, path.replace("Contracts", "Cited"))
    for path in files(".antt", ".rt", ".edit"):
        t = text(path)
        crate = path.split("/")[1]
        if path.endswith("/specs/Lib.antt") and os.path.exists(f"{ROOT}/{crate}/specs/Cited.antt"):
            t = re.sub(r"\bContracts\b", "Cited", t)
        t = re.sub(r"\.specs\.Contracts\b", ".specs.Cited", t)
        if path.endswith(".antt"):
            new = turned(t, names, path.endswith("/Proof.antt"))
        elif path.endswith(".rt"):
            new = clauses(t, names)
        else:
            new = turned(t, names) if re.search(r"^file: (specs|proofs)/", t, re.M) else t
        if new != text(path):
            with open(path, "w", encoding="utf-8") as it:
                it.write(new)
    pages = ["README.md"] + ["docs/" + n for n in sorted(os.listdir("docs")) if n.endswith(".md")]
    for path in pages:
        t = text(path)
        new = re.sub(r"`[^`\n]+`", lambda m: turned(m.group(0), names), t)
        if new != t:
            with open(path, "w", encoding="utf-8") as it:
                it.write(new)
    return 0


if __name__ == "__main__":
    raise SystemExit(main(sys.argv[1:]))

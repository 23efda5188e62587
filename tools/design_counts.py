#!/usr/bin/env python3
"""Counts the places of docs/DESIGN-PASS.md in crates/*/src, point by point. Usage: tools/design_counts.py [--list POINT]"""
import collections
import glob
import re
import subprocess
import sys

FILES = sorted(glob.glob("crates/*/src/*.rt"))


def lines():
    for f in FILES:
        for i, l in enumerate(open(f, encoding="utf-8"), 1):
            yield f, i, l.rstrip("\n")


def grep(pattern, no_comment=True):
    r = re.compile(pattern)
    return [(f, i, l.strip()) for f, i, l in lines() if r.search(l) and not (no_comment and l.lstrip().startswith("//"))]


def heads():
    """Each function's head on one line."""
    for f in FILES:
        text = open(f, encoding="utf-8").read()
        for m in re.finditer(r"^\s*(?:pub )?(?:extern \"C\" )?fn (\w+)[^{]*?\)(?: -> [^\n{]*)?\s*\n", text, re.M):
            yield f, text.count("\n", 0, m.start()) + 1, re.sub(r"\s+", " ", m.group(0)).strip()


def in_heads(pattern):
    r = re.compile(pattern)
    return [h for h in heads() if r.search(h[2])]


def facts():
    """The facts of `requires`, split at the outermost ×, and the functions in which each stands."""
    where = collections.defaultdict(set)
    name = None
    for f, i, l in lines():
        m = re.search(r"\bfn (\w+)", l)
        if m:
            name = f.split("/")[1] + "::" + m.group(1)
        m = re.match(r"\s+requires(?: \w+)? \{ (.*) \}$", l)
        if not m:
            continue
        depth, part, parts = 0, "", []
        for c in m.group(1):
            if c == "(":
                depth += 1
            if c == ")":
                depth -= 1
            if c == "×" and depth == 0:
                parts.append(part)
                part = ""
            else:
                part += c
        parts.append(part)
        for p in parts:
            where[re.sub(r"^\((.*)\)$", r"\1", p.strip())].add(name)
    return {k: v for k, v in where.items() if len(v) >= 3}


POINTS = {
    "1a own enums": lambda: grep(r"^\s*(pub )?enum "),
    "1b flags in structs": lambda: grep(r"^\s+(pub )?\w+: bool,"),
    "1c numbers for refusals, kinds, phases": lambda: grep(r"\b(refusal|kind|phase|number): u(8|64)\b|^pub const [A-Z_]+: u(8|64) = \d+;"),
    "1d a number in place of none (by the comment above)": lambda: grep(
        r"^\s*//.*(or (else )?0\b|0 where|0 for none|0 beyond|256 for|no byte|16 where|37 of|1,025 where|, or n\b|It is n where|all of them where there is none|one that holds nothing)", False),
    "2 twins (hooks/twins, 6 like lines)": None,
    "3 while and loop": lambda: grep(r"^\s*(while|loop)\b"),
    "3 of them with a counter stepped by hand": lambda: grep(r"^\s*\w+ (\+|-)= (1|8|24|64|LOCATION_SIZE|LOGGED_SIZE|TAIL_SIZE|TO_TABLE);|^\s*i = i \+ 1;|^\s*i = j \+ 1;"),
    "4 equality, order, least and greatest, conversion by hand": lambda: grep(
        r"\bfn (less|same|before|ahead|is_at|is_same|least|greatest|lesser|at_most|wide|wider|over8|below|parts_within|part_end|nearer|digit|third)\b"),
    "5 facts in the requires of three or more functions": lambda: [("", len(v), k) for k, v in sorted(facts().items(), key=lambda e: -len(e[1]))],
    "6 an index and a count beside a slice": lambda: in_heads(r"&(mut )?('a )?\[\w+\].*\b(at|base|from|lo|p|start|work|table|a|b): usize.*\b(n|count|hi|upto|w|m|children|len|e): usize"),
    "7 a switch among the parameters": lambda: in_heads(r"\b\w+: bool\b"),
    "8 answers to goals": None,
}


def count_8():
    n = 0
    for f in glob.glob("crates/*/proofs/**/Answers.antt", recursive=True):
        n += len(re.findall(r"^pub \S+ : goal\.", open(f, encoding="utf-8").read(), re.M))
    return n


def main():
    for name, find in POINTS.items():
        if find is None:
            if name.startswith("8"):
                print(f"{name}: {count_8()}")
            continue
        got = find()
        print(f"{name}: {len(got)}")
        if len(sys.argv) == 3 and name.startswith(sys.argv[2]):
            for g in got:
                print("   ", *g)


main()

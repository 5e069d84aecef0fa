#!/usr/bin/env python3
"""Counts the places that docs/DESIGN-PASS.md speaks of, in the src/ and proofs/ of the tree that it is started in.

    tools/places.py        the counts
    tools/places.py -v     each place too

Tests (src/tests.rt and src/tests/) are left out. It goes by text: what it finds is where to look, and the page says what was done with each.
"""

import collections
import glob
import re
import sys

VERBOSE = "-v" in sys.argv[1:]
SOURCES = sorted(f for f in glob.glob("crates/*/src/**/*.rt", recursive=True) if not f.endswith("tests.rt") and "/src/tests/" not in f)


def lines(pattern, but=None):
    for f in SOURCES:
        for n, text in enumerate(open(f, encoding="utf-8"), 1):
            if text.lstrip().startswith("ghost ") or not re.search(pattern, text) or but and re.search(but, text):
                continue
            yield f"{f}:{n}: {text.strip()}"


def functions():
    """(file, name, head with clauses, body) of each function."""
    for f in SOURCES:
        all_lines = [re.sub(r"//.*", "", x).rstrip() for x in open(f, encoding="utf-8")]
        for n, first in enumerate(all_lines):
            m = re.match(r"( *)(?:pub(?:\(\w+\))? )?(?:final )?fn (\w+)", first)
            if not m:
                continue
            at = n
            while not re.search(r"(\{|\{\}|;)$", all_lines[at]):
                at += 1
            head = "\n".join(all_lines[n : at + 1])
            body = []
            if all_lines[at].endswith("{"):
                while all_lines[at + 1] != m.group(1) + "}":
                    at += 1
                    body.append(all_lines[at])
            yield f, m.group(2), head, "\n".join(body)


def twins():
    """Functions of the same text but for types, numbers and field names of which the function bears the name."""
    groups = collections.defaultdict(list)
    for f, name, head, body in functions():
        if not body.strip():
            continue
        same = re.sub(r"\bb?\"[^\"]*\"|\b[0-9][0-9_a-fA-Fx]*\b", "N", body)
        same = re.sub(r"\b(u8|u16|u32|u64|usize|bool)\b|\b[A-Z]\w*", "T", same)
        same = re.sub(r"\b%s\b" % name, "F", same)
        groups[re.sub(r"\s+", " ", same)].append(f"{f}: {name}")
    for group in groups.values():
        if len(group) > 1:
            yield " = ".join(group)


def facts():
    """Clauses that stand in three functions or more, whatever parameters they speak of, and pairs of parameters that do."""
    clauses, pairs = collections.defaultdict(set), collections.defaultdict(set)
    for f, name, head, body in functions():
        where = f"{f}: {name}"
        given = re.search(r"fn \w+[^(]*\((.*?)\)(?: ->|\s+(?:requires|ensures|where)\b|\s*$)", head, re.S)
        names = re.findall(r"(\w+): (&?(?:mut )?\[?[\w:<>]+\]?)", given.group(1)) if given else []
        known = "|".join(["self", *(n for n, _ in names)])
        for m in re.finditer(r"\b(?:requires|ensures)(?: \w+)? \{ (.*?) \}$", head, re.M):
            if "result" not in m.group(1):
                clauses[re.sub(rf"\b(?:{known})(?:\.\w+)*\b", "_", m.group(1))].add(where)
        for i, a in enumerate(names):
            for b in names[i + 1 :]:
                pairs[f"{a[0]}, {b[0]}"].add(where)
    for what, found in (("clause", clauses), ("parameters", pairs)):
        for text, places in sorted(found.items()):
            if len(places) > 2:
                yield f"{what} {text}: {len(places)} functions, {', '.join(sorted(p.split(': ')[1] for p in places))}"


def proofs():
    for f in sorted(glob.glob("crates/*/proofs/**/*.antt", recursive=True)):
        if not f.endswith("/Lib.antt"):
            yield f"{f}: {sum(1 for _ in open(f, encoding='utf-8'))} lines"


POINTS = [
    ("1 own enums; numbers that stand for none or for a reason", lambda: lines(r"\benum \w+|\bplace: (u8|8)\b|place == 8|for none\b|past the last cell|where there is no word|stands for no word")),
    ("2 twins: functions of one text but for types and numbers", twins),
    ("3 loops", lambda: lines(r"^\s*(while|loop|for)\b", r"^\s*for \w+ in .*\{\}")),
    ("4 comparison, conversion and printing by hand", lambda: lines(r"\bfn (eq|ne|same|less|cmp|partial_cmp|clone|fmt|number|row|place|read|from_\w+|to_\w+|label_\w+|write_\w+)\b|\bas (u8|u16|u32|u64|usize)\b")),
    ("5 a fact or two parameters in three functions or more", facts),
    ("6 buffers with a length, lists searched by hand, arenas of indices", lambda: lines(r"^    (pub )?\w+: (\[|Vec<|&)|\bdepth\b|\bmiddle\b|(?<=\()(links: &|&mut \[Link)")),
    ("7 a switch on a step, tables of functions", lambda: lines(r"match \*?self\b|\bdyn\b|\bfn\(|\bFn(Mut|Once)?\(")),
    ("8 proof files", proofs),
]

for title, find in POINTS:
    found = list(find())
    print(f"{title}: {len(found)}")
    if title.startswith("8"):
        print(f"  of {sum(int(x.split(': ')[1].split()[0]) for x in found)} lines, {sum('/Answers' in x or '/Invariants' in x for x in found)} of single functions")
    if VERBOSE:
        for place in found:
            print("   ", place)

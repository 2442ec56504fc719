#!/usr/bin/env python3
"""Counts the places in crates/*/src that the design pass looks at, by its points 1 to 8.

Usage: python3 tools/places.py [POINT ..] [--list]

Each rule is a pattern over the text without comments, so a row is a place to look, and no verdict. With --list each
place is printed as file:line. docs/DESIGN-PASS.md says what became of them.
"""

import collections
import glob
import itertools
import os
import re
import sys

ROOT = os.path.join(os.path.dirname(os.path.abspath(__file__)), "..")


def sources():
    """Returns each source file with its text; comments are blanked, so that lines keep their numbers."""
    for path in sorted(glob.glob(os.path.join(ROOT, "crates", "*", "src", "**", "*.rt"), recursive=True)):
        with open(path, encoding="utf-8") as file:
            yield os.path.relpath(path, ROOT), re.sub(r"//[^\n]*", "", file.read())


def matches(pattern, label=1):
    """Returns (place, label) for each match of the pattern; the label is a group of it."""
    found = []
    for path, text in sources():
        for m in re.finditer(pattern, text, re.M | re.S):
            found.append((f"{path}:{text[:m.start()].count(chr(10)) + 1}", m.group(label).strip()))
    return found


def two_variants():
    """Point 1: enums of two variants, one of which holds a value: the shape of Option or Result."""
    found = []
    for place, body in matches(r"enum \w+ \{(.*?)\n\}"):
        variants = [v for v in re.split(r",\s*\n|,\s*$", body) if v.strip()]
        if len(variants) == 2 and "(" in body:
            found.append((place, " ".join(body.split())))
    return found


def flags_beside():
    """Point 1: a field that says whether the value beside it counts."""
    return matches(
        r"^\s*pub (?:outcome|failed|has_\w+|present|there|found|kind|state): "
        r"((?:Outcome|MaybeCheck|bool|Found|FrameKind|State))\b"
    )


def number_codes():
    """Point 1: a choice by numbers, where the numbers stand for operations, calls, commands or steps."""
    return matches(r"match ((?:op|number|step|choice|u8_at\([^)]*\))) \{\s*\d+ =>")


def twins():
    """Point 2: functions of one body but for names and numbers, within a crate or in two, of six lines or more."""
    shapes = collections.defaultdict(list)
    for path, text in sources():
        for m in re.finditer(r"^( *)(?:pub(?:\([^)]*\))? )?fn (\w+)(.*?)^\1\}", text, re.M | re.S):
            body = m.group(3)[m.group(3).find("\n" + m.group(1) + "{"):]
            lines = [line for line in body.splitlines() if line.strip(" {}();,")]
            if len(lines) < 6:
                continue
            shape = re.sub(r"[A-Za-z_]\w*|\d\w*", "x", " ".join(body.split()))
            shapes[shape].append((f"{path}:{text[:m.start()].count(chr(10)) + 1}", m.group(2)))
    return [place for group in shapes.values() if len(group) > 1 for place in group]


def counted_loops():
    """Point 3: `while` and `loop`."""
    return matches(r"^\s*(?:let \w+ = )?((?:while\b[^{]*|loop\s*))\{")


def by_hand():
    """Point 4: a truth value by a match, a comparison or a smaller number by hand, digits printed by hand."""
    found = []
    for path, text in sources():
        for m in re.finditer(r"fn (\w+)[^{;]*?-> bool\b(.*?)\n *\}\n\}?", text, re.S):
            if len(re.findall(r"=> (?:true|false)", m.group(2))) >= 2:
                found.append((f"{path}:{text[:m.start()].count(chr(10)) + 1}", m.group(1) + " by match"))
    found += matches(r"fn (min|bytes_eq|u16_bytes|u32_bytes|is_zero)\(")
    found += matches(r"(% 10\b|b'0' \+)")
    return found


def together():
    """Point 5: two or three parameters that stand together in six functions or more."""
    groups = collections.defaultdict(list)
    for path, text in sources():
        for m in re.finditer(r"fn (\w+)(?:<[^>(]*>)?\(([^)]*)\)", text):
            parameters = [p.strip() for p in m.group(2).split(",") if ":" in p]
            place = (f"{path}:{text[:m.start()].count(chr(10)) + 1}", m.group(1))
            for size in (2, 3):
                for group in itertools.combinations(parameters, size):
                    groups[group].append(place)
    kept = {g: p for g, p in groups.items() if len(p) >= 6}
    whole = {g: p for g, p in kept.items() if not any(set(g) < set(h) and len(kept[h]) == len(p) for h in kept)}
    return [(places[0][0], f"{len(places)} functions: {', '.join(group)}") for group, places in whole.items()]


def facts():
    """Point 5: a fact that three or more functions of a crate require."""
    places = collections.defaultdict(list)
    for path, text in sources():
        for m in re.finditer(r"requires(?: \w+)? \{((?:[^{}]|\{[^{}]*\})*)\}", text):
            for part in m.group(1).split("×"):
                fact = " ".join(part.split()).strip("() ")
                places[path.split(os.sep)[1], fact].append(f"{path}:{text[:m.start()].count(chr(10)) + 1}")
    return [(at[0], f"{len(at)} functions: {fact}") for (_, fact), at in places.items() if len(at) >= 3]


def lengths_beside():
    """Point 6: a buffer or an array with a length or a count beside it."""
    found = matches(r"(\[u(?:8|64); [^\]]+\],?\s*(?:pub )?(?:count|len|taken|read|at): usize)")
    return found + matches(r"(type \w+ = \[[^\]]+; \d+\])") + matches(r"(taken: usize)[,)]")


def switches():
    """Point 7: a match on which step to run, and the calls that it chooses."""
    return matches(r"match ((?:step|op|u8_at\([^)]*\))) \{")


def proofs():
    """Point 8: answers and lemmas, in lines of proofs/, by crate."""
    found = []
    for crate in sorted(os.listdir(os.path.join(ROOT, "crates"))):
        lines = 0
        for path in glob.glob(os.path.join(ROOT, "crates", crate, "proofs", "**", "*.antt"), recursive=True):
            with open(path, encoding="utf-8") as file:
                lines += sum(1 for _ in file)
        if lines:
            found.append((f"crates/{crate}/proofs", f"{lines} lines"))
    return found


RULES = {
    "1": (two_variants, flags_beside, number_codes),
    "2": (twins,),
    "3": (counted_loops,),
    "4": (by_hand,),
    "5": (together, facts),
    "6": (lengths_beside,),
    "7": (switches,),
    "8": (proofs,),
}


def main():
    listed = "--list" in sys.argv
    wanted = [a for a in sys.argv[1:] if not a.startswith("-")] or list(RULES)
    for point in wanted:
        for rule in RULES[point]:
            places = rule()
            print(f"point {point}, {rule.__name__}: {len(places)}")
            for place, label in places if listed else []:
                print(f"  {place}  {label}")


main()

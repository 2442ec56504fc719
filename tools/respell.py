#!/usr/bin/env python3
"""Respells the repository's own definitions and lemmas as Rattle's style wants them: words in snake case, primes as apostrophes.

usage: python3 tools/respell.py            at the top, right after the kit's port.py and before any edit by hand
       python3 tools/respell.py --list     prints the renamings and changes nothing

Renamed are names that a file of crates/*/specs or crates/*/proofs declares, begin with a small letter and have a capital,
a dash or a prime. A name that the kit's library declares too stays as it is, and so does what Rattle makes (`returns-2`).
Text is replaced in .rt, .antt and .edit files; functions, fields, constants, strings and file names stay.
"""
import os
import re
import sys

KIT = "/opt/rattle/rattle"
NAME = r"[^\W\d][\w'\u2032-]*"
DECLARED = re.compile(r"^\s*(?:(?:abbrev|unfoldable|pub|mutual)\s+)*([a-z][\w'\u2032-]*(?:\s+[a-z][\w'\u2032-]*)*)\s+:(?:\s|$)")
MADE = re.compile(r"^(returns|invariant|decreases|overflow|bounds|slice|shared|array|element|prove|nonzero|offset|loop|add|sub|mul|cast)-")
TOKEN = re.compile(r"(?<![\w'\u2032-])" + NAME)


# Where the plain spelling is another name's already, or a field's: what the name becomes.
BY_HAND = {
    "cutOff": "cut_off_parser",
    "firstOn": "first_next",
    "inTail": "is_in_tail",
    "oneMore": "one_more_taken",
    "readAs": "reply_as",
    "stepIn": "step_in_state",
    "in-range": "is_in_range",
    "of-byte": "of_byte",
    "dataType": "data_type_in",
    "movingGates": "moving_gates_in",
    "stationaryGates": "stationary_gates_in",
}


def files(top, ends):
    for folder, dirs, names in os.walk(top):
        dirs[:] = sorted(d for d in dirs if d not in ("out", ".git"))
        for n in sorted(names):
            if n.endswith(ends):
                yield os.path.join(folder, n)


def declared(path):
    for line in open(path, encoding="utf-8"):
        m = DECLARED.match(line)
        if m:
            yield from m.group(1).split()


def respelled(name):
    new = name.replace("\u2032", "'").replace("-", "_")
    new = re.sub(r"(?<=[a-z0-9])([A-Z])", lambda m: "_" + m.group(1), new)
    return "_".join(w if re.fullmatch(r"[A-Z]\d*", w) and not name[:1].isupper() and ("-" + w) in name else w.lower() for w in new.split("_"))


def fields():
    found = set()
    for path in files("crates", ".rt"):
        found.update(re.findall(r"(?m)^\s+(?:pub )?(\w+)\s*:\s", open(path, encoding="utf-8").read()))
    return found


def renamings():
    own, local = set(), set()
    for path in files("crates", ".antt"):
        (local if path.endswith("/Proof.antt") else own).update(declared(path))
    names = own | {n for n in local if not MADE.match(n)}
    names = {n for n in names if re.search(r"[A-Z\u2032-]", n)}
    kit = set()
    for path in files(KIT, ".antt"):
        kit.update(declared(path))
    to = {n: BY_HAND.get(n) or respelled(n) for n in sorted(names - kit)}
    # A lemma whose name falls together with a definition's, a field's or another name gets `_lem`.
    taken = {new for old, new in to.items() if "-" not in old} | own | local | fields()
    for old, new in to.items():
        if "-" in old and new in taken and old not in BY_HAND:
            to[old] = new + "_lem"
    return to, own | local, kit


def main():
    to, known, kit = renamings()
    back = {}
    for old, new in to.items():
        back.setdefault(new, []).append(old)
    for new, olds in sorted(back.items()):
        if len(olds) > 1:
            print(f"together: {' '.join(olds)} -> {new}")
        if new in known:
            print(f"taken: {' '.join(olds)} -> {new}")
    if "--list" in sys.argv:
        for old, new in to.items():
            print(f"{old} {new}")
        return
    for path in files("crates", (".rt", ".antt", ".edit")):
        text = open(path, encoding="utf-8").read()

        def spelled(m):
            old = m.group(0)
            # An edit still has names that port.py respelled elsewhere.
            if path.endswith(".edit") and old not in known and old not in to and re.match(r"[a-z].*[A-Z]", old):
                return respelled(old) if respelled(old) in known else old
            return to.get(old, old)

        new = TOKEN.sub(spelled, text)
        if new != text:
            open(path, "w", encoding="utf-8").write(new)


main()

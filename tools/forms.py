#!/usr/bin/env python3
"""Counts the places in crates/*/src of forms that an older language needed, by the points of docs/DESIGN-PASS.md.

usage: python3 tools/forms.py [-v] [FOLDER]     -v prints each place; FOLDER is a checkout (the current one if none is named)

It goes by text: a place that it finds is a place to look at. Imports, ghost imports and comments do not count.
"""

import collections
import glob
import os
import re
import sys

LINES = [
    ("1a", "a constant that is a number of 8 or 16 bits for a kind, a peer, a rule, a layer or none",
     r"^\s*(pub(\(crate\))? )?const (?!MOST_|INSTANCES)[A-Z_]+: u(8|16) ="),
    ("1b", "a parameter or a field kind, number or layer that is a number of 8 bits", r"\b(kind|number|layer): u8\b"),
    ("1c", "a function of Option<u8> or Option<Fault>", r"-> Option<(u8|Fault)>"),
    ("1d", "a line that compares, matches or writes such a constant",
     r"^(?!\s*(pub )?(const|use) )(?!.*ghost)(?!\s*(pub use parts|    [A-Z]+, )).*\b(OUTPUT|INPUT|ACTION|ENVIRONMENT|NOWHERE)\b"),
    ("1e", "a comment that names a number which stands for none", r"//.*(, (0|\d+|zeros|the width) where|zeros where)"),
    ("3a", "a loop that goes on while something is left", r"^\s*while "),
    ("3b", "a counter that code moves on by one", r"^\s*(self\.)?\w+ \+= 1;"),
    ("3c", "a `for` over the numbers of a range", r"^\s*('\w+: )?for \w+ in .*\.\."),
    ("4a", "a function that compares by hand", r"\bfn (same|is|is_\w+)\((&self, )?\w+: "),
    ("4b", "a number read and then cut down by `as`", r"read_number\(.*as u8|= name as u8"),
    ("4c", "an arm that turns an error into a default", r"Err\(_\) => (0|None|&\[\]),"),
    ("4d", "a Display of a newtype over a number", r"^struct (Kind|Peer)\(u8\);"),
    ("6a", "a field that is an array of a fixed length", r"^\s*(pub(\(crate\))? )?\w+: \[.*; \d+\],"),
    ("7a", "a match on which step to run", r"match (command|call|step)\b"),
]


def sources(root):
    return sorted(glob.glob(os.path.join(root, "crates/*/src/**/*.rt"), recursive=True))


def repeated(root):
    """5: clauses that stand in three or more functions, but for those of a theorem's function."""
    where = collections.defaultdict(set)
    for path in sources(root):
        name = None
        for line in open(path):
            m = re.match(r"\s*(?:pub(?:\(crate\))? )?(?:const )?fn (\w+)", line)
            if m:
                name = m.group(1)
            m = re.match(r"\s*(requires|ensures)\*? (?:\w+ )?\{ (.*) \}\s*$", line)
            if m:
                where[m.groups()].add((os.path.relpath(path, root), name))
    return [(clause, sorted(places)) for clause, places in where.items() if len(places) >= 3]


def main(words):
    verbose = "-v" in words
    roots = [w for w in words if w != "-v"]
    root = roots[0] if roots else "."
    found = collections.defaultdict(list)
    for path in sources(root):
        for at, line in enumerate(open(path), 1):
            code = line.rstrip("\n")
            if re.match(r"\s*(ghost )?use |\s*//", code) and not code.lstrip().startswith("//"):
                continue
            for key, _, form in LINES:
                if key != "1e" and code.lstrip().startswith("//"):
                    continue
                if re.search(form, code):
                    found[key].append(f"{os.path.relpath(path, root)}:{at}: {code.strip()}")
    for key, what, _ in LINES:
        print(f"{key} {len(found[key]):4} {what}")
        if verbose:
            for place in found[key]:
                print("        " + place)
    clauses = repeated(root)
    print(f"5a {len(clauses):4} a clause that stands in three or more functions")
    if verbose:
        for (kind, text), places in sorted(clauses):
            print(f"        {len(places)} {kind} {text}")
    proofs = glob.glob(os.path.join(root, "crates/*/proofs/**/*.antt"), recursive=True)
    lines = sum(len(open(p).readlines()) for p in proofs)
    answers = sum(os.path.basename(p) in ("Answers.antt", "Invariants.antt", "Proof.antt") for p in proofs)
    print(f"8a {answers:4} files of answers and invariants; {lines} lines in all of proofs/")


main(sys.argv[1:])

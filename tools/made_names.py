#!/usr/bin/env python3
"""Turns the names that an older Rattle made, as proof files cite them, to those that today's makes.

usage: python3 tools/made_names.py     at the top, after tools/respell.py

A word of Rattle's is in snake case, and a name from the source keeps its underscores: overflow-add-x, in-ok-x and
has-match-requires become overflow_add-x, in_ok-x and has_match-requires.
"""

import os
import re

WORDS = ["overflow-" + w for w in ("add", "sub", "mul", "neg", "shl", "shr", "cast", "div", "rem", "step")]
WORDS += ["in-ok", "in-err", "in-default", "slice-bounds", "offset-bounds", "invariant-of", "nonzero-div", "nonzero-rem", "type-inv"]
STD = "as_slice as_mut_slice as_bytes as_str is_some is_none is_empty is_ok is_err is_ascii_digit is_ascii checked_sub checked_add split_at split_at_mut iter_mut unwrap_or to_vec push_str read_to_end from_utf8 copy_from_slice map_err ok_or into_iter".split()
TOKEN = re.compile(r"(?<![\w'-])[^\W\d][\w']*(?:[-+][\w']+)*")


def sources(root):
    found = set(STD)
    for folder, dirs, names in os.walk(root):
        dirs[:] = [d for d in dirs if d not in ("out", "must-fail")]
        for n in names:
            if n.endswith(".rt"):
                found |= set(re.findall(r"\b[a-z]\w*_\w+\b", open(os.path.join(folder, n), encoding="utf-8").read()))
    return sorted({w for w in found}, key=lambda w: (-len(w), w))


def main():
    names = [(w.replace("_", "-"), w) for w in sources("crates")] + [(w, w.replace("-", "_", 1)) for w in WORDS]
    names = [(re.compile(rf"(?<![\w']){re.escape(a)}(?![\w'])"), b) for a, b in names]

    def spelled(m):
        w = m[0]
        for a, b in names:
            w = a.sub(b, w)
        return w

    for folder, dirs, files in os.walk("crates"):
        dirs[:] = [d for d in dirs if d not in ("out", "must-fail", "src", "specs")]
        for n in files:
            p = os.path.join(folder, n)
            if n.endswith(".antt") and os.path.basename(folder) != "proofs":
                text = open(p, encoding="utf-8").read()
                std = {i.strip() for m in re.finditer(r"use Rattle\.(?:std)[^{]*\{([^}]*)\}", text) for i in m[1].split(",")}
                new = TOKEN.sub(lambda m: m[0] if m[0] in std else spelled(m), text)
                if new != text:
                    open(p, "w", encoding="utf-8").write(new)


main()

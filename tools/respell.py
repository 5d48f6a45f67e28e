#!/usr/bin/env python3
"""Brings this repository's own definitions and lemmas to snake case.

usage: python3 tools/respell.py [FOLDER]     once, after the kit's port.py, in FOLDER (the current one if none is named)

Own names are those in specs/, proofs/ and the ghost parts of src/ that are neither imported from std nor made by Rattle.
A dash becomes an underscore and an inner capital an underscore and the small letter: wide-enough, spanOf: wide_enough, span_of.
A lemma that would have its function's name by that gets _lem.
Functions of src/, strings, comments, inputs and outputs stay. Names that fall together are printed.
"""

import os
import re
import sys

WORD = re.compile(r"[^\W\d][\w']*(?:-[\w']+)*")
STD = re.compile(r"use\s+(Rattle\.std[\w.+'-]*|Prim[\w.]*)(?:\s+as\s+[\w']+)?\.?\{([^}]*)\}", re.S)
GOAL = re.compile(r"\bgoal\.([\w'-]+)")
MADE = re.compile(r"use\s+Rattle\.[\w.+'-]*\.Goals\.\{([^}]*)\}", re.S)
PATH = re.compile(r"(?<![\w'.-])(?:[cglw])\.[\w'.-]+")
FIELD = re.compile(r"^\s*(?:pub\s+)?([^\W\d][\w']*(?:-[\w']+)*)(?:\s+[^\W\d][\w']*(?:-[\w']+)*)*\s*:\s", re.M)
CLAUSE = re.compile(r"\b(?:requires|ensures)\*?\s*(?:[A-Za-z_]\w*\s*)?\{|\bghost\s+(?!use\b)[\w']+\s*[:=]\s*\{")
GHOST_USE = re.compile(r"\bghost use [^;]*;", re.S)
OLD_WORDS = {"getD": "get_or", "sumBy": "sum_by"}


FUNCTIONS = set()


def spelled(word):
    if not word[0].islower():
        return word
    new = plainly(word)
    camel = "-" not in word and any(c.isupper() for c in word)
    return new + "_lem" if new in FUNCTIONS and not camel else new


def plainly(word):
    parts = []
    for part in word.split("-"):
        for old, new in OLD_WORDS.items():
            part = re.sub(rf"\b{old}\b", new, part)
        parts.append(re.sub(r"(?<=[a-z0-9])([A-Z])", lambda m: "_" + m[1].lower(), part) if part[:1].islower() else part)
    return "_".join(parts)


def files(root):
    for folder, dirs, names in os.walk(os.path.join(root, "crates")):
        dirs[:] = sorted(d for d in dirs if d not in ("out", "must-fail"))
        for n in sorted(names):
            if n.endswith((".rt", ".antt")):
                yield os.path.join(folder, n)


def of_a_function(path):
    parts = path.split(os.sep)
    return "proofs" in parts and len(parts) - 1 - len(parts[: parts.index("proofs")]) > 1


def own_fields(root):
    found = set()
    for p in files(root):
        if p.endswith(".antt") and not of_a_function(p):
            found |= {m[1] for m in FIELD.finditer(open(p, encoding="utf-8").read())}
    return found


def protected(text):
    words = set()
    for m in STD.finditer(text):
        for item in m[2].split(","):
            words.add(re.split(r"\s+as\s+", item.strip())[0])
    words |= {m[1] for m in GOAL.finditer(text)}
    for m in MADE.finditer(text):
        words |= {w.strip() for w in m[1].split(",")}
    return words


def functions(root):
    """What the names with inner capitals become."""
    found = set()
    for p in files(root):
        if p.endswith(".antt"):
            found |= {plainly(w) for w in WORD.findall(open(p, encoding="utf-8").read()) if w[0].islower() and "-" not in w and any(c.isupper() for c in w)}
    return found


def turn(text, keep, seen):
    def one(m):
        w = m[0]
        new = w if w in keep else spelled(w)
        seen.setdefault(new, set()).add(w)
        return new

    return WORD.sub(one, text)


def turn_antt(text, keep, fields, made, seen):
    out = []
    for line in text.split("\n"):
        code, dash, comment = line, "", ""
        m = re.search(r"(?:^|\s)--(?:\s|$)", line)
        if m:
            code, comment = line[: m.start()], line[m.start() :]
        if not made:
            out.append(turn(code, keep, seen) + comment)
            continue
        done, last = [], 0
        for p in PATH.finditer(code):
            done.append(turn(code[last : p.start()], keep, seen))
            done.append(".".join(spelled(w) if w in fields and w not in keep else w for w in p[0].split(".")))
            last = p.end()
        done.append(turn(code[last:], keep, seen))
        out.append("".join(done) + comment)
    return "\n".join(out)


def closing(text, i):
    deep = 0
    for k in range(i, len(text)):
        deep += (text[k] == "{") - (text[k] == "}")
        if not deep:
            return k + 1
    return len(text)


def turn_rt(text, keep, seen):
    out, last = [], 0
    spans = [(m.start(), m.end()) for m in GHOST_USE.finditer(text)]
    spans += [(m.end() - 1, closing(text, m.end() - 1)) for m in CLAUSE.finditer(text)]
    for a, b in sorted(spans):
        if a < last:
            continue
        out += [text[last:a], turn(text[a:b], keep, seen)]
        last = b
    return "".join(out) + text[last:]


def main():
    root = sys.argv[1] if len(sys.argv) > 1 else "."
    fields = own_fields(root)
    FUNCTIONS.update(functions(root))
    changed = 0
    for p in files(root):
        text = open(p, encoding="utf-8").read()
        keep, seen = protected(text), {}
        new = turn_rt(text, keep, seen) if p.endswith(".rt") else turn_antt(text, keep, fields, of_a_function(os.path.relpath(p, root)), seen)
        for word, olds in seen.items():
            if len(olds) > 1:
                print(f"{os.path.relpath(p, root)}: {' and '.join(sorted(olds))} fall together as {word}")
        if new != text:
            changed += 1
            open(p, "w", encoding="utf-8").write(new)
    print(f"respell: {changed} files changed")


main()

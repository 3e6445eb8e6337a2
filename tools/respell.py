#!/usr/bin/env python3
"""Spells the repository's own definitions and lemmas in snake case, as the library does: allTo is all_to, up-to-first is up_to_first.

usage: python3 tools/respell.py          at the top of the repository, after port.py
       python3 tools/respell.py --when   only the choice by a test, below

What it renames: the names that a file of specs/, or a file of lemmas in proofs/, defines (definitions, lemmas, fields and constructors).
Names of src/, modules, types and names that a proof of a function gets from Rattle stay. It goes by whole words, in specs/, proofs/,
the clauses of src/ and the must-fail edits. With --list it prints the table and writes nothing.
The choice by a test, if b then x else y, is when b then x else y: the library has an operator under the first name, which binds otherwise.
"""

import os
import re
import sys

WORD = re.compile(r"[^\s(){}.;,@\"«»\x60⌜⌝]+")
DEF = re.compile(r"^[ \t]*(?:(?:pub|abbrev|unfoldable) )*([^\s(){}.;,@\"]+)(?: \{[^{}]*\})* :(?=\s)", re.M)
ALIAS = re.compile(r"[^\s(){}.;,@\"]+ as ([^\s(){}.;,@\"]+)")
COMMENT = re.compile(r"--[^\n]*")
CLAUSE = re.compile(r"\b(requires|ensures|ghost)\b")
# a part that is spelled as the library spells it now
PARTS = {"getD": "get_or"}
# lemmas whose name would be that of a definition
APART = {"job-of", "order-of", "same-on"}
# the same, of names that port.py had turned: they turn where they are no part of a path
TURNED = {w: w + "_lem" for w in ("after_line", "next_place", "same_bytes")}


def part(p):
    if p in PARTS:
        return PARTS[p]
    if not p or not p[0].islower():
        return p
    return re.sub(r"(?<=[a-z0-9])([A-Z])", lambda m: "_" + m[1], p).lower() if p.isascii() else p


def snake(name):
    if not re.fullmatch(r"[A-Za-z][A-Za-z0-9_'-]*", name):
        return name
    return "_".join(part(p) for p in name.split("-"))


def files(root, ends):
    for d, ds, fs in os.walk(os.path.join(root, "crates")):
        ds[:] = sorted(x for x in ds if x != "out")
        for f in sorted(fs):
            if f.endswith(ends):
                yield os.path.join(d, f)


def read(p):
    with open(p, encoding="utf-8") as f:
        return f.read()


def table(root):
    names = {}
    for p in files(root, ".antt"):
        if os.path.basename(os.path.dirname(p)) not in ("specs", "proofs"):
            continue
        text = COMMENT.sub("", read(p))
        for w in DEF.findall(text) + [a for u in re.findall(r"^ *use [^\n]*", text, re.M) for a in ALIAS.findall(u)]:
            if w[0].islower():
                names.setdefault(w, p)
    turned = {w: snake(w) for w in names if snake(w) != w}
    of = {}
    for w in turned:
        of.setdefault(turned[w], []).append(w)
    for w in turned:
        if "-" in w and (w in APART or len(of[turned[w]]) > 1):
            turned[w] += "_lem"
    own = set(turned.values()) | {w for w in names if w not in turned}
    return turned, own


def clauses(text, turn):
    """The clauses, the ghost lines and the ghost use lines of a source file, turned; the code stays."""
    out, at = [], 0
    for m in re.finditer(r"\b(?:requires|ensures|ghost)\b[^\n;{]*(\{|[;])", text):
        if m.start() < at or text.rfind("//", text.rfind("\n", 0, m.start()) + 1, m.start()) >= 0:
            continue
        end = m.end()
        if m[0].startswith("ghost") and "use" in m[0]:
            end = text.index(";", m.start()) + 1
        elif m[1] == "{":
            depth = 1
            while depth:
                depth += {"{": 1, "}": -1}.get(text[end], 0)
                end += 1
        out += [text[at : m.start()], turn(text[m.start() : end])]
        at = end
    return "".join(out) + text[at:]


def when(text):
    """The choice by a test under its own name; comments stay."""
    code = lambda l: re.sub(r"(?<![^\s(\[{,;.])if(?![^\s◌])", "when", l)
    return "\n".join(code(l[: l.find("--")]) + l[l.find("--") :] if "--" in l else code(l) for l in text.split("\n"))


def choices(root):
    for p in files(root, (".antt", ".rt", ".edit")):
        t = read(p)
        if p.endswith(".antt"):
            new = when(t)
        elif p.endswith(".rt"):
            new = clauses(t, when)
        elif re.search(r"^file: .*\.rt$", t, re.M):
            new = t
        else:
            new = "\n".join(when(l) if re.match("(old|new): ", l) else l for l in t.split("\n"))
        if new != t:
            with open(p, "w", encoding="utf-8") as f:
                f.write(new)


def main():
    root = os.getcwd()
    if "--when" in sys.argv:
        choices(root)
        return
    names, own = table(root)

    def turn(text):
        def one(m):
            w = m[0]
            if w in TURNED and text[m.start() - 1 : m.start()] != ".":
                return TURNED[w]
            return names.get(w, w)

        return WORD.sub(one, text)

    def turn_old(text):
        """A text that port.py left: its names are those of before."""

        def one(m):
            w = m[0]
            if w in names:
                return names[w]
            return snake(w) if snake(w) in own and re.search("[A-Z-]", w) else w

        return WORD.sub(one, text)

    def spans(text):
        return re.sub(r"\x60[^\x60\n]+\x60", lambda m: turn_old(m[0]), text)

    if "--list" in sys.argv:
        for a, b in sorted(names.items()):
            print(a, b)
        return
    for p in files(root, (".antt", ".rt", ".edit")):
        t = read(p)
        if p.endswith(".rt"):
            new = clauses(t, turn)
            new = re.sub(r"//[^\n]*", lambda m: spans(m[0]), new)
        elif p.endswith(".edit"):
            new = t if re.search(r"^file: .*\.rt$", t, re.M) else turn_old(t)
        else:
            new = turn(t)
        if new != t:
            with open(p, "w", encoding="utf-8") as f:
                f.write(new)
    choices(root)
    pages = [os.path.join(root, "README.md")]
    pages += [os.path.join(d, f) for d, _, fs in os.walk(os.path.join(root, "docs")) for f in fs if f.endswith(".md")]
    for p in sorted(pages):
        t = read(p)
        if spans(t) != t:
            with open(p, "w", encoding="utf-8") as f:
                f.write(spans(t))


main()

#!/usr/bin/env python3
"""Turns this repository's own definitions and lemmas to today's spelling of names, after port.py: words in snake case, types in camel
case, and a dash where a lemma's name joins the names of two definitions.

usage: tools/respell.py FOLDER           crates/*/{src,specs,proofs} of FOLDER, as port.py left them
       tools/respell.py --texts FILE..   single files in the spelling before port.py: edits, and names in backticks in pages

tools/respell.tsv is the table: a name before port.py, after it and today, and `field` where it is a record's field. Names of Rust items,
of exported functions and of files stay, and so do those that walks of the older kit took from it.
"""

import os
import re
import sys

HERE = os.path.dirname(os.path.realpath(__file__))
CHARS = r"[^\s(){}\[\],;\":⌜⌝`]+"
NAME = r"[^\s(){}\[\],;.\":⌜⌝`]+"
GOAL = re.compile(r"^\s*(?:pub )?(" + NAME + r") :.*(?:\btie\.|\bstatement\b)", re.M)


def rows():
    with open(os.path.join(HERE, "respell.tsv"), encoding="utf-8") as f:
        return [line.rstrip("\n").split("\t") for line in f]


def turned(text, names):
    return re.sub(NAME, lambda m: names.get(m.group(0), m.group(0)), text)


def in_backticks(text, names):
    return re.sub(r"`[^`\n]+`", lambda m: turned(m.group(0), names), text)


def in_walk(text, names, fields, aliases):
    """A walk's text: behind a dot stand fields that the older kit made, so only paths of modules and our own fields are turned."""

    def path(m):
        parts = m.group(0).split(".")
        which = names if parts[0] == "Rattle" or parts[0] in aliases else fields
        return ".".join([names.get(parts[0], parts[0])] + [which.get(p, p) for p in parts[1:]])

    return re.sub(CHARS, path, text)


def source(path, names, fields):
    with open(path, encoding="utf-8") as f:
        text = f.read()
    walk = path.endswith("/Proof.antt")
    if walk:
        own = set(GOAL.findall(text))
        names = {n: names[n] for n in names if n not in own}
    aliases = set(re.findall(r"^\s*use \S+ as (\S+)$", text, re.M)) - {"tie"}
    comment = "--" if path.endswith(".antt") else "//"
    out = []
    for line in text.split("\n"):
        m = re.search(r"(^|\s)" + comment + r"(\s|$)", line)
        code, rest = (line[: m.start()], line[m.start() :]) if m else (line, "")
        parts = re.split(r'("(?:[^"\\]|\\.)*")', code) if path.endswith(".rt") else [code]
        turn = (lambda p: in_walk(p, names, fields, aliases)) if walk else (lambda p: turned(p, names))
        out.append("".join(p if p.startswith('"') else turn(p) for p in parts) + in_backticks(rest, names))
    with open(path, "w", encoding="utf-8") as f:
        f.write("\n".join(out))


def page(path, names):
    with open(path, encoding="utf-8") as f:
        text = f.read()
    if path.endswith(".edit"):
        text = "".join(turned(l, names) if l.startswith(("old:", "new:")) else l for l in text.splitlines(keepends=True))
    else:
        text = in_backticks(text, names)
    with open(path, "w", encoding="utf-8") as f:
        f.write(text)


def main(argv):
    table = rows()
    if argv[:1] == ["--texts"]:
        for path in argv[1:]:
            page(path, {r[0]: r[2] for r in table})
        return 0
    names = {r[1]: r[2] for r in table}
    fields = {r[1]: r[2] for r in table if len(r) > 3}
    for folder, dirs, files in os.walk(os.path.join(argv[0], "crates")):
        dirs[:] = sorted(d for d in dirs if d not in ("out", "must-fail", "more-edits"))
        for f in sorted(files):
            if f.endswith((".rt", ".antt")):
                source(os.path.join(folder, f), names, fields)
    return 0


if __name__ == "__main__":
    raise SystemExit(main(sys.argv[1:]))

#!/usr/bin/env python3
"""Spells the repository's own definitions and lemmas as today's Rattle does, by the table names.tsv beside this script.

usage: names.py [FOLDER]      after port.py has run there; FOLDER is the top of the repository, this folder if left out

A row of the table is a name as it was before the port, as port.py left it, and as it is now: words in snake case, and
`_lem` behind a lemma that would else have its function's name. A name that a file takes from a library stays. In a file
of antt the code turns, and in a comment what stands between backquotes or is in camel case; in a .rt file the clauses, the `ghost use` lines and
such comments. Pages and must-fail edits it leaves alone: they were brought over by the table's first and last columns. Proof.antt files, which
speak of names that Rattle makes, turn only what they take from the repository's own files. Run it once.
"""

import os
import re
import sys

HERE = os.path.dirname(os.path.realpath(__file__))
WORD = re.compile(r'[^\s(){}.;,@"«»`]+')
USE = re.compile(r"\buse ([^\s;{]+)(?:\{([^;]*?)\})?", re.M)
COMMENT = re.compile(r"(?<![^\s(){}.;,])--[^\n]*")
PROSE = re.compile(r"\w+")
SPAN = re.compile(r"`[^`\n]*`")
RUST = re.compile(r"//[^\n]*|\"(?:\\.|[^\"\\])*\"")
CLAUSE = re.compile(r"\b(?:requires|ensures|ghost)\b\*?\s*(?:\w+\s*)?(?::\s*)?\{|\bghost use\b")


def table():
    names = {}
    with open(os.path.join(HERE, "names.tsv"), encoding="utf-8") as f:
        for line in f:
            _, now, new = line.rstrip("\n").split("\t")
            if now != new:
                names[now] = new
    return names


def turn(text, names):
    return WORD.sub(lambda m: names.get(m[0], m[0]), text)


def between(pattern, text, inside, outside):
    out, at = [], 0
    for m in pattern.finditer(text):
        out += [outside(text[at : m.start()]), inside(m[0])]
        at = m.end()
    return "".join(out + [outside(text[at:])])


def spans(text, names):
    """A comment: between backquotes each name, elsewhere those in camel case, which no English word is."""
    camel = {a: b for a, b in names.items() if "-" not in a and a.lower() != a}
    return between(SPAN, text, lambda t: turn(t, names), lambda t: PROSE.sub(lambda m: camel.get(m[0], m[0]), t))


def imported(text, crates):
    """The names that a file takes from libraries, and those that it takes from the repository's own files."""
    theirs, own = set(), set()
    for path, items in USE.findall(text):
        steps = path.strip(".").split(".")
        names = set(WORD.findall(items)) if items else {steps[-1]}
        (own if steps[0] == "Rattle" and len(steps) > 1 and steps[1] in crates else theirs).update(names)
    return theirs, own


def antt(text, names, crates, walks):
    theirs, own = imported(COMMENT.sub("", text), crates)
    here = {a: b for a, b in names.items() if a not in theirs and (not walks or a in own)}
    return between(COMMENT, text, lambda t: spans(t, names), lambda t: turn(t, here))


def closing(text, at):
    depth = 1
    while at < len(text) and depth:
        depth += {"{": 1, "}": -1}.get(text[at], 0)
        at += 1
    return at


def rust(text, names, crates):
    theirs, _ = imported("\n".join(re.findall(r"ghost use[^;]*;", text)), crates)
    here = {a: b for a, b in names.items() if a not in theirs}
    out, at = [], 0
    for m in CLAUSE.finditer(text):
        if m.start() < at:
            continue
        end = text.index(";", m.end()) if m[0].startswith("ghost use") else closing(text, m.end())
        out += [plain(text[at : m.start()], names), turn(text[m.start() : end], here)]
        at = end
    return "".join(out + [plain(text[at:], names)])


def plain(text, names):
    return between(RUST, text, lambda t: spans(t, names) if t[0] == "/" else t, str)


def main():
    top = sys.argv[1] if len(sys.argv) > 1 else "."
    names = table()
    crates = set(os.listdir(os.path.join(top, "crates")))
    for folder, dirs, files in os.walk(top):
        dirs[:] = sorted(d for d in dirs if d not in (".git", "out", "target", "tools"))
        for name in sorted(files):
            path = os.path.join(folder, name)
            if not name.endswith((".antt", ".rt")):
                continue
            with open(path, encoding="utf-8") as f:
                text = f.read()
            new = rust(text, names, crates) if name.endswith(".rt") else antt(text, names, crates, name == "Proof.antt")
            if new != text:
                with open(path, "w", encoding="utf-8") as f:
                    f.write(new)


if __name__ == "__main__":
    main()

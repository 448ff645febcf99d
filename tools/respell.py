#!/usr/bin/env python3
"""Respells this repository's own definitions and lemmas: words in snake case, a dash only between two names.

usage: python3 tools/respell.py [ROOT]     once, on the files that port.py has turned

tools/respell.tsv has a line for each name: 'word', a definition, a field or a variable in camel case; 'lemma', with dashes; or 'field', one of
them that a record has. It rewrites the .antt, .rt and .edit files below crates/, README.md and docs/ in place. Names of src/, exported C names
and strings are in no line of the table.
"""

import os
import re
import sys

HERE = os.path.dirname(os.path.realpath(__file__))
TOKEN = re.compile(r"(?<![\w'₀-₉-])[a-z_][\w'₀-₉]*(?:-[\w'₀-₉]+)*(?![\w'₀-₉-])")
FIELDS = set()
CODE = re.compile(r"`[^`\n]*`|\*\*[^*\n]*\*\*")


def table():
    words, lemmas = {}, {}
    with open(os.path.join(HERE, "respell.tsv"), encoding="utf-8") as f:
        for line in f:
            kind, old, new = line.rstrip("\n").split("\t")
            (words if kind == "word" else lemmas)[old] = new
            if kind == "field":
                FIELDS.add(old)
    return words, lemmas


def turned(text, words, lemmas, dotted):
    """The text with each token of the tables respelled; a lemma behind a dot only where dotted, since there it may be a step of a proof."""

    def one(m):
        t = m[0]
        if t in words:
            return words[t]
        behind = m.start() > 0 and text[m.start() - 1] == "."
        before = text[m.end() : m.end() + 1] == "." and text[m.end() + 1 : m.end() + 2].isalpha()
        if t in lemmas and (dotted or not behind or t in FIELDS) and not (before and t not in FIELDS):
            return lemmas[t]
        return t

    return TOKEN.sub(one, text)


def antt(text, words, lemmas):
    lines = []
    for line in text.split("\n"):
        if line.startswith("--"):
            lines.append(turned(line, words, {}, False))
        else:
            lines.append(turned(line, words, lemmas, False))
    return "\n".join(lines)


def rust(text, words, lemmas):
    return turned(text, words, {}, False)


def edit(text, words, lemmas):
    lines, how = [], rust
    for line in text.split("\n"):
        if line.startswith("file:"):
            how = antt if line.endswith(".antt") else rust
        lines.append(how(line, words, lemmas))
    return "\n".join(lines)


def page(text, words, lemmas):
    dashed = {old: new for old, new in lemmas.items() if "-" in old}
    return CODE.sub(lambda m: turned(m[0], words, dashed, True), text)


def main():
    root = sys.argv[1] if len(sys.argv) > 1 else os.path.dirname(HERE)
    words, lemmas = table()
    for top in ("crates", "docs", "README.md"):
        top = os.path.join(root, top)
        found = [top] if os.path.isfile(top) else []
        for folder, dirs, files in os.walk(top):
            dirs[:] = sorted(d for d in dirs if d not in ("out", ".git"))
            found += [os.path.join(folder, f) for f in sorted(files)]
        for path in found:
            how = {".antt": antt, ".edit": edit, ".rt": rust, ".md": page}.get(os.path.splitext(path)[1])
            if not how:
                continue
            with open(path, encoding="utf-8", newline="") as f:
                old = f.read()
            new = how(old, words, lemmas)
            if new != old:
                with open(path, "w", encoding="utf-8", newline="") as f:
                    f.write(new)


if __name__ == "__main__":
    main()

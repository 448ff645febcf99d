#!/usr/bin/env python3
"""Counts in crates/*/src the places that docs/DESIGN-PASS.md speaks of, and lists them.

places.py [ROOT]     ROOT: the top of the repository, or of another commit's tree
"""
import difflib
import glob
import os
import re
import sys

root = sys.argv[1] if len(sys.argv) > 1 else os.path.join(os.path.dirname(__file__), "..")


class Function:
    """One function: where it stands, its head up to the clauses, its body."""

    def __init__(self, place, name, head, body):
        self.place, self.name, self.head, self.body = place, name, head, body

    def shape(self):
        """The body with each name and number in place of itself the first of its kind."""
        names = {}
        words = re.findall(r"[A-Za-z_]\w*|\d[\w.]*|[^\s\w]", re.sub(r"//[^\n]*", "", self.body))
        kept = {"if", "else", "let", "mut", "while", "for", "in", "loop", "match", "return", "Ok", "Err", "Some", "None", "as"}
        return " ".join(w if w in kept or not re.match(r"\w", w) else names.setdefault(w, "#%d" % len(names)) for w in words)


def functions(path):
    text = open(path, encoding="utf-8").read()
    place = os.path.relpath(path, root)
    for found in re.finditer(r"^( *)(?:pub )?(?:extern \"C\" )?fn (\w+)", text, re.M):
        start = re.compile(r"^" + found[1] + r"\{\n|\{\n", re.M)
        clauses = text.find("\n" + found[1] + "{\n", found.end())
        inline = re.compile(r"[^;{]*\{\n").match(text, found.end())
        opened = inline.end() if inline and "\n" + found[1] + "    requires" not in inline[0] and "ensures" not in inline[0] else clauses + 2 + len(found[1])
        closed = text.find("\n" + found[1] + "}", opened)
        if opened < 2 or closed < 0:
            continue
        head = re.split(r"\n\s*(?:requires|ensures)", text[found.start() : opened])[0]
        line = text.count("\n", 0, found.start()) + 1
        yield Function("%s:%d" % (place, line), found[2], head, text[opened:closed])


def show(title, lines):
    print("\n%s: %d" % (title, len(lines)))
    for line in lines:
        print("  " + line)


def grep(pattern):
    lines = []
    for path in sources:
        for number, line in enumerate(open(path, encoding="utf-8"), 1):
            if re.search(pattern, line) and not line.lstrip().startswith("//"):
                lines.append("%s:%d %s" % (os.path.relpath(path, root), number, line.strip()[:110]))
    return lines


sources = sorted(glob.glob(os.path.join(root, "crates/*/src/**/*.rt"), recursive=True))
every = [f for path in sources for f in functions(path)]

enums = []
for path in sources:
    for found in re.finditer(r"^(?:pub )?enum (\w+)[^{]*\{(.*?)^\}", open(path, encoding="utf-8").read(), re.M | re.S):
        cases = re.findall(r"^    (\w+(?:\([^)]*\))?)", found[2], re.M)
        enums.append("%s %s: %s" % (os.path.relpath(path, root), found[1], " | ".join(cases)))
show("1. enums", enums)
show("1. functions that change something and answer a bool", ["%s %s" % (f.place, f.name) for f in every if "&mut" in f.head and re.search(r"-> bool\s*$", f.head.rstrip(" {\n"))])
show("1. fields for a kind, a stage, a number of fields or an end", grep(r"^\s*(pub )?(kind|stage|fields|done|body): (usize|bool|u32),"))
# two functions of nearly one shape, of 24 words or more, names and numbers counted as alike
near = []
shaped = [(f, f.shape().split()) for f in every]
shaped = [(f, w) for f, w in shaped if len(w) >= 24]
for i, (f, a) in enumerate(shaped):
    for g, b in shaped[i + 1 :]:
        if abs(len(a) - len(b)) * 8 <= len(a):
            alike = difflib.SequenceMatcher(None, a, b, autojunk=False)
            if alike.quick_ratio() >= 0.9 and alike.ratio() >= 0.9:
                near.append("%s %s ~ %s %s" % (f.place, f.name, g.place, g.name))
show("2. pairs of functions of nearly one shape", near)
show("3. while and loop", grep(r"\b(while|loop)\b"))
show("3. for", grep(r"\bfor \S+ in\b|\bfor \(.*\) in\b"))
show("4. impl of a trait", grep(r"^\s*impl\b.* for "))
show("4. numbers and bytes printed by hand", ["%s %s" % (f.place, f.name) for f in every if re.match(r"put|show_digit|end_line", f.name)])
show("5. functions that take counts, nodes and operands", ["%s %s" % (f.place, f.name) for f in every if all(re.search(r"\b%s: " % w, f.head) for w in ("nodes", "operands"))])
show("6. functions that take a list and a start and count, or a length, beside it", ["%s %s" % (f.place, f.name) for f in every if re.search(r": &(mut )?\[", f.head) and re.search(r"\b(start|count|from|first|end|at|n): usize", f.head)])
show("7. closures, function pointers and dyn", grep(r"\|\w*\| |\bdyn\b|: fn\("))
print("\nfunctions: %d" % len(every))

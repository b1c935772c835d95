#!/usr/bin/env python3
"""Spells the repository's own definitions and lemmas as Rattle 13f does: words in snake case, types in camel case.

usage: tools/respell.py          in the repository, once, after the kit's port.py

tools/respelled.tsv has a row a name: old TAB new, for every file; or old TAB new TAB module, for the file of that module and those that
take the name from it. Rows of the second kind come first. In .rt files clauses, ghost use lines and, for names in mixed case, comments
are respelled; in .antt files all but what stands between quotes.
"""
import os
import re
import sys

ROOT = os.path.join(os.path.dirname(os.path.realpath(__file__)), "..")
# Four fields of the model's structs, in code too.
FIELDS = re.compile(r"\b(moveNumber|takenMove|giveEnd|takeEnd)\b")
TOKEN = re.compile(r"[^\s(){}\[\];,.\"`⟦⟧‹›|]+")


def rows():
    everywhere, within = {}, {}
    with open(os.path.join(ROOT, "tools", "respelled.tsv"), encoding="utf-8") as f:
        for line in f:
            old, new, *module = line.rstrip("\n").split("\t")
            if module:
                within.setdefault(module[0], {})[old] = new
            else:
                everywhere[old] = new
    return everywhere, within


def turned(text, table):
    return TOKEN.sub(lambda m: table.get(m.group(0), m.group(0)), text)


def clause_end(text, at):
    """The place behind the brace that closes the one at `at`."""
    depth = 0
    for i in range(at, len(text)):
        depth += (text[i] == "{") - (text[i] == "}")
        if depth == 0:
            return i + 1
    return len(text)


def in_source(text, table):
    """A .rt file: ghost use lines, clauses, and names in mixed case in comments."""
    out, at = [], 0
    mixed = {k: v for k, v in table.items() if "-" not in k and re.search("[a-z][A-Z0-9]", k)}
    for m in re.finditer(r"(?m)^ghost use .*?;|^\s*//.*$|\b(?:requires|ensures|invariant)\b[^{;\n]*\{", text, re.S):
        if m.start() < at:
            continue
        out.append(text[at : m.start()])
        end = m.end()
        if m.group(0).lstrip().startswith("//"):
            out.append(turned(m.group(0), mixed))
        elif m.group(0).startswith("ghost use"):
            out.append(turned(m.group(0), table))
        else:
            end = clause_end(text, m.end() - 1)
            out.append(turned(text[m.start() : end], table))
        at = end
    out.append(text[at:])
    return "".join(out)


def module(path):
    return "Rattle." + os.path.relpath(path, os.path.join(ROOT, "crates"))[: -len(".antt")].replace(os.sep, ".")


def taken(text):
    """The names that a file takes, by module."""
    found = {}
    for m in re.finditer(r"(?m)^(?:ghost )?(?:pub )?use (Rattle\.[^\s{]+?)\.\{([^}]*)\}", text):
        found.setdefault(m.group(1), set()).update(x.strip() for x in m.group(2).split(","))
    return found


def main():
    everywhere, within = rows()
    changed = 0
    for folder, dirs, files in os.walk(os.path.join(ROOT, "crates")):
        dirs[:] = sorted(d for d in dirs if d not in ("out", "must-fail"))
        for name in sorted(files):
            if not name.endswith((".rt", ".antt")):
                continue
            path = os.path.join(folder, name)
            with open(path, encoding="utf-8") as f:
                before = f.read()
            text = before
            own = dict(within.get(module(path), {})) if name.endswith(".antt") else {}
            for of, names in taken(text).items():
                own.update({k: v for k, v in within.get(of, {}).items() if k in names})
            turn = in_source if name.endswith(".rt") else turned
            text = turn(turn(text, own), everywhere)
            if name.endswith(".rt"):
                text = FIELDS.sub(lambda m: everywhere[m.group(0)], text)
            if text != before:
                with open(path, "w", encoding="utf-8") as f:
                    f.write(text)
                changed += 1
    print(f"respell: {changed} files")
    return 0


if __name__ == "__main__":
    sys.exit(main())

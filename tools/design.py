#!/usr/bin/env python3
"""Places in crates/*/src that docs/DESIGN-PASS.md speaks of, by its points.

    tools/design.py              how many of each kind
    tools/design.py KIND..       the places of these kinds, one a line
    tools/design.py --at FOLDER  the same of another checkout

It reads the sources as text: comments are passed over, and what it lists is a place to look at, not a fault.
"""
import collections
import glob
import os
import re
import sys

WIDTH = 12  # tokens of a body from which on two functions of one shape are called twins


def sources(top):
    for path in sorted(glob.glob(os.path.join(top, "crates", "*", "src", "**", "*.rt"), recursive=True)):
        text = open(path, encoding="utf-8").read()
        lines = [re.sub(r"//.*", "", line) for line in text.split("\n")]
        yield os.path.relpath(path, top), "\n".join(lines)


FN = re.compile(
    r"(?:^|\n)([ ]*)(?:pub )?(?:extern \"C\" )?fn (\w+)(?:<[^>{]*>)?\((.*?)\)(?: -> ([^\n{]+?))?"
    r"((?:\n\s+(?:requires|ensures)(?: \w+)? \{.*?\}(?=\n))*)\s*\n?\s*\{\n?(.*?)\n\1\}(?=\n)", re.S)


def functions(text):
    for m in FN.finditer(text):
        line = text.count("\n", 0, m.start(2)) + 1
        yield line, m.group(2), m.group(3), (m.group(4) or "").strip(), m.group(5), m.group(6)


def matching(pattern):
    def places(path, text):
        for n, line in enumerate(text.split("\n"), 1):
            if re.search(pattern, line):
                yield "%s:%d: %s" % (path, n, line.strip())
    return places


def refusal_results(path, text):
    """Functions that answer a refusal's number."""
    for line, name, _, result, _, body in functions(text):
        if result == "u32" and re.search(r"NO_REFUSAL|constants::(MALFORMED|UNKNOWN)|lent_refusal|_refusal\(", body):
            yield "%s:%d: fn %s -> u32" % (path, line, name)


def copies(path, text):
    """Functions that only build a struct out of their arguments' fields, or of constants."""
    for line, name, params, result, _, body in functions(text):
        flat = re.sub(r"\s+", " ", body).strip()
        lets = re.sub(r"let (mut )?\w+ = [\w.]+; ", "", flat)
        if re.match(r"^[A-Z]\w+ \{[^{}();]*(\{[^{}();]*\}[^{}();]*)*\}$", lets):
            yield "%s:%d: fn %s -> %s" % (path, line, name, result)


def comparisons(path, text):
    """Functions that compare two values field by field, or answer the greater or the lesser."""
    for line, name, params, result, _, body in functions(text):
        flat = re.sub(r"\s+", " ", body).strip()
        fields = re.findall(r"\((?:\w+\.)+\w+ == (?:\w+\.)+\w+\)", flat)
        if result == "bool" and len(fields) >= 2 or re.match(r"^if (\w+) < (\w+) \{ (return )?(\1|\2);? \}", flat):
            yield "%s:%d: fn %s" % (path, line, name)


def buffers(path, text):
    """Functions that are lent a slice with a place or a count beside it and answer the place or count behind it."""
    for line, name, params, result, _, body in functions(text):
        if result in ("usize", "Made") and re.search(r"&mut \[u\d+\]", params) and re.search(r"\b(at|n|j|count): ", params):
            yield "%s:%d: fn %s" % (path, line, name)


def searches(path, text):
    """Searches by hand: loops that return the place where they are."""
    for line, name, params, result, _, body in functions(text):
        if re.search(r"\b(while|for)\b", body) and re.search(r"return (i|j|Found|Some)\b", body):
            yield "%s:%d: fn %s" % (path, line, name)


PER_FILE = {
    "enums": ("1 own enums of the shape of Option or Result: their variant for nothing or a refusal",
              matching(r"^    (Malformed|Nothing|Nowhere|Unreadable|Broken|Not(Started|Sent|Received|Told)\(u32\)|Refuse\(u32\)),")),
    "tests": ("1 tests of a refusal's number", matching(r"\b(refusal|number) (!=|==) (0|(constants::)?NO_REFUSAL)\b|\) == NO_REFUSAL")),
    "results": ("1 functions that answer a refusal's number", refusal_results),
    "flags": ("1 fields for a refusal's number beside other fields", matching(r"^    pub (refusal|number): u(8|32),")),
    "loops": ("3 loops with `while`", matching(r"^\s*while ")),
    "copies": ("4 functions that only copy fields or constants into a struct", copies),
    "comparisons": ("4 comparisons by hand", comparisons),
    "buffers": ("6 a slice with a place or a count beside it, passed on", buffers),
    "searches": ("6 searches by hand", searches),
    "steps": ("7 a step chosen by a value: `match` on an own enum or a kind", matching(r"^\s*match ")),
}


def tokens(body):
    out = []
    for t in re.findall(r"[A-Za-z_]\w*|\d\w*|'.'|\S", body):
        word = re.match(r"[A-Za-z_]", t) and t not in (
            "let", "mut", "if", "else", "return", "match", "while", "for", "in", "loop", "as", "true", "false")
        out.append("_" if word or t[0].isdigit() else t)
    return re.sub(r"_( (\.|: :) _)+", "_", " ".join(out))


def twins(files):
    """Functions whose bodies have one shape: the same words of the language, other names and numbers."""
    groups = collections.defaultdict(list)
    for path, text in files:
        for line, name, _, _, _, body in functions(text):
            shape = tokens(body)
            if len(shape.split()) >= WIDTH:
                groups[shape].append("%s:%d fn %s" % (path, line, name))
    return [", ".join(g) for g in groups.values() if len(g) > 1]


def facts(files):
    """Parts of `requires` clauses that stand in three or more contracts."""
    count = collections.Counter()
    for _, text in files:
        for m in re.finditer(r"requires(?: \w+)? \{(.*?)\}\n", text, re.S):
            for part in re.split(r" × ", re.sub(r"\s+", " ", m.group(1)).strip()):
                count[part.strip().strip("()").strip()] += 1
    return ["%d x %s" % (n, fact) for fact, n in count.most_common() if n >= 3]


def together(files):
    """Two parameters of the same names and types in eight or more functions."""
    count = collections.Counter()
    for _, text in files:
        for _, _, params, _, _, _ in functions(text):
            ps = [re.sub(r"\s+", " ", p).strip() for p in params.split(",") if ":" in p]
            for i, a in enumerate(ps):
                for b in ps[i + 1:]:
                    count[(a, b)] += 1
    return ["%d x %s, %s" % (n, a, b) for (a, b), n in count.most_common() if n >= 8]


OVER_ALL = {
    "twins": ("2 groups of functions of one shape", twins),
    "facts": ("5 facts in the `requires` of three or more contracts", facts),
    "together": ("5 pairs of parameters in eight or more functions", together),
}


def main(argv):
    top = os.path.join(os.path.dirname(os.path.abspath(__file__)), "..")
    if "--at" in argv:
        i = argv.index("--at")
        top = argv[i + 1]
        argv = argv[:i] + argv[i + 2:]
    files = list(sources(top))
    kinds = {}
    for kind, (what, find) in PER_FILE.items():
        kinds[kind] = (what, [p for path, text in files for p in find(path, text)])
    for kind, (what, find) in OVER_ALL.items():
        kinds[kind] = (what, find(files))
    unknown = [k for k in argv if k not in kinds]
    if unknown:
        print("no kind %s; there are %s" % (unknown[0], ", ".join(kinds)), file=sys.stderr)
        return 2
    for kind in argv or sorted(kinds, key=lambda k: kinds[k][0]):
        what, places = kinds[kind]
        if argv:
            for place in places:
                print(place)
        else:
            print("%4d  %-12s %s" % (len(places), kind, what))
    return 0


if __name__ == "__main__":
    sys.exit(main(sys.argv[1:]))

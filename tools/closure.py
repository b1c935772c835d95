#!/usr/bin/env python3
"""closure.py [-v] [CLAIM]: what a reader has to believe for demand 3, or for another claim (Fence, ChamberSafe). Follows names from the claim through the definitions of claim and
model, and of chamber_claim (a name that stands twice counts twice, an operator by its signs), and counts the lines of what is reached, comments, imports and blank lines aside. -v lists the
definitions of these files that are not reached."""
import glob, os, re, sys

HEAD = re.compile(r'^( {0,2})((?:(?:abbrev|unfoldable|pub|data|record)\s+)+)([^\s:(){}=]+)')
NAME = re.compile(r'[^\s(){}\[\].,;:λ→×=]+')


class Definition:
    def __init__(self, file, name, line, fields):
        self.file, self.name, self.lines, self.fields = file, name, [line], fields


def definitions(path):
    """the definitions of a file, in order; a record's fields and a type's cases belong to it"""
    out, inside = [], False
    for line in open(path, encoding='utf-8'):
        line = line.rstrip('\n')
        if not line.strip() or line.lstrip().startswith('--') or re.match(r'\s*(use|pub mod|infix\w*) ', line):
            continue
        if line.startswith('module '):
            inside = True
            continue
        m = HEAD.match(line)
        field = m and m[1] and (not inside or m[2].strip() == 'pub')
        if m and not field:
            out.append(Definition(path, m[3], line, bool(re.search(r'\b(data|record)\b', m[2]))))
        elif out:
            out[-1].lines.append(line)
    return out


# beside model and demand 3's own files
CLAIMS = {'Demand3': [], 'Fence': ['claim/specs/Fence'], 'ChamberSafe': ['claim/specs/Fence', 'claim/specs/Above', 'chamber_claim/specs/Chamber', 'chamber_claim/specs/Lock', 'chamber_claim/specs/Safe'],
          'Reaches': ['dispatch_claim/specs/Dispatcher', 'dispatch_claim/specs/Fair'],
          'ReachesRun': ['claim/specs/Above', 'dispatch_claim/specs/Dispatcher', 'dispatch_claim/specs/Queues']}


def main():
    claim = next((a for a in sys.argv[1:] if a != '-v'), 'Demand3')
    if claim not in CLAIMS:
        sys.exit('no claim %s; there are %s' % (claim, ', '.join(CLAIMS)))
    os.chdir(os.path.join(os.path.dirname(os.path.abspath(__file__)), '..'))
    files = [f for f in sorted(glob.glob('crates/model/specs/*.antt')) if not re.search(r'/(Simulator|Letters|Lib)\.antt$', f)]
    files += ['crates/claim/specs/%s.antt' % name for name in ('World', 'Provisos', 'Claim')]
    files += ['crates/%s.antt' % name for name in CLAIMS[claim]]
    every = [d for f in files for d in definitions(f)]
    named = {}
    for d in every:
        for part in {d.name, *d.name.split('◌')} - {''}:
            named.setdefault(part, []).append(d)
        for line in d.lines[1:] if d.fields else ():
            m = re.match(r'\s+(?:pub )?([^\s:]+) :', line)
            if m:
                named.setdefault(m[1], []).append(d)
    todo, reached = [claim], []
    while todo:
        for d in named.get(todo.pop(), ()):
            if d not in reached:
                reached.append(d)
                todo += NAME.findall(' '.join(d.lines))
    if '-v' in sys.argv[1:]:
        for d in every:
            if d not in reached:
                print('%s: %s, %d lines' % (d.file, d.name, len(d.lines)))
    print('%d of %d definitions, %d of %d lines' % (len(reached), len(every), sum(len(d.lines) for d in reached), sum(len(d.lines) for d in every)))


main()

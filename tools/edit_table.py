#!/usr/bin/env python3
"""edit_table.py [--check | --log FILE]: writes docs/EDITS.md, the must-fail edits and the fact that each shows, from the edits' first lines (# subject, subject: fact). Fails where an edit has no such
line, or where a call of include/*.h that has arguments is the subject of fewer than two edits: a contract rules out two wrong programs at least. --check also fails if the stored
table is not the one made now. --log FILE, of what rt ci printed: fails where the prover refused an edit because a name was missing in it or in a proof, and not for a fact, where an edit is bad or was not tried, and where one has no line."""
import collections, glob, os, re, sys
from progress import listed

HEAD = '''# Must-fail edits

Each is a wrong program, or a wrong definition, that the prover must refuse: `rt ci` tries each by itself on a copy of its crate. The subject is the call of the C interface that the edit would make answer wrongly, or the
part of the promise that it would break. What shows a fact twice is left out; an edit stands in the smallest crate whose proof refuses it. Written by `tools/edit_table.py` from the edits' first lines.

| crate | edit | of | fact |
|---|---|---|---|
'''


def calls():
    """the calls of the headers, those without arguments aside: they answer one constant"""
    text = re.sub(r'/\*.*?\*/', '', ''.join(open(f, encoding='utf-8').read() for f in sorted(glob.glob('include/*.h'))), flags=re.S)
    return [m[1] for m in re.finditer(r'^(?!static|    )[\w ]+?[ *]mantelorris_(\w+)\((?!void\))[^{};()]*\);', text, flags=re.M)]


MISFIT = re.compile(r'is not in scope|that can be named from here|only because a proof file names what the edit took away|: (?:BAD EDIT|NOT TRIED)')


def misfits(log):
    """the edits of whose refusal rt says that a name is missing: such an edit shows nothing; and those of which it says nothing"""
    said = dict(re.findall(r'^rt: must-fail ([\w/.-]+): (.*)$', open(log, encoding='utf-8', errors='replace').read(), flags=re.M))
    every = ['%s/%s' % (crate, os.path.basename(path)) for crate in listed() for path in sorted(glob.glob('crates/%s/must-fail/*.edit' % crate))]
    bad = ['%s: %s' % (edit, said[edit]) for edit in every if edit in said and MISFIT.search('%s: %s' % (edit, said[edit]))]
    bad += ['%s: rt ci says nothing of it' % edit for edit in every if edit not in said]
    print('\n'.join(bad) if bad else '%d edits, no name missing in any' % len(every))
    return 1 if bad or not every else 0


def main():
    given = [os.path.abspath(path) for path in sys.argv[2:]]
    os.chdir(os.path.join(os.path.dirname(os.path.abspath(__file__)), '..'))
    if sys.argv[1:2] == ['--log']:
        sys.exit(misfits(given[0]))
    rows, shown, bad = [], collections.Counter(), []
    for crate in listed():
        for path in sorted(glob.glob('crates/%s/must-fail/*.edit' % crate)):
            m = re.match(r'# ([^:\n]+): (\S.*)\n', open(path, encoding='utf-8').read())
            if not m:
                bad.append('%s: the first line is not # subject: fact' % path)
                continue
            shown.update(m[1].split(', '))
            rows.append('| %s | %s | %s | %s |\n' % (crate, os.path.basename(path)[:-5], m[1], m[2]))
    bad += ['%s: %d edits, and a call has two at least' % (call, shown[call]) for call in calls() if shown[call] < 2]
    text, stored = HEAD + ''.join(rows), 'docs/EDITS.md'
    if sys.argv[1:] == ['--check']:
        if not os.path.exists(stored) or open(stored, encoding='utf-8').read() != text:
            bad.append('%s is not as tools/edit_table.py writes it' % stored)
    else:
        open(stored, 'w', encoding='utf-8').write(text)
    print('\n'.join(bad) if bad else '%d edits; %d calls, each with two or more' % (len(rows), len(calls())))
    sys.exit(1 if bad else 0)


if __name__ == '__main__':
    main()

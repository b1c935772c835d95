#!/usr/bin/env python3
"""figures.py [--write]: figures in README.md and docs/*.md that a program can count. Such a figure, in digits or as a word, has a mark behind it with the name of what is
counted: 46<!--=events-->. Each must be what is counted now, each mark must name something counted, and each thing counted must be stated somewhere. Prints what is not so and
exits non-zero; --write puts in what is counted. tools/claims.py asks the same."""
import glob, os, re, sys
import callers
from progress import listed

os.chdir(os.path.join(os.path.dirname(os.path.abspath(__file__)), '..'))
MARKED = re.compile(r'([\w,-]+)<!--=([\w.-]+)-->')
UNITS = 'zero one two three four five six seven eight nine'.split()
WORDS = UNITS + 'ten eleven twelve thirteen fourteen fifteen sixteen seventeen eighteen nineteen twenty'.split() + ['twenty-' + u for u in UNITS[1:]]
read = lambda path: open(path, encoding='utf-8').read()


def documents():
    return ['README.md'] + sorted(glob.glob('docs/*.md'))


def matches(pattern, path):
    return re.findall(pattern, read(path), flags=re.M)


def in_list(path, name):
    """the elements of a list that a definition writes one to a line, the empty list behind them"""
    return len(re.findall(r'^    \S', read(path).split('\n%s =\n' % name)[1].split('\n\n')[0], flags=re.M)) - 1


def constructors(path, name):
    return re.findall(r'^  ([\w·]+) :', read(path).split('\npub data %s ' % name)[1].split('\n\n')[0], flags=re.M)


def versions():
    """of each op whose rule has had more than one: versions.OP, how many; by the versions that Versions.today gives"""
    path = 'crates/model/specs/Versions.antt'
    order = constructors(path, 'Version')
    return {'versions.' + op: order.index(version) + 1 for op, version in matches(r'eqb op (\w+)_op\) (\w+)', path)}


def counted():
    world, calls, crates = 'crates/claim/specs/World.antt', 'crates/model/specs/Calls.antt', listed()
    events = set(constructors(world, 'Event') + constructors(world, 'OutsideCall') + constructors(calls, 'OperationOf') + constructors(calls, 'Inquiry'))
    return {
        'sentences': len(matches(r'^- \*\*R\d+\*\* ', 'docs/REFERENCE.md')),
        'crates': len(crates),
        'kernel-imports': len(crates['kernel']),
        'edits': len(glob.glob('crates/*/must-fail/*.edit')),
        'mutations': len(glob.glob('crates/proof_mutations/must-fail/*.edit')),
        'refusals': len(matches(r'^    X\((\w+), \d+,', 'include/mantelorris.h')),
        'server-calls': len(set(matches(r'^(?:uint64_t|struct \w+) mantelorris_(\w+)\(', 'include/mantelorris.h'))),
        'event-calls': len(events - {'call', 'inquire', 'store', 'crash', 'outside'}),
        'events': in_list('crates/proof_sanity/specs/Moved.antt', 'schedule'),
        'lock-events': in_list('crates/chamber_safety/specs/Handed.antt', 'handed'),
        'queue-events': in_list('crates/dispatch_safety/specs/Queued.antt', 'queued_events'),
        'cases': in_list('crates/model_cases/specs/Table.antt', 'cases'),
        'libraries': len(matches(r'\|\| set -- (.*)$', 'tools/staticlib.sh')[0].split()),
        'exceptions': len(callers.ALLOWED),
        'card-functions': len(matches(r'^\w+ (card_\w+)\(', 'examples/card.h')),
        **versions(),
    }


def number(text):
    plain = text.replace(',', '')
    return int(plain) if plain.isdigit() else WORDS.index(text.lower()) if text.lower() in WORDS else None


def written(text, n):
    """n in the way in which the figure stood there"""
    if text.replace(',', '').isdigit() or n >= len(WORDS):
        return '{:,}'.format(n)
    return WORDS[n].capitalize() if text[0].isupper() else WORDS[n]


def wrong():
    """what is not so, in words"""
    counts, bad, stated = counted(), [], set()
    for path in documents():
        for text, name in MARKED.findall(read(path)):
            stated.add(name)
            if name not in counts:
                bad.append('%s: nothing counts %s' % (path, name))
            elif number(text) != counts[name]:
                bad.append('%s: %s of %s, and there are %d: tools/figures.py --write' % (path, text, name, counts[name]))
        bad += ['%s: a mark without a figure' % path] * (read(path).count('<!--=') - len(MARKED.findall(read(path))))
    return bad + ['%s: there are %d, and no document says so' % (name, counts[name]) for name in sorted(counts.keys() - stated)]


def write():
    counts = counted()
    for path in documents():
        old = read(path)
        new = MARKED.sub(lambda m: '%s<!--=%s-->' % (written(m[1], counts[m[2]]), m[2]) if m[2] in counts else m[0], old)
        if new != old:
            open(path, 'w', encoding='utf-8').write(new)


if __name__ == '__main__':
    if '--write' in sys.argv[1:]:
        write()
    bad = wrong()
    print('\n'.join(bad) if bad else '%d figures, each as counted' % len(counted()))
    sys.exit(1 if bad else 0)

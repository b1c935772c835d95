#!/usr/bin/env python3
"""claims.py: docs/REFERENCE.md has numbered sentences (- **R1** ..), docs/CLAIMS.md a row for each (| R1 | .. | carriers |). Holds
  - sentences and rows to the same numbers, from 1 on, each once, in order
  - every row to at least one carrier, and every carrier to something that is there: `Module.name` declared in a module of that name below crates/*/specs or
    crates/*/proofs, or a field of a type; fn `name` and const `NAME` in crates/*/src; must-fail edit `label` in crates/*/must-fail; crate NAME; paths
  - every link of README.md and docs/*.md to a file, and to a heading where it names one; every `Module.name`, crate and file of a crate that they cite to one that
    is there; README.md's table of crates to all of them
  - figures that can be counted to what is counted (tools/figures.py).
Prints what is missing and exits non-zero."""
import glob, os, re, sys
import figures

os.chdir(os.path.join(os.path.dirname(os.path.abspath(__file__)), '..'))
read = lambda path: open(path, encoding='utf-8').read()
bad = figures.wrong()

declared = {}
for path in glob.glob('crates/*/specs/*.antt') + glob.glob('crates/*/proofs/*.antt'):
    module, text = os.path.basename(path)[:-5], read(path)
    names = set(re.findall(r'^\s*(?:(?:unfoldable|abbrev|pub|data|record|ruleset) )*(\S+)(?: \{[^}]*\})?(?: \([^)]*\))* :', text, flags=re.M))
    names |= set(re.findall(r'^\s*(?:pub )?(?:data|record) (\S+)', text, flags=re.M))
    declared.setdefault(module, set()).update(names)
    for record, fields in re.findall(r'^ *pub record (\w+).* where\n((?: +.*\n)+)', text, flags=re.M):
        declared.setdefault(record, set()).update(re.findall(r'^ +(?:pub )?(\S+) :', fields, flags=re.M))
code = [read(path) for path in glob.glob('crates/*/src/*.rt')]
functions, constants = set(), set()
for text in code:
    functions |= set(re.findall(r'\bfn (\w+)', text))
    constants |= set(re.findall(r'\bconst (\w+)', text))
    for m in re.finditer(r'pub (?:struct|enum) (\w+) \{(.*?)\n\}', text, flags=re.S):
        declared.setdefault(m.group(1), set()).update(re.findall(r'(?:pub )?(\w+)[:(,]', m.group(2)))
crates = set(os.listdir('crates'))
edits = {os.path.basename(path)[:-5] for path in glob.glob('crates/*/must-fail/*.edit')}


def carriers(part, where):
    """the carriers that one part of a row names; what is not there goes to bad"""
    n = 0
    for name in re.findall(r'`([^`]+)`', part):
        n += 1
        if part.strip().startswith('must-fail edit'):
            there = name in edits
        elif re.search(r'\bfn `%s`' % re.escape(name), part):
            there = name in functions
        elif re.search(r'\bconst `%s`' % re.escape(name), part):
            there = name in constants
        else:
            module, _, rest = name.partition('.')
            there = bool(rest) and rest in declared.get(module, ())
        if not there:
            bad.append('%s: %s is not there' % (where, name))
    for path in re.findall(r'(?<![\w/])((?:crates|docs|tests|tools|include|examples|second|compare)/[\w./*-]*)', part):
        n += 1
        if not glob.glob(path.rstrip('.')):
            bad.append('%s: no file %s' % (where, path))
    for name in re.findall(r'\bcrate (\w+)', part):
        if name not in crates:
            bad.append('%s: no crate %s' % (where, name))
    return n


def cited(path, text):
    """`Module.name`, (crate NAME), NAME/specs/.., NAME/proofs/.. and tables of crates in a document; what is not there goes to bad. Returns what the tables list"""
    for module, name in re.findall(r'`([A-Z]\w*)\.([^\s`]+)`', text):
        if name != 'antt' and name not in declared.get(module, ()):
            bad.append('%s: %s.%s is not there' % (path, module, name))
    tables = ''.join(re.findall(r'^\| crates? \| .*\n\|[-|]+\n((?:\|.*\n)+)', text, flags=re.M))
    listed = set(re.findall(r'\w+', ' '.join(row.split('|')[1] for row in tables.split('\n')[:-1])))
    for name in sorted((listed | set(re.findall(r'\(crate `?(\w+)', text))) - crates):
        bad.append('%s: no crate %s' % (path, name))
    for file in re.findall(r'(?<![\w/.])(?:crates/)?(\w+/(?:specs|proofs)/\w+)', text):
        if not glob.glob('crates/%s*' % file):
            bad.append('%s: no file crates/%s' % (path, file))
    return listed


def in_order(what, numbers):
    if numbers != list(range(1, len(numbers) + 1)):
        bad.append('%s: the numbers are not R1 to R%d, each once and in order' % (what, len(numbers)))


def anchors(path):
    heads = re.findall(r'^#+ (.*)$', read(path), flags=re.M)
    return {re.sub(r'[^\w\- ]', '', h.lower()).strip().replace(' ', '-') for h in heads}


sentences = [int(n) for n in re.findall(r'^- \*\*R(\d+)\*\* \S', read('docs/REFERENCE.md'), flags=re.M)]
rows = re.findall(r'^\| R(\d+) \|([^|]*)\|([^|]*)\|$', read('docs/CLAIMS.md'), flags=re.M)
in_order('docs/REFERENCE.md', sentences)
in_order('docs/CLAIMS.md', [int(n) for n, _, _ in rows])
if len(sentences) != len(rows):
    bad.append('%d sentences and %d rows' % (len(sentences), len(rows)))
for path in figures.documents():
    for n in re.findall(r'\bR(\d+)\b', read(path)):
        if int(n) not in sentences:
            bad.append('%s: R%s is cited and not there' % (path, n))
total = 0
for n, paper, carried in rows:
    found = sum(carriers(part, 'R' + n) for part in carried.split(';'))
    total += found
    if not found:
        bad.append('R%s: a sentence without a carrier' % n)
    if not paper.strip():
        bad.append('R%s: no section is named' % n)
listed = {path: cited(path, read(path)) for path in figures.documents() if path != 'docs/CLAIMS.md'}
bad += ['README.md: its table lacks the crate ' + name for name in sorted(crates - listed['README.md'])]
for path in figures.documents():
    for link in re.findall(r'\]\(([^)\s]+)\)', read(path)):
        file, _, anchor = link.partition('#')
        target = os.path.normpath(os.path.join(os.path.dirname(path), file)) if file else path
        if ':' in link:
            continue
        if not os.path.exists(target):
            bad.append('%s: a link to %s, which is not there' % (path, link))
        elif anchor and anchor not in anchors(target):
            bad.append('%s: no heading for %s' % (path, link))
print('\n'.join(bad) if bad else '%d sentences, each with a row; %d carriers, each there' % (len(sentences), total))
sys.exit(1 if bad else 0)

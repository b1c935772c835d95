#!/usr/bin/env python3
"""house.py [--check]: draws docs/pictures/house.svg, the crates by layer, and which layer rests on which by the crates' real imports: what a crate's sources, definitions and
proofs name of another. An arrow that follows from others is left out; in a layer a crate rests on later ones only. Fails if crates.txt lists a crate that is not named, or lacks one that is, or if an import goes up, or
from what is claimed and proved into code; --check also fails if the stored picture is not the one made now."""
import glob, os, re, sys
import progress

os.chdir(os.path.join(os.path.dirname(os.path.abspath(__file__)), '..'))
PICTURE = 'docs/pictures/house.svg'

# the layers from top to bottom, on the left the product, on the right what is claimed and proved of it; a crate belongs to the first whose test it passes
PRODUCT = [
    ('programs and C interfaces', lambda n: n in ('yard', 'inspector', 'program_input', 'kernel', 'client_exports') or n.endswith('_c')),
    ('products above the kernel', lambda n: n in ('chamber', 'dispatch')),
    ('simulator', lambda n: n.startswith('simulator')),
    ('parties beside the server', lambda n: n in ('client', 'leases')),
    ('server: calls, decisions, changes', lambda n: n.startswith('server_') or n == 'refusals'),
    ('state: tables in the lent buffer', lambda n: n.startswith('state_')),
    ('format: packets, images, log', lambda n: n.startswith('format_')),
]
PROOF = [
    ('products, on the promises below', lambda n: n.startswith(('chamber_', 'dispatch_'))),
    ('safety: demand 3', lambda n: n == 'safety'),
    ('proof: layers under it', lambda n: n.startswith('proof_')),
    ('claim: demand 3 stated', lambda n: n.startswith('claim')),
]
BASE = [('model: what is promised, and its laws', lambda n: n.startswith('model'))]


def listed():
    return {name: set(rests) for name, rests in progress.listed().items()}


def imports(name, crates):
    """the crates that the files of a crate name"""
    found = set()
    for path in glob.glob('crates/%s/**/*' % name, recursive=True):
        if not path.endswith(('.rt', '.antt')):
            continue
        text = open(path, encoding='utf-8').read()
        found |= set(re.findall(r'(?<![\w.])Rattle\.(\w+)\.', text))
        if path.endswith('.rt'):
            code = re.sub(r'//[^\n]*', '', text)
            found |= set(re.findall(r'(?<![\w:.])(\w+)::', code))
    return (found & set(crates)) - {name}


def below(name, direct, known):
    if name not in known:
        known[name] = set()
        for d in direct[name]:
            known[name] |= {d} | below(d, direct, known)
    return known[name]


def layer(name):
    """a crate's column, 0 the product, 1 what is claimed and proved, 2 the base, and its layer there, counted from the top"""
    return next((c, i) for c, bands in enumerate((PRODUCT, PROOF, BASE)) for i, (_, test) in enumerate(bands) if test(name))


def goes_down(name, other):
    """an import stays in its layer or goes to a lower one; from code also to what is claimed of it"""
    (column, i), (below, j) = layer(name), layer(other)
    return below > column or (below == column and j >= i)


def reduced(direct):
    known = {}
    return {n: {d for d in ds if not any(d in below(e, direct, known) for e in ds if e != d)} for n, ds in direct.items()}


def rows_of(members, direct):
    """a band's crates by how deep they lie inside it, the top first"""
    depth = {}

    def of(n):
        if n not in depth:
            depth[n] = 0
            above = [m for m in members if n in direct[m]]
            depth[n] = 1 + max([of(m) for m in above], default=-1)
        return depth[n]

    rows = {}
    for n in sorted(members):
        rows.setdefault(of(n), []).append(n)
    return [rows[k] for k in sorted(rows)]


BOX, GAP, HIGH, STEP, HEAD, BETWEEN = 7.2, 10, 24, 32, 22, 30
WIDE = 820
# the layers on the page, by column and place in it: left end and width, in rows from top to bottom
ROWS = [
    {(0, 0): (20, 500), (1, 0): (560, 240)},
    {(0, 2): (20, 320), (0, 1): (360, 160)},
    {(0, 4): (20, 320), (0, 3): (360, 160)},
    {(0, 5): (20, 320)},
    {(0, 6): (20, 500)},
    {(2, 0): (20, 780)},
]
BESIDE = [(1, 1), (1, 2), (1, 3)]  # below (1, 0), one under the other


def split(names, wide):
    """the crates in lines that are not wider than their layer"""
    lines, line, used = [], [], 0
    for n in names:
        w = len(n) * BOX + 16
        if line and used + w > wide:
            lines.append(line)
            line, used = [], 0
        line.append(n)
        used += w + GAP
    return lines + [line]


def band(title, names, left, top, wide, out):
    """draws one layer with its crates, and returns where it ends"""
    title, lines = split_title(title, wide), split(names, wide - 24)
    head = HEAD + 14 * (len(title) - 1)
    tall = head + len(lines) * STEP - (STEP - HIGH) + 12
    out.append('<rect x="%d" y="%d" width="%d" height="%d" rx="6" fill="#f3f5f7" stroke="#9fb0c0"/>' % (left, top, wide, tall))
    for i, words in enumerate(title):
        out.append('<text x="%d" y="%d" font-size="12" font-weight="bold" fill="#33475b">%s</text>' % (left + 10, top + 16 + 14 * i, words))
    for i, line in enumerate(lines):
        widths = [len(n) * BOX + 16 for n in line]
        x, y = left + (wide - sum(widths) - GAP * (len(line) - 1)) / 2, top + head + i * STEP
        for n, w in zip(line, widths):
            out.append('<rect x="%.0f" y="%.0f" width="%.0f" height="%d" rx="4" fill="#ffffff" stroke="#33475b"/>' % (x, y, w, HIGH))
            out.append('<text x="%.0f" y="%.0f" text-anchor="middle" font-size="12">%s</text>' % (x + w / 2, y + 16, n))
            x += w + GAP
    return top + tall


def split_title(title, wide):
    words, lines = title.split(), ['']
    for w in words:
        if len(lines[-1]) + len(w) + 1 > (wide - 16) / BOX:
            lines.append('')
        lines[-1] = (lines[-1] + ' ' + w).strip()
    return lines


def arrow(a, b, turned):
    """from one layer's rectangle to another's, both as left, top, right, bottom"""
    if turned:
        y = (max(a[1], b[1]) + min(a[3], b[3])) / 2
        ends = (a[2], y, b[0], y)
    else:
        left, right = max(a[0], b[0]), min(a[2], b[2])
        x = (left + right) / 2
        ends = (x, a[3], x, b[1]) if left < right else (a[2] - 30, a[3], b[0] + 30, b[1])
    return '<path d="M%.0f %.0fL%.0f %.0f" fill="none" stroke="#4f6b86" stroke-width="2" marker-end="url(#head)"/>' % ends


def picture(crates, direct):
    bands = {(c, i): band for c, column in enumerate((PRODUCT, PROOF, BASE)) for i, band in enumerate(column)}
    members = {key: [n for row in rows_of({n for n in crates if layer(n) == key}, direct) for n in row] for key in bands}
    out, place = [], {}

    def put(key, left, top, wide):
        end = band(bands[key][0], members[key], left, top, wide, out)
        place[key] = (left, top, left + wide, end)
        return end + BETWEEN

    top = 20
    for row in ROWS[:-1]:
        top = max(put(key, left, top, wide) for key, (left, wide) in row.items() if key[0] == 0)
    left, wide = ROWS[0][(1, 0)]
    # the lock's proofs stand beside the controller, which rests on what is claimed there
    beside = place[(0, 1)][1]
    for key in [(1, 0)] + BESIDE:
        beside = put(key, left, beside, wide)
    top = max(top, beside)
    for key, (left, wide) in ROWS[-1].items():
        top = put(key, left, top, wide)
    above = {key: set() for key in bands}
    for n, ds in direct.items():
        above[layer(n)] |= {layer(d) for d in ds} - {layer(n)}
    lines = [arrow(place[a], place[b], a[0] == 0 and b[0] == 1) for a, bs in sorted(reduced(above).items()) for b in sorted(bs)]
    for i, words in enumerate(('An arrow: rests on. What follows from other arrows is left out.', 'In a layer a crate rests on later ones only, read from left to right and down.')):
        out.append('<text x="20" y="%d" font-size="12" fill="#56616c">%s</text>' % (top + 16 * i, words))
    top += 32
    head = '<svg xmlns="http://www.w3.org/2000/svg" viewBox="0 0 %d %d" width="%d" height="%d" font-family="monospace">\n' % (WIDE, top, WIDE, top)
    head += '<defs><marker id="head" viewBox="0 0 8 8" refX="7" refY="4" markerWidth="5" markerHeight="5" orient="auto"><path d="M0 0L8 4L0 8z" fill="#4f6b86"/></marker></defs>\n'
    head += '<rect width="%d" height="%d" fill="#ffffff"/>' % (WIDE, top)
    return '\n'.join([head] + out + lines + ['</svg>']) + '\n'


def main():
    crates = listed()
    homeless = [n for n in crates if not any(test(n) for bands in (PRODUCT, PROOF, BASE) for _, test in bands)]
    if homeless:
        sys.exit('in no layer: ' + ' '.join(sorted(homeless)))
    direct = {n: imports(n, crates) for n in crates}
    bad = []
    for n in sorted(crates):
        bad += ['crates.txt: %s lists %s and does not name it' % (n, d) for d in sorted((crates[n] & set(crates)) - direct[n])]
        bad += ['crates.txt: %s names %s and does not list it' % (n, d) for d in sorted(direct[n] - crates[n])]
        bad += ['%s rests on %s, which lies above it or is code' % (n, d) for d in sorted(direct[n]) if not goes_down(n, d)]
    made = picture(crates, direct)
    if '--check' in sys.argv[1:]:
        if not os.path.exists(PICTURE) or open(PICTURE, encoding='utf-8').read() != made:
            bad.append('%s is not what the crates give now: make house' % PICTURE)
    else:
        os.makedirs(os.path.dirname(PICTURE), exist_ok=True)
        open(PICTURE, 'w', encoding='utf-8').write(made)
    print('\n'.join(bad) if bad else '%d crates, %d direct imports, each listed' % (len(crates), sum(map(len, direct.values()))))
    sys.exit(1 if bad else 0)


main()

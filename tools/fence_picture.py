#!/usr/bin/env python3
"""fence_picture.py [--check]: draws docs/pictures/fence.svg from what tests/c/fence.c prints: a schedule of a lock, run three times on the library. With --check it fails if
the stored picture is another one. MANTELORRIS_DIST names a folder with archive and headers; without it `make lib` makes dist/."""
import html, os, subprocess, sys, tempfile

os.chdir(os.path.join(os.path.dirname(os.path.abspath(__file__)), '..'))
PICTURE = 'docs/pictures/fence.svg'
LANES = [('lost', 'controller 1'), ('next', 'controller 3'), ('cabinet', 'cabinet'), ('manager', 'lease manager')]
LEFT, LANE, WIDTH, TOP, ROW, FOOT = 80, 178, 740, 84, 26, 62


def said():
    dist = os.environ.get('MANTELORRIS_DIST')
    if not dist:
        if subprocess.run(['tools/lib.sh'], stdout=subprocess.DEVNULL).returncode:
            sys.exit('no picture: the schedule runs on the library')
        dist = 'dist'
    with tempfile.TemporaryDirectory() as work:
        program = os.path.join(work, 'fence')
        subprocess.run(['cc', '-std=c11', '-O1', '-Wall', '-Wextra', '-Werror', '-I' + dist, 'tests/c/fence.c', dist + '/libmantelorris.a', '-o', program], check=True)
        return subprocess.run([program], check=True, capture_output=True, text=True).stdout


def panels(text):
    out = []
    for line in text.strip().split('\n'):
        word, rest = line.split(' ', 1)
        if word == 'panel':
            out.append((rest, []))
        else:
            out[-1][1].append([word] + (rest.split(' ', 2) if word in ('go', 'in') else rest.split(' ', 1)))
    return out


def panel(title, events, y0, svg):
    """one run, from y0 on; returns where it ends"""
    svg.append('<g transform="translate(0 %d)">' % y0)
    text = lambda x, y, s, more='': svg.append('<text x="%d" y="%d"%s>%s</text>' % (x, y, more, html.escape(s)))
    lane = {name: LEFT + LANE * i for i, (name, _) in enumerate(LANES)}
    both = events[-1][1] != '0' and events[-1][2] != '0'
    bottom = TOP + ROW * (len(events) - 1)
    text(20, 24, title, ' font-size="16" font-weight="bold"')
    for name, shown in LANES:
        text(lane[name], 54, shown, ' text-anchor="middle" fill="#555"')
        svg.append('<line x1="%d" y1="62" x2="%d" y2="%d" stroke="#bbb"/>' % (lane[name], lane[name], bottom))
    left = {}
    for i, event in enumerate(events):
        y = TOP + ROW * i
        if event[0] == 'at':
            svg.append('<circle cx="%d" cy="%d" r="3" fill="#345"/>' % (lane[event[1]], y))
            text(lane[event[1]] + 7, y - 4, event[2])
        elif event[0] == 'go':
            x = lane[event[2]]
            left[event[1]] = (x, y)
            last = event[2] == LANES[-1][0]
            text(x - 7 if last else x + 7, y - 6 if last else y - 4, event[3], ' text-anchor="end" fill="#064"' if last else ' fill="#064"')
        elif event[0] == 'in':
            x, began = left[event[1]]
            to, colour = lane[event[2]], '#b00' if event[1] == 'A' and both else '#345'
            # the late packet waits at the left, then arrives
            way = [(x, began), (x - 24, began + 10), (x - 24, y - 10), (to, y)] if event[1] == 'A' else [(x, began), (to, y)]
            svg.append('<polyline points="%s" fill="none" stroke="%s" marker-end="url(#tip)"/>' % (' '.join('%d,%d' % p for p in way), colour))
            text(to + 7, y + (16 if x > to else 4), event[3], ' fill="%s"' % colour)
        else:
            text(20, bottom + 30, 'upper gate at %s, lower gate at %s%s' % (event[1], event[2], ': both open' if both else ''),
                 ' font-weight="bold" fill="%s"' % ('#b00' if both else '#060'))
    svg.append('</g>')
    return y0 + bottom + FOOT


def drawn(runs):
    """the runs one below the other, so that a page shows their words at full size"""
    body, end = [], 0
    for title, events in runs:
        end = panel(title, events, end, body)
    svg = ['<svg xmlns="http://www.w3.org/2000/svg" viewBox="0 0 %d %d" width="%d" font-family="sans-serif" font-size="13">' % (WIDTH, end, WIDTH),
           '<defs><marker id="tip" viewBox="0 0 8 8" refX="8" refY="4" markerWidth="8" markerHeight="8" orient="auto"><path d="M0,0 L8,4 L0,8 z" fill="#345"/></marker></defs>',
           '<rect width="%d" height="%d" fill="white"/>' % (WIDTH, end)]
    return '\n'.join(svg + body + ['</svg>']) + '\n'


picture = drawn(panels(said()))
if '--check' in sys.argv[1:]:
    stored = open(PICTURE, encoding='utf-8').read() if os.path.exists(PICTURE) else ''
    if stored != picture:
        sys.exit('%s is not what tools/fence_picture.py draws now' % PICTURE)
    print('%s is what the schedule gives' % PICTURE)
else:
    open(PICTURE, 'w', encoding='utf-8').write(picture)
    print(PICTURE)

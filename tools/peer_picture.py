"""The picture of tools/bench_peer.py, docs/pictures/peer.svg: bars on logarithmic scales, the kernel beside SQLite."""
import math
from guide_pictures import INK, SOFT, Picture

COLORS = {'kernel': '#2f6f4f', 'sqlite': '#8fb3d9'}
WIDE, HIGH = 330, 160


def label(x):
    for size, unit in ((1e6, 'M'), (1e3, 'k')):
        if x >= size:
            return '%.3g' % (x / size) + unit
    return '%.3g' % x


def panel(p, left, top, title, groups):
    """groups: name and the two figures"""
    values = [v for _, pair in groups for v in pair.values()]
    low, high = math.floor(math.log10(min(values))), math.ceil(math.log10(max(values) * 1.6))
    low -= math.log10(min(values)) - low < 0.15  # a bar of no height would not be seen

    def y(v):
        return top + HIGH - HIGH * (math.log10(v) - low) / (high - low)
    p.text(left, top - 16, title, anchor='start', bold=True)
    for decade in range(low, high + 1):
        p.line([(left, y(10 ** decade)), (left + WIDE, y(10 ** decade))], color='#d5dbe1', head=False)
        p.text(left - 6, y(10 ** decade) + 4, label(10 ** decade), anchor='end', small=True, color=SOFT)
    for i, (name, pair) in enumerate(groups):
        middle = left + WIDE * (i + 0.5) / len(groups)
        for x, side in ((middle - 42, 'kernel'), (middle + 2, 'sqlite')):
            p.shapes.append('<rect x="%g" y="%g" width="40" height="%g" fill="%s"/>' % (x, y(pair[side]), top + HIGH - y(pair[side]), COLORS[side]))
            p.text(x + 20, y(pair[side]) - 4, label(pair[side]), small=True)
        p.text(middle, top + HIGH + 17, name, small=True)


def draw(got, on_disk, in_memory):
    p = Picture(820, 540)
    for x, side, name in ((50, 'kernel', 'kernel, with a file as its card'), (300, 'sqlite', 'SQLite, write-ahead log, synchronous=FULL')):
        p.shapes.append('<rect x="%g" y="14" width="14" height="14" fill="%s"/>' % (x, COLORS[side]))
        p.text(x + 22, 26, name, anchor='start', color=INK)

    def groups(form, *kind):
        return [(form.format(w[-1]), {s: got.median(w, s) for s in COLORS}) for w in got.all if w[:-1] == kind]
    batch = 'batches of {}'
    panel(p, 50, 80, 'commands a second, ' + on_disk, groups(batch, 'commands', on_disk))
    panel(p, 460, 80, 'commands a second, ' + in_memory, groups(batch, 'commands', in_memory))
    panel(p, 50, 330, 'repeats a second', groups(batch, 'repeats', on_disk))
    panel(p, 460, 330, 'reopening after n commands, ms (low is good)', groups('{:,}', 'reopening'))
    p.text(410, 528, 'logarithmic scales; medians', small=True, color=SOFT)
    text = p.svg('peer')
    open('docs/pictures/peer.svg', 'w', encoding='utf-8').write(text)

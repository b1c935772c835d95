#!/usr/bin/env python3
"""picture.py SCHEDULE ANSWERS OUT.svg [TITLE]: draws a schedule of the simulator from its lines and the answers of the program `yard`.
picture.py --stored: draws docs/pictures/NAME.svg from tests/yard/NAME.in and NAME.out.
picture.py --check: says whether these are what it draws now.
picture.py --try FOLDER: draws every NAME.in there with its NAME.out, and no text overlaps.

A lane for each client and server, time downward. An arrow is a delivery, with the packet's number and kind; the thin line from its tail goes up to
where the packet was made."""
import glob, os, sys
from xml.etree import ElementTree
from xml.sax.saxutils import escape

from schedule import Misfit, MOST_LINES, lines_of, story

STORED = {
    'paper': 'A power cut before the sync: the repeat is carried out again, once',
    'repeat': 'A late repeat after a move: answered by the new server, not carried out again',
    'reply': 'A reply that would have been lost: no result leaves before the sync',
}
LANES = [('desk', 0), ('server', 0), ('server', 1), ('desk', 1)]
HEADS = [['desk 0', 'client 1'], ['server 0'], ['server 1'], ['desk 1', 'client 2']]
SIZE, LINE, PAD, GAP = 12, 15, 6, 9  # of text, of its lines, inside and between boxes
WIDEST = 176  # of a box's text
# advances of DejaVu Sans from the space to '~', in hundredths of the size
ADVANCES = [int(w) for w in (
    '32 40 46 84 64 95 78 27 39 39 50 84 32 36 32 34 64 64 64 64 64 64 64 64 64 64 34 34 84 84 84 53 100 68 69 70 77 63 58 77 75 29 29 66 56 86 75 '
    '79 60 79 69 63 61 73 68 99 69 61 69 39 34 39 84 50 50 61 63 55 63 62 35 63 63 28 28 58 28 97 63 61 63 63 41 52 39 63 59 82 59 59 52 64 34 64 84').split()]
MONO = 7.3  # advance of the lines and answers
# box: fill, border, text
BOXES = {
    'made': ('#e8f0fb', '#5b7fb5', '#1d3557'), 'executed': ('#cdebc9', '#3f8f3a', '#16401a'), 'replied': ('#f1faef', '#3f8f3a', '#16401a'),
    'finished': ('#3f8f3a', '#2c6a29', '#ffffff'), 'noted': ('#fff6d6', '#b8962e', '#4d3d08'), 'synced': ('#e9ecef', '#6c757d', '#212529'),
    'cut': ('#2b2b2b', '#000000', '#ffffff'), 'moved': ('#eee3f7', '#7b4ea3', '#3a1d55'), 'refused': ('#fde4e1', '#c0392b', '#8e1b10'),
}
PACKETS = {'request': '#2f6fc1', 'result': '#3f8f3a', 'refusal': '#c0392b', 'image': '#7b4ea3', 'receipt': '#9a6a1f'}


def width(text, size=SIZE, bold=False):
    return sum(ADVANCES[ord(c) - 32] if 32 <= ord(c) < 127 else 100 for c in text) * size / 100 * (1.13 if bold else 1)


def wrapped(text, bold):
    rows = ['']
    for word in text.split(' '):
        longer = (rows[-1] + ' ' + word).strip()
        if rows[-1] and width(longer, bold=bold) > WIDEST:
            rows.append('  ' + word)
        else:
            rows[-1] = longer
    return rows


class Row:
    """An event with its place."""

    def __init__(self, event):
        self.event = event
        self.lane = LANES.index(event.lane) if event.lane else None
        if self.lane is None:
            self.text = [(w, False) for w in event.words]
        else:
            self.text = [(r, k == 0) for k, words in enumerate(event.words) for r in wrapped(words, k == 0)]
        self.half = max(width(t, bold=b) for t, b in self.text) / 2 + 8
        self.height = LINE * len(self.text) + PAD
        self.y = 0

    def bottom(self):
        return self.y + self.height / 2


class Picture:
    def __init__(self, told, title, unread):
        self.told, self.title, self.unread = told, title, unread
        self.rows = [Row(e) for e in told.events]
        self.parts, self.boxes = [], []
        self.place_rows()
        self.place_tracks()
        self.place_lanes()

    # places

    def place_rows(self):
        y = 44 + 2 * LINE + 22
        for row in self.rows:
            row.y = y + row.height / 2
            y += row.height + GAP
        self.end = y

    def from_lane(self, row):
        """The lane of the packet that this row delivers."""
        return LANES.index(self.told.packets[row.event.packet].lane)

    def label(self, row):
        p = self.told.packets[row.event.packet]
        return '%d %s%s' % (row.event.packet, p.kind, ', again' if row.event.times else '')

    def place_tracks(self):
        """A packet's line beside its maker's lane, from its making to its last delivery: offsets in steps, no two at one place at a time."""
        self.tracks, free = {}, [[] for _ in LANES]
        last = {row.event.packet: k for k, row in enumerate(self.rows) if row.event.packet}
        for number, packet in sorted(self.told.packets.items()):
            if number in last:
                first, lane = packet.event.number - 1, LANES.index(packet.lane)
                ends = free[lane]
                place = next((k for k, end in enumerate(ends) if end < first), len(ends))
                ends[place:place + 1] = [last[number]]
                self.tracks[number] = (lane, place, first, last[number])
        self.reach = [5 * ((len(ends) + 1) // 2) + 5 for ends in free]

    def offset(self, number):
        place = self.tracks[number][1]
        return (place // 2 + 1) * 5 * (1 if place % 2 == 0 else -1)

    def place_lanes(self):
        half = [max([r.half for r in self.rows if r.lane == k] + [width(w, bold=True) / 2 + 12 for w in HEADS[k]]) for k in range(4)]
        gaps = [half[k] + half[k + 1] + 14 for k in range(3)] + [half[3] + 12]
        for row in self.rows:
            if row.event.packet:
                start, end, label = self.from_lane(row), row.lane, width(self.label(row))
                if start == end:
                    gap, beside = end, half[end + 1] if end < 3 else 0
                    gaps[gap] = max(gaps[gap], row.half + label + 34 + min(beside, 40))
                else:
                    near = end - (1 if start < end else 0)
                    other = near if near != end else near + 1
                    gaps[near] = max(gaps[near], row.half + label + 26 + self.reach[other])
        words = max([len(self.short(e.text)) for e in self.told.events] + [8])
        numbers = max([len('%d %d %d' % e.answer) for e in self.told.events] + [6])
        self.answers_at = 46 + MONO * (words + 2)
        self.left = self.answers_at + MONO * (numbers + 1)
        self.lanes = [self.left + half[0] + 8]
        for gap in gaps[:3]:
            self.lanes.append(self.lanes[-1] + gap)
        notes = [self.left + 24 + width(t) for r in self.rows if r.lane is None for t, _ in r.text]
        self.width = max([self.lanes[3] + gaps[3] + 8, width(self.title, 15, True) + 32, 780] + notes)

    @staticmethod
    def short(text):
        return text if len(text) <= 24 else text[:23] + '…'

    # marks

    def add(self, form, *values):
        self.parts.append(form % values)

    def text(self, x, y, words, colour='#222222', anchor='start', size=SIZE, bold=False, mono=False):
        family, long = ' class="m"' if mono else '', MONO * len(words) if mono else width(words, size, bold)
        start = x - long * {'start': 0, 'middle': 0.5, 'end': 1}[anchor]
        self.boxes.append((start, y - 0.76 * size, start + long, y + 0.22 * size, words))
        self.add('<text x="%.1f" y="%.1f"%s font-size="%d" fill="%s" text-anchor="%s"%s xml:space="preserve">%s</text>',
                 x, y, family, size, colour, anchor, ' font-weight="bold"' if bold else '', escape(words))

    def line(self, x1, y1, x2, y2, colour, thick=1.0, dashes=''):
        self.add('<path d="M%.1f %.1fL%.1f %.1f" stroke="%s" stroke-width="%.1f"%s fill="none"/>',
                 x1, y1, x2, y2, colour, thick, ' stroke-dasharray="%s"' % dashes if dashes else '')

    def rect(self, x, y, w, h, fill, border=None, round_=0):
        self.add('<rect x="%.1f" y="%.1f" width="%.1f" height="%.1f" rx="%d" fill="%s"%s/>',
                 x, y, w, h, round_, fill, ' stroke="%s"' % border if border else '')

    def shade(self, k):
        return '#f5f6f8' if k % 2 == 0 else '#ffffff'

    # parts

    def heads(self, y):
        for x, words in zip(self.lanes, HEADS):
            half = max(width(w, bold=True) for w in words) / 2 + 10
            self.rect(x - half, y, 2 * half, 2 * LINE + 8, '#ffffff', '#444444', 4)
            at = y + 18 if len(words) == 2 else y + 24
            for k, w in enumerate(words):
                self.text(x, at + k * LINE, w, anchor='middle', bold=k == 0)

    def table(self):
        self.text(46, 44 + LINE + 9, 'schedule', '#666666')
        self.text(self.answers_at, 44 + LINE + 9, 'answer', '#666666')
        for k, row in enumerate(self.rows):
            e = row.event
            self.rect(0, row.y - row.height / 2 - GAP / 2, self.width, row.height + GAP, self.shade(k))
            self.text(34, row.y + 4, str(e.number), '#888888', 'end', mono=True)
            self.text(46, row.y + 4, self.short(e.text), mono=True)
            self.text(self.answers_at, row.y + 4, '%d %d %d' % e.answer, '#8e1b10' if e.refusal else '#444444', mono=True)

    def track(self, number):
        lane, _, first, last = self.tracks[number]
        x = self.lanes[lane] + self.offset(number)
        self.line(x, self.rows[first].bottom(), x, self.rows[last].y, PACKETS[self.told.packets[number].kind] + '88')

    def arrow(self, k, row):
        """The delivery of a row's packet, from its track to the row's box."""
        number, start = row.event.packet, self.from_lane(row)
        colour, words = PACKETS[self.told.packets[number].kind], self.label(row)
        if start == row.lane:
            return self.hook(k, row, colour, words)
        way = 1 if self.lanes[start] < self.lanes[row.lane] else -1
        tail, head = self.lanes[start] + self.offset(number), self.lanes[row.lane] - way * row.half
        room = self.lanes[row.lane - way] + way * (self.reach[row.lane - way] if row.lane - way == start else 0)
        middle, long = (room + head - way * 8) / 2, width(words)
        self.rect(middle - long / 2 - 2, row.y - 16, long + 4, 13, self.shade(k))
        self.line(tail, row.y, head - way * 6, row.y, colour, 1.5)
        self.add('<circle cx="%.1f" cy="%.1f" r="2.5" fill="%s"/>', tail, row.y, colour)
        self.head(head, row.y, way, colour)
        self.text(middle, row.y - 5, words, colour, 'middle')

    def head(self, x, y, way, colour):
        self.add('<path d="M%.1f %.1fl%d -4v8z" fill="%s"/>', x, y, -9 * way, colour)

    def hook(self, k, row, colour, words):
        """A packet that comes back to its maker."""
        x = self.lanes[row.lane] + row.half
        self.add('<path d="M%.1f %.1fh10q6 0 6 6t-6 6h-4" stroke="%s" stroke-width="1.5" fill="none"/>', x, row.y - 6, colour)
        self.head(x, row.y + 6, -1, colour)
        self.rect(x + 20, row.y - 7, width(words) + 4, 14, self.shade(k))
        self.text(x + 22, row.y + 4, words, colour)

    def box(self, row):
        fill, border, colour = BOXES[row.event.kind]
        x = self.lanes[row.lane]
        self.rect(x - row.half, row.y - row.height / 2, 2 * row.half, row.height, fill, border, 4)
        for j, (words, bold) in enumerate(row.text):
            self.text(x, row.y - row.height / 2 + PAD / 2 + LINE * (j + 1) - 4, words, colour, 'middle', bold=bold)

    def note(self, k, row):
        words = row.text[0][0]
        self.rect(self.left + 4, row.y - row.height / 2, width(words) + 12, row.height, self.shade(k))
        self.text(self.left + 10, row.y + 4, words, BOXES['refused'][2])

    def foot(self):
        y = self.end + 4
        if len(self.rows) > 20:
            self.heads(y)
            y += 2 * LINE + 12
        words = ['answer: number of the refusal or 0, packet made or 0, value received by a desk or 0.',
                 'Arrow: a delivery, with the number and kind of its packet; the thin line at its tail goes up to where it was made.']
        if self.unread:
            words.insert(0, 'Not read: %d lines after the %dth.' % (self.unread, MOST_LINES))
        for k, w in enumerate(words):
            self.text(16, y + 16 + k * 15, w, '#555555', size=11)
        return y + 16 + len(words) * 15

    def svg(self):
        self.text(16, 26, self.title, size=15, bold=True)
        self.table()
        for x in self.lanes:
            self.line(x, 44 + 2 * LINE, x, self.end, '#9a9a9a', 1.2, '4 3')
        for number in self.tracks:
            self.track(number)
        self.heads(40)
        for k, row in enumerate(self.rows):
            if row.lane is None:
                self.note(k, row)
            else:
                if row.event.packet:
                    self.arrow(k, row)
                self.box(row)
        self.height = self.foot()
        top = ('<svg xmlns="http://www.w3.org/2000/svg" width="%.0f" height="%.0f" viewBox="0 0 %.0f %.0f" role="img" '
               'font-family="DejaVu Sans, Verdana, Geneva, sans-serif">\n<title>%s</title>\n'
               '<style>.m { font-family: DejaVu Sans Mono, Menlo, Consolas, monospace }</style>\n'
               '<rect width="100%%" height="100%%" fill="#ffffff"/>\n')
        size = self.width, self.height
        return top % (size + size + (escape(self.title),)) + '\n'.join(self.parts) + '\n</svg>\n'


    def overlaps(self):
        """Texts of the drawn picture that overlap each other, or leave it."""
        found = [b[4] for b in self.boxes if b[0] < 0 or b[1] < 0 or b[2] > self.width or b[3] > self.height]
        rows = sorted(self.boxes, key=lambda b: b[1])
        for k, a in enumerate(rows):
            for b in rows[k + 1:]:
                if b[1] >= a[3]:
                    break
                if a[0] < b[2] and b[0] < a[2]:
                    found.append('%s / %s' % (a[4], b[4]))
        return found


def picture(schedule, answers, title):
    unread = len((schedule if schedule.endswith(b'\n') else schedule + b'\n').split(b'\n')) - 1 - len(lines_of(schedule))
    return Picture(story(schedule, answers), title, unread)


def stored():
    """The path and the content of each stored picture."""
    for name, title in STORED.items():
        given = [open('tests/yard/%s.%s' % (name, end), 'rb').read() for end in ('in', 'out')]
        yield 'docs/pictures/%s.svg' % name, picture(*given, title).svg()


def check():
    bad = [p for p, svg in stored() if not os.path.exists(p) or open(p, encoding='utf-8').read() != svg]
    print('\n'.join('%s is not what tools/picture.py draws now: run tools/picture.py --stored' % p for p in bad) or '%d pictures are up to date' % len(STORED))
    sys.exit(1 if bad else 0)


def try_folder(folder):
    names = sorted(glob.glob(os.path.join(folder, '*.in')))
    for name in names:
        schedule, answers = (open(name[:-2] + end, 'rb').read() for end in ('in', 'out'))
        try:
            drawn = picture(schedule, answers, os.path.basename(name))
            ElementTree.fromstring(drawn.svg())
        except Misfit as misfit:
            sys.exit('%s: %s' % (name, misfit))
        if drawn.overlaps():
            sys.exit('%s: texts overlap: %s' % (name, ', '.join(drawn.overlaps())))
    if not names:
        sys.exit('%s has no schedules' % folder)
    print('%d schedules fit their answers and are drawn, no text overlaps' % len(names))


def main():
    words = sys.argv[1:]
    if len(words) == 2 and words[0] == '--try':
        return try_folder(words[1])
    if words in (['--check'], ['--stored']):
        os.chdir(os.path.join(os.path.dirname(os.path.abspath(__file__)), '..'))
        if words == ['--check']:
            check()
        os.makedirs('docs/pictures', exist_ok=True)
        for path, svg in stored():
            open(path, 'w', encoding='utf-8').write(svg)
        return
    if len(words) not in (3, 4):
        sys.exit(__doc__)
    schedule, answers = (open(w, 'rb').read() for w in words[:2])
    if not lines_of(schedule):
        sys.exit('%s has no lines' % words[0])
    try:
        svg = picture(schedule, answers, words[3] if len(words) == 4 else os.path.basename(words[0])).svg()
    except Misfit as misfit:
        sys.exit(str(misfit))
    try:
        open(words[2], 'w', encoding='utf-8').write(svg)
    except OSError as error:
        sys.exit('no picture: %s: %s' % (words[2], error.strerror))


if __name__ == '__main__':
    main()

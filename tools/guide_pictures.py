#!/usr/bin/env python3
"""guide_pictures.py [--check]: draws the pictures of docs/HOW.md and docs/GUIDE.md into docs/pictures; with --check, compares them with what is stored. Fails where a text
overlaps another or leaves the picture."""
import os, sys
import figures

os.chdir(os.path.join(os.path.dirname(os.path.abspath(__file__)), '..'))
INK, SOFT, BLUE, GREEN, RED, PAPER = '#1c2733', '#6b7785', '#dbe8f6', '#dff1e1', '#b3261e', '#ffffff'
SIZE, WIDE = 13, 0.56


class Picture:
    def __init__(self, width, height):
        self.width, self.height, self.shapes, self.texts = width, height, [], []

    def box(self, x, y, w, h, title, lines=(), fill=BLUE, stroke=INK):
        self.shapes.append('<rect x="%g" y="%g" width="%g" height="%g" rx="6" fill="%s" stroke="%s"/>' % (x, y, w, h, fill, stroke))
        at = y + h / 2 - 8.5 * len(lines) + 4.5
        if title:
            self.text(x + w / 2, at, title, bold=True)
        for i, line in enumerate(lines):
            self.text(x + w / 2, at + 17 * (i + 1), line)

    def text(self, x, y, words, anchor='middle', bold=False, color=INK, small=False):
        size = SIZE - 1 if small else SIZE
        w = len(words) * size * (WIDE + (0.03 if bold else 0))
        left = x - w / 2 if anchor == 'middle' else x - w if anchor == 'end' else x
        self.texts.append((left, y - size * 0.8, left + w, y + size * 0.25, words))
        weight = ' font-weight="bold"' if bold else ''
        words = words.replace('&', '&amp;').replace('<', '&lt;')
        self.shapes.append('<text x="%g" y="%g" font-size="%d" text-anchor="%s" fill="%s"%s>%s</text>' % (x, y, size, anchor, color, weight, words))

    def line(self, points, color=INK, dash=False, head=True):
        path = ' '.join('%g,%g' % p for p in points)
        more = (' stroke-dasharray="5 4"' if dash else '') + (' marker-end="url(#%s)"' % ('red' if color == RED else 'tip') if head else '')
        self.shapes.append('<polyline points="%s" fill="none" stroke="%s" stroke-width="1.4"%s/>' % (path, color, more))

    def svg(self, name):
        for i, a in enumerate(self.texts):
            if a[0] < 2 or a[2] > self.width - 2 or a[1] < 2 or a[3] > self.height - 2:
                sys.exit('%s: "%s" leaves the picture' % (name, a[4]))
            for b in self.texts[:i]:
                if a[0] < b[2] and b[0] < a[2] and a[1] < b[3] and b[1] < a[3]:
                    sys.exit('%s: "%s" and "%s" overlap' % (name, a[4], b[4]))
        tip = '<marker id="%s" viewBox="0 0 10 10" refX="9" refY="5" markerWidth="7" markerHeight="7" orient="auto"><path d="M0 0L10 5L0 10z" fill="%s"/></marker>'
        return ('<svg xmlns="http://www.w3.org/2000/svg" viewBox="0 0 %d %d" width="%d" height="%d" font-family="Helvetica, Arial, sans-serif">\n<defs>%s%s</defs>\n'
                '<rect width="100%%" height="100%%" fill="%s"/>\n' % (self.width, self.height, self.width, self.height, tip % ('tip', INK), tip % ('red', RED), PAPER)
                + '\n'.join(self.shapes) + '\n</svg>\n')


def how():
    p = Picture(820, 370)
    p.box(20, 60, 130, 110, 'desk', ['numbers its', 'commands'])
    p.box(300, 20, 230, 220, '', fill=GREEN)
    p.text(415, 44, 'cabinet', bold=True)
    p.box(320, 62, 190, 52, '2  a new id', ['carried out, recorded'], fill=PAPER)
    p.box(320, 170, 190, 52, '5  a known id', ['its record is read'], fill=PAPER)
    p.box(320, 300, 190, 52, 'card', ['keeps the log'])
    p.box(680, 60, 120, 60, 'gate', ['actuator'])
    p.box(680, 170, 120, 60, 'other', ['cabinet'], fill=GREEN)
    p.line([(150, 80), (320, 80)])
    p.text(225, 72, '1  command, id', small=True)
    p.line([(320, 106), (150, 106)])
    p.text(225, 122, '4  result, once saved', small=True)
    p.line([(85, 170), (85, 188), (320, 188)])
    p.text(196, 182, '1  the same again', small=True)
    p.line([(320, 212), (56, 212), (56, 170)])
    p.text(192, 228, '5  the same result', small=True)
    p.line([(440, 240), (440, 300)])
    p.text(450, 266, '3  record, before', anchor='start', small=True)
    p.text(450, 282, 'anybody hears of it', anchor='start', small=True)
    p.line([(370, 300), (370, 240)])
    p.text(360, 274, 'at restart', anchor='end', small=True)
    p.line([(530, 90), (680, 90)])
    p.text(605, 82, '4  value,', small=True)
    p.text(605, 106, 'once saved', small=True)
    p.line([(530, 200), (680, 200)])
    p.text(605, 192, '6  a point', small=True)
    p.text(605, 216, 'with its records', small=True)
    return p


def host():
    p = Picture(820, 380)
    p.box(230, 20, 370, 340, '', fill='#f4f6f8')
    p.text(415, 44, 'your host program', bold=True)
    p.box(300, 130, 230, 90, 'the kernel', [figures.WORDS[figures.counted()['server-calls']] + ' calls,', 'no memory of its own'], fill=GREEN)
    p.box(250, 250, 150, 86, 'state', ['32,768 bytes', 'in memory'])
    p.box(430, 250, 150, 86, 'log space', ['your choice', 'in memory'])
    p.line([(345, 250), (345, 220)], head=False)
    p.line([(485, 250), (485, 220)], head=False)
    p.text(415, 240, 'lent for one call', small=True, color=SOFT)
    p.box(20, 120, 120, 70, 'line', ['lossy, late'])
    p.line([(140, 138), (300, 150)])
    p.line([(300, 184), (140, 174)])
    p.text(186, 130, 'packets', small=True)
    p.text(186, 198, 'results', small=True)
    p.box(680, 250, 120, 86, 'card', ['keeps', 'the log'])
    p.line([(580, 280), (680, 280)])
    p.line([(680, 312), (580, 312)])
    p.text(639, 272, 'append', small=True)
    p.text(639, 328, 'at boot', small=True)
    p.box(680, 120, 120, 70, 'gate', ['actuator'])
    p.line([(530, 155), (680, 155)])
    p.text(639, 146, 'value', small=True)
    p.text(639, 172, 'if synced', small=True)
    p.box(300, 62, 230, 46, 'plan, server number', fill=PAPER)
    p.line([(415, 108), (415, 130)])
    return p


def sequence():
    p = Picture(820, 500)
    lanes = [('desk', 90), ('host', 330), ('kernel', 550), ('card', 740)]
    for name, x in lanes:
        p.box(x - 55, 14, 110, 34, name, fill=GREEN if name == 'kernel' else BLUE)
        p.line([(x, 48), (x, 488)], color=SOFT, dash=True, head=False)
    rows = [
        (80, 0, 1, 'request', INK), (104, 1, 2, 'request', INK), (132, 2, 1, '0, no packet: executed', INK),
        (164, 1, 3, 'write mark .. length', INK), (192, 1, 3, 'make it durable', INK), (220, 3, 1, 'the card has it for certain', INK),
        (252, 1, 2, 'sync (length)', INK), (280, 2, 1, '0', INK), (324, 1, 2, 'fetch (client, call)', INK), (352, 2, 1, '0, the result', INK),
        (380, 1, 0, 'result', INK), (424, 0, 1, 'request, repeated', INK), (448, 1, 2, 'request', INK), (476, 2, 1, '0, the result again', INK),
    ]
    for y, a, b, words, color in rows:
        xa, xb = lanes[a][1], lanes[b][1]
        d = 6 if xb > xa else -6
        p.line([(xa + d, y), (xb - d, y)], color=color)
        mid = {(1, 3): 440, (3, 1): 440}.get((a, b), (xa + xb) / 2)
        p.text(mid, y - 5, words, small=True)
    p.text(322, 306, 'now the gate may move', anchor='end', bold=True, small=True)
    p.text(722, 132, 'a power cut before the sync', anchor='end', small=True, color=RED)
    p.text(722, 148, 'may undo the command', anchor='end', small=True, color=RED)
    return p


def point():
    p = Picture(820, 330)
    p.box(20, 120, 120, 66, 'absent', ['not here yet'], fill='#f4f6f8')
    p.box(250, 120, 140, 66, 'held', ['carries out'], fill=GREEN)
    p.box(500, 120, 130, 66, 'given', ['closed here'])
    p.box(690, 120, 110, 66, 'released', ['records gone'], fill='#f4f6f8')
    p.line([(140, 153), (250, 153)])
    p.text(195, 145, 'take', small=True)
    p.line([(390, 153), (500, 153)])
    p.text(445, 145, 'give', small=True)
    p.text(445, 170, 'move + 1', small=True, color=SOFT)
    p.line([(630, 153), (690, 153)])
    p.text(660, 145, 'release', small=True)
    p.line([(565, 186), (565, 236), (340, 236), (340, 186)])
    p.text(452, 254, 'take (the point comes back before its release)', small=True)
    p.line([(745, 186), (745, 284), (300, 284), (300, 186)])
    p.text(520, 302, 'take (the point comes back after it)', small=True)
    p.box(240, 20, 160, 46, 'found, at its home', fill=PAPER)
    p.line([(320, 66), (320, 120)])
    p.box(10, 20, 150, 46, 'found, elsewhere', fill=PAPER)
    p.line([(80, 66), (80, 120)])
    p.text(565, 96, 'image, as often as needed,', small=True)
    p.text(565, 112, 'once the give is synced', small=True)
    return p


def boot():
    p = Picture(820, 550)
    p.box(300, 14, 220, 40, 'power on: read the card', fill=PAPER)
    p.line([(410, 54), (410, 84)])
    p.box(300, 84, 220, 46, 'was this server founded?', fill=PAPER)
    p.line([(300, 107), (170, 107), (170, 150)])
    p.text(235, 100, 'no: --found, once', small=True)
    p.line([(410, 130), (410, 150)])
    p.text(436, 144, 'yes', small=True)
    p.box(70, 150, 200, 46, 'found (plan, number)')
    p.box(300, 150, 220, 46, 'recover', ['or from checkpoint and tail'])
    p.line([(520, 173), (610, 173)], color=RED)
    p.text(565, 166, '14', small=True, color=RED)
    p.box(610, 140, 190, 66, 'stop', ['wrong plan or', 'damaged card'], stroke=RED, fill='#fdeceb')
    p.line([(410, 196), (410, 230)])
    p.text(422, 218, '0', anchor='start', small=True)
    p.box(300, 230, 220, 56, "this cabinet's number?", ['mantelorris_server(state)'], fill=PAPER)
    p.line([(520, 258), (610, 258)], color=RED)
    p.text(565, 251, 'no', small=True, color=RED)
    p.box(610, 228, 190, 60, 'stop', ["another cabinet's card"], stroke=RED, fill='#fdeceb')
    p.line([(410, 286), (410, 320)])
    p.text(422, 308, 'yes', anchor='start', small=True)
    p.line([(170, 196), (170, 320)])
    p.box(70, 320, 200, 62, 'write the head,', ['make it durable'])
    p.box(300, 320, 220, 62, 'cut the card to length,', ['make it durable'])
    p.line([(170, 382), (170, 450), (300, 450)])
    p.line([(410, 382), (410, 426)])
    p.box(300, 426, 220, 50, 'gates from the state', fill=PAPER)
    p.line([(410, 476), (410, 500)])
    p.box(300, 500, 220, 38, 'serve', fill=GREEN)
    p.line([(520, 520), (670, 520), (670, 460)])
    p.box(580, 410, 180, 50, '19 from a call', stroke=RED, fill='#fdeceb')
    p.line([(596, 410), (596, 34), (520, 34)], color=RED, dash=True)
    p.text(604, 370, 'as after a crash', anchor='start', small=True, color=RED)
    return p


def checkpoint():
    p = Picture(860, 330)
    p.text(140, 26, 'before', bold=True)
    p.text(430, 26, 'between checkpoint and store', bold=True)
    p.text(720, 26, 'after', bold=True)
    p.box(30, 44, 220, 70, 'state', ['places of the log'], fill=PAPER)
    p.box(320, 44, 220, 70, 'state', ['places of the tail'], fill=PAPER)
    p.box(610, 44, 220, 70, 'state', ['places of the tail'], fill=PAPER)
    p.line([(250, 79), (320, 79)])
    p.text(285, 70, '1', small=True, bold=True)
    p.line([(540, 79), (610, 79)])
    p.text(575, 70, '3', small=True, bold=True)
    p.text(140, 144, 'on the card, in force', small=True, color=SOFT)
    p.text(430, 144, 'on the card, in force', small=True, color=SOFT)
    p.text(720, 144, 'on the card, in force', small=True, color=SOFT)
    p.box(30, 156, 220, 66, 'the log', ['(old checkpoint, its tail)'], fill=GREEN)
    p.box(320, 156, 220, 66, 'the log', ['(old checkpoint, its tail)'], fill=GREEN)
    p.box(610, 156, 220, 66, 'checkpoint and tail', ['both or neither'], fill=GREEN)
    p.line([(540, 189), (610, 189)])
    p.text(575, 180, '2', small=True, bold=True)
    p.text(430, 246, 'no call of this server here', small=True, color=RED)
    p.text(430, 264, 'a crash keeps the old log', small=True, color=RED)
    p.text(720, 246, 'a crash keeps the checkpoint', small=True, color=RED)
    p.text(720, 264, 'and what is synced of its tail', small=True, color=RED)
    p.text(140, 246, 'all of the log is synced', small=True)
    p.text(430, 306, '1 mantelorris_checkpoint · 2 the host stores both in one act · 3 the host goes on', small=True)
    return p


def main():
    for name, draw in (('how', how), ('host', host), ('sequence', sequence), ('point', point), ('boot', boot), ('checkpoint', checkpoint)):
        path, text = 'docs/pictures/guide_%s.svg' % name, draw().svg(name)
        if '--check' in sys.argv:
            if not os.path.exists(path) or open(path, encoding='utf-8').read() != text:
                sys.exit('%s is not what tools/guide_pictures.py draws' % path)
        else:
            open(path, 'w', encoding='utf-8').write(text)
    print('six pictures')


if __name__ == '__main__':
    main()

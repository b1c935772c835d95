#!/usr/bin/env python3
"""schedule.py SCHEDULE ANSWERS: prints each line of a simulator's schedule beside its answer, in words, refusals by name.

`story` reads a schedule and the answers of the program `yard` and says what each line did. What is done and what is refused it takes from the
answers. It follows values, logs and packets for what the answers leave out (a packet's kind, the value at a server, the bytes that a power cut
takes), and an answer that contradicts what it follows raises `Misfit`."""
import copy, os, re, sys
from fractions import Fraction

MOST_LINES = 60
LOW, HIGH, FALLBACK = -100, 1000, 0
HEAD, EXECUTED, MOVE, TAKE, IMAGE, FLOOR, ENTRY = 8, 32, 8, 8, 48, 8, 24  # bytes: log head, records, an image and its rows
OPS = ['read', 'set', 'step', 'report', 'fault', 'part']
OUTCOMES = ['', ', out of range', ', no step', ', fallback', ', stopped']
VALID, INVALID, BY_HAND = range(3)
QUALITIES = ['', ' invalid', ' by hand']


def refusals():
    """names by number, as include/mantelorris.h has them"""
    header = os.path.join(os.path.dirname(os.path.abspath(__file__)), '..', 'include', 'mantelorris.h')
    return {int(number): name for number, name in re.findall(r'^    X\(\w+, (\d+), "([^"]+)"\)', open(header, encoding='utf-8').read(), flags=re.M)}


REFUSALS = refusals()
FIELDS = {'i': 4, 's': 2, 'd': 2, 'r': 2, 'y': 1, 'k': 2, 'g': 3, 'x': 2, 'f': 2}


class Misfit(Exception):
    pass


class Event:
    """What a line did: at which party, by which packet, in words."""

    def __init__(self, number, text, answer):
        self.number, self.text, self.answer = number, text, answer
        self.refusal, self.made, self.value = answer
        self.lane = None      # ('desk', 0) .. ('server', 1), None where no party is named
        self.kind = 'refused' if self.refusal else 'done'
        self.words = []       # lines of text
        self.packet = None    # the number of the packet delivered
        self.times = 0        # how often it was delivered before

    def says(self, kind, *words):
        self.kind, self.words = kind, [w for w in words if w]


class Packet:
    def __init__(self, kind, lane, event, **fields):
        self.kind, self.lane, self.event, self.deliveries = kind, lane, event, 0
        self.__dict__.update(fields)


# ---- text

def shown(line):
    """A line as it can be printed."""
    return ''.join(chr(b) if 32 <= b < 127 else '\\%02x' % b for b in line)


def number_in(field, signed=False):
    minus = signed and field[:1] == b'-'
    digits = field[1:] if minus else field
    if not digits or any(b not in b'0123456789' for b in digits):
        return None
    n = -int(digits) if minus else int(digits)
    least, most = (-2**31, 2**31 - 1) if signed else (0, 2**32 - 1)
    return n if least <= n <= most else None


def parsed(line):
    """The letter and numbers of a line, None where it cannot be read."""
    fields = line.split(b' ')
    letter = fields[0].decode('latin-1')
    if FIELDS.get(letter) != len(fields) - 1:
        return None
    numbers = [number_in(f, letter == 'i' and k == 3) for k, f in enumerate(fields[1:])]
    return None if None in numbers else (letter, numbers)


def why_unread(line):
    """What to look for in a line that cannot be read."""
    if line.endswith(b'\r'):
        return 'it ends in CR LF, not in LF'
    if line != line.strip(b' \t') and parsed(line.strip(b' \t')):
        return 'a blank at its %s' % ('end' if line[-1:] in b' \t' else 'front')
    if b'\t' in line or b'  ' in line:
        return 'fields are parted by one blank'
    return 'not a line of a schedule'


def lines_of(text):
    lines = text.split(b'\n')
    if not lines[-1]:
        lines.pop()
    return lines[:MOST_LINES]


def answers_of(text, count):
    answers = []
    for k, row in enumerate(text.decode('latin-1').splitlines(), 1):
        numbers = [int(w) for w in row.split(' ')] if row.replace('-', '').replace(' ', '').isdigit() else []
        if len(numbers) != 4 or numbers[0] != k:
            raise Misfit('answer %d cannot be read: %s' % (k, row))
        answers.append(tuple(numbers[1:]))
    if len(answers) != count:
        raise Misfit('%d lines have %d answers' % (count, len(answers)))
    return answers


def refusal_text(number):
    return '%d %s' % (number, REFUSALS.get(number, 'unknown refusal'))


# ---- parties

class Desk:
    def __init__(self, number):
        self.client, self.next, self.open = number + 1, 1, {}

    def request(self, call):
        op, point, argument = self.open[call]
        return dict(client=self.client, call=call, done=min(self.open), op=op, point=point, argument=argument)


class State:
    """Of a server: what its log's records make of it."""

    def __init__(self, number):
        self.number, self.points, self.floors, self.records = number, {}, {}, {}

    def point(self, p):
        held = self.number == 0
        return self.points.setdefault(p, dict(status='held' if held else 'absent', value=FALLBACK, quality=INVALID, move=0, taken=0, destination=None))

    def raise_floors(self, floors):
        for client, floor in floors.items():
            self.floors[client] = max(floor, self.floors.get(client, 0))
        self.records = {i: r for i, r in self.records.items() if i[1] >= self.floors.get(i[0], 0)}

    def drop_point(self, p):
        self.records = {i: r for i, r in self.records.items() if r['point'] != p}

    def apply(self, r):
        point = self.point(r['point'])
        if r['kind'] == 'executed':
            point.update(value=r['value'], quality=r['quality'])
            self.records[r['client'], r['call']] = r
            self.raise_floors({r['client']: r['done']})
        elif r['kind'] == 'give':
            point.update(status='given', move=r['move'], destination=r['destination'])
        elif r['kind'] == 'take':
            image = r['image']
            self.drop_point(r['point'])
            point.update(status='held', value=image['value'], quality=image['quality'], move=image['move'], taken=image['move'], destination=None)
            self.records.update({(e['client'], e['call']): dict(e, end=r['end']) for e in image['entries']})
            self.raise_floors(image['floors'])
        else:
            point.update(status='released')
            self.drop_point(r['point'])


class Server:
    def __init__(self, number):
        self.number, self.log, self.mark, self.length = number, [], HEAD, HEAD
        self.state = State(number)

    def append(self, size, **record):
        self.length += size
        record['end'] = self.length
        self.log.append(record)
        self.state.apply(record)

    def cut(self, kept):
        """A power cut that keeps so many bytes, and the recovery: the records cut off."""
        lost = [r for r in self.log if r['end'] > kept]
        self.log = [r for r in self.log if r['end'] <= kept]
        self.state = State(self.number)
        for r in self.log:
            self.state.apply(r)
        self.length = self.mark = self.log[-1]['end'] if self.log else HEAD
        return lost


def ruled(op, argument, value, quality):
    """Outcome, value and quality of a command."""
    inside = LOW <= argument <= HIGH
    if op == 0:
        return 0, value, quality
    if op == 1:
        return (0, argument, BY_HAND) if inside else (1, value, quality)
    if op == 2:
        if quality == INVALID:
            return 2, value, quality
        stopped = max(LOW, min(HIGH, value + argument))
        return 0 if stopped == value + argument else 4, stopped, quality
    if op == 3 and inside:
        return 0, argument, VALID
    if op == 5:
        return 0, LOW + round(Fraction((HIGH - LOW) * argument, 1000)), BY_HAND  # round takes a half to the even number
    return 3, FALLBACK, INVALID


def command_text(op, argument):
    return OPS[op] if op in (0, 4) else '%s %d' % (OPS[op], argument)


def result_text(r):
    return 'value %d%s%s' % (r['value'], QUALITIES[r['quality']], OUTCOMES[r['outcome']])


def record_text(r):
    return ('call %(call)d of client %(client)d' if r['kind'] == 'executed' else '%(kind)s of point %(point)d') % r


# ---- the story of a schedule

class Story:
    def __init__(self):
        self.desks, self.servers = [Desk(0), Desk(1)], [Server(0), Server(1)]
        self.packets, self.events, self.event = {}, [], None

    def must(self, held, what):
        if not held:
            raise Misfit('line %d, %s: the answer %s does not fit: %s' % (self.event.number, self.event.text, '%d %d %d' % self.event.answer, what))

    def line(self, number, line, answer):
        self.event = e = Event(number, shown(line), answer)
        self.events.append(e)
        self.must(e.made in (0, len(self.packets) + 1), 'packets are numbered as they are made')
        read = parsed(line)
        if read is None:
            self.must(answer == (1, 0, 0), 'the line cannot be read')
            return e.says('refused', refusal_text(1) + ': ' + why_unread(line))
        letter, numbers = read
        party = numbers[1] if letter in 'dr' else numbers[0]
        what = 'desk' if letter in 'isr' else 'server'
        if party > 1:
            self.must(answer == (1, 0, 0), 'no such %s' % what)
            return e.says('refused', refusal_text(1) + ': no such %s' % what)
        e.lane = what, party
        getattr(self, 'line_' + letter)(e, *[n for k, n in enumerate(numbers) if k != (1 if letter in 'dr' else 0)])
        self.must(e.value == 0 or letter == 'r', 'only a desk receives a value')
        self.must(not e.made or e.made in self.packets, 'nothing was made')

    def make(self, e, kind, **fields):
        self.must(e.made, 'a packet is made')
        self.packets[e.made] = Packet(kind, e.lane, e, **fields)

    def refused(self, e, *words):
        if e.refusal:
            e.says('refused', refusal_text(e.refusal), *words)
        return e.refusal

    def desk(self, e):
        return self.desks[e.lane[1]]

    def server(self, e):
        return self.servers[e.lane[1]]

    # desks

    def line_i(self, e, op, point, argument):
        d = self.desk(e)
        if self.refused(e, 'nothing issued'):
            return
        self.must(op < len(OPS) and point < 64, 'no such command')
        d.open[d.next] = op, point, argument
        d.next += 1
        self.make(e, 'request', **d.request(d.next - 1))
        e.says('made', 'call %d: %s' % (d.next - 1, command_text(op, argument)), 'point %d, packet %d' % (point, e.made))

    def line_s(self, e, call):
        d = self.desk(e)
        if self.refused(e, 'call %d is not open' % call if e.refusal == 17 else ''):
            return self.must(e.refusal != 17 or call not in d.open, 'the call is open')
        self.must(call in d.open, 'the call is not open')
        self.make(e, 'request', **d.request(call))
        e.says('made', 'call %d again: %s' % (call, command_text(*d.open[call][::2])), 'point %d, packet %d' % (d.open[call][1], e.made))

    def delivered(self, e, number):
        """The packet of this number, None if there is none."""
        p = self.packets.get(number)
        if p is None:
            self.must(e.answer == (17, 0, 0), 'no packet %d' % number)
            e.says('refused', refusal_text(17), 'packet %d is not made' % number)
            return None
        e.packet, e.times = number, p.deliveries
        p.deliveries += 1
        return p

    def line_r(self, e, number):
        p, d = self.delivered(e, number), self.desk(e)
        if p is None:
            return
        if e.refusal:
            self.must(e.value == 0, 'a refused packet brings no value')
            return self.refused(e, self.why_not(p, d))
        self.must(p.kind in ('result', 'refusal') and p.client == d.client and p.call in d.open, 'no reply to an open call here')
        if p.kind == 'result':
            self.must(e.value == p.value, 'the result has value %d' % p.value)
            del d.open[p.call]
            return e.says('finished', 'call %d is finished' % p.call, result_text(p.__dict__))
        self.must(e.value == 0, 'a refusal brings no value')
        e.says('noted', 'told %s' % refusal_text(p.refusal), 'call %d stays open' % p.call)

    @staticmethod
    def why_not(p, d):
        if p.kind not in ('result', 'refusal'):
            return 'a desk takes no %s' % p.kind
        return 'call %d is not open' % p.call if p.client == d.client else 'it is for client %d' % p.client

    # servers

    def line_d(self, e, number):
        p = self.delivered(e, number)
        if p is None:
            return
        if p.kind not in ('request', 'image', 'receipt'):
            self.must(e.answer == (1, 0, 0), 'a server takes no %s' % p.kind)
            return e.says('refused', refusal_text(1), 'a server takes no %s' % p.kind)
        getattr(self, 'deliver_' + p.kind)(e, p, self.server(e))

    def deliver_request(self, e, p, s):
        held, point = s.state.records.get((p.client, p.call)), s.state.point(p.point)
        if e.refusal:
            self.must(e.refusal != 7 or (held and held['end'] > s.mark), 'nothing of this call waits for a sync')
            self.must(e.refusal != 3 or point['status'] != 'held', 'the point is held')
            self.make(e, 'refusal', client=p.client, call=p.call, refusal=e.refusal)
            return self.refused(e, 'refusal, packet %d' % e.made)
        self.must(point['status'] == 'held', 'the point is not held')
        if e.made:
            self.must(held and held['end'] <= s.mark, 'no synced result of this call')
            self.make(e, 'result', **{k: held[k] for k in ('client', 'call', 'outcome', 'value', 'quality')})
            return e.says('replied', 'held: result, packet %d' % e.made, result_text(held))
        self.must(not held, 'the call was carried out before')
        outcome, value, quality = ruled(p.op, p.argument, point['value'], point['quality'])
        s.append(EXECUTED, kind='executed', op=p.op, point=p.point, outcome=outcome, client=p.client, call=p.call, done=p.done,
                 argument=p.argument, value=value, quality=quality)
        e.says('executed', 'executed: %s' % command_text(p.op, p.argument), result_text(s.log[-1]))

    def deliver_image(self, e, p, s):
        if self.refused(e, 'image of point %d, move %d' % (p.point, p.move)):
            return
        self.must(p.destination == s.number, 'the image is for another server')
        s.append(TAKE + IMAGE + FLOOR * len(p.floors) + ENTRY * len(p.entries), kind='take', point=p.point, image=p.__dict__)
        e.says('moved', 'takes point %d, move %d' % (p.point, p.move), result_text(dict(p.__dict__, outcome=0)))

    def deliver_receipt(self, e, p, s):
        if self.refused(e, 'receipt of point %d, move %d' % (p.point, p.move)):
            return
        self.must(s.state.point(p.point)['status'] == 'given', 'the point is not given')
        s.append(MOVE, kind='release', point=p.point)
        e.says('moved', 'releases point %d' % p.point)

    def line_y(self, e):
        s = self.server(e)
        if self.refused(e):
            return
        before, s.mark = s.mark, s.length
        new = [r for r in s.log if r['end'] > before]
        e.says('synced', 'sync: all %d bytes' % s.length, '%d new record%s' % (len(new), '' if len(new) == 1 else 's'))

    def line_k(self, e, kept):
        s = self.server(e)
        outside = not s.mark <= kept <= s.length
        self.must(outside == (e.refusal == 10), 'mark %d, length %d' % (s.mark, s.length))
        if self.refused(e, 'mark %d, length %d' % (s.mark, s.length)):
            return
        length = s.length
        words = ['cut off: ' + record_text(r) for r in s.cut(kept)] or ['nothing cut off']
        e.says('cut', 'power cut: %d of %d kept' % (kept, length), *words, 'recovered to %d' % s.length if s.length < kept else '')

    def line_g(self, e, point, destination):
        s = self.server(e)
        if self.refused(e, 'point %d to server %d' % (point, destination)):
            return
        self.must(s.state.point(point)['status'] == 'held', 'the point is not held')
        s.append(MOVE, kind='give', point=point, destination=destination, move=s.state.point(point)['move'] + 1)
        e.says('moved', 'gives point %d to server %d' % (point, destination), 'move %d' % s.state.point(point)['move'])

    def line_x(self, e, point):
        s = self.server(e)
        if self.refused(e, 'image of point %d' % point):
            return
        self.must(point < 64 and s.state.point(point)['status'] == 'given', 'the point is not given')
        at = s.state.point(point)
        entries = [copy.copy(r) for _, r in sorted(s.state.records.items()) if r['point'] == point]
        self.make(e, 'image', point=point, destination=at['destination'], move=at['move'], value=at['value'], quality=at['quality'],
                  floors=dict(s.state.floors), entries=entries)
        e.says('made', 'image of point %d' % point, '%d result%s, packet %d' % (len(entries), '' if len(entries) == 1 else 's', e.made))

    def line_f(self, e, point):
        s = self.server(e)
        if self.refused(e, 'receipt of point %d' % point):
            return
        self.must(point < 64 and s.state.point(point)['taken'], 'the point was never taken')
        self.make(e, 'receipt', point=point, move=s.state.point(point)['taken'])
        e.says('made', 'receipt of point %d' % point, 'move %d, packet %d' % (s.state.point(point)['taken'], e.made))


def story(schedule, answers):
    """The events of a schedule, and its packets by number."""
    lines, told = lines_of(schedule), Story()
    for k, (line, answer) in enumerate(zip(lines, answers_of(answers, len(lines))), 1):
        told.line(k, line, answer)
    return told


# ---- as a program

def listing(told):
    width = max([len(e.text) for e in told.events] + [8])
    rows = ['%4s  %-*s  %-14s  %s' % ('', width, 'schedule', 'answer', 'number or 0, packet made or 0, value received or 0')]
    for e in told.events:
        where = '%s %d: ' % e.lane if e.lane else ''
        rows.append('%4d  %-*s  %-14s  %s%s' % (e.number, width, e.text, '%d %d %d' % e.answer, where, '; '.join(e.words)))
    return '\n'.join(rows)


def main():
    if len(sys.argv) != 3:
        sys.exit(__doc__)
    try:
        told = story(open(sys.argv[1], 'rb').read(), open(sys.argv[2], 'rb').read())
    except Misfit as misfit:
        sys.exit(str(misfit))
    print(listing(told))
    if len(open(sys.argv[1], 'rb').read().split(b'\n')) - 1 > MOST_LINES:
        print('Lines after the %dth are not read.' % MOST_LINES)


if __name__ == '__main__':
    main()

#!/usr/bin/env python3
"""reader.py: the card reader mantelorris-card (examples/reader) on good and on damaged cards. Prints what it did; the last line is 'N passed, M failed'.
  - the stored logs and checkpoints of every version (tests/logs): state and records are those that were stored, words and JSON say the same
  - every cut of a log; every bit of two logs turned, a bit of each byte of a card with a checkpoint, of images and packets: its answer is the library's, the place that it names holds the first
    byte that the library refuses, and there is a reason; by a build that ends at a read past the bytes (tests/c/reader.c)
  - records that cannot follow and checkpoints that are off, each with its own reason; each quality in each layout; logs made up; what docs/GUIDE.md shows; raw cards; wrong plans; no plan
  - a card beside the host that serves from it: a file, and raw sectors
  - an empty file, a folder, no file, no permission, a full disk behind its output, wrong options; 16 MB of log, damaged at its end, of zeros and of noise: each under a second of processor time
  - the card is not changed and not opened for writing; a reader that opens it so is found out
MANTELORRIS_DIST names a folder with archive and headers; without it `make lib` makes dist/."""
import ctypes, glob, hashlib, json, os, random, re, resource, shutil, socket, struct, subprocess, sys, tempfile, threading, time

os.chdir(os.path.join(os.path.dirname(os.path.abspath(__file__)), '..', '..'))
DIST = os.environ.get('MANTELORRIS_DIST') or 'dist'
WORK = tempfile.mkdtemp(prefix='mantelorris-reader-')
SEED = int(os.environ.get('READER_SEED', '0')) or random.SystemRandom().randrange(1, 1 << 30)
UNITS = sorted(glob.glob('examples/reader/*.c'))
PLAN = '--plan=-100,1000,0,0'
OPS = ['read', 'set', 'step', 'report', 'fault', 'part']
OUTCOMES = ['done', 'out of range', 'invalid', 'fallback', 'stopped']
QUALITIES = ['valid', 'invalid', 'by hand']
BY_HAND = QUALITIES.index('by hand')
passed, failed = 0, 0


def told(what, wrong):
    global passed, failed
    passed, failed = passed + (not wrong), failed + bool(wrong)
    print('FAILED: %s: %s' % (what, wrong) if wrong else 'ok: ' + what, flush=True)


def built(name, sources, more=()):
    out = os.path.join(WORK, name)
    subprocess.run(['cc', '-std=c11', '-O3', '-Wall', '-Wextra', '-Werror', *more, '-I' + DIST, '-Iexamples', *sources, DIST + '/libmantelorris.a', '-o', out], check=True)
    return out


def saved(name, data):
    path = os.path.join(WORK, name)
    open(path, 'wb').write(data)
    return path


def run(*words, program=None):
    done = subprocess.run([program or READER, *words], capture_output=True, text=True)
    return done.returncode, done.stdout, done.stderr


def card(*words):
    """the exit status, the JSON, and the words of one card; both calls must agree"""
    status, said, _ = run(*words)
    status_json, text, _ = run('--json', *words)
    return status, json.loads(text) if status == status_json else {}, said


# ---- what is said in words, from JSON

def argument(r):
    return {'set': ' to %d', 'step': ' by %d', 'report': ' as %d', 'part': ' to %d thousandths'}.get(r['op'], '') % (() if r['op'] in ('read', 'fault') else r['argument'])


def result(r):
    return ': %s, value %d, %s' % (r['outcome'], r['value'], r['quality']) + (', time %d' % r['time'] if 'time' in r else '')


def command(r, point):
    return 'client %d, call %d: %s%s%s%s' % (r['client'], r['call'], r['op'], point, argument(r), result(r))


def point(r):
    to = ' to server %d' % r['destination'] if r['status'] in ('given', 'released') else ''
    return 'point %d: %s%s, value %d, %s, move %d%s' % (r['point'], r['status'], to, r['value'], r['quality'], r['move'], ', taken by move %d' % r['taken'] if r['taken'] else '')


SENTENCES = {
    'executed': lambda r: command(r, ' point %d' % r['point']) + '; done %d' % r['done'],
    'gone': lambda r: 'client %d: its lease has ended, time %d' % (r['client'], r['time']),
    'give': lambda r: 'point %d is given to server %d, move %d' % (r['point'], r['destination'], r['move']),
    'take': lambda r: 'an image of %d bytes' % r['image_length'],
    'release': lambda r: 'point %d is released, move %d' % (r['point'], r['move']),
    'image': lambda r: 'point %d from server %d to server %d, move %d, heard time %d: value %d, %s' % (
        r['point'], r['source'], r['destination'], r['move'], r['heard'], r['value'], r['quality']),
    'client': lambda r: 'client %d: floor %d' % (r['client'], r['floor']),
    'entry': lambda r: command(r, ''),
    'completion': lambda r: command(r, ' point %d' % r['point']),
    'point': point,
}


def placed(r):
    yield '%9d  %-12s%s' % (r['at'], r['kind'], SENTENCES[r['kind']](r))
    for inner in [r['image']] if 'image' in r else r.get('clients', []) + r.get('records', []):
        yield from placed(inner)


def founded(r):
    return r['status'] == 'held' and r['quality'] == 'invalid' and r['move'] == 0 and r['value'] == 0


def due_lines(told_json):
    """the lines of words that JSON asks for, in their order"""
    parts = [told_json[k] for k in ('checkpoint', 'log', 'tail') if k in told_json]
    rows = [row for part in parts for row in [p for p in part.get('points', []) if not founded(p)] + part.get('clients', []) + part.get('records', [])]
    lines = [line for row in rows for line in placed(row)]
    state = told_json.get('state')
    if state:
        lines += ['  ' + point(p) for p in state['points'] if not founded(p)]
        lines += ['  ' + SENTENCES['client'](c) for c in state['clients']] + ['  ' + SENTENCES['completion'](r) for r in state['records']]
    return lines


def said_lines(said):
    return [line for line in said.split('\n') if re.match(r' +\d+  (?!head)|  (client|point) ', line)]


# ---- stored cards

def stored():
    """(words for the reader, a version's folder, its server)"""
    for folder in sorted(glob.glob('tests/logs/*/')):
        for server in 0, 1:
            log, checkpoint = '%sserver%d.log' % (folder, server), '%sserver%d.checkpoint' % (folder, server)
            if not os.path.exists(checkpoint):
                yield [log], folder, server
                continue
            yield [checkpoint, '--tail', log], folder, server
            yield [saved('both%d' % server, open(checkpoint, 'rb').read() + open(log, 'rb').read())], folder, server


def held(state, server):
    for r in state['records']:
        yield '%d %d %d %d %d %d' % (server, r['client'], r['call'], OUTCOMES.index(r['outcome']), r['value'], QUALITIES.index(r['quality'])) + (' %d' % r['time'] if r['time'] else '')
    for p in state['points']:
        if p['point'] in (5, 6) and p['status'] == 'held':
            yield 'point %d at %d: value %d, quality %d' % (p['point'], server, p['value'], QUALITIES.index(p['quality']))


def stored_cards():
    wrong, count = [], 0
    for words, folder, server in stored():
        status, told_json, said = card(PLAN, *words)
        results = open(folder + 'results').read().split('\n')
        due = [line for line in results if line.startswith('%d ' % server) or ' at %d:' % server in line]
        if status or sorted(held(told_json['state'], server)) != sorted(due):
            wrong.append('%s: status %d, state' % (words, status))
        if due_lines(told_json) != said_lines(said):
            wrong.append('%s: words and JSON differ' % words)
        count += 1
    told('%d stored cards of all versions: their state as stored, words and JSON alike' % count, wrong)


def without_plan():
    """what the log tells by itself is what it tells with its plan, of the points that it names"""
    wrong = []
    for words, folder, server in stored():
        given, none = card(PLAN, *words)[1]['state'], card(*words)
        named = {r['point'] for r in given['records']} | {p['point'] for p in given['points'] if not founded(p)}
        same = [p for p in given['points'] if p['point'] in named] == [p for p in none[1]['state']['points'] if p['point'] in named]
        if none[0] or not same or any(given[k] != none[1]['state'][k] for k in ('server', 'heard', 'length', 'clients', 'records')):
            wrong.append(words)
    for record, due in (short(3, 5, 1, 0, 1), 'point 5: given to server 1, value 0, invalid, move 1'), (take(5, 0, 2), 'point 5: held, value 7, valid, move 2, taken by move 2'):
        status, _, said = card(saved('first', HEAD + record))
        wrong += [said] if status or '  %s\n' % due not in said else []
    told('without a plan the same state; a point that was at home here, one that was not', wrong)


def cuts():
    """of a log of 1.3 that has gone on with 1.6"""
    log, wrong = open('tests/logs/second/server1.log', 'rb').read() + executed(1, 5, 2, 1, 40, 40) + gone(2, 70) + executed(2, 5, 1, 15, 3, 43, time=70), []
    whole = [r['at'] for r in card(PLAN, saved('log', log))[1]['log']['records']] + [len(log)]
    for length in range(len(log) + 1):
        status, told_json, said = card(PLAN, saved('cut', log[:length]))
        end = max([at for at in whole if at <= length], default=0)
        torn = told_json.get('log', {}).get('torn', {'bytes': 0, 'hex': ''})
        if length >= 8:
            good = told_json['state']['length'] == end == told_json['log']['end'] and torn['bytes'] == length - end and bytes.fromhex(torn['hex']) == log[end:length]
        else:
            good = told_json['answer'] == 14 and 'refused with 14, bad log; in the log at 0: ' in said
        if status != (length < 8) or not good or due_lines(told_json) != said_lines(said):
            wrong.append(length)
    told('%d cuts of a log: where it ends, what is torn' % (len(log) + 1), wrong)


# ---- damaged ones, many in one process

def turned(data, bits):
    """every bit, or one bit of each byte"""
    rng = random.Random(SEED)
    for i in range(len(data)):
        for bit in range(8) if bits == 8 else [rng.randrange(8)]:
            yield data[:i] + bytes([data[i] ^ 1 << bit]) + data[i + 1:]


def tried_files(*paths):
    return json.loads(subprocess.run([TRIAL, *paths], capture_output=True, check=True, env=dict(os.environ, ASAN_OPTIONS='detect_leaks=0')).stdout)


def tried(cards, *form):
    text = '\n'.join(c.hex() for c in cards) + '\n'
    done = subprocess.run([TRIAL, *form], input=text, capture_output=True, text=True, env=dict(os.environ, ASAN_OPTIONS='detect_leaks=0'))
    if done.returncode:
        sys.exit('reader.py: the trial ended with %d: %s' % (done.returncode, done.stderr[:2000]))
    return done.stdout.split('\n')


def asked(cards):
    """of each: the library's answer, the shortest front that it refuses, the reader's JSON; in words too, of which nothing is read but that they come"""
    tried(cards, 'words')
    lines = tried(cards)
    for i in range(len(cards)):
        answer, shortest = map(int, lines[2 * i].split())
        yield answer, shortest, json.loads(lines[2 * i + 1])


def place_wrong(shortest, told_json):
    """the record that is named must hold the first byte that is refused"""
    part = told_json.get('tail') or told_json['log']
    at, ends = told_json['refused']['at'], [r['at'] for r in part['records']] + [part['end']]
    if at == part['end']:
        return shortest <= at
    return at not in ends or not at < shortest <= ends[ends.index(at) + 1]


def judged(answer, shortest, told_json):
    if told_json['answer'] != answer:
        return 'answer %d, due %d' % (told_json['answer'], answer)
    if answer and not told_json['refused']['why']:
        return 'no reason'
    if shortest and place_wrong(shortest, told_json):
        return 'place %d, due in front of %d' % (told_json['refused']['at'], shortest)
    return '' if answer or 'state' in told_json else 'no state'


def damaged():
    read = lambda path: open(path, 'rb').read()
    logs = {name: read('tests/logs/second/%s.log' % name) for name in ('server0', 'server1')}
    both = [('checkpoint and tail, %s' % folder, read('tests/logs/%s/server1.checkpoint' % folder) + read('tests/logs/%s/server1.log' % folder), 1) for folder in ('third', 'fourth')]
    for what, data, bits in [(name, log, 8) for name, log in logs.items()] + both:
        cards = list(turned(data, bits))
        answers = list(asked(cards))
        found, refused = [judged(*a) for a in answers], sum(a[0] == 14 for a in answers)
        told('%s, %d times damaged, %d of them refused: the library\'s answer, its place and a reason' % (what, len(cards), refused), [f for f in found if f][:3])


def exit_statuses():
    """the program itself, on each byte of a log turned"""
    cards, wrong = list(turned(open('tests/logs/first/server1.log', 'rb').read(), 1)), []
    for data, (answer, _, _) in zip(cards, asked(cards)):
        status, said, errors = run(PLAN, saved('turned', data))
        if status != (answer != 0) or errors or (answer and 'refused with %d, ' % answer not in said):
            wrong.append(status)
    told('each byte of a log turned: exit status and words', wrong)


# ---- packets and images

def examples():
    """name and bytes of the examples in docs/FORMATS.md"""
    for name, digits in re.findall(r'^    ([a-z][^:\n]*): ((?:[0-9A-F]{2} ?)+)$', open('docs/FORMATS.md', encoding='utf-8').read(), flags=re.M):
        yield name.split(',')[0], bytes.fromhex(digits)


def packet_good(p):
    """by the table in docs/FORMATS.md"""
    number = lambda at: struct.unpack_from('<I', p, at)[0]
    if not 1 <= p[0] <= 7 or len(p) != (24, 16, 12, 8, 12, 12, 20)[p[0] - 1]:
        return False
    if p[0] == 4:
        return p[1] <= 63 and p[2] <= 15 and p[3] == 0
    if number(4) == 0 or (p[0] in (5, 6) and any(p[1:4])):
        return False
    if p[0] in (5, 6):
        return True
    if p[2] > 63 or number(8) == 0:
        return False
    if p[0] == 1:
        limit = {0: 0, 4: 0, 5: 1000}.get(p[1], 1 << 32)
        return p[1] <= 5 and p[3] == 0 and 1 <= number(12) <= number(8) <= number(12) + 15 and number(20) <= limit
    return 3 <= p[1] <= 9 and p[3] == 0 if p[0] == 3 else p[1] <= 4 and p[3] <= BY_HAND


def packets():
    known = {name: data for name, data in examples() if name in ('grant', 'request', 'refusal', 'result', 'receipt', 'notice')}
    wrong = [name for name, data in known.items() if run('--hex', data.hex(' '))[0] or run('--hex', data.hex(':'))[0] or '  %s ' % name not in run(saved('packet', data))[1]]
    first = b'\2' + known['result'][1:16]  # of a server before 1.6
    wrong += [(name, form) for quality, name in enumerate(QUALITIES) for data, form in ((first, ', %s\n'), (known['result'], ', %s, time 50\n'))
              if form % name not in run('--hex', changed(data, 3, bytes([quality])).hex())[1]]
    cards = [t for data in (first, *known.values()) for t in turned(data, 8)] + [data[:n] for data in known.values() for n in range(1, len(data))]
    for data, (_, _, told_json) in zip(cards, asked(cards)):
        if told_json['what'] == 'packet' and (told_json['answer'] != (0 if packet_good(data) else 1) or (told_json['answer'] and not told_json['refused']['why'])):
            wrong.append(data.hex())
    told('%d packets of docs/FORMATS.md, %d times damaged: malformed by its table or not, with a reason' % (len(known), len(cards)), wrong or len(known) != 6)


def images():
    image = dict(examples())['image']
    status, told_json, said = card('--hex', image.hex())
    wrong = [said] if status or told_json['image']['point'] != 5 or told_json['image']['records'][0]['value'] != -40 or told_json['image']['records'][0]['time'] != 50 or 'well-formed' not in said else []
    longer = open('tests/logs/second/server1.log', 'rb').read()[16:16 + struct.unpack_from('<I', open('tests/logs/second/server1.log', 'rb').read(), 12)[0]]
    cards = [t for data in (image, longer) for t in turned(data, 8)] + [longer[:n] for n in range(4, len(longer))]
    refused = 0
    for data, (_, _, told_json) in zip(cards, asked(cards)):
        refused += told_json['answer'] == 1
        if told_json['what'] == 'image' and told_json['answer'] and not told_json['refused']['why']:
            wrong.append(data.hex())
    told('an image, %d times damaged, %d of them malformed: each with a reason' % (len(cards), refused), wrong or refused < 100)


# ---- records that cannot follow

def executed(op, p, client, call, argument, value, done=1, outcome=0, time=0, quality=0):
    return struct.pack('<4B3I2i4BI', 6, op, p, outcome, client, call, done, argument, value, quality, 0, 0, 0, time)


def first_form(record):
    """an executed record as before 1.6: another kind, no time"""
    return b'\1' + record[1:28]


def short(kind, *rest):
    return struct.pack('<4BI', kind, *rest)


def gone(client, time):
    return struct.pack('<4B2I', 2, 0, 0, 0, client, time)


def image(p, to, move, clients=(), records=(), time=b'\7\0\0\0', quality=0):
    """time: of each record; none: an image as before 1.6. quality: of the point and of each record"""
    rows = b''.join(struct.pack('<2I', *c) for c in clients)
    entries = b''.join(struct.pack('<2I2i4B', client, call, 0, 0, 1, 0, quality, 0) + time for client, call in records)
    return (b'MVI2' if time else b'MVI1') + struct.pack('<4B2I6Ii4B', p, to, 3, 0, move, 0, 40, 8, 48, len(rows), 48 + len(rows), len(entries), 7, quality, 0, 0, 0) + rows + entries


def take(*of, **more):
    data = image(*of, **more)
    return struct.pack('<4BI', 4, 0, 0, 0, len(data)) + data


HEAD, SET = b'WLG1\0\0\0\0', executed(1, 5, 1, 1, 40, 40)
CANNOT = [
    ('point 5 is given here', [SET, short(3, 5, 1, 0, 1), executed(1, 5, 1, 2, 41, 41)]),
    ('call 1 is under the floor of client 1, 3', [executed(1, 5, 1, 3, 40, 40, 3), SET]),
    ('client 1, call 1 stands already', [SET, SET]),
    ('client 1, call 1 stands already, for another command', [SET, executed(1, 5, 1, 1, 41, 41)]),
    ('32 clients are known, and client 33 is none of them', [executed(1, 5, c, 1, 40, 40) for c in range(1, 34)]),
    ('value 1001 is outside the range of point 5, -100 to 1000', [executed(1, 5, 1, 1, 1001, 1001)]),
    ('client 9 is not known', [SET, gone(9, 4)]),
    ('server 0 is this server', [SET, short(3, 5, 0, 0, 1)]),
    ('move 2 is not the next one of point 5, 1', [SET, short(3, 5, 1, 0, 2)]),
    ('point 5 is held here', [SET, take(5, 0, 1)]),
    ('the image is for server 2, and this is server 0', [SET, take(5, 2, 1)]),
    ('move 1 is not above the own one of point 5, 1', [SET, short(3, 5, 1, 0, 1), take(5, 0, 1)]),
    ('a record of the image of point 5 stands here for another point', [executed(1, 6, 1, 1, 0, 0), short(3, 5, 1, 0, 1), take(5, 0, 2, [(1, 1)], [(1, 1)])]),
    ('with the image\'s there would be more than 32 clients', [SET, short(3, 5, 1, 0, 1), take(5, 0, 2, [(c, 1) for c in range(2, 34)])]),
    ('clients do not ascend here', [short(3, 5, 1, 0, 1), take(5, 0, 2, [(2, 1), (1, 1)])]),
    ('point 5 is held here', [SET, short(5, 5, 0, 0, 0)]),
    ('move 7 is not that of the give of point 5, 1', [short(3, 5, 1, 0, 1), short(5, 5, 0, 0, 7)]),
    # after the latest time that can be heard, when every lease end is refused
    ('call 1 is under the floor of client 1, 3', [executed(1, 5, 2, 1, 40, 40), gone(2, 0xFFFFFFFF), executed(1, 5, 1, 3, 40, 40, 3), SET]),
]


def cannot_follow():
    """each in both forms"""
    both = CANNOT + [(why, [first_form(r) if r[0] == 6 else r for r in records]) for why, records in CANNOT]
    cards, wrong = [HEAD + b''.join(records) + gone(1, 1) for _, records in both], []
    for (why, records), (answer, shortest, told_json) in zip(both, asked(cards)):
        refused = told_json.get('refused', {})
        if answer != 14 or refused.get('why') != why or refused['at'] != 8 + sum(map(len, records[:-1])) or judged(answer, shortest, told_json):
            wrong.append((why, answer, refused))
    told('%d records that cannot follow, each with its reason' % len(both), wrong)


def changed(data, at, new):
    return data[:at] + new + data[at + len(new):]


def number(value):
    return struct.pack('<I', value)


def checkpoints(folder, row, again):
    """server 1 has point 5, client 1 with floor 1, and nine completion records of so many bytes from 2100 on; again: the record of call 13 in its tail"""
    good, tail = (open('tests/logs/%s/server1.%s' % (folder, kind), 'rb').read() for kind in ('checkpoint', 'log'))
    first, point_5, whole = 2100, 1068 + 16 * 5, 2100 + 9 * row
    cases = [('checkpoint', 0, 'byte 4, server, is 16, and 0 to 15 is due', changed(good, 4, b'\x10') + tail),
             ('checkpoint', 12, 'the four pairs of offset and length, bytes 12 to 43, are off their layout', changed(good, 20, number(1069)) + tail),
             ('checkpoint', 0, 'its end is missing: it has %d bytes, and %d are here' % (whole, whole - 1), good[:-1]), ('checkpoint', 0, 'the head is cut off: 43 of its 44 bytes are here', good[:43]),
             ('checkpoint', 44 + 32, 'a fallback outside its own range in the plan', changed(good, 44 + 32 + 8, number(1001)) + tail),
             ('checkpoint', 44 + 32, 'byte 88, home, is 16, and 0 to 15 is due', changed(good, 44 + 32 + 12, number(16)) + tail),
             ('checkpoint', point_5, 'the value of point 5 is outside its range', changed(good, point_5 + 4, number(1001)) + tail),
             ('checkpoint', point_5, 'byte 1149, quality, is 3, and 0 to 2 is due', changed(good, point_5 + 1, b'\3') + tail),
             ('checkpoint', point_5 + 16, 'status, destination, moves and home of point 6 do not fit each other', changed(good, point_5 + 16, b'\1') + tail),
             ('checkpoint', 2092, 'byte 2096, floor, is 0, and 1 or more is due', changed(good, 2096, number(0)) + tail),
             ('checkpoint', 2092 + 8, 'clients do not ascend here', changed(changed(good[:2100] + good[2092:], 32, number(16)), 36, number(2108)) + tail),
             ('checkpoint', first, 'its call is under its client\'s floor', changed(good, 2096, number(9)) + tail),
             ('checkpoint', first, 'its client is not among the clients', changed(good, first, number(2)) + tail),
             ('checkpoint', first + row, 'its call is more than 15 above its client\'s floor', changed(good, first + row + 4, number(17)) + tail),
             ('checkpoint', first, 'its point is neither held nor given', changed(good, first + 19, b'\6') + tail),
             ('checkpoint', first, 'its value is outside its point\'s range', changed(good, first + 12, number(1001)) + tail),
             ('checkpoint', first + 2 * row, 'its client and call stand before already', changed(good, first + 2 * row, good[first:first + row]) + tail),
             ('tail', 4, 'it is of server 0, and the checkpoint of server 1', good + changed(tail, 4, b'\0')), ('tail', 0, 'the head is cut off: 7 of its 8 bytes are here', good + tail[:7]),
             ('tail', again.stop, 'client 1, call 13 stands already', good + tail[:again.stop] + tail[again])]
    wrong = []
    for (part, at, why, _), (answer, shortest, told_json) in zip(cases, asked([c[3] for c in cases])):
        refused = told_json.get('refused', {})
        if answer != 14 or [refused.get(k) for k in ('part', 'at', 'why')] != [part, at, why] or judged(answer, shortest, told_json):
            wrong.append((why, answer, refused))
    told('%s: %d checkpoints and tails that are off, each with its place and reason' % (folder, len(cases)), wrong)


def checkpoints_of_both():
    checkpoints('third', 20, slice(8, 36))
    checkpoints('fourth', 24, slice(52, 84))


def of_quality():
    """of each layout with a quality, in both forms: its card by that quality"""
    record = lambda quality: executed(1, 5, 1, 1, 40, 40, quality=quality)
    yield lambda quality: HEAD + record(quality)
    yield lambda quality: HEAD + first_form(record(quality))
    for time in b'\7\0\0\0', b'':
        yield lambda quality: HEAD + short(3, 5, 1, 0, 1) + take(5, 0, 2, [(1, 1)], [(1, 1)], time, quality)
    for folder in 'third', 'fourth':
        good = open('tests/logs/%s/server1.checkpoint' % folder, 'rb').read()
        yield lambda quality: changed(changed(good, 1068 + 16 * 5 + 1, bytes([quality])), 2100 + 18, bytes([quality])) + b'WLG1\1\0\0\0'


def qualities():
    """those that there are, of point 5 and of its first record, by name; the next one has a reason"""
    wrong, count = [], 0
    for card_of in of_quality():
        *good, (answer, _, bad) = asked([card_of(quality) for quality in range(len(QUALITIES) + 1)])
        for name, (taken, _, told_json) in zip(QUALITIES, good):
            state = told_json.get('state', {'points': [], 'records': []})
            names = [p['quality'] for p in state['points'] if p['point'] == 5] + [r['quality'] for r in state['records'][:1]]
            wrong += [(name, taken, names)] if taken or names != [name, name] else []
        wrong += [bad] if answer != 14 or 'quality, is 3, and 0 to 2 is due' not in bad['refused']['why'] else []
        count += 1
    told('%d layouts with each quality, by name, and with one more' % count, wrong)


def any_quality(rng):
    return rng.choices(range(4), [10, 10, 10, 1])[0]


def any_record(rng):
    """of few points, clients, calls and moves, so that a run of them often follows; some fields are off"""
    p, client, call, move = rng.randrange(3), rng.randint(1, 3), rng.randint(1, 6), rng.randrange(3)
    kind = rng.choices(range(6), [40, 10, 20, 20, 10, 1])[0]
    if kind == 0:
        value, done = rng.choice([1000, 1001, -101] if rng.randrange(9) == 0 else [0, 5]), rng.randint(1, call + (rng.randrange(9) == 0))
        record = executed(rng.randrange(6), p, client, call, rng.choice([0, 0, 7, 2000]), value, done, rng.randrange(5), rng.choice([0, 5, 0xFFFFFFFF]), any_quality(rng))
        return record if rng.randrange(3) else first_form(record)
    if kind == 1:
        return gone(client, rng.choice([0, 5, 0xFFFFFFFF]))
    if kind == 2:
        return short(3, p, rng.choice([1, 1, 2, 0]), 0, move)
    if kind == 3:
        clients = sorted({rng.randint(1, 40): rng.randint(1, 3) for _ in range(rng.choice([0, 1, 3, 32]))}.items())
        return take(p, rng.choice([0, 0, 0, 1]), move, clients, [(c, f + rng.choice([0, 1, 16] if rng.randrange(9) == 0 else [0])) for c, f in clients[:2]],
                    rng.choice([b'', b'\5\0\0\0']), any_quality(rng))
    return short(5, p, 0, 0, move) if kind == 4 else rng.randbytes(rng.randint(1, 30))


def made_up():
    """runs of records that follow as far as they do: each next one is any, and is kept more often if it can follow"""
    rng, cards = random.Random(SEED), [HEAD] * 300
    wrong, count, refused = [], 0, {}
    for _ in range(12):
        cards = [c + any_record(rng) for c in cards]
        answers = list(asked(cards))
        wrong += [(judged(*a), c.hex()) for c, a in zip(cards, answers) if judged(*a)]
        for a in answers:
            if a[0]:
                why = re.sub(r'-?\d+', 'N', a[2]['refused']['why'])
                refused[why] = refused.get(why, 0) + 1
        count += len(cards)
        good = [c for c, a in zip(cards, answers) if a[0] == 0] or [HEAD]
        cards = [c if a[0] == 0 or rng.randrange(4) == 0 else rng.choice(good) for c, a in zip(cards, answers)]
    told('%d logs made up, %d of them refused for %d reasons: the library\'s answer, its place and a reason' % (count, sum(refused.values()), len(refused)), wrong[:3] or len(refused) < 15)


def guide():
    """the cards of the worked example in docs/GUIDE.md, as its section on the reader shows them"""
    text = open('docs/GUIDE.md', encoding='utf-8').read()
    rest = lambda what: bytes.fromhex(re.search(r'card from byte 72, %s: ([0-9A-F ]+)' % what, text)[1])
    synced = HEAD + executed(1, 5, 2, 1, 100, 100, quality=BY_HAND) + executed(2, 5, 1, 1, 20, 120, quality=BY_HAND)
    section = text[text.index('## A card in your hand'):]
    shown = [[line[4:] for line in block.split('\n')] for block in re.findall(r'(?:^    .*\n)+', section, flags=re.M)]
    said = [run(saved('card', synced + rest(what)))[1].split('\n') for what in ('torn', 'not cut, with the give')]
    said.append(run(saved('card', synced[:60] + struct.pack('<i', 1048696) + synced[64:]), '--plan=-1000000,1000000,0,0')[1].split('\n'))
    lines = [[line for line in block[:-1] if not line.startswith(('cc ', 'mantelorris-card '))] for block in shown]
    wrong = [line for block, card_said in zip([b for b in lines if b], said) for line in block if line not in card_said]
    told('what docs/GUIDE.md shows of %d cards' % len(said), wrong or len([b for b in lines if b]) != len(said))


# ---- raw cards

RAW = '''#include "card.h"
#include <stdio.h>
static size_t load(const char *path, uint8_t *bytes, size_t space) { FILE *f = fopen(path, "rb"); size_t n = f ? fread(bytes, 1, space, f) : 0; if (f) fclose(f); return n; }
int main(int count, char **words) { /* CARD CHECKPOINT LOG: stored with the log's head, and the rest appended */
    static uint8_t checkpoint[MANTELORRIS_CHECKPOINT_SIZE], log[1 << 16];
    struct card card = {0};
    card_open(&card, words[1], 1);
    card_read(&card, checkpoint, log, sizeof log);
    size_t base = load(words[2], checkpoint, sizeof checkpoint), length = load(words[3], log, sizeof log);
    card_store(&card, checkpoint, base, log, MANTELORRIS_LOG_HEAD);
    card_append(&card, log, MANTELORRIS_LOG_HEAD, length);
    return count != 4;
}
'''


def raw_makers():
    """of today's cards, and of those from before 1.6"""
    today, slots = open('examples/card_raw.c', encoding='utf-8').read(), '    card->slot = FIRST_SLOTS + (card->slot + 1) % 2;\n'
    before = saved('card_raw_before.c', today.replace(slots, '    card->slot ^= 1;\n').encode())
    sources = [saved('raw.c', RAW.encode()), 'examples/card_raw.c'], [os.path.join(WORK, 'raw.c'), before]
    return [built('maker%d' % i, files, ['-D_POSIX_C_SOURCE=200809L']) for i, files in enumerate(sources)], today.count(slots)


def raw_before(maker, before):
    """a card from before 1.6 is read, a checkpoint goes to it, and it is read again"""
    path, wrong = os.path.join(WORK, 'raw-before'), []
    words = ['tests/logs/third/server1.checkpoint', 'tests/logs/third/server1.log']
    plain = card(PLAN, words[0], '--tail', words[1])[1]['state']
    for program, slot in (before, 1), (before, 0), (maker, 3), (maker, 2):
        subprocess.run([program, path, *words], check=True)
        status, raw, _ = card(PLAN, path)
        wrong += [(slot, status, raw.get('slot'))] if status or raw['slot'] != slot or raw['state'] != plain else []
    return wrong


def raw_cards():
    (maker, before), wrong = raw_makers()[0], [] if raw_makers()[1] == 1 else ['card_raw.c has no such line']
    wrong += raw_before(maker, before)
    for words, folder, server in stored():
        log = words[-1] if 'both' not in words[0] else None
        if log is None:
            continue
        path = os.path.join(WORK, 'raw%d' % server)
        if os.path.exists(path):
            os.unlink(path)
        subprocess.run([maker, path, words[0] if len(words) > 1 else '/dev/null', log], check=True)
        (status, raw, said), (_, plain, _) = card(PLAN, path), card(PLAN, *words)
        same = all(raw.get(part, {}).get(k) == plain.get(part, {}).get(k) for part in ('checkpoint', 'log', 'tail', 'state') for k in ('records', 'points', 'clients', 'end', 'length', 'bytes'))
        if status or not same or raw['what'] != 'raw card' or due_lines(raw) != said_lines(said):
            wrong.append(words)
    data = bytearray(open(path, 'rb').read())
    newest = max((0, 1), key=lambda i: struct.unpack_from('<Q', data, 4096 * i)[0])
    data[4096 * newest + 20] ^= 1
    status, older, _ = card(PLAN, saved('older', data))
    wrong += [older] if older['superblocks'][newest]['good'] or status or older['state']['length'] != 8 else []
    if tried_files(os.path.join(WORK, 'older'), path)['state']['length'] != 8:
        wrong.append('a log that has grown while it was read')
    data[4096 * (1 - newest) + 16] ^= 1
    status, none, said = card(PLAN, saved('none', data))
    wrong += [none] if status != 1 or none['answer'] != 14 or 'no good superblock' not in said else []
    # two checkpoints later the slot is in force again, with other bytes: superblocks of before, and slots of now
    now = os.path.join(WORK, 'now')
    shutil.copy(path, now)
    for _ in range(2):
        subprocess.run([maker, now, 'tests/logs/third/server0.checkpoint', 'tests/logs/third/server0.log'], check=True)
    mixed = saved('mixed', open(path, 'rb').read()[:8192] + open(now, 'rb').read()[8192:])
    if tried_files(mixed, now).get('state') != card(now)[1]['state']:
        wrong.append('a card of two moments')
    told('raw cards of all versions, and as before 1.6; the older superblock; none; one that was read while a host went on', wrong)


# ---- beside a host

class Desk(threading.Thread):
    """sets point 5 to 1, 2, 3 .. at a host; sure: the latest result, sent: the latest request"""

    def __init__(self, port):
        super().__init__(daemon=True)
        self.line, self.sent, self.sure, self.going = socket.socket(socket.AF_INET, socket.SOCK_DGRAM), 0, 0, True
        self.line.connect(('127.0.0.1', port))
        self.line.settimeout(0.2)

    def answered(self, call):
        packet = struct.pack('<4B4Ii', 1, 1, 5, 0, 1, call, call, 600, call)
        try:
            self.line.send(packet)
            reply = self.line.recv(64)
        except OSError:  # not up yet, or lost
            time.sleep(0.01)
            return False
        return reply[0] == 7 and struct.unpack_from('<I', reply, 8)[0] == call

    def run(self):
        while self.going:
            self.sent = self.sure + 1
            if self.answered(self.sent):
                self.sure = self.sent


def free_port():
    with socket.socket(socket.AF_INET, socket.SOCK_DGRAM) as s:
        s.bind(('127.0.0.1', 0))
        return s.getsockname()[1]


def read_beside(path, desk):
    """the value of point 5 lies between what was told before the call and what was asked for behind it"""
    before = desk.sure
    status, text, errors = run('--json', path, '--plan=-1000000,1000000,0,0')
    after = desk.sent
    value = json.loads(text)['state']['points'][5]['value'] if status == 0 else None
    return [] if value is not None and before <= value <= after else [(status, errors, before, value, after)]


def beside_a_host():
    wrong, counts = [], []
    for kind in 'card.c', 'card_raw.c':
        host, path, port = built('host-' + kind, ['examples/host.c', 'examples/' + kind]), os.path.join(WORK, 'served-' + kind), free_port()
        subprocess.run([host, '--found', path], check=True, stdout=subprocess.DEVNULL)
        server, desk = subprocess.Popen([host, path, str(port), '3000']), Desk(port)
        desk.start()
        until = time.time() + 40
        while desk.sure < 400 and time.time() < until:
            wrong += read_beside(path, desk)
        desk.going = False
        desk.join()
        server.kill()
        server.wait()
        wrong += read_beside(path, desk) + (['only %d commands' % desk.sure] if desk.sure < 400 else [])
        counts.append(desk.sure)
    told('read again and again beside a host that makes checkpoints, %d and %d commands' % tuple(counts), wrong[:3])


# ---- what is no card

def odd():
    secret = saved('secret', HEAD)
    os.chmod(secret, 0)
    os.mkfifo(os.path.join(WORK, 'fifo'))
    log = 'tests/logs/first/server0.log'
    due = [(1, 'no server was founded on it', [saved('empty', b'')]), (2, 'is a folder', [WORK]), (2, 'No such file', [WORK + '/nothing']),
           (2, 'neither a file nor', [WORK + '/fifo']), (2, 'neither a file nor', ['/dev/null']), (2, 'name a card', []), (2, 'one card at a time', [log, log]),
           (2, '--foo is no option', ['--foo', log]), (2, 'a value is missing', [log, '--plan']), (2, 'no two hexadecimal digits', ['--hex', '01 0']),
           (2, '--tail goes with a checkpoint', ['--tail', log, log]), (2, 'No such file', ['--plan', WORK + '/nothing', log]), (2, 'more than 32 bits', ['--plan=0,3000000000,0,0', log]),
           (0, 'Exit status', ['--help']), (1, 'begins with 57 4C 47 31', [saved('words', b'a letter to the canal company')]),
           (1, 'there is no head', ['tests/logs/third/server0.checkpoint']), (1, 'a request has 24 bytes', ['--hex', '01 01 05'])]
    if os.getuid():
        due.append((2, 'Permission denied', [secret]))
    wrong = []
    for status, words, options in due:
        have, said, errors = run(*options)
        if have != status or words not in said + errors or (errors != '') != (status == 2):
            wrong.append((options, have, said[-200:], errors))
    with open('/dev/full', 'w') as full:
        if subprocess.run([READER, log], stdout=full, stderr=subprocess.DEVNULL).returncode != 2:
            wrong.append('/dev/full')
    told('%d files and calls that are wrong or odd end in words' % (len(due) + 1), wrong)


def plans():
    log, good = 'tests/logs/second/server1.log', struct.pack('<3iI', -100, 1000, 0, 0) * 64
    bad = good[:16 * 9] + struct.pack('<3iI', 5, 7, 8, 0) + good[16 * 10:]
    home = good[:16 * 9 + 13] + b'\1' + good[16 * 9 + 14:]
    due = [(0, 'recovered', good), (1, 'refused with 1, malformed; in the plan at 0: a plan has 1024 bytes, and this one has 1000', good[:1000]),
           (1, 'in the plan at 144: of point 9 the fallback is outside its own range', bad), (1, 'in the plan at 144: byte 157, a zero, is 1, and 0 is due', home),
           (1, 'refused with 14, bad log; in the log at 8: the point\'s value is outside its range', struct.pack('<3iI', 0, 1000, 0, 0) * 64),
           (1, 'refused with 14, bad log; in the log at 8: point 5 is held here', struct.pack('<3iI', -100, 1000, 0, 1) * 64)]
    wrong = []
    for status, words, plan in due:
        have, said, _ = run('--plan', saved('plan', plan), log)
        wrong += [(words, have, said[-200:])] if have != status or words not in said else []
    both = saved('both', open('tests/logs/third/server1.checkpoint', 'rb').read() + open('tests/logs/third/server1.log', 'rb').read())
    status, told_json, said = card('--plan=-100,1000,1,0', both)
    if status or told_json['plan_differs_at_point'] != 0 or 'they differ at point 0' not in said or 'plan_differs_at_point' in card(PLAN, both)[1]:
        wrong.append('the plan of a checkpoint')
    told('%d plans, wrong ones among them; one that is not the checkpoint\'s' % len(due), wrong)


# ---- 16 MB

def large():
    count = (1 << 24) // 32
    log = bytearray(HEAD + b''.join(executed(1, i % 64, i % 8 + 1, i // 8 + 1, i % 1000, i % 1000, i // 8 + 1) for i in range(count)))
    good = saved('large', log)
    struct.pack_into('<i', log, 8 + 32 * (count - 1) + 20, 5000)
    noise = random.Random(SEED).randbytes(1 << 24)
    due = [(0, 'whole records up to %d' % len(log), good), (1, 'in the log at %d: value 5000 is outside' % (len(log) - 32), saved('large-bad', log)),
           (1, 'no good superblock', saved('zeros', bytes(1 << 24))), (1, 'no good superblock', saved('noise', b'\0' + noise))]
    wrong, most = [], 0
    for status, words, path in due:
        for form in [], ['--json']:
            before = resource.getrusage(resource.RUSAGE_CHILDREN)
            have, said, _ = run(PLAN, *form, path)
            after = resource.getrusage(resource.RUSAGE_CHILDREN)
            took = after.ru_utime + after.ru_stime - before.ru_utime - before.ru_stime
            most = max(most, took)
            if have != status or (not form and words not in said) or took > 1:
                wrong.append((path, form, have, '%.2f s' % took))
    told('16 MB of log, damaged at its end, of zeros, of noise: at most %.2f s of processor time' % most, wrong)


# ---- never written

class Watch:
    """what is done to a file and in its folder, by inotify"""
    MODIFY, ATTRIB, CLOSE_WRITE, CLOSE_READ, OPEN = 2, 4, 8, 16, 32

    def __init__(self, path):
        self.libc = ctypes.CDLL(None, use_errno=True)
        self.file = self.libc.inotify_init1(os.O_NONBLOCK)
        if self.file < 0:
            sys.exit('reader.py: inotify: ' + os.strerror(ctypes.get_errno()))
        self.own = self.libc.inotify_add_watch(self.file, path.encode(), 0xFFF)
        self.libc.inotify_add_watch(self.file, os.path.dirname(path).encode(), 0xFC0)  # made, moved, removed there

    def seen(self):
        data, mask, at = os.read(self.file, 1 << 16), 0, 0
        while at < len(data):
            mask |= struct.unpack_from('<iI', data, at)[1]
            at += 16 + struct.unpack_from('<iIII', data, at)[3]
        os.close(self.file)
        return mask


def touched(program, path):
    """what the program did to the card beside reading it"""
    watch, before = Watch(path), (hashlib.sha256(open(path, 'rb').read()).digest(), os.stat(path).st_mtime_ns)
    run(PLAN, path, program=program)
    mask = watch.seen()
    wrong = [] if mask & Watch.CLOSE_READ else ['it was not read']
    wrong += ['opened for writing or changed, %x' % mask] if mask & ~(1 | Watch.OPEN | Watch.CLOSE_READ) else []
    return wrong + (['its bytes or its time changed'] if before != (hashlib.sha256(open(path, 'rb').read()).digest(), os.stat(path).st_mtime_ns) else [])


def never_written():
    folder = os.path.join(WORK, 'alone')
    os.mkdir(folder)
    cards = {'log': open('tests/logs/second/server1.log', 'rb').read(), 'torn': open('tests/logs/second/server1.log', 'rb').read()[:-3], 'bad': HEAD + b'\7', 'empty': b'',
             'both': open('tests/logs/third/server0.checkpoint', 'rb').read() + open('tests/logs/third/server0.log', 'rb').read(), 'raw': open(os.path.join(WORK, 'raw0'), 'rb').read()}
    wrong = [(name, what) for name, data in cards.items() for what in touched(READER, saved('alone/' + name, data))]
    told('%d cards are read, not opened for writing, and unchanged' % len(cards), wrong)
    text = open('examples/reader/files.c', encoding='utf-8').read()
    writing = saved('files.c', text.replace('O_RDONLY', 'O_RDWR').encode())
    other = built('writing', [u for u in UNITS if not u.endswith('/files.c')] + [writing], ['-Iexamples/reader'])
    found = touched(other, os.path.join(folder, 'log'))
    told('planted: a reader that opens the card for writing; found: %s' % found, text.count('O_RDONLY') != 1 or not found)


def main():
    global READER, TRIAL
    if 'MANTELORRIS_DIST' not in os.environ:
        subprocess.run(['tools/lib.sh'], check=True, stdout=subprocess.DEVNULL)
    print('seed %d' % SEED)
    READER = built('mantelorris-card', UNITS)
    TRIAL = built('trial', [u for u in UNITS if not u.endswith('/main.c')] + ['tests/c/reader.c'], ['-g', '-fsanitize=address,undefined', '-fno-sanitize-recover=all'])
    for part in stored_cards, without_plan, cuts, damaged, exit_statuses, packets, images, cannot_follow, checkpoints_of_both, qualities, made_up, guide, raw_cards, beside_a_host, odd, plans, large, never_written:
        part()
    shutil.rmtree(WORK)
    print('%d passed, %d failed' % (passed, failed))
    sys.exit(failed != 0)


main()

#!/usr/bin/env python3
"""plant.py: the example plant of two cabinets, a lease manager and desks (examples/pair.c, leases.c, pair_desk.c) under kills. Prints its seed and what it did; the last line is
'N passed, M failed'.
  - a lease manager that is killed and started again: a repeated open gets the same grant, another name another client number; its file, torn, missing, founded twice, in use
  - a point moves to and fro while the taker is killed inside its writes, and the giver at any moment: it is never lost and never held twice
  - a full table of clients at a cabinet: it asks the lease manager for their notices
  - a plant over a poor line, every party killed again and again, desks among them: each step is carried out once, each name has at most one lease, each client number one desk, and in the
    end every cabinet has answered every notice
  - a cabinet is lost for good: the lease manager is told so, and goes on without its answers
  - a desk is lost with a command on its way, at a cabinet that does not know it: its successor begins behind the fence, and the command, which comes late, is not carried out
  - programs with a planted fault fail these: a grant that leaves before the file has it, a repeated open that takes a lease, answers before the card has the log, a client started by each grant,
    a successor without the fence, one that does not look at the cabinet's heard time
PLANT_SEED sets the seed, PLANT_SECONDS how long the plant is disturbed. MANTELORRIS_DIST names a folder with archive and headers; without it `make lib` makes dist/."""
import os, random, re, shutil, signal, socket, struct, subprocess, sys, tempfile, time

ROOT = os.path.join(os.path.dirname(os.path.abspath(__file__)), '..', '..')
os.chdir(ROOT)
SEED = int(os.environ.get('PLANT_SEED', '0')) or random.SystemRandom().randrange(1, 1 << 30)
SECONDS = float(os.environ.get('PLANT_SECONDS', '4.5'))
DIST = os.environ.get('MANTELORRIS_DIST') or 'dist'
FLAGS = ['-std=gnu11', '-O1', '-Wall', '-Wextra', '-Werror', '-I' + DIST, '-Iexamples', '-DSPAN=2']  # seconds of a lease, as SPAN below
SOURCES = {'leases': ['examples/leases.c'], 'pair': ['examples/pair.c', 'examples/card.c'], 'pair_desk': ['examples/pair_desk.c'], 'relay': ['examples/relay.c']}
PATIENCE = 40  # seconds for what takes less than one on a machine with nothing else to do
WORK = tempfile.mkdtemp(prefix='mantelorris-plant-')
OPEN, RENEW, LEASE, QUERY, SAVED, MOVE, PLACE, PIECE = range(0x81, 0x89)
GATE, SPAN = 5, 2
passed, failed = 0, 0
began = time.time()
running = []


def told(what, wrong):
    global passed, failed
    passed, failed = passed + (not wrong), failed + bool(wrong)
    print('%s: %s; %.1f s' % ('FAILED' if wrong else 'ok', what + (': %s' % wrong if wrong else ''), time.time() - began), flush=True)


def planted(what, found):
    told('planted: %s; found: %s' % (what, found or 'nothing'), not found and 'not found out')


def build(name, sources, more=()):
    out = os.path.join(WORK, name)
    subprocess.run(['cc', *FLAGS, *more, *sources, DIST + '/libmantelorris.a', '-o', out], check=True)
    return out


def changed(program, name, *changes):
    """a program with lines changed, old and new in turn, in its first source"""
    first, *rest = SOURCES[program]
    text = open(first, encoding='utf-8').read()
    for old, new in zip(changes[::2], changes[1::2]):
        if text.count(old) != 1:
            sys.exit('plant.py: the change %s does not fit %s' % (name, first))
        text = text.replace(old, new)
    path = os.path.join(WORK, name + '.c')
    open(path, 'w', encoding='utf-8').write(text)
    return build(name, [path, *rest], ['-Wno-unused-function', '-Wno-unused-parameter'])


def ports(count):
    """free ones, each once"""
    found = [socket.socket(socket.AF_INET, socket.SOCK_DGRAM) for _ in range(count)]
    for s in found:
        s.bind(('127.0.0.1', 0))
    numbers = [s.getsockname()[1] for s in found]
    for s in found:
        s.close()
    return [str(n) for n in numbers]


def start(words, **more):
    p = subprocess.Popen(words, stdout=subprocess.PIPE, stderr=subprocess.PIPE, text=True, **more)
    running.append(p)
    return p


def kill(p):
    p.kill()
    p.wait()
    running.remove(p)


def said(words):
    done = subprocess.run(words, capture_output=True, text=True)
    return done.returncode, done.stdout + done.stderr


def asked(line, port, message, good, patience=PATIENCE):
    """sends a message again and again, and gives the answer that is meant; None if there is none"""
    until = time.time() + patience
    while time.time() < until:
        line.sendto(message, ('127.0.0.1', int(port)))
        line.settimeout(0.05)
        try:
            answer = line.recv(2048)
            if good(answer):
                return answer
        except (TimeoutError, socket.timeout, ConnectionError):
            pass
    return None


# ---- the lease manager by itself

def grant_of(line, port, name):
    answer = asked(line, port, struct.pack('<B3xQI', OPEN, name, SPAN), lambda a: len(a) == 24 and a[0] == LEASE and struct.unpack_from('<Q', a, 4)[0] == name)
    return answer and (answer[1], answer[12:])


def repeated_opens(leases):
    """five names, each asked for three times, the manager killed in between; what went wrong, or ''"""
    book, line, (port, *cabinets) = os.path.join(WORK, os.path.basename(leases) + '.book'), socket.socket(socket.AF_INET, socket.SOCK_DGRAM), ports(3)
    clients = []
    if said([leases, '--found', book])[0]:
        return 'not founded'
    for name in range(1, 6):
        grants = []
        for _ in range(3):
            manager = start([leases, book, port, *cabinets])
            grants.append(grant_of(line, port, name))
            kill(manager)
        if grants[0] is None or len(set(grants)) != 1 or grants[0][0]:
            return 'name %d was granted %s' % (name, grants)
        clients.append(struct.unpack_from('<I', grants[0][1], 4)[0])
    return '' if len(set(clients)) == 5 else 'client numbers %s' % clients


def damaged_files(leases):
    """the file of repeated_opens: what a manager says of it, torn, missing, founded again and in use"""
    book, (port, *cabinets) = leases + '.book', ports(3)
    whole, wrong = open(book, 'rb').read(), []
    latest = max((0, 1), key=lambda i: struct.unpack_from('<Q', whole, i * 4096)[0])
    for copies, good in (((1 - latest,), True), ((0, 1), False)):
        torn = bytearray(whole)
        for i in copies:
            torn[i * 4096 + 300] ^= 4
        open(book, 'wb').write(torn)
        code, text = said([leases, book])
        if (code == 0, '5 numbers' in text) != (good, good) or not good and 'no whole copy' not in text:
            wrong.append('torn %s: %d %s' % (copies, code, text))
    open(book, 'wb').write(whole)
    manager = start([leases, book, port, *cabinets])
    grant_of(socket.socket(socket.AF_INET, socket.SOCK_DGRAM), port, 1)
    for words, text in (([book, port, *cabinets], 'runs on this file'), (['--found', book], 'File exists'), ([book + '.none', port, *cabinets], 'No such file')):
        code, answer = said([leases, *words])
        if code != 1 or text not in answer:
            wrong.append('%s: %d %s' % (words, code, answer))
    kill(manager)
    return wrong


# ---- two cabinets

class Party:
    """a program that is started, killed by the test or inside a call of the C library (tests/c/power.c), and started again; a card loses what was not certain"""

    def __init__(self, words, path, hook, rng, is_card):
        self.words, self.path, self.hook, self.rng, self.is_card, self.starts, self.process = words, path, hook, rng, is_card, 0, None
        self.notes = path + '.notes'
        open(self.notes, 'wb').close()

    def start(self, chance=0, aim='-'):
        more = dict(LD_PRELOAD=self.hook, POWER_CARD=self.path, POWER_FILE=self.notes, POWER_SEED=str(self.rng.randrange(1 << 20)), POWER_CHANCE=str(chance), POWER_AIM=aim)
        self.process, self.starts = start(self.words, env=dict(os.environ, **more)), self.starts + 1

    def lines(self):
        return [line.split() for line in open(self.notes).read().split('\n')]

    def end(self):
        """killed, if it still runs; what it said if it has ended by itself, unless a call was made to fail: then it has to"""
        kill(self.process)
        has_to = self.process.returncode == 1 and self.places()[-1:].isupper()
        text = '' if has_to or self.process.returncode == -signal.SIGKILL else '%s: %d %s' % (self.words[:2], self.process.returncode, self.process.stderr.read())
        if self.is_card and self.starts:
            about = os.stat(self.path)
            sure = {line[0]: int(line[1]) for line in self.lines() if len(line) == 2 and line[1].isdigit()}.get(str(about.st_ino))
            if sure is not None:
                os.truncate(self.path, self.rng.randint(min(sure, about.st_size), about.st_size))
        return text

    def places(self):
        return ''.join(line[0] for line in self.lines() if len(line) == 1)

    def struck(self):
        return len(self.places())


def places(pair, cards):
    """the gate's status, value and move on each card, by looking"""
    return [re.search(r'(absent|held|given|released), value (-?\d+), move (\d+)', said([pair, card])[1]).groups() for card in cards]


def founded(pair, name):
    cards = [os.path.join(WORK, '%s.%d' % (name, i)) for i in range(2)]
    for i, card in enumerate(cards):
        subprocess.run([pair, '--found', card, str(i)], check=True)
    return cards


def moves(pair, hook, rng, strikes):
    """a point that moves to and fro, at most 60 times, until so many kills inside a write; what went wrong, or '', and how many moves and kills there were"""
    cards, line, at = founded(pair, os.path.basename(pair)), socket.socket(socket.AF_INET, socket.SOCK_DGRAM), ports(3)
    parties = [Party([pair, card, str(i), at[i], at[2], at[1 - i]], card, hook, rng, True) for i, card in enumerate(cards)]
    for p in parties:
        p.start()
    move, wrong = 0, ''
    while not wrong and move < 60 and sum(p.struck() for p in parties) < strikes:
        move += 1
        giver, taker, until = parties[1 - move % 2], parties[move % 2], time.time() + PATIENCE
        asked(line, giver.words[3], struct.pack('<BBBBI', MOVE, GATE, move % 2, 0, move), lambda a: len(a) == 8 and a[0] == PLACE and a[2] != 1)
        wrong = taker.end() or giver.end() or (places(pair, cards)[1 - move % 2][0] == 'held' and 'move %d: a give was answered, and is gone' % move)
        giver.start()
        while not wrong and places(pair, cards)[move % 2][0] != 'held':
            taker.start(1000, 'w')
            struck = taker.struck()
            while time.time() < until and taker.process.poll() is None and taker.struck() == struck and places(pair, cards)[1 - move % 2][0] == 'given':
                time.sleep(0.02)
            wrong = taker.end()
            seen = [p[0] for p in places(pair, cards)]
            if 'given' not in seen and 'held' not in seen or seen == ['held', 'held'] or time.time() > until:
                wrong = wrong or 'move %d: %s' % (move, seen)
        taker.start()
    struck = sum(p.struck() for p in parties)
    for p in parties:
        wrong = p.end() or wrong
    return wrong, move, struck


def full_table(pair, leases, hook, rng):
    """32 desks that have left are known at a cabinet, and no notice of them has come to it: a further one gets in all the same; what went wrong, or ''"""
    book, line, (port, at, *nowhere) = leases + '.full', socket.socket(socket.AF_INET, socket.SOCK_DGRAM), ports(4)
    cards = founded(pair, 'full')
    subprocess.run([leases, '--found', book], check=True)
    parties = [Party([leases, book, port, *nowhere], book, hook, rng, False), Party([pair, cards[0], '0', at, port, nowhere[0]], cards[0], hook, rng, True)]
    wrong, refusals = '', []

    def result(client):
        def good(answer):
            refusals.append(answer[1] if answer[0] == 3 else 0)
            return answer[0] == 7 and struct.unpack_from('<I', answer, 4)[0] == client
        return good

    for p in parties:
        p.start()
    for name in range(1, 34):
        # a desk that finds no lease free asks again until one has ended
        answer = asked(line, port, struct.pack('<B3xQI', OPEN, name, SPAN), lambda a: len(a) == 24 and a[0] == LEASE and a[1] == 0 and struct.unpack_from('<Q', a, 4)[0] == name)
        client, lease = struct.unpack_from('<II', answer, 16) if answer else (0, 0)
        if not asked(line, at, struct.pack('<BBBBIIIIi', 1, 0, GATE, 0, client, 1, 1, lease, 0), result(client)):
            wrong = wrong or 'name %d has no result' % name
    for p in parties:
        wrong = p.end() or wrong
    return wrong or ('' if 8 in refusals else 'the table was never full')


def late_command(pair, leases, pair_desk, name):
    """a desk is lost that no cabinet knows, with a step on its way that comes when its successor is at work; what went wrong, or ''"""
    book, line, (port, *at) = os.path.join(WORK, name + '.book'), socket.socket(socket.AF_INET, socket.SOCK_DGRAM), ports(3)
    cards = founded(pair, name)
    subprocess.run([leases, '--found', book], check=True)
    start([leases, book, port, *at])
    for i, card in enumerate(cards):
        start([pair, card, str(i), at[i], port, at[1 - i]])
    first, until = subprocess.run([pair_desk, port, *at, '1', '0'], capture_output=True, text=True), time.time() + PATIENCE  # sets the gate
    while ', 0 desks' not in said([leases, book])[1] and time.time() < until:  # its notice is saved: the cabinets' heard time stays from here on
        time.sleep(0.02)
    granted = grant_of(line, port, 77)
    client, lease = struct.unpack_from('<II', granted[1], 4)
    late = struct.pack('<BBBBIIIIi', 1, 2, GATE, 0, client, 1, 1, lease, 1)
    out = open(os.path.join(WORK, name + '.out'), 'w+')
    desk = subprocess.Popen([pair_desk, port, *at, '60', '4', str(client)], stdout=out, stderr=subprocess.PIPE, text=True)
    running.append(desk)
    refusals, until = set(), time.time() + PATIENCE
    while desk.poll() is None and time.time() < until:
        time.sleep(0.002)
        if 'result' not in open(out.name).read():
            continue
        for cabinet in at:
            line.sendto(late, ('127.0.0.1', int(cabinet)))
        try:
            line.settimeout(0.001)
            answer = line.recv(2048)
            refusals.add(answer[1] if answer[0] == 3 else 0)
        except (TimeoutError, socket.timeout, ConnectionError):
            pass
    kill(desk)
    said_last, text = desk.stderr.read().strip(), open(out.name).read()
    for p in list(running):
        kill(p)
    if first.returncode or desk.returncode:
        return 'the successor has ended with %d: %s' % (desk.returncode, said_last)
    return '' if 'fence %d' % client in text and refusals <= {3, 4} and 4 in refusals else 'answers to the late command: %s' % refusals


def lost_cabinet(pair, leases, name, other):
    """one of two cabinets answers nothing any more: desks get leases all the same, more than the manager has names for; what went wrong, or ''"""
    book, line, (port, at, nowhere) = os.path.join(WORK, name + '.book'), socket.socket(socket.AF_INET, socket.SOCK_DGRAM), ports(3)
    cards, wrong = founded(pair, name), ''
    subprocess.run([leases, '--found', book], check=True)
    manager = start([leases, book, port, at, nowhere])
    start([pair, cards[0], '0', at, port, nowhere])
    for number in range(1, 8):
        if number == 5:  # the cabinet is known as lost from here on; the names before wait for it
            time.sleep(2.5)
            kill(manager)
            start([leases, book, port, at, other or nowhere])
        granted = asked(line, port, struct.pack('<B3xQI', OPEN, number, 1), lambda a: len(a) == 24 and a[0] == LEASE and a[1] == 0 and struct.unpack_from('<Q', a, 4)[0] == number, 8)
        wrong = wrong or ('' if granted else 'name %d gets no lease' % number)
        if wrong:
            break
    for p in list(running):
        kill(p)
    return wrong


# ---- the plant

class Desk:
    """desks one after the other; what all of them have said. One that follows a killed one is told of its clients"""

    def __init__(self, words):
        self.words, self.lines, self.kills, self.process, self.status = words, [], 0, None, None
        self.out = os.path.join(WORK, 'desk.out')

    def start(self, steps, every):
        lost = sorted(set(self.said('client')) - set(self.said('left')) - set(self.said('fence')))
        self.process = subprocess.Popen([*self.words, str(steps), str(every), *lost], stdout=open(self.out, 'w'), stderr=subprocess.PIPE, text=True)
        running.append(self.process)

    def end(self):
        """what went wrong, if it has ended by itself"""
        alone = self.process.poll() is not None
        kill(self.process)
        self.kills += not alone
        self.lines += open(self.out).read().split('\n')
        ended, self.process = self.process, None
        self.status = ended.returncode
        return ended.stderr.read().strip() if alone and self.status else ''

    def waits(self):
        """it has no result yet"""
        return 'result' not in open(self.out).read()

    def said(self, word):
        return [line.split()[1] for line in self.lines if line.startswith(word + ' ')]


def relays(relay, at, rng, repeat):
    """a poor line for each pair of parties; the ports that lead to: the manager, cabinet 0, 1 (from desks), 1 (from 0), 0 (from 1), 0, 1 (from the manager)"""
    entries = ports(7)
    for entry, to in zip(entries, [at[2], at[0], at[1], at[1], at[0], at[0], at[1]]):
        start([relay, entry, to, '12', str(repeat), '12', str(rng.randrange(1, 1 << 20))])
    return entries


def disturbed(parties, desk, rng, seconds, pair, cards):
    """kills for so many seconds; what went wrong, or '', and how many cabinets were killed while the point was on its way"""
    under_way, until, wrong = [0, 0], time.time() + seconds, ''
    lives = {p: 0 for p in parties}
    desk_ends, works = 0, 0
    while not wrong and (time.time() < until or min(under_way) == 0 and time.time() < until + PATIENCE):
        time.sleep(0.005)
        for p in parties:
            if p.process.poll() is None and time.time() < lives[p]:
                continue
            wrong = p.end() or wrong
            seen = [place[0] for place in places(pair, cards)]
            if p.is_card and 'given' in seen and 'held' not in seen:
                under_way[seen.index('given') != cards.index(p.path)] += 1
            p.start(40)
            lives[p] = time.time() + rng.uniform(0.05, 1.2 if p.is_card else 2.5) # a manager's clock goes on by whole seconds that it has run
        if works and desk.waits():
            desk_ends = time.time() + rng.uniform(0.5, 2.5)
        if desk.process is None or desk.process.poll() is not None or time.time() > desk_ends:
            wrong = (desk.process and desk.end()) or wrong
            desk.start(100000, 4)
            desk_ends, works = time.time() + rng.uniform(0.3, 2.5), rng.randrange(2)  # every other one is killed wherever it is, before the fence too; the rest once they have worked
    return wrong or desk.end(), under_way


def ended(desk):
    """waits for a desk that is not killed; what went wrong, or ''"""
    until = time.time() + PATIENCE
    while time.time() < until and desk.process.poll() is None:
        time.sleep(0.02)
    return desk.end() or ('' if desk.status == 0 else 'a desk has not ended')


def at_rest(parties, desk, leases, book):
    """nobody is killed any more: a last desk ends, and every notice is answered; what went wrong, or ''"""
    wrong = ''
    for p in parties:
        wrong = p.end() or wrong
        p.start()
    desk.start(24, 4)
    wrong = ended(desk) or wrong
    until = time.time() + PATIENCE
    while not wrong and time.time() < until and ', 0 desks' not in said([leases, book])[1]:
        time.sleep(0.05)
    if ', 0 desks' not in said([leases, book])[1]:
        wrong = wrong or 'notices without an answer: ' + said([leases, book])[1]
    for p in parties:
        wrong = wrong or p.end()
    return wrong


def judged(desk, pair, cards, leases, book):
    """whether what the desks saw fits what the plant has"""
    ends, values = places(pair, cards), [int(v) for v in desk.said('result')]
    held = [int(end[1]) for end in ends if end[0] == 'held']
    steps, given = sum(line == 'step' for line in desk.lines), int(re.search(r'(\d+) numbers', said([leases, book])[1]).group(1))
    clients, names = desk.said('client'), desk.said('name')
    if len(held) != 1 or any(end[0] == 'given' for end in ends):
        return 'the point: %s' % ends
    if len(set(values)) != len(values) or max(values) > held[0] or not len(values) <= held[0] <= steps:
        return '%d results, %d of them different, greatest %d, %d steps, the gate at %d' % (len(values), len(set(values)), max(values), steps, held[0])
    if len(set(clients)) != len(clients) or not len(clients) <= given <= len(names):
        return '%d names, %d numbers given out, %d clients, %d of them different' % (len(names), given, len(clients), len(set(clients)))
    return ''


def plant(programs, hook, rng, seconds, name, repeat=12, kills=True):
    pair, leases, book = programs['pair'], programs['leases'], os.path.join(WORK, name + '.book')
    cards, at = founded(pair, name), ports(3)
    subprocess.run([leases, '--found', book], check=True)
    way = relays(programs['relay'], at, rng, repeat)
    parties = [Party([pair, cards[0], '0', at[0], at[2], way[3]], cards[0], hook, rng, True), Party([pair, cards[1], '1', at[1], at[2], way[4]], cards[1], hook, rng, True),
               Party([leases, book, at[2], way[5], way[6]], book, hook, rng, False)]
    desk = Desk([programs['pair_desk'], *way[:3]])
    for p in parties:
        p.start()
    desk.start(1, 0) # sets the gate
    wrong, under_way = ended(desk), [0, 0]
    if kills and not wrong:
        wrong, under_way = disturbed(parties, desk, rng, seconds, pair, cards)
    wrong = wrong or at_rest(parties, desk, leases, book) or judged(desk, pair, cards, leases, book)
    ends = places(pair, cards)
    seen = 'starts %s, of them %s ended inside a call; desks killed %d times; %d names, %d results, %s moves; killed while the point was on its way: the giver %d times, the taker %d' % (
        [p.starts for p in parties], [p.struck() for p in parties], desk.kills, len(desk.said('name')), len(desk.said('result')), max(int(e[2]) for e in ends), *under_way)
    for p in list(running):
        kill(p)
    return wrong, seen, under_way


def main():
    if not os.environ.get('MANTELORRIS_DIST'):
        subprocess.run(['tools/lib.sh'], check=True, stdout=subprocess.DEVNULL)
    print('seed %d' % SEED, flush=True)
    rng = random.Random(SEED)
    programs = {name: build(name, sources) for name, sources in SOURCES.items()}
    hook = os.path.join(WORK, 'power.so')
    subprocess.run(['cc', '-shared', '-fPIC', '-O1', 'tests/c/power.c', '-o', hook, '-ldl'], check=True)
    told('a repeated open gets the same grant, over kills', repeated_opens(programs['leases']))
    told("the lease manager's file: torn, missing, founded twice, in use", damaged_files(programs['leases']))
    wrong, *counts = moves(programs['pair'], hook, rng, 4)
    told('a point moves %d times, its taker killed inside a write %d times' % tuple(counts), wrong)
    told('a full table of clients', full_table(programs['pair'], build('leases_1', SOURCES['leases'], ['-USPAN', '-DSPAN=1']), hook, rng))
    told("a lost desk's command comes when its successor is at work: the fence", late_command(programs['pair'], programs['leases'], programs['pair_desk'], 'late'))
    few = changed('leases', 'few', 'NAMES = 64', 'NAMES = 4')
    told('a cabinet is lost for good, and desks get leases', lost_cabinet(programs['pair'], few, 'lost', '0'))
    planted('a lost cabinet is waited for', lost_cabinet(programs['pair'], few, 'waited', ''))
    wrong, seen, under_way = plant(programs, hook, rng, SECONDS, 'plant')
    print(seen)
    told('a plant under kills', wrong or (min(under_way) == 0 and 'no kill while the point was on its way'))
    early = changed('leases', 'early', '    if (r.number == 0) store();\n', '')
    planted('a grant leaves before the file has it', repeated_opens(early))
    again = changed('leases', 'again', '    if (row) return mantelorris_query(&book.manager, row->client, now());\n', '')
    planted('a repeated open takes a lease', repeated_opens(again))
    early = changed('pair', 'unwritten', '        card_append(&card, log_space, mark, length);\n', '',
                    '    owes = 0;\n}', '    owes = 0;\n    card_append(&card, log_space, mark, length);\n}')
    planted('the mark set and answers sent before the write', moves(early, hook, rng, 60)[0])
    twice = changed('pair_desk', 'twice', '    if (started) {\n', '    if (0) {\n')
    planted('each grant starts a client', plant(dict(programs, pair_desk=twice), hook, rng, 0, 'twice', 90, False)[0])
    unfenced = changed('pair_desk', 'unfenced', '    fence();\n    start(SPAN);', '    start(SPAN);')
    planted('a successor starts without the fence', late_command(programs['pair'], programs['leases'], unfenced, 'late_unfenced'))
    unheard = changed('pair_desk', 'unheard', '    while (losts && heard < latest) {', '    while (0) {')
    planted('the heard time of a cabinet that does not know the client is not looked at', late_command(programs['pair'], programs['leases'], unheard, 'late_unheard'))
    print('%.1f s' % (time.time() - began))
    print('%d passed, %d failed' % (passed, failed))
    sys.exit(1 if failed else 0)


try:
    main()
finally:
    for p in list(running):
        p.kill()
    shutil.rmtree(WORK, ignore_errors=True)

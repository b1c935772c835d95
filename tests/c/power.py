#!/usr/bin/env python3
"""power.py: a host under power cuts. Prints what it did; the last line is 'N passed, M failed'. Without --serve it tries the example (examples/host.c with card.c and
with card_raw.c):
  - killed with SIGKILL at random moments and inside its writes and syncs, at least KILLS times; after each kill the card is cut to any length from what it had for
    certain to what it has; a sync may fail, and then the host has to end; the desk's commands complete all the same, each once, and the gate's value is their sum
  - the same with a small limit, so that it makes and stores checkpoints all the time, killed at each step of that, or the step fails and the host has to end
    by itself; where the name of the new file is not certain, the old one may come back; the card stays small
  - the same on raw sectors: each sector that was not certain is lost, kept, torn or garbled, or the process alone has ended and all is still in the cache
  - a card cut at every byte of its last records starts with just the whole records; so does one with a checkpoint, cut in its tail
  - damaged cards are refused with a message that says where, and stay as they were; so are another server's card and a checkpoint of another plan, which recovery itself takes
  - printing what a card has changes nothing on it or beside it, needs no more than to read it, and may be done beside a host that serves
  - only --found founds, and only on an empty card; a second program does not get a card that is in use; the gate is driven after a start; a state that something else has
    written into is recovered from the card
  - hosts with a planted fault fail the first tests: FAULTS and RAW_FAULTS
--serve 'COMMAND {card} {port}' --found 'COMMAND {card}' tries your own host (docs/GUIDE.md, Power cuts on your own host); --sectors: its card is raw sectors.
POWER_SEED sets the seed, POWER_KILLS the number of kills. MANTELORRIS_DIST names a folder with archive and headers; without it an unpacked
delivery takes its own, and in the repository `make lib` makes dist/."""
import argparse, atexit, glob, os, random, shlex, shutil, signal, socket, struct, subprocess, sys, tempfile, threading, time
from concurrent.futures import ThreadPoolExecutor

ROOT = os.path.join(os.path.dirname(os.path.abspath(__file__)), '..', '..')
FROM = os.getcwd()
os.chdir(ROOT)
SEED = int(os.environ.get('POWER_SEED', '0')) or random.SystemRandom().randrange(1, 1 << 30)
KILLS = int(os.environ.get('POWER_KILLS', '220'))
NAMED = os.environ.get('MANTELORRIS_DIST')
UNPACKED = not os.path.exists('tools/lib.sh')  # a delivery, not the repository
HOST, RAW = ['examples/host.c', 'examples/card.c'], ['examples/host.c', 'examples/card_raw.c']
DIST = os.path.abspath(next((path for path in (os.path.join(FROM, NAMED), NAMED) if os.path.isdir(path)), NAMED) if NAMED else 'dist')
ARCHIVE, HEADERS = ('lib/libmantelorris.a', 'include') if UNPACKED and not NAMED else (DIST + '/libmantelorris.a', DIST)
FLAGS = ['-std=gnu11', '-O1', '-Wall', '-Wextra', '-Werror', '-I' + HEADERS, '-Iexamples']
WORK = os.path.realpath(tempfile.mkdtemp(prefix='mantelorris-power-'))
atexit.register(shutil.rmtree, WORK, True)
LIMIT = 460  # bytes of log, for hosts that make checkpoints
LARGEST = 14636 + LIMIT + 256 * 32  # a checkpoint, and a log that was just under the limit before a turn of 256 commands
GATE = 5
SECTOR = 512
PLACES = {'w': 'in a write', 's': 'between write and sync', 'a': 'after a sync'}
STORING = {'b': 'before what is stored is written', 't': 'in a write of it', 'y': 'before its sync', 'z': 'after its sync', 'n': 'before the rename', 'r': 'after it',
           'd': "before the folder's sync", 'e': 'after that'}
BEHIND = {'h': "between a checkpoint and its tail's head"}
FAILING = 'SBYND'  # calls that fail, by their letters above
passed, failed = 0, 0


def count(what, good):
    global passed, failed
    passed, failed = passed + bool(good), failed + (not good)
    print('%s: %s' % ('ok' if good else 'FAILED', what))


def told(what, wrong):
    count(what + (': ' + wrong if wrong else ''), not wrong)


def build(sources, name, more=()):
    """a program of the examples"""
    out = os.path.join(WORK, name)
    subprocess.run(['cc', *FLAGS, *more, *sources, ARCHIVE, '-o', out], check=True)
    return out


def changed(name, old, new, more=(), sources=HOST):
    """the host with a line or two changed, moved or left out, each where it stands, in host.c or in its card's file"""
    texts = [open(path, encoding='utf-8').read() for path in sources]
    for a, b in zip(old, new):
        if sum(text.count(a) for text in texts) != 1:
            sys.exit('power.py: the change %s does not fit %s: %s' % (name, ' and '.join(sources), a))
        texts = [text.replace(a, b) for text in texts]
    paths = [os.path.join(WORK, name + '_' + os.path.basename(path)) for path in sources]
    for path, text in zip(paths, texts):
        open(path, 'w', encoding='utf-8').write(text)
    return build(paths, name, ['-Wno-unused-function', '-Wno-unused-parameter', '-Wno-unused-variable', *more])


class Host:
    """how a host is called: the example's program, or a maker's own commands"""

    def __init__(self, program=None, serve='', found=''):
        self.serve_words = shlex.split(serve) if serve else [program, '{card}', '{port}']
        self.found_words = shlex.split(found) if serve else [program, '--found', '{card}']
        self.program = program

    def serve(self, card, port, size):
        return [w.replace('{card}', card).replace('{port}', str(port)) for w in self.serve_words] + ([str(size)] if size else [])

    def found(self, card):
        return [w.replace('{card}', card) for w in self.found_words]


class Card:
    """a folder of its own with the card's file, the one that may come back in its place (.old) and those that were to be the next; beside it what each has for
    certain, by inode: the hook's notes"""
    env = {}

    def __init__(self, name):
        folder = os.path.join(WORK, name + '.card')
        os.mkdir(folder)
        self.path, self.old, self.notes = os.path.join(folder, 'card'), os.path.join(folder, 'card.old'), folder + '.notes'
        open(self.notes, 'wb').close()

    def lines(self):
        return [line.split() for line in open(self.notes).read().split('\n') if line]

    def places(self):
        return ''.join(line[0] for line in self.lines() if len(line) == 1)

    def failed_since(self, places):
        """whether a call has failed since the places were these"""
        return any(letter.isupper() for letter in self.places()[len(places):])

    def aim(self, rng, places):
        """every other time the place that was struck least"""
        return min(places, key=self.places().count) if rng.randrange(2) else '-'

    def certain(self):
        """by inode: the length that was synced; once a sync of a file has failed, later ones of it prove nothing"""
        sure, lost = {}, set()
        for inode, length, *cut in (line for line in self.lines() if len(line) > 1):
            if length == 'lost':
                lost.add(inode)
            elif length == '0' or cut:
                lost.discard(inode)
            if inode not in lost:
                sure[int(inode)] = int(length)
        return sure

    def syncs(self):
        return sum(len(line) == 2 and line[1] != '0' for line in self.lines())

    def settle(self):
        """all is certain, by what else goes on in the machine"""
        if os.path.exists(self.old):
            os.unlink(self.old)
        about = os.stat(self.path)
        open(self.notes, 'a').write('%d %d cut\n' % (about.st_ino, about.st_size))

    def cut(self, rng):
        """a power cut; one in four is the end of the process alone, and all is still in the cache"""
        if rng.randrange(4) == 0:
            return
        if os.path.exists(self.old):  # a rename that is not certain
            os.unlink(self.old) if rng.randrange(2) or os.path.samefile(self.old, self.path) else os.replace(self.old, self.path)
        sure = self.certain()
        for path in glob.glob(self.path + '*'):
            about = os.stat(path)
            left = rng.randint(min(sure.get(about.st_ino, 0), about.st_size), about.st_size)
            os.truncate(path, left)
            open(self.notes, 'a').write('%d %d cut\n' % (about.st_ino, left))


class Sectors(Card):
    """a card of raw sectors, at first with bytes of an earlier life; beside it what each sector had before it was written, since the last sync"""

    def __init__(self, name):
        super().__init__(name)
        self.before, self.seen = self.notes + '.sectors', dict.fromkeys(('lost', 'kept', 'torn', 'garbled'), 0)
        self.env = {'POWER_SECTORS': self.before}
        open(self.before, 'wb').close()
        with open(self.notes + '.begin', 'wb') as card:
            card.write(random.Random(SEED).randbytes(40 * SECTOR))
            card.truncate(16 << 20)
        os.rename(self.notes + '.begin', self.path)

    def settle(self):
        open(self.before, 'wb').close()

    def after(self, rng, versions):
        """what a sector has after the cut, of what was written to it one after the other"""
        how = rng.choice(list(self.seen))
        self.seen[how] += 1
        if how == 'torn':
            k, (first, rest) = rng.randrange(SECTOR), rng.choices(versions, k=2)
            return first[:k] + rest[k:]
        return {'lost': versions[0], 'kept': rng.choice(versions[1:]), 'garbled': rng.randbytes(SECTOR)}[how]

    def cut(self, rng):
        """a power cut; one in four is the end of the process alone"""
        if rng.randrange(4) == 0:
            return
        entries, versions = open(self.before, 'rb').read(), {}
        for at in range(0, len(entries), 8 + SECTOR):
            versions.setdefault(struct.unpack_from('<Q', entries, at)[0], []).append(entries[at + 8:at + 8 + SECTOR])
        versions.pop((1 << 64) - 1, None)
        with open(self.path, 'r+b') as card:
            for sector in sorted(versions):
                card.seek(sector * SECTOR)
                versions[sector].append(card.read(SECTOR))
                card.seek(sector * SECTOR)
                card.write(self.after(rng, versions[sector]))
        open(self.before, 'wb').close()


def hooked(words, card, hook, seed, chance, aim):
    env = dict(os.environ, **card.env, LD_PRELOAD=hook, POWER_CARD=card.path, POWER_FILE=card.notes, POWER_SEED=str(seed), POWER_CHANCE=str(chance), POWER_AIM=aim)
    return subprocess.Popen(words, env=env, stdout=subprocess.DEVNULL, stderr=subprocess.PIPE, cwd=FROM)


def founded(host, card, hook, seed, rng, places, chance):
    """the founding, cut off too, or a call of it fails, until it ends by itself: it is done, or it was and is refused. Then nobody has said that it is certain: were it
    taken back, nothing would be lost, and it would be done again. That is not tried here: it is made certain"""
    for i in range(100):
        before = card.places()
        founder = hooked(host.found(card.path), card, hook, seed + 500000 + i, 20 if chance else 0, card.aim(rng, places))
        founder.communicate()
        if founder.returncode != -signal.SIGKILL and not card.failed_since(before):
            if founder.returncode:
                card.settle()
            return
        card.cut(rng)


def parties(tools, port, seed, commands):
    relay = subprocess.Popen([tools['relay'], str(port), str(port + 1), '15', '15', '15', str(seed)], stdout=subprocess.PIPE, text=True)
    desk = subprocess.Popen([tools['desk'], str(port), str(commands)], stdout=subprocess.PIPE, stderr=subprocess.PIPE, text=True)
    return relay, desk


def left_alone(server, desk, until):
    """whether it ran to the end of its time or to the desk's; it is killed then"""
    while server.poll() is None and desk.poll() is None and time.time() < until:
        time.sleep(0.002)
    alive = server.poll() is None
    if alive:
        server.kill()
    server.wait()
    return alive


def read_gate(port, seconds=20):
    """the gate's value, asked for over the line by a client of a high number; None: no answer"""
    until = time.time() + seconds
    with socket.socket(socket.AF_INET, socket.SOCK_DGRAM) as line:
        line.settimeout(0.1)
        while time.time() < until:
            line.sendto(struct.pack('<BBBBIIIIi', 1, 0, GATE, 0, 0xFFFFFFF0, 1, 1, 0xFFFFFFFF, 0), ('127.0.0.1', port))
            try:
                packet = line.recv(64)
            except OSError:
                continue
            if len(packet) == 20 and packet[0] == 7:
                return struct.unpack_from('<i', packet, 12)[0]
    return None


def gate_at(host, card, port, hook, commands, size):
    """the host starts once more, and is asked"""
    server = hooked(host.serve(card.path, port, size), card, hook, 1, 0, '-')
    value = read_gate(port)
    server.kill()
    said = server.communicate()[1].decode().strip()
    return '' if value == commands else 'the gate is at %s, not at %d: %s' % (value, commands, said)


def gave_up(server, card, before):
    """what a host said that ended by itself, '' where a call on the card had failed: then it has to"""
    said = server.stderr.read().decode().strip()
    return '' if server.returncode and card.failed_since(before) else 'the host gave up: ' + (said or 'exit %d' % server.returncode)


def session(host, tools, name, port, seed, kills, commands, limit, chance=60, size=0, kind=Card, aims=()):
    """desk, relay and a host that is killed again and again, with a limit of `size` bytes for its log; returns what went wrong or '', and what was seen"""
    host = Host(host) if isinstance(host, str) else host
    rng, card = random.Random(seed), kind(name)
    places = aims or ([*PLACES, 'S'] if kind is Sectors else [*PLACES, *STORING, *(BEHIND if size else ''), *FAILING])
    founded(host, card, tools['hook'], seed, rng, places, chance if kills else 0)
    relay, desk = parties(tools, port, seed, commands)
    began, starts, ended, outside, largest, wrong, errors = time.time(), 0, 0, 0, 0, '', ''
    while desk.poll() is None and not wrong:
        quiet, before = starts - ended >= kills, card.places()
        server = hooked(host.serve(card.path, port + 1, size), card, tools['hook'], seed + starts, 0 if quiet else chance, card.aim(rng, places))
        starts += 1
        outside += left_alone(server, desk, time.time() + (limit if quiet else rng.uniform(0.004, 0.08)))
        if os.path.exists(card.path):
            largest = max(largest, os.path.getsize(card.path))
        if server.returncode != -signal.SIGKILL:
            wrong, ended = gave_up(server, card, before), ended + 1
        elif time.time() - began > limit:
            wrong = 'not done after %d s' % limit
        else:
            errors += server.stderr.read().decode()
        server.stderr.close()
        if desk.poll() is None and (server.returncode == -signal.SIGKILL or rng.randrange(4) == 0):
            card.cut(rng)  # where the host has ended by itself, the power is mostly still there
    if desk.poll() is None:
        desk.kill()
    said, complaint = desk.communicate()
    relay.terminate()
    lines = relay.communicate()[0].strip()
    if not wrong and desk.returncode != 0:
        wrong = 'the desk: ' + complaint.strip().split('\n')[-1]
    wrong = wrong or gate_at(host, card, port + 1, tools['hook'], commands, size)
    return wrong, {'starts': starts, 'ended': ended, 'outside': outside, 'places': card.places(), 'desk': said.strip(), 'line': lines, 'card': card,
                   'largest': largest, 'errors': errors, 'seconds': time.time() - began}


def reported(wrong, seen, places):
    """prints what a session did; whether it had its kills, and each of these places was struck"""
    kinds = {text: seen['places'].count(letter) for letter, text in places.items()}
    print('%d starts, killed: %d at any moment, %s; %.1f s'
          % (seen['starts'], seen['outside'], ', '.join('%d %s' % (n, text) for text, n in kinds.items()), seen['seconds']))
    print(seen['line'])
    print(seen['desk'] or wrong)
    return seen['starts'] - seen['ended'] > KILLS and min(kinds.values(), default=0) > 0


def parts(card):
    """a card's checkpoint, empty if there is none, and its log"""
    if card[:4] != b'WLG3':
        return b'', card
    length = sum(struct.unpack_from('<II', card, 36))
    return card[:length], card[length:]


def whole_records(checkpoint, log):
    """ends of whole records and the gate's value after each, read by the layouts of docs/FORMATS.md"""
    value = struct.unpack_from('<i', checkpoint, 1068 + 16 * GATE + 4)[0] if checkpoint else 0
    at, ends = 8, [(8, value)]
    while at < len(log):
        size = {6: 32, 2: 12, 3: 8, 5: 8}.get(log[at], len(log))
        if at + size > len(log):
            break
        if log[at] == 6:
            value = struct.unpack_from('<i', log, at + 20)[0]
        at += size
        ends.append((at, value))
    return ends


def ran(starter, name, card):
    """a start from a card of these bytes, beside the rest of a checkpoint that was not stored, and the card after it"""
    path = os.path.join(WORK, name)
    open(path, 'wb').write(card)
    open(path + '.new', 'wb').write(b'WLG3')
    done = subprocess.run([starter, path, '0'], capture_output=True, text=True)
    return done, open(path, 'rb').read() + (b'.new was left' if os.path.exists(path + '.new') else b'')


def seen_on(card):
    """what a host says of a card of server 0"""
    checkpoint, log = parts(card)
    length, value = whole_records(checkpoint, log)[-1]
    return 'server 0, %slog %d bytes, point %d: value %d,' % ('checkpoint %d bytes, ' % len(checkpoint) if checkpoint else '', length, GATE, value)


def cuts(starter, card, records):
    """the card cut at every byte from so many records before its end; all of the log if that is more"""
    checkpoint, log = parts(card)
    ends = whole_records(checkpoint, log)
    first = ends[-min(records, len(ends))][0]
    for k in range(first, len(log) + 1):
        length = [e[0] for e in ends if e[0] <= k][-1]
        done, after = ran(starter, 'cut', checkpoint + log[:k])
        want = seen_on(checkpoint + log[:k])
        if done.returncode or not done.stdout.startswith(want) or after != checkpoint + log[:length]:
            return 'cut at %d: %s%s, card of %d bytes, and %s is due' % (k, done.stdout, done.stderr, len(after), want), k - first
    return '', len(log) + 1 - first


def refused(starter, cards):
    """each card, with what the host has to say of it; the card stays as it was"""
    for what, card, want in cards:
        done, after = ran(starter, 'refused', card)
        if done.returncode != 1 or want not in done.stderr or after != card:
            return '%s: exit %d, %s%s, and %s is due%s' % (what, done.returncode, done.stdout, done.stderr, want, '' if after == card else '; the card has changed')
    return ''


def with_byte(card, at, byte):
    return 'byte %d' % at, card[:at] + bytes([byte]) + card[at + 1:]


def damaged_logs(log):
    """a bad kind, and an op that there is not"""
    return [(*with_byte(log, 8, 9), 'log: bad log: the card is damaged'), (*with_byte(log, 9, 9), 'recover: bad log: whole records up to byte %d,' % len(log))]


def damaged_checkpoints(card):
    """damage in each part of checkpoint and tail, and cuts; the heard time may be any, and so may much else"""
    checkpoint, log = parts(card)
    n = len(checkpoint)
    clients, records = struct.unpack_from('<I', card, 28)[0], struct.unpack_from('<I', card, 36)[0]
    in_checkpoint = [(4, 16), (5, 1), (6, 1), (7, 1), *[(at, 99) for at in range(12, 44)], (44 + 13, 1), (44 + 12, 16), (1068, 4), (1068 + 1, 3), (1068 + 3, 1),
                     (1068 + 16 * GATE + 7, 99), (1068 + 8, 1), (clients + 4, 0), (records, 99), (records + 16, 9), (records + 18, 3), (records + 19, 64)]
    cards = [(*with_byte(card, at, byte), 'checkpoint: bad log: the card is damaged') for at, byte in in_checkpoint]
    cards += [(*with_byte(card, at, 0xFF), 'log: bad log: the card is damaged, or it is no log') for at in range(4)]
    cards += [(*with_byte(card, n + at, 9), 'tail: bad log: the card is damaged behind its checkpoint') for at in (0, 5, 8)]
    cards += [(*with_byte(card, n + 4, 1), 'recover: bad log: whole records'), (*with_byte(card, n + 9, 9), 'recover: bad log: whole records up to byte %d,' % len(log))]
    cards += [('cut at %d' % k, card[:k], 'checkpoint: bad log: the card is damaged, or its end is missing') for k in [*range(4, 48), *range(48, n, 97), *range(n - 24, n + 8)]]
    return cards


def files(folder):
    return {name: open(os.path.join(folder, name), 'rb').read() for name in os.listdir(folder)}


def by_a_reader(words):
    """run by a user who may read and not write, where there is one and our folder is open to him"""
    try:
        return subprocess.run(words, capture_output=True, text=True, user=65534 if os.geteuid() == 0 else None)
    except PermissionError:
        return subprocess.run(words, capture_output=True, text=True)


def looked_at(host, cards):
    """what the host prints of each card, with its exit status, in a folder where it may read and not write; None: there is no card"""
    os.chmod(WORK, 0o711)
    for what, card, status, want in cards:
        folder = tempfile.mkdtemp(dir=WORK)
        for name, text in (('card', card), ('card.new', b'WLG3')):
            if text is not None:
                open(os.path.join(folder, name), 'wb').write(text)
                os.chmod(os.path.join(folder, name), 0o444)
        os.chmod(folder, 0o555)
        before = files(folder)
        done = by_a_reader([host, os.path.join(folder, 'card')])
        os.chmod(folder, 0o755)
        if done.returncode != status or want not in done.stdout + done.stderr or files(folder) != before:
            return '%s: exit %d, %s%s, and %s is due%s' % (what, done.returncode, done.stdout, done.stderr, want, '' if files(folder) == before else '; something has changed')
    return ''


def looking(host, raw, tools, port, log, card):
    torn = log[:-1], card[:-1]
    cards = [('no card', None, 1, 'No such file'), ('an empty card', b'', 0, '0 bytes: no server was founded'), ('a part of a head', log[:7], 0, '7 bytes: no server was founded'),
             *[('a card', c, 0, seen_on(c)) for c in (log, card)], *[('a torn card', c, 0, seen_on(c)) for c in torn], ('a damaged card', with_byte(log, 8, 9)[1], 1, 'log: bad log')]
    told('%d cards are printed and left as they were, by one who may only read them' % len(cards), looked_at(host, cards))
    count('a host that opens its card to print it is found', looked_at(changed('opens', ['        card_look(&card, argv[1]);\n'], ['        card_open(&card, argv[1], 0);\n']), cards[1:]))
    for name, program, kind in (('served', host, Card), ('served_raw', raw, Sectors)):
        printed_beside(name, program, kind, tools, port)


def printed_beside(name, host, kind, tools, port):
    path, said, ended = os.path.join(WORK, name + '.card', 'card'), [], threading.Event()

    def again():
        while not ended.is_set():
            if os.path.exists(path):
                said.append(subprocess.run([host, path], capture_output=True, text=True))

    thread = threading.Thread(target=again)
    thread.start()
    wrong, seen = session(host, tools, name, port, SEED, 0, 300, 30, size=LIMIT, kind=kind)
    ended.set()
    thread.join()
    bad = [done.stderr for done in said if done.returncode]
    told('%s: a card is printed %d times while a host serves from it' % (name, len(said)), wrong or ''.join(bad[:1]) or ('' if len(said) > 9 else 'too seldom'))


def swapped(starts, log, card):
    """cards of server 0, without and with a checkpoint, in cabinet 1"""
    one = changed('cabinet_1', *starts, ['-DSERVER=1'])
    want = 'card: of server 0, and this is server 1'
    told("another server's card is refused, and left as it was", refused(one, [('a log', log, want), ('a checkpoint and its tail', card, want)]))
    own = os.path.join(WORK, 'own_1')
    done = subprocess.run([one, '--found', own], capture_output=True, text=True)
    again = subprocess.run([one, own, '0'], capture_output=True, text=True)
    count('it founds and takes its own', open(own, 'rb').read()[:5] == b'WLG1\1' and done.stdout == again.stdout and done.stdout.startswith('server 1, log 8 bytes,'))
    blind = changed('cabinet_1_blind', [*starts[0], '    own_card();\n'], [*starts[1], ''], ['-DSERVER=1'])
    taken = [ran(blind, 'taken', c)[0] for c in (log, card)]
    count('a host that does not compare the numbers takes both, as server 0', all(done.returncode == 0 and done.stdout.startswith('server 0, ') for done in taken))
    wider = (['-1000000, 1000000, 0, 0);'], ['-1000000, 2000000, 0, 0);'])
    other = changed('other_plan', starts[0] + wider[0], starts[1] + wider[1])
    told("a checkpoint of another plan is refused, and left as it was", refused(other, [('a checkpoint and its tail', card, "card: its plan is not this program's")]))
    blind = changed('other_plan_blind', [*starts[0], *wider[0], '    own_card();\n'], [*starts[1], *wider[1], ''])
    count('a host that does not compare the plans takes it, with the plan that it has', ran(blind, 'taken', card)[0].returncode == 0)


def foundings(host, starter, raw, log, card):
    """only the word founds, and only where there is nothing; a missing card is not made"""
    missing, empty = os.path.join(WORK, 'missing'), os.path.join(WORK, 'empty')
    done = subprocess.run([starter, missing, '0'], capture_output=True, text=True)
    told('a name without a card founds nothing', '' if done.returncode == 1 and 'No such file' in done.stderr and not os.path.exists(missing) else done.stdout + done.stderr)
    told('nor does an empty card, or one with a part of a head', refused(starter, [('%d bytes' % k, log[:k], 'card: no server was founded on it') for k in range(8)]))
    wrong = ''
    for text, status in [(log[:k], 0) for k in range(8)] + [(log, 1), (card, 1), (bytes(8), 1)]:
        open(empty, 'wb').write(text)
        done = subprocess.run([host, '--found', empty], capture_output=True, text=True)
        if done.returncode != status or open(empty, 'rb').read() != (text if status else log[:8]):
            wrong = '%d bytes: exit %d, %s%s' % (len(text), done.returncode, done.stdout, done.stderr)
    told('--found founds on such a card, and on no other', wrong)
    for text in (log, card):
        open(empty, 'wb').write(text)
        done = subprocess.run([raw, '--found', empty], capture_output=True, text=True)
        count("nor, on raw sectors, on a file's card: " + done.stderr.strip(), done.returncode == 1 and open(empty, 'rb').read() == text)
    open(empty, 'wb').write(log)
    done = subprocess.run([starter, empty, '0', '8'], capture_output=True, text=True)
    count('a log over the limit becomes a checkpoint at the start', 'checkpoint' in done.stdout and open(empty, 'rb').read()[:4] == b'WLG3')


def beside(name, host, kind, port, programs):
    """a host serves, and has stored a checkpoint after a command: what each of these says then, with the card's path for {card}"""
    card = kind(name + '_in_use')
    subprocess.run([host, '--found', card.path], stdout=subprocess.DEVNULL, check=True)
    server = subprocess.Popen([host, card.path, str(port), '8'])
    read_gate(port)
    until = time.time() + 20
    while time.time() < until and 'checkpoint' not in subprocess.run([host, card.path], capture_output=True, text=True).stdout:
        time.sleep(0.01)
    said = [subprocess.run([w.replace('{card}', card.path) for w in words], capture_output=True, text=True) for words in programs]
    server.kill()
    server.wait()
    return [(done.returncode, done.stdout + done.stderr) for done in said]


def in_use(hosts, port):
    """a second program gets a card neither to start from it nor to found on it"""
    for name, (host, second, unlocked, dropped, kind) in hosts.items():
        *both, (found, _) = beside(name, host, kind, port, [[second, '{card}', '0'], [host, '--found', '{card}'], [unlocked, '{card}', '0']])
        told('%s: a card in use is not given to a second program' % name, ''.join(text for status, text in both if status != 1 or 'another program has' not in text))
        count('%s: a host that does not lock it is found' % name, found == 0)
        if dropped:
            count('%s: so is one that drops its lock with a checkpoint' % name, beside(name + '_dropped', dropped, kind, port, [[second, '{card}', '0']])[0][0] == 0)


def driven(driver, log, card):
    """after a start, by value, status and quality: the cards of a session, one that was just founded, and one of each quality"""
    each = [b'WLG1' + bytes(4) + struct.pack('<4B3I2iB3xI', 6, 3, GATE, 0, 1, 1, 1, 70, 70, quality, 0) for quality in range(3)]
    said = [ran(driver, 'driven', c)[0].stdout for c in (log, card, b'WLG1' + bytes(4), *each)]
    values = [whole_records(*parts(c))[-1][1] for c in (log, card)]
    due = ['gate to %d; ' % v for v in values] + ['', 'gate to 70; ', '', 'gate to 70; ']
    count('the gate is driven after a start, where its value is not invalid', [text.split('server')[0] for text in said] == due)
    count('and its quality is told by name', [text.split(', ')[-1] for text in said] == [q + '\n' for q in ('by hand', 'by hand', 'invalid', 'valid', 'invalid', 'by hand')])
    one = changed('driver_1', *DRIVES, ['-DSERVER=1'])
    count('and not where the point is not held', ran(one, 'driven_1', b'WLG1\1' + bytes(3))[0].stdout.startswith('server 1, '))


def written_into(tools, port):
    host = changed('written_into', ['static void turn(void) {\n'], ['static void turn(void) {\n    static int turns;\n    if (++turns % 40 == 0) state[0] ^= 1;\n'])
    wrong, seen = session(host, tools, 'written_into', port, SEED, 0, 300, 30, size=LIMIT)
    times = seen['errors'].count('not sound')
    told('the state is written into: the host stops, recovers and goes on, %d times' % times, wrong or ('' if times > 3 else 'too seldom'))


def without_checkpoints(starter, wrong, seen):
    each = reported(wrong, seen, {**PLACES, **STORING})
    told('every command carried out once, whatever was cut off', wrong)
    count('%d kills or more, each place among them' % KILLS, each)
    if wrong:
        return b''
    log = open(seen['card'].path, 'rb').read()
    bad, tried = cuts(starter, log, 10)
    told('a card cut at each of %d bytes starts with its whole records' % tried, bad)
    log = log[:whole_records(b'', log)[-1][0]]
    told('a damaged card is refused, and left as it was', refused(starter, damaged_logs(log)))
    return log


def with_checkpoints(host, starter, tools, port, wrong, seen):
    each = reported(wrong, seen, {**PLACES, **STORING, **BEHIND})
    told('every command carried out once, with checkpoints made and cut off all the time', wrong)
    count('%d kills or more, each place of writing and of storing among them' % KILLS, each)
    count('the host ended by itself %d times, where a sync or a step of storing had failed, each of them among these' % seen['ended'], all(seen['places'].count(c) for c in FAILING))
    count('the card never has more than %d bytes: %d' % (LARGEST, seen['largest']), 0 < seen['largest'] <= LARGEST)
    wrong, seen = session(host, tools, 'tail', port, SEED, 0, 24, 30, size=LIMIT)
    card = open(seen['card'].path, 'rb').read()
    checkpoint, log = parts(card)
    ends = whole_records(checkpoint, log)
    told('a card with a checkpoint and %d records behind it' % (len(ends) - 1), wrong or ('' if checkpoint and len(ends) > 3 else 'no such card'))
    bad, tried = cuts(starter, card, 1000)
    told('it is cut at each of %d bytes behind its checkpoint, and starts with its whole records' % tried, bad)
    cards = damaged_checkpoints(card)
    told('it is damaged or cut at each of %d bytes: refused, and left as it was' % len(cards), refused(starter, cards))
    return card


def on_sectors(wrong, seen):
    each, fates = reported(wrong, seen, PLACES), seen['card'].seen
    print('sectors not certain at a cut: ' + ', '.join('%d %s' % (n, how) for how, n in fates.items()))
    told('raw sectors: every command carried out once', wrong)
    count('%d kills or more, each place among them, and each fate of a sector' % KILLS, each and min(fates.values()) > 9)
    count('the host ended by itself %d times, where a sync had failed' % seen['ended'], seen['ended'])


RENAME = '    if (rename(card->next_path, card->path)) fail("card: rename");\n'
NAME = '    if (fsync(card->folder)) fail("card: folder");\n'
SYNC, SYNCED = '    if (fdatasync(card->file)) fail("card: sync");\n', '    if (fdatasync(next)) fail("card: sync of what is stored");\n'
OPENED = '    if (next < 0 || flock(next, LOCK_EX | LOCK_NB)) fail(card->next_path);\n'
RECOVER = 'mantelorris_recover_checkpoint(state, sizeof state, checkpoint, card.base, log_space, kept)'
STORED, BEGUN = '    card_store(&card, checkpoint, mantelorris_written(a), head, sizeof head);\n', '    memcpy(log_space, head, sizeof head);\n'
CUT = '    card_store(&card, checkpoint, card.base, log_space, (size_t)mantelorris_length(state));\n'
MAKE = 'static void make_checkpoint(void) {\n'
# a host that ends where it would serve; one that says where its gate goes, too
STARTS = ['    serve(atoi(argv[2]));\n'], ['    print_state();\n']
DRIVES = [*STARTS[0], '    (void)value; /* yours: the actuator goes to this value */\n'], [*STARTS[1], '    printf("gate to %d; ", value);\n']
UNLOCKED = [*STARTS[0], '    if (flock(card->file, LOCK_EX | LOCK_NB)) fail("card: another program has it");\n'], [*STARTS[1], '']
# each with one in how many calls on the card is struck, and the log's limit
FAULTS = {
    'mark_before_write': (60, 0, ['    card_append(&card, log_space, mark, length);\n', '    waits = 0;\n    if (sound &&'],
                          ['', '    waits = 0;\n    card_append(&card, log_space, mark, length);\n    if (sound &&']),
    'card_not_cut': (6, 0, [CUT], ['']),
    'cut_in_place': (30, 0, [CUT, '#include <arpa/inet.h>\n'],
                     ['    if (ftruncate(card.file, (off_t)(card.base + mantelorris_length(state))) || fdatasync(card.file) || fsync(card.folder)) exit(1);\n',
                      '#include <arpa/inet.h>\n#include <unistd.h>\n']),
    'sync_tried_again': (30, 0, [SYNC], [SYNC.replace('fdatasync(card->file)', 'fdatasync(card->file) && fdatasync(card->file)')]),
    'switched_before_stored': (60, LIMIT, [RENAME, OPENED], ['', OPENED + RENAME]),
    'calls_before_stored': (60, LIMIT, [MAKE, STORED + BEGUN], ['static void turn(void);\n' + MAKE, BEGUN + '    if (line >= 0) turn();\n' + STORED]),
    'recover_on_a_tail': (60, LIMIT, [RECOVER], ['mantelorris_recover(state, sizeof state, log_space, kept, plan, sizeof plan)']),
    'head_not_stored': (60, LIMIT, [STORED], [STORED.replace('sizeof head', '0')]),
    'renamed_before_synced': (60, LIMIT, [SYNCED], ['']),
    'failed_rename_ignored': (60, LIMIT, [RENAME], ['    if (rename(card->next_path, card->path)) return;\n']),
    'name_not_synced': (60, LIMIT, [NAME], ['']),
}
# the place that shows it, where that is a rare one
AIMS = {'cut_in_place': 'S', 'sync_tried_again': 'S', 'raw_sync_tried_again': 'S', 'read_through_a_cache': 'sS', 'failed_rename_ignored': 'N'}
SLOT, SLOT_READ = '    mantelorris_put_number(super, IN_FORCE, card->slot);\n', '    card->slot = mantelorris_number_at(super, IN_FORCE);\n'
WORD = '    uint8_t word[SECTOR] = {(uint8_t)card->slot};\n    write_sectors(card->file, word, SECTOR, SUPER);\n    sync_card(card);\n'
WORD_READ = '    uint8_t word[SECTOR];\n    read_at(card->file, word, SECTOR, SUPER);\n    card->slot = 2 | (word[0] & 1);\n'
THROUGH = '    sync_card(card);\n    if (posix_fadvise(card->file, 0, 0, POSIX_FADV_DONTNEED)) stop("card: its cache cannot be emptied");\n'
SUPER, READ_SLOT = '    write_sectors(card->file, super, SUPER, card->sequence % 2 ? COPY : 0);\n', 'static size_t read_slot('
LENGTH = '    size_t length = mantelorris_number_at(super, LOG),'
LENGTH_GREATER = '    size_t length = greater(card, mantelorris_number_at(super, IN_FORCE)),'
# two words for each slot, written in turn, each with its complement
LENGTH_WORDS = """    uint8_t words[SECTOR] = {0};
    mantelorris_put_number(words, 0, (uint32_t)length);
    mantelorris_put_number(words, 4, ~(uint32_t)length);
    write_sectors(card->file, words, SECTOR, SUPER + (2 * (card->slot % 2) + card->sequence % 2) * SECTOR);
"""
GREATER = """static size_t greater(const struct card *card, uint32_t slot) {
    uint8_t words[2 * SECTOR];
    size_t most = 0;
    read_at(card->file, words, sizeof words, SUPER + 2 * (slot % 2) * SECTOR);
    for (int i = 0; i < 2; i++) {
        uint32_t length = mantelorris_number_at(words, (size_t)(i * SECTOR));
        if (mantelorris_number_at(words, (size_t)(i * SECTOR + 4)) == ~length && length > most) most = length;
    }
    return most;
}

"""
SHORT, LONG = 120, 1500  # limits: a checkpoint every few commands; a log of some sectors
RAW_FAULTS = {
    'last_sector_not_copied': (LIMIT, ['    read_at(card->file, log, length - last,', '    memcpy(log + length - last, super + LAST, last);\n'],
                               ['    read_at(card->file, log, length,', '']),
    'greater_length_wins': (SHORT, [SUPER, READ_SLOT, LENGTH], [LENGTH_WORDS + SUPER, GREATER + READ_SLOT, LENGTH_GREATER]),
    'slot_in_a_word_alone': (SHORT, [SLOT, SLOT_READ], [WORD, WORD_READ]),
    'one_copy': (SHORT, ['card->sequence % 2 ? COPY : 0'], ['0']),
    'no_checksum': (LIMIT, ['checksum(super, CHECK) == mantelorris_number_at(super, CHECK) && '], ['']),
    'superblock_before_log': (LONG, ['    sync_card(card);\n    write_super(card, log, %s);\n' % n for n in ('end', 'length')],
                              ['    write_super(card, log, %s);\n' % n for n in ('end', 'length')]),
    'read_through_a_cache': (SHORT, [THROUGH], ['']),
    'raw_sync_tried_again': (SHORT, [SYNC], [SYNC.replace('fdatasync(card->file)', 'fdatasync(card->file) && fdatasync(card->file)')]),
}


def planted(name, bad_host, tools, port, chance, size, kind):
    """whether it is found in four tries, and how; that it was slow is no finding"""
    found, tries = '', 0
    while not found and tries < 4:
        found, seen = session(bad_host, tools, name + str(tries), port, SEED + 1000 * tries, 1000, 3000, 20, chance, size, kind, AIMS.get(name, ()))
        found, tries = '' if found.startswith('not done') else found, tries + 1
    return 'the host with the fault %s is found%s' % (name, ' after %d starts, %.1f s: %s' % (seen['starts'], seen['seconds'], found) if found else ''), found


def all_planted(tools, port):
    """four at a time: they mostly wait"""
    jobs = [(name, changed(name, old, new), tools, port + 4 * i, chance, size, Card) for i, (name, (chance, size, old, new)) in enumerate(FAULTS.items())]
    jobs += [(name, changed(name, old, new, sources=RAW), tools, port + 80 + 4 * i, 30, size, Sectors) for i, (name, (size, old, new)) in enumerate(RAW_FAULTS.items())]
    with ThreadPoolExecutor(4) as pool:
        for result in [pool.submit(planted, *job) for job in jobs]:
            count(*result.result())


def own(words, tools, port):
    """a maker's host: one session, and what is asked of every host"""
    wrong, seen = session(Host(serve=words.serve, found=words.found), tools, 'own', port, SEED, KILLS, 14 * KILLS, words.seconds, kind=Sectors if words.sectors else Card)
    places = {letter: text for letter, text in {**PLACES, 'c': 'before a cut', **STORING, **BEHIND}.items() if letter in seen['places']}
    reported(wrong, seen, places)
    told('its syncs of the card are seen', '' if seen['card'].syncs() else 'it is linked statically, or calls others than fdatasync and fsync')
    killed = seen['starts'] - seen['ended'] - 1
    told('every command carried out once, with %d kills' % killed, wrong or ('' if killed >= KILLS else 'the desk was done too early'))


def own_hosts(hosts):
    """power.py as a maker calls it, from a folder of his: with the examples' programs, and with one that has a fault"""
    for name, (program, more, status) in hosts.items():
        words = [sys.executable, os.path.abspath('tests/c/power.py'), '--serve', './%s {card} {port} 400' % os.path.basename(program)]
        words += ['--found', program + ' --found {card}', *more]
        env = dict(os.environ, POWER_KILLS='25' if status == 0 else '1000', POWER_SEED=str(SEED), MANTELORRIS_DIST=DIST)
        done = subprocess.run(words, cwd=WORK, env=env, capture_output=True, text=True)
        told('a maker tries %s' % name, '' if done.returncode == status and ', %d failed' % status in done.stdout else done.stdout + done.stderr)


def example(tools, port):
    host, starter, raw = build(HOST, 'host'), changed('starter', *STARTS), build(RAW, 'raw')
    with ThreadPoolExecutor(3) as pool:
        sessions = [pool.submit(session, program, tools, name, port + 2 * i, SEED + i, KILLS, 14 * KILLS, 120, size=size, kind=kind) for i, (name, program, size, kind)
                    in enumerate([('card', host, 0, Card), ('checkpoints', host, LIMIT, Card), ('sectors', raw, LONG, Sectors)])]
    log = without_checkpoints(starter, *sessions[0].result())
    card = with_checkpoints(host, starter, tools, port + 8, *sessions[1].result())
    on_sectors(*sessions[2].result())
    if log and card:
        looking(host, raw, tools, port + 10, log, card)
        swapped(STARTS, log, card)
        foundings(host, starter, raw, log, card)
        driven(changed('driver', *DRIVES), log, card)
    in_use({'file': (host, starter, changed('unlocked', *UNLOCKED), changed('dropped', [OPENED], [OPENED.replace(' || flock(next, LOCK_EX | LOCK_NB)', '')]), Card),
            'raw': (raw, changed('raw_starter', *STARTS, sources=RAW), changed('raw_unlocked', *UNLOCKED, sources=RAW), None, Sectors)}, port + 12)
    written_into(tools, port + 14)
    all_planted(tools, port + 16)
    own_hosts({'a card in a file': (host, [], 0), 'raw sectors': (raw, ['--sectors'], 0), 'one with a fault': (os.path.join(WORK, 'mark_before_write'), [], 1)})


def made():
    """an archive and its headers: those that are named, those of an unpacked delivery, or made anew"""
    if NAMED or UNPACKED:
        for path in (ARCHIVE, HEADERS + '/mantelorris.h'):
            if not os.path.exists(path):
                sys.exit('power.py: there is no %s; MANTELORRIS_DIST names a folder with archive and headers' % path)
        return
    if not shutil.which('rt'):
        sys.exit("power.py: the kit's rt is not on the PATH, so the library cannot be made. Put it there, or name a folder that has archive and headers: MANTELORRIS_DIST=dist")
    if subprocess.run(['tools/lib.sh'], stdout=subprocess.DEVNULL).returncode:
        sys.exit('power.py: tools/lib.sh did not make the library')


def main():
    words = argparse.ArgumentParser(description=__doc__, formatter_class=argparse.RawDescriptionHelpFormatter)
    words.add_argument('--serve')
    words.add_argument('--found')
    words.add_argument('--sectors', action='store_true')
    words.add_argument('--seconds', type=int, default=300)
    words = words.parse_args()
    if bool(words.serve) != bool(words.found):
        sys.exit('power.py: --serve and --found belong together')
    print('seed %d' % SEED)
    made()
    tools = {n: build(['examples/%s.c' % n], n) for n in ('relay', 'desk')}
    tools['hook'] = build(['tests/c/power.c'], 'power.so', ['-shared', '-fPIC', '-ldl'])
    port = 20000 + SEED % 20000
    if words.serve:
        own(words, tools, port)
    else:
        example(tools, port)
    print('%d passed, %d failed' % (passed, failed))
    sys.exit(1 if failed else 0)


main()

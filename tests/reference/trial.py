#!/usr/bin/env python3
"""trial.py HOST RELAY: a desk and a lease manager by somebody who had docs/REFERENCE.md, docs/FORMATS.md and docs/GLOSSARY.md and nothing else. They talk to the example
host directly, through the lossy line, with ten kills, and both. The last line is 'N passed, M failed'. TRIAL_SEED sets the seed."""
import os, random, select, signal, socket, struct, subprocess, sys, tempfile, time

READ, SET, STEP, REPORT, FAULT, PART = range(6)
U32 = 0xFFFFFFFF


# ---- packets (FORMATS, R34 to R44)
def arg_ok(op, a):
    if op in (READ, FAULT):
        return a == 0
    if op == PART:
        return 0 <= a <= 1000
    return op in (SET, STEP, REPORT) and -2**31 <= a < 2**31


def request_bytes(op, point, client, call, done, lease, arg):
    return struct.pack('<BBBBIIIIi', 1, op, point, 0, client, call, done, lease, arg)


def notice_bytes(client, t):
    return struct.pack('<BBBBII', 5, 0, 0, 0, client, t)


def grant_bytes(client, end):
    return struct.pack('<BBBBII', 6, 0, 0, 0, client, end)


def parse(p):
    """The packet as a dict, or None where it is malformed. Only what a desk may receive."""
    if (len(p) == 20 and p[0] == 7) or (len(p) == 16 and p[0] == 2):
        _, out, pt, q, cl, ca, v = struct.unpack('<BBBBIIi', p[:16])
        at = struct.unpack('<I', p[16:])[0] if p[0] == 7 else 0
        if out <= 4 and pt <= 63 and q <= 2 and cl and ca:
            return dict(kind=7, outcome=out, point=pt, quality=q, client=cl, call=ca, value=v, time=at)
    elif len(p) == 12 and p[0] == 3:
        _, n, pt, z, cl, ca = struct.unpack('<BBBBII', p)
        if 3 <= n <= 9 and pt <= 63 and z == 0 and cl and ca:
            return dict(kind=3, number=n, point=pt, client=cl, call=ca)
    elif len(p) == 12 and p[0] == 6:
        _, a, b, c, cl, end = struct.unpack('<BBBBII', p)
        if a == b == c == 0 and cl:
            return dict(kind=6, client=cl, lease=end)
    return None


# ---- lease manager (R113 to R118)
class Manager:
    def __init__(self):
        self.time, self.last, self.leases = 0, 0, {}

    def _now(self, t):
        t = max(t, self.time)
        return t, {c: e for c, e in self.leases.items() if e > t}

    def open(self, t, span):
        if not 1 <= span <= 86400:
            return 1, None
        now, run = self._now(t)
        if len(run) >= 32:
            return 18, None
        if self.last == U32 or now + span > U32:
            return 16, None
        self.time, self.last = now, self.last + 1
        run[self.last] = now + span
        self.leases = run
        return 0, grant_bytes(self.last, now + span)

    def renew(self, client, t, span):
        if not 1 <= span <= 86400:
            return 1, None
        now, run = self._now(t)
        if client not in run:
            return 17, None
        if now + span > U32:
            return 16, None
        run[client] = max(run[client], now + span)
        self.time, self.leases = now, run
        return 0, grant_bytes(client, run[client])

    def query(self, client, t):
        if not 1 <= client <= self.last:
            return 17, None
        self.time, self.leases = self._now(t)
        if client in self.leases:
            return 0, grant_bytes(client, self.leases[client])
        return 0, notice_bytes(client, self.time)


# ---- client (R102 to R111)
class Client:
    def __init__(self):
        self.number, self.lease, self.next, self.calls = 0, 0, 1, {}

    def start(self, packet):
        p = parse(packet)
        self.__init__()
        if not p or p['kind'] != 6:
            return 1
        self.number, self.lease = p['client'], p['lease']
        return 0

    def first(self):
        return min(self.calls) if self.calls else self.next

    def _make(self, call):
        op, point, arg = self.calls[call]
        return request_bytes(op, point, self.number, call, self.first(), self.lease, arg)

    def issue(self, op, point, arg):
        if not 0 <= point <= 63 or not arg_ok(op, arg):
            return 1, 0, None
        if self.next >= self.first() + 16:
            return 15, 0, None
        if self.next == U32:
            return 16, 0, None
        call = self.next
        self.calls[call] = (op, point, arg)
        self.next += 1
        return 0, call, self._make(call)

    def resend(self, call):
        if call not in self.calls:
            return 17, None
        return 0, self._make(call)

    def receive(self, p):
        """a packet as parse gives it"""
        if not p:
            return 1, None
        if p['client'] != self.number:
            return 17, None
        if p['kind'] == 6:
            if p['lease'] < self.lease:
                return 17, None
            self.lease = p['lease']
            return 0, p
        if p['call'] not in self.calls or self.calls[p['call']][1] != p['point']:
            return 17, None
        if p['kind'] == 7:
            del self.calls[p['call']]
        return 0, p


# ---- the host's process

class Cabinet:
    def __init__(self, path, card, port):
        self.path, self.card, self.port, self.kills, self.proc = path, card, port, 0, None
        subprocess.run([path, '--found', card], stdout=subprocess.DEVNULL, check=True)
        self.up()

    def up(self):
        self.proc = subprocess.Popen([self.path, self.card, str(self.port)])

    def down(self):
        self.proc.send_signal(signal.SIGKILL)
        self.proc.wait()

    def kill(self):
        self.down()
        self.kills += 1
        self.up()


# ---- the desk

class Desk:
    def __init__(self, port):
        self.sock = socket.socket(socket.AF_INET, socket.SOCK_DGRAM)
        self.sock.bind(('127.0.0.1', 0))
        self.to, self.sent, self.log, self.tick = ('127.0.0.1', port), [], {}, 0

    def send(self, packet):
        self.sent.append(packet)
        self.sock.sendto(packet, self.to)

    def get(self, wait):
        ready, _, _ = select.select([self.sock], [], [], wait)
        return parse(self.sock.recvfrom(2048)[0]) if ready else None

    def issue(self, c, op, point, arg):
        refusal, call, packet = c.issue(op, point, arg)
        assert refusal == 0, refusal
        self.tick += 1
        self.log[c.number, call] = dict(issued=self.tick, op=op, got=0)
        self.send(packet)
        return call

    def take(self, c, m):
        """what a packet brings to an open call: a result, or a refusal after which the request is repeated"""
        refusal, m = c.receive(m)
        if refusal:
            return
        if m['kind'] == 7:
            self.tick += 1
            entry = self.log[c.number, m['call']]
            entry.update(done=self.tick, res=m, got=entry['got'] + 1)
        elif m['kind'] == 3:
            assert m['number'] in (7, 8, 9), m

    def run(self, c, todo, width, hook=lambda: None):
        """carries the commands of todo out, at most width open"""
        todo, due, end = list(todo), {}, time.time() + 60
        while todo or c.calls:
            assert time.time() < end, ('no progress', c.calls)
            while todo and len(c.calls) < width and c.next < c.first() + 16:
                due[self.issue(c, *todo.pop(0))] = time.time() + 0.03
            hook()
            m = self.get(0.005)
            if m:
                self.take(c, m)
            for call in list(c.calls):
                if time.time() >= due[call]:
                    self.send(c.resend(call)[1])
                    due[call] = time.time() + 0.03

    def ask(self, packet, ok, limit=30):
        """sends an old packet again until an answer for its id comes that ok takes"""
        client, call = struct.unpack('<II', packet[4:12])
        seen, end = [], time.time() + limit
        while time.time() < end:
            self.sock.sendto(packet, self.to)
            stop = time.time() + 0.05
            while time.time() < stop:
                m = self.get(0.05)
                if m and m['kind'] in (7, 3) and (m['client'], m['call']) == (client, call):
                    seen.append((m['kind'], m.get('number', m.get('value')), m.get('time')))
                    if ok(m):
                        return seen
        raise AssertionError(('no such answer', seen))


# ---- a trial

def free_port():
    with socket.socket(socket.AF_INET, socket.SOCK_DGRAM) as s:
        s.bind(('127.0.0.1', 0))
        return s.getsockname()[1]


def refused(number):
    return lambda m: m['kind'] == 3 and m['number'] == number


def check_steps(desk, number, low, high):
    """each step of a client has one result, by hand as the set before it; its values are low to high; a step completed before another was issued has the lower one"""
    steps = [e for (n, _), e in desk.log.items() if n == number and e['op'] == STEP]
    assert all((e['got'], e['res']['outcome'], e['res']['quality'], e['res']['point'], e['res']['time']) == (1, 0, 2, 5, 0) for e in steps)
    assert sorted(e['res']['value'] for e in steps) == list(range(low, high + 1))
    for a in steps:
        for b in steps:
            assert not a['done'] < b['issued'] or a['res']['value'] < b['res']['value'], (a, b)


def opened(manager, now, span):
    refusal, grant = manager.open(now, span)
    client = Client()
    assert refusal == 0 and client.start(grant) == 0
    return client


def steps(desk, manager, hook):
    """two clients step point 5 a hundred and fifty times; the first renews its lease on the way"""
    a = opened(manager, 1000, 600)
    desk.run(a, [(SET, 5, 0)], 1, hook)
    desk.run(a, [(STEP, 5, 1)] * 50, 4, hook)
    refusal, grant = manager.renew(a.number, 1100, 600)
    was = a.lease
    assert refusal == 0 and a.receive(parse(grant))[0] == 0 and a.lease > was
    desk.run(a, [(STEP, 5, 1)] * 50, 4, hook)
    check_steps(desk, a.number, 1, 100)
    b = opened(manager, 1100, 3600)
    desk.run(b, [(STEP, 5, 1)] * 50, 4, hook)
    check_steps(desk, b.number, 101, 150)
    return a, b


def late_repeats(desk, manager, a, b, cut, noticed):
    """the first client's lease ends: before the notice a finished call is under the floor and the last one answered as it was, after it both are refused;
    noticed says whether the card has the notice's record"""
    requests = [p for p in desk.sent if struct.unpack('<I', p[4:8])[0] == a.number]
    call = lambda n: [p for p in requests if struct.unpack('<I', p[8:12])[0] == n][-1]
    desk.ask(call(2), refused(5))
    value = desk.log[a.number, 101]['res']['value']
    assert all(x[1:] == (value, 0) for x in desk.ask(call(101), lambda m: m['kind'] == 7) if x[0] == 7)
    assert manager.query(a.number, 1100)[1][0] == 6
    refusal, notice = manager.query(a.number, a.lease)
    assert refusal == 0 and notice[0] == 5 and manager.renew(a.number, a.lease, 600) == (17, None)
    assert manager.query(b.number, a.lease)[1][0] == 6
    desk.send(notice)
    cut()
    # A notice has no answer, and a refusal may have left before the cut took the record that it rests on: the card tells.
    end = time.time() + 30
    while not noticed():
        assert time.time() < end, 'no gone record'
        desk.send(notice)
        time.sleep(0.02)
    desk.ask(call(101), refused(4))
    desk.ask(call(2), refused(4))
    for p in requests:
        desk.sock.sendto(p, desk.to)
        time.sleep(0.0005)


def trial(mode, seed, host, relay):
    rng, folder, port = random.Random(seed), tempfile.mkdtemp(prefix='mantelorris-trial-'), free_port()
    cabinet, line, to = Cabinet(host, folder + '/card', port), None, port
    if mode in ('line', 'both'):
        to = free_port()
        line = subprocess.Popen([relay, str(to), str(port), '20', '20', '20', str(seed)], stdout=subprocess.DEVNULL)
    time.sleep(0.1)
    desk, manager = Desk(to), Manager()
    kills = sorted(rng.sample(range(3, 148), 9)) if mode in ('kills', 'both') else []
    due = 10 if kills else 0

    def hook():
        if kills and sum(e['got'] for e in desk.log.values()) >= kills[0]:
            kills.pop(0)
            time.sleep(rng.random() * 0.004)
            cabinet.kill()

    try:
        a, b = steps(desk, manager, hook)
        # the head, each command once, one gone record
        size = lambda commands: 8 + commands * 32 + 12
        late_repeats(desk, manager, a, b, cabinet.kill if due else lambda: None, lambda: os.path.getsize(cabinet.card) == size(151))
        desk.run(b, [(READ, 5, 0)], 1)
        m = desk.log[b.number, b.next - 1]['res']
        assert (m['outcome'], m['quality'], m['value'], m['time']) == (0, 2, 150, a.lease), m
        assert cabinet.kills == due, cabinet.kills
        assert os.path.getsize(cabinet.card) == size(152)
    finally:
        if line:
            line.kill()
            line.wait()
        cabinet.down()
        os.remove(cabinet.card)
        os.rmdir(folder)


def main():
    seed = int(os.environ.get('TRIAL_SEED', '0')) or random.SystemRandom().randrange(1, 1 << 30)
    print('seed %d' % seed)
    passed, failed = 0, 0
    for mode in ('direct', 'line', 'kills', 'both'):
        began = time.time()
        try:
            trial(mode, seed, *sys.argv[1:3])
            passed += 1
            print('ok: %s, %.1f s' % (mode, time.time() - began))
        except AssertionError as e:
            failed += 1
            print('FAILED: %s: %s' % (mode, e))
    print('%d passed, %d failed' % (passed, failed))
    sys.exit(1 if failed else 0)


main()

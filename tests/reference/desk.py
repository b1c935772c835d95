#!/usr/bin/env python3
"""desk.py HOST PORT CARD: a desk and a lease manager as another maker would write them, by docs/REFERENCE.md and docs/FORMATS.md: no library, no header. They talk to the
example host (HOST, over UDP on 127.0.0.1:PORT, with the file CARD as its card), kill it and start it again, and read its card. Sections named are those of the reference.
The last line is 'N passed, M failed'."""
import os, random, signal, socket, struct, subprocess, sys, time
from fractions import Fraction

LOW, HIGH, FALLBACK = -1000000, 1000000, 0      # the plan of examples/host.c
READ, SET, STEP, REPORT, FAULT, PART = range(6)
VALID, INVALID, BY_HAND = range(3)
passed, failed = 0, 0


def count(what, is_, due):
    global passed, failed
    good = is_ == due
    passed, failed = passed + good, failed + (not good)
    if not good:
        print('FAILED: %s: %s, and %s is due' % (what, is_, due))


# ---- packets (FORMATS; Packets)

def request(op, point, client, call, done, lease, argument):
    return struct.pack('<BBBBIIIIi', 1, op, point, 0, client, call, done, lease, argument)


def notice(client, at):
    return struct.pack('<BBBBII', 5, 0, 0, 0, client, at)


def read_packet(b):
    """a result or a refusal packet as a tuple, None for anything else"""
    if (len(b), b[:1]) in ((20, b'\7'), (16, b'\2')):  # one of a server before 1.6 has no time: 0
        _, outcome, point, quality, client, call, value, at = struct.unpack('<BBBBIIiI', b if b[0] == 7 else b + bytes(4))
        return ('result', client, call, point, (outcome, value, quality, at)) if outcome <= 4 and quality <= BY_HAND and point <= 63 and client and call else None
    if len(b) == 12 and b[0] == 3:
        _, number, point, zero, client, call = struct.unpack('<BBBBII', b)
        return ('refusal', client, call, point, number) if 3 <= number <= 9 and point <= 63 and not zero and client and call else None
    return None


# ---- the rules (Commands): the result of a command on (value, quality)

def rule(op, a, was):
    value, quality = was
    if op == READ:
        return (0, value, quality)
    if op == SET or op == REPORT:
        if LOW <= a <= HIGH:
            return (0, a, BY_HAND if op == SET else VALID)
        return (1, value, quality) if op == SET else (3, FALLBACK, INVALID)
    if op == STEP:
        if quality == INVALID:
            return (2, value, quality)
        end = max(LOW, min(HIGH, value + a))
        return (0 if end == value + a else 4, end, quality)
    if op == FAULT:
        return (3, FALLBACK, INVALID)
    return (0, LOW + round(Fraction((HIGH - LOW) * a, 1000)), BY_HAND)  # round takes a half to the even number


# ---- a lease manager of this desk's own (The lease manager), as far as it is needed here

class Leases:
    def __init__(self):
        self.time, self.issued, self.ends = 0, 0, {}

    def open(self, now, span):
        self.time = max(self.time, now)
        self.issued += 1
        self.ends[self.issued] = self.time + span
        return self.issued, self.ends[self.issued]

    def ended(self, client, now):
        self.time = max(self.time, now)
        assert self.ends[client] <= self.time
        return notice(client, self.time)


# ---- a client (Clients)

class Client:
    def __init__(self, line, number, lease):
        self.line, self.number, self.lease, self.next, self.open = line, number, lease, 1, {}

    def first_open(self):
        return min(self.open, default=self.next)

    def issue(self, op, point, argument):
        if self.next - self.first_open() >= 16:
            return None
        call = self.next
        self.open[call] = (op, point, argument)
        self.next += 1
        return call

    def packet(self, call):
        op, point, argument = self.open[call]
        return request(op, point, self.number, call, self.first_open(), self.lease, argument)

    def receive(self, b):
        """what a packet brings: (call, result), or (call, None) for a refusal, which closes nothing"""
        p = read_packet(b)
        if not p or p[1] != self.number or p[2] not in self.open or self.open[p[2]][1] != p[3]:
            return None
        if p[0] == 'refusal':
            return p[2], None
        del self.open[p[2]]
        return p[2], p[4]

    def settle(self, rng=None, loss=0):
        """sends all open calls until each has its result; a part of what is sent and received is thrown away"""
        results, until = {}, time.time() + 20
        while self.open and time.time() < until:
            for call in list(self.open):
                if not rng or rng.random() >= loss:
                    self.line.send(self.packet(call))
            for b in self.line.heard(0.03):
                if not rng or rng.random() >= loss:
                    got = self.receive(b)
                    if got and got[1]:
                        results[got[0]] = got[1]
        return results


class Line:
    def __init__(self, port):
        self.socket = socket.socket(socket.AF_INET, socket.SOCK_DGRAM)
        self.socket.connect(('127.0.0.1', port))

    def send(self, b):
        try:
            self.socket.send(b)
        except OSError:
            pass  # nobody listens: lost

    def heard(self, wait):
        out, until = [], time.time() + wait
        while time.time() < until:
            self.socket.settimeout(max(0.001, until - time.time()))
            try:
                out.append(self.socket.recv(64))
            except OSError:
                continue
        return out

    def ask(self, b, tries=100):
        """the first answer to a packet that is sent again and again, 7 aside: its kind and what it brings; None if there is none"""
        for _ in range(tries):
            self.send(b)
            for r in self.heard(0.05):
                p = read_packet(r)
                if p and p[4] != 7:
                    return p[0], p[4]
        return None


class Host:
    def __init__(self, path, port, card):
        self.path, self.port, self.card, self.process = path, port, card, None
        subprocess.run([path, '--found', card], stdout=subprocess.DEVNULL, check=True)
        self.start()

    def start(self):
        self.process = subprocess.Popen([self.path, self.card, str(self.port)])
        time.sleep(0.1)

    def kill(self):
        self.process.send_signal(signal.SIGKILL)
        self.process.wait()


# ---- what the card says (FORMATS; The log): the log read and replayed

def read_log(log):
    """the executed records of a log as tuples, each with the time that was heard before it"""
    assert log[:4] == bytes.fromhex('574C4731') and log[4] <= 15 and log[5:8] == bytes(3)
    at, heard, out = 8, 0, []
    while at < len(log):
        size = {6: 32, 2: 12, 3: 8, 5: 8}[log[at]]
        if at + size > len(log):
            break
        if log[at] == 6:
            _, op, point, outcome, client, call, done, argument, value, quality, time = struct.unpack('<BBBBIIIiiB3xI', log[at:at + 32])
            out.append((client, call, op, point, argument, (outcome, value, quality, time), heard))
        if log[at] == 2:
            heard = max(heard, struct.unpack_from('<I', log, at + 8)[0])
        at += size
    return out


def commands(line, leases):
    """every op with arguments in and out of the range, one after the other; results by the rules"""
    client, at = Client(line, *leases.open(1, 600)), {}
    wanted = [(READ, 0), (STEP, 3), (SET, HIGH + 1), (SET, 40), (STEP, 20), (STEP, HIGH), (SET, HIGH + 1), (READ, 0), (REPORT, -7), (READ, 0), (SET, HIGH + 1), (STEP, 1), (STEP, LOW),
              (REPORT, LOW - 1), (STEP, 1), (PART, 0), (PART, 333), (PART, 1000), (STEP, 1), (STEP, -1), (REPORT, HIGH), (STEP, 1), (PART, 500), (FAULT, 0), (READ, 0), (SET, LOW), (STEP, -1)]
    for op, a in wanted:
        for point in (0, 5, 63):
            call = client.issue(op, point, a)
            due = rule(op, a, at.get(point, (FALLBACK, INVALID)))
            result = client.settle().get(call)
            at[point] = due[1:]
            count('op %d, argument %d' % (op, a), result, due + (0,))
    return client


def refusals(line, leases, client):
    """late, wrong and malformed requests"""
    old = request(SET, 0, client.number, 1, 1, client.lease, 5)
    count('a finished call, below the floor', line.ask(old), ('refusal', 5))
    call = client.issue(READ, 9, 0)
    packet = client.packet(call)
    client.settle()
    other = bytearray(packet)
    other[2] = 10
    count('an id with another point', line.ask(bytes(other)), ('refusal', 6))
    count('a repeat is answered, and again', [line.ask(packet) for _ in range(3)], [('result', (0, FALLBACK, INVALID, 0))] * 3)
    bad = [struct.pack('<BBBBIIiI', 7, 0, 9, 0, client.number, call, 0, 0), struct.pack('<BBBBIIi', 2, 0, 9, 0, client.number, call, 0), packet[:-1], packet + b'\0', b'\x07' + packet[1:], packet[:3] + b'\1' + packet[4:], request(6, 0, 9, 1, 1, 600, 0), request(READ, 64, 9, 1, 1, 600, 0),
           request(READ, 0, 0, 1, 1, 600, 0), request(READ, 0, 9, 17, 1, 600, 0), request(READ, 0, 9, 1, 2, 600, 0), request(PART, 0, 9, 1, 1, 600, 1001), request(FAULT, 0, 9, 1, 1, 600, 1)]
    count('malformed requests have no answer', [line.ask(b, 2) for b in bad], [None] * len(bad))
    late = client.packet(client.issue(STEP, 9, 1))
    line.send(leases.ended(client.number, 601))
    time.sleep(0.1)
    count('after the notice the lease is over', line.ask(late), ('refusal', 4))


def places(line, leases):
    """33 clients at a server with 32 places"""
    clients = [Client(line, *leases.open(601, 600)) for _ in range(33)]
    answers = []
    for c in clients:
        c.issue(READ, 1, 0)
        answers.append(line.ask(c.packet(1)))
    count('32 clients have a place', [p and p[0] for p in answers[:32]], ['result'] * 32)
    count('the next has none', answers[32], ('refusal', 8))
    line.send(leases.ended(clients[0].number, 1300))
    time.sleep(0.1)
    late = Client(line, *leases.open(1301, 600))
    late.issue(READ, 1, 0)
    packet = late.packet(1)
    count('a notice frees one', line.ask(packet), ('result', (0, FALLBACK, INVALID, 1300)))
    for c in clients[1:]:
        line.send(leases.ended(c.number, 1301))
        time.sleep(0.005)
    time.sleep(0.1)
    line.heard(0.05)
    count('a repeat has the time of its execution, whatever was heard since', line.ask(packet), ('result', (0, FALLBACK, INVALID, 1300)))


def steps_under_kills(line, leases, host, rng):
    """one desk steps a gate over a line that loses two in five packets, and the host is killed again and again: each step once"""
    client, results, killed = Client(line, *leases.open(1302, 600)), [], 0
    client.issue(SET, 30, 0)
    client.settle()
    for i in range(60):
        call = client.issue(STEP, 30, 1)
        if i % 6 == 5:
            line.send(client.packet(call))
            time.sleep(rng.uniform(0, 0.004))
            host.kill()
            killed += 1
            host.start()
        while client.next - client.first_open() >= 8 or (i == 59 and client.open):
            results += [r[1] for r in client.settle(rng, 0.4).values()]
    count('%d kills: 60 steps, each value once' % killed, sorted(results), list(range(1, 61)))


def card(path):
    """the card has each command once, and its results are those of the rules in the log's order"""
    ids, at, wrong = set(), {}, []
    for client, call, op, point, argument, result, heard in read_log(open(path, 'rb').read()):
        due = rule(op, argument, at.get(point, (FALLBACK, INVALID)))
        at[point] = result[1:3]
        if result != due + (heard,) or (client, call) in ids:
            wrong.append((client, call, result, due))
        ids.add((client, call))
    count('the log: every id once, every result by its rule, its time the one heard', wrong, [])
    count('the log: the gate at the sum of its steps', at[30], (60, BY_HAND))


def main():
    seed = int(os.environ.get('DESK_SEED', '0')) or random.SystemRandom().randrange(1, 1 << 30)
    print('seed %d' % seed)
    path, port, file = sys.argv[1], int(sys.argv[2]), sys.argv[3]
    host, line, leases = Host(path, port, file), Line(port), Leases()
    try:
        client = commands(line, leases)
        refusals(line, leases, client)
        places(line, leases)
        steps_under_kills(line, leases, host, random.Random(seed))
    finally:
        host.kill()
    card(file)
    print('%d passed, %d failed' % (passed, failed))
    sys.exit(1 if failed else 0)


main()

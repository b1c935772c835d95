#!/usr/bin/env python3
"""bench_peer.py [--rounds N] [--dir DIR] [--plot]: the same durable job on the kernel with a file as its card (bench/peer_kernel.c) and on SQLite
(bench/peer_sqlite.c), in alternating rounds; prints a table: the median of each figure with its range, and the median of the rounds' ratios. Both must give the same
results. DIR is where the files lie (target/peer). The job runs there, and once more in memory (/dev/shm), where a sync costs nothing. --plot draws docs/pictures/peer.svg.
MANTELORRIS_DIST names a folder with archive and headers; without it tools/lib.sh makes dist/. Needs sqlite3.h (libsqlite3-dev), and is skipped without it."""
import argparse, glob, os, re, statistics, subprocess, sys, tempfile

os.chdir(os.path.join(os.path.dirname(os.path.abspath(__file__)), '..'))
CC = os.environ.get('CC', 'cc')
SIDES, NAMES = ('kernel', 'sqlite'), {'kernel': 'kernel', 'sqlite': 'SQLite'}
ON_DISK, IN_MEMORY = 'file on disk', 'file in memory'
REPEATS = 51200
# batch and commands; a log space of 4 MiB holds 149,000
BATCHES = {ON_DISK: ((1, 512), (16, 8192), (256, 102400)), IN_MEMORY: ((1, 102400), (16, 102400), (256, 102400))}
REOPENED = (1024, 10240, 102400)  # commands, in batches of 256


def sqlite_version():
    """as sqlite3.h has it; nothing where there is no such header"""
    read = subprocess.run([CC, '-E', '-P', '-x', 'c', '-'], input='#include <sqlite3.h>\nSQLITE_VERSION\n', capture_output=True, text=True)
    return None if read.returncode else read.stdout.split()[-1].strip('"')


def build(work):
    dist = os.environ.get('MANTELORRIS_DIST')
    if not dist:
        if subprocess.run(['tools/lib.sh'], stdout=subprocess.DEVNULL).returncode:
            sys.exit('bench-peer: without the library there is nothing to measure')
        dist = 'dist'
    for side in SIDES:
        libraries = {'kernel': ['-L' + dist, '-lmantelorris'], 'sqlite': ['-lsqlite3']}[side]
        subprocess.run([CC, '-O2', '-std=gnu11', '-Wall', '-I' + dist, '-Iexamples', '-Ibench', 'bench/peer.c', 'bench/peer_%s.c' % side, *libraries,
                        '-o', os.path.join(work, side)], check=True)
    return dist


def figures(program, *arguments):
    ran = subprocess.run([program, *map(str, arguments)], capture_output=True, text=True)
    if ran.returncode:
        sys.exit('bench-peer: %s: %s' % (os.path.basename(program), ran.stderr.strip()))
    words = ran.stdout.split()
    return dict(zip(words[::2], map(int, words[1::2])))


def fresh(folder, side):
    path = os.path.join(folder, side + '.card')
    for old in glob.glob(path + '*'):
        os.remove(old)
    return path


class Figures:
    """every figure of every round, by what was measured and side"""

    def __init__(self):
        self.all = {}

    def add(self, what, side, value):
        self.all.setdefault(what, {s: [] for s in SIDES})[side].append(value)

    def median(self, what, side):
        return statistics.median(self.all[what][side])


def same(what, pair):
    if pair['kernel'] != pair['sqlite']:
        sys.exit('bench-peer: %s differ: %s' % (what, pair))


def batches(got, work, place, folder):
    for batch, n in BATCHES[place]:
        seen = {}
        for side in SIDES:
            path = fresh(folder, side)
            f = figures(os.path.join(work, side), path, batch, n, REPEATS)
            got.add(('commands', place, batch), side, n * 1e9 / f['commands_ns'])
            got.add(('repeats', place, batch), side, REPEATS * 1e9 / f['repeats_ns'])
            seen[side] = f['results'], f['repeated']
        same('results', seen)


def reopening(got, work, folder):
    for n in REOPENED:
        seen = {}
        for side in SIDES:
            path = fresh(folder, side)
            ran = figures(os.path.join(work, side), path, 256, n, 256)
            f = figures(os.path.join(work, side), path)
            got.add(('reopening', n), side, f['open_ns'] / 1e6)
            got.add(('memory', n), side, ran['memory'])
            got.add(('resident', n), side, ran['resident'] * 1024)
            got.add(('files', n), side, sum(os.path.getsize(p) for p in glob.glob(path + '*') if not p.endswith('-shm')))
            seen[side] = f['total']
        same('values', seen)


def measured(rounds, work, folder):
    got = Figures()
    for i in range(rounds):
        batches(got, work, ON_DISK, folder)
        reopening(got, work, folder)
        if os.path.isdir('/dev/shm'):
            with tempfile.TemporaryDirectory(dir='/dev/shm') as memory:
                batches(got, work, IN_MEMORY, memory)
        print('round %d of %d' % (i + 1, rounds), file=sys.stderr)
    for side in SIDES:
        fresh(folder, side)
    return got


def code_bytes(path):
    """text of an archive or shared library, read-only data included"""
    lines = subprocess.run(['size', path], check=True, capture_output=True, text=True).stdout.split('\n')[1:]
    return sum(int(line.split()[0]) for line in lines if line.strip())


def library(work):
    """the SQLite library that was linked"""
    linked = subprocess.run(['ldd', os.path.join(work, 'sqlite')], capture_output=True, text=True).stdout
    return re.search(r'libsqlite3\S* => (\S+)', linked).group(1)


def short(x):
    return '{:,.0f}'.format(float('%.3g' % x)) if x >= 100 else '%.3g' % x


def row(got, what, label):
    def cell(side):
        values = got.all[what][side]
        return short(statistics.median(values)) + (' (%s to %s)' % (short(min(values)), short(max(values))) if min(values) != max(values) else '')
    ratio = statistics.median(k / s for k, s in zip(*(got.all[what][side] for side in SIDES)))
    print('| %s | %s | %s | %.2g |' % (label, cell('kernel'), cell('sqlite'), ratio))


def table(got, sizes):
    print('| what | kernel | SQLite | kernel / SQLite |\n|---|---|---|---|')
    for kind, place, batch in [w for w in got.all if w[0] == 'commands'] + [w for w in got.all if w[0] == 'repeats' and w[1] == ON_DISK]:
        row(got, (kind, place, batch), '%s a second, batches of %d%s' % (kind, batch, ', ' + place if kind == 'commands' else ''))
    for kind, unit in (('reopening', 'ms'), ('files', 'bytes'), ('memory', 'bytes'), ('resident', 'bytes of the process')):
        for n in REOPENED if kind == 'reopening' else REOPENED[::2]:
            row(got, (kind, n), '%s after %s commands, %s' % (kind, '{:,}'.format(n), unit))
    print('| code, bytes | %s | %s | %.2g |' % ('{:,}'.format(sizes[0]), '{:,}'.format(sizes[1]), sizes[0] / sizes[1]))


def main():
    options = argparse.ArgumentParser()
    options.add_argument('--rounds', type=int, default=9)
    options.add_argument('--dir', default='target/peer')
    options.add_argument('--plot', action='store_true')
    chosen = options.parse_args()
    version = sqlite_version()
    if not version:
        print('bench-peer: skipped, sqlite3.h is not there (package libsqlite3-dev)')
        return
    os.makedirs(chosen.dir, exist_ok=True)
    with tempfile.TemporaryDirectory() as work:
        dist = build(work)
        print('SQLite %s; %d cores, load average before the run %.1f' % (version, os.cpu_count(), os.getloadavg()[0]))
        got = measured(chosen.rounds, work, chosen.dir)
        table(got, (code_bytes(os.path.join(dist, 'libmantelorris.a')), code_bytes(library(work))))
    if chosen.plot:
        sys.dont_write_bytecode = True
        import peer_picture
        peer_picture.draw(got, ON_DISK, IN_MEMORY)


if __name__ == '__main__':
    main()

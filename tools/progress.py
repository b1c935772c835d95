#!/usr/bin/env python3
"""progress.py rt check|lib|run [NAME..] [--target TRIPLE]: runs this rt command for these crates, each in its folder, or, with no names, `rt all check`; and shows each crate as it is done, behind its
number of how many. Crates that are unchanged since they were proved share a line. What the prover says is shown where something is not proved. Two runs of rt in one repository would disturb each other: a
second one waits. Exits as rt does.
progress.py ci, progress.py must-fail [NAME..]: a filter for what `rt ci` or `rt must-fail NAME..` prints: rt's own lines as they come, each crate and each must-fail edit behind its number.
progress.py --sum NAME: a sum of all that the crate is proved from: its own files, those of the crates it rests on, their lines of crates.txt, the kit."""
import fcntl, glob, hashlib, os, queue, re, subprocess, sys, threading, time

CRATE = re.compile(r'rt: (\S+) (?:proved$|NOT PROVED|is kept: )')
EDIT = re.compile(r'rt: must-fail ')
GOOD = re.compile(r'rt: (?:\S+ proved$|\S+ is kept: |\S+: its tests are proved$|\S+: its tests passed$|\S+ ran\b|must-fail \S+: refused|ok; )|\d+ passed, \d+ failed$')
BEGUN = re.compile(r'rt: chose --jobs \d+ for (\w+)$')
BLOCK = re.compile(r'== (\w+)$')
LISTED = re.compile(r'(\w+)((?: +[\w=+]+)*) *:(.*)')


def rows():
    """The crates of crates.txt: of each the words before its colon and the crates that it rests on."""
    crates = {}
    for line in open('crates.txt', encoding='utf-8'):
        m = LISTED.match(line.split('#')[0].strip())
        if m:
            crates[m[1]] = m[2].split(), m[3].split()
    return crates


def listed():
    """The crates of crates.txt, each with the crates that it rests on."""
    return {name: rests for name, (_, rests) in rows().items()}


def reached(names):
    crates = listed()
    todo, seen = list(names or crates), set()
    while todo:
        name = todo.pop()
        if name in crates and name not in seen:
            seen.add(name)
            todo += crates[name]
    return seen


def sum_of(name):
    every, seen = rows(), hashlib.sha256(subprocess.run(['rt', 'version'], check=True, stdout=subprocess.PIPE).stdout)
    for crate in sorted(reached([name])):
        seen.update(repr((crate, every[crate])).encode())
        for path in sorted(path for part in ('src', 'specs', 'proofs') for path in glob.glob('crates/%s/%s/**' % (crate, part), recursive=True)):
            if os.path.isfile(path):
                with open(path, 'rb') as it:
                    seen.update(repr((path, it.read())).encode())
    return seen.hexdigest()


class Progress:
    def __init__(self, command, names=()):
        crates = reached(names)
        tried = crates if command == 'ci' else names or crates if command == 'must-fail' else ()
        edits = sum(len(glob.glob('crates/%s/must-fail/*.edit' % c)) for c in tried)
        self.total, self.done = {CRATE: len(crates), EDIT: edits}, {CRATE: 0, EDIT: 0}
        self.command, self.skipped, self.unchanged, self.pending, self.crate = command, 0, 0, [], None
        self.began, self.live = time.time(), sys.stdout.isatty()

    def left(self):
        """the minutes left, a rough guess, in words; crates proved so far tell, and before there are some, ten seconds each"""
        proved, rest = self.done[CRATE] - self.skipped, self.total[CRATE] - self.done[CRATE]
        minutes = rest * (time.time() - self.began + 50) / (proved + 5) / 60
        return ', about %d min left' % round(minutes) if self.command not in ('ci', 'must-fail') and minutes >= 1 else ''

    def say(self, text):
        print(('\r\x1b[K' if self.live else '') + text, flush=True)

    def tick(self):
        if self.live:
            what = EDIT if self.done[EDIT] else CRATE
            print('\r\x1b[K   .. %d/%d %s, %d s%s' % (self.done[what], self.total[what], 'edits' if what is EDIT else 'crates', time.time() - self.began, self.left()), end='', flush=True)

    def flush_unchanged(self):
        if self.unchanged:
            self.say('%d/%d %d unchanged' % (self.done[CRATE], self.total[CRATE], self.unchanged))
        self.unchanged = 0

    def show(self):
        """what the prover said"""
        self.flush_unchanged()
        for line in self.pending:
            self.say(line)
        self.pending = []

    def line(self, text):
        (self.line_of_gate if self.command in ('ci', 'must-fail') else self.line_of_crate)(text)

    def line_of_gate(self, text):
        if not text.startswith('rt: ') and not GOOD.match(text):
            self.pending.append(text)
            return
        if not GOOD.match(text):
            self.show()
        self.pending, number = [], ''
        for what in (CRATE, EDIT):
            if what.match(text):
                self.done[what] += 1
                number = '%d/%d ' % (self.done[what], self.total[what])
        self.say(number + text)

    def line_of_crate(self, text):
        begun, block = BEGUN.match(text), BLOCK.match(text)
        if block and block[1] == 'summary':
            self.end()
            self.flush_unchanged()
            self.command = 'summary'
        if self.command == 'summary':
            if not re.match(r'== summary|\w+: ok$', text):
                self.say(text)
        elif block or begun and self.crate != begun[1]:
            self.end()
            self.crate, self.pending, self.since, self.is_block = (block or begun)[1], [], time.time(), bool(block)
        elif text.startswith('logic=proved') and self.crate:
            self.flush_unchanged()
            self.done[CRATE] += 1
            seconds = '' if self.is_block else ' (%d s)' % (time.time() - self.since)
            self.say('%d/%d %s proved%s%s' % (self.done[CRATE], self.total[CRATE], self.crate, seconds, self.left()))
            self.crate, self.pending = None, []
        else:
            self.pending.append(text)

    def end(self):
        """a crate's lines are over: with none, nothing of it was left to prove"""
        if self.crate and self.is_block and not self.pending:
            self.done[CRATE] += 1
            self.unchanged += 1
            self.skipped += 1
        elif self.crate:
            self.show()
            self.done[CRATE] += 1
            self.say('%d/%d %s NOT PROVED' % (self.done[CRATE], self.total[CRATE], self.crate))
        self.crate = None

    def finish(self, status):
        if self.command not in ('ci', 'must-fail', 'summary') and (self.crate or status):
            self.end()
        if status:
            self.show()
        elif self.command not in ('ci', 'must-fail', 'summary') and self.done[CRATE] < self.total[CRATE]:
            # a library that is built as it is now has no line
            self.unchanged, self.done[CRATE] = self.total[CRATE] - self.done[CRATE], self.total[CRATE]
        self.flush_unchanged()
        if self.live:
            print('\r\x1b[K', end='')


def follow(progress, stream):
    """shows the lines of a stream as they come"""
    lines = queue.Queue()

    def read():
        for line in stream:
            lines.put(line.rstrip('\n'))
        lines.put(None)

    threading.Thread(target=read, daemon=True).start()
    while True:
        try:
            line = lines.get(timeout=1)
        except queue.Empty:
            progress.tick()
            continue
        if line is None:
            return
        progress.line(line)


def commands(verb, names, flags):
    """the commands to run and their folders: of a library that others rest on what makes theirs short too, its build"""
    crates = rows()
    if not names:
        return [(['rt', 'all', verb], '.')]
    for name in names:
        if name not in crates:
            sys.exit('crates.txt has no crate %s' % name)
    library = lambda name: not crates[name][0] and not os.path.exists('crates/%s/src/main.rt' % name)
    return [(['rt', 'lib' if verb == 'check' and library(name) else verb, *flags], 'crates/' + name) for name in names]


def main():
    words = sys.argv[1:]
    os.chdir(os.path.join(os.path.dirname(os.path.abspath(__file__)), '..'))
    if words[:1] == ['--sum'] and len(words) == 2:
        print(sum_of(words[1]))
        return
    if words == ['ci'] or words[:1] == ['must-fail']:
        progress = Progress(words[0], words[1:])
        sys.stdin.reconfigure(errors='replace')
        follow(progress, sys.stdin)
        progress.finish(0)
        return
    if len(words) < 2 or words[0] != 'rt' or words[1] not in ('check', 'lib', 'run'):
        sys.exit(__doc__)
    cut = next((at for at, word in enumerate(words) if word.startswith('-')), len(words))
    verb, names, flags = words[1], words[2:cut], words[cut:]
    os.makedirs('target', exist_ok=True)
    alone = open('target/.lock', 'w')
    fcntl.flock(alone, fcntl.LOCK_EX)
    progress, status = Progress(verb, names), 0
    for command, folder in commands(verb, names, flags):
        try:
            rt = subprocess.Popen(command, cwd=folder, stdin=subprocess.DEVNULL, stdout=subprocess.PIPE, stderr=subprocess.STDOUT, text=True, errors='replace')
        except FileNotFoundError:
            sys.exit('rt is not on the PATH: install the Rattle kit (%s)' % open('tools/kit-id').readline().strip())
        follow(progress, rt.stdout)
        status = rt.wait()
        if status:
            break
    progress.finish(status)
    sys.exit(status)


if __name__ == '__main__':
    main()

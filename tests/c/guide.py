#!/usr/bin/env python3
"""guide.py: what docs/GUIDE.md and README.md state in numbers, bytes and code, held to the archive. The last line is 'N passed, M failed'.
  - the stack of each call (tests/c/stack.c) against the guide's table, on Arm with the rows that its section has
  - the worked example of a card that is not cut (tests/c/stale.c): the bytes in the guide are those of the run
  - the examples in bytes of docs/FORMATS.md (tests/c/bytes.c)
  - the archive's code size and undefined symbols; the sizes of slices and structs; how many commands a log holds
  - the names of refusals are those of the header
  - docs/SAFETY-FILE.md has the guide's provisos, and names what is in examples/
  - the example in README.md compiles, and prints what README.md says
  - the example host, copied to a folder without anything else, is built by the line that README.md and docs/GUIDE.md have, founds its card there, and prints what it has
MANTELORRIS_DIST names a folder with archive and headers; without it `make lib` makes dist/."""
import os, re, shutil, subprocess, sys, tempfile

os.chdir(os.path.join(os.path.dirname(os.path.abspath(__file__)), '..', '..'))
DIST = os.environ.get('MANTELORRIS_DIST') or 'dist'
GUIDE, README = open('docs/GUIDE.md', encoding='utf-8').read(), open('README.md', encoding='utf-8').read()
WORK = tempfile.mkdtemp(prefix='mantelorris-guide-')
ARM = subprocess.run(['cc', '-dumpmachine'], capture_output=True, text=True, check=True).stdout.startswith('aarch64')
passed, failed = 0, 0


def count(what, wrong):
    global passed, failed
    passed, failed = passed + (not wrong), failed + bool(wrong)
    print('FAILED: %s: %s' % (what, wrong) if wrong else 'ok: ' + what)


def number(text, pattern):
    return int(re.search(pattern, text).group(1).replace(',', ''))


def table(head):
    """the rows of the guide's table with this head"""
    text = GUIDE[GUIDE.index('| %s |' % head):].split('\n\n')[0]
    return [[c.strip() for c in line.strip('| ').split('|')] for line in text.split('\n')[2:] if line.startswith('|')]


def built(source, name, more=()):
    out = os.path.join(WORK, name)
    subprocess.run(['cc', '-std=gnu11', '-O1', '-Wall', '-Wextra', '-Werror', *more, '-I' + DIST, source, DIST + '/libmantelorris.a', '-o', out], check=True)
    return out


def ran(program):
    done = subprocess.run([program], capture_output=True, text=True)
    return done.returncode, done.stdout


def stack():
    bounds = {name: int(n) for name, n in table('call | bytes') + (table('call | bytes on Arm') if ARM else [])}
    code, said = ran(built('tests/c/stack.c', 'stack', ['-DBOUND_%s=%d' % (k.upper(), v) for k, v in bounds.items()]))
    print(said, end='')
    count('the stack of %d calls is within the table' % len(bounds), 'exit %d' % code if code else '')
    deep, rest = number(README, r'([\d,]+) bytes of stack for'), number(README, r'([\d,]+) for everything else')
    over = [name for name, n in bounds.items() if n > (deep if name in ('recover', 'recover_checkpoint', 'inspect') else rest)]
    count('README.md has the stack as the table', over)


def stale():
    code, said = ran(built('tests/c/stale.c', 'stale'))
    print(said, end='')
    missing = [line for line in said.split('\n') if (', torn:' in line or ', not cut,' in line) and line not in GUIDE]
    ends = re.findall(r'gate at (\d+)', said)
    stated = re.findall(r'gate stands at (\d+)', GUIDE)
    count('the worked example of the stale bytes', 'exit %d' % code if code else missing or (ends != stated and '%s and %s' % (ends, stated)))


def examples():
    code, said = ran(built('tests/c/bytes.c', 'bytes'))
    formats = open('docs/FORMATS.md', encoding='utf-8').read()
    lines = said.strip().split('\n')
    count('%d examples in bytes' % len(lines), 'exit %d' % code if code else [line for line in lines if '    %s\n' % line not in formats])


def sizes():
    lines = subprocess.run(['size', DIST + '/libmantelorris.a'], capture_output=True, text=True, check=True).stdout.split('\n')[1:]
    parts = [[int(n) for n in line.split()[:3]] for line in lines if line.strip()]
    code, rest = sum(p[0] for p in parts), sum(p[1] + p[2] for p in parts)
    greatest = number(GUIDE, r'at most ([\d,]+) bytes in the whole archive')
    most = number(GUIDE, r'at most ([\d,]+) bytes on Arm') if ARM else greatest
    print('code %d bytes' % code)
    count('code of at most %d bytes, no data' % most, most > greatest or code > most and code or rest)
    count('README.md says the same', number(README, r'Code under ([\d,]+) bytes') != greatest and greatest)
    nm = subprocess.run(['nm', DIST + '/libmantelorris.a'], capture_output=True, text=True, check=True).stdout
    missing = sorted(set(re.findall(r'^ +U (\S+)', nm, flags=re.M)))
    count('the archive needs memcpy and memset alone', missing != ['memcpy', 'memset'] and missing)


def memory():
    names = {'state, for each server': 'MANTELORRIS_STATE_SIZE', 'plan': 'MANTELORRIS_PLAN_SIZE', 'output of request and fetch': 'MANTELORRIS_REPLY_SIZE',
             'output of receipt': 'MANTELORRIS_RECEIPT_SIZE', 'output of image': 'MANTELORRIS_IMAGE_SIZE', 'checkpoint': 'MANTELORRIS_CHECKPOINT_SIZE',
             "tail's head": 'MANTELORRIS_LOG_HEAD', 'client struct': 'sizeof(struct mantelorris_client)',
             'lease manager struct': 'sizeof(struct mantelorris_lease_manager)', 'lock chamber controller struct': 'sizeof(struct mantelorris_chamber)'}
    rows = table('what | bytes')
    lines = ['_Static_assert(%s == %s, "%s");' % (names[what], n, what) for what, n in rows]
    lines += ['_Static_assert(_Alignof(struct mantelorris_client) == _Alignof(uint32_t) && _Alignof(struct mantelorris_lease_manager) == _Alignof(uint32_t), "");']
    path = os.path.join(WORK, 'memory.c')
    open(path, 'w').write('#include "mantelorris_chamber.h"\n' + '\n'.join(lines) + '\nint main(void) { return 0; }\n')
    count('%d sizes of slices and structs' % len(rows), ran(built(path, 'memory'))[0] or len(rows) != len(names))
    wrong = [row for row in table('log space | commands') if (int(row[0]) - 8) // 32 != int(row[1])]
    count('how many commands a log holds', wrong)
    reserve = number(GUIDE, r'with ([\d,]+) bytes left you can still give away')
    header = open(DIST + '/mantelorris.h', encoding='utf-8').read()
    give, release, points = [int(re.search(r'#define MANTELORRIS_%s (\d+)' % n, header).group(1)) for n in ('LOG_GIVE', 'LOG_RELEASE', 'POINTS')]
    count('the reserve for giving all points away', reserve != points * (give + release) and reserve)


def readme():
    source = re.search(r'```c\n(.*?)```', README, flags=re.S).group(1)
    path = os.path.join(WORK, 'readme.c')
    open(path, 'w').write(source)
    code, said = ran(built(path, 'readme'))
    shown = re.search(r'```text\n(.*?)```', README, flags=re.S).group(1)
    count('the example of README.md, %d lines, prints what it says' % source.count('\n'), code or (said != shown and said))


def refusal_names():
    """the names of refusals in the guide's table are the header's"""
    header = open(DIST + '/mantelorris.h', encoding='utf-8').read()
    named = re.findall(r'^    X\(\w+, (\d+), "([^"]+)"\)', header, flags=re.M)
    count('%d names of refusals' % len(named), [row[:2] for row in table('number | name | calls | what to do')] != [list(n) for n in named])


def safety_file():
    """docs/SAFETY-FILE.md has the provisos of the guide's two tables, and what it names of examples/ is there"""
    page = open('docs/SAFETY-FILE.md', encoding='utf-8').read()
    numbers = lambda text: re.findall(r'^\| (L?\d+a?) \|.*\|.*\|', text[text.index('| # |'):], flags=re.M)
    listed = [n for part in re.findall(r'^\| # \| proviso \|.*?(?:\n\n|\Z)', GUIDE, flags=re.M | re.S) for n in numbers(part)]
    lost = [(f, n) for f, names in re.findall(r'(\w+\.[ch]) ((?:`\w+`(?:, )?)+)', page) for n in re.findall(r'\w+', names)
            if not re.search(r'\b%s\(.*\{$' % n, open('examples/' + f, encoding='utf-8').read(), flags=re.M)]
    count('%d provisos in the template for a safety file' % len(listed), sorted(numbers(page)) != sorted(listed) and sorted(set(numbers(page)) ^ set(listed)) or lost)


def copied():
    lines = [re.search(r'^    (cc examples/host\.c .*)$', text, flags=re.M).group(1) for text in (README, GUIDE)]
    empty = os.path.join(WORK, 'empty')
    os.makedirs(os.path.join(empty, 'examples'))
    os.symlink(os.path.abspath(DIST), os.path.join(empty, 'dist'))
    for name in ('host.c', 'card.h', 'card.c'):
        shutil.copy('examples/' + name, os.path.join(empty, 'examples'))
    said = subprocess.run(lines[0].split(), cwd=empty, capture_output=True, text=True).stderr
    if not said:
        said = subprocess.run(['./host', '--found', 'card'], cwd=empty, capture_output=True, text=True).stdout
        again = subprocess.run(['./host', 'card'], cwd=empty, capture_output=True, text=True).stdout
        said = '' if said == again and said.startswith('server 0, log 8 bytes,') else 'founds %s, has %s' % (said, again)
    count('the example host, copied and built by: ' + lines[0], lines[0] != lines[1] and lines or said)


def main():
    if not os.environ.get('MANTELORRIS_DIST'):
        if subprocess.run(['tools/lib.sh'], stdout=subprocess.DEVNULL).returncode:
            sys.exit('no library, and nothing to hold the documents to')
    for part in (stack, stale, examples, sizes, memory, refusal_names, safety_file, readme, copied):
        part()
    print('%d passed, %d failed' % (passed, failed))
    shutil.rmtree(WORK)
    sys.exit(1 if failed else 0)


main()

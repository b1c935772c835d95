#!/usr/bin/env python3
"""built.py [--target aarch64] lib NAME..: the static libraries of these crates, target/staticlib/libNAME.a, or for 64-bit Arm target/staticlib/aarch64/libNAME.a.
built.py program NAME..: the programs of these crates, target/bin/NAME.
One that was made of the crates as they are now is kept. Else `rt lib` or `rt run` proves the crate over what was proved before, builds it, and the result is copied here.
built.py --passed: behind a run of `rt ci` that passed, and whose files still stand. That run has proved every crate from nothing and left in each crates/NAME/out the library as it proved it, and of a program
what it ran; `rt lib` would prove each of those libraries anew. What stands there is noted, and as long as the crates are the same a static library is built over these libraries: its own crate is proved once
more, from nothing."""
import fcntl, importlib.machinery, importlib.util, json, os, shutil, subprocess, sys
import progress

os.chdir(os.path.join(os.path.dirname(os.path.abspath(__file__)), '..'))
TRIPLE = {'x86-64': 'x86_64-unknown-linux-gnu', 'aarch64': 'aarch64-unknown-linux-gnu'}
NOTE = 'target/passed.json'


def rlib(name):
    return 'crates/%s/out/rlib/%s.rlib/format' % (name, name)


def mark(path):
    """what tells whether something replaced the file"""
    st = os.stat(path)
    return [st.st_ino, st.st_size, st.st_mtime_ns]


def passed():
    noted = {}
    for name, (words, _) in progress.rows().items():
        is_program = os.path.exists('crates/%s/src/main.rt' % name)
        path = 'crates/%s/out/%s' % (name, name) if is_program else rlib(name)
        # with this file a library is one that `rt check` built, and stands on others
        is_own = is_program or not os.path.exists('crates/%s/out/rlib/stamp' % name)
        noted[name] = [progress.sum_of(name), mark(path) if is_own and not words and os.path.exists(path) else None]
    os.makedirs('target', exist_ok=True)
    with open(NOTE, 'w', encoding='utf-8') as it:
        json.dump(noted, it)
    print('%d of %d crates as the gate left them' % (sum(m is not None for _, m in noted.values()), len(noted)))


def is_as_passed(name):
    """whether the crate, and all that it rests on, are what the gate proved, and what it built stands there"""
    try:
        with open(NOTE, encoding='utf-8') as it:
            noted = json.load(it)
        below = progress.reached([name]) - {name}
        return noted[name][0] == progress.sum_of(name) and all(noted[it][1] == mark(rlib(it)) for it in below)
    except (OSError, ValueError, KeyError, TypeError):
        return False


def over_passed(name, target, to):
    """Builds a static library over the libraries that the gate left, by the kit's own words; whether that went well."""
    home = subprocess.run(['tools/kit.sh', '--home'], check=True, stdout=subprocess.PIPE, text=True).stdout.strip()
    try:
        loader = importlib.machinery.SourceFileLoader('rtlib', home + '/bin/rtlib.py')
        spec = importlib.util.spec_from_loader('rtlib', loader)
        sys.modules['rtlib'] = rtlib = importlib.util.module_from_spec(spec)
        sys.dont_write_bytecode = True
        loader.exec_module(rtlib)
        root = os.getcwd()
        crate = rtlib.Crate('%s/crates/%s' % (root, name), root, {})
        words = [rtlib.RATTLE, 'build', *crate.words(['--jobs', str(len(os.sched_getaffinity(0)))], keeps=False), '--target', TRIPLE[target]]
        words += ['--toolchain', home + '/toolchain', '--backend', 'llvm', '-o', '%s/%s' % (root, to)]
        ran = subprocess.run(words, cwd=crate.folder, stdin=subprocess.DEVNULL, stdout=subprocess.PIPE, stderr=subprocess.STDOUT, text=True, errors='replace')
    except (OSError, AttributeError, TypeError, SystemExit) as error:
        print('%s: not over what the gate proved, since the kit is another: %s' % (name, error))
        return False
    if ran.returncode:
        print(ran.stdout)
    return ran.returncode == 0


def by_rt(verb, name, target):
    """`rt lib` or `rt run` in the crate's folder; a program's own end is none of ours"""
    flags = ['--target', TRIPLE[target]] if target != 'x86-64' else []
    status = subprocess.run([sys.executable, 'tools/progress.py', 'rt', verb, name, *flags]).returncode
    if status and (verb == 'lib' or not os.path.exists('crates/%s/out/%s.stamp' % (name, name))):
        sys.exit(status)


def made(to, name, target, make):
    """makes the file where it is not there as the crates are now"""
    stamp, total = to + '.sum', '%s %s\n' % (progress.sum_of(name), target)
    if os.path.exists(to) and os.path.exists(stamp) and open(stamp).read() == total:
        return
    os.makedirs(os.path.dirname(to), exist_ok=True)
    if os.path.exists(stamp):
        os.remove(stamp)
    part = '%s.%d' % (to, os.getpid())
    try:
        make(part)
        os.replace(part, to)
    finally:
        if os.path.exists(part):
            os.remove(part)
    with open(stamp, 'w') as it:
        it.write(total)
    print('%s: %d bytes' % (to, os.path.getsize(to)))


def library(name, target):
    def make(part):
        if not (is_as_passed(name) and over_passed(name, target, part)):
            by_rt('lib', name, target)
            shutil.copyfile('crates/%s/out/lib%s.a' % (name, name), part)

    folder = '' if target == 'x86-64' else target + '/'
    made('target/staticlib/%slib%s.a' % (folder, name), name, target, make)


def program(name):
    def make(part):
        built = 'crates/%s/out/%s' % (name, name)
        try:
            with open(NOTE, encoding='utf-8') as it:
                is_there = json.load(it)[name] == [progress.sum_of(name), mark(built)]
        except (OSError, ValueError, KeyError):
            is_there = False
        if not is_there:
            by_rt('run', name, 'x86-64')
        shutil.copy2(built, part)

    made('target/bin/' + name, name, 'x86-64', make)


def main():
    words, target = sys.argv[1:], 'x86-64'
    if words == ['--passed']:
        return passed()
    if words[:1] == ['--target'] and words[1:2] and words[1] in TRIPLE:
        target, words = words[1], words[2:]
    if len(words) < 2 or words[0] not in ('lib', 'program'):
        sys.exit(__doc__)
    for name in words[1:]:
        if name not in progress.rows():
            sys.exit('crates.txt has no crate %s' % name)
    os.makedirs('target', exist_ok=True)
    with open('target/.built', 'w') as alone:
        fcntl.flock(alone, fcntl.LOCK_EX)
        for name in words[1:]:
            library(name, target) if words[0] == 'lib' else program(name)


if __name__ == '__main__':
    main()

#!/usr/bin/env python3
"""changelog.py [--check]: CHANGELOG.md from docs/changes: of each change request the version that it made, its title and first paragraph, the newest first; before them what came behind the last
version (docs/changes/later.md). With --check it fails if the stored one is another, or if the newest version is not the header's."""
import glob, os, re, sys

os.chdir(os.path.join(os.path.dirname(os.path.abspath(__file__)), '..'))
read = lambda path: open(path, encoding='utf-8').read()


def change(path):
    """version, title and first paragraph"""
    text = read(path)
    title = re.match(r'# Request \d+: (.*)', text)[1]
    return tuple(map(int, re.search(r'`Interface\.version` \| (\d+)\.(\d+)', text).groups())), title, text.split('\n\n')[1].replace('\n', ' ')


def main():
    changes = sorted([(*change(path), path) for path in glob.glob('docs/changes/[0-9]*.md')], reverse=True)
    parts = ['# Changes', 'Versions are of the library and its headers, as `mantelorris_version()` answers. What a maker does from one to the next is in [docs/GUIDE.md](docs/GUIDE.md#build-and-link).']
    if os.path.exists('docs/changes/later.md'):
        parts += [read('docs/changes/later.md').strip().replace('# ', '## ', 1)]
    for (major, minor), title, words, path in changes:
        parts += ['## %d.%d: %s' % (major, minor, title), '%s ([docs/changes](%s))' % (words, path)]
    made = '\n\n'.join(parts + ['## 1.0', 'Server, client and lease manager with their proofs; the simulator.']) + '\n'
    header = tuple(int(n) for n in re.findall(r'#define MANTELORRIS_VERSION_(?:MAJOR|MINOR) (\d+)', read('include/mantelorris.h')))
    if '--check' not in sys.argv[1:]:
        open('CHANGELOG.md', 'w', encoding='utf-8').write(made)
    elif not os.path.exists('CHANGELOG.md') or read('CHANGELOG.md') != made:
        sys.exit('CHANGELOG.md is not what docs/changes gives: tools/changelog.py')
    if changes[0][0] != header:
        sys.exit('the newest change made version %d.%d, and the header has %d.%d' % (*changes[0][0], *header))
    print('%d versions' % (len(changes) + 1))


main()

#!/usr/bin/env python3
"""layout.py: what a reader may expect of every file of code, definitions and proofs:
  - no line of code over 120 characters, none of definitions and proofs over 200, imports aside
  - a parameter of one letter has the letter's type (LETTERS), by value or lent; of any other type it is a word
  - no chain of ten or more `.before` in a proof (bind its start by a `let`: a further local then changes one line)
  - no name imported from a module that the file does not use
Names each place that breaks this; exits 1 if there is one."""
import glob, os, re, sys

LONGEST = {'.rt': 120, '.antt': 200}
# a letter has one type in all code
LETTERS = {
    's': '[u8]', 'k': 'usize', 'i': 'usize', 'j': 'usize', 'n': 'usize', 'b': 'u8', 'p': 'u8', 'c': 'u32', 'v': 'u32', 'h': 'ImageHead', 'e': 'PlanEntry', 'q': 'Request',
    'r': 'Completion', 'x': 'Point', 'g': 'Give', 'f': 'Floor', 'd': 'Client', 'm': 'LeaseManager',
}
FUNCTION = re.compile(r'\bfn (\w+)\s*(?:<[^>]*>)?\(([^)]*)\)')
PARAMETER = re.compile(r"(?:mut )?(\w+)\s*:\s*(?:&\s*(?:'\w+\s+)?(?:mut\s+)?)*(.+)", re.S)
CHAIN = re.compile(r'(?:\.before\s*){10,}')
IMPORT = re.compile(r'^\s*(?:ghost )?use (\S+?)\.\{([^}]*)\}', re.M)
IMPORT_LINE = re.compile(r'\s*(?:ghost |pub )?use ')
COMMENT = re.compile(r'\s*(?:--|//)')


def long_lines(path, lines):
    longest = LONGEST[os.path.splitext(path)[1]]
    for number, line in enumerate(lines, 1):
        if len(line) > longest and not IMPORT_LINE.match(line):
            yield '%s:%d: %d characters' % (path, number, len(line))
        if CHAIN.search(line):
            yield '%s:%d: ten or more .before in a row' % (path, number)


def stands(name, text):
    """a name stands in a text by itself; an operator, ◌+◌, by its signs"""
    for part in [p for p in name.split('◌') if p] or [name]:
        if re.match(r'\w', part):
            if not re.search(r"(?<![\w'-])%s(?![\w'-])" % re.escape(part), text):
                return False
        elif part not in text:
            return False
    return True


def letters(path, lines):
    """parameters of one letter whose type is not the letter's"""
    text = '\n'.join('' if COMMENT.match(line) else line for line in lines)
    for function in FUNCTION.finditer(text):
        for parameter in filter(None, (PARAMETER.fullmatch(part.strip()) for part in function.group(2).split(','))):
            name, kind = parameter.groups()
            if len(name) == 1 and LETTERS.get(name) != kind:
                due = 'is %s' % LETTERS[name] if name in LETTERS else 'stands for no type'
                yield '%s:%d: %s: %s is %s; the letter %s' % (path, text.count('\n', 0, function.start()) + 1, function.group(1), name, kind, due)


def unused(path, lines):
    text = '\n'.join(line for line in lines if not IMPORT_LINE.match(line) and not COMMENT.match(line))
    for module, names in IMPORT.findall('\n'.join(lines)):
        for name in names.split(','):
            name = name.split(' as ')[-1].strip()
            if name and not stands(name, text):
                yield '%s: %s of %s is not used' % (path, name, module)


def main():
    os.chdir(os.path.join(os.path.dirname(os.path.abspath(__file__)), '..'))
    files = [f for pattern in ('src/*.rt', 'specs/**/*.antt', 'proofs/**/*.antt') for f in glob.glob('crates/*/' + pattern, recursive=True)]
    found = []
    for path in sorted(files):
        lines = open(path, encoding='utf-8').read().split('\n')
        found += list(long_lines(path, lines)) + list(unused(path, lines))
        if path.endswith('.rt'):
            found += letters(path, lines)
    for fault in found:
        print(fault)
    print('%d files, %d faults' % (len(files), len(found)))
    sys.exit(1 if found else 0)


main()

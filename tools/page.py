#!/usr/bin/env python3
"""page.py OUT.html: the documents for makers as one HTML page with its pictures, links between them kept. It reads what those documents use of Markdown, no more. A link to one of them, or
to a heading in one, that leads nowhere fails; links to what the delivery lacks become plain text. page.py --check looks at the links alone."""
import base64, html, os, re, sys

os.chdir(os.path.join(os.path.dirname(os.path.abspath(__file__)), '..'))
CHAPTERS = ['docs/%s.md' % n for n in ('HOW', 'GUIDE', 'SAFETY-FILE', 'REFERENCE', 'FORMATS', 'STATE', 'GLOSSARY')] + ['CHANGELOG.md']
ITEM = re.compile(r'( *)([-*]|\d+\.) +')
STYLE = '''body { max-width: 54em; margin: 2em auto; padding: 0 1em; font: 16px/1.45 sans-serif; color: #1c2733 } img { max-width: 100% } h1 { margin-top: 3em; border-top: 2px solid #33475b; padding-top: 1em }
table { border-collapse: collapse; margin: 1em 0 } td, th { border: 1px solid #c8d0d8; padding: 3px 8px; text-align: left; vertical-align: top } pre { background: #f3f5f7; padding: 8px 12px; overflow-x: auto }
code { background: #f3f5f7 } pre code { background: none } blockquote { border-left: 4px solid #c0392b; margin: 1em 0; padding: 0 1em } @media print { h1 { page-break-before: always } }'''


def anchor(text):
    """of a heading, as the repository's viewers make it"""
    return re.sub(r'[^\w\- ]', '', re.sub(r'[`*]', '', text).lower()).replace(' ', '-')


class Page:
    def __init__(self):
        self.anchors, self.links, self.chapter = set(), [], None

    def id_of(self, path, heading=''):
        return os.path.basename(path)[:-3] + ('--' + heading if heading else '')

    # ---- within a line

    def image(self, match):
        picture = base64.b64encode(open(os.path.join(os.path.dirname(self.chapter), match[2]), 'rb').read()).decode()
        return '<img alt="%s" src="data:image/svg+xml;base64,%s">' % (match[1], picture)

    def link(self, match):
        words, target = match[1], match[2]
        if '://' in target:
            return '<a href="%s">%s</a>' % (target, words)
        path, _, heading = target.partition('#')
        path = os.path.normpath(os.path.join(os.path.dirname(self.chapter), path)) if path else self.chapter
        if path in CHAPTERS:
            to = self.id_of(path, heading)
            self.links.append((self.chapter, to))
            return '<a href="#%s">%s</a>' % (to, words)
        return '<a href="%s">%s</a>' % (path, words) if path.startswith(('examples/', 'include/')) and os.path.exists(path) else words

    def inline(self, text):
        kept = []

        def keep(made):
            kept.append(made)
            return '\0%d\0' % (len(kept) - 1)

        text = re.sub(r'<!--.*?-->', '', text)
        text = re.sub(r' \(\[docs/changes\]\([^)]*\)\)', '', text)  # not delivered
        text = re.sub(r'`([^`]+)`', lambda m: keep('<code>%s</code>' % html.escape(m[1], quote=False)), text)
        text = html.escape(text, quote=False)
        text = re.sub(r'!\[([^\]]*)\]\(([^)]+)\)', lambda m: keep(self.image(m)), text)
        text = re.sub(r'\[([^\]]+)\]\(([^)]+)\)', self.link, text)
        text = re.sub(r'\*\*(.+?)\*\*', r'<b>\1</b>', text)
        text = re.sub(r'(?<![\w*])\*([^\s*][^*]*)\*(?!\w)', r'<i>\1</i>', text)
        while '\0' in text:
            text = re.sub('\0(\\d+)\0', lambda m: kept[int(m[1])], text)
        return text

    # ---- blocks; each takes lines from the front and gives what is left

    def fence(self, lines):
        end = next((i for i in range(1, len(lines)) if lines[i].startswith('```')), len(lines))
        return '<pre><code>%s</code></pre>' % html.escape('\n'.join(lines[1:end]), quote=False), lines[end + 1:]

    def code(self, lines):
        end = next((i for i, l in enumerate(lines) if l.strip() and not l.startswith('    ')), len(lines))
        return '<pre><code>%s</code></pre>' % html.escape('\n'.join(l[4:] for l in lines[:end]).rstrip(), quote=False), lines[end:]

    def table(self, lines):
        end = next((i for i, l in enumerate(lines) if not l.startswith('|')), len(lines))
        rows = [[self.inline(c.strip().replace('\\|', '|')) for c in re.split(r'(?<!\\)\|', l.strip()[1:].rstrip('|'))] for l in lines[:end]]
        row = lambda cells, tag: '<tr>%s</tr>' % ''.join('<%s>%s</%s>' % (tag, c, tag) for c in cells)
        return '<table>\n%s\n</table>' % '\n'.join([row(rows[0], 'th')] * any(rows[0]) + [row(r, 'td') for r in rows[2:]]), lines[end:]

    def quote(self, lines):
        end = next((i for i, l in enumerate(lines) if not l.startswith('>')), len(lines))
        return '<blockquote>\n%s\n</blockquote>' % self.blocks([l[1:].removeprefix(' ') for l in lines[:end]]), lines[end:]

    def items(self, lines):
        kind, made = ITEM.match(lines[0])[2].isdigit() or lines[0].strip()[0].isdigit(), []
        while lines and ITEM.match(lines[0]) and lines[0].lstrip()[0].isdigit() == kind:
            wide = ITEM.match(lines[0]).end()
            mine, rest = [lines[0][wide:]], lines[1:]
            while rest and (rest[0].startswith(' ' * min(wide, 2)) or (not rest[0].strip() and len(rest) > 1 and rest[1].startswith(' ' * min(wide, 2))) or self.lazy(rest[0], mine)):
                line = rest.pop(0)
                mine.append(line[min(wide, len(line) - len(line.lstrip())):])
            made.append('<li>%s</li>' % re.sub(r'^<p>(.*?)</p>', r'\1', self.blocks(mine), count=1, flags=re.S))
            while rest and not rest[0].strip() and len(rest) > 1 and ITEM.match(rest[1]):
                rest.pop(0)
            lines = rest
        tag = 'ol' if kind else 'ul'
        return '<%s>\n%s\n</%s>' % (tag, '\n'.join(made), tag), lines

    def lazy(self, line, before):
        return bool(line.strip() and before[-1].strip() and not ITEM.match(line) and not line.startswith(('#', '|', '```', '>')))

    def paragraph(self, lines):
        end = next((i for i, l in enumerate(lines) if i and (not l.strip() or ITEM.match(l) or l.startswith(('#', '|', '```', '>')))), len(lines))
        return '<p>%s</p>' % self.inline(' '.join(l.strip() for l in lines[:end])), lines[end:]

    def heading(self, lines):
        level, words = re.match(r'(#+) +(.*)', lines[0]).groups()
        to = self.id_of(self.chapter, '' if level == '#' else anchor(words))
        self.anchors.add(to)
        return '<h%d id="%s">%s</h%d>' % (len(level), to, self.inline(words), len(level)), lines[1:]

    def blocks(self, lines):
        made = []
        while lines:
            line = lines[0]
            if not line.strip():
                lines = lines[1:]
                continue
            kind = self.fence if line.startswith('```') else self.code if line.startswith('    ') else self.table if line.startswith('|') else self.quote if line.startswith('>') else None
            kind = kind or (self.heading if line.startswith('#') else self.items if ITEM.match(line) else self.paragraph)
            block, lines = kind(lines)
            made.append(block)
        return '\n'.join(made)

    def drawn(self):
        parts = []
        for self.chapter in CHAPTERS:
            parts.append(self.blocks(open(self.chapter, encoding='utf-8').read().split('\n')))
        lost = ['%s: a link to %s leads nowhere' % link for link in self.links if link[1] not in self.anchors]
        if lost:
            sys.exit('\n'.join(lost))
        return '<!DOCTYPE html>\n<html lang="en"><head><meta charset="utf-8"><title>Mantelorris: the command kernel</title>\n<style>%s</style></head><body>\n%s\n</body></html>\n' % (STYLE, '\n'.join(parts))


def main():
    if len(sys.argv) != 2:
        sys.exit(__doc__)
    page = Page()
    made = page.drawn()
    if sys.argv[1] != '--check':
        open(sys.argv[1], 'w', encoding='utf-8').write(made)
    print('%d documents, %d headings, %d links among them' % (len(CHAPTERS), len(page.anchors), len(page.links)))


main()

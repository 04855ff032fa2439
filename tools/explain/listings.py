"""Listings and tables of constants, as pages show them, from the sources of the crates.

A page has a line `<!-- tools/dev/listings: code CRATE/src/FILE.rt NAME.. -->` or `<!-- tools/dev/listings: names CRATE/src/FILE.rt -->`, and what follows it
up to the line `<!-- tools/dev/listings: end -->` is what this module makes of these files.
"""
import os
import re

from explain import pages
from running import guard

MARK = re.compile(r'^<!-- tools/dev/listings: (code|names) (\S+)((?: \w+)*) -->\n(.*?)^<!-- tools/dev/listings: end -->$', re.S | re.M)
LIST = r'(?:pub(?:\([\w ]+\))? )?const %s: \[Inst; \d+\] = code! \{$'
BLOCK = r'(?:pub(?:\([\w ]+\))? )?fn %s(?:<[^>]*>)?\('
PUSH = re.compile(r'code\.push\(instruction!\((.*)\)\);$')
NUMBER = re.compile(r'((?:^/// .*\n)+)^pub const (\w+): u32 = ([^;]+);$', re.M)
LOWER = re.compile(r'(\w+)::(\w+)$')


def source(name):
    """The text of a crate's file."""
    try:
        with open(os.path.join(pages.TOP, 'crates', name), encoding='utf-8') as file:
            return file.read()
    except OSError as error:
        raise guard.Bad("'%s' is no file of the crates: %s" % (name, error.strerror), 70)


def said(comment):
    """A comment as one paragraph."""
    return ' '.join(line.strip().lstrip('/').strip() for line in comment.strip().split('\n') if line.strip())


def between(lines, first, last):
    """The lines behind the first that is this one, up to the next that is that one; None where either is missing before the item ends."""
    end = next((at for at, line in enumerate(lines) if line in ('}', '};') and line != last), len(lines))
    try:
        begin = lines.index(first, 0, end) + 1 if first else 1
        return lines[begin:lines.index(last, begin)]
    except ValueError:
        return None


def looped(lines):
    """A block that a loop makes, with what the loop pushes as a line of a listing; None where the item has no loop."""
    first = next((line for line in lines[:lines.index('}')] if re.match(r'    for .* \{$', line)), None) if '}' in lines else None
    found = between(lines, first, '    }') if first else None
    return found and [first] + [PUSH.sub(r'\1;', line) for line in found] + ['    }']


def item(text, name):
    """A list or a block by its name: its comment and its lines, with four blanks before the outermost; None where there is none."""
    lines = text.split('\n')
    for form, first, last in ((LIST, None, '};'), (BLOCK, '    block! {', '    }'), (BLOCK, None, None)):
        for at, line in enumerate(lines):
            found = None
            if re.match(form % re.escape(name), line):
                found = between(lines[at:], first, last) if last else looped(lines[at:])
            if found:
                top = at
                while top and lines[top - 1].startswith('//'):
                    top -= 1
                least = min(len(it) - len(it.lstrip()) for it in found if it.strip())
                return said('\n'.join(lines[top:at])), ['    ' + it[least:] if it.strip() else '' for it in found]
    return None


def folded(words, width):
    """The words of a paragraph in lines of this width."""
    lines = ['']
    for word in words.split():
        if lines[-1] and len(lines[-1]) + 1 + len(word) > width:
            lines.append('')
        lines[-1] += (' ' if lines[-1] else '') + word
    return lines


def code(name, items):
    """The listing of these blocks and lists of a file."""
    text, out = source(name), []
    for it in items:
        found = item(text, it)
        if found is None:
            raise guard.Bad("'%s' has no list or block with the name '%s'" % (name, it), 70)
        comment, lines = found
        out.append('\n'.join(['// ' + line for line in folded(comment, 112)] + [it + ':'] + lines))
    return '```\n' + '\n\n'.join(out) + '\n```\n'


def written(number):
    """A number as it is written: that of a lower crate, where the source names it."""
    lower = LOWER.match(number)
    if lower:
        folder = os.path.join(pages.TOP, 'crates', lower.group(1), 'src')
        for file in sorted(os.listdir(folder)) if os.path.isdir(folder) else []:
            for _, it, found in NUMBER.findall(source(os.path.join(lower.group(1), 'src', file))):
                if it == lower.group(2):
                    return found
    return number


def names(name):
    """The table of a file's numbers."""
    rows = ['| %s | %s | %s |' % (it, written(number), said(comment).rstrip('.').replace('|', '\\|')) for comment, it, number in NUMBER.findall(source(name))]
    if not rows:
        raise guard.Bad("'%s' has no constants" % name, 70)
    return '| Name | Number | What it is |\n|---|---|---|\n' + '\n'.join(rows) + '\n'


def made(page):
    """A page with each listing and table as the sources have it."""
    def again(found):
        kind, name, items, _ = found.groups()
        return '<!-- tools/dev/listings: %s %s%s -->\n%s<!-- tools/dev/listings: end -->' % (kind, name, items, code(name, items.split()) if kind == 'code' else names(name))
    if not MARK.search(page):
        raise guard.Bad('the page shows no listing', 70)
    return MARK.sub(again, page)

"""The files of cases that the gate's programs read: parts that begin with `== HEAD`, with their escapes and copies."""
import re

KINDS = {'n': '\n', 'r': '\r', 't': '\t', '0': '\0', '\\': '\\'}


def of_text(text):
    """The cases of a file's text: the head and the source of each."""
    text = text[:-1] if text.endswith('\n') else text
    for part in text.split('\n== ')[1:]:
        head, _, source = part.partition('\n')
        yield head, source


def of_file(name):
    with open(name, encoding='utf-8') as file:
        yield from of_text(file.read())


def copied(text):
    """A text with its copies written out: `N part` and ~N part~, of which `?` is the number from 0 and `^` that from 1."""
    for mark in '`~':
        parts = text.split(mark)
        for i in range(1, len(parts), 2):
            count, _, part = parts[i].partition(' ')
            parts[i] = ''.join(part.replace('?', str(k)).replace('^', str(k + 1)) for k in range(int(count)))
        text = ''.join(parts)
    return text


def unescaped(text):
    """A source as it is given to the program: copies are written out, escapes are read. Gives one character a byte."""
    text = copied(text).encode('utf-8').decode('latin-1')
    return re.sub(r'\\(x..|.)', lambda m: chr(int(m.group(1)[1:], 16)) if m.group(1)[0] == 'x' else KINDS[m.group(1)], text, flags=re.S)

"""Prints of a run some kinds of rows alone, with the console's words as numbers and letters; or these letters as a text."""
import re

from explain import words as command_words
from running.guard import Bad

# What each kind of row begins with; a user's registers and words stand below its row, and are of its kind.
KINDS = ('turn', 'end', 'global', 'con', 'text', 'user', 'start', 'steps', 'trap', 'set', 'size', 'put')
ENDS = ('halted', 'stopped', 'saved', 'fault')
OF_A_USER = ('reg', 'hi', 'lo', 'mem')
# What is no row of a run is printed whatever is chosen.
ALWAYS = ('refused', 'bad')


def kinds_of(word):
    """The kinds of rows that a word names, with commas between them."""
    kinds = word.split(',')
    for kind in kinds:
        if kind not in KINDS and not re.fullmatch(r'user([1-9]|[1-5][0-9]|6[0-4])', kind):
            near = command_words.nearest(kind, KINDS)
            raise Bad("the word behind --only, '%s', names kinds of rows with commas between them: '%s' is none%s. They are %s, and user1, user2 and so on"
                      % (word, kind, ", did you mean '%s'?" % near if near else '', ', '.join(KINDS)))
    return kinds


def signed(word):
    return word - (word >> 31 << 32)


def letters(word):
    """The letters of a word's bytes, the highest first, without those above its highest byte that isn't 0; empty where one of them is no letter or sign."""
    data = word.to_bytes(4, 'big').lstrip(b'\0')
    return data.decode('ascii') if data and all(32 <= byte < 127 for byte in data) else ''


def letter(word):
    """What stands in a text for a word of the console: a letter, the end of a line, or in angle brackets the word of what is neither."""
    return chr(word) if 32 <= word < 127 or word == 10 else '<%x>' % word


def as_text(rows):
    """The words of the console as a text, a letter a word; its last line is ended."""
    text = ''.join(letter(int(row[4:], 16)) for row in rows if re.fullmatch(r'con [0-9a-f]{8}', row))
    return text if text.endswith('\n') or not text else text + '\n'


def shown(row):
    """A row as it is shown: that of a word of the console with its decimal, and its letters where it has some."""
    match = re.fullmatch(r'con ([0-9a-f]{8})', row)
    if not match:
        return row
    word = int(match[1], 16)
    said = letters(word)
    return '%s %d%s' % (row, signed(word), " '%s'" % said if said else '')


def chosen(text, kinds):
    """The rows of some kinds, of a run's text."""
    found, user = [], ''
    rows = text.decode('utf-8', errors='replace').split('\n')
    for row in rows:
        first = row.partition(' ')[0]
        if first == 'user':
            user = 'user' + row.split()[1]
        kind = user if first == 'user' or first in OF_A_USER else 'end' if first in ENDS else first
        if row and (kind in kinds or first in ALWAYS or 'user' in kinds and kind == user):
            found.append(shown(row) + '\n')
    return (''.join(found) + (as_text(rows) if 'text' in kinds else '')).encode()

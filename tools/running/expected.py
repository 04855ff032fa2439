"""Whether a text has the rows that are expected of it.

An expectation is a text of rows. Each row is of a kind: a turn, a global, a word of the console, a user with its registers and words, the end, or the
journal of a trace. Of each kind that the expectation names, all rows are compared, one by one; of other kinds any rows may come. `*` in a row stands for any
word, and the row `KIND ..` says that other rows of that kind may come between those that are named.
"""
import itertools
import re

from running import only

ENDS = ('halted', 'stopped', 'saved')
JOURNAL = ('start', 'steps', 'trap', 'set', 'size', 'put')
OF_A_USER = ('reg', 'hi', 'lo', 'mem')
MORE = '..'


def rows(data):
    """The rows of a text that say something."""
    return [row.rstrip() for row in data.decode('utf-8', errors='replace').split('\n') if row.strip()]


def plain(row):
    """A row as the program prints it, where `--only` has printed it with its decimal and its letters."""
    printed = row[:len('con 00000000')]
    return printed if only.shown(printed) == row else row


def kind_of(row, user):
    """The kind of a row; `user` is the kind of the user's rows that it may stand behind."""
    words = row.split()
    first = words[0]
    if first in OF_A_USER:
        return user or first
    if first == 'user':
        return ' '.join(words[:2])
    if first in ENDS or first == 'fault':
        return 'end'
    return 'journal' if first in JOURNAL else first


def is_more(row):
    """Whether a row says that others of its kind may come."""
    return row.split()[-1] == MORE


class Kinds:
    """The rows of a text by their kinds, in order, and the kinds of which more may come than stand here."""

    def __init__(self, text):
        self.rows, self.open, self.order, user = {}, set(), [], None
        for row in text:
            kind = kind_of(row, user)
            user = kind if kind.startswith('user ') else None
            if kind not in self.rows:
                self.rows[kind] = []
                self.order.append(kind)
            if is_more(row):
                self.open.add(kind)
            else:
                self.rows[kind].append(row)


def fits(wanted, row):
    """Whether a row is one that is wanted, where a `*` is any word."""
    if wanted == row:
        return True
    words, others = wanted.split(), row.split()
    return '*' in words and len(words) == len(others) and all(word in ('*', other) for word, other in zip(words, others))


def first_missing(wanted, had):
    """The first of the wanted rows that does not come behind those before it, and its number from 1; None where each does."""
    left = iter(had)
    for number, row in enumerate(wanted, 1):
        if not any(fits(row, other) for other in left):
            return number, row
    return None


def difference(kind, wanted, had):
    """Which row of a kind came in place of which, with its number; None where all are those that are wanted."""
    for number, (row, other) in enumerate(itertools.zip_longest(wanted, had), 1):
        place = 'row %d of %s' % (number, kind) if len(wanted) > 1 or len(had) > 1 else 'the row of %s' % kind
        if row is None:
            return "%s: '%s' came, and is one too many: %d are expected" % (place, other, len(wanted))
        if other is None:
            return "%s: '%s' is missing: %d came, and %d are expected" % (place, row, len(had), len(wanted))
        if not fits(row, other):
            return "%s: '%s' came in place of '%s'" % (place, other, row)
    return None


def exact(wanted, had):
    """What differs of the kinds that an expectation names; None where nothing does."""
    wanted, had = Kinds(wanted), Kinds(had)
    for kind in wanted.order:
        came = had.rows.get(kind, [])
        if kind in wanted.open:
            missing = first_missing(wanted.rows[kind], came)
            found = missing and "row %d of %s: '%s' is missing, or out of its order" % (missing[0], kind, missing[1])
        else:
            found = difference(kind, wanted.rows[kind], came)
        if found:
            return found
    return None


def within(wanted, had):
    """The first row that does not come behind those before it; None where each comes, with whatever between them."""
    missing = first_missing([row for row in wanted if not is_more(row)], had)
    return missing and "the row '%s' is missing, or out of its order" % missing[1]


def one_line(text):
    """A text of one line: control characters become a sign that can be seen."""
    return re.sub(r'[\x00-\x1f\x7f]', '\u00b7', text)


def ended(status, had, said):
    """Why a run with this status did not come to its end, in one line."""
    if status == 4:
        last = next((row for row in reversed(had) if row.startswith('turn ')), None)
        spent = next(filter(None, (re.match(r'cvm: the (\d+ )steps were spent', line) for line in said)), None)
        return 'status 4, the %ssteps were spent before the turns were complete%s' % (spent[1] if spent else '', ": the last row is '%s'" % last if last else ': no turn is complete')
    place = said[0].partition('\n')[0] + ': ' if said and not said[0].startswith('cvm: ') else ''
    why = next((line[len('cvm: '):].partition('. What to do')[0] for line in said if line.startswith('cvm: ')), '')
    return 'status %d, %s%s' % (status, place, why.rstrip('.'))


def is_whole(status, wanted):
    """Whether a run came to an end that can be expected: a kernel's fault alone where its row is expected."""
    return status == 0 or status == 3 and any(' fault ' in row or row.startswith('fault ') for row in wanted)


def answer(wanted, had, status, said, is_within=False):
    """What is not as expected, in one line; None where all is."""
    wanted, had = list(map(plain, rows(wanted))), rows(had)
    if not is_whole(status, wanted):
        return one_line(ended(status, had, said))
    found = (within if is_within else exact)(wanted, had)
    return one_line(found) if found else None


def fault(data):
    """What is wrong with an expectation; None where nothing is."""
    return None if any(not is_more(row) for row in rows(data)) else 'names no row that is to come, so whatever is printed would be as expected'

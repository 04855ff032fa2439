"""Reads what `cvm boot` and `cvm trace` printed."""
import re

# Numbers and words as the program prints them.
N, W = r'(0|[1-9][0-9]{0,19})', r'[0-9a-f]{8}'
TURN = re.compile(r'turn %s cause ([0-8]) data (%s) user %s (?:next %s|fault ([A-Za-z]{1,20}))' % (N, W, N, N))
REPORT = re.compile(r'global [A-Za-z_]\w* (?:-?[0-9]{1,10}|true|false|null|set)|con %s|user %s pages %s pc %s|reg [1-9][0-9]? %s|(?:hi|lo) %s|mem %s %s' % (W, N, N, W, W, W, W, W))
JOURNAL = re.compile(r'(steps) %s|(trap) [0-8] %s|(set) [1-9][0-9]? %s|(size) %s|(put) %s %s' % (N, W, W, N, W, W))
# What a run can have at most: users, turns, steps, and words of the console's log. Of a text so many dispatches are drawn.
MOST_USERS, MOST_TURNS, MOST_STEPS, MOST_WORDS, MOST_DISPATCHES = 64, 2**32 - 1, 2**64 - 1, 4096, 1000000


class BadText(Exception):
    """Why a text is none of a boot or a trace, in a sentence."""


def shown(line):
    """The beginning of a line, of which each control character becomes a sign that can be seen."""
    return re.sub(r'[\x00-\x1f\x7f-\x9f]', '\u00b7', line[:60])


def bounded(number, most, what, line):
    """A number of a line, which is at most so great."""
    if int(number) > most:
        raise BadText('line %d has the %s %s, and no run has more than %d' % (line, what, number, most))
    return int(number)


class Dispatch:
    """A turn that called the kernel."""

    def __init__(self, match, line):
        self.turn, self.cause, self.data = bounded(match[1], MOST_TURNS, 'turn', line), int(match[2]), match[3]
        self.user, self.next = bounded(match[4], MOST_USERS, 'user', line), bounded(match[5] or 0, MOST_USERS, 'user', line)
        self.fault = match[6]


class Boot:
    """A boot: its dispatches, how it ended, its globals, the console's words and how many users there are."""

    def __init__(self, text):
        self.dispatches, self.globals, self.console, self.users, self.end = [], [], [], 0, None
        for number, line in enumerate(text.split('\n'), 1):
            if line:
                self.read(line, number)
        if not self.dispatches:
            raise BadText('no row of it is that of a turn, as a boot prints it')
        seen = [place for dispatch in self.dispatches for place in (dispatch.user, dispatch.next)]
        self.users = max([self.users, *seen])

    def read(self, line, number):
        match = TURN.fullmatch(line)
        if match:
            dispatch = Dispatch(match, number)
            if len(self.dispatches) == MOST_DISPATCHES:
                raise BadText('it has more than {:,} rows of turns: give fewer TURNS'.format(MOST_DISPATCHES))
            if self.dispatches and dispatch.turn <= self.dispatches[-1].turn:
                raise BadText('line %d has a turn that does not come behind the one before it' % number)
            self.dispatches.append(dispatch)
            self.end = 'fault ' + dispatch.fault if dispatch.fault else self.end
        elif line in ('halted', 'stopped', 'saved'):
            self.end = line
        elif REPORT.fullmatch(line):
            words = line.split()
            if words[0] == 'global':
                self.globals.append(line[len('global '):])
            elif words[0] == 'con':
                self.console.append(words[1])
                bounded(len(self.console), MOST_WORDS, 'word of the console', number)
            elif words[0] == 'user':
                self.users = max(self.users, bounded(words[1], MOST_USERS, 'user', number))
        else:
            raise BadText("line %d, '%s', is no row of a boot" % (number, shown(line)))


class Trace:
    """A trace: its user, and its journal as pairs: how many steps of the user were made before, and what the kernel then changed."""

    def __init__(self, text):
        lines = [line for line in text.split('\n') if line]
        first = re.fullmatch(r'start %s pages %s' % (N, N), lines[0]) if lines else None
        if not first:
            raise BadText("its first row is none of a trace: 'start USER pages P'")
        self.user, self.steps, self.changes = bounded(first[1], MOST_USERS, 'user', 1), 0, {}
        for number, line in enumerate(lines[1:], 2):
            if line in ('halted', 'stopped') or line.startswith('fault '):
                break
            match = JOURNAL.fullmatch(line)
            if not match:
                raise BadText("line %d, '%s', is no row of a trace" % (number, shown(line)))
            self.read(line.split(), number)
            bounded(self.steps, MOST_STEPS, 'sum of steps', number)

    def read(self, words, number):
        if words[0] == 'steps':
            self.steps += int(words[1])
        elif words[0] == 'trap':
            self.steps += 1
        else:
            self.changes.setdefault(self.steps, []).append(words[0])

"""A timer: rows of a line that is raised every so many steps, added to a copy of a schedule."""
import os
import re

from explain import files, words as command_words
from running.guard import Bad

# The most rows that are added: the copy stays far below the bytes that a file may have, and is read within seconds.
MOST = 1000000
# So many are added at most where nothing is said of steps.
USUAL = 100000
NUMBER = rb'(0|[1-9][0-9]*)'
FORMS = [(re.compile(rb'line %s %s' % (NUMBER, NUMBER)), 7), (re.compile(rb'busy %s %s' % (NUMBER, NUMBER)), 65535), (re.compile(rb'input %s' % NUMBER), 2**32 - 1)]


class Timer:
    """A line, and every how many steps it is raised."""

    def __init__(self, word):
        period, colon, line = word.partition(':')
        why = command_words.number_fault(period, 1, 2**64 - 1)
        if why:
            raise Bad("the word behind --timer, '%s', is PERIOD or PERIOD:LINE: PERIOD, '%s', %s" % (word, period, why))
        why = command_words.number_fault(line, 0, 7) if colon else None
        if why:
            raise Bad("the word behind --timer, '%s', is PERIOD or PERIOD:LINE: LINE, '%s', %s" % (word, line, why))
        self.period, self.line = int(period), int(line or 0)

    def count(self, steps):
        """How many rows there are up to a step."""
        return steps // self.period

    def usual_steps(self):
        """How many steps are run at most where nothing is said."""
        return USUAL * self.period

    def check(self, steps):
        if self.count(steps) > MOST:
            raise Bad('--timer %d gives %d rows up to step %d, and may give %d: take a longer period, or fewer steps by --steps'
                      % (self.period, self.count(steps), steps, MOST))


def is_good(rows):
    """Whether each row of a schedule has its form and is in its range and its order: else the program is to refuse the schedule as it was given."""
    last, inputs = {b'line': 0, b'busy': -1}, 0
    for row in rows:
        match, most = next(((form.fullmatch(row), most) for form, most in FORMS if form.fullmatch(row)), (None, 0))
        if not match or int(match.groups()[-1]) > most or len(match.groups()) == 2 and int(match[1]) >= 2**64:
            return False
        kind = row.split()[0]
        if kind in last:
            if int(match[1]) < last[kind] + (kind == b'busy'):
                return False
            last[kind] = int(match[1])
        inputs += kind == b'input'
    return inputs <= 4096


def with_rows(data, timer, steps):
    """The bytes of a schedule with the rows of a timer up to a step; None where the schedule has a fault of its own."""
    rows = data.split(b'\n')
    rows = rows[:-1] if rows[-1] == b'' else rows
    if not is_good(rows):
        return None
    lines = [row for row in rows if row.startswith(b'line ')]
    added = [b'line %d %d' % (step, timer.line) for step in range(timer.period, timer.count(steps) * timer.period + 1, timer.period)]
    # of rows at one step those of the schedule stay first, since sorting keeps their order
    lines = sorted(lines + added, key=lambda row: int(row.split()[1]))
    return b''.join(row + b'\n' for row in lines + [row for row in rows if not row.startswith(b'line ')])


def put_copy(run, timer, steps, say):
    """Gives a run a copy of its schedule with the rows of a timer, and says how many there are. A schedule with a fault stays as it is."""
    made = with_rows(files.content(run.folder.schedule) or b'', timer, steps)
    if made is None:
        return
    path = run.made('schedule')
    with open(path, 'wb') as file:
        file.write(made)
    run.names[os.path.abspath(path)] = '%s with the rows of --timer' % run.folder.schedule
    run.schedule = path
    count = timer.count(steps)
    where = ', at steps %d to %d' % (timer.period, count * timer.period) if count > 1 else ', at step %d' % timer.period if count else ', since no step is a multiple of it'
    say("try: --timer adds %d row%s 'line T %d' to a copy of %s%s." % (count, '' if count == 1 else 's', timer.line, run.folder.schedule, where))

"""What a user sees: its journal, and the text of a trace; and the replay of a journal over the user's first machine."""
from oracle.flat import Flat
from oracle.run import Run, user_rows


class Journal:
    """The rows of a trace up to its end, taken down turn by turn."""

    def __init__(self, user, first):
        self.user, self.steps = user, 0
        self.rows = ['start %d pages %d' % (user, first.pages())]

    def take(self, run, before, call):
        """Takes down a turn that the run made, where `before` was the current user."""
        if run.trap is None and call is None and before == self.user:
            self.steps += 1
        if run.trap is not None and before == self.user:
            self.tell(['trap %d %08x' % run.trap])
        if call is not None:
            self.tell(run.kernel.notes.get(self.user, []))

    def tell(self, rows):
        if rows:
            self.told()
            self.rows += rows

    def told(self):
        """Tells the steps so far."""
        if self.steps:
            self.rows.append('steps %d' % self.steps)
            self.steps = 0


def trace_rows(system, turns, lines, user):
    """What `cvm trace` prints of a user."""
    run = Run(system, lines)
    journal = Journal(user, run.users[user - 1])
    while run.turn < turns and run.end is None:
        before = run.current
        call = run.go()
        journal.take(run, before, call)
    journal.told()
    end = run.end or 'stopped'
    return journal.rows + [end] + ([] if end.startswith('fault') else user_rows(user, run.users[user - 1]))


def replayed(words, rows):
    """The machine of a user that starts with these words, after the rows of its journal: no kernel and no other user is looked at."""
    flat = Flat(list(words))
    for row in rows:
        kind, *given = row.split(' ')
        if kind == 'steps':
            for _ in range(int(given[0])):
                assert flat.step() is None, row
        elif kind == 'trap':
            assert flat.step() == (int(given[0]), int(given[1], 16)), row
        elif kind == 'set':
            number, value = int(given[0]), int(given[1], 16)
            if number == 32:
                flat.pc = value
            else:
                flat.r[number] = value
        elif kind == 'size':
            flat.resize(int(given[0]))
        elif kind == 'put':
            flat.m[int(given[0], 16) // 4] = int(given[1], 16)
    return flat

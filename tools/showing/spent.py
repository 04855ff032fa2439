"""What is said where STEPS were too few: two lines."""
from oracle import values
from oracle.c0.meaning import Fault, Seen, TooLong
from oracle.faults import parts_of
from oracle.replay import Replay

# A dispatch with more statements and tests than these is taken for one that does not come back; a statement takes a step of the machine at least.
MOST = 200000
ROUNDS = 20000
FURTHEST = 200000
AGAIN = 8
# about how many steps of the machine a turn takes: the way to the kernel and back, a unit of its meaning, and the first fetch or access of a page
CALL, UNIT, PAGE = 400, 3, 2900
# as this is reckoned, a call that comes a little later is looked at, too
SLACK = 5000


def lines(given, turns, steps):
    """Whether the kernel came back, which user traps again and again, or how many steps a turn took so far and which number would do."""
    way = Way(given, steps)
    found = way.loop(turns)
    if found:
        return found + [gone_into(way.complete, turns, steps)]
    traps = way.again()
    return traps + [so_far(way.complete, turns, steps)] if traps else [so_far(way.complete, turns, steps), enough(way.complete, turns, steps)]


def so_far(complete, turns, steps):
    if not complete:
        return 'no turn was complete within %d steps.' % steps
    return 'of %d turns some %d were complete within %d steps: about %s steps a turn.' % (turns, complete, steps, short(steps / complete))


def gone_into(complete, turns, steps):
    """How far the run came before a call that does not come back: an average over its turns would say nothing of it."""
    return 'of %d turns %d were complete; what was left of the %d steps went into this call.' % (turns, complete, steps)


def enough(complete, turns, steps):
    if not complete:
        return '--steps %d is to be tried: the first turn alone takes some hundred steps, and the first fetch of a user some 3000.' % rounded(max(20000, 10 * steps))
    return '--steps %d would do if it goes on like this; --turns %d ends where it came to.' % (rounded(max(1000, steps * turns / complete * 1.25)), complete)


def short(number):
    return '%.1f' % number if number < 10 else '%d' % number


def rounded(number):
    """A number with two digits that count, not below it."""
    number = int(number) + 1
    unit = 10 ** max(0, len(str(number)) - 2)
    return (number + unit - 1) // unit * unit


class Way:
    """The run up to its last row, with about how many steps it took, and what comes behind: `complete` is about how many turns were complete."""

    def __init__(self, given, steps):
        self.given, self.steps, self.most = given, steps, max(1000, min(steps, MOST))
        self.replay = Replay(given)
        self.used, self.touched, self.traps, self.by_line = 0, set(), [], False
        while self.replay.turn <= given.printed.last and self.replay.end is None:
            self.turn()
        self.complete = self.replay.turn

    def turn(self):
        """Makes a turn, and adds its steps."""
        run = self.replay.run
        user, units = run.current, run.kernel.units
        pc = run.users[user - 1].pc if user else 0
        if user:
            page = user, pc // 4096
            self.used += 1 + (PAGE if page not in self.touched else 0)
            self.touched.add(page)
        call = run.go()
        if call is not None:
            self.used += CALL + UNIT * (run.kernel.units - units)
            if call.cause > 1:
                self.traps = (self.traps + [(user, pc, call.cause, call.data, call.turn)])[-AGAIN:]
        return call

    def loop(self, turns):
        """The lines on a dispatch that does not come back, which is called behind the last row by a trap, or by a line that was not taken yet; None where
        there is none."""
        run, traps = self.replay.run, list(self.traps)
        if run.end:
            return None
        state, furthest = run.state(), min(turns, run.turn + FURTHEST)
        try:
            call = None
            while call is None and run.turn < furthest and self.used < self.steps + SLACK:
                self.complete = run.turn if self.used < self.steps else self.complete
                run.kernel.left = self.most
                call = self.turn()
            self.traps = traps
            # a user that calls nothing makes a turn a step
            if call is None and run.turn == furthest:
                self.complete = min(turns - 1, run.turn + max(0, self.steps - self.used))
            for line in range(8 if self.given.has_lines else 0):
                self.by_line = True
                run.put_back(state)
                run.pending |= 1 << line
                run.kernel.left = self.most
                run.go()
        except TooLong:
            where = ', called %s,' % ('for a line behind turn %d' % (run.turn - 1) if self.by_line else 'in turn %d' % run.turn)
            return loop_lines(self.given, self.replay, 'the kernel' + where, self.most)
        return None

    def again(self):
        """The line on the user that traps at the same pc again and again, in the last turns that have a row; none where it is not so."""
        if len(self.traps) < AGAIN or len({one[:4] for one in self.traps}) > 1:
            return []
        user, pc, cause, data, _ = self.traps[-1]
        source, line = self.given.users[user - 1].source, self.given.users[user - 1].line(pc)
        place = source.where(line) if line else '%s %08x' % (source.name, pc)
        text = '`%s` of user %d' % (source.line_text(line).split('#')[0].strip(), user) if line else 'user %d' % user
        return ['%s: %s traps at the same pc again and again (cause %d, data %08x), in turns %d to %d.' % (
            place, text, cause, data, self.traps[0][4], self.traps[-1][4])]


class Loops(Seen):
    """Counts the tests of loops that are true, by how many functions run."""

    def __init__(self, kernel):
        self.kernel, self.rounds = kernel, {}

    def tested(self, statement, answer):
        if statement.kind == 'while' and answer:
            key = len(self.kernel.frames), statement.span
            self.rounds[key] = self.rounds.get(key, 0) + 1


def loop_lines(given, replay, called, most):
    """The line on which a dispatch goes round, with the values of its function; no line where it comes to an end after all."""
    kernel = replay.kernel
    kernel.left, kernel.seen = 10 * MOST, Loops(kernel)
    try:
        for _ in range(ROUNDS):
            if not kernel.work:
                return None
            kernel.act()
        rounds = {key: count for key, count in kernel.seen.rounds.items() if count > 1}
        if not rounds:
            return ['%s has not come back after %d statements and tests, and goes round no loop of its own.' % (called, most)]
        # of those that go round, the one whose function was called first, and of its loops the one that goes round most seldom: the others are within it
        depth = min(key[0] for key in rounds)
        span = min((count, key[1]) for key, count in rounds.items() if key[0] == depth)[1]
        while len(kernel.frames) > depth:
            kernel.act()
    except Fault:
        return None
    node = find(given.system.unit, span)
    held = dict([(n, v) for n, _, v in values.frame_values(kernel, kernel.frames[-1])] + parts_of(given.kernel, kernel, node.parts[0]))
    return ['%s: %s has not come back after %d statements and tests: `while (%s)` goes round with %s.' % (
        given.kernel.where(given.kernel.line(span[0])), called, most, given.kernel.part(node.parts[0].span), ', '.join('%s = %s' % pair for pair in held.items()))]


def find(unit, span):
    """The statement with a span."""
    todo = [s for f in unit.functions for s in f.body]
    while todo:
        s = todo.pop()
        if s.span == span:
            return s
        if s.kind in ('if', 'while'):
            todo += s.parts[1] + s.parts[2]
    return None

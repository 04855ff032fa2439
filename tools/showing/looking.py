"""./try FOLDER --show, --watch and --break: the run is made by the program, and made again by the models with its rows."""
import re

from running import program
from running.guard import Bad, say
from showing import made, state, unasked
from showing.rows import Rows
from oracle import values
from oracle.c0.meaning import Fault
from oracle.programs import Program
from oracle.replay import Differs, Recorder, Replay

LAST = 40


class Lines:
    """Puts lines to standard output, some at a time."""

    def __init__(self):
        self.kept, self.count = [], 0

    def put(self, line):
        self.kept.append(line)
        self.count += 1
        if len(self.kept) > 500:
            self.flush()

    def flush(self):
        if self.kept:
            program.put(('\n'.join(self.kept) + '\n').encode('latin-1'))
            self.kept = []


def turns_made(given, turns):
    """How many turns the run has of which the rows are known."""
    return turns if given.printed.end == 'stopped' else given.printed.last + 1


def look(run, folder, options):
    """Shows what is asked of a run, which is booted up to the last turn that is asked for. Gives the status to end with: that of the boot, or 70 where the
    models and the program differ."""
    wanted, quiet = options.looking, run.put
    turns = asked_for(wanted, options.turns)
    run.put, run.says_spent = (lambda text: None), False
    try:
        # a name that is not there is told before the run is made
        way_of(Replay(made.given(run, folder, False)), wanted, run.put)
        status = run.boot(turns, options.steps)
        run.put = quiet
        if status not in (0, 3, 4):
            return status
        given = made.given(run, folder)
        shown = show(given, wanted, turns_made(given, turns), turns == options.turns)
    except Differs as differs:
        say('try: %s. The program is what is proved.' % differs)
        return 70
    unasked.say_why(run, folder, options, status)
    if not shown:
        say('try: %s' % nothing_shown(given, wanted, turns_made(given, turns)))
    return status


def asked_for(wanted, turns):
    """How many turns the program is to make: those behind the last one that is asked for it need not."""
    return turns if wanted.turns in (None, 'last') else min(turns, wanted.turns[1] + 1)


def nothing_shown(given, wanted, turns):
    if wanted.turns and wanted.turns != 'last' and wanted.turns[0] >= turns:
        return 'nothing is shown: the run has turns 0 to %d alone%s.' % (turns - 1, '' if given.printed.end else ' that a row tells of')
    return 'nothing is shown: of what was asked nothing came in these turns.' if turns else 'nothing is shown: not one turn was complete.'


def show(given, wanted, turns, to_end=True):
    """Puts the rows, and how the run ended where they go to its end: one that stopped did so only where all turns were made, `to_end`. Gives how many rows
    there were."""
    first, last = (max(0, turns - LAST), turns - 1) if wanted.turns == 'last' else wanted.turns or (0, turns - 1)
    replay, lines = Replay(given), Lines()
    way = way_of(replay, wanted, lines.put)
    try:
        replay.quietly(min(first, turns))
        way(min(last + 1, turns))
        if replay.turn == turns and given.printed.end:
            lines.count += end_rows(replay, lines.put, to_end)
    finally:
        lines.flush()
    return lines.count


def way_of(replay, wanted, put):
    """How the rows are made: a function that goes on to a number of turns."""
    if wanted.user and wanted.user > len(replay.users):
        raise Bad('--user %d: there %s' % (wanted.user, users_said(replay.users)))
    return (watching if wanted.watch else breaking if wanted.breaks else showing_rows)(replay, wanted, put)


def users_said(users):
    return 'is 1 user' if len(users) == 1 else 'are %d users' % len(users)


def end_rows(replay, put, to_end):
    """How the run ended, where the rows go to its end. The report is compared also of a run that was made no further."""
    if replay.end is None or replay.end == 'halted':
        replay.check_report()
    if replay.end != 'halted' and not replay.run.fault and (replay.end or to_end):
        put(replay.end or 'stopped')
        return 1
    return 0


def showing_rows(replay, wanted, put):
    rows = Rows(put, wanted.user, wanted.kernel)

    def to(turns):
        while replay.turn < turns and replay.end is None:
            rows.take(replay.next_turn())
        rows.end()
    return to


# ---- what changes
class Watch:
    """A global or a part of one, a user's register, pc or word of memory, by its name."""

    def __init__(self, replay, name):
        self.replay, self.name, self.user = replay, name, None
        found = re.fullmatch(r'user(\d+)\.(?:r(\d+)|(pc|hi|lo)|mem\[(\d+)\])', name)
        if found:
            self.of_user(*found.groups())
        elif re.match(r'user\d+\W', name):
            raise Bad('--watch %s: of a user it is user1.r4, user1.pc, user1.hi, user1.lo or user1.mem[64], with the byte address of a word in decimal' % name)
        else:
            self.of_global(name)
        self.value = self.read()

    def of_user(self, user, register, special, word):
        self.user = int(user)
        if not 1 <= self.user <= len(self.replay.users):
            raise Bad('--watch %s: there %s' % (self.name, users_said(self.replay.users)))
        flat = self.replay.users[self.user - 1]
        if register:
            if not 1 <= int(register) <= 31:
                raise Bad('--watch %s: registers are r1 to r31' % self.name)
            self.read = lambda: signed_text(flat.r[int(register)])
        elif special:
            self.read = lambda: '%08x' % getattr(flat, special)
        else:
            if int(word) % 4:
                raise Bad('--watch %s: an address of a word is a multiple of 4' % self.name)
            if int(word) >= 4096 * self.replay.kernel.most:
                raise Bad('--watch %s: with `pages %d` of the parameters no user has a word past %d' % (self.name, self.replay.kernel.most, 4096 * self.replay.kernel.most - 4))
            self.read = lambda: signed_text(flat.m[int(word) // 4]) if int(word) // 4 < len(flat.m) else 'past its memory'

    def of_global(self, name):
        kernel = self.replay.kernel
        try:
            self.type, self.first = values.found(kernel.unit, name)
        except values.BadName as bad:
            raise Bad('--watch %s: %s' % (name, bad)) from None
        self.size = kernel.unit.words(self.type)
        self.read = lambda: values.whole(kernel.unit, self.type, kernel.globals, self.first, kernel.objects)

    def changed(self):
        """The old and the new value, where it is another."""
        old, self.value = self.value, self.read()
        return (old, self.value) if old != self.value else None


def signed_text(word):
    return str(word - (word >> 31 << 32))


class Watcher:
    """Told of the kernel's run: what changed before a statement was changed by the one before it."""

    def __init__(self, replay, watches, put):
        self.replay, self.watches, self.put, self.turn, self.at = replay, watches, put, 0, 0
        self.source = replay.given.kernel

    def look(self):
        for watch in self.watches:
            self.tell(watch, self.source.where(self.source.line(self.at)), self.source.line_text(self.source.line(self.at)))

    def tell(self, watch, where, text):
        change = watch.changed()
        if change:
            self.put('turn %d  %-14s  %s: %s -> %s    %s' % (self.turn, where, watch.name, *change, text))

    def reached(self, at):
        self.look()
        self.at = at

    finishing = reached

    def step(self, user, pc):
        """A step of a user at a pc."""
        for watch in self.watches:
            if watch.user == user:
                given = self.replay.source_of(user)
                line = given.line(pc)
                self.tell(watch, given.source.where(line) if line else '%s %08x' % (given.source.name, pc), given.source.line_text(line) if line else '')

    def ignored(self, *told):
        pass

    entered = stored = tested = primitive = returned = ignored


def watching(replay, wanted, put):
    watches = [Watch(replay, name) for name in wanted.watch]
    watcher = Watcher(replay, watches, put)

    def to(turns):
        for watch in watches:
            watch.value = watch.read()
        replay.kernel.seen = watcher
        run = replay.run
        while run.turn < turns and run.end is None:
            user, watcher.turn = run.current, run.turn
            pc = run.users[user - 1].pc if user else 0
            made_step = Stepping(watcher, run, user, pc)
            call = made_step.go()
            if call is not None:
                watcher.look()
                replay.compare(call, replay.given.printed.by_turn)
        replay.kernel.seen = None
    return to


class Stepping:
    """A turn in which what a user's step changed is told before the kernel is called."""

    def __init__(self, watcher, run, user, pc):
        self.watcher, self.run, self.user, self.pc = watcher, run, user, pc

    def go(self):
        step = self.run.step
        self.run.step = lambda: self.told(step())
        try:
            return self.run.go()
        finally:
            del self.run.step

    def told(self, trap):
        self.watcher.step(self.user, self.pc)
        return trap


# ---- lines that are reached
def breaking(replay, wanted, put):
    given, stops, of_users, beside = replay.given, {}, {}, {}
    names = {user.source.name: number for number, user in enumerate(given.users, 1)}

    def tell(where, text, own=(), by=''):
        put('turn %d  %s is reached%s: %s' % (replay.turn, where, by, text))
        for row in [*own, *state.rows(given, replay)]:
            put(row)

    for name, line in wanted.breaks:
        if name == given.kernel.name:
            check_line(given.kernel, line, code_lines(given.kernel, given.system.unit))
            stops[line] = lambda number: tell(given.kernel.where(number), given.kernel.line_text(number))
        elif name in names:
            user = given.users[names[name] - 1]
            check_line(user.source, line, set(user.begins().values()))
            of_users.setdefault(names[name], set()).add(line)
        else:
            raise Bad('--break %s:%d: it is to be a line of one of the sources: %s' % (name, line, ', '.join([given.kernel.name, *names])))
    for number, lines in of_users.items():
        if given.users[number - 1].kind == 'c0':
            beside[number] = Beside(given.users[number - 1].source, lines)

    def to(turns):
        replay.recorder.stops, replay.recorder.take = stops, lambda event: None
        replay.kernel.seen = replay.recorder
        while replay.turn < turns and replay.end is None:
            user = replay.run.current
            number, line = to_stop_at(replay, user, of_users)
            if line:
                own = beside[user].rows(replay.run.answers[user]) if number == user and user in beside and user not in replay.run.changed else []
                source = given.users[number - 1].source
                tell(source.where(line), source.line_text(line), own, '' if number == user else ' by user %d' % user)
            replay.quietly(replay.turn + 1)
        replay.kernel.seen = None
    return to


def to_stop_at(replay, user, of_users):
    """The line that a user does next, where its source has it to be stopped at, and the number of the user whose source that is: its own, or the one whose
    program a kernel has copied to it."""
    if user and not replay.run.pending | replay.run.lines.get(replay.turn, 0):
        for number, lines in of_users.items():
            given = replay.given.users[number - 1]
            line = given.begins().get(replay.users[user - 1].pc)
            if line in lines and replay.source_of(user) is given:
                return number, line
    return 0, 0


class Beside:
    """A user in C0 by its meaning, which goes from one time that one of its lines is reached to the next, beside the user's machine."""

    def __init__(self, source, lines):
        self.source, self.program, self.answered, self.found = source, Program(source.text, 10**9), 0, None
        self.program.seen = Recorder(source, self.program, lambda event: None)
        self.program.seen.stops = dict.fromkeys(lines, self.note)

    def note(self, line):
        self.found = state.c0_rows(self.source, self.program)

    def rows(self, answers):
        """Its functions with their variables, and its globals, where the line is reached next; `answers` are those of its calls of `trap` so far."""
        self.found, program = None, self.program
        try:
            while self.found is None and (program.trap is None or self.answered < len(answers)):
                if program.trap is not None:
                    program.answered(answers[self.answered])
                    self.answered += 1
                if not program.work:
                    break
                program.act()
        except Fault as fault:
            program.ending = fault
        return self.found or []


def code_lines(source, unit):
    """The lines on which a statement, a test or a return of a source in C0 begins."""
    found = set()

    def visit(statements):
        for s in statements:
            found.add(source.line(s.span[0]))
            if s.kind in ('if', 'while'):
                visit(s.parts[1])
                visit(s.parts[2])

    for f in unit.functions:
        if f.asm is None:
            visit(f.body)
            found.add(source.line(f.return_at))
    return found


def check_line(source, line, lines):
    if line not in lines:
        near = min(lines, key=lambda other: abs(other - line), default=None)
        raise Bad("--break %s: nothing is run on this line%s" % (source.where(line), '; the nearest that is run is %d' % near if near else ''))

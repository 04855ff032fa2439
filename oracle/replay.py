"""A run that is made again, turn by turn, with what happens in it: README.md, "Looking into a run"."""
from oracle import values
from oracle.assembler import line_numbers
from oracle.c0.cut import START, Cut, places
from oracle.c0.meaning import Seen
from oracle.c0.tree import Node, Parser
from oracle.disassembler import instruction
from oracle.faults import explained
from oracle.printed import Printed
from oracle.programs import CALL, Program
from oracle.run import Run, System, report_rows
from oracle.sources import Source
from oracle.words import M, signed

# the parts of a source's code that are what a line does: a loop's jump to its test and the jump over an `else` are none
BEGUN = ('assign', 'call', 'new', 'test', 'return')
TRAPS = {0x4c: 'main returned', 0x8c: 'a use of null', 0xcc: 'an index out of bounds', 0x10c: 'a division by 0', 0x14c: 'a want of stack'}


class Differs(Exception):
    """Where the model and what the program printed differ: the program is what is proved."""


class Event:
    """Something that happens in a run: its kind, its turn, and fields of its kind."""

    def __init__(self, kind, turn, **fields):
        self.kind, self.turn = kind, turn
        self.__dict__.update(fields)

    def fields(self):
        """All that it has, as a dictionary."""
        return dict(self.__dict__)


class User:
    """A user of a system: its source, its kind `s` or `c0`, and the words of its image."""

    def __init__(self, name, text, words):
        self.source, self.kind, self.words, self.numbers, self.first_words = Source(name, text), name.rpartition('.')[2], words, None, None
        self.span = None        # from which word to which its program stands

    def line(self, pc):
        """The line that the word at an address was made of; None where the address is none of its text's words, or its code isn't cut."""
        numbers, at = self.line_numbers(), pc // 4 - (0 if self.kind == 's' else START // 4)
        return numbers[at] if pc % 4 == 0 and 0 <= at < len(numbers) else None

    def line_numbers(self):
        if self.numbers is None:
            self.numbers = line_numbers(self.source.text) if self.kind == 's' else self.lines_of_code()
        return self.numbers

    def holds(self, memory):
        """Whether a memory has the words of this user's program: of one in C0 those of its code."""
        if self.span is None:
            last = next((at for at in range(len(self.words), 0, -1) if self.words[at - 1]), 0)
            self.span = (START // 4 if self.kind == 'c0' else 0, last)
        first, last = self.span
        return last > first and memory[first:last] == self.words[first:last]

    def lines_of_code(self):
        cut = self.cut()
        return [None if place is None else self.source.line(place) for place in places(cut)] if cut else []

    def cut(self):
        """The words of a user in C0, cut by its source; None where they aren't."""
        cut = Cut(self.source.text, True)
        return cut if cut.unfit(self.words[START // 4:START // 4 + cut.at]) is None else None

    def begins(self):
        """The addresses at which what stands on a line begins, each with its line: instructions, or in C0 statements, tests and returns."""
        if self.first_words is None:
            if self.kind == 's':
                self.first_words = {4 * at: line for at, line in enumerate(self.line_numbers()) if line}
            else:
                parts = [part for part in (self.cut().parts if self.cut() else []) if part.what in BEGUN]
                self.first_words = {START + 4 * part.first: self.source.line(part.place) for part in parts}
        return self.first_words


class Given:
    """What a run is made of: the kernel's source, its users, parameters and schedule, and what the program printed of it."""

    def __init__(self, kernel, users, par, schedule, printed):
        self.kernel, self.users, self.printed = Source('kernel.c0', kernel), users, printed if isinstance(printed, Printed) else Printed(printed)
        self.system = System(Parser(kernel), [user.words for user in users], par, schedule)
        self.has_lines = any(row.startswith('line') for row in schedule.split('\n'))


class Recorder(Seen):
    """Makes events of what a run of C0 tells, and hands each to `take`."""

    def __init__(self, source, meaning, take, by=0):
        self.source, self.meaning, self.take, self.by = source, meaning, take, by
        self.turn, self.depth, self.stops = 0, 0, {}

    def reached(self, at):
        """At a line that `stops` has, what it has is called with the line."""
        if self.stops:
            line = self.source.line(at)
            if line in self.stops:
                self.stops[line](line)

    def event(self, kind, node, **fields):
        at = node.span[0] if isinstance(node, Node) else node
        self.take(Event(kind, self.turn, file=self.source.name, line=self.source.line(at), depth=self.depth, by=self.by, **fields))

    def shown(self, t, v):
        return values.scalar(self.meaning.unit, t, v, self.meaning.objects)

    def text(self, statement):
        """A statement in one line: of an `if` and a `while` the head alone."""
        span = statement.span
        if statement.kind in ('if', 'while'):
            body = self.source.text.index('{', statement.parts[0].span[1])
            span = span[0], len(self.source.text[:body].rstrip())
        return self.source.part(span)

    def name(self, place):
        region, at = place
        if region != 'l':
            return values.place_name(self.meaning.unit, place, self.meaning.objects)
        for name, (t, first) in self.meaning.frames[-1].variables.items():
            if first <= at < first + self.meaning.unit.words(t):
                return name + values.path(self.meaning.unit, t, at - first)
        return '?'

    def entered(self, f, args):
        params = [(x[0], self.shown(t, v)) for (t, _, x), v in zip(f.params, args)]
        self.event('call', f.name_span[0], name=f.name, args=params)
        self.depth += 1

    def returned(self, f, answer):
        at = f.asm[1][0] if f.asm is not None else f.return_at
        text = '' if f.asm is not None else 'return %s;' % self.source.part(f.result.span)
        self.event('returned', at, name=f.name, text=text, answer=self.shown(f.answer, answer))
        self.depth -= 1

    def stored(self, statement, t, place, old, value):
        self.event('stored', statement, text=self.text(statement), name=self.name(place), location=place, old=self.shown(t, old), new=self.shown(t, value),
                   value=value, function=self.meaning.frames[-1].function.name)

    def tested(self, statement, answer):
        self.event('tested', statement, text=self.text(statement), answer=answer, by_part=self.deciding(statement.parts[0], answer))

    def deciding(self, test, answer):
        """The part of a test that decided: the first false one of an `&&` that is false, the first true one of an `||` that is true; None of another test."""
        units, part = self.meaning.units, test
        while part.kind == 'bin' and part.parts[0] == ('||' if answer else '&&'):
            left, right = part.parts[1:]
            part = left if self.meaning.value(left)[1] == answer else right
        self.meaning.units = units
        return None if part is test else self.source.part(part.span)

    def primitive(self, statement, name, args, answer):
        why = getattr(self.meaning, 'refusal', None)
        shown = ('true' if answer else 'false') if isinstance(answer, bool) else str(answer)
        self.event('primitive', statement, text=self.text(statement), name=name, args=[int(a) for a in args], answer=shown, why=why)


class ReplayedRun(Run):
    """A run that notes of each user in C0 what its calls of `trap` were answered: register 2 where it goes on behind one. Those of which the kernel changed
    more than that are `changed`: their sources don't say any more what they do. Those that are `over` have ended, or met a fault: behind that nothing
    reads their register 2."""

    def __init__(self, given):
        Run.__init__(self, given.system, dict(given.printed.lines))
        self.programs = {n for n, user in enumerate(given.users, 1) if user.kind == 'c0'}
        self.answers = {n: [] for n in self.programs}
        self.waiting, self.over, self.changed, self.argument = set(), set(), set(), 0

    def step(self):
        user = self.current
        if user in self.waiting:
            self.answers[user].append(self.users[user - 1].r[2])
            self.waiting.discard(user)
        trap = self.users[user - 1].step()
        self.argument = self.users[user - 1].r[4]
        if user in self.programs and trap == CALL:
            self.waiting.add(user)
        elif user in self.programs and trap is not None and trap[0] == CALL[0]:
            self.over.add(user)
        return trap

    def dispatch(self, call):
        Run.dispatch(self, call)
        for user in self.programs:
            notes = self.kernel.notes.get(user, [])
            if any(not note.startswith('set 2 ') for note in notes) or (notes and user not in self.waiting | self.over):
                self.changed.add(user)


class Replay:
    """A run made again. `turn` turns are complete; `quietly` makes turns without events, `next_turn` makes one and gives its events. Each row that the
    program printed is compared: `Differs` says where one is another."""

    def __init__(self, given):
        self.given, self.run = given, ReplayedRun(given)
        self.kernel, self.users = self.run.kernel, self.run.users
        self.programs = {}      # of users in C0: their meaning so far
        self.origins = {}       # of users that were linked of no words: whose program they last had
        self.events = []
        self.recorder = Recorder(given.kernel, self.kernel, self.events.append)

    @property
    def turn(self):
        return self.run.turn

    @property
    def end(self):
        return self.run.end

    def quietly(self, turns):
        """Makes turns up to so many, or to the end, without events."""
        run, by_turn = self.run, self.given.printed.by_turn
        while run.turn < turns and run.end is None:
            call = run.go()
            if call is not None:
                self.compare(call, by_turn)

    def compare(self, call, by_turn):
        row = by_turn.get(call.turn)
        if row is None and call.turn > self.given.printed.last and not self.given.printed.end:
            return      # what is printed was cut off before
        if row != call.row():
            raise Differs("the model and the program differ in turn %d: the program printed '%s', the model has '%s'" % (
                call.turn, row or 'no row', call.row()))

    def check_report(self):
        """Compares the end and the report with what the program printed, where it printed them."""
        printed = self.given.printed
        if printed.end in ('halted', 'stopped'):
            own = report_rows(self.run)
            other = [printed.end] + printed.report
            if own != other:
                at = next((i for i, (a, b) in enumerate(zip(own + [None], other + [None])) if a != b), 0)
                raise Differs("the model and the program differ in the report: the program printed '%s', the model has '%s'" % (
                    (other + ['no further row'])[at], (own + ['no further row'])[at]))

    def next_turn(self):
        """Makes a turn. Gives its events in their order."""
        self.events.clear()
        run, user = self.run, self.run.current
        self.recorder.turn, self.recorder.depth = run.turn, 0
        before = self.before(user) if run.turn and user else None
        logged = len(self.kernel.log)
        self.kernel.seen = self.recorder
        try:
            call = run.go()
        finally:
            self.kernel.seen = None
        made = list(self.events)
        head = self.of_step(user, before) if before and (call is None or run.trap) else []
        if call is None:
            return head
        self.compare(call, self.given.printed.by_turn)
        head += self.trapped(call) if user in self.run.programs and run.trap else []
        head.append(Event('dispatch', call.turn, cause=call.cause, data=call.data, user=call.user, why=why_called(call, self.users)))
        made += [Event('console', call.turn, word=w) for w in self.kernel.log[logged:]]
        if run.fault:
            made.append(self.of_fault(call))
        made.append(Event('next', call.turn, next=call.next, fault=call.fault))
        return head + made

    # ---- a user's step
    def before(self, user):
        """What a step may change: pc, registers, hi, lo, and where it would store with the word that stands there; and whose source says what it does."""
        f = self.users[user - 1]
        word = f.m[f.pc // 4] if f.pc % 4 == 0 and f.pc // 4 < len(f.m) else None
        at = None
        if word is not None and word >> 26 == 0x2b:
            offset = word & 0xffff
            at = f.r[word >> 21 & 31] + (offset - 0x10000 if offset >> 15 else offset) & M
        held = f.m[at // 4] if at is not None and at % 4 == 0 and at // 4 < len(f.m) else None
        return f.pc, list(f.r), f.hi, f.lo, word, at, held, self.source_of(user)

    def source_of(self, user):
        """The user whose source says what a user does: itself; where it was linked of no words, the one whose program a kernel has copied there."""
        own, memory = self.given.users[user - 1], self.users[user - 1].m
        if own.words:
            return own
        last = self.origins.get(user)
        if last is None or not last.holds(memory):
            last = self.origins[user] = next((other for other in self.given.users if other.holds(memory)), None)
        return last or own

    def of_step(self, user, before):
        """The event of a step that was made."""
        pc, r, hi, lo, word, at, held, given = before
        f, trap = self.users[user - 1], self.run.trap
        # the kernel may have changed the registers since, where the step trapped: a step that traps changes the pc alone
        changes = [] if trap else [('r%d' % i, r[i], f.r[i]) for i in range(1, 32) if r[i] != f.r[i]]
        changes += [] if trap else [(name, old, new) for name, old, new in (('hi', hi, f.hi), ('lo', lo, f.lo)) if old != new]
        if held is not None and not trap:
            changes.append(('mem[%d]' % at, held, f.m[at // 4]))
        taken = None
        if word is not None and not trap and word >> 26 in (1, 4, 5, 6, 7):
            taken = f.pc != (pc + 4) & M or word & 0xffff == 0
        line = given.line(pc)
        text = written(given, line if given.kind == 's' else None, word)
        return [Event('step', self.turn - 1, user=user, pc=pc, word=word, file=given.source.name, line=line, text=text, changes=changes, taken=taken, trap=trap,
                      by_source=user in self.run.programs and user not in self.run.changed)]

    # ---- users in C0
    def program(self, user):
        """The meaning of a user in C0, at its last call of `trap`; `given` says how many answers it has."""
        if user not in self.programs:
            self.programs[user] = Program(self.given.users[user - 1].source.text, 10**9)
        return self.programs[user]

    def trapped(self, call):
        """The events of a user in C0 since its last trap, with the trap that calls the kernel. They stand together at the turn of the trap. None stand where
        the kernel changed more of the user than its answers, since its source then doesn't say what it does."""
        user, events = call.user, []
        if user in self.run.changed:
            return events
        program, answers = self.program(user), self.run.answers[user]
        recorder = Recorder(self.given.users[user - 1].source, program, events.append, user)
        recorder.turn, recorder.depth = call.turn, max(1, len(program.frames))
        while program.given < len(answers):
            program.to_trap()
            program.seen = recorder if program.given + 1 == len(answers) else None
            recorder.depth = max(1, len(program.frames))
            if program.trap is not None:
                program.answered(answers[program.given])
            program.given += 1
        program.seen = recorder
        frames = [(frame.function.name, values.frame_scalars(program, frame)) for frame in program.frames]
        trap = program.to_trap()
        program.seen = None
        argument = program.trap[1][0] & M if trap == CALL else self.users[user - 1].r[4]
        if trap != (call.cause, call.data) or argument != self.run.argument:
            raise Differs('user %d traps in turn %d with cause %d, data %08x and %d in register 4, and its source means cause %d, data %08x and %d' % (
                user, call.turn, call.cause, call.data, self.run.argument, *trap, argument))
        return events + [self.of_trap(user, call, program, frames)]

    def of_trap(self, user, call, program, frames):
        """The trap of a user in C0: its call of `trap`, its end, or its fault. `frames` are the functions that ran at its trap before, with what of their variables
        isn't 0."""
        source, node = self.given.users[user - 1].source, program.trap[0] if program.trap is not None else None
        line, text, why = source.line(node.span[0]) if node else None, source.part(node.span) if node else '', None
        if program.ending is not None:
            about = explained(source, program, program.ending)
            line, text, why = about['line'], about['text'], 'fault %s: %s' % (program.ending.name, about['why'])
        elif node is None:
            why = TRAPS.get(call.data, 'its end')
        return Event('trap', call.turn, user=user, file=source.name, line=line, text=text, argument=program.trap[1][0] if node else None, ended=why,
                     fault=program.ending, program=program, frames=frames)

    # ---- a fault of the kernel
    def of_fault(self, call):
        return Event('fault', call.turn, fault=call.fault, **explained(self.given.kernel, self.kernel, self.run.fault))


def written(given, line, word):
    """An instruction as it is written, without its labels and its comment; disassembled where no line has it."""
    if line is None:
        return instruction(word) if word is not None else ''
    text = given.source.line_text(line).split('#')[0].strip()
    while ':' in text:
        text = text.partition(':')[2].strip()
    return ' '.join(text.split())


def why_called(call, users):
    """The cause of a dispatch in words."""
    cause, data, user = call.cause, call.data, call.user
    if cause == 0:
        return 'the start'
    if cause == 1:
        lines = [str(j) for j in range(8) if data >> j & 1]
        return ('line ' if len(lines) == 1 else 'lines ') + (' and '.join(lines) if len(lines) < 3 else ', '.join(lines[:-1]) + ' and ' + lines[-1])
    if cause in (2, 7):
        return '%s of user %d at %d, which is no multiple of 4' % ('a fetch' if cause == 2 else 'an access', user, data)
    if cause in (3, 8):
        return "%s of user %d: page %d (address %d) is past its memory" % ('a fetch' if cause == 3 else 'an access', user, data // 4096, data)
    if cause == 4:
        return 'no instruction of user %d: the word %08x' % (user, data)
    if cause == 5:
        return 'an overflow of user %d: %s' % (user, instruction(data))
    return 'syscall %d of user %d' % (data >> 6, user)


def signed_words(changes):
    """Changes with their words as ints."""
    return [(name, signed(old), signed(new)) for name, old, new in changes]

"""User programs in C0 by their meaning: what each asks of a kernel, and how it ends. No code of theirs is run here.

usage: oracle/model programs KERNEL PARAMS PROGRAM..   prints of each program's user what its trace says beside steps, registers and memory
"""
import re

from oracle.c0.code import code_words
from oracle.c0.meaning import Fault, Meaning, TooLong, Unit
from oracle.c0.tree import Parser
from oracle.kernel import Kernel
from oracle.run import console_rows, global_rows
from oracle.words import M, signed

CALL, DONE = (6, 0x0c), (6, 0x4c)
FAULTS = {'null': (6, 0x8c), 'bounds': (6, 0xcc), 'zero': (6, 0x10c), 'stack': (6, 0x14c)}
ROOM = 1024     # the words of a program's heap, and of its stack
MOST = 10 ** 6


class Program(Meaning):
    """A run of a program's `main`, which goes from one call of `trap` to the next."""

    def __init__(self, source, most=MOST):
        Meaning.__init__(self, Unit(Parser(source)), ROOM, ROOM, most)
        self.trap, self.ending = None, None     # the call that waits for its answer, and how it ended
        self.given = 0      # how many answers were given to it
        self.begin_main()

    def begin_main(self):
        """The call of `main`, which may have no room on the stack."""
        try:
            self.begin('main', [])
        except Fault as fault:
            self.ending = fault

    def is_primitive(self, name):
        return name == 'trap'

    def call_statement(self, s):
        if s.parts[1][0] != 'trap':
            return Meaning.call_statement(self, s)
        self.trap = s, [self.value(a)[1] for a in s.parts[2]]
        self.units += 1

    def answered(self, word):
        """The kernel's answer to the call that waits."""
        s, args = self.trap
        self.trap = None
        if self.seen is not None:
            self.seen.primitive(s, 'trap', args, signed(word))
        self.work.append(('finish', s, signed(word)))

    def to_trap(self):
        """Runs to the next trap, and gives its cause and data. A program that has ended gives its own trap again."""
        try:
            while self.ending is None and self.trap is None:
                if not self.work:
                    return DONE
                self.act()
        except Fault as fault:
            self.ending = fault
        return CALL if self.ending is None else FAULTS[self.ending.kind]


def pages_of(text):
    """The pages of a program's image: start and stubs, code, globals, heap and stack."""
    unit = Unit(Parser(text))
    pages = lambda words: (words + 1023) // 1024
    return 16 + pages(code_words(text)) + pages(unit.global_words) + 2


class ProgramUser:
    """A user that runs a program: it traps, and nothing else is seen of it. Registers 2 and 4 are right at its calls alone."""

    def __init__(self, text):
        self.program = Program(text)
        self.r, self.pc, self.hi, self.lo = [0] * 33, 0, 0, 0
        self.m = [0] * 1024 * pages_of(text)

    def pages(self):
        return len(self.m) // 1024

    def resize(self, pages):
        self.m = (self.m + [0] * (1024 * pages))[:1024 * pages]

    def step(self):
        if self.program.trap is not None:
            self.program.answered(self.r[2])
            self.program.left = MOST
        trap = self.program.to_trap()
        if trap == CALL:
            self.r[2], self.r[4] = 0, self.program.trap[1][0] & M
        return trap


class System:
    """The run of a kernel over programs: a row for each dispatch, without its turn; each user's journal without steps; how it ended; the kernel."""

    def __init__(self, kernel, programs, par, dispatches=100000):
        q, _, heap, stack = [int(line.split()[1]) for line in par.split('\n')[:4]]
        self.users = [ProgramUser(p) for p in programs]
        self.kernel = Kernel(Parser(kernel), heap, stack, self.users, q, [])
        self.rows, self.end = [], 'stopped'
        self.journals = {u + 1: ['start %d pages %d' % (u + 1, f.pages())] for u, f in enumerate(self.users)}
        call = (0, 0, 0)
        while call and dispatches:
            dispatches -= 1
            call = self.turn(*call)

    def answer(self, *call):
        """Who is next, or the name of the kernel's fault."""
        k = self.kernel
        k.notes = {}
        try:
            n = k.call('dispatch', [signed(x) for x in call])
            return n if 0 <= n <= len(self.users) else 'BadUser'
        except Fault as fault:
            return fault.name
        finally:
            for u, notes in k.notes.items():
                self.journals[u] += notes

    def turn(self, cause, data, user):
        n = self.answer(cause, data, user)
        row = 'cause %d data %08x user %d ' % (cause, data, user)
        self.rows.append(row + ('fault %s' % n if isinstance(n, str) else 'next %d' % n))
        if isinstance(n, str) or n == 0:
            self.end = 'fault ' + n if n else 'halted'
            return None
        try:
            trap = self.users[n - 1].step()
        except TooLong:
            return None
        self.journals[n].append('trap %d %08x' % trap)
        return trap[0], trap[1], n


def journal(kernel, programs, par, user, dispatches=100000):
    """The rows of a trace of a user but those that count steps, up to the end of the run."""
    system = System(kernel, programs, par, dispatches)
    return system.journals[user] + [system.end]


def told(text):
    """Of what a boot prints all that no code has a part in: its dispatches without their turns, its end, globals and console."""
    rows = [re.sub(r'^turn \d+ ', '', row) for row in text.rstrip('\n').split('\n')]
    return [row for row in rows if row.split(' ')[0] not in ('user', 'reg', 'hi', 'lo', 'mem')]


def tells(kernel, programs, par):
    """The same by the meaning."""
    system = System(kernel, programs, par)
    return system.rows + [system.end] + global_rows(system.kernel) + console_rows(system.kernel)


LEAST_WORDS = 3


def main(words):
    read = lambda path: open(path, encoding='latin-1').read()
    given = [read(path) for path in words[2:]]
    for u in range(1, len(given) + 1):
        print('\n'.join(journal(read(words[0]), given, read(words[1]), u)))
    return 0

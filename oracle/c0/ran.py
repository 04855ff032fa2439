"""Whether the words that `emit` makes do what `meaning` says: ends, calls of primitives, globals and heap, in at most 30 steps for each unit.

usage: oracle/model c0_ran all         all kernels and programs of code_cases, bench/code, examples and exercises, and 200 random kernels
       oracle/model c0_ran random N M  the random kernels N to M - 1

Each call of `dispatch` begins with any words in registers and on the stack, and each primitive comes back with any words in registers 1 to 27. The
systems of examples and exercises run with some lines; their programs in C0, and kernels without primitives as programs, are answered at random.
"""
import collections
import glob
import itertools
import os
import random
import re

from oracle import cases, run as running
from oracle.c0.emit import ARGUMENTS, ANSWER, EXITS, FAULTS, LEAVE, PRIMITIVES, START, Code, image, pages
from oracle.c0.meaning import NUMBERS, Fault, Meaning, TooLong
from oracle.c0.random_kernels import Maker
from oracle.c0.said import StandIns
from oracle.flat import Flat
from oracle.generate.programs import as_programs, random_programs
from oracle.kernel import Kernel
from oracle.programs import CALL, Program
from oracle.run import is_program, read
from oracle.words import M, signed

TOP = os.path.join(os.path.dirname(os.path.abspath(__file__)), '..', '..')
STEPS = 30              # the most for each unit of the meaning (docs/COMPILER.md)
ENDLESS = 100000        # the most steps that are looked at of a run whose statements are used up
GUARD = 1024            # words behind the stack, which nothing changes
DISPATCHES, TURNS = 400, 60000      # of a system, at most
ANSWERS = 300           # of a program, at most


class Differs(Exception):
    """Where code and meaning differ, in a sentence."""


class Compiled:
    """The unit of a kernel, and the words of its code."""

    def __init__(self, text):
        code = Code(text)
        self.unit, self.words = code.sizes, code.words()


class Machine:
    """Compiled code on the machine, with room for its heap and its stack."""

    def __init__(self, made, heap, stack):
        words = made.words
        self.globals = pages(START // 4 + len(words))
        self.heap = pages(self.globals + made.unit.global_words)
        self.stack = pages(self.heap + heap)
        self.end = self.stack + stack
        self.flat, self.any = Flat([0] * (self.end + GUARD)), random.Random(0)
        self.flat.m[START // 4:START // 4 + len(words)] = words
        self.flat.m[0x1008 // 4:0x101c // 4] = [0, heap, 4 * self.heap, 4 * self.stack, 4 * self.end]
        self.guard, self.code = self.flat.m[self.end:self.end + GUARD], words

    def spoil(self):
        """Registers 1 to 27, hi and lo have any words."""
        for r in range(1, 28):
            self.flat.r[r] = self.any.getrandbits(32)
        self.flat.hi, self.flat.lo = self.any.getrandbits(32), self.any.getrandbits(32)

    def word(self, value):
        """The word of a value of the meaning."""
        return 4 * ((self.globals if value[0] == 'g' else self.heap) + value[1]) if isinstance(value, tuple) else int(value or 0) & M

    def dispatch(self, args, noted, most):
        """Runs `dispatch` over the primitives that were noted, with their answers. Gives its end, and those of them that weren't called."""
        flat, steps, noted = self.flat, 0, list(noted)
        self.spoil()
        flat.m[self.stack:self.end] = [self.any.getrandbits(32) for _ in range(self.end - self.stack)]
        flat.r[28:], flat.pc = [self.any.getrandbits(32) for _ in range(4)], START
        flat.r[ARGUMENTS:ARGUMENTS + 3] = [a & M for a in args]
        while steps < most:
            if flat.pc == LEAVE:
                return 'left %d' % signed(flat.r[ANSWER]), noted
            if EXITS <= flat.pc < LEAVE:
                return 'fault ' + next(kind for kind in FAULTS if EXITS + 4 * FAULTS[kind] == flat.pc), noted
            if PRIMITIVES <= flat.pc < EXITS:
                if not noted:
                    return 'one primitive more', noted
                self.primitive(*noted.pop(0))
            else:
                steps += 1
                if flat.step():
                    raise Differs('the machine traps at %08x' % flat.pc)
        return 'runs on', noted

    def primitive(self, name, args, answer):
        flat, number = self.flat, (self.flat.pc - PRIMITIVES) // 4
        given = flat.r[ARGUMENTS:ARGUMENTS + len(args)]
        if NUMBERS.get(name) != number or given != [self.word(a) for a in args]:
            raise Differs('primitive %d is called with %s, where %s with %s is meant' % (number, given, name, args))
        back = flat.r[31]
        self.spoil()
        flat.r[ANSWER], flat.pc = self.word(answer), back

    def compare(self, meaning):
        """Globals, heap and what is behind the stack."""
        m = self.flat.m
        for name, at, words in (('globals', self.globals, meaning.globals), ('heap', self.heap, meaning.heap)):
            wanted = [self.word(v) for v in words]
            if m[at:at + len(words)] != wanted:
                raise Differs('the %s are %s, where %s are meant' % (name, m[at:at + len(words)], wanted))
        if m[0x1008 // 4] != len(meaning.heap) or m[self.end:self.end + GUARD] != self.guard or m[START // 4:START // 4 + len(self.code)] != self.code:
            raise Differs('a word is changed that no code may change')


class Beside(Meaning):
    """A meaning whose calls are run by the code, too."""
    machine, noted, met = None, [], 0

    def primitive(self, name, args):
        answer = super().primitive(name, args)
        self.noted.append((name, args, answer))
        return answer

    def call(self, name, args):
        self.noted, units, left, end = [], self.units, self.left, None
        try:
            answer = super().call(name, args)
            end = 'left %d' % answer
            return answer
        except Fault as fault:
            end = 'fault ' + fault.kind
            raise
        except TooLong:
            end = 'runs on'
            raise
        finally:
            if end:
                # where no more statements may come, no more steps are looked at: each makes one
                self.look(args, end, min(left, ENDLESS) if end == 'runs on' else STEPS * (self.units - units) + 100)

    def look(self, args, end, most):
        self.met += 1
        made, left = self.machine.dispatch(args, self.noted, most)
        if end == 'runs on':
            if made not in (end, 'one primitive more'):
                raise Differs('dispatch(%s) ends with %s, and does not end as it is meant' % (args, made))
        elif made != end or left:
            raise Differs('dispatch(%s) ends with %s where %s is meant, and primitives that are left out are %s' % (args, made, end, left))
        else:
            self.machine.compare(self)


class OverStandIns(Beside, StandIns):
    """Over the stand-ins of primitives that code_cases has."""


class OverUsers(Beside, Kernel):
    """Over users."""


def kernel_met(made, heap, stack, calls, most=400000):
    """Runs calls of a kernel's `dispatch` over stand-ins, up to one that doesn't leave. Gives how many there were."""
    meaning = OverStandIns(made.unit, heap, stack, most)
    meaning.machine = Machine(made, heap, stack)
    for args in calls:
        try:
            meaning.call('dispatch', args)
        except (Fault, TooLong):
            break
    return meaning.met


class Watched(running.System):
    """A system whose kernel's code runs beside its meaning."""

    def __init__(self, made, *given):
        running.System.__init__(self, made.unit, *given)
        self.made = made

    def kernel(self):
        made = OverUsers(self.unit, self.heap, self.stack, [Flat(list(words)) for words in self.words], self.pages, self.inputs)
        made.machine = Machine(self.made, self.heap, self.stack)
        return made


class SomeLines:
    """Lines of a run: of the timer often, and of the keyboard sometimes."""

    def get(self, turn, _):
        return (turn % 97 == 96) | 2 * (turn % 499 == 498)


def system_met(folder):
    """Runs the system of a folder. Gives how many calls of its kernel there were."""
    names = sorted((n for n in os.listdir(folder) if re.fullmatch(r'user\d+\.(s|c0)', n)), key=lambda n: int(re.search(r'\d+', n).group()))
    made = running.Run(Watched(Compiled(read(folder, 'kernel.c0')), [running.words_of(read(folder, n)) for n in names], read(folder, 'params'), read(folder, 'schedule')),
                       SomeLines())
    while made.turn < TURNS and made.kernel.met < DISPATCHES and made.end is None:
        made.go()
    return made.kernel.met


def program_met(text):
    """Runs a program, whose calls are answered at random. Gives how many traps there were."""
    meant, flat, any_ = Program(text, 20000), Flat(image(text)), random.Random(1)
    at = pages(START // 4 + len(Code(text, True).words()))
    places = {'g': at, 'h': pages(at + meant.unit.global_words)}
    word = lambda v: 4 * (places[v[0]] + v[1]) if isinstance(v, tuple) else int(v or 0) & M
    for met in itertools.count(1):
        units = meant.units
        try:
            trap = meant.to_trap()
        except TooLong:
            return met
        made, most = None, STEPS * (meant.units - units) + 200
        while made is None and most:
            made, most = flat.step(), most - 1
        if made != trap or trap == CALL and flat.r[4] != meant.trap[1][0] & M:
            raise Differs('the program traps with %s, where %s is meant' % (made, trap))
        wanted = [word(v) for v in meant.globals]
        if flat.m[at:at + len(wanted)] != wanted:
            raise Differs('the globals are %s, where %s are meant' % (flat.m[at:at + len(wanted)], wanted))
        if trap != CALL or met == ANSWERS:
            return met
        answer = any_.choice([0, 1, -1, met, any_.getrandbits(32)])
        meant.answered(answer & M)
        flat.r[1:28] = [any_.getrandbits(32) for _ in range(27)]
        flat.r[ANSWER] = answer & M


# ---- all of them
def random_met(seed):
    r = random.Random(-seed - 1)
    maker = Maker(seed)
    made, rooms = Compiled(maker.text()), (r.choice([8, 64]), r.choice([40, 120, 400]))
    if maker.small:
        starts = [[[n, data, 0], [1, 3, 0], [2, 3, 0]] for n in range(1, len(maker.functions) + 1) for data in range(4)]
    else:
        calls = [[r.choice([0, 1, 2, 3, -1, 5, 2147483647]) for _ in range(3)] for _ in range(6)]
        starts = [calls[n:n + 3] for n in range(4)]
    return sum(kernel_met(made, *rooms, [[0, 0, 0]] + start, 3000) for start in starts)


def all_sources():
    """Each with the kind of it, its name and what runs it."""
    folder = os.path.join(TOP, 'crates', 'code_cases', 'data')
    for file in sorted(os.listdir(folder)):
        for head, source in cases.of_file(os.path.join(folder, file)):
            kind, _, rest = head.partition(' ')
            if kind == 'run':
                words = rest.split(' ')
                calls = [[signed(int(x)) for x in w.split('/')] for w in words[2:] if re.fullmatch(r'-?\d+/-?\d+/-?\d+', w)]
                yield 'cases', '%s: %s' % (file, rest), lambda: kernel_met(Compiled(cases.unescaped(source)), int(words[0]), int(words[1]), calls)
    for path in sorted(glob.glob(os.path.join(TOP, 'bench', 'code', 'kernels', '*.c0'))):
        calls = [[int(x) for x in row.split()[:3]] for row in read(path[:-len('c0')] + 'calls').split('\n') if row]
        yield 'bench', path, lambda: kernel_met(Compiled(read(path)), 4096, 4096, calls)
    for path in sorted(glob.glob(os.path.join(TOP, 'examples', '*')) + glob.glob(os.path.join(TOP, 'exercises', '*', '*'))):
        if os.path.exists(os.path.join(path, 'kernel.c0')) and os.path.exists(os.path.join(path, 'params')):
            yield 'systems', path, lambda: system_met(path)
        for name in sorted(glob.glob(os.path.join(path, 'user*.c0'))):
            if is_program(read(name)):
                yield 'programs', name, lambda: program_met(read(name))
    for n, text in enumerate(itertools.chain(as_programs(), itertools.islice(random_programs(), 200))):
        yield 'as programs', str(n), lambda: program_met(text)
    yield from random_sources(0, 200)


def random_sources(first, last):
    for seed in range(first, last):
        yield 'random', str(seed), lambda: random_met(seed)


def main(words):
    if words != ['all'] and (words[0] != 'random' or len(words) != 3):
        raise ValueError('there is no such run')
    made = all_sources() if words == ['all'] else random_sources(int(words[1]), int(words[2]))
    sources, calls, wrong = collections.Counter(), collections.Counter(), 0
    for kind, name, run in made:
        sources[kind] += 1
        try:
            calls[kind] += run()
        except Differs as why:
            wrong += 1
            print('%s %s: %s' % (kind, name, why))
    for kind, count in sources.items():
        print('%-12s %4d sources, %6d calls' % (kind, count, calls[kind]))
    print('%d differ' % wrong)
    return 70 if wrong else 0

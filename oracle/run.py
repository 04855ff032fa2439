"""The run of a whole system by the abstract machine, written from docs/MEANING.md apart from the crates: turn after turn, and what is printed of it.

usage: oracle/model boot FOLDER TURNS [TURN:MASK ..]             prints the text of a boot
       oracle/model boot FOLDER TURNS trace USER [TURN:MASK ..]  prints the text of a trace of that user

FOLDER has kernel.c0, user1 to userN, each .s or .c0, params and schedule. Which turn takes a line is the physical machine's alone: it is given as TURN:MASK. Systems
that meet no line need none.
"""
import os
import re

from oracle.assembler import assemble
from oracle.c0.emit import image
from oracle.c0.meaning import Fault
from oracle.c0.tree import Parser
from oracle.flat import Flat
from oracle.kernel import Kernel
from oracle.words import signed


class System:
    """A system: the kernel's unit, the words of each user, the parameters and the words of the input."""

    def __init__(self, unit, users, par, schedule):
        self.pages, self.frames, self.heap, self.stack = (int(line.split()[1]) for line in par.split('\n')[:4])
        self.unit, self.words = unit, users
        rows = [row.split() for row in schedule.split('\n') if row]
        self.inputs = [int(row[1]) for row in rows if row[0] == 'input']

    def kernel(self):
        return Kernel(self.unit, self.heap, self.stack, [Flat(list(words)) for words in self.words], self.pages, self.inputs)


def is_program(text):
    """Whether the text of a user is a program in C0."""
    return 'int main()' in text


def words_of(text):
    """The words of a user."""
    return image(text) if is_program(text) else assemble(text)


def of_texts(kernel, users, par, schedule):
    """The system of the texts of a kernel, of users in assembler or in C0, of parameters and of a schedule."""
    return System(Parser(kernel), [words_of(text) for text in users], par, schedule)


class Call:
    """A turn that called the kernel: its number, and cause, data and user of the call. `next` is who comes next, or `fault` names a fault."""

    def __init__(self, turn, cause, data, user):
        self.turn, self.cause, self.data, self.user, self.next, self.fault = turn, cause, data, user, None, None

    def row(self):
        """The row that a boot prints of it."""
        end = 'fault ' + self.fault if self.fault else 'next %d' % self.next
        return 'turn %d cause %d data %08x user %d %s' % (self.turn, self.cause, self.data, self.user, end)


class Run:
    """A run, of which `turn` turns are complete. `lines` says which turn takes lines, and which: {turn: mask}. `end` is None, `halted` or `fault NAME`.
    Rows of journals are made where `noting` says so."""
    noting = True

    def __init__(self, system, lines):
        self.kernel, self.lines = system.kernel(), lines
        self.users = self.kernel.users
        self.pending, self.current, self.end, self.turn = 0, 0, None, 0
        self.fault = None       # what the kernel met, as it was raised
        self.trap = None        # cause and data of the last step, where it trapped

    def go(self):
        """Makes a turn. Gives its `Call`, or None where the user made a step."""
        turn, self.trap = self.turn, None
        self.pending |= self.lines.get(turn, 0)
        if turn == 0:
            call = Call(turn, 0, 0, 0)
        elif self.pending:
            call, self.pending = Call(turn, 1, self.pending, self.current), 0
        else:
            self.trap = self.step()
            call = Call(turn, self.trap[0], self.trap[1], self.current) if self.trap else None
        if call:
            self.dispatch(call)
        self.turn += 1
        return call

    def step(self):
        """A step of the current user: None, or the cause and the data of its trap."""
        return self.users[self.current - 1].step()

    def dispatch(self, call):
        self.kernel.notes = {} if self.noting else None
        try:
            n = self.kernel.call('dispatch', [signed(call.cause), signed(call.data), signed(call.user)])
        except Fault as fault:
            call.fault, self.fault = fault.name, fault
        else:
            if 0 <= n <= len(self.users):
                call.next = self.current = n
                self.end = None if n else 'halted'
            else:
                call.fault = 'BadUser'
        if call.fault:
            self.end = 'fault ' + call.fault

    def state(self):
        """All that turns change, to be put back by `put_back`."""
        k = self.kernel
        users = [(f.pc, list(f.r), f.hi, f.lo, list(f.m)) for f in self.users]
        return (users, list(k.globals), list(k.heap), list(k.objects), list(k.log), k.taken, k.units, self.pending, self.current, self.end, self.turn)

    def put_back(self, state):
        k = self.kernel
        users, globals_, heap, objects, log, k.taken, k.units, self.pending, self.current, self.end, self.turn = state
        k.globals[:], k.heap[:], k.objects[:], k.log[:] = globals_, heap, objects, log
        for f, (f.pc, r, f.hi, f.lo, m) in zip(self.users, users):
            f.r[:], f.m = r, list(m)

    def run(self, turns):
        """Makes turns up to so many, or to the end. Gives the calls."""
        calls = []
        while self.turn < turns and self.end is None:
            call = self.go()
            if call:
                calls.append(call)
        return calls


# ---- what is printed
def global_rows(kernel):
    """The rows of the report for the globals of scalar types."""
    rows, at = [], 0
    for t, name in kernel.unit.globals:
        v = kernel.globals[at]
        if t == ('int',):
            rows.append('global %s %d' % (name, v))
        elif t == ('bool',):
            rows.append('global %s %s' % (name, 'true' if v else 'false'))
        elif t[0] == 'ptr':
            rows.append('global %s %s' % (name, 'set' if v else 'null'))
        at += kernel.unit.words(t)
    return rows


def user_rows(k, f):
    """The rows of the report for a user."""
    rows = ['user %d pages %d pc %08x' % (k, f.pages(), f.pc)]
    rows += ['reg %d %08x' % (i, f.r[i]) for i in range(1, 32) if f.r[i]]
    rows += ['%s %08x' % (n, v) for n, v in (('hi', f.hi), ('lo', f.lo)) if v]
    return rows + ['mem %08x %08x' % (4 * i, w) for i, w in enumerate(f.m) if w]


def console_rows(kernel):
    return ['con %08x' % w for w in kernel.log]


def report_rows(run):
    """The rows of a boot from its end on."""
    out = [run.end or 'stopped'] + global_rows(run.kernel) + console_rows(run.kernel)
    for k, f in enumerate(run.users):
        out += user_rows(k + 1, f)
    return out


def boot_rows(system, turns, lines):
    """What `cvm boot` prints."""
    run = Run(system, lines)
    run.noting = False
    rows = [call.row() for call in run.run(turns)]
    return rows if run.fault or (run.end or '').startswith('fault') else rows + report_rows(run)


def text(system, turns, lines, traced=0):
    """What a boot prints, or the trace of a user."""
    from oracle.journals import trace_rows
    return '\n'.join(trace_rows(system, turns, lines, traced) if traced else boot_rows(system, turns, lines)) + '\n'


def read(*path):
    with open(os.path.join(*path), encoding='latin-1') as file:
        return file.read()


def of_folder(folder):
    """The system of a folder."""
    names = sorted((n for n in os.listdir(folder) if re.fullmatch(r'user\d+\.(s|c0)', n)), key=lambda n: int(re.search(r'\d+', n).group()))
    return of_texts(read(folder, 'kernel.c0'), [read(folder, n) for n in names], read(folder, 'params'), read(folder, 'schedule'))


LEAST_WORDS = 2


def main(words):
    folder, turns, words = words[0], int(words[1]), words[2:]
    traced = 0
    if words and words[0] == 'trace':
        traced, words = int(words[1]), words[2:]
    lines = {}
    for w in words:
        k, _, mask = w.partition(':')
        lines[int(k)] = lines.get(int(k), 0) | int(mask)
    print(text(of_folder(folder), turns, lines, traced), end='')
    return 0

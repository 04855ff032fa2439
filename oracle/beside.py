"""Users that do as they like beside the shell of the example unix, by the abstract machine: what the kernel promises of them is looked at in each turn.

A run begins where the shell waits for its first line: that state is made once. Then five files are others, and the shell starts each of them in the
background, and a program of its own behind them.
"""
import os

from oracle.c0.meaning import Unit
from oracle.c0.tree import Parser
from oracle.flat import Flat
from oracle.kernel import Kernel
from oracle.run import Run, System, read

FOLDER = os.path.join(os.path.dirname(os.path.abspath(__file__)), '..', 'examples', 'unix')
FILES = (15, 16, 17, 18, 19)
SESSION = ('spin &', 'crash &', 'forkbomb &', 'sleeper &', 'pingpong &', 'echo still here')
FIRST, LAST = 2, 9      # the places of processes
PERIOD = 700            # turns from one tick to the next
SEMAPHORES = 300        # the channels of semaphores, from this one on


class Broken(Exception):
    """What a user has done that it may not, in a sentence."""


class SpiedKernel(Kernel):
    """A kernel whose changes of users are noted."""
    touched = frozenset()

    def touch(self, u, done):
        if done:
            self.touched = self.touched | {u}
        return done

    def vm_set(self, u, r, v):
        return self.touch(u, Kernel.vm_set(self, u, r, v))

    def vm_put(self, u, a, v):
        return self.touch(u, Kernel.vm_put(self, u, a, v))

    def vm_resize(self, u, pages):
        return self.touch(u, Kernel.vm_resize(self, u, pages))

    def vm_copy(self, u, a, v, b, k):
        return self.touch(v, Kernel.vm_copy(self, u, a, v, b, k))


class SpiedSystem(System):
    def kernel(self):
        return SpiedKernel(self.unit, self.heap, self.stack, [Flat(list(words)) for words in self.words], self.pages, self.inputs)


class Ticks:
    """The lines of a run: a timer, and from a turn on the keyboard, once for each line of a session."""

    def __init__(self):
        self.typed = range(0)

    def get(self, turn, _):
        return (2 if turn in self.typed else 0) | (turn % PERIOD == 0)


class Beside:
    """The system, which stands where the shell waits for its first line. `images` are the words of each user; the kernel may be another one."""

    def __init__(self, images, kernel=None):
        letters = ''.join('input %d\n' % ord(letter) for line in SESSION for letter in line + '\n')
        self.unit = Unit(Parser(kernel or read(FOLDER, 'kernel.c0')))
        self.run = Run(SpiedSystem(self.unit, images, read(FOLDER, 'params'), letters), Ticks())
        self.run.noting = False
        self.table = self.unit.places['table']
        struct = self.table[0][1]
        self.size, self.fields = self.unit.words(struct), {field: self.unit.field(struct, field)[1] for field in ('state', 'channel', 'killed', 'status')}
        while not (self.of(3, 'state') == 2 and self.of(3, 'channel') == 2):
            self.run.go()
        self.start, self.images = self.run.state(), images

    def of(self, user, field):
        """A field of a process's place."""
        return self.run.kernel.globals[self.table[1] + user * self.size + self.fields[field]]

    def state(self):
        return {user: tuple(self.of(user, field) for field in ('state', 'killed', 'channel')) for user in range(FIRST, LAST + 1)}

    def go(self, others, turns):
        """Runs the session with these words as files, so many turns at most. Gives what the console has; `Broken` where a promise is."""
        run = self.run
        run.put_back(self.start)
        run.fault = None
        for user, words in zip(FILES, others):
            run.users[user - 1].m = list(words) + [0] * (-len(words) % 1024)
        files = {user: list(run.users[user - 1].m) for user in range(10, len(run.users) + 1)}
        run.lines.typed = range(run.turn + 1, run.turn + 1 + len(SESSION))
        until, before = run.turn + turns, self.state()
        while run.turn < until and run.end is None:
            caller = run.current
            run.kernel.touched = frozenset()
            call = run.go()
            if call:
                after = self.state()
                self.look(call, before, after, caller)
                before = after
        if run.end != 'halted':
            raise Broken('after %d turns the shell has not come to its end' % turns)
        if self.of(3, 'status') != 0 or run.kernel.taken < len(run.kernel.inputs):
            raise Broken('the shell ended with %d, and %d letters were read' % (self.of(3, 'status'), run.kernel.taken))
        return ''.join(chr(word) if word < 127 else '?' for word in run.kernel.log), files

    def look(self, call, before, after, caller):
        """What a call of the kernel may have changed: who called, places that were free, processes that were killed, and those whose semaphore is
        no more."""
        run = self.run
        if call.fault:
            raise Broken('the kernel met the fault %s in turn %d' % (call.fault, call.turn))
        if call.next == 0:
            return
        may = {caller} | {user for user in before if before[user][0] == 0 or before[user][1] or after[user][1]}
        may |= {user for user in before if before[user][2] >= SEMAPHORES and after[user][2] == 0}
        if not run.kernel.touched <= may:
            raise Broken('in turn %d user %d calls, and the users %s are changed' % (call.turn, caller, sorted(run.kernel.touched - may)))
        if call.next not in range(1, LAST + 1):
            raise Broken('in turn %d user %d is next' % (call.turn, call.next))

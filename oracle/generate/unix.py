"""Cases of the example unix for shell_cases, with what each command prints.

usage: oracle/model write_unix CASES STDOUT [PRINTED]   as write_examples

The programs' words are those of a model of the compiler (oracle/c0/emit.py; oracle/tests/test_unix.py compares what a boot printed with what their sources
mean). The turns that take lines alone are the program's own: every row, the console and each user's memory are worked out by the abstract machine over
these words.
"""
import os
import random
import re

from oracle import hostile, run as running
from oracle.c0.emit import START, image
from oracle.c0.tree import Parser
from oracle.generate.examples import Examples
from oracle.generate.exercises import EXERCISES, expects
from oracle.generate.writing import EXAMPLES, STEPS, BrokenRule, lines_of, main_of, read, spelled
from oracle.run import is_program, words_of
from oracle.words import little

NOTE = '''The example unix: its session, two traces, a boot from a ROM, a run that is saved and gone on with, a shorter session under ten timers, users of
random words beside the shell, semaphores of the same number, and a table that gets full. Written by oracle/generate/unix.py.

The turns that take lines are the program's own. All else is worked out apart, the words of its compiled programs by a model of the compiler.'''
CASE = 'the example unix'
FOLDER = os.path.join(EXAMPLES, 'unix')
PLACES = 9          # users that begin with no words but the first, which is idle
TURNS = 100000
SAVED = 30000       # the turns after which it is saved
# The words that a command of this system puts are at most so many bytes.
ROOMS = {'img': 1600000, 'o': 400000, 'f': 2400000}
SHORT = ('echo hello world', 'echo one two three | count', 'sleeper 2', 'crash', 'spin &', 'echo again', 'kill 9', 'pingpong')
TIMERS = (1500, 2000, 2500, 3000, 4000, 5000, 7000, 10000, 15000, 25000)
BESIDE = ('spin &', 'crash &', 'sleeper &', 'echo still here', 'echo 1 2 3 | sum')
HOSTILE = 4         # systems of three users of random words each
RACE = '''# In place of init: in each of two rounds its first child makes a semaphore of value 0, the second one waits for it and the
# first one ends, in round 1 after it has raised it. Before the second one runs again init makes a semaphore of value 1, which gets
# the same number. Its letter of a round is 'n' where the second one is told that it is none, and 'o' where it is told 0.
round:  ori   r4, r0, 1         # fork
        syscall
        beq   r2, r0, maker
        ori   r4, r0, 1
        syscall
        beq   r2, r0, waiter
        addu  r17, r2, r0
        ori   r4, r0, 6         # yield: it is made, and waited for
        syscall
        ori   r4, r0, 6         # the first child ends
        syscall
        ori   r4, r0, 46        # 32 * 1 + 14: a semaphore
        syscall
        sll   r4, r17, 5
        ori   r4, r4, 3         # how has the second child ended?
        syscall
        ori   r28, r0, 1024
        addiu r2, r2, 111       # 'o'
        sw    r2, 0(r28)
        ori   r4, r0, 4139      # 32 * (128 * 1 + 1) + 11: a letter to file 1
        syscall
        addiu r16, r16, 1
        slti  r8, r16, 2
        bne   r8, r0, round
        addu  r4, r0, r0        # exit
        syscall
maker:  ori   r4, r0, 14        # 32 * 0 + 14: a semaphore
        syscall
        addu  r17, r2, r0
        ori   r4, r0, 6         # yield: it is waited for
        syscall
        beq   r16, r0, ends
        sll   r4, r17, 5
        ori   r4, r4, 16        # up
        syscall
ends:   addu  r4, r0, r0
        syscall
waiter: sll   r4, r16, 5        # the number is that of the round
        ori   r4, r4, 15        # down
        syscall
        sll   r4, r2, 5         # exit with the answer
        syscall
'''
# The code of a program, a page at most.
CODE, PAGE = 'part u%%d %d 4096' % START, 1024
# Users by their programs' names, as the kernel has them.
PROGRAMS = dict(init=10, sh=11, echo=12, count=13, sum=14, spin=15, crash=16, forkbomb=17, sleeper=18, pingpong=19, grow=20)


def names(folder=FOLDER):
    """The files of the users, in order."""
    found = [name for name in os.listdir(folder) if re.fullmatch(r'user\d+\.(s|c0)', name)]
    return sorted(found, key=lambda name: int(re.search(r'\d+', name).group()))


def schedule(session, period, typed=(60000, 40000), until=1000000):
    """A schedule with a timer on line 0, a session's letters, and line 1 for each of its lines."""
    lines = [(at, 0) for at in range(period, until, period)] + [(typed[0] + typed[1] * n, 1) for n in range(len(session))]
    rows = ['line %d %d' % line for line in sorted(lines, key=lambda line: line[0])]
    return '\n'.join(rows + ['input %d' % ord(letter) for line in session for letter in line + '\n']) + '\n'


def console(text):
    """The letters that a boot has put."""
    return ''.join(chr(int(word, 16)) for word in re.findall(r'^con ([0-9a-f]{8})$', text, re.M))


def images(text):
    """The words of each user, of what a boot prints after one turn."""
    found = []
    for part in text.split('\nuser ')[1:]:
        pages = int(part.split(' ')[2])
        words = [0] * 1024 * pages
        for at, word in re.findall(r'^mem ([0-9a-f]{8}) ([0-9a-f]{8})$', part, re.M):
            words[int(at, 16) // 4] = int(word, 16)
        found.append(words)
    return [found[0]] + [[] for _ in range(PLACES - 1)] + found[PLACES:]


class Unix(Examples):
    note = NOTE

    def __init__(self, printed=None):
        Examples.__init__(self, printed)
        self.kernel, self.par = read('unix', 'kernel.c0'), read('unix', 'params')
        self.tree, self.runs = Parser(self.kernel), {}
        self.users = [words_of(read('unix', name)) for name in names()]

    def begin_unix(self, case, other={}, given='examples/unix', users=None):
        """A case over the files of the example or of an exercise, of which some users are others: texts of words."""
        users = users or names()
        self.begin(case, 'sectors 800\nroom 4000000')
        self.runs[case] = 0
        for short, name in [('k', 'kernel.c0'), ('p', 'params'), ('s', 'schedule')]:
            self.raw('host ' + short, '%s/%s' % (given, name))
        for number, name in enumerate(users, 1):
            if number in other:
                self.part('file a%d' % number, other[number])
            else:
                self.raw('host a%d' % number, '%s/%s' % (given, name))
        made = ['u%d' % number for number in range(1, len(users) + 1)]
        for name in ['o', 'img', 'f'] + made:
            self.raw('zeros ' + name, str(ROOMS.get(name, 200000)))
        self.run('compile kernel k o')
        for number, name in enumerate(users, 1):
            kind = 'program' if (is_program(other[number]) if number in other else name.endswith('.c0')) else 'user'
            self.run('compile %s a%d u%d' % (kind, number, number))
        self.run('link o p img ' + ' '.join(made))

    def system(self, given, other={}):
        users = [words_of(other[number]) if number in other else words for number, words in enumerate(self.users, 1)]
        return running.System(self.tree, users, self.par, given)

    def text(self, case, given, turns=TURNS, traced=0, other={}):
        """What the next run of a case prints: the model's text, where its lines are taken in the turns that the program printed."""
        at = self.runs[case]
        self.runs[case] += 1
        seen = self.had(case, at)
        if not seen:
            return '(not printed)'
        taken = lines_of(self.had(case, 1)[1] if traced else seen[1])
        return running.text(self.system(given, other), turns, {int(turn): int(mask, 16) for turn, mask in taken}, traced)

    def session(self):
        """The session of the folder."""
        given = read('unix', 'schedule')
        self.begin_unix(CASE)
        self.run('boot img s 1 %d' % STEPS, self.text(CASE, given, 1))
        self.same('boot img s %d %d' % (TURNS, STEPS), self.text(CASE, given), 'unix/printed')
        for user in (1, 2):
            self.same('trace img s %d %d %d' % (TURNS, STEPS, user), self.text(CASE, given, TURNS, user), 'unix/trace%d' % user)
        self.saved_example('unix', SAVED)
        self.from_rom('unix', self.kernel, given)

    def saved_example(self, name, turns):
        """As in write_examples, over the file that is there already."""
        rows = read(name, 'printed').splitlines(True)
        shown = [row for row in rows if row.startswith('turn ') and int(row.split()[1]) < turns]
        self.same('save img s %d %d f' % (turns, STEPS), ''.join(shown) + 'saved\n', name + '/saved')
        self.same('resume img s %d %d f' % (TURNS, STEPS), ''.join(rows[len(shown):]), name + '/resumed')

    def says(self, case, text, wanted):
        """A rule: the session's console is this text."""
        if text != '(not printed)' and console(text) != wanted:
            raise BrokenRule('a rule is broken: case %s puts\n%s' % (case, console(text)))

    def timers(self):
        """The same session under ten timers has the same console."""
        case = CASE + ' under ten timers'
        self.begin_unix(case)
        wanted = None
        for period in TIMERS:
            given = schedule(SHORT, period)
            self.part('file s', given)
            text = self.text(case, given, TURNS * 10)
            wanted = wanted or console(text)
            self.says(case, text, wanted)
            self.run('boot img s %d %d' % (TURNS * 10, STEPS), text)

    def hostiles(self):
        """Users of random words, and random programs, in place of three programs."""
        for number in range(HOSTILE):
            self.hostile('users of random words, %d' % number, lambda n: hostile.text_of(hostile.words(random.Random(3 * number + n))))
        library = read('unix', 'library.c0')
        for number in range(HOSTILE // 2):
            self.hostile('random programs, %d' % number, lambda n: hostile.program(random.Random(1000 + 3 * number + n), library))

    def hostile(self, what, made):
        """A session beside three users that were made."""
        case, given = '%s with %s' % (CASE, what), schedule(BESIDE, 4000, until=600000)
        other = {PROGRAMS[name]: made(n) for n, name in enumerate(('spin', 'crash', 'sleeper'))}
        self.begin_unix(case, other)
        for number, text in other.items():
            if is_program(text):
                self.part(CODE % number)
                self.told.append(spelled(little(image(text)[START // 4:][:PAGE])))
        self.part('file s', given)
        self.run('boot img s %d %d' % (TURNS, STEPS), self.text(case, given, TURNS, 0, other))

    def race(self):
        """A process that waits for a semaphore doesn't get one that has the same number by the time it asks again."""
        case, other = CASE + ' with semaphores of the same number', {PROGRAMS['init']: RACE}
        self.begin_unix(case, other)
        self.part('file s')
        text = self.text(case, '', TURNS, 0, other)
        self.says(case, text, 'nn')
        self.run('boot img s %d %d' % (TURNS, STEPS), text)

    def full(self):
        """Where there is no place for a process in the background the shell says so, and no pid."""
        case, given = CASE + ' with a table that gets full', schedule(('sleeper 99 &',) * 6, 20000, until=400000)
        self.begin_unix(case)
        self.part('file s', given)
        text = self.text(case, given)
        self.says(case, text, ''.join('$ sleeper 99 &\n%s\n' % said for said in ('[4]', '[6]', '[8]', '[10]', '[12]', 'full')) + '$ \n')
        self.run('boot img s %d %d' % (TURNS, STEPS), text)

    def exercise(self, name):
        """The solution of an exercise, as a boot of one turn and to its end."""
        case, folder = 'the exercise ' + name, os.path.join(EXERCISES, name, 'solution')
        self.begin_unix(case, given='exercises/' + name, users=names(folder))
        users = [words_of(read(folder, file)) for file in names(folder)]
        system = running.System(Parser(read(folder, 'kernel.c0')), users, self.par, '')
        texts = [running.text(system, turns, {}) for turns in (1, TURNS)]
        if not expects(name, texts[1]):
            raise BrokenRule('the solution of %s does not print what is expected' % name)
        self.run('boot img s 1 %d' % STEPS, texts[0])
        self.run('boot img s %d %d' % (TURNS, STEPS), texts[1])

    def write(self):
        self.session()
        self.timers()
        self.hostiles()
        self.race()
        self.full()
        for name in sorted(os.listdir(EXERCISES)):
            if name.startswith('unix'):
                self.exercise(name)


LEAST_WORDS = 2


def main(words):
    return main_of(Unix, words)

"""Cases of the exercises' solutions for shell_cases, with what each command prints.

usage: oracle/model write_exercises CASES STDOUT [PRINTED]   as write_examples

The cases name the files of the solutions, as write_examples does those of the examples. Those of the small Unix are written by write_unix.
"""
import os

from oracle.generate.examples import Folders, names_of
from oracle.generate.writing import STEPS, TOP, BrokenRule, main_of, read

EXERCISES = os.path.abspath(os.path.join(TOP, 'exercises'))
NOTE = '''The solutions of the exercises, from copies of their files: data/exercises/NAME has those of exercises/NAME/solution. Written by
oracle/generate/exercises.py.

At which turns lines are taken hangs on the physical machine alone: as in lines.cases those texts are the program's own, checked by that script. All
others are worked out apart; those of 7_service, whose user is compiled, by a model of the compiler, and compared with what the program means.'''


def fits(wanted, row):
    """Whether a row is one that is wanted, where a `*` stands for any word."""
    words, others = wanted.split(' '), row.split(' ')
    return len(words) == len(others) and all(word in ('*', other) for word, other in zip(words, others))


def expects(name, text):
    """Whether the rows that the exercise expects come in a text, in their order; a text that isn't there yet is taken for one. That no others of their
    kinds come is compared by exercises/check."""
    rows = iter(text.split('\n'))
    wanted = [row for row in read(EXERCISES, name, 'expected').split('\n') if row and not row.endswith(' ..')]
    return text.startswith('(') or all(any(fits(row, other) for other in rows) for row in wanted)


class Exercises(Folders):
    note = NOTE

    def booted(self, name, text):
        """A boot, whose text has what the exercise expects."""
        if not expects(name, text):
            raise BrokenRule('the solution of %s does not print what is expected' % name)
        self.run('boot img s 100000 %d' % STEPS, text)

    def exercise(self, name):
        case, folder = 'the exercise ' + name, os.path.join(EXERCISES, name, 'solution')
        kernel, users, par, schedule = self.begin_system(case, folder, 'exercises/' + name, names_of(folder, 's'), 64)
        self.booted(name, self.modeled(case, kernel, users, par, schedule))

    def program_exercise(self, name):
        """A solution with users in C0: a boot, and what each user saw."""
        case, folder = 'the exercise ' + name, os.path.join(EXERCISES, name, 'solution')
        kernel, users, par, _ = self.begin_system(case, folder, 'exercises/' + name, names_of(folder, 'c0'), 128)
        self.booted(name, self.compiled_boot(case, kernel, users, par))
        for u in range(1, len(users) + 1):
            self.run('trace img s 100000 %d %d' % (STEPS, u), self.compiled_trace(case, kernel, users, par, u))

    def write(self):
        for name in sorted(os.listdir(EXERCISES)):
            if os.path.isdir(os.path.join(EXERCISES, name)) and not name.startswith('unix'):
                (self.exercise if names_of(os.path.join(EXERCISES, name, 'solution'), 's') else self.program_exercise)(name)


LEAST_WORDS = 2


def main(words):
    return main_of(Exercises, words)

"""Cases of the examples for shell_cases, with what each command prints.

usage: oracle/model write_examples CASES STDOUT [PRINTED]   as write_lines, whose rules for PRINTED hold here too

The cases name the files of the examples and hold none of their bytes, so the program prints what the files as they stand come to, and says whether
this is what is stored beside them.
"""
import os
import re

from oracle import programs
from oracle.c0.code import code_words
from oracle.generate.writing import EXAMPLES, ROOM, STEPS, BrokenRule, Writer, lines_of, main_of, model, model_lines, read

NOTE = '''The examples, from copies of their files: data/examples/NAME has those of examples/NAME, but for the pages. Written by oracle/generate/examples.py.

At which turns the lines of round_robin are taken hangs on the physical machine alone: as in lines.cases that text is the program's own, checked by
that script. All others are worked out apart; those of mailing and services, whose users are compiled, by a model of the compiler, and compared with what
the programs mean.'''


def names_of(folder, ending):
    """The users' files of a folder that end so, in order."""
    names = (re.fullmatch(r'user(\d+)\.' + ending, n) for n in os.listdir(folder))
    return ['user%d.%s' % (n, ending) for n in sorted(int(found.group(1)) for found in names if found)]


def without_steps(text):
    """The rows of a trace but those that count steps, up to its end."""
    rows = [row for row in text.split('\n') if not row.startswith('steps ')]
    return rows[:next(i for i, row in enumerate(rows) if row in ('halted', 'stopped') or row.startswith('fault ')) + 1]


class Folders(Writer):
    """Cases over the files of folders."""
    kinds = ('boot', 'trace')

    def same(self, words, text, path):
        """A run that prints this text, which a file of the example holds."""
        self.run(words, text)
        self.part('as examples/' + path)
        self.told.append('the same' if text.rstrip('\n') == read(path).rstrip('\n') else 'another')

    def begin_system(self, case, folder, given, names, sectors):
        """A case over the files of a folder, which the program's data has under `given`."""
        self.begin(case, 'sectors %d' % sectors)
        for short, n in [('k', 'kernel.c0'), ('p', 'params'), ('s', 'schedule')] + [('a%d' % (i + 1), n) for i, n in enumerate(names)]:
            self.raw('host ' + short, '%s/%s' % (given, n))
        self.build(len(names), kind='user' if names[0].endswith('.s') else 'program')
        text = lambda n: read(os.path.abspath(folder), n)
        return text('kernel.c0'), [text(n) for n in names], text('params'), text('schedule')

    def modeled(self, case, kernel, users, par, schedule, traced=None):
        """What a boot of a system prints, or the trace of a user: the model's text, with the turns of the lines from PRINTED."""
        if 'line' not in schedule:
            return model(kernel, users, par, schedule, 100000, traced)
        seen = self.had(case, 0)
        return model_lines(kernel, users, par, schedule, 100000, lines_of(seen[1]), traced) if seen else '(not printed)'

    # users in C0: all of a text that the compiled code has no part in is what the programs mean
    def compiled_boot(self, case, kernel, users, par):
        text = model(kernel, users, par, '', 100000)
        if programs.told(text) != programs.tells(kernel, users, par):
            raise BrokenRule('a rule is broken: the boot of %s' % case)
        return text

    def compiled_trace(self, case, kernel, users, par, u):
        text = model(kernel, users, par, '', 100000, u)
        if without_steps(text) != programs.journal(kernel, users, par, u):
            raise BrokenRule('a rule is broken: trace %d of %s' % (u, case))
        return text


class Examples(Folders):
    note = NOTE

    def example(self, name):
        case, folder = 'the example ' + name, os.path.join(EXAMPLES, name)
        kernel, users, par, schedule = self.begin_system(case, folder, 'examples/' + name, names_of(folder, 's'), 64)
        self.same('boot img s 100000 %d' % STEPS, self.modeled(case, kernel, users, par, schedule), name + '/printed')
        for u in range(1, len(users) + 1):
            self.same('trace img s 100000 %d %d' % (STEPS, u), self.modeled(case, kernel, users, par, schedule, u), '%s/trace%d' % (name, u))
        self.from_rom(name, kernel, schedule)

    def from_rom(self, name, kernel, schedule):
        """The example from a ROM prints the same, where its lines are raised as many steps later as the ROM takes."""
        words = 'rom img s 100000 %d' % STEPS
        if 'line' in schedule:
            more = 14 + 2702 * ((16384 + code_words(kernel) + 1023) // 1024)    # as oracle/generate/roms.py counts them
            rows = [r for r in schedule.split('\n') if r]
            self.part('file m', ''.join('line %d %s\n' % (int(r.split()[1]) + more, r.split()[2]) if r.startswith('line') else r + '\n' for r in rows))
            words = words.replace(' s ', ' m ')
        self.same(words, read(name, 'printed'), name + '/printed')

    def saved_example(self, name, turns):
        """The example saved after so many turns, and gone on with: its text up to there, and the rest of it."""
        self.raw('zeros f', str(ROOM))
        rows = read(name, 'printed').splitlines(True)
        shown = [row for row in rows if row.startswith('turn ') and int(row.split()[1]) < turns]
        self.same('save img s %d %d f' % (turns, STEPS), ''.join(shown) + 'saved\n', name + '/saved')
        self.same('resume img s 100000 %d f' % STEPS, ''.join(rows[len(shown):]), name + '/resumed')

    def program_example(self, name):
        case, folder = 'the example ' + name, os.path.join(EXAMPLES, name)
        kernel, users, par, schedule = self.begin_system(case, folder, 'examples/' + name, names_of(folder, 'c0'), 128)
        self.same('boot img s 100000 %d' % STEPS, self.compiled_boot(case, kernel, users, par), name + '/printed')
        for u in range(1, len(users) + 1):
            self.same('trace img s 100000 %d %d' % (STEPS, u), self.compiled_trace(case, kernel, users, par, u), '%s/trace%d' % (name, u))
        self.from_rom(name, kernel, schedule)

    def write(self):
        for name in ('adder', 'alternating', 'faults', 'mailbox', 'messages', 'round_robin', 'sharing'):
            self.example(name)
            if name == 'messages':
                self.saved_example(name, 50)
        self.program_example('mailing')
        self.program_example('services')


LEAST_WORDS = 2


def main(words):
    return main_of(Examples, words)

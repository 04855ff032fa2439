"""Cases of whole commands for shell_cases, with what each prints: lines at chosen steps, calls that fail, steps that are spent.

usage: oracle/model write_lines CASES STDOUT [PRINTED]   writes the cases to CASES, and to STDOUT what the program prints of them; PRINTED is what the
                                                         program printed of them before

Which turn takes a line and at which steps turns begin hangs on the physical machine alone. The steps are given below, as measured. The turns of
lines are taken from PRINTED, and all else of these texts is worked out by the abstract machine with these turns, and compared: a text
that breaks a rule ends this. Where PRINTED does not have such a case yet, `(not printed)` stands for its text. What stands printed when a
call fails is worked out from the calls, which are stated.
"""
import re

from oracle.assembler import assemble
from oracle.generate.writing import (HEAD, K1, PARAMS, RESET, STEPS, TURNS, Writer, before_each, lines_of, main_of, model, model_lines, params, placed, read,
                                     until)

# ---- measured: the step that begins a turn, or the number of steps after which the machine is past its turns
ONE_LEFT = 134         # one user: the system is first left for user mode
ONE_BEGINS = 2974      # one user: turn 1 begins where no line is raised, after the page fault of its first fetch
CALLED_LEFT = 134      # the same of the user whose lines are counted, with line 1 raised at step 1
CALLED_BACK = 353      # and user mode is back after turn 1
PRODUCTS_LEFT = 141    # the user of products and quotients
PRODUCTS_BEGINS = 2981 # and its turn 1
MESSAGES_STEPS = 9526  # messages: the whole run

TAKEN = RESET + ' 1\nturn 1 cause 1 data 00000008 user 1 next 0\nhalted\nuser 1 pages 1 pc 00000000\nmem 00000000 0000000c\n'
LATE = TAKEN.replace('cause 1 data 00000008', 'cause 6 data 0000000c').replace('pc 00000000', 'pc 00000004')
CALLED = ('int n; int m; ' + HEAD
          + ' { int next; next = 1; if (cause == 1) { n = n + 1; m = m * 8 + data; if (n == 2) { next = 0; } } return next; }')
TWICE = (RESET + ' 1\nturn 1 cause 1 data 00000002 user 1 next 1\nturn 2 cause 1 data 00000004 user 1 next 0\nhalted\nglobal n 2\nglobal m 20\n'
         + 'user 1 pages 1 pc 00000000\nmem 00000000 0000000c\n')
MESSAGES = [read('messages', n) for n in ('kernel.c0', 'user1.s', 'user2.s', 'user3.s')]
WHOLE = model(MESSAGES[0], MESSAGES[1:], PARAMS, '', 1000)
ROWS = WHOLE.split('\n')
FAIR_IF = 'if (!done[3]) { next = pick(user); }'
FAIR = MESSAGES[0].replace(FAIR_IF, 'if (!done[3]) { next = pick(user); if (next == 3 && !(done[1] && done[2])) { next = pick(3); } }')
FORTY = ''.join('line %d 0\n' % (1000 * i) for i in range(1, 41))


def fair(text):
    """One row of turn 0, one system call of each user, at most forty lines; the report of the run without lines; and the model's text."""
    rows, cut = text.split('\nhalted')[0].split('\n'), lambda t: t[t.index('\nhalted'):].rstrip('\n')
    calls = [r.split()[7] for r in rows if ' cause 6 data 0000000c ' in r]
    lines = [r for r in rows if ' cause 1 data 00000001 ' in r]
    return ('\nhalted' in text and rows[0] == RESET + ' 1' and sorted(calls) == ['1', '2', '3'] and len(lines) <= 40
            and len(rows) == 4 + len(lines) and cut(text) == cut(WHOLE)
            and text.rstrip('\n') == model_lines(FAIR, MESSAGES[1:], PARAMS, '', 100000, lines_of(text)).rstrip('\n'))


def bare(source, mark):
    """The lines of a source that aren't empty and hold more than a comment."""
    return ''.join(line for line in source.splitlines(True) if line.strip() and not line.strip().startswith(mark))


BARE = [bare(MESSAGES[0], '//')] + [''.join(line.lstrip(' ') for line in bare(u, '#').splitlines(True)) for u in MESSAGES[1:]]
SAYS = 'three users, with no comment in their sources'
BARE_FAIR = BARE[0].replace(FAIR_IF, FAIR[FAIR.index('if (!done[3]) {'):].split('\n')[0])
# a row is one put, but for that of a global: its name is put by itself
PUTS = [p for row in WHOLE.splitlines(True) for p in (re.findall('^global |[^ ]+(?= )|.*\n', row) if row.startswith('global') else [row])]
# the pages are written before the first row
LOADED = [(4 * i, assemble(u)) for i, u in enumerate(MESSAGES[1:])] + [(n, []) for n in (1, 12)]
FOUR = 'bool b; ' + HEAD + ' { int next; if (cause == 0) { b = vm_resize(1, 4); next = 1; } return next; }'
PAGES = ['lw r1, 4096(r0)\nlw r2, 8192(r0)\nsw r2, 12288(r0)\nsyscall\n.zero 1020\n.word 11\n.zero 1023\n.word 12\n']
FOUR_TEXT = model(FOUR, PAGES, params(frames=2), '', TURNS)
# three pages are loaded. Pages 0 and 1 are read; 0 is written and 2 read, 1 is written and 0 read, 2 is written and its frame given to page 3, which
# is fresh; and the report reads pages 1 and 2
HELD = [(i, assemble(PAGES[0])[1024 * i:1024 * (i + 1)]) for i in range(4)]
KEPT = 'int x; ' + HEAD + ' { int next; x = 100 / (cause + 3); if (cause < 2) { next = 1; } return next; }'
PRODUCTS = ['ori r1, r0, 7\naddiu r2, r0, -3\nmult r1, r2\nmflo r3\ndiv r1, r2\ndiv r1, r0\nsyscall\n']
TAKEN_AT = [(1 if turn > 1 else PRODUCTS_BEGINS, model_lines(KEPT, PRODUCTS, PARAMS, '', TURNS, [(str(turn), '20')])) for turn in range(1, 8)]

NOTE = '''Lines at chosen steps, steps that are spent, and calls that fail. Written by oracle/generate/lines.py.

At which turns lines are taken (forty lines) hangs on the physical machine alone. This text is the program's own, checked by that script: with
the turns of the lines as printed the model gives the same text. The steps of lines and of the last step of a run are measured. All else is worked
out apart.'''


class Lines(Writer):
    files = True
    note = NOTE

    def kept(self, kernel, users, par=PARAMS):
        """Shows that the files are as they were, and the sectors of the first pages, which no frame was taken from."""
        self.kept_files(kernel, users, par, '')
        if 'frames 8\n' in par:
            self.first_sectors(users, 4)

    def lines_in_turn_0(self):
        """A line at each part of turn 0 and of the first page fault."""
        self.schedules('a line at each step of turn 0 and of the first page fault', K1, ['syscall'])
        self.each(1, ONE_BEGINS + 1, 'line @ 3\n', [(ONE_BEGINS, TAKEN), (1, LATE)])
        self.run('boot img s 1 %d' % (ONE_LEFT - 1), '', 4)
        self.kept(K1, ['syscall'])

    def second_lines(self):
        """A second line while the first is handled."""
        self.schedules('a second line at each step at which the first is handled', CALLED, ['syscall'])
        self.each(CALLED_LEFT + 1, CALLED_BACK, 'line 1 1\nline @ 2\n', [(CALLED_BACK - CALLED_LEFT, TWICE)])
        self.kept(CALLED, ['syscall'])

    def messages(self):
        """Messages: steps to the last."""
        self.schedules('the example messages, to its last step', MESSAGES[0], MESSAGES[1:], read('messages', 'params'))
        self.run('boot img s %d %d' % (TURNS, MESSAGES_STEPS), WHOLE)
        self.run('boot img s %d %d' % (TURNS, MESSAGES_STEPS - 1), '\n'.join(ROWS[:3]), 4)
        self.kept(MESSAGES[0], MESSAGES[1:])

    def forty_lines(self):
        """Forty lines."""
        assert FAIR_IF in MESSAGES[0]
        self.schedules('forty lines', FAIR, MESSAGES[1:])
        self.part('file l', FORTY)
        self.checked('forty lines', 0, 'boot img l 100000 %d' % STEPS, WHOLE, fair, 0)
        self.kept(FAIR, MESSAGES[1:])

    def without_comments(self):
        """The same systems by the same sources without a comment."""
        self.schedules(SAYS, BARE[0], BARE[1:])
        self.objects('o', BARE[0])
        self.shows('k', placed(BARE[0]))
        for turns in (TURNS, 101):
            self.run('boot img s %d %d' % (turns, STEPS), WHOLE)
        self.run('boot img s 100 %d' % STEPS, model(BARE[0], BARE[1:], PARAMS, '', 100))
        self.run('boot img s %d %d' % (TURNS, MESSAGES_STEPS), WHOLE)
        self.run('boot img s %d %d' % (TURNS, MESSAGES_STEPS - 1), '\n'.join(ROWS[:3]), 4)
        for user in (3, 1):
            self.run('trace img s %d %d %d' % (TURNS, STEPS, user), model(BARE[0], BARE[1:], PARAMS, '', TURNS, user))
        self.kept(BARE[0], BARE[1:])
        self.schedules('forty lines, with no comment in the sources', BARE_FAIR, BARE[1:])
        self.part('file l', FORTY)
        self.checked('forty lines, with no comment in the sources', 0, 'boot img l 100000 %d' % STEPS, WHOLE, fair, 0)
        self.kept(BARE_FAIR, BARE[1:])

    def failing_sinks(self):
        """A sink that fails."""
        self.failing('each call of the sink fails in turn', 'sink', before_each(PUTS), MESSAGES[0], MESSAGES[1:], PARAMS, WHOLE, 7, after={0: LOADED, 20: LOADED, len(PUTS): LOADED})
        self.kept(MESSAGES[0], MESSAGES[1:])
        self.taking('a sink that takes four bytes of a put that fails', 4, (0, 1, 4, 5, 6, 7, 8, 20, 33), PUTS, MESSAGES[0], MESSAGES[1:], PARAMS)
        self.kept(MESSAGES[0], MESSAGES[1:])

    def failing_disks(self):
        """Four pages over two frames, and a disk that fails."""
        self.failing('each call of the disk fails in turn', 'disk', [''] * 3 + [RESET + ' 1\n'] * 7 + until(FOUR_TEXT, 'mem 00001000', 'mem 00002000'), FOUR, PAGES, params(frames=2), FOUR_TEXT, 5,
                after={n: HELD[:n] + [(i, []) for i in range(n, 4)] for n in range(4)} | {n: HELD for n in (5, 7, 9, 11)})
        self.kept(FOUR, PAGES, params(frames=2))

    def products_and_quotients(self):
        """A line at each step of products and quotients."""
        self.schedules('a line at each step of products and quotients', KEPT, PRODUCTS, options='sectors 64\nroom 2000000')
        self.each(1, PRODUCTS_BEGINS + 7, 'line @ 5\n', TAKEN_AT + [(1, model(KEPT, PRODUCTS, PARAMS, '', TURNS))])
        self.kept(KEPT, PRODUCTS)

    def write(self):
        self.lines_in_turn_0()
        self.second_lines()
        self.messages()
        self.forty_lines()
        self.without_comments()
        self.failing_sinks()
        self.failing_disks()
        self.products_and_quotients()


LEAST_WORDS = 2


def main(words):
    return main_of(Lines, words)

"""Cases of boots from a ROM for shell_cases, with what each prints.

usage: oracle/model write_roms CASES STDOUT [PRINTED]   as write_lines; PRINTED is not read

The systems are those that write_rows and write_lines boot, and so are the texts: where no line is raised a boot from a ROM prints what a boot prints.
The sectors of the users' pages are those of the boot, and those behind the linked words are as before. The steps before the layer takes over are counted
below from the ROM's code as it stands in crates/boot_rom and crates/swap_layer: with them the measured steps of write_lines tell at which turn a line is
taken, and how many steps are enough.
"""
import re

from oracle.assembler import assemble
from oracle.c0.code import code_words
from oracle.generate.lines import (CALLED, CALLED_BACK, CALLED_LEFT, FAIR_IF, KEPT, MESSAGES_STEPS, ONE_BEGINS, ONE_LEFT, PRODUCTS, PRODUCTS_BEGINS,
                                   PRODUCTS_LEFT, PUTS, TWICE)
from oracle.generate.rows import FOUR, FOUR_USER, NINE, OVERFLOW, Rows
from oracle.generate.writing import (FIRST, K1, PARAMS, RESET, STEPS, TURNS, Writer, before_each, main_of, model, model_lines, params, read, source_image,
                                     until)


def linked(kernel):
    """How many sectors the linked words of a kernel take."""
    return (16384 + code_words(kernel) + 1023) // 1024


def rom_steps(count, busy=0):
    """The steps before a ROM's machine stands as a loaded one after its reset: the jump, 4 to begin; for each sector 5 for its command and a read of the
    status, which 3 more go before each 3 steps that it is busy, 3 to settle, 128 turns of 21 that move its words and the last test, 3 to go on and 2 of the
    loop; then the loop's last test, 7 to clear, and the jump to word 0."""
    return 1 + 4 + count * (5 + 3 * ((busy + 2) // 3) + 3 + 128 * 21 + 1 + 3 + 2) + 1 + 7 + 1


SMALL = [('16', 'refused 90 17 16', 5, 1000000), ('17', RESET + ' 0\nhalted\nglobal x -3\n', 0, 1000000), ('17', '', 4, 5), ('0', 'refused 90 17 0', 5, 5)]
COUNT = linked(K1)
BEGINS = rom_steps(COUNT) + ONE_BEGINS
TAKEN = RESET + ' 1\nturn 1 cause 1 data 00000008 user 1 next 0\nhalted\nuser 1 pages 1 pc 00000000\nmem 00000000 0000000c\n'
LATE = TAKEN.replace('cause 1 data 00000008', 'cause 6 data 0000000c').replace('pc 00000000', 'pc 00000004')
EXAMPLE = [read('messages', n) for n in ('kernel.c0', 'user1.s', 'user2.s', 'user3.s')]
WHOLE = model(EXAMPLE[0], EXAMPLE[1:], PARAMS, '', 1000)
LAST = rom_steps(linked(EXAMPLE[0])) + MESSAGES_STEPS
FAIR = EXAMPLE[0].replace(FAIR_IF, 'if (!done[3]) { next = pick(user); if (next == 3 && !(done[1] && done[2])) { next = pick(3); } }')
ROMS = 'rom img s %d %d' % (TURNS, STEPS)
ROM_OPTIONS = 'sectors 64\nroom 1000000'


class Roms(Rows):
    files = False
    note = 'Boots from a ROM: the systems of rows.cases and lines.cases, and what is its own. Written by oracle/generate/roms.py.'

    def __init__(self, printed=None):
        Rows.__init__(self, None)
        self.pages = self.linked = 0    # of the system that was made last: the pages of all users, and the sectors of the linked words

    # ---- each system that write_rows boots: a boot becomes one from a ROM
    def run(self, words, text='', status=0):
        """A boot becomes one from a ROM; where some steps are given, with the ROM's more."""
        fields = words.split(' ')
        if fields[0] == 'boot':
            more = rom_steps(self.linked) if 0 < int(fields[4]) < STEPS else 0
            words = ' '.join(['rom'] + fields[1:4] + [str(min(int(fields[4]) + more, 2**64 - 1))])
        Writer.run(self, words, text, status)

    def begin(self, name, options=''):
        Writer.begin(self, 'from a ROM: ' + name, options)

    def system(self, kernel, users=(), par=PARAMS, schedule='', image='img'):
        Writer.system(self, kernel, users, par, schedule, image)
        self.pages, self.linked = len(users) * int(re.search(r'pages (\d+)', par).group(1)), linked(kernel)

    def sectors(self, held):
        """Shows the sectors of the users' pages among these, and the first one behind the linked words."""
        Writer.sectors(self, [(n, words) for n, words in held if n < self.pages] + [(self.pages + self.linked, [])])

    def alone(self, name, source, text, status=0, turns=TURNS, steps=STEPS, options='sectors 64'):
        self.begin(name, options)
        self.raw('file img', source_image(source))
        self.part('file s')
        self.pages, self.linked = 0, linked(source)
        self.run('boot img s %d %d' % (turns, steps), text, status)
        self.sectors([])

    # ---- what is a ROM's own
    def plain(self, words, text='', status=0):
        Writer.run(self, words, text, status)

    def named(self, name, options=''):
        Writer.begin(self, name, options)

    def built(self, kernel, users=(), par=PARAMS):
        Writer.system(self, kernel, users, par)

    def machine(self, name, kernel, users, par=PARAMS, options=ROM_OPTIONS):
        self.named(name, options)
        self.built(kernel, users, par)

    def line_at(self, step, line, text):
        self.part('file l', 'line %d %d\n' % (step, line))
        self.plain('rom img l %d %d' % (TURNS, STEPS), text)

    def small_disks(self):
        """The disk has to hold the linked words too; and a budget that is spent in the ROM."""
        for count, text, status, steps in SMALL:
            self.named('a ROM over %s sectors, in %d steps' % (count, steps), 'sectors ' + count)
            self.raw('file img', source_image(FIRST))
            self.part('file s')
            self.plain('rom img s 1000 %d' % steps, text, status)
        self.named('a ROM whose disk has room for the pages alone', 'sectors 8')
        self.built(NINE, [OVERFLOW, OVERFLOW])
        self.plain('rom img s 1000 1000000', 'refused 90 25 8', 5)
        Writer.sectors(self, [(0, []), (7, [])])
        self.plain('boot img s 1 1000000', model(NINE, [OVERFLOW, OVERFLOW], PARAMS, '', 1))

    def what_comes_first(self):
        self.named('what stands before a ROM is booted comes first')
        self.raw('file img', source_image(FIRST))
        self.raw('file cut', source_image(FIRST)[:-1])
        self.part('file s')
        self.part('file bad', 'lines 4 1\n')
        self.plain('rom cut s 1000 1000', 'refused 51 12', 2)
        self.plain('rom img bad 1000 1000', 'refused 70 1', 2)
        self.plain('rom nowhere s 1000 1000', '', 6)
        self.plain('rom img nowhere 1000 1000', '', 6)
        for words in ('rom img s 0 5', 'rom img s 4294967296 5', 'rom img s 1 18446744073709551616', 'rom img s 01 5', 'rom img s 1', 'rom img s 1 5 1',
                      'ROM img s 1 5', 'rom'):
            self.plain(words, 'bad words', 1)

    def early_lines(self):
        """Lines at steps of the ROM and of turn 0 are taken by turn 1."""
        self.machine('a line at steps of the ROM, of turn 0 and of the first page fault', K1, ['syscall'])
        for step in sorted(set(range(0, BEGINS, 1597)) | {1, rom_steps(COUNT), rom_steps(COUNT) + 1, rom_steps(COUNT) + ONE_LEFT, BEGINS}):
            self.line_at(step, 3, TAKEN)
        self.line_at(BEGINS + 1, 3, LATE)

    def second_lines(self):
        """A second line while the first is handled, at the steps of the boot with the ROM's before them; the first one is raised in the ROM, or behind
        it."""
        begins = rom_steps(linked(CALLED))
        self.machine('a second line while the first is handled, from a ROM', CALLED, ['syscall'])
        for first in (1, begins, begins + 1):
            for step in sorted(set(range(CALLED_LEFT + 1, CALLED_BACK, 97)) | {CALLED_BACK}):
                self.part('file l', 'line %d 1\nline %d 2\n' % (first, begins + step))
                self.plain('rom img l %d %d' % (TURNS, STEPS), TWICE)

    def products_and_quotients(self):
        """A line in the ROM and at steps of products and quotients."""
        begins = rom_steps(linked(KEPT))
        self.machine('a line at steps of products and quotients, from a ROM', KEPT, PRODUCTS)
        for step in (1, begins, begins + 1, begins + PRODUCTS_LEFT, begins + (PRODUCTS_LEFT + PRODUCTS_BEGINS) // 2):
            self.line_at(step, 5, model_lines(KEPT, PRODUCTS, PARAMS, '', TURNS, [('1', '20')]))
        for turn in range(1, 8):
            self.line_at(begins + PRODUCTS_BEGINS + turn - 1, 5, model_lines(KEPT, PRODUCTS, PARAMS, '', TURNS, [(str(turn), '20')]))
        self.line_at(begins + PRODUCTS_BEGINS + 7, 5, model(KEPT, PRODUCTS, PARAMS, '', TURNS))

    def busy_times(self):
        """The ROM takes the disk's first commands, which the schedule's busy times count."""
        self.machine('busy times of the commands of the ROM and of the layer', K1, ['syscall'])
        for given, busy in ((range(COUNT), 4095), (range(COUNT), 1), ([0], 7), ([COUNT], 6)):
            self.part('file l', ''.join('busy %d %d\n' % (n, busy) for n in given))
            self.plain('rom img l %d %d' % (TURNS, STEPS), LATE)
            more = len(list(given)) * 3 * ((busy + 2) // 3)
            # turn 0 is complete where user mode is first reached: the layer's own commands come later
            left = rom_steps(COUNT) + (more if COUNT not in given else 0) + ONE_LEFT
            self.plain('rom img l 1 %d' % (left - 1), '', 4)
            self.plain('rom img l 1 %d' % left, model(K1, ['syscall'], PARAMS, '', 1))

    def messages_from_a_rom(self):
        """Messages to its last step, forty lines that all come in the ROM, and a sink that fails."""
        self.machine('the example messages from a ROM, to its last step', EXAMPLE[0], EXAMPLE[1:], read('messages', 'params'))
        self.plain('rom img s %d %d' % (TURNS, LAST), WHOLE)
        self.plain('rom img s %d %d' % (TURNS, LAST - 1), '\n'.join(WHOLE.split('\n')[:3]), 4)
        assert FAIR_IF in EXAMPLE[0]
        self.machine('forty lines in the ROM', FAIR, EXAMPLE[1:])
        assert rom_steps(linked(FAIR)) > 40000
        self.part('file l', ''.join('line %d 0\n' % (1000 * i) for i in range(1, 41)))
        self.plain('rom img l 100000 %d' % STEPS, model_lines(FAIR, EXAMPLE[1:], PARAMS, '', 100000, [('1', '00000001')]))
        self.failing_from('a sink that fails, from a ROM', 'sink', before_each(PUTS), EXAMPLE[0], EXAMPLE[1:], PARAMS, WHOLE, 7, (0, 1, 5, 20, len(PUTS) - 1))

    def failing_from(self, name, what, lefts, kernel, users, par, whole, status, calls, after=()):
        """As `failing` of writing.py, at these of the calls alone."""
        numbers, before = [], 0
        for call in calls:
            numbers.append(str(before + call))
            before += call + 1 + (len(dict(after).get(call, ())) if what == 'disk' else 0)
        self.machine(name, kernel, users, par, '%s\n%s %s' % (ROM_OPTIONS, what, ' '.join(numbers)))
        for call in calls:
            left = lefts[call]
            self.plain(ROMS, left + (' ..' if left[-1:] not in ('', '\n') else ''), status)
            Writer.sectors(self, dict(after).get(call, ()))
        self.plain(ROMS, whole)

    def failing_disks(self):
        """Four pages over two frames: three pages and the linked words are written, the ROM reads these back, and the rest is as from the loaded machine."""
        text, words = model(FOUR, [FOUR_USER], params(frames=2), '', TURNS), linked(FOUR)
        held = [(i, assemble(FOUR_USER)[1024 * i:1024 * (i + 1)]) for i in range(4)]
        lefts = [''] * (3 + 2 * words) + [RESET + ' 1\n'] * 7 + until(text, 'mem 00001000', 'mem 00002000')
        after = {n: held[:n] + [(i, []) for i in range(n, 5)] for n in range(4)}
        after |= {n: held for n in (4, 3 + words, 2 + 2 * words, 3 + 2 * words, len(lefts) - 1)}
        after[2 + words] = held + [(3 + words, [])]
        self.failing_from('calls of the disk that fail, from a ROM', 'disk', lefts, FOUR, [FOUR_USER], params(frames=2), text, 5,
                          (0, 1, 2, 3, 4, 2 + words, 3 + words, 2 + 2 * words) + tuple(range(3 + 2 * words, len(lefts))), after)

    def write(self):
        for systems in (self.kernels_alone, self.kernels_that_fault, self.users, self.users_sharing, self.users_swapping, self.messages, self.altered_disk):
            systems()
        for own in (self.small_disks, self.what_comes_first, self.early_lines, self.second_lines, self.products_and_quotients, self.busy_times,
                    self.messages_from_a_rom, self.failing_disks):
            own()


LEAST_WORDS = 2


def main(words):
    return main_of(Roms, words)

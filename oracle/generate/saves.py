"""Cases of machines that are saved and gone on with for shell_cases, with what each prints.

usage: oracle/model write_saves CASES STDOUT [PRINTED]   PRINTED is not read

What a boot prints is the text of the abstract machine, or of the example's folder. A save prints the rows of the turns before its own and `saved`; a
resume prints what is left of that text. Of the file, the fields are told by docs/FORMATS.md: turns, user, pc and registers from the report of the boot
that stops there, frames of memory from the map, and what else is shown by hand, as said beside it. What a forged file is refused for goes by the table
of fields and by the map, too. Steps are those measured in oracle/generate/lines.py.
"""
import os
import re

from oracle.assembler import assemble
from oracle.c0.code import code_words
from oracle.generate.lines import MESSAGES_STEPS, ONE_BEGINS, ONE_LEFT
from oracle.generate.writing import (EXAMPLES, FIRST, HEAD, K1, PARAMS, RESET, ROOM, STEPS, TURNS, Writer, main_of, model, params, read, source_image, until)
from oracle.words import little

HEAD_WORDS = 56 + 1024      # the words before memory, of a machine with no log
BLOCKS = 12288              # the word of memory at which the control blocks begin, of 64 words each; word 32 is the user's pages


def next_page(word):
    return (word + 1023) // 1024 * 1024


def map_frames(kernel, users, par, global_words):
    """How many frames the memory of a system has, by the map of docs/LAYER.md."""
    pages, frames, heap, stack = (int(line.split()[1]) for line in par.split('\n')[:4])
    tables = next_page(next_page(next_page(next_page(16384 + code_words(kernel)) + global_words) + heap) + stack)
    counts = next_page(tables + len(users) * pages)
    return next_page(counts + 8 * (frames + 1)) // 1024 + 1 + frames


def early(whole, turns):
    """The rows of a boot's text up to where so many turns are complete."""
    return ''.join(row for row in whole.splitlines(True) if row.startswith('turn ') and int(row.split()[1]) < turns)


def late(whole, turns):
    return whole[len(early(whole, turns)):]


MESSAGES = [read('messages', n) for n in ('kernel.c0', 'user1.s', 'user2.s', 'user3.s')]
PAR = read('messages', 'params')
WHOLE = read('messages', 'printed')
FRAMES = map_frames(MESSAGES[0], MESSAGES[1:], PAR, 5)
BYTES = 4 * (HEAD_WORDS + 1024 * FRAMES)
stops_at = lambda turns: model(MESSAGES[0], MESSAGES[1:], PAR, '', turns)
FOUR = 'bool b; ' + HEAD + ' { int next; if (cause == 0) { b = vm_resize(1, 4); next = 1; } return next; }'
FOUR_USER = 'lw r1, 4096(r0)\nlw r2, 8192(r0)\nsw r2, 12288(r0)\nsyscall\n.zero 1020\n.word 11\n.zero 1023\n.word 12\n'
FOUR_TEXT = model(FOUR, [FOUR_USER], params(frames=2), '', TURNS)
FOUR_SECTORS = [(i, assemble(FOUR_USER)[1024 * i:1024 * (i + 1)]) for i in range(3)] + [(3, []), (4, [])]
LEFTS = [''] * 5 + [late(text, 2) for text in until(FOUR_TEXT, 'mem 00001000', 'mem 00002000')]
TAKEN = RESET + ' 1\nturn 1 cause 1 data 00000008 user 1 next 0\nhalted\nuser 1 pages 1 pc 00000000\nmem 00000000 0000000c\n'
LATE = TAKEN.replace('cause 1 data 00000008', 'cause 6 data 0000000c').replace('pc 00000000', 'pc 00000004')
CONSOLE = ('int asked; ' + HEAD + ' { int next; int n; bool ok; next = 1; if (cause == 6) { n = data / 64; if (n == 1) { asked = asked + 1; n = con_left(); '
           + 'ok = vm_set(1, 3, n); n = con_get(); ok = vm_set(1, 2, n); } else { if (n == 2) { n = vm_get(1, 4); ok = con_put(n); } else { next = 0; } } } '
           + 'if (cause > 1 && cause != 6) { next = 0; } return next; }')
SUMS = 'next: syscall 1\nbeq r3, r0, done\naddu r4, r4, r2\nsyscall 2\nj next\ndone: syscall 3\n'
INPUT = 'input 20\ninput 22\ninput 4294967295\n'
SUMMED = model(CONSOLE, [SUMS], PARAMS, INPUT, TURNS)
FAULTS = 'int x; ' + HEAD + ' { int next; next = 1; if (cause == 6) { x = 1 / x; } return next; }'
USER = 'ori r1, r0, 7\nori r2, r0, 8\nsyscall 1\n'
FAULTED = early(model(FAULTS, [USER], PARAMS, '', 2), 2) + 'turn 3 cause 6 data 0000004c user 1 fault DivZero\n'
K1_FRAMES = map_frames(K1, ['syscall'], PARAMS, 0)
MOST = 16378    # 4 * (5176 + 1024 * 16378) = 67104992, and of one frame more 67109088, which is above 67108864
AT = next(f for f in range(16384, 1, -1) if map_frames(K1, ['syscall'], params(frames=f), 0) == MOST)


class Saves(Writer):
    note = 'Machines that are saved and gone on with. Written by oracle/generate/saves.py, which says how each answer was worked out.'

    def save(self, turns, whole, file='f', schedule='s', steps=STEPS):
        self.run('save img %s %d %d %s' % (schedule, turns, steps, file), early(whole, turns) + 'saved\n')

    def resume(self, turns, text, status=0, file='f', schedule='s', steps=STEPS):
        self.run('resume img %s %d %d %s' % (schedule, turns, steps, file), text, status)

    def refused(self, fields, file='forged', turns=TURNS):
        self.resume(turns, 'refused ' + fields, 2, file)

    def forge(self, place, value, fields):
        """The file of the saved machine with another word, which is refused."""
        self.part('set f %d %d' % (place, value))
        self.refused(fields)

    def words_at(self, place, words, file='f'):
        self.parts(file, little(words), 4 * place)

    def fields_at(self, stopped, user, turns, frames, mask=0, file='f'):
        """Shows the fields of a file that the report of the boot tells which stops where it was saved. hi and lo are 0: no user here multiplies."""
        report = stopped[stopped.index('\nuser %d ' % user) + 1:].split('\nuser ')[0].split('\n')
        regs = {int(row.split()[1]): int(row.split()[2], 16) for row in report if row.startswith('reg ')}
        self.words_at(0, [int.from_bytes(b'CVMS', 'little'), 1, frames], file)
        self.words_at(5, [turns, user, mask, int(report[0].split()[5], 16)] + [regs.get(r, 0) for r in range(1, 32)] + [0, 0], file)
        self.words_at(49, [1], file)

    def started(self, name, kernel, users, par=PARAMS, schedule='', options='sectors 12\nroom 1000000'):
        self.begin(name, options)
        self.system(kernel, users, par, schedule)
        self.raw('zeros f', str(ROOM))
        self.raw('zeros g', str(ROOM))

    def messages(self, name, options='sectors 12\nroom 1000000'):
        self.started(name, MESSAGES[0], MESSAGES[1:], PAR, options=options)

    def messages_saved(self):
        """The example messages: saved, gone on with, and how long."""
        self.messages('messages, saved after 50 turns')
        self.run('boot img s %d %d' % (TURNS, STEPS), WHOLE)
        self.save(50, WHOLE)
        self.fields_at(stops_at(50), 2, 50, FRAMES)
        # three commands of the disk: a page of users 1 and 2 was run, and one of user 3 was stored to. No input was taken, and nothing put to the console
        self.words_at(52, [3, 0, 0, 0])
        # the last frame was never used; nothing stands behind it
        self.part('part f %d 8' % (BYTES - 4))
        self.told.append('\\x00' * 4)
        self.resume(TURNS, late(WHOLE, 50))
        self.first_sectors(MESSAGES[1:], 4)
        self.refused('106 50 40', 'f', 40)
        self.part('cut f 10')
        self.refused('101 8')
        self.forge(6, 9, '103 6 9')
        # as many turns as are complete: no step is made, whatever is given
        self.resume(50, late(stops_at(50), 50))
        self.resume(50, late(stops_at(50), 50), steps=0)
        self.resume(51, late(stops_at(51), 50))
        self.resume(95, late(stops_at(95), 50))
        self.resume(100, late(stops_at(100), 50))
        # fewer steps than were made before, and just enough
        self.resume(51, '', 4, steps=0)
        self.resume(TURNS, '', 4, steps=5)
        self.resume(TURNS, late(WHOLE, 50), steps=MESSAGES_STEPS)
        self.resume(TURNS, late(early(WHOLE, 100), 50), 4, steps=MESSAGES_STEPS - 1)
        for turns in (1, 32, 33, 94, 95, 100):
            self.save(turns, WHOLE)
            self.resume(TURNS, late(WHOLE, turns))
            self.first_sectors(MESSAGES[1:], 4)
        # it halts in turn 100, before 101 turns are complete: a boot's text, and nothing is put
        for turns in (101, TURNS):
            self.run('save img s %d %d g' % (turns, STEPS), WHOLE)
        self.unchanged('g')
        # steps that are spent: nothing is put
        self.run('save img s 50 5 g', '', 4)
        self.run('save img s 101 %d g' % (MESSAGES_STEPS - 1), early(WHOLE, 100), 4)
        self.unchanged('g')
        # a file with no room for the last byte, and one with room for all
        self.raw('zeros g', str(BYTES - 1))
        self.run('save img s 50 %d g' % STEPS, early(WHOLE, 50), 6)
        self.unchanged('g', BYTES - 1)
        self.raw('zeros g', str(BYTES))
        self.save(50, WHOLE, 'g')
        self.resume(TURNS, late(WHOLE, 50), file='g')
        self.run('save img s 50 %d nowhere' % STEPS, early(WHOLE, 50), 6)

    def forged_files(self):
        """Forged files."""
        self.messages('forged files of messages')
        self.save(50, WHOLE)
        self.part('file empty')
        self.refused('101 0', 'empty')
        self.refused('100', 'img')
        for count, fields in [(0, '101 0'), (3, '101 0'), (4, '101 4'), (223, '101 220'), (224, '101 224'), (BYTES - 1, '101 %d' % (BYTES - 4)), (BYTES + 1, '102 %d' % BYTES)]:
            self.part('cut f %d' % count)
            self.refused(fields)
        self.forge(0, 1397577304, '100')
        for place, value in [(1, 0), (1, 2), (2, FRAMES - 1), (2, FRAMES + 1), (5, 0), (6, 0), (6, 4), (7, 256), (42, 2), (43, 2), (49, 0), (49, 2), (50, 2), (54, 1), (55, 4097)]:
            self.forge(place, value, '103 %d %d' % (place, value))
        self.forge(53, 1, '103 52 %d' % (2**32 + 3))
        self.forge(55, 1, '101 %d' % BYTES)
        # the layer's part ends in zeros before the control blocks; its variables and the blocks are not compared
        self.forge(HEAD_WORDS + BLOCKS - 1, 7, '104 %d 7 0' % (BLOCKS - 1))
        for place in (2047, BLOCKS + 64 * 3 + 32):
            self.part('set f %d 7' % (HEAD_WORDS + place))
            self.resume(TURNS, late(WHOLE, 50), file='forged')
        self.forge(HEAD_WORDS + BLOCKS + 64 + 32, 5, '105 2 5')
        self.resume(40, 'refused 105 2 5', 2, 'forged')
        # the disk's size comes after the file
        self.part('disk 11')
        self.resume(TURNS, 'refused 90 12 11', 5)
        self.refused('106 50 49', 'f', 49)
        self.refused('105 2 5')
        self.run('save img s 50 %d g' % STEPS, 'refused 90 12 11', 5)
        self.unchanged('g')
        self.part('disk 12')
        self.resume(TURNS, late(WHOLE, 50))

    def what_comes_first(self):
        """What comes first: words, files, the image, the schedule, the saved machine."""
        self.messages('what comes before a machine is saved or taken up')
        self.save(50, WHOLE)
        self.raw('file cut', source_image(FIRST)[:-1])
        self.part('file bad', 'lines 4 1\n')
        for words in ('img s 0 5 f', 'img s 4294967296 5 f', 'img s 1 18446744073709551616 f', 'img s 01 5 f', 'img s 1 -5 f', 'img s 1 5', 'img s 1 5 f f', ''):
            for command in ('save', 'resume', 'Save'):
                self.run((command + ' ' + words).strip(), 'bad words', 1)
        for words in ('save nowhere s 50 %d g', 'save img nowhere 50 %d g', 'resume nowhere s 50 %d f', 'resume img nowhere 50 %d f', 'resume img s 50 %d nowhere',
                      'resume cut s 50 %d nowhere', 'resume img bad 50 %d nowhere', 'resume cut bad 50 %d nowhere'):
            self.run(words % STEPS, '', 6)
        for words in ('save cut s 50 %d g', 'save cut bad 50 %d nowhere', 'resume cut s 50 %d f', 'resume cut bad 50 %d img'):
            self.run(words % STEPS, 'refused 51 12', 2)
        for words in ('save img bad 50 %d g', 'resume img bad 50 %d f', 'resume img bad 40 %d img'):
            self.run(words % STEPS, 'refused 70 1', 2)
        self.unchanged('g')

    def source_alone(self):
        """A source alone has no users, and halts in turn 0."""
        self.begin('a source alone is never saved', 'sectors 2')
        self.raw('file img', source_image(FIRST))
        self.part('file s')
        self.raw('zeros f', str(ROOM))
        self.run('save img s 1 %d f' % STEPS, RESET + ' 0\nhalted\nglobal x -3\n')
        self.unchanged('f')

    def failing_calls(self):
        """Calls that fail. A row is one put, and so is `saved`."""
        self.messages('a sink that fails in a save and in a resume', 'sectors 12\nroom 1000000\nsink 0 2 5 6')
        for turns_shown in (0, 1):
            self.run('save img s 50 %d g' % STEPS, early(WHOLE, 32 * turns_shown), 7)
            self.unchanged('g')
        self.run('save img s 50 %d g' % STEPS, early(WHOLE, 50), 7)
        self.fields_at(stops_at(50), 2, 50, FRAMES, file='g')
        self.resume(TURNS, '', 7, file='g')
        self.resume(TURNS, late(WHOLE, 50), file='g')
        self.messages('a sink that takes three bytes of the row saved', 'sectors 12\nroom 1000000\ntakes 3\nsink 2')
        self.run('save img s 50 %d g' % STEPS, early(WHOLE, 50) + 'sav ..', 7)
        self.resume(TURNS, late(WHOLE, 50), file='g')
        # 14 calls compile and link it. Then a get of the image, of the schedule, and the put; and, after two shows and a save, the three gets of a resume
        self.messages('a shelf that fails in a save and in a resume', 'sectors 12\nroom 1000000\nshelf 14 16 19 25 27 30')
        for text in ('', '', early(WHOLE, 50)):
            self.run('save img s 50 %d g' % STEPS, text, 6)
        self.unchanged('g')
        self.save(50, WHOLE, 'g')
        for n in range(3):
            self.resume(TURNS, '', 6, file='g')
        self.resume(TURNS, late(WHOLE, 50), file='g')

    def four_pages(self):
        """Four pages over two frames: pages 0 and 1 are read in turn 1; from there on each is swapped, as gen_lines.py says. The report reads two pages."""
        self.started('four pages over two frames, saved after each turn', FOUR, [FOUR_USER], params(frames=2), options='sectors 64')
        for turns in (1, 2, 3, 4):
            self.save(turns, FOUR_TEXT)
            self.resume(TURNS, late(FOUR_TEXT, turns))
            self.sectors(FOUR_SECTORS)
        numbers, before = [], 0
        for call in range(len(LEFTS)):
            numbers.append(str(before + 5 + call))
            before += 5 + call + 1
        # two saves more, which fail in the load and in turn 1
        numbers += [str(before + 1), str(before + 2 + 4)]
        self.started('calls of the disk that fail in a resume and in a save', FOUR, [FOUR_USER], params(frames=2), options='sectors 64\ndisk ' + ' '.join(numbers))
        for left in LEFTS:
            self.save(2, FOUR_TEXT)
            self.resume(TURNS, left, 5)
        for left in ('', early(FOUR_TEXT, 2)):
            self.run('save img s 2 %d g' % STEPS, left, 5)
        self.unchanged('g')
        self.save(2, FOUR_TEXT)
        self.resume(TURNS, late(FOUR_TEXT, 2))
        self.sectors(FOUR_SECTORS)

    def lines(self):
        """Lines: one that is latched is in the file; one of a step before it isn't latched anew; and the steps count from the start of the saved run."""
        self.started('lines before and after a machine was saved', K1, ['syscall'])
        self.part('file l1', 'line 1 3\n')
        self.save(1, TAKEN, schedule='l1')
        self.words_at(3, [ONE_LEFT, 0, 1, 1, 8])
        for schedule in ('l1', 's'):
            self.resume(TURNS, late(TAKEN, 1), schedule=schedule)
        for step in (ONE_LEFT - 1, ONE_LEFT, ONE_LEFT + 1):
            self.part('file l', 'line %d 3\n' % step)
            self.save(1, TAKEN, schedule='l')
            self.resume(TURNS, late(TAKEN, 1), schedule='l')
        self.run('save img s 1 %d g' % (ONE_LEFT - 1), '', 4)
        self.save(1, LATE, steps=ONE_LEFT)
        self.words_at(3, [ONE_LEFT, 0, 1, 1, 0])
        for step, text in ((1, LATE), (ONE_LEFT - 1, LATE), (ONE_LEFT + 1, TAKEN), (ONE_BEGINS, TAKEN), (ONE_BEGINS + 1, LATE)):
            self.part('file l', 'line %d 3\n' % step)
            self.resume(TURNS, late(text, 1), schedule='l')

    def consoles(self):
        """The console: how much input was taken, and what was put."""
        self.started('a console whose input is taken before and after', CONSOLE, [SUMS], schedule=INPUT)
        self.run('boot img s %d %d' % (TURNS, STEPS), SUMMED)
        self.part('file few', 'input 20\n')
        for turns in (1, 2, 4, 5, 7, 8, 11, 14, 16):
            self.save(turns, SUMMED)
            self.resume(TURNS, late(SUMMED, turns))
        # it asks in turns 1, 6, 11, and puts a sum in 4, 9, 14
        self.save(10, SUMMED)
        self.words_at(54, [2, 2, 20, 42])
        self.resume(TURNS, late(SUMMED, 10))
        self.resume(TURNS, 'refused 103 54 2', 2, schedule='few')

    def faults(self):
        """A kernel that faults: before it is to be saved, nothing is put; behind, it faults in the resume."""
        self.started('a kernel that faults', FAULTS, [USER])
        self.run('save img s 4 %d g' % STEPS, FAULTED, 3)
        self.unchanged('g')
        for turns in (1, 2, 3):
            self.save(turns, FAULTED)
            self.resume(TURNS, late(FAULTED, turns), 3)

    def another_image(self):
        """Another image: another size of memory, and another kernel of as many frames."""
        self.started('a machine of another image', K1, ['syscall'])
        self.save(1, LATE)
        self.system(K1, ['syscall'], params(frames=9), image='other')
        self.run('resume other s %d %d f' % (TURNS, STEPS), 'refused 103 2 %d' % K1_FRAMES, 2)

    def too_large(self):
        """A machine whose file would be too long: before the run, after the schedule, before the disk's size."""
        self.started('a machine that is too large to be saved', K1, ['syscall'], params(frames=AT + 1), options='sectors 3')
        self.part('file bad', 'lines 4 1\n')
        self.run('save img s 1 %d g' % STEPS, 'refused 107 67109088', 2)
        self.run('save img s 1 %d nowhere' % STEPS, 'refused 107 67109088', 2)
        self.run('save img bad 1 %d g' % STEPS, 'refused 70 1', 2)
        self.run('resume img s 1 %d g' % STEPS, 'refused 100', 2)
        self.system(K1, ['syscall'], params(frames=AT))
        self.run('save img s 1 %d g' % STEPS, 'refused 90 4 3', 5)
        self.unchanged('g')

    def examples(self):
        """The examples, whose texts stand in their folders."""
        for name, turns in (('adder', (2, 10)), ('faults', (3, 12)), ('mailbox', (5, 35)), ('round_robin', (30000,)), ('sharing', (2, 13))):
            self.begin('the example %s, saved' % name, 'sectors 64\nroom 1000000')
            for short, file in [('k', 'kernel.c0'), ('p', 'params'), ('s', 'schedule')]:
                self.raw('host ' + short, 'examples/%s/%s' % (name, file))
            count = len([file for file in os.listdir(os.path.join(EXAMPLES, name)) if re.fullmatch(r'user\d+\.s', file)])
            for i in range(1, count + 1):
                self.raw('host a%d' % i, 'examples/%s/user%d.s' % (name, i))
            self.build(count)
            self.raw('zeros f', str(ROOM))
            whole = read(name, 'printed')
            for t in turns:
                self.save(t, whole)
                self.run('resume img s 100000 %d f' % STEPS, late(whole, t))

    def write(self):
        self.messages_saved()
        self.forged_files()
        self.what_comes_first()
        self.source_alone()
        self.failing_calls()
        self.four_pages()
        self.lines()
        self.consoles()
        self.faults()
        self.another_image()
        self.too_large()
        self.examples()


LEAST_WORDS = 2


def main(words):
    return main_of(Saves, words)

"""Runs that are saved and gone on with, and forged files: the cases of saved_runs, and what the program prints of them.

usage: oracle/model write_saved_runs FOLDER   writes FOLDER/data/messages.cases and FOLDER/stdout: those of crates/saved_runs

The system is the example messages, whose text stands in its folder. What a forged file is refused for goes by the table of fields and by the map of
memory, as docs/FORMATS.md and docs/LAYER.md have them. Those saved words whose value matters are told below by what they are; taken from the program is
how many words the layer's code has, alone. How the files that are not refused end hangs on the machine, so only which statuses may come is said of them.
"""
import os
import re

from oracle.c0.code import code_words
from oracle.generate.writing import read

KERNEL, WHOLE = read('messages', 'kernel.c0'), read('messages', 'printed')
USERS, PAGES, FRAMES, HEAP, STACK, GLOBALS = 3, 4, 8, 64, 256, 5
TURNS, WANTED, STEPS, FEW = 50, 1000, 1000000, 20000


def next_page(word):
    return (word + 1023) // 1024 * 1024


def is_compared(place):
    """Whether a word of memory is a linked one that has to be the image's: not one of the layer's variables, nor of the control blocks."""
    return place < LINKED and not 1024 <= place < 2048 and not BLOCKS <= place < 16384


def is_filled(place):
    """Whether a linked word is one of the zeros with which the layer's code is filled up. Each other one that is compared is an instruction."""
    return HANDLER <= place < 1024 or 2048 + ROUTINES <= place < BLOCKS


# measured: the words of the handler, and of the entries with the routines behind them
HANDLER, ROUTINES = 338, 1376
# the map, in words of memory
BLOCKS, SIZE = 12288, 32
LINKED = 16384 + code_words(KERNEL)
TABLES = next_page(next_page(next_page(next_page(LINKED) + GLOBALS) + HEAP) + STACK)
COUNTS = next_page(TABLES + USERS * PAGES)
MEMORY = next_page(COUNTS + 8 * (FRAMES + 1)) // 1024 + 1 + FRAMES
# The parts of memory, each with where it ends and which of its words are set: each one, where the machine or the layer goes by it, as the handler, the
# variables, the routines, the users' control blocks, the kernel's code, the page tables and the frame table; else each so many-th, as of the zeros behind
PARTS = ((HANDLER, 1), (1024, 7), (2048, 1), (2048 + ROUTINES, 1), (BLOCKS, 7), (BLOCKS + 64 * USERS, 1), (16384, 7), (LINKED, 1),
         (TABLES, 3), (TABLES + USERS * PAGES, 1), (COUNTS, 7), (COUNTS + 8 * (FRAMES + 1), 1), (1024 * MEMORY, 3))
# the file: the words before memory, of which none is of a log, as nothing is put to the console
HEAD, BEFORE = 56, 56 + 1024
BYTES = 4 * (BEFORE + 1024 * MEMORY)
# The words that have a range, by their places: (value, least, most). The run stands in user mode, into which the kernel's return brought it with
# interrupts on; user 2 runs, and no line was raised. Nothing was taken of an input of no words.
FIELDS = {1: (1, 1, 1), 2: (MEMORY, MEMORY, MEMORY), 5: (TURNS, 1, 2**32 - 1), 6: (2, 1, USERS), 7: (0, 0, 255), 42: (1, 0, 1), 43: (1, 0, 1),
          49: (1, 1, 1), 50: (1, 0, 1), 54: (0, 0, 0), 55: (0, 0, 4096)}
# The disk's commands: a page of each user was brought in, as user 3 was given a word. The steps done are more than that, and below FEW.
COMMANDS = 3


def forged(value):
    return 0, 1, (value + 1) % 2**32, 2**32 - 1


def head_refusal(place, value):
    """The number of the refusal of the file in whose head this word is this value; None where it is taken up."""
    if place == 0:
        return 100
    if place in FIELDS:
        least, most = FIELDS[place][1:]
        if not least <= value <= most:
            return 103
    # steps and commands of two words each: only the low words of both are not 0
    if place == 3 and value < COMMANDS or place == 52 and value >= FEW or place == 53 and value > 0:
        return 103
    if place == 55 and value > 0:
        return 101
    if place == 5 and value > WANTED:
        return 106
    return None


def head_words():
    for place in range(HEAD):
        # of the words without a range, and of the steps, the successor is as good as the word itself
        old = COMMANDS if place == 52 else FIELDS[place][0] if place in FIELDS else FEW // 2 if place == 3 else 0
        for value in forged(old):
            yield head_refusal(place, value)


def memory_refusal(changes):
    """The same of a file in whose memory these words are set; of linked words that are not as they were the least place is told, too."""
    linked = [place for place, value in changes.items() if is_compared(place) and not (is_filled(place) and value == 0)]
    if linked:
        return 104, min(linked)
    sizes = {BLOCKS + 64 * user + SIZE for user in range(USERS)}
    return 105 if any(place in sizes and value > PAGES for place, value in changes.items()) else None


def memory_words(first, count, stride):
    for place in range(first, first + count, stride):
        # a user's size is 1 page. No instruction is 0, 1 or 2^32 - 1, so each of the four values is another word there. Of others no value is asked for
        for value in forged(0 if is_filled(place) else 1):
            yield memory_refusal({place: value})


def random_words(first, count, files, state):
    for _ in range(files):
        changes = {}
        for _ in range(8):
            place = (state * 1664525 + 1013904223) % 2**32
            high = (place * 1664525 + 1013904223) % 2**32
            state = (high * 1664525 + 1013904223) % 2**32
            changes[first + place // 256 % count] = high // 65536 * 65536 + state // 65536
        yield memory_refusal(changes)


ROWS = WHOLE.splitlines(True)
LAST = int(re.findall(r'^turn (\d+) ', WHOLE, re.M)[-1])
EARLY = [row for row in ROWS if row.startswith('turn') and int(row.split()[1]) <= TURNS]
LATE = ''.join(ROWS[len(EARLY):])
# linked words, of which the first that differs is told, before a size: each part of the layer is filled up with zeros
LAST_WORD, SIZE_WORD, FIRST_WORD = (BLOCKS - 1, 7), (BLOCKS + SIZE, PAGES + 1), (1023, 9)
# A user of two pages stores 9 at byte 8 of its second page in turn 2. The file says that this page is the ports' (valid, frame fffff), where the power
# word stands at byte 8: so the machine is off in a user's step, which prints no row, by a word above 5, which is told as a fault.
SMALL = 'int next; int dispatch(int cause, int data, int user) { next = 1; return next; }'
SMALL_TABLES = next_page(next_page(next_page(next_page(16384 + code_words(SMALL)) + 1) + 64) + 64)


class SavedRuns:
    """The cases, and what is printed of them."""

    def __init__(self):
        self.cases = ['The example messages, saved and gone on with, and forged files of it. Written by oracle/generate/saved_runs.py.', '']
        self.told = []

    def case(self, head, body=None):
        self.cases.append('== ' + head)
        if body is not None:
            self.cases.append(body.replace('\\', '\\\\').replace('`', '\\x60').replace('~', '\\x7e'))
        if head.split(' ')[0] not in ('file', 'room'):
            self.told.append('== ' + head)

    def run(self, words, text='', status=0):
        self.case('run ' + words)
        self.told.extend(text.splitlines() + ['status %d' % status])

    def tally(self, head, refusals):
        refusals = list(refusals)
        self.case(head)
        numbers = [r[0] if isinstance(r, tuple) else r for r in refusals]
        places = ' at words that add up to %d' % sum(r[1] for r in refusals if isinstance(r, tuple))
        counts = ''.join(', %d refused %d' % (numbers.count(n), n) + places * (n == 104) for n in range(100, 109) if n in numbers)
        self.told.append('%d files%s, the others 0, 3 or 4' % (len(refusals), counts))

    def forge_memory(self, first, count, stride):
        self.tally('words %d %d %d' % (BEFORE + first, count, stride), memory_words(first, count, stride))

    def forge_random(self, first, count, files, seed):
        self.tally('random %d %d %d %d' % (BEFORE + first, count, files, seed), random_words(first, count, files, seed))

    def stands(self):
        """What is taken to stand in the example's folder."""
        assert read('messages', 'params') == 'pages %d\nframes %d\nheap %d\nstack %d\n' % (PAGES, FRAMES, HEAP, STACK) and not read('messages', 'schedule')

    def system(self):
        """The system."""
        for name in ['kernel.c0', 'params'] + ['user%d.s' % user for user in (1, 2, 3)]:
            self.case('file ' + name, read('messages', name))
        self.case('file s', '')
        for name in ('o', 'u1', 'u2', 'u3', 'img'):
            self.case('room ' + name, '400000')
        self.case('room f', str(BYTES))
        self.run('compile kernel kernel.c0 o')
        for user in (1, 2, 3):
            self.run('compile user user%d.s u%d' % (user, user))
        self.run('link o params img u1 u2 u3')
        self.run('boot img s %d %d' % (WANTED, STEPS), WHOLE)

    def every_turn(self):
        """Every turn but the last."""
        self.case('every 1 %d %d %d' % (LAST, WANTED, STEPS))
        self.told.append('%d are as booted' % LAST)
        self.run('save img s %d %d f' % (LAST + 1, STEPS), WHOLE)

    def one_turn(self):
        """One of them, by itself."""
        self.run('save img s %d %d f' % (TURNS, STEPS), ''.join(EARLY) + 'saved\n')
        self.run('resume img s %d %d f' % (TURNS - 10, STEPS), 'refused 106 %d %d\n' % (TURNS, TURNS - 10), 2)
        self.case('cut f 10')
        self.run('resume img s %d %d forged' % (WANTED, STEPS), 'refused 101 8\n', 2)
        self.case('set f 6 9')
        self.run('resume img s %d %d forged' % (WANTED, STEPS), 'refused 103 6 9\n', 2)
        self.run('resume img s %d 5 f' % WANTED, '', 4)
        for name, forging, answer in (('f', LAST_WORD, LAST_WORD), ('forged', SIZE_WORD, LAST_WORD), ('forged', FIRST_WORD, FIRST_WORD)):
            self.case('set %s %d %d' % (name, BEFORE + forging[0], forging[1]))
            self.run('resume img s %d %d forged' % (WANTED, STEPS), 'refused 104 %d %d 0\n' % answer, 2)

    def forged_files(self):
        """Forged files: words of the file, the buffer's behind the head's, and then those of memory; each length of the head; and words at random."""
        self.tally('words 0 %d 1' % HEAD, head_words())
        self.tally('cuts %d' % (4 * HEAD), [101] * (4 * HEAD))
        self.tally('words %d 1024 1' % HEAD, [None] * (4 * 1024))
        first = 0
        for end, stride in PARTS:
            self.forge_memory(first, end - first, stride)
            first = end
        self.forge_random(0, LINKED, 400, 4)
        self.forge_random(BLOCKS, 64 * USERS, 150, 1)
        self.forge_random(TABLES, USERS * PAGES, 50, 2)
        self.forge_random(COUNTS, 8 * (FRAMES + 1), 100, 3)
        self.run('resume img s %d %d f' % (WANTED, STEPS), LATE)

    def power_word(self):
        """A power word that no kernel writes."""
        self.case('file small.c0', SMALL)
        self.case('file small', 'pages 2\nframes 4\nheap 64\nstack 64\n')
        self.cases.append('== file writer.s')
        self.cases.append('addiu r1, r0, 9\nsw r1, 4104(r0)\nl: beq r0, r0, l\n`1030 addu r0, r0, r0\n`')
        for name in ('so', 'su', 'simg', 'sf'):
            self.case('room ' + name, '400000')
        self.run('compile kernel small.c0 so')
        self.run('compile user writer.s su')
        self.run('link so small simg su')
        self.run('save simg s 2 100000 sf', 'turn 0 cause 0 data 00000000 user 0 next 1\nsaved\n')
        self.case('set sf %d %d' % (BEFORE + SMALL_TABLES + 1, 0xfffff800))
        self.run('resume simg s 10 20000 forged', '', 3)

    def write(self):
        self.stands()
        self.system()
        self.every_turn()
        self.one_turn()
        self.forged_files()
        self.power_word()


def main(words):
    writer = SavedRuns()
    writer.write()
    os.makedirs(os.path.join(words[0], 'data'), exist_ok=True)
    for name, rows in ((os.path.join('data', 'messages.cases'), writer.cases), ('stdout', writer.told)):
        with open(os.path.join(words[0], name), 'w', encoding='utf-8') as file:
            file.write('\n'.join(rows) + '\n')
    return 0

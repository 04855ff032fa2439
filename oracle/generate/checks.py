"""Cases of checks for shell_cases, with what each prints: how much stack the kernels of objects need, and what is refused.

usage: oracle/model write_checks CASES STDOUT [PRINTED]   PRINTED isn't looked at

What is printed of a kernel is what oracle/c0/stack.py says, by force; of the first three it is stated beside the kernel too, worked out by hand. What is
refused was worked out from docs/REFUSALS.md.
"""
import os

from oracle.c0 import stack
from oracle.c0.code import code_words
from oracle.generate.writing import EXAMPLES, FIRST, HEAD, RESET, ROOM, STEPS, TURNS, Writer, escaped, main_of, params, placed, read
from oracle.words import little

DOWN = ('int x; int down(int n) { int r; if (n > 0) { r = down(n - 1); } else { r = 0; } return r; } '
        + HEAD + ' { x = down(11); return 0; }')
LARGE = HEAD + ' { int[100] a; a[0] = 1; return 0; }'


def little_object(source, words, form=1, count=None):
    """The spelling of an object's bytes: its source, and words."""
    return 'CVMO' + ''.join(escaped(n) for n in (form, len(source), len(words) if count is None else count)) + source + ''.join(escaped(n) for n in words)


NEEDS = 'int x; int deep(int a) { int[50] v; v[49] = a; return v[49]; } ' + HEAD + ' { x = deep(7); return 0; }'
MORE = NEEDS.replace('50', '58').replace('49', '57')
SHORT = HEAD + ' { return 0; }'


class Checks(Writer):
    note = 'How much stack the kernels of objects need. Written by oracle/generate/checks.py.'

    def placed_object(self, kernel, name='o'):
        self.part('file k', kernel)
        self.raw('zeros ' + name, str(ROOM))
        self.run('compile kernel k ' + name)

    def checks(self, words, kernel, least, name='o'):
        self.run('check %s %d' % (name, words), stack.check(kernel, words))
        if least:
            assert stack.check(kernel, words) == least, (kernel, words)

    def kernel(self, name, source, given):
        """A kernel that is compiled, and checked beside numbers of words of stack, each with what is printed, if that is stated."""
        self.begin(name)
        self.placed_object(source)
        for words, least in given:
            self.checks(words, source, least)

    def with_object(self, name, spelling, text, options=''):
        """Bytes that are no object, or one that isn't opened."""
        self.begin(name, options)
        self.raw('file o', spelling)
        self.run('check o 64', text, 2)

    def needs(self):
        """What kernels need."""
        self.kernel('a dispatch that calls a function that picks', read('messages', 'kernel.c0'), [(64, 'yes 15\nchain dispatch pick\n')])
        self.kernel('a function that calls itself, checked', DOWN, [(256, 'no cycle\ncycle dispatch down down\n'), (262144, None)])
        self.kernel('a large frame', LARGE, [(64, 'no 106\nchain dispatch\n'), (105, None), (106, 'yes 106\nchain dispatch\n'), (107, None)])
        self.kernel('functions that are called last and first', 'int x; int second(int a) { x = third(); return a; } int third() asm { addu r2, r0, r0 } int first() { int[3] v; v[0] = 1; return 0; } '
               + HEAD + ' { int y; while (y < 1) { if (y == 0) { y = first(); } else { y = second(2); } } return vm_size(1); }'.replace('return vm_size(1)', 'y = vm_size(1); return y'), [(64, None)])
        self.kernel('a loop through dispatch', 'int x; int again() { x = dispatch(0, 0, 0); return 0; } int never() { x = never(); return 0; } ' + HEAD + ' { x = again(); return 0; }', [(64, 'no cycle\ncycle dispatch again dispatch\n')])
        for name in sorted(it for it in os.listdir(EXAMPLES) if os.path.isdir(os.path.join(EXAMPLES, it))):
            self.begin('the stack of the example ' + name)
            self.raw('host k', 'examples/%s/kernel.c0' % name)
            self.raw('zeros o', str(ROOM))
            self.run('compile kernel k o')
            words = int(read(name, 'params').split('stack ')[1])
            self.checks(words, read(name, 'kernel.c0'), None)

    def just_enough(self):
        """A system with as much stack as is needed, and one with a word less."""
        self.begin('the words that a check names are enough, and needed', 'sectors 64')
        self.placed_object(NEEDS)
        self.checks(64, NEEDS, 'yes 60\nchain dispatch deep\n')
        self.part('file k', MORE)
        self.run('compile kernel k o')
        self.checks(67, MORE, 'no 68\nchain dispatch deep\n')
        self.checks(68, MORE, 'yes 68\nchain dispatch deep\n')
        self.part('file s')
        for words, text, status in ((68, RESET + ' 0\nhalted\nglobal x 7\n', 0), (67, 'turn 0 cause 0 data 00000000 user 0 fault StackOut\n', 3)):
            self.part('file p', params(stack=words))
            self.raw('zeros img', str(ROOM))
            self.run('link o p img')
            self.run('boot img s %d %d' % (TURNS, STEPS), text, status)

    def bad_words(self):
        """Words."""
        self.begin('words of stack')
        self.placed_object(LARGE)
        for text in ('63', '0', '064', '+64', '-64', '64.', '0x64', '262145', '4294967360', '18446744073709551616', '184467440737095516160'):
            self.run('check o ' + text, 'bad words', 1)
        for words in (64, 262144):
            self.checks(words, LARGE, None)
        for words in ('check', 'check o', 'check o 64 64', 'check 64 o', 'Check o 64', 'checks o 64'):
            self.run(words, 'bad words', 1)

    def nothing_changes(self):
        """Nothing changes."""
        self.begin('a check leaves its object, and touches no disk', 'sectors 64\ndisk 0 1 2')
        self.placed_object(FIRST)
        for _ in range(2):
            self.checks(64, FIRST, 'yes 6\nchain dispatch\n')
        self.objects('o', FIRST)
        self.parts('o', b'CVMO' + little([1, len(FIRST), code_words(FIRST)]) + FIRST.encode())
        self.shows('k', placed(FIRST))
        self.part('sure check o 64')
        self.told.append('status 0')

    def failing_calls(self):
        """Calls that fail."""
        self.begin('an object that is not there')
        self.run('check o 64', '', 6)
        self.part('sure check o 64')
        self.told.extend(['status 2'])
        self.begin('the shelf fails when the object is got', 'shelf 2')
        self.placed_object(FIRST)
        self.run('check o 64', '', 6)
        self.checks(64, FIRST, None)
        self.begin('a sink that fails where the answer is printed, and where a refusal is', 'sink 0 2')
        self.placed_object(FIRST)
        self.run('check o 64', '', 7)
        self.checks(64, FIRST, None)
        self.run('check k 64', '', 7)
        self.run('check k 64', 'refused 40', 2)
        self.begin('a sink that takes a part of the answer', 'sink 0\ntakes 5')
        self.placed_object(FIRST)
        self.run('check o 64', 'yes 6 ..', 7)
        self.checks(64, FIRST, None)
        self.begin('a sink without room for the answer', 'room 20')
        self.placed_object(FIRST)
        self.run('check o 64', '', 7)
        self.begin('a sink with room for two bytes', 'room 2')
        for text in ('abc', 'ab', 'c'):
            self.puts(text)
        self.run('check o 64', '', 6)
        self.run('check', '', 7)

    def no_objects(self):
        """What is no object, and what isn't opened."""
        assert code_words(SHORT) > 2
        self.with_object('an image is no object', 'CVMI\\x01\\0\\0\\0', 'refused 40')
        self.with_object('an object that is cut off in its first field', 'CVM', 'refused 41 0')
        self.with_object('in the next', 'CVMO\\x01\\0\\0', 'refused 41 4')
        self.with_object('in its source', little_object('int x;', []).replace('int x;', 'int'), 'refused 41 16')
        self.with_object('in its words', little_object('int x;', [1], count=2), 'refused 41 22')
        self.with_object('bytes behind an object', little_object('int x;', [1]) + '!', 'refused 42 26')
        self.with_object('an object of another form, checked', little_object('', [], form=2), 'refused 43 4 2')
        self.with_object('a source that is too long', 'CVMO\\x01\\0\\0\\0' + escaped(1048577) + escaped(0), 'refused 43 8 1048577')
        self.with_object('too many words', 'CVMO\\x01\\0\\0\\0' + escaped(0) + escaped(4177921), 'refused 43 12 4177921')
        self.with_object('a source with a byte that is none of a token', little_object('int $;', []), 'refused 68 10 4')
        self.with_object('a source without a dispatch', little_object('int x;', [1]), 'refused 69 31 0 6')
        self.with_object('a source with a loop and a fault of typing', little_object(HEAD + ' { int x; x = dispatch(0, 0, true); return 0; }', []), 'refused 69 22 %d %d' % tuple(
            (HEAD + ' { int x; x = dispatch(0, 0, true); return 0; }').index('true') + n for n in (0, 4)))
        self.with_object('an object without its words', little_object(SHORT, []), 'refused 67 0 %d' % code_words(SHORT))
        self.with_object('an object with words of its own', little_object(SHORT, [0] * (code_words(SHORT) + 1)), 'refused 67 %d %d' % (code_words(SHORT) + 1, code_words(SHORT)))
        self.begin('an object with a word that is changed, checked')
        self.placed_object(FIRST)
        self.part('flip o', str(16 + len(FIRST)))
        self.run('check o 64', 'refused 63 0 %d %d' % (0x3c1c0001 ^ 1, 0x3c1c0001), 2)
        self.part('flip o', str(16 + len(FIRST)))
        self.checks(64, FIRST, None)
        self.part('flip o', str(16 + len(FIRST) - 3))
        self.run('check o 64', 'refused 68 10 %d' % (len(FIRST) - 3), 2)    # the `;` is a `:`

    def write(self):
        self.needs()
        self.just_enough()
        self.bad_words()
        self.nothing_changes()
        self.failing_calls()
        self.no_objects()


LEAST_WORDS = 2


def main(words):
    return main_of(Checks, words)

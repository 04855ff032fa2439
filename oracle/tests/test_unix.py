"""The example unix: what its compiled programs do is what their sources mean, and users of random words beside its shell."""
import os
import random
import re
import unittest

from oracle import beside, hostile, programs, run as running
from oracle.assembler import assemble
from oracle.c0.tree import Parser
from oracle.flat import Flat
from oracle.generate.unix import FOLDER, PROGRAMS, RACE, console, images, names
from oracle.run import read
from oracle.words import M, signed

STDOUT = os.path.join(os.path.dirname(os.path.abspath(__file__)), '..', '..', 'crates', 'shell_cases', 'stdout')
HOSTILE, TURNS = 200, 400000
GLOBALS, IO = 28, 64


def first_boot():
    """What a boot of one turn of the example prints, as it is stored."""
    with open(STDOUT, encoding='utf-8') as file:
        case = file.read().split('\n== case the example unix\n')[1]
    return case.split('\n== run boot img s 1 ')[1].split('\n', 1)[1].split('\nstatus ')[0]


class Unix(unittest.TestCase):
    @classmethod
    def setUpClass(cls):
        cls.images = images(first_boot())

    def test_programs_do_what_their_sources_mean(self):
        """The same random answers and words are given to the words of each program and to its meaning: the calls, and the words that go with them, are
        the same up to the end or to forty calls."""
        for name, user in PROGRAMS.items():
            if 'user%d.c0' % user not in names():
                continue
            for seed in range(3):
                self.agree(random.Random(seed), self.images[user - 1], read(FOLDER, 'user%d.c0' % user), name)

    def agree(self, source, words, text, name):
        flat, meaning = Flat(list(words)), programs.Program(text, 20000)
        for _ in range(40):
            trap = next((made for made in (flat.step() for _ in range(200000)) if made), None)
            try:
                wanted = meaning.to_trap()
            except programs.TooLong:
                wanted = None
            self.assertEqual(trap, wanted, name)
            if trap != programs.CALL:
                return
            at = flat.r[GLOBALS] // 4
            self.assertEqual((flat.r[4], flat.m[at:at + IO]), (meaning.trap[1][0] & M, [word & M for word in meaning.globals[:IO]]), name)
            answer = source.choice((-1, 0, 1, 2, 3, 64, source.randrange(100)))
            flat.r[2] = answer & M
            for n in range(IO):
                flat.m[at + n] = source.choice((32, 10, 48, 57, 97, 38, 124, source.randrange(256)))
                meaning.globals[n] = signed(flat.m[at + n])
            meaning.answered(answer)

    def test_users_of_random_words(self):
        system = beside.Beside(self.images)
        for group in range(HOSTILE // len(beside.FILES)):
            made = [hostile.words(random.Random(len(beside.FILES) * group + n)) for n in range(len(beside.FILES))]
            with self.subTest(group=group):
                _, files = system.go(made, TURNS)
                for user, words in enumerate(self.images, 1):
                    if user in files and user not in beside.FILES:
                        self.assertEqual(files[user], words, user)

    def test_a_kernel_that_changes_another_process_is_told(self):
        """The look at what a call has changed sees a kernel that writes to the shell, and one that faults."""
        kernel = read(FOLDER, 'kernel.c0')
        for old, new, part in (('ok = vm_put(user, at + 4 * i, word);', 'ok = vm_put(3, at + 4 * i, word);', 'are changed'),
                               ('if (makers[n] > 0) {\n    if (semaphores', 'if (makers[n] > 0 || n == 7) {\n    n = n + 1;\n    if (semaphores', 'fault Bounds')):
            self.assertIn(old, kernel)
            system = beside.Beside(self.images, kernel.replace(old, new))
            reading = [0x341c0800, 0x34040000 | 32 * 0 + 17, 0x0c, 0x34040000 | 32 * 7 + 15, 0x0c] * 3
            with self.assertRaisesRegex(beside.Broken, part):
                system.go([reading] * len(beside.FILES), TURNS)

    def test_a_semaphore_with_the_number_of_one_that_is_waited_for(self):
        """Who waits for a semaphore when its maker ends is answered -1, and so is who was woken and has not asked again: two kernels that don't answer
        both at once give them the third process's semaphore, which is seen."""
        kernel = read(FOLDER, 'kernel.c0')
        for old, new, said in (('', '', 'nn'),
                               ('done = refuse(300 + n);', 'done = wake(300 + n);', 'oo'),
                               ('(table[user].state == 1 || table[user].state == 2)', 'table[user].state == 2', 'no')):
            self.assertIn(old, kernel)
            users = [assemble(RACE) if user == PROGRAMS['init'] else words for user, words in enumerate(self.images, 1)]
            system = running.System(Parser(kernel.replace(old, new, 1)), users, read(FOLDER, 'params'), '')
            self.assertEqual(console(running.text(system, TURNS, {})), said)

    def test_the_console_of_the_session(self):
        with open(os.path.join(FOLDER, 'printed'), encoding='utf-8') as file:
            text = console(file.read())
        page = read(FOLDER, 'LECTURE.md')
        self.assertIn(''.join('    %s\n' % line for line in text.rstrip('\n').split('\n')).replace('    $ \n', '    $\n'), page.replace('    $ \n', '    $\n'))

    def test_programs_begin_with_the_library(self):
        library = read(FOLDER, 'library.c0')
        self.assertEqual(sum(read(FOLDER, name).startswith(library) for name in names() if name.endswith('.c0')), 10)
        self.assertEqual(set(re.findall(r'// (\w+)$', read(FOLDER, 'kernel.c0').split('int start()')[1], re.M)), set(PROGRAMS))


if __name__ == '__main__':
    unittest.main()

"""Folders, expectations, and the tools' sentences for bad input."""
import io
import os
import subprocess
import sys
import tempfile
import unittest
from unittest import mock

from explain import files, pages, status as explaining
from running import guard, kept, pipes, program, released, try_main
from running.folder import BadFolder, Folder


class Rooms(unittest.TestCase):
    def setUp(self):
        room = tempfile.TemporaryDirectory()
        self.addCleanup(room.cleanup)
        self.room = room.name

    def put(self, *names):
        for name in names:
            with open(os.path.join(self.room, name), 'wb'):
                pass

    def why(self):
        with self.assertRaises(BadFolder) as caught:
            Folder(self.room)
        return str(caught.exception)

    def test_users_in_order(self):
        self.put('kernel.c0', 'params', 'schedule', 'README.md', 'printed', *['user%d.s' % number for number in range(1, 12)])
        self.assertEqual([os.path.basename(name) for name in Folder(self.room).users], ['user%d.s' % number for number in range(1, 12)])

    def test_missing_files_are_named(self):
        self.put('params', 'schedule', 'kernel.c')
        self.assertIn("kernel.c0'; '%s' is there" % os.path.join(self.room, 'kernel.c'), self.why())
        self.put('kernel.c0')
        os.remove(os.path.join(self.room, 'schedule'))
        self.assertIn('an empty file is an empty schedule', self.why())

    def test_gaps_and_odd_names(self):
        self.put('kernel.c0', 'params', 'schedule', 'user1.s', 'user3.s')
        self.assertIn('there is a user 3', self.why())
        self.put('user2.asm')
        self.assertIn("user2.asm' is no user", self.why())

    def test_two_files_of_one_user(self):
        self.put('kernel.c0', 'params', 'schedule', 'user1.s', 'user1.c0')
        self.assertIn('both user 1', self.why())


# Stands in for the program: a boot and a trace print what is stored beside the schedule.
STAND_IN = '''import os, sys
words = sys.argv[1:]
try:
    ' '.join(words).encode('utf-8')
except UnicodeEncodeError:
    sys.exit('bad words')
if words[0] in ('boot', 'trace'):
    folder = os.path.dirname(os.path.realpath(words[2]))
    with open(os.path.join(folder, 'printed' if words[0] == 'boot' else 'trace' + words[-1]), 'rb') as file:
        sys.stdout.buffer.write(file.read())
'''


class Folders(unittest.TestCase):
    def setUp(self):
        room = tempfile.TemporaryDirectory()
        self.addCleanup(room.cleanup)
        self.room, program_name = room.name, os.path.join(room.name, 'program.py')
        with open(program_name, 'w', encoding='utf-8') as file:
            file.write(STAND_IN)
        self.start = [sys.executable, program_name]

    def tried(self, *words):
        """The status and the output of ./try with the stand-in."""
        out = io.BytesIO()
        with mock.patch.object(try_main, 'start_of', lambda options: self.start), mock.patch.object(program, 'write', out.write), mock.patch.object(guard, 'say', lambda lines: None):
            with mock.patch.object(try_main, 'say', lambda lines: None):
                return guard.guarded('try', try_main.main, list(words)), out.getvalue()

    def handed_in(self, name, printed):
        folder = os.path.join(os.fsencode(self.room), name)
        os.mkdir(folder)
        for part, data in ((b'kernel.c0', b''), (b'params', b''), (b'schedule', b''), (b'printed', printed)):
            with open(os.path.join(folder, part), 'wb') as file:
                file.write(data)
        return os.fsdecode(folder)

    def expected(self):
        with open(os.path.join(self.room, 'expected'), 'wb') as file:
            file.write(b'halted\n')
        return os.path.join(self.room, 'expected')

    def test_a_stray_file_among_folders_does_not_pass(self):
        wanted, one, two = self.expected(), self.handed_in(b'one', b'halted\n'), self.handed_in(b'two', b'stopped\n')
        status, out = self.tried(one, wanted, two, '--expect', wanted)
        self.assertEqual((status, out.decode().split('\n')), (1, [one + ': as expected', "%s: '%s' is no folder" % (wanted, wanted), two + ": the row of end: 'stopped' came in place of 'halted'", '']))
        self.assertEqual(self.tried(one, wanted), (1, ('== %s\nhalted\nstatus 0\n== %s\nstatus 64\n' % (one, wanted)).encode()))
        self.assertEqual(self.tried(wanted, one, '--expect', wanted)[0], 1)
        self.assertEqual(self.tried(one, one, '--expect', wanted)[0], 0)
        self.assertEqual(self.tried(one + 'no', two + 'no', '--expect', wanted)[0], 1)
        self.assertEqual(self.tried(wanted)[0], 64)

    def test_names_that_are_no_utf_8(self):
        wanted = self.expected()
        try:
            name = self.handed_in(b'caf\xe9', b'halted\n')
        except OSError:
            self.skipTest('this file system has no such names')
        status, out = self.tried(name, name, '--expect', wanted)
        self.assertEqual((status, out), (0, 2 * (os.fsencode(name) + b': as expected\n')))
        self.assertEqual(self.tried(name, '--expect', wanted)[0], 0)
        self.assertEqual(self.tried(name, name)[1], 2 * (b'== ' + os.fsencode(name) + b'\nhalted\nstatus 0\n'))
        self.assertEqual(self.tried(name, name + 'x', '--expect', wanted)[0], 1)

    def test_what_is_stored_is_traced_and_drawn(self):
        picture = os.path.join(self.room, 'run.svg')
        for name in ('mailbox', 'services'):
            folder = os.path.join(pages.TOP, 'examples', name)
            for more in ([], ['--proved'], ['--checked']):
                self.assertEqual(self.tried(folder, '--picture', picture, *more), (0, files.content(os.path.join(folder, 'printed'))))
                self.assertEqual(files.content(picture), files.content(os.path.join(folder, 'run.svg')))
            self.assertEqual(self.tried(folder, '--trace', '1'), (0, files.content(os.path.join(folder, 'trace1'))))


class Steps(unittest.TestCase):
    def test_the_default_is_of_the_program(self):
        steps = lambda words: try_main.options_of(['folder', *words]).steps
        self.assertEqual([steps(words) for words in ([], ['--proved'], ['--checked'], ['--checked', '--steps', '7'])], [1000000000, 1000000000, 1000000, 7])
        self.assertEqual([steps(words) for words in (['--clock'], ['--timer', '100'], ['--timer', '50000:1'], ['--timer', '100', '--checked'])], [1000000, 10000000, 1000000000, 1000000])
        options = try_main.Options()
        with mock.patch.object(released, 'asked', lambda: (None, 'none')), mock.patch.object(try_main, 'say', lambda line: None), mock.patch.object(kept, 'program', lambda say: ['it']):
            self.assertEqual((try_main.start_of(options), options.steps), (['it'], 1000000))
        with mock.patch.object(released, 'asked', lambda: ('that', None)):
            self.assertEqual((try_main.start_of(try_main.Options()), try_main.Options().steps), (['that'], 1000000000))

    def test_many_steps_that_were_spent_are_said(self):
        for steps, first in (('1000000000', 'Few runs take so many'), ('1000000', 'Try ten times as many first'), ('10', 'Try a million first')):
            said = explaining.explain(4, ['boot', 'none', 'none', '100000', steps], [])
            self.assertIn('the %s steps were spent before the turns were complete. %s' % (steps, first), said[0])


class Full(unittest.TestCase):
    def test_a_full_output_is_said(self):
        for words in (['tools/picture', 'examples/adder/printed'],):
            with open('/dev/full', 'wb') as full:
                ran = subprocess.run([sys.executable, *words], cwd=pages.TOP, stdout=full, stderr=subprocess.PIPE, text=True)
            self.assertEqual((ran.returncode, 'Traceback' in ran.stderr, 'standard output could not be written' in ran.stderr), (7, False, True))

    def test_a_full_file_is_named(self):
        with self.assertRaises(guard.Bad) as caught:
            pipes.put('/dev/full', b'x')
        self.assertEqual((str(caught.exception), caught.exception.status), ("'/dev/full' could not be written to its end: No space left on device", 70))

    def test_a_closed_output_changes_nothing(self):
        for words in (['try', 'sample', '5'], ['try', 'compile', 'user', 'examples/adder/user1.s', 'out.img'], ['tools/cvm', 'sample', '5'], ['cvm', 'sample', '5']):
            with tempfile.TemporaryDirectory() as room:
                words = [os.path.join(pages.TOP, word) if '/' in word or word in ('try', 'cvm') else word for word in words]
                ran = subprocess.run(words, cwd=room, stderr=subprocess.PIPE, text=True, preexec_fn=lambda: os.close(1))
                self.assertEqual((ran.returncode, 'there is no standard output' in ran.stderr, os.listdir(room)), (7, True, []))


class BadInput(unittest.TestCase):
    def run_tool(self, *words):
        ran = subprocess.run([os.path.join(pages.TOP, words[0]), *words[1:]], cwd=pages.TOP, stdin=subprocess.DEVNULL, capture_output=True, text=True)
        self.assertNotIn('Traceback', ran.stderr)
        return ran

    def test_sentences_and_statuses(self):
        for words, status, part in ((['try', 'examples/none'], 64, "there is no file 'examples/none'"), (['try', 'bot'], 64, "did you mean 'boot'"),
                                    (['try', 'examples/adder', '--turns'], 64, 'a word is missing'), (['try', 'examples/adder', '--turns', '0'], 64, 'out of its range'),
                                    (['try', 'examples/adder', '--trace', '2'], 64, 'has 1 users'), (['try', 'examples/adder', '--tarce', '2'], 64, "did you mean '--trace'"),
                                    (['try', 'examples/adder', '--picture', 'no/where.svg'], 64, 'there is no folder'), (['try', 'examples/adder', 'examples/faults', '--picture', 'x.svg'], 64, 'for one folder'),
                                    (['try', 'examples/adder', '--picture', 'examples/adder/kernel.c0'], 64, 'would be lost'), (['try', 'examples/adder', '--page', 'examples/adder/../adder/params'], 64, 'would be lost'),
                                    (['try', '--version', 'x'], 64, "'--version' stands alone"), (['try', 'examples/adder', '--show', 'x'], 64, "'x' is no folder, nor turns"), (['try', 'examples/adder', '--show', '..5'], 64, 'a turn stands on either side'),
                                    (['try', 'examples/adder', '--expect', '/dev/zero'], 64, 'more than 67,108,864 bytes'), (['tools/cvm', 'bot'], 1, "did you mean 'boot'?\n"),
                                    (['try', 'examples/adder', '--keep'], 64, "'--keep' stands alone"), (['try', 'examples/adder', '--anew'], 64, "'--anew' stands first"), (['try', 'README.md'], 64, 'is no folder'),
                                    (['try', 'examples/adder', '--expect', ''], 64, 'the empty name'), (['try', 'examples/adder', '--picture', ''], 64, 'the empty name'),
                                    (['try', 'examples/adder', '--expect', 'exercises/1_hello/start/schedule'], 64, 'names no row'), (['try', 'examples/adder', '--within'], 64, 'give --expect'),
                                    (['try', 'examples/adder', '--take', 'kernel.c0'], 64, 'give --with'), (['try', 'examples/adder', '--take', 'kernel'], 64, "'kernel' is none"),
                                    (['try', 'examples/adder', '--with', 'none'], 64, "there is no file 'none'"), (['try', 'examples/adder', '--with', 'docs'], 64, "'docs/params'"),
                                    (['try', 'examples/adder', '--timer', '0'], 64, 'PERIOD or PERIOD:LINE'), (['try', 'examples/adder', '--timer', '1', '--steps', '100000000'], 64, 'take a longer period'),
                                    (['try', 'examples/adder', '--only', 'cno'], 64, "did you mean 'con'?"), (['try', 'examples/adder', '--only', 'con', '--expect', 'examples/adder/printed'], 64, 'leave it out'),
                                    (['try', 'examples/adder', '--clock', '--trace', '1'], 64, 'leave out --trace'), (['try', '--anew', 'examples/adder', '--turns', 'x'], 64, 'is to be a number'),
                                    (['try', 'docs'], 64, "there is no file 'docs/kernel.c0'"), (['try', 'examples/adder', '--expect', 'none'], 64, "there is no file 'none'"), (['try'], 64, './try FOLDER'),
                                    (['try', 'boot', 'none', 'none', '1', '1'], 6, "there is no file 'none'"), (['try', 'boot', 'a', 'b'], 1, 'word 4, TURNS, is missing'),
                                    (['tools/picture'], 64, 'tools/picture BOOT.txt'), (['tools/picture', 'README.md'], 64, "'README.md' can't be drawn: line 1"),
                                    (['tools/picture', 'none'], 64, "there is no file 'none'"), (['tools/picture', 'examples/adder/printed', '--turns', 'x'], 64, 'is to be a number'),
                                    (['tools/picture', 'examples/adder/printed', 'examples/adder/printed'], 64, 'none of a trace'),
                                    (['examples/run', 'message'], 64, "did you mean 'messages'"), (['examples/run', 'adder', 'trace', '2'], 64, 'out of its range'), (['try', 'examples/adder', '--proved', '--checked'], 64, 'are two programs'), (['tools/cvm'], 1, 'The commands are')):
            ran = self.run_tool(*words)
            self.assertEqual((ran.returncode, part in ran.stderr), (status, True), (words, ran.stdout, ran.stderr))
            self.assertIn(ran.stdout, ('', 'bad words\n'))

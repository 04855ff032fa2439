"""Files in two roles, and pipes whose other end nobody has: sentences before a run, and none where each file has one role."""
import os
import shutil
import sys
import tempfile
import threading
import time
import unittest
from unittest import mock

from drawing import main as drawing
from explain import pages
from running import foreseen, guard, pipes, program, try_main

OPENS = 'import sys; open(sys.argv[1], sys.argv[2]).close(); print("opened")'


class Room(unittest.TestCase):
    def setUp(self):
        room = tempfile.TemporaryDirectory()
        self.addCleanup(room.cleanup)
        self.addCleanup(os.chdir, os.getcwd())
        os.chdir(room.name)
        for name in ('image', 'schedule'):
            with open(name, 'w', encoding='utf-8') as file:
                file.write(name)


class Roles(Room):
    def save(self, name):
        return foreseen.fault(['save', 'image', 'schedule', '1', '1', name])

    def test_one_role_each(self):
        for name in ('saved', '/dev/null'):
            self.assertIsNone(self.save(name))
        self.assertIsNone(foreseen.fault(['boot', 'image', 'image', '1', '1']))
        self.assertIsNone(foreseen.fault(['boot', 'missing', 'schedule', '1', '1']))

    def test_a_file_that_is_got_is_not_put(self):
        os.link('image', 'hard')
        os.symlink('schedule', 'soft')
        for name in ('image', './image', 'hard', 'schedule', 'soft'):
            with self.subTest(name):
                status, said = self.save(name)
                self.assertEqual((status, 'the command gets' in said), (6, True))
        for words in (['compile', 'kernel', 'image', 'hard'], ['link', 'image', 'schedule', 'image'], ['link', 'image', 'schedule', 'hard', 'image'], ['migrate', 'image', 'image']):
            with self.subTest(words):
                self.assertEqual(foreseen.fault(words)[0], 6)

    def test_the_disk_is_no_other_file(self):
        self.assertEqual(self.save('cvm.disk')[0], 6)
        os.link('image', 'cvm.disk')
        for words in (['boot', 'image', 'schedule', '1', '1'], ['compile', 'user', 'schedule', './cvm.disk']):
            with self.subTest(words):
                status, said = foreseen.fault(words)
                self.assertEqual((status, "the disk's file" in said), (6, True))

    def test_what_becomes_the_disk_is_no_other_file(self):
        os.mkdir('d')
        os.symlink('cvm.disk', 'soft')
        for name in ('cvm.disk', 'd/../cvm.disk', os.path.abspath('cvm.disk'), 'soft'):
            with self.subTest(name):
                self.assertIn("the disk's file", self.save(name)[1])
        os.symlink('d/real', 'cvm.disk')
        self.assertIn("the disk's file, 'cvm.disk'", self.save('d/real')[1])
        self.assertIsNone(self.save('d/other'))
        os.remove('cvm.disk')
        os.symlink('/dev/null', 'cvm.disk')
        self.assertIsNone(self.save('/dev/null'))

    def test_standard_output_is_no_other_file(self):
        with open('out', 'w', encoding='utf-8') as out, mock.patch.object(foreseen, 'output', lambda: foreseen.identity(os.fstat(out.fileno()))):
            self.assertEqual(self.save('out')[0], 6)
            self.assertIsNone(self.save('other'))
            os.rename('out', 'cvm.disk')
            self.assertEqual(foreseen.fault(['sample', '1'])[0], 7)

    def test_a_file_of_save_that_cannot_be_put(self):
        os.symlink('missing/file', 'dangling')
        for name in ('.', 'missing/file', 'dangling', '', 'x' * 300, 'x/' * 4000):
            with self.subTest(name):
                self.assertEqual(self.save(name)[0], 6)


class Folders(Room):
    """Of ./try and tools/picture."""

    def setUp(self):
        Room.setUp(self)
        shutil.copytree(os.path.join(pages.TOP, 'examples', 'adder'), 'folder')

    def said(self, name, *words):
        """What is said where a file is standard output, too."""
        with mock.patch.object(foreseen, 'output', lambda: foreseen.identity_of(name)):
            try:
                try_main.checked(try_main.options_of(['folder', *words]))
            except guard.Bad as bad:
                return bad.status, str(bad)
        return None

    def test_standard_output_is_no_file_that_is_read_or_put(self):
        os.link('folder/params', 'hard')
        for name in ('kernel.c0', 'params', 'schedule', 'user1.s'):
            self.assertEqual(self.said('folder/' + name), (64, "'folder/%s' is standard output, too, and what is printed would be lost or stand in it" % name))
        self.assertIn("'folder/params' is standard output, too", self.said('hard')[1])
        self.assertIn('is standard output, too', self.said('folder/printed', '--expect', 'folder/printed')[1])
        for option in ('--picture', '--page'):
            self.assertIn("'image' is standard output, too", self.said('image', option, 'image')[1])
        for name in ('folder/printed', '/dev/null', 'missing'):
            self.assertIsNone(self.said(name))

    def test_a_picture_is_not_put_into_what_it_is_drawn_of(self):
        with mock.patch.object(foreseen, 'output', lambda: foreseen.identity_of('folder/printed')), self.assertRaises(guard.Bad):
            drawing.main(['folder/printed'])


class Pipes(Room):
    def run_with(self, way, gets, puts):
        began = time.monotonic()
        with self.assertRaises(guard.Bad) as caught:
            program.run_here([sys.executable, '-c', OPENS, 'pipe', way], gets, puts)
        self.assertLess(time.monotonic() - began, 60)
        return caught.exception.status, str(caught.exception)

    @unittest.skipUnless(os.access('/proc/self/syscall', os.R_OK) and os.uname().machine == 'x86_64', 'the host does not tell')
    def test_nobody_has_the_other_end(self):
        os.mkfifo('pipe')
        self.assertEqual(self.run_with('r', ['image', 'pipe'], []), (6, "a file could not be had: nobody writes to the pipe 'pipe'"))
        self.assertEqual(self.run_with('w', ['image'], ['pipe']), (6, "a file could not be had: nobody reads from the pipe 'pipe'"))

    def test_somebody_has_it(self):
        os.mkfifo('pipe')
        writer = threading.Thread(target=lambda: open('pipe', 'w').close())
        writer.start()
        with mock.patch.object(program, 'write', lambda part: None):
            self.assertEqual(program.run_here([sys.executable, '-c', OPENS, 'pipe', 'r'], ['pipe'], []), (0, ['opened']))
        writer.join()

    def test_what_is_put_is_waited_for_a_second(self):
        os.mkfifo('pipe')
        with self.assertRaises(guard.Bad) as caught:
            pipes.put('pipe', b'x')
        self.assertEqual((caught.exception.status, str(caught.exception)), (70, "nobody reads from the pipe 'pipe'"))
        read = []

        def take():
            with open('pipe', 'rb') as pipe:
                read.append(pipe.read())

        reader = threading.Thread(target=take)
        reader.start()
        pipes.put('pipe', b'x' * 200000)
        reader.join()
        self.assertEqual(read, [b'x' * 200000])
        pipes.put('file', b'longer')
        pipes.put('file', b'y')
        self.assertEqual(pipes.content('file'), b'y')
        with self.assertRaises(OSError):
            pipes.put('missing/file', b'x')

    def test_what_is_read_has_an_end(self):
        os.mkfifo('pipe')
        self.assertEqual(pipes.content('pipe'), b'')
        self.assertEqual(pipes.content('image'), b'image')
        with self.assertRaises(guard.Bad):
            pipes.content('/dev/zero')


if __name__ == '__main__':
    unittest.main()

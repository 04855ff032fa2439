"""Programs that a signal ends, callers that are gone or killed, and lines that can be pasted."""
import os
import signal
import subprocess
import sys
import tempfile
import time
import unittest
from unittest import mock

from explain import pages
from running import guard, program, rooms, try_main

TOOLS = os.path.join(pages.TOP, 'tools')
DIES = [sys.executable, '-c', 'import os; os.kill(os.getpid(), 11)']


def gone(process, seconds=20):
    """Whether a process ends within so many seconds."""
    until = time.monotonic() + seconds
    while rooms.is_alive(process) and time.monotonic() < until:
        time.sleep(0.05)
        try:
            with open('/proc/%d/stat' % process, encoding='utf-8') as file:
                if file.read().rpartition(')')[2].split()[0] == 'Z':
                    return True
        except OSError:
            return True
    return not rooms.is_alive(process)


class Signals(unittest.TestCase):
    def test_128_and_the_number_in_every_way_of_calling(self):
        with tempfile.TemporaryDirectory() as room:
            self.assertEqual(program.run_to(DIES, os.path.join(room, 'text'))[0], 139)
            self.assertEqual(program.run_here(DIES)[0], 139)
            for name in ('kernel.c0', 'params', 'schedule', 'expected'):
                with open(os.path.join(room, name), 'w', encoding='utf-8') as file:
                    file.write('halted\n')
            put = []
            with mock.patch.object(try_main, 'start_of', lambda options: DIES), mock.patch.object(program, 'write', put.append), mock.patch.object(guard, 'say', lambda lines: None):
                with mock.patch.object(try_main, 'say', lambda lines: None):
                    self.assertEqual(guard.guarded('try', try_main.main, [room]), 139)
                    self.assertEqual(guard.guarded('try', try_main.main, ['compile', 'kernel', os.path.join(room, 'kernel.c0'), os.path.join(room, 'k')]), 139)
                    self.assertEqual(guard.guarded('try', try_main.main, [room, room]), 1)
                    self.assertIn(b'status 139\n', put)
                    put.clear()
                    self.assertEqual(guard.guarded('try', try_main.main, [room, '--expect', os.path.join(room, 'expected')]), 1)
            self.assertTrue(b''.join(put).startswith(os.fsencode(room) + b': status 139, the program was stopped by the signal 11'), put)

    def test_a_hangup_and_a_termination(self):
        code = 'import sys, time; from running import guard; sys.exit(guard.guarded("x", lambda words: (print("ready", flush=True), time.sleep(60)), []))'
        for number in (signal.SIGTERM, signal.SIGHUP):
            process = subprocess.Popen([sys.executable, '-c', code], cwd=TOOLS, stdout=subprocess.PIPE, env=dict(os.environ, PYTHONDONTWRITEBYTECODE='1'))
            process.stdout.readline()
            process.send_signal(number)
            self.assertEqual(process.wait(20), 128 + number)
            process.stdout.close()

    def test_a_run_ends_with_its_caller(self):
        code = ('import sys; from running import program\n'
                'program.run_to([sys.executable, "-c", "import os, sys, time; print(os.getpid(), file=sys.stderr, flush=True); time.sleep(60)"], "/dev/null")')
        caller = subprocess.Popen([sys.executable, '-c', code], cwd=TOOLS, stderr=subprocess.PIPE, env=dict(os.environ, PYTHONDONTWRITEBYTECODE='1'))
        run = int(caller.stderr.readline())
        caller.kill()
        caller.wait()
        caller.stderr.close()
        self.assertTrue(gone(run))


class Rooms(unittest.TestCase):
    def test_what_killed_calls_left_is_removed(self):
        ended = subprocess.Popen(['true'])
        ended.wait()
        with tempfile.TemporaryDirectory() as within, mock.patch.object(tempfile, 'gettempdir', lambda: within):
            names = ['x-%d-abc' % ended.pid, 'x-%d-abc' % os.getpid(), 'x-abc', 'y-%d-abc' % ended.pid]
            for name in names:
                os.mkdir(os.path.join(within, name))
            with rooms.room('x-') as made:
                self.assertTrue(os.path.isdir(made))
                self.assertEqual(sorted([*names[1:], os.path.basename(made)]), sorted(os.listdir(within)))
            self.assertEqual(sorted(names[1:]), sorted(os.listdir(within)))

    def test_a_folder_for_such_rooms_is_utf_8(self):
        with mock.patch.object(tempfile, 'gettempdir', lambda: '/tmp/caf\udce9'):
            with self.assertRaises(guard.Bad) as caught:
                with rooms.room('x-'):
                    pass
        self.assertIn('TMPDIR', str(caught.exception))


class Pasted(unittest.TestCase):
    def test_names_with_any_bytes(self):
        self.assertEqual(guard.pasted("there is no file 'caf\udce9'"), "there is no file $'caf\\xe9'")
        self.assertEqual(guard.pasted("'a' and 'b\\c\udcff' and \udcfe"), "'a' and $'b\\\\c\\xff' and \\xfe")
        self.assertEqual(guard.pasted("'caf\u00e9'"), "'caf\u00e9'")
        self.assertEqual(guard.pasted('caf\udce9/kernel.c0:2:1'), "$'caf\\xe9/kernel.c0':2:1")
        self.assertEqual(guard.pasted('caf\u00e9/kernel.c0:2:1'), 'caf\u00e9/kernel.c0:2:1')

    def test_pages_that_are_missing(self):
        with mock.patch.object(pages, 'page', lambda name: ''):
            for main in (try_main.main,):
                with self.assertRaises(guard.Bad) as caught:
                    main(['examples/adder'])
                self.assertEqual((caught.exception.status, 'checkout docs' in str(caught.exception)), (70, True))

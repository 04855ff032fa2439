"""How the program that waits for a pipe is found and copied, with a stand-in for the toolchain's command."""
import os
import signal
import stat
import subprocess
import sys
import tempfile
import time
import unittest
import unittest.mock

from running import kept

# Starts a program with the words behind `--`, as rt does; the program reads its third word's file and writes its fourth.
STAND_IN = '''#!/bin/sh
while [ "$1" != -- ]; do shift; done
shift
sleep 0.2
%s/program "$@"
'''
PROGRAM = '''#!/bin/sh
%s
cat <&3 >"$4"
'''


def put(path, text):
    with open(path, 'w', encoding='utf-8') as file:
        file.write(text)
    os.chmod(path, stat.S_IRWXU)


@unittest.skipUnless(os.path.isdir('/proc/self/fd'), '/proc is missing')
class Kept(unittest.TestCase):
    def setUp(self):
        room = tempfile.TemporaryDirectory()
        self.addCleanup(room.cleanup)
        self.room, self.to = room.name, os.path.join(room.name, 'to')
        os.mkdir(self.to)
        put(os.path.join(self.room, 'rt'), STAND_IN % self.room)

    def test_a_program_is_copied(self):
        put(os.path.join(self.room, 'program'), PROGRAM % 'exec 3<"$3"')
        kept.build_into(os.path.join(self.room, 'rt'), self.to)
        with open(os.path.join(self.to, 'program'), encoding='utf-8') as file:
            self.assertEqual(file.read(), PROGRAM % 'exec 3<"$3"')

    def test_a_build_that_fails_says_what_it_said(self):
        put(os.path.join(self.room, 'rt'), '#!/bin/sh\necho no such crate >&2\nexit 2\n')
        with self.assertRaises(kept.NoBuild) as caught:
            kept.build_into(os.path.join(self.room, 'rt'), self.to)
        self.assertIn('no such crate', str(caught.exception))

    def test_a_build_that_is_ended_leaves_nothing(self):
        put(os.path.join(self.room, 'rt'), '#!/bin/sh\nexec sleep 60\n')
        within = os.path.join(self.room, 'tried')
        code = 'import sys; from running import guard, kept; kept.KEPT = %r; sys.exit(guard.guarded("try", lambda words: kept.build(%r, "name", guard.say), []))'
        build = subprocess.Popen([sys.executable, '-c', code % (within, os.path.join(self.room, 'rt'))], cwd=os.path.join(kept.TOP, 'tools'),
                                 env=dict(os.environ, TMPDIR=self.to, PYTHONDONTWRITEBYTECODE='1'), stderr=subprocess.DEVNULL)
        self.addCleanup(build.kill)
        until = time.monotonic() + 60
        while not any(os.path.exists(os.path.join(self.to, name, 'log')) for name in os.listdir(self.to)) and time.monotonic() < until:
            time.sleep(0.05)
        self.assertTrue(any(name.startswith('new-') for name in os.listdir(within)))
        build.send_signal(signal.SIGTERM)
        self.assertEqual(build.wait(60), 143)
        self.assertEqual((os.listdir(self.to), os.listdir(within)), ([], ['lock']))

    def test_what_is_damaged_is_built_anew(self):
        put(os.path.join(self.room, 'program'), PROGRAM % 'exec 3<"$3"')
        tried, said = os.path.join(self.room, 'tried'), []
        made = os.path.join(tried, 'name')
        damages = {
            'the program is cut': lambda: os.truncate(os.path.join(made, 'program'), 9),
            'the program is another': lambda: put(os.path.join(made, 'program'), PROGRAM % 'exec 4<"$3"'),
            'the program can\'t be run': lambda: os.chmod(os.path.join(made, 'program'), stat.S_IRUSR),
            'its start is broken': lambda: put(os.path.join(made, 'start'), '{'),
            'its start is another': lambda: put(os.path.join(made, 'start'), '["sh"]'),
            'the sums are broken': lambda: put(os.path.join(made, 'sums'), '{'),
            'the sums are missing': lambda: os.remove(os.path.join(made, 'sums')),
            'a file is one too many': lambda: put(os.path.join(made, 'more'), ''),
            'a file stands in place of it': lambda: (kept.remove(made), put(made, 'a file')),
            'a file stands in place of all': lambda: (kept.remove(tried), put(tried, 'a file')),
        }
        with unittest.mock.patch.object(kept, 'KEPT', tried):
            build = lambda: kept.build(os.path.join(self.room, 'rt'), 'name', said.append)
            build()
            start = kept.start_of(made)
            for case, damage in damages.items():
                with self.subTest(case):
                    self.assertTrue(kept.is_whole(made))
                    build()
                    del said[:]
                    damage()
                    self.assertFalse(kept.is_whole(made))
                    build()
                    self.assertEqual(len(said), 1)
                    self.assertEqual('is damaged' in said[0], case != 'a file stands in place of all')
                    self.assertEqual((kept.is_whole(made), kept.start_of(made)), (True, start))

    def test_crates_that_are_no_text_are_named(self):
        with open(os.path.join(self.room, 'crates.txt'), 'wb') as file:
            file.write(b'cvm: \xff\n')
        with unittest.mock.patch.object(kept, 'TOP', self.room), self.assertRaises(kept.NoBuild) as caught:
            kept.fingerprint('')
        self.assertIn("crates.txt' is not UTF-8", str(caught.exception))
        with unittest.mock.patch.object(kept, 'TOP', self.room):
            self.assertFalse(kept.is_kept())

    def test_the_fingerprint_is_of_the_sources(self):
        files = kept.sources()
        self.assertTrue(any(name.endswith('crates/cvm_shell/src/lib.rt') for name in files))
        self.assertFalse(any('crates/shell_cases/' in name for name in files))
        self.assertEqual(kept.fingerprint('a'), kept.fingerprint('a'))
        self.assertNotEqual(kept.fingerprint('a'), kept.fingerprint('b'))

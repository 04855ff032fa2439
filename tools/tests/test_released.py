"""The released program of a small clone, a script that stands in for it: when it is run, when it isn't, and that nothing else ever is."""
import gzip
import hashlib
import os
import shutil
import subprocess
import sys
import tempfile
import unittest

from explain import pages
from running import kept, release_main, released

# Says with which words it was run; with none it is known by its two words, as the program is.
STAND_IN = '''#!/bin/sh
if [ $# = 0 ]; then echo "bad words"; exit 1; fi
if [ "$1" = check ]; then echo "refused 23 4"; exit 2; fi
echo "ran $*"
'''
OTHER = STAND_IN.replace('ran', 'RAN')
CRATES = '# Crates.\nlow: byteorder\ncvm: low\n\n# Tests.\ntests: cvm\n'
SOURCES = {'low/src/lib.rt': 'one', 'low/specs/Low.antt': 'two', 'low/proofs/deep/Low.antt': 'three', 'cvm/src/main.rt': 'four', 'tests/src/main.rt': 'five'}
COMMANDS = ('sh', 'readlink', 'dirname', 'awk', 'find', 'sha256sum', 'sort', 'cut', 'sed', 'gzip', 'uname', 'mktemp', 'mkdir', 'chmod', 'mv', 'rm', 'cat')
SOURCE = os.path.join(pages.TOP, 'examples', 'adder', 'user1.s')


def put(path, text, mode=0o644):
    os.makedirs(os.path.dirname(path), exist_ok=True)
    with open(path, 'wb') as file:
        file.write(text if isinstance(text, bytes) else text.encode())
    os.chmod(path, mode)


class Clones(unittest.TestCase):
    """A small clone, with the commands on the path that are named alone."""

    def setUp(self):
        room = tempfile.TemporaryDirectory()
        self.addCleanup(room.cleanup)
        self.top, self.bin, self.rooms = (os.path.join(room.name, name) for name in ('clone', 'bin', 'rooms'))
        for name in ('cvm', 'try', 'release/path', 'release/build'):
            os.makedirs(os.path.dirname(self.path(name)), exist_ok=True)
            shutil.copy(os.path.join(pages.TOP, name), self.path(name))
        for name in ('tools', 'oracle'):
            shutil.copytree(os.path.join(pages.TOP, name), self.path(name), ignore=shutil.ignore_patterns('tests', '__pycache__'))
        os.mkdir(self.rooms)
        for name in ('FORMATS.md', 'REFUSALS.md'):
            put(self.path('docs', name), pages.page(name))
        put(self.path('crates.txt'), CRATES)
        for name, text in SOURCES.items():
            put(self.path('crates', name), text)
        self.commands('python3', *COMMANDS)
        self.store(STAND_IN)

    def path(self, *names):
        return os.path.join(self.top, *names)

    def commands(self, *names):
        """These commands alone are on the path."""
        shutil.rmtree(self.bin, ignore_errors=True)
        os.mkdir(self.bin)
        for name in names:
            os.symlink(sys.executable if name == 'python3' else shutil.which(name), os.path.join(self.bin, name))

    def store(self, program):
        """Stores a program as release/build does."""
        put(self.path('release', 'program.gz'), gzip.compress(program.encode()))
        sources = subprocess.run([self.path('release', 'path'), '--sources'], stdout=subprocess.PIPE, text=True, check=True).stdout
        rows = ('kit none', 'sources ' + sources.strip(), 'program ' + hashlib.sha256(program.encode()).hexdigest(), 'machine %s %s' % (os.uname().sysname, os.uname().machine), 'commit none')
        put(self.path('release', 'MANIFEST'), ''.join(row + '\n' for row in rows))

    def run_it(self, *words, limit=None):
        words = [self.path(words[0]), *words[1:]]
        if limit:
            words = [os.path.join(self.bin, 'sh'), '-c', 'ulimit -S -%s; exec "$@"' % limit, 'sh', *words]
        ran = subprocess.run(words, env={'PATH': self.bin, 'TMPDIR': self.rooms}, cwd=self.rooms, stdin=subprocess.DEVNULL, stdout=subprocess.PIPE, stderr=subprocess.PIPE, text=True)
        self.assertNotIn('Traceback', ran.stderr)
        self.assertNotIn('RAN', ran.stdout)
        return ran.returncode, ran.stdout, ran.stderr

    def runs(self):
        """Both scripts run the released program, and leave nothing behind."""
        self.assertEqual(self.run_it('cvm', 'sample', '3'), (0, 'ran sample 3\n', ''))
        self.assertEqual(self.run_it('try', 'sample', '3'), (0, 'ran sample 3\n', ''))
        self.assertEqual(os.listdir(self.rooms), [])

    def is_not_run(self, why):
        """No program is run, nor can one be built; a line says why the released one isn't run."""
        status, text, said = self.run_it('cvm', 'sample', '3')
        self.assertEqual((status, text, said.split('\n')[0]), (70, '', "cvm: the released program isn't run: " + why))
        self.assertIn('rt, is not on the path', said)
        self.assertEqual(os.listdir(self.rooms), [])

    def has_no_version(self, why):
        """There is no program, and none can be built."""
        for tool in ('cvm', 'try'):
            self.assertEqual(self.run_it(tool, '--version'), (
                70, '', "%s: the released program isn't run: %s; and the Rattle toolchain's command, rt, which builds another, is not on the path\n" % (tool, why)))

    def kept(self):
        return self.path('out', 'released', 'cvm')


class Run(Clones):
    def test_it_is_run_and_kept(self):
        self.runs()
        self.assertEqual(os.listdir(os.path.dirname(self.kept())), ['cvm'])
        self.runs()
        for tool in ('cvm', 'try'):
            status, text, said = self.run_it(tool, '--version')
            self.assertEqual((status, said, text.split(',')[0]), (0, '', tool + ': the proved program of release/'))
        status, text, said = self.run_it('cvm', 'check', 'none', '64')
        self.assertEqual((status, text, 'REFUSALS' in said or 'cvm: ' in said), (2, 'refused 23 4\n', True))
        self.assertEqual(self.run_it('cvm')[:2], (1, 'bad words\n'))

    def test_sources_that_cannot_be_summed(self):
        """As where a limit of the host ends the summing: what came of it until then is no sum."""
        os.remove(os.path.join(self.bin, 'find'))
        put(os.path.join(self.bin, 'find'), '#!/bin/sh\necho half\nexit 1\n', mode=0o755)
        self.is_not_run("the sources can't be summed")

    def test_sources_that_changed(self):
        why = 'the sources changed since it was built'
        for name in ('low/src/lib.rt', 'low/specs/Low.antt', 'low/proofs/deep/Low.antt', 'cvm/src/main.rt'):
            put(self.path('crates', name), SOURCES[name] + ' ')
            os.utime(self.path('crates', name), (1, 1))
            self.is_not_run(why)
            put(self.path('crates', name), SOURCES[name])
        os.remove(self.path('crates', name))
        status, text, said = self.run_it('try', 'sample', '3')
        self.assertEqual((status, text, said.split('\n')[0]), (70, '', "try: the released program isn't run: " + why))
        self.has_no_version(why)
        os.symlink(shutil.which('true'), os.path.join(self.bin, 'rt'))
        for tool in ('cvm', 'try'):
            status, text, said = self.run_it(tool, '--version')
            self.assertEqual((status, said), (0, ''))
            self.assertIn("(the released program isn't run: %s)" % why, text)
            self.assertEqual('which will be built of these sources first' in text, tool == 'cvm')
        os.remove(os.path.join(self.bin, 'rt'))
        put(self.path('crates', name), SOURCES[name])
        put(self.path('crates/cvm/proofs/New.antt'), '')
        self.is_not_run(why)
        os.remove(self.path('crates/cvm/proofs/New.antt'))
        os.rename(self.path('crates/low/specs/Low.antt'), self.path('crates/low/specs/Lower.antt'))
        self.is_not_run(why)
        os.rename(self.path('crates/low/specs/Lower.antt'), self.path('crates/low/specs/Low.antt'))
        put(self.path('crates.txt'), CRATES.replace('byteorder', 'bstr'))
        self.is_not_run(why)
        put(self.path('crates.txt'), CRATES.replace('tests: cvm', 'tests: cvm low').replace('# Crates', '# All crates'))
        put(self.path('crates', 'tests/src/main.rt'), 'six')
        put(self.path('crates', 'cvm/stdout'), 'seven')
        self.runs()

    def test_files_that_are_damaged(self):
        why = "release/program.gz isn't the file that release/MANIFEST names"
        packed, manifest = ((self.path('release', name)) for name in ('program.gz', 'MANIFEST'))
        with open(packed, 'rb') as file:
            whole = file.read()
        for data in (whole[:-9], whole[:20], b'', whole[:12] + bytes([whole[12] ^ 1]) + whole[13:], gzip.compress(OTHER.encode()), b'no such form'):
            put(packed, data)
            self.is_not_run(why)
            self.has_no_version(why)
        put(packed, whole)
        with open(manifest, encoding='utf-8') as file:
            rows = file.read()
        for text in ('', rows[:100], rows.replace('sources ', 'sources x'), rows[:-80]):
            put(manifest, text)
            status, text, said = self.run_it('cvm', 'sample', '3')
            self.assertEqual((status, text, "isn't run: release/MANIFEST can't be read" in said), (70, '', True), said)
        os.remove(manifest)
        self.is_not_run('this clone has none')
        put(manifest, rows)
        self.runs()

    def test_a_kept_copy_that_is_damaged(self):
        self.runs()
        for data, mode in ((OTHER, 0o755), ('', 0o755), (STAND_IN[:30], 0o755), (STAND_IN + ' ', 0o755)):
            put(self.kept(), data, mode)
            self.runs()
        os.remove(self.kept())
        os.mkfifo(self.kept())
        self.runs()
        os.remove(self.kept())
        os.symlink('nowhere', self.kept())
        self.runs()
        os.chmod(self.kept(), 0o644)
        self.runs()
        self.assertTrue(os.access(self.kept(), os.X_OK))
        os.remove(self.kept())
        os.mkdir(self.kept())
        self.runs()
        self.assertEqual(os.listdir(self.kept()), [])
        os.rmdir(self.kept())
        self.runs()
        self.store(STAND_IN.replace('ran', 'ran ') + '\n')
        self.assertEqual(self.run_it('cvm', 'sample')[:2], (0, 'ran  sample\n'))

    def test_a_clone_that_cannot_be_written_to(self):
        put(self.path('out'), 'a file where the folder would stand')
        self.runs()
        self.commands(*COMMANDS)
        self.assertEqual(self.run_it('cvm', 'sample', '3'), (0, 'ran sample 3\n', ''))
        self.assertEqual(self.run_it('cvm', '--version')[1].split(',')[0], 'cvm: the proved program of release/')
        self.assertEqual(os.listdir(self.rooms), [])

    def test_a_full_disk(self):
        for commands in (('python3', *COMMANDS), COMMANDS):
            self.commands(*commands)
            status, text, said = self.run_it('cvm', 'sample', '3', limit='f 0')
            self.assertEqual((status, text, 'there is no room to unpack it' in said), (70, '', True), said)
            self.assertEqual(os.listdir(self.rooms), [])
        self.assertFalse(os.path.exists(self.kept()))
        self.assertEqual([name for name in os.listdir(os.path.dirname(self.kept())) if not name.startswith('part-')], [])

    def test_calls_at_once(self):
        words = [self.path('cvm'), 'sample', '3']
        calls = [subprocess.Popen(words, env={'PATH': self.bin}, stdin=subprocess.DEVNULL, stdout=subprocess.PIPE, stderr=subprocess.STDOUT) for _ in range(8)]
        self.assertEqual([call.communicate()[0] for call in calls], 8 * [b'ran sample 3\n'])
        self.assertEqual(os.listdir(os.path.dirname(self.kept())), ['cvm'])

    def test_another_machine(self):
        os.remove(os.path.join(self.bin, 'uname'))
        put(os.path.join(self.bin, 'uname'), '#!/bin/sh\necho Linux mips64\n', 0o755)
        self.is_not_run('it is for %s %s, and this machine is Linux mips64' % (os.uname().sysname, os.uname().machine))
        self.commands('python3', *COMMANDS)
        self.store('\x7fELF of another C library')
        self.is_not_run("it doesn't start on this machine")

    def test_without_python(self):
        self.commands(*COMMANDS)
        self.assertEqual(self.run_it('cvm', 'sample', '3'), (0, 'ran sample 3\n', ''))
        self.assertEqual(self.run_it('cvm', 'check', 'none', '64'), (2, 'refused 23 4\n', ''))
        self.assertEqual(self.run_it('cvm', '--version')[1].split(',')[0], 'cvm: the proved program of release/')
        put(self.path('crates', 'cvm/src/main.rt'), 'another')
        self.assertEqual(self.run_it('cvm', 'sample', '3'), (70, '', "cvm: the released program isn't run: the sources changed since it was built; to build it there has to be Python 3, with memory to start\n"))
        ran = subprocess.run([self.path('cvm'), 'sample'], env={'PATH': self.bin}, stderr=subprocess.PIPE, text=True, preexec_fn=lambda: os.close(1))
        self.assertEqual((ran.returncode, ran.stderr), (7, 'cvm: there is no standard output; nothing was done\n'))
        self.assertEqual(self.run_it('try', 'sample', '3'), (70, '', 'try: there has to be Python 3, as the command python3; ./cvm runs single commands without it\n'))

    def test_with_little_memory(self):
        """Down to where the commands of the scripts have no room, the program runs; each sentence is one of these tools."""
        for limit in range(6000, 42000, 5000):
            status, text, said = self.run_it('cvm', 'sample', '3', limit='v %d' % limit)
            self.assertEqual((status, text, said), (0, 'ran sample 3\n', ''), limit)
            status, text, said = self.run_it('try', 'sample', '3', limit='v %d' % limit)
            self.assertIn((status, text), ((0, 'ran sample 3\n'), (70, '')), limit)
            self.assertTrue(not said if status == 0 else said.startswith('try: there is too little memory'), said)

    def test_with_few_descriptors(self):
        for tool in ('cvm', 'try'):
            self.assertEqual(self.run_it(tool, 'sample', '3', limit='n 15'), (
                70, '', '%s: there are too few file descriptors (ulimit -n): 16 are enough; nothing was done\n' % tool))
            shutil.rmtree(self.path('out'), ignore_errors=True)
            self.assertEqual(self.run_it(tool, 'sample', '3', limit='n 16'), (0, 'ran sample 3\n', ''))

    def test_with_little_stack(self):
        for tool in ('cvm', 'try'):
            self.assertEqual(self.run_it(tool, 'sample', '3', limit='s 200'), (
                70, '', '%s: there is too little stack (ulimit -s): 256 KiB are enough to start, and 512 for the deepest source; nothing was done\n' % tool))
            self.assertEqual(self.run_it(tool, 'sample', '3', limit='s 256'), (0, 'ran sample 3\n', ''))

    def test_without_standard_output(self):
        for word in ('', '--version', '--sources'):
            ran = subprocess.run([self.path('release', 'path'), *word.split()], env={'PATH': self.bin}, stderr=subprocess.PIPE, text=True, preexec_fn=lambda: os.close(1))
            self.assertEqual((ran.returncode, ran.stderr), (7, 'release/path: there is no standard output; nothing was done\n'))
            with open('/dev/full', 'wb') as full:
                ran = subprocess.run([self.path('release', 'path'), *word.split()], env={'PATH': self.bin}, stdout=full, stderr=subprocess.PIPE, text=True)
            self.assertEqual((ran.returncode, ran.stderr), (7, 'release/path: standard output takes nothing\n'))

    def test_the_checked_program_is_asked_for(self):
        for words in (('--checked', 'sample', '3'), ('--anew', 'sample', '3'), ('--keep',)):
            status, text, said = self.run_it('try', *words)
            self.assertEqual((status, text, 'rt, is not on the path' in said, 'released' in said), (70, '', True, False))


class Built(Clones):
    """release/build over a program that a clone with the same sources has built, with stand-ins for the toolchain's commands."""

    def setUp(self):
        super().setUp()
        kit = os.path.join(os.path.dirname(self.top), 'kit')
        put(os.path.join(kit, 'bin', 'rt'), '#!/bin/sh\necho a kit\n', 0o755)
        put(os.path.join(kit, 'toolchain', 'bin', 'clang'), '#!/bin/sh\ncat "$4" >"$3"\nchmod 755 "$3"\n', 0o755)
        self.commands('python3', 'git', *COMMANDS)
        os.symlink(os.path.join(kit, 'bin', 'rt'), os.path.join(self.bin, 'rt'))
        self.git('init', '-q')
        self.git('add', '-A')
        self.git('-c', 'user.name=a', '-c', 'user.email=a@b', 'commit', '-q', '-m', 'all')
        self.other = os.path.join(os.path.dirname(self.top), 'other')
        for name in ('crates', 'crates.txt'):
            (shutil.copytree if name == 'crates' else shutil.copy)(self.path(name), os.path.join(self.other, name))
        self.program = os.path.join(self.other, 'crates', 'cvm', 'out', 'cvm')
        put(self.program, STAND_IN.replace('ran', 'has run'), 0o755)

    def git(self, *words):
        subprocess.run(['git', '-C', self.top, *words], env={'PATH': self.bin}, stdin=subprocess.DEVNULL, stdout=subprocess.DEVNULL, check=True)

    def build(self, status, part, word='--from'):
        got, text, said = self.run_it('release/build', word, self.program)
        self.assertEqual((got, part in text + said), (status, True), (got, text, said))

    def test_it_is_taken_once(self):
        self.build(1, 'another: ', '--same')
        self.assertEqual(self.run_it('cvm', 'sample')[:2], (0, 'ran sample\n'))
        self.build(0, 'stored anew, ')
        self.assertEqual(self.run_it('cvm', 'sample')[:2], (0, 'has run sample\n'))
        self.assertEqual(sorted(os.listdir(self.path('release'))), ['MANIFEST', 'build', 'path', 'program.gz'])
        self.build(0, 'the same: ')
        self.build(0, 'the same: ', '--same')
        self.assertIn('built with a kit from the sources of commit ', self.run_it('cvm', '--version')[1])
        put(self.path('release', 'program.gz'), b'damaged')
        self.build(0, 'stored anew, ')
        self.assertEqual(self.run_it('cvm', 'sample')[:2], (0, 'has run sample\n'))

    def test_what_is_refused_changes_nothing(self):
        with open(self.path('release', 'MANIFEST'), 'rb') as file:
            before = file.read()
        name = os.path.join(self.other, 'crates', 'low', 'specs', 'Low.antt')
        put(name, 'others')
        self.build(64, 'was built from other sources: crates/low/specs/Low.antt is not the same there')
        put(name, SOURCES['low/specs/Low.antt'])
        self.build(64, 'is older than crates/low/specs/Low.antt there')
        self.build(0, 'nothing is compared', '--same')
        os.utime(self.program)
        put(self.path('crates', 'low/specs/New.antt'), '')
        put(os.path.join(self.other, 'crates', 'low', 'specs', 'New.antt'), '')
        os.utime(self.program)
        self.build(64, 'the sources have changes that are in no commit: crates/low/specs/New.antt')
        for top in (self.top, self.other):
            os.remove(os.path.join(top, 'crates', 'low', 'specs', 'New.antt'))
        put(self.program, '\x7fELF', 0o755)
        self.build(70, "can't be stripped, or doesn't start")
        self.program = self.path('cvm')
        self.build(64, 'is not crates/cvm/out/cvm of a clone')
        self.program = self.path('none')
        self.build(64, 'there is no file')
        with open(self.path('release', 'MANIFEST'), 'rb') as file:
            self.assertEqual(file.read(), before)
        self.assertEqual(self.run_it('cvm', 'sample')[:2], (0, 'ran sample\n'))


class Stored(unittest.TestCase):
    def test_the_sum_is_over_what_the_program_is_made_from(self):
        names = release_main.files_below(pages.TOP)
        self.assertTrue({'crates.txt', 'crates/cvm/src/main.rt', 'crates/cvm_shell/src/lib.rt', 'crates/mips_table/specs/Borders.antt'} <= set(names))
        self.assertFalse([name for name in names if name.split('/')[1:2] == ['shell_cases']])
        self.assertIn('cvm_words', kept.crates_below('cvm'))
        self.assertEqual(len(release_main.sum_of_sources(pages.TOP)), 64)

    def test_what_is_released_is_whole(self):
        """Whether it is of today's sources is for tools/check to say; but what is stored is what MANIFEST names, and no more than it may be."""
        stored = release_main.manifest()
        if not stored:
            self.skipTest('there is no released program')
        self.assertEqual(set(stored) - {''}, {'kit', 'sources', 'program', 'machine', 'commit'})
        self.assertEqual(hashlib.sha256(release_main.unpacked()).hexdigest(), stored['program'])
        self.assertLessEqual(os.stat(os.path.join(release_main.RELEASE, 'program.gz')).st_size, release_main.MOST)

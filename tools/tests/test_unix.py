"""The example unix by the released program: its whole session under many timers and with few frames; and programs in C0 that do as they like, as the
released program compiles them, beside its shell by the model."""
import os
import random
import re
import subprocess
import tempfile
import unittest

from explain import pages
from running import released
import showing  # noqa: F401  (puts the models on the path)
from oracle import beside, hostile
from oracle.words import of_bytes

FOLDER = os.path.join(pages.TOP, 'examples', 'unix')
TIMERS = (1200, 2000, 3000, 4000, 6000, 8000, 12000, 20000, 50000, 400000)
FRAMES = (8, 24, 64, 1000)
HOSTILE, TURNS = 200, 400000
# The steps up to which lines are raised.
UNTIL = 12000000


def text(name):
    with open(os.path.join(FOLDER, name), encoding='utf-8') as file:
        return file.read()


def console(printed):
    return ''.join(chr(int(word, 16)) for word in re.findall(r'^con ([0-9a-f]{8})$', printed, re.M))


@unittest.skipUnless(released.is_to_be_run(), 'the released program is not of these sources, or not for this machine')
class Unix(unittest.TestCase):
    @classmethod
    def setUpClass(cls):
        cls.room = tempfile.TemporaryDirectory()
        cls.addClassCleanup(cls.room.cleanup)
        cls.command(['compile', 'kernel', os.path.join(FOLDER, 'kernel.c0'), 'kernel.obj'])
        names = sorted((name for name in os.listdir(FOLDER) if re.fullmatch(r'user\d+\.(s|c0)', name)), key=lambda name: int(re.search(r'\d+', name).group()))
        cls.images = [cls.compiled(os.path.join(FOLDER, name)) for name in names]

    @classmethod
    def path(cls, name):
        return os.path.join(cls.room.name, name)

    @classmethod
    def command(cls, words):
        """What a command prints."""
        ran = subprocess.run([released.asked()[0], *words], cwd=cls.room.name, stdin=subprocess.DEVNULL, stdout=subprocess.PIPE, text=True)
        if ran.returncode:
            raise AssertionError('%s ends with status %d: %s' % (' '.join(words), ran.returncode, ran.stdout))
        return ran.stdout

    @classmethod
    def compiled(cls, source):
        """The words of a user, whose image has its number."""
        image = '%s.img' % os.path.basename(source).partition('.')[0]
        cls.command(['compile', 'user' if source.endswith('.s') else 'program', source, image])
        with open(cls.path(image), 'rb') as file:
            return of_bytes(file.read())

    def put(self, name, content):
        with open(self.path(name), 'w', encoding='utf-8') as file:
            file.write(content)

    def boot(self, params, schedule):
        self.put('params', params)
        self.put('schedule', schedule)
        self.command(['link', 'kernel.obj', 'params', 'img'] + ['user%d.img' % number for number in range(1, len(self.images) + 1)])
        return self.command(['boot', 'img', 'schedule', '10000000', '100000000'])

    def schedule(self, period):
        """The session with another timer. The keyboard's line is raised again and again, as two of them that come within one dispatch are one."""
        lines = [(step, 1) for step in range(60000, UNTIL, 40000)] + [(step, 0) for step in range(period, UNTIL, period)]
        letters = [row for row in text('schedule').split('\n') if row.startswith('input')]
        return '\n'.join(['line %d %d' % line for line in sorted(lines)] + letters) + '\n'

    def is_the_session(self, printed):
        self.assertIn('\nhalted\n', printed)
        self.assertEqual(console(printed), console(text('printed')))

    def test_the_session_is_the_same_under_each_timer(self):
        for period in TIMERS:
            with self.subTest(period=period):
                self.is_the_session(self.boot(text('params'), self.schedule(period)))

    def test_the_session_is_the_same_with_each_number_of_frames(self):
        for frames in FRAMES:
            with self.subTest(frames=frames):
                self.is_the_session(self.boot(text('params').replace('frames 256', 'frames %d' % frames), self.schedule(20000)))

    def test_programs_that_do_as_they_like(self):
        library, system = text('library.c0'), beside.Beside(self.images)
        for group in range(HOSTILE // len(beside.FILES)):
            made = []
            for number in range(len(beside.FILES)):
                self.put('hostile.c0', hostile.program(random.Random(len(beside.FILES) * group + number), library))
                made.append(self.compiled(self.path('hostile.c0')))
            with self.subTest(group=group):
                _, files = system.go(made, TURNS)
                for user, words in enumerate(self.images, 1):
                    if user in files and user not in beside.FILES:
                        self.assertEqual(files[user][:len(words)], words, user)

"""What the writers of cases of shell_cases have in common: cases, what is printed of them, systems, and files.

What a boot prints is worked out by hand, or by the abstract machine (`model`). What files hold is worked out from docs/FORMATS.md: users' images by
`oracle.assembler`, numbers of words by `oracle.c0.code`.
"""
import os
import re

from oracle import run as running
from oracle.assembler import assemble
from oracle.c0.code import code_words
from oracle.words import little

TOP = os.path.join(os.path.dirname(os.path.abspath(__file__)), '..', '..')
EXAMPLES = os.path.join(TOP, 'examples')
HEAD = 'int dispatch(int cause, int data, int user)'
K1 = HEAD + ' { int next; if (cause == 0) { next = 1; } return next; }'
PARAMS = 'pages 4\nframes 8\nheap 64\nstack 256\n'
TURNS, STEPS = 1000, 100000000
ROOM = 400000
RESET = 'turn 0 cause 0 data 00000000 user 0 next'
FIRST = 'int x; int dispatch(int cause, int data, int user) { x = 2 - 5; return 0; }'


class BrokenRule(ValueError):
    """What the program printed before breaks a rule that its text has to keep."""


def read(*path):
    """A file of an example."""
    with open(os.path.join(EXAMPLES, *path), encoding='utf-8') as file:
        return file.read()


def params(**given):
    fields = dict(pages=4, frames=8, heap=64, stack=256)
    fields.update(given)
    return ''.join('%s %d\n' % (k, fields[k]) for k in ('pages', 'frames', 'heap', 'stack'))


def model(kernel, users, par, schedule, turns, trace=None):
    """What the abstract machine prints, of a boot or of the trace of a user, where no line is taken."""
    return running.text(running.of_texts(kernel, users, par, schedule), turns, {}, trace or 0)


def model_lines(kernel, users, par, schedule, turns, taken, traced=None):
    """The same where each of these turns takes these lines."""
    lines = {}
    for turn, mask in taken:
        lines[int(turn)] = lines.get(int(turn), 0) | int(mask, 16)
    return running.text(running.of_texts(kernel, users, par, schedule), turns, lines, traced or 0)


def lines_of(text):
    """The turns at which lines are taken, each with its mask."""
    return re.findall(r'^turn (\d+) cause 1 data ([0-9a-f]{8}) ', text, re.M)


def spelled(data):
    """Bytes as the program shows them."""
    return ''.join(chr(b) if 0x20 <= b <= 0x7e and b != 0x5c else '\\x%02x' % b for b in data)


def escaped(n):
    """The spelling of a word's bytes."""
    return ''.join('\\x%02x' % (n >> 8 * i & 255) for i in range(4))


def source_image(source):
    """The spelling of an image that carries a source alone."""
    return 'CVMI\\x01\\0\\0\\0' + escaped(len(source)) + source


def placed(text):
    """The bytes of a file that a case places: its last LF is the case's."""
    return text.rstrip('\n').encode()


def head(kernel, users, par):
    """The fields of an image of form 3: words 0 to 8, and those of each user."""
    given = [int(line.split()[1]) for line in par.split('\n')[:4]]
    sizes = [len(assemble(u)) for u in users]
    return b'CVMI' + little([3, len(users)] + given + [len(placed(kernel)), 16384 + code_words(kernel)] + sizes)


def printed_runs(path, kinds):
    """The runs of these commands in each case of a text that was printed: lists of (words, text, status)."""
    runs, case = {}, None
    with open(path, encoding='utf-8') as file:
        blocks = ('\n' + file.read()).split('\n== ')[1:]
    for block in blocks:
        first, _, rest = block.partition('\n')
        kind, _, name = first.partition(' ')
        if kind == 'case':
            case = runs.setdefault(name, [])
        elif kind == 'run' and name.partition(' ')[0] in kinds and case is not None:
            text, _, status = ('\n' + rest.rstrip('\n')).rpartition('\nstatus ')
            case.append((name, text.lstrip('\n'), int(status)))
    return runs


def begun(text):
    """The bytes of a text that was cut off, which is shown with ` ..` behind where it ends within a row."""
    return text[:-3] if text.endswith(' ..') else text + '\n' if text else ''


def prefix(whole):
    """Whether a text is the first rows of this one, or the first rows and a part of the next, behind which ` ..` stands."""
    return lambda text: whole.startswith(begun(text)) and begun(text) != whole


def before_each(puts):
    """What stands printed before each of these puts."""
    return [''.join(puts[:n]) for n in range(len(puts))]


def until(whole, *rows):
    """The text up to each of these rows."""
    return [whole[:whole.index('\n' + row) + 1] for row in rows]


class Writer:
    """Cases, and what the program prints of them. PRINTED is what the program printed of them before, where there is a file of it: what hangs on the
    physical machine alone, as the turns that take lines, is taken from there, and checked."""
    files = False       # whether systems show their files
    kinds = ('boot',)   # of which commands PRINTED is looked at
    quiet = ('file', 'zeros', 'flip')   # the parts of which nothing is printed
    note = ''

    def __init__(self, printed=None):
        self.cases, self.told = [], []
        self.printed = printed_runs(printed, self.kinds) if printed else {}

    def part(self, head, body=''):
        self.cases.append('== ' + head)
        if body:
            self.cases.append(body.replace('\\', '\\\\').replace('`', '\\x60').replace('~', '\\x7e').rstrip('\n'))
        if head.split(' ')[0] not in self.quiet:
            self.told.append('== ' + head)

    def raw(self, head, body):
        """A file whose bytes are spelled as the cases spell them."""
        self.cases += ['== ' + head, body]

    def run(self, words, text='', status=0):
        self.part('run ' + words)
        if text:
            self.told.append(text.rstrip('\n'))
        self.told.append('status %d' % status)

    def begin(self, name, options=''):
        self.part('case ' + name, options)
        room = re.search(r'^room (\d+)$', options, re.M)
        self.room = int(room[1]) if room else 1 << 20

    def puts(self, text):
        """Puts a text into the sink of a case in which nothing else is printed: it takes all of it where that has room, else nothing."""
        self.part('put ' + text)
        fits = len(text) <= self.room
        if fits:
            self.room -= len(text)
        self.told.extend([text + ' ..', 'taken'] if fits else ['failed'])

    def shows(self, name, data):
        self.part('show ' + name)
        self.told.append(spelled(data))

    def parts(self, name, data, at=0):
        """Shows bytes of a file, which are these."""
        self.part('part %s %d %d' % (name, at, len(data)))
        self.told.append(spelled(data))

    def objects(self, name, kernel):
        """Reads an object back, which is that of this kernel."""
        self.part('object ' + name)
        self.told.extend(['source ' + spelled(placed(kernel)), 'words %d' % code_words(kernel)])

    def put_files(self, kernel, users, par, image='img'):
        """Shows what the commands put: users of few words whole, the first words of others, and the image's fields."""
        for i, u in enumerate(users):
            words = assemble(u)
            if len(words) <= 64:
                self.shows('u%d' % (i + 1), little(words))
            else:
                self.parts('u%d' % (i + 1), little(words[:8]))
        self.parts(image, head(kernel, users, par))

    def kept_files(self, kernel, users, par, schedule, image='img'):
        """Shows files that a run leaves as they were."""
        self.parts(image, head(kernel, users, par))
        self.shows('s', placed(schedule))

    def first_sectors(self, users, pages, which=None):
        """Shows the sectors of the first pages of users, or of these, which hold the words that they start with."""
        self.sectors([(i * pages, assemble(u)[:1024]) for i, u in enumerate(users) if which is None or i + 1 in which])

    def system(self, kernel, users=(), par=PARAMS, schedule='', image='img'):
        """Compiles and links a system."""
        self.part('file k', kernel)
        self.part('file p', par)
        self.part('file s', schedule)
        for i, u in enumerate(users):
            self.part('file a%d' % (i + 1), u)
        self.build(len(users), image)
        if self.files:
            self.put_files(kernel, users, par, image)

    def build(self, users, image='img', kind='user'):
        """Compiles and links the system whose files are placed."""
        for n in ['o', image] + ['u%d' % (i + 1) for i in range(users)]:
            self.raw('zeros ' + n, str(ROOM))
        self.run('compile kernel k o')
        for i in range(users):
            self.run('compile %s a%d u%d' % (kind, i + 1, i + 1))
        self.run('link o p %s%s' % (image, ''.join(' u%d' % (i + 1) for i in range(users))))

    def sectors(self, held):
        """Shows sectors: of each its number and the first words, behind which all are 0."""
        for n, words in held:
            self.part('sector %d' % n)
            self.told.extend('%d: %08x' % (i, w) for i, w in enumerate(words) if w)

    def unchanged(self, name, room=ROOM):
        """Shows the first and the last bytes of a file of zeros."""
        for at, count in ((0, 16), (room - 4, 8)):
            self.part('part %s %d %d' % (name, at, count))
            self.told.append('\\x00' * min(count, room - at))

    def boots(self, name, kernel, users=(), par=PARAMS, schedule='', turns=TURNS, steps=STEPS, text=None, status=0, options='sectors 64', still=None):
        """A system that is made and booted: it prints this text, or what the model says. The first sectors of users are shown where they have to stay as
        they are at the start: of all users where no frame is taken from a page, else of those `still` users whose first page has no store."""
        self.begin(name, options)
        self.system(kernel, users, par, schedule)
        if text is None:
            text = model(kernel, users, par, schedule, turns)
        self.run('boot img s %d %d' % (turns, steps), text, status)
        self.kept_files(kernel, users, par, schedule)
        if still is None and 'alter' not in options and int(re.search(r'frames (\d+)', par).group(1)) >= 4 * len(users):
            still = range(1, len(users) + 1)
        self.first_sectors(users, 4, still or ())

    def alone(self, name, source, text, status=0, turns=TURNS, steps=STEPS, options='sectors 64'):
        """An image that carries a source alone."""
        self.begin(name, options)
        self.raw('file img', source_image(source))
        self.part('file s')
        self.run('boot img s %d %d' % (turns, steps), text, status)
        self.shows('img', b'CVMI' + little([1, len(source)]) + source.encode())
        self.sectors([(0, [])])

    # ---- what was printed before
    def had(self, name, at):
        """What the program printed of a run of a case, or none."""
        runs = self.printed.get(name, [])
        return runs[at] if at < len(runs) else None

    def checked(self, name, at, words, whole, holds, status):
        """A run whose text is the program's own, after the check."""
        seen = self.had(name, at)
        if seen is None:
            return self.run(words, '(not printed)', status)
        if seen[0] != words or seen[2] != status or not holds(seen[1]):
            raise BrokenRule('a rule is broken: case %s, run %s:\n%s\nstatus %d, where the rule says %d and of the text\n%s' % (
                name, words, seen[1], seen[2], status, whole))
        return self.run(words, seen[1], status)

    # ---- lines, and calls that fail
    def schedules(self, name, kernel, users, par=PARAMS, options='sectors 64\nroom 1000000'):
        self.begin(name, options)
        self.system(kernel, users, par)

    def each(self, first, last, schedule, texts):
        """A boot for each number from the first to the last, under this schedule with that number in it; the texts in their order, each with how often it
        comes."""
        assert sum(count for count, _ in texts) == last - first + 1
        words = '== each %d %d l boot img l %d %d' % (first, last, TURNS, STEPS)
        self.cases.append(words + '\n' + schedule.rstrip('\n'))
        self.told.append(words)
        self.told.extend('%d x\n%sstatus 0' % (count, text) for count, text in texts)

    def failing(self, name, what, lefts, kernel, users, par, whole, status, words='boot img s %d %d' % (TURNS, STEPS), after={}):
        """Runs in one world, of which each fails at the next of its own calls and leaves the next of these texts, and a last one that would fail
        at one call more, and makes no such call. Behind those that `after` names stand the sectors that they leave; to show one is a call of the disk, too
        (so none can be shown of a disk behind the last run)."""
        numbers, before = [], 0
        for call in range(len(lefts) + 1):
            numbers.append(str(before + call))
            before += call + 1 + (len(after.get(call, ())) if what == 'disk' else 0)
        self.schedules(name, kernel, users, par, 'sectors 64\nroom 1000000\n%s %s' % (what, ' '.join(numbers)))
        for call, left in enumerate(lefts):
            assert whole.startswith(left) and left != whole, (name, left)
            self.run(words, left + (' ..' if left[-1:] not in ('', '\n') else ''), status)
            self.sectors(after.get(call, ()))
        self.run(words, whole)
        if what != 'disk':
            self.sectors(after.get(len(lefts), ()))

    def taking(self, name, takes, calls, puts, kernel, users, par, words='boot img s %d %d' % (TURNS, STEPS)):
        """Runs in one world over a sink that takes so many bytes of a put that fails; each fails at one of these calls, the last at none."""
        numbers, before = [], 0
        for call in calls:
            numbers.append(str(before + call))
            before += call + 2
        self.schedules(name, kernel, users, par, 'sectors 64\nroom 1000000\ntakes %d\nsink %s' % (takes, ' '.join(numbers)))
        for call in calls:
            left = before_each(puts)[call] + puts[call][:takes]
            self.run(words, left + (' ..' if left[-1:] not in ('', '\n') else ''), 7)
        self.run(words, ''.join(puts))

    # ---- all of it
    def write(self):
        """Makes the cases, in their order."""
        raise NotImplementedError

    def put(self, cases_to, told_to):
        with open(cases_to, 'w', encoding='utf-8') as f:
            f.write(self.note + '\n\n' + '\n'.join(self.cases) + '\n')
        with open(told_to, 'w', encoding='utf-8') as f:
            f.write('\n'.join(self.told) + '\n')


def main_of(kind, words):
    """Writes the cases of a kind of writer: CASES STDOUT [PRINTED]."""
    writer = kind(words[2] if len(words) > 2 else None)
    writer.write()
    writer.put(words[0], words[1])
    return 0

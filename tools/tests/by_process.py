"""The cases of shell_cases, run by the built program as a process. crates/shell_cases/src/main.rt says what each kind is."""
import os
import re
import shutil
import subprocess
import sys
import tempfile
from concurrent.futures import ThreadPoolExecutor

from explain import pages, words as command_words

CRATE = os.path.join(pages.TOP, 'crates', 'shell_cases')
PROGRAM = os.path.join(pages.TOP, 'crates', 'cvm', 'out', 'cvm')
# The kinds that print nothing.
SILENT = ('file', 'zeros', 'flip', 'host')
SECTOR = 4096
ESCAPES = {'n': b'\n', 'r': b'\r', 't': b'\t', '0': b'\0', '\\': b'\\'}


class LeftOut(Exception):
    """A part of a case that no process can be asked for."""


def copies(text, mark):
    """A source in which each part between two of these marks stands as often as it says."""
    parts = text.split(mark)
    for at in range(1, len(parts), 2):
        count, _, part = parts[at].partition(' ')
        parts[at] = ''.join(re.sub(r'[?^]', lambda match: str(number + (match.group() == '^')), part) for number in range(int(count)))
    return ''.join(parts)


def unescaped(text):
    """The bytes of a source, its escapes written out."""
    def byte(match):
        word = match.group(1)
        return (ESCAPES[word] if word in ESCAPES else bytes([int(word[1:], 16)])).decode('latin-1')
    return re.sub(r'\\(x[0-9a-fA-F]{2}|.)', byte, text.encode().decode('latin-1')).encode('latin-1')


class Part:
    """A part of a case: its kind, the rest of its first line, and its source."""

    def __init__(self, text):
        heading, _, source = text.partition('\n')
        self.kind, _, self.name = heading.partition(' ')
        self.source = unescaped(copies(copies(source, '`'), '~'))


def parts(path):
    with open(path, encoding='utf-8') as file:
        text = file.read()
    whole = text[:-1] if text.endswith('\n') else text
    return [Part(part) for part in whole.split('\n== ')[1:]]


def shown(data):
    """Bytes as they are printed: printed ASCII as it is, and `\\xHH` for each other one."""
    return ''.join(chr(byte) if 32 <= byte <= 126 and byte != 92 else '\\x%02x' % byte for byte in data)


# A word that may name a file.
NAME = re.compile(r'[A-Za-z_][\w.]*')


def text_of(data):
    """The text of a command, with a mark where its last line was cut off."""
    return data.decode('utf-8') + ('' if data.endswith(b'\n') or not data else ' ..\n')


class World:
    """A folder with the files and the disk of a case, and the program that is run there."""

    def __init__(self, program, folder):
        self.program, self.folder, self.last, self.sectors, self.left_out = program, folder, b'', 2, None
        # how many bytes a put to each file has room for in memory, and the texts of a case; and how many these have
        self.rooms, self.room, self.printed = {}, 1 << 20, 0

    def path(self, name):
        return os.path.join(self.folder, name)

    def begin(self, lines):
        """A new case: what its lines say of calls that fail can't be had of a process."""
        for name in os.listdir(self.folder):
            path = self.path(name)
            shutil.rmtree(path) if os.path.isdir(path) else os.remove(path)
        self.sectors, self.left_out, self.rooms, self.room, self.printed = 2, None, {}, 1 << 20, 0
        for line in lines.decode().split('\n'):
            what, _, rest = line.partition(' ')
            if what == 'sectors':
                self.sectors = int(rest)
            elif what == 'room':
                self.room = int(rest)
            elif what in ('shelf', 'sink', 'disk', 'takes', 'alter'):
                self.left_out = 'calls fail'

    def put(self, name, data):
        self.rooms[name] = len(data)
        with open(self.path(name), 'wb') as file:
            file.write(data)

    def content(self, name):
        try:
            with open(self.path(name), 'rb') as file:
                return file.read()
        except OSError:
            return None

    def keep_from_being_made(self, words):
        """A file that was not placed can be neither got nor put: a folder of its name stands there."""
        for word in words:
            if NAME.fullmatch(word) and not os.path.lexists(self.path(word)):
                os.mkdir(self.path(word))

    def run(self, line, folder=None):
        """The status of a command and what it printed."""
        words = line.split(' ') if line else []
        self.keep_from_being_made(words)
        ran = subprocess.run([self.program, *words], cwd=folder or self.folder, stdin=subprocess.DEVNULL, stdout=subprocess.PIPE, stderr=subprocess.DEVNULL)
        return ran.returncode, ran.stdout

    def run_last(self, line):
        """The status of a command, whose text is the last one."""
        status, self.last = self.run(line)
        self.printed += len(self.last)
        return status

    def ran(self, line):
        status = self.run_last(line)
        return text_of(self.last) + 'status %d\n' % status

    def each(self, part):
        """The texts of a command that is run for each number of a range, each with how often it came in succession."""
        first, last, name, words = part.name.split(' ', 3)
        out, before, count = '', '', 0
        for number in range(int(first), int(last) + 1):
            self.put(name, part.source.replace(b'@', str(number).encode()))
            text = self.ran(words)
            if text != before:
                out += ('%d x\n' % count if count else '') + before
                before, count = text, 0
            count += 1
        return out + '%d x\n' % count + before

    def journal(self, line):
        """The rows of a trace but those that count steps, up to the end of the run."""
        status = self.run_last(line)
        out = ''
        for row in self.last.decode().split('\n')[:-1]:
            out += '' if row.startswith('steps ') else row + '\n'
            if row in ('halted', 'stopped') or row.startswith('fault '):
                break
        return out + 'status %d\n' % status

    def surely(self, line):
        """The status of a command over copies of the files, and a new disk. Where no call fails a file that isn't there is empty."""
        with tempfile.TemporaryDirectory() as room:
            for name in os.listdir(self.folder):
                if os.path.isfile(self.path(name)) and name != 'cvm.disk':
                    shutil.copy(self.path(name), room)
            for word in line.split(' '):
                if NAME.fullmatch(word) and not os.path.lexists(os.path.join(room, word)):
                    open(os.path.join(room, word), 'wb').close()
            return 'status %d\n' % self.run(line, room)[0]

    def show(self, name, at=0, count=None):
        data = self.content(name)
        return ('(not got)' if data is None else shown(data[at:] if count is None else data[at:at + count])) + '\n'

    def object(self, name):
        """An object's source, and how many words it has."""
        data = self.content(name)
        if data is None:
            return '(not got)\n'
        length, words = (int.from_bytes(data[at:at + 4], 'little') for at in (8, 12))
        if data[:8] != b'CVMO\1\0\0\0' or len(data) != 16 + length + 4 * words:
            raise LeftOut('what is no object has a fault that only its reader tells')
        return 'source %s\nwords %d\n' % (shown(data[16:16 + length]), words)

    def sector(self, number):
        """The words of a sector that aren't 0."""
        if number >= self.sectors:
            return '(not read)\n'
        data = (self.content('cvm.disk') or b'')[SECTOR * number:SECTOR * (number + 1)].ljust(SECTOR, b'\0')
        words = [int.from_bytes(data[at:at + 4], 'little') for at in range(0, SECTOR, 4)]
        return ''.join('%d: %08x\n' % (place, word) for place, word in enumerate(words) if word)

    def change_file(self, part):
        """The kinds that make or change a file."""
        if part.kind == 'file':
            self.put(part.name, part.source)
        elif part.kind == 'zeros':
            self.put(part.name, bytes(int(part.source)))
        elif part.kind == 'host':
            with open(os.path.join(CRATE, 'data', part.source.decode()), 'rb') as file:
                self.put(part.name, file.read())
        elif part.kind == 'flip':
            data = bytearray(self.content(part.name) or b'')
            if int(part.source) < len(data):
                data[int(part.source)] ^= 1
            self.put(part.name, data)

    def forge(self, part):
        """The kinds that place the file `forged`."""
        name, *numbers = part.name.split(' ')
        data = self.content(name)
        if data is None:
            return
        if part.kind == 'cut':
            count = int(numbers[0])
            self.put('forged', data[:count].ljust(count, b'\0'))
        else:
            at, word = 4 * int(numbers[0]), int(numbers[1]).to_bytes(4, 'little')
            self.put('forged', (data[:at] + word + data[at + 4:])[:len(data)])

    def same(self, name):
        with open(os.path.join(CRATE, 'data', name), 'rb') as file:
            return 'the same\n' if file.read() == self.last else 'another\n'

    def change_disk(self, count):
        self.sectors = count
        if os.path.exists(self.path('cvm.disk')):
            os.remove(self.path('cvm.disk'))

    def done(self, part):
        """What is printed of a part, below its first line."""
        kind, name = part.kind, part.name
        if kind in ('cut', 'set'):
            self.forge(part)
            return ''
        if kind == 'disk':
            self.change_disk(int(name))
            return ''
        if kind == 'part':
            of, at, count = name.split(' ')
            return self.show(of, int(at), int(count))
        kinds = {'run': self.ran, 'journal': self.journal, 'sure': self.surely, 'show': self.show, 'object': self.object, 'as': self.same,
                 'sector': lambda number: self.sector(int(number)), 'each': lambda _: self.each(part)}
        if kind == 'put':
            raise LeftOut('bytes are put without a command')
        if kind not in kinds:
            raise LeftOut('turns are asked for one by one')
        return kinds[kind](name)


def stored():
    """What is stored of each part that prints, in their order: its first line, and the text below it."""
    with open(os.path.join(CRATE, 'stdout'), encoding='utf-8') as file:
        text = file.read()
    whole = text[:-1] if text.endswith('\n') else text
    found = [part.partition('\n') for part in ('\n' + whole).split('\n== ')[1:]]
    return [(heading, text + '\n' if has_text else '') for heading, has_text, text in found]


class Case:
    """The parts of a case in a file, each with what is stored of it."""

    def __init__(self, file):
        self.file, self.parts = file, []

    def name(self):
        return '%s: %s' % (self.file, self.parts[0][0].name)


def cases():
    """The cases of all files, with what is stored of each part."""
    with open(os.path.join(CRATE, 'args'), encoding='utf-8') as file:
        names = file.read().split()
    answers, found = iter(stored()), []
    for name in names:
        for part in parts(os.path.join(CRATE, 'data', name)):
            if part.kind == 'case':
                found.append(Case(name))
            heading, text = (None, None) if part.kind in SILENT else next(answers, (None, None))
            if part.kind not in SILENT and heading != '%s %s' % (part.kind, part.name):
                raise ValueError("shell_cases' stdout has '%s' where '%s %s' is to stand" % (heading, part.kind, part.name))
            found[-1].parts.append((part, text))
    return found


def only_in_memory(world, part, wanted):
    """Whether a command ends as it is to, in memory, for want of room or of sectors alone, which a process over files has."""
    if part.kind not in ('run', 'journal', 'each', 'sure'):
        return False
    refused = re.search(r'^refused 90 (\d+) (\d+)$', wanted, re.MULTILINE)
    if refused:
        return int(refused[1]) > int(refused[2]) == world.sectors and wanted.endswith('status 5\n')
    if wanted.endswith('status 7\n'):
        return world.printed > world.room
    puts = command_words.files(part.name.split(' '))[1] if part.name else []
    return wanted.endswith('status 6\n') and any(len(world.content(name) or b'') > world.rooms.get(name, 0) for name in puts)


class Counts:
    """How many commands were the same, and which were not or were left out."""

    def __init__(self):
        self.same, self.other, self.left_out = 0, [], {}

    def leave_out(self, why):
        self.left_out[why] = self.left_out.get(why, 0) + 1


def run_case(program, case):
    """Runs a case, and gives its counts. From a part that is left out and changes something on, the whole case is."""
    counts = Counts()
    with tempfile.TemporaryDirectory(prefix='cvm-cases-') as folder:
        world = World(program, folder)
        for part, wanted in case.parts:
            if part.kind == 'case':
                world.begin(part.source)
            elif world.left_out:
                counts.leave_out(world.left_out)
            elif part.kind in SILENT:
                world.change_file(part)
            else:
                try_part(world, case, part, wanted, counts)
    return counts


def try_part(world, case, part, wanted, counts):
    """Does one part, and compares what is printed of it."""
    try:
        got = world.done(part)
    except LeftOut as why:
        world.left_out = str(why)
        counts.leave_out(world.left_out)
        return
    if got == wanted:
        counts.same += 1
    elif only_in_memory(world, part, wanted):
        world.left_out = 'no room, or too few sectors'
        counts.leave_out(world.left_out)
    else:
        counts.other.append('%s: == %s %s\nwanted\n%s\ngot\n%s' % (case.name(), part.kind, part.name, wanted, got))


def main(words):
    program = os.path.abspath(words[0]) if words else PROGRAM
    if not os.access(program, os.X_OK):
        print('cases: skipped, crates/cvm has no built program')
        return 0
    asked = [case for case in cases() if not words[1:] or case.file in words[1:]]
    with ThreadPoolExecutor(os.cpu_count() or 1) as pool:
        every = list(pool.map(lambda case: run_case(program, case), asked))
    other = [text for counts in every for text in counts.other]
    left_out = {}
    for counts in every:
        for why, count in counts.left_out.items():
            left_out[why] = left_out.get(why, 0) + count
    for text in other:
        print('cases: ' + text, file=sys.stderr)
    print('cases: %d parts of %d cases are as stored, %d are not; left out are %s' % (
        sum(counts.same for counts in every), len(every), len(other), ', '.join('%d (%s)' % (count, why) for why, count in sorted(left_out.items())) or 'none'))
    return 1 if other else 0

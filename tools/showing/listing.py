"""./try FOLDER --listing: the lines of the kernel and of users with the words that they became."""
import os

from explain import files
from running import program
from running.guard import say
from showing import made
from oracle.assembler import assemble, line_numbers
from oracle.c0.cut import START, Cut
from oracle.disassembler import instruction
from oracle.sources import Source
from oracle.words import of_bytes

CODE = START // 4


class Listing:
    """Puts the rows of a folder's listing; `unfit` has what does not fit, in sentences."""

    def __init__(self, put):
        self.put, self.unfit = put, []

    def word(self, address, word, names):
        to = target(address, word)
        named = '    -> %s' % (names.get(to) or '%08x' % to) if to is not None else ''
        self.put(('    %08x  %08x  %-24s%s' % (address, word, instruction(word), named)).rstrip())

    def code(self, name, text, words, kind):
        """The words of a source in C0; those of a program may have zeros behind them."""
        source = Source(name, text)
        self.put('%s: %s' % (name, kind))
        cut = Cut(text, kind.startswith('the code of a program'))
        if kind.startswith('the code of a program') and not any(words[cut.at:]):
            words = words[:cut.at]
        odd = cut.unfit(words)
        if odd:
            self.unfit.append('%s: the cut does not fit the words from %08x on: %s' % (name, START + 4 * odd[0], odd[1]))
            return self.plain(words)
        names = cut.names()
        for part in cut.parts:
            self.put(self.head(source, part))
            for number in range(part.first, part.first + part.count):
                self.word(START + 4 * number, words[number], names)
        return None

    def head(self, source, part):
        if part.place is None:
            return '  %s' % part.what
        line = source.line(part.place)
        if part.node is not None and part.node.kind in ('if', 'while'):
            text = '%s (%s)' % (part.node.kind, source.part(part.node.parts[0].span))
            return '  %s  %s  (%s)' % (source.where(line), text, part.what)
        if part.node is not None:
            return '  %s  %s' % (source.where(line), source.part(part.node.span))
        return '  %s  %s  (%s)' % (source.where(line), source.line_text(line), part.what)

    def plain(self, words):
        for number, word in enumerate(words):
            self.word(START + 4 * number, word, {})

    def text(self, name, text, words):
        """The words of a user in assembler. Words that `.zero` gives stand as one row."""
        source, numbers = Source(name, text), line_numbers(text)
        self.put('%s: the words of a user' % name)
        if len(numbers) != len(words) or assemble(text) != words:
            self.unfit.append('%s: the model has other words than the program' % name)
            numbers = [None] * len(words)
        last, skipped = None, 0
        for number, word in enumerate(words):
            line = numbers[number]
            if line != last and line is not None:
                self.put('  %s  %s' % (source.where(line), source.line_text(line)))
            skipped = skipped + 1 if line == last and line is not None else 0
            if skipped == 1:
                self.put('    ..        and so on, %d words in all' % numbers.count(line))
            if not skipped:
                self.word(4 * number, word, {})
            last = line


def target(address, word):
    """Where a jump or a branch goes; None for other words."""
    op = word >> 26
    if op in (2, 3):
        return (address + 4) & 0xf0000000 | (word & 0x3ffffff) << 2
    if op in (1, 4, 5, 6, 7):
        offset = word & 0xffff
        return (address + 4 + 4 * (offset - 0x10000 if offset >> 15 else offset)) & 0xffffffff
    return None


def object_words(name):
    """The words of an object's file."""
    data = files.content(name) or b''
    length = int.from_bytes(data[8:12], 'little')
    return of_bytes(data[16 + length:])


def listed(run, folder, put):
    """Puts the listing of a folder that was compiled. Gives what does not fit, in sentences."""
    listing = Listing(put)
    listing.code('kernel.c0', made.text_of(folder.kernel), object_words(run.made('kernel.obj')), 'the code of a kernel')
    for name in folder.users:
        words, short = of_bytes(files.content(run.image(name)) or b''), program.text(os.path.basename(name))
        put('')
        if name.endswith('.s'):
            listing.text(short, made.text_of(name), words)
        else:
            listing.code(short, made.text_of(name), words[CODE:], 'the code of a program, which stands behind the %d words of docs/PROGRAMS.md' % CODE)
    return listing.unfit


def put_listing(run, folder):
    """Puts the listing to standard output; 70 where something does not fit."""
    rows = []
    unfit = listed(run, folder, rows.append)
    program.put(('\n'.join(rows) + '\n').encode('latin-1'))
    say(['try: %s. The words are the program\'s own.' % why for why in unfit])
    return 70 if unfit else 0

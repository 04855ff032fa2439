"""Examples that stand as data of programs of the gate in another form than as files, which examples/check compares; and the rows that pages show of them."""
import glob
import os
import re
import unittest

from explain import pages
from proving import assembler


def stored(*path):
    with open(os.path.join(pages.TOP, *path), encoding='utf-8') as file:
        return file.read()


class Examples(unittest.TestCase):
    def test_the_system_of_saved_runs_is_the_example_messages(self):
        parts = dict(part.split('\n', 1) for part in ('\n' + stored('crates', 'saved_runs', 'data', 'messages.cases')).split('\n== ')[1:] if '\n' in part)
        for name in ('kernel.c0', 'params', 'user1.s', 'user2.s', 'user3.s'):
            self.assertEqual(parts['file ' + name].strip('\n'), stored('examples', 'messages', name).strip('\n'), name)


class Proved(unittest.TestCase):
    """The example folders of proved systems hold what their theorems name, and print what these state."""

    def codes(self, path, name):
        """The lines of a text that a file of specs/ defines."""
        body = stored('crates', *path).split('%s =' % name)[1].split('\n\n')[0]
        return re.findall(r'codes "([^"]*)"', body)

    def test_kernels_are_those_of_the_theorems(self):
        for example, crate in (('summing', 'summing'), ('compiled_sums', 'summing'), ('answering', 'answering'), ('alternating', 'alternating')):
            self.assertEqual('\n'.join(self.codes((crate, 'specs', 'Text.antt'), 'text')) + '\n', stored('examples', example, 'kernel.c0'), example)

    def test_users_are_those_of_the_theorems(self):
        for example, names in (('summing', ('user_one', 'user_two')), ('alternating', ('user_1', 'user_2'))):
            specs = stored('crates', example, 'specs', 'Users.antt')
            for file, name in zip(('user1.s', 'user2.s'), names):
                words = [int(word, 16) for word in re.findall('0x[0-9a-f]+', re.search(r'^%s = .*$' % name, specs, re.M).group())]
                self.assertEqual(assembler.words_of(stored('examples', example, file)), words)
        for example in ('compiled_sums', 'answering'):
            for file, limit in (('user1.c0', '10'), ('user2.c0', '20')):
                lines = self.codes(('program_systems', 'specs', 'AdderTexts.antt'), 'adder_text limit')
                first, last = lines[2], lines[3]
                self.assertEqual('\n'.join(lines[:2] + [first + limit + last] + lines[4:]) + '\n', stored('examples', example, file))

    def test_what_is_printed_is_what_the_theorem_states(self):
        for example in ('summing', 'alternating'):
            rows = self.codes((example, 'specs', 'Boots.antt'), 'report_lines')
            printed = stored('examples', example, 'printed').rstrip('\n').split('\n')
            self.assertEqual(printed[-len(rows):], rows)
        for example, report, most in (('summing', ['global total 30', 'global done true'], 3), ('compiled_sums', ['global total 265', 'global done true'], 3), ('answering', ['global total 265'], 5),
                                      ('alternating', ['global calls 6', 'con 00000001'], 7)):
            printed = stored('examples', example, 'printed').split('\n')
            over = printed.index('halted')
            self.assertEqual(printed[over + 1:over + 1 + len(report)], report)
            self.assertLessEqual(over, most + sum(row.startswith('line ') for row in stored('examples', example, 'schedule').split('\n')))


# A row of a turn, of a report or of a trace in a block or in a cell of a table; `..` stands for what is left out, and the end may be.
SHOWN = re.compile(r'(?:^    |`)((?:turn \d+ |global \w+ |con [0-9a-f]{8}|user \d+ pages |reg \d+ |mem [0-9a-f]{8} |set \d+ [0-9a-f]{8})[^`\n]*)(?:`|$)', re.MULTILINE)


def shown(page):
    """The rows that a page shows, and of a sentence on some turns these turns."""
    yield from (found.rstrip() for line in page.split('\n') if line.startswith(('|', '    ')) for found in SHOWN.findall(line))
    for first, last in re.findall(r'\bthe turns (\d+) (?:and|to) (\d+)', page):
        yield from ('turn %s ..' % turn for turn in (first, last))


def is_among(row, rows):
    """Whether a row, of which something may be left out, is one of these or begins one."""
    wanted = re.compile(' .*'.join(re.escape(part) for part in row.replace(' ..', '\0').split('\0')) + r'(?![^ ])')
    return any(wanted.match(it) for it in rows)


class Shown(unittest.TestCase):
    """The rows that README and the pages of the examples show are stored: in `printed`, `saved`, `resumed` or a trace."""

    def stored_rows(self, example):
        rows = set()
        for path in glob.glob(os.path.join(pages.TOP, 'examples', example, '*')):
            if re.fullmatch(r'printed|saved|resumed|trace\d+', os.path.basename(path)):
                with open(path, encoding='utf-8') as file:
                    rows |= set(file.read().split('\n'))
        return rows

    def test_rows_that_are_shown_are_stored(self):
        for row, found in (('turn 9 ..', True), ('turn 9 cause 6 .. next 1', True), ('turn 9 cause 6 data 0', False), ('turn 9 cause 6 .. next 10', False), ('turn 90 ..', False)):
            self.assertEqual(is_among(row, ['turn 9 cause 6 data 0000004c user 1 next 1']), found, row)
        count = 0
        for path in sorted(glob.glob(os.path.join(pages.TOP, 'examples', '*', '*.md'))):
            rows = self.stored_rows(os.path.basename(os.path.dirname(path)))
            for row in shown(stored(path)):
                self.assertTrue(is_among(row, rows), '%s: %s' % (path, row))
                count += 1
        self.assertGreater(count, 80)

    def test_rows_of_the_first_page_are_stored(self):
        rows = list(shown(stored('README.md')))
        self.assertEqual(len(rows), 3)
        for row in rows:
            self.assertTrue(is_among(row, self.stored_rows('round_robin')), row)

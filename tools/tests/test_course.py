"""The exercises and the pages of the course: each exercise is whole, its page shows what is expected, and the model of the abstract machine agrees."""
import os
import re
import subprocess
import sys
import unittest

from explain import files, pages
from running import changed, expected

EXERCISES = os.path.join(pages.TOP, 'exercises')
NAMES = sorted(name for name in os.listdir(EXERCISES) if os.path.isdir(os.path.join(EXERCISES, name)))
MODEL = os.path.join(pages.TOP, 'oracle', 'model')


def path(*names):
    return os.path.join(EXERCISES, *names)


def text(name):
    with open(name, encoding='utf-8') as file:
        return file.read()


class Course(unittest.TestCase):
    def test_each_exercise_is_whole(self):
        self.assertEqual(len(NAMES), 13)
        for name in NAMES:
            self.assertEqual(sorted(os.listdir(path(name))), ['README.md', 'expected', 'solution', 'start', 'wrong'])
            self.assertEqual(sorted(os.listdir(path(name, 'start'))), sorted(os.listdir(path(name, 'solution'))))
            self.assertNotEqual(text(path(name, 'start', 'kernel.c0')), text(path(name, 'solution', 'kernel.c0')))
            wrong = os.listdir(path(name, 'wrong'))
            self.assertEqual((len(wrong), {'constant', 'one_more', 'one_less', 'by_chance'} <= set(wrong)), (5, True), name)
            for folder in wrong:
                has = set(os.listdir(path(name, 'wrong', folder)))
                self.assertTrue(has == {'change'} or {'kernel.c0'} <= has <= set(os.listdir(path(name, 'start'))), folder)

    def test_those_of_the_small_unix_begin_with_its_kernel_and_library(self):
        unix = [name for name in NAMES if name.startswith('unix')]
        self.assertEqual(len(unix), 5)
        library = text(os.path.join(pages.TOP, 'examples', 'unix', 'library.c0'))
        for name in unix:
            self.assertEqual(text(path(name, 'start', 'kernel.c0')), text(os.path.join(pages.TOP, 'examples', 'unix', 'kernel.c0')), name)
            self.assertTrue(text(path(name, 'start', 'user10.c0')).startswith(library), name)
            for part in ('params', 'schedule', 'user10.c0'):
                self.assertEqual(text(path(name, 'start', part)), text(path(name, 'solution', part)), (name, part))

    def test_a_change_is_refused_where_its_lines_are_not_there_once(self):
        self.assertEqual(changed.changed('a\nb\nc\n', '-b\n+d\n+e\n\n-c\n'), 'a\nd\ne\n')
        for change in ('-d\n+e\n', '-a\n+b\n', '+b\n', '+b\n-c\n', ' b\n'):
            with self.assertRaises(changed.BadChange):
                changed.changed('a\na\nc\n', change)

    def test_each_page_shows_what_is_expected(self):
        for name in NAMES:
            page = text(path(name, 'README.md'))
            block = re.split(r'Of each of these kinds all rows are compared \(`expected`\)[^:]*:\n\n', page)[1].partition('\n\n')[0]
            self.assertEqual([line[4:] for line in block.split('\n')], text(path(name, 'expected')).split('\n')[:-1], name)
            for part in ('## Task', './try exercises/%s/start' % name, './try MY_FOLDER --expect exercises/%s/expected' % name, '## Hints'):
                self.assertIn(part, page)

    def test_the_model_agrees(self):
        # in exercises with lines and in that with a program in C0 the turns are those of the machine and of the compiler
        tried = 0
        for name in NAMES:
            if text(path(name, 'start', 'schedule')) or any(file.endswith('.c0') for file in os.listdir(path(name, 'start')) if file.startswith('user')):
                continue
            tried += 1
            for part in ('start', 'solution'):
                ran = subprocess.run([sys.executable, MODEL, 'boot', path(name, part), '100000'], capture_output=True, check=True)
                answer = expected.answer(files.content(path(name, 'expected')), ran.stdout, 0, [])
                self.assertEqual(answer is None, part == 'solution', (name, part, answer))
        self.assertEqual(tried, 4)

    def test_links_of_the_pages_lead_somewhere(self):
        names = [os.path.join('docs', name) for name in ('TEACHING.md', 'FROM_C.md', 'FROM_SPIM.md', 'KERNELS.md')] + ['examples/unix/LECTURE.md', 'README.md', 'editors/README.md']
        names += [os.path.join('examples', name, 'README.md') for name in os.listdir(os.path.join(pages.TOP, 'examples')) if os.path.isdir(os.path.join(pages.TOP, 'examples', name))]
        for name in names:
            page = text(os.path.join(pages.TOP, name))
            for link in re.findall(r'\]\(([^)#:]+)\)', page):
                self.assertTrue(os.path.exists(os.path.join(pages.TOP, os.path.dirname(name), link)), (name, link))
            for link in re.findall(r'`((?:docs|examples|exercises|tools|editors)/[\w./-]+)`', page):
                self.assertTrue(os.path.exists(os.path.join(pages.TOP, link)), (name, link))

    def test_tables_have_as_many_cells_in_each_row(self):
        for name in ('FROM_C.md', 'FROM_SPIM.md', 'TEACHING.md', '../examples/unix/LECTURE.md'):
            tables = re.findall(r'(?:^\|.*\n)+', pages.page(name), re.MULTILINE)
            self.assertTrue(tables, name)
            for table in tables:
                self.assertEqual(len({len(pages.cells(line)) for line in table.split('\n')[:-1]}), 1, (name, table))

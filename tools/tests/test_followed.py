"""Typical mistakes, the sentences on them, and the advice that is followed; and what stands in parameters, schedules and users' images by mistake."""
import os
import re
import tempfile
import unittest

from explain import c_habits, given_texts, status as explaining
from tests import followed_rows, habit_rows


def split(source):
    """The bytes of a source without its marks, and the span that they show."""
    start = len(source[:source.index('@')].encode())
    source = source.replace('@', '', 1)
    end = len(source[:source.index('~')].encode()) if '~' in source else start + 1
    return (source.replace('~', '', 1) + habit_rows.DISPATCH).encode(), start, end


class Sources(unittest.TestCase):
    def test_sentences(self):
        for source, key, part, _ in followed_rows.ROWS:
            self.assertIn(part, c_habits.habit(key, *split(source)) or '', source)

    def test_the_source_that_follows_has_what_is_advised(self):
        plain = lambda text: re.sub(r'\s', '', text)
        for source, key, _, followed in followed_rows.ROWS:
            said = c_habits.habit(key, *split(source))
            advised = re.search(r"write '([^']*)'", said)
            if advised and '..' not in advised.group(1):
                self.assertIn(plain(advised.group(1)), plain(followed), source)

    def test_heads(self):
        for source, part in followed_rows.HEADS:
            with tempfile.TemporaryDirectory() as room:
                name = os.path.join(room, 'k.c0')
                with open(name, 'w', encoding='utf-8') as file:
                    file.write(source)
                said = explaining.explain(2, ['compile', 'kernel', name, 'k'], ['refused 31 0 %d' % len(source)])
            self.assertTrue(any(part in line for line in said), (source, said))
            if 'no function' not in part:
                self.assertTrue(said[0].startswith(name + ':1:1\n    ' + source[:9]), said)

    def test_the_general_sentence_goes_where_a_habit_is_named(self):
        with tempfile.TemporaryDirectory() as room:
            name = os.path.join(room, 'k.c0')
            for source, at, general in (('int f() { x++; }', 11, False), ('int f() { @ }', 10, True)):
                with open(name, 'w', encoding='utf-8') as file:
                    file.write(source)
                said = explaining.explain(2, ['compile', 'kernel', name, 'k'], ['refused 12 %d' % at])
                self.assertEqual(any('look at the grammar' in line for line in said), general, said)
                self.assertTrue(any('refusal 12' in line for line in said))


class Rows(unittest.TestCase):
    def setUp(self):
        room = tempfile.TemporaryDirectory()
        self.addCleanup(room.cleanup)
        self.room = room.name

    def put(self, name, text):
        path = os.path.join(self.room, name)
        with open(path, 'w', encoding='utf-8') as file:
            file.write(text)
        return path

    def said(self, words, row):
        return '\n'.join(explaining.explain(2, words, [row]))

    def test_schedules(self):
        for text, row, part in (('input A\n', 'refused 70 1', "'input 65' is A"), ('line 5 1\ninput HI\n', 'refused 70 2', "'input 72', 'input 73'"), ('line 0 20000\n', 'refused 72 1 20000', "'line 20000 0'"),
                                ('input 1 2\n', 'refused 70 1', "'input 1', 'input 2'"), ('line 500\n', 'refused 70 1', "'line 500 0'"), ('timer 5\n', 'refused 70 1', "'line T J'")):
            said = self.said(['boot', 'image', self.put('schedule', text), '1', '1'], row)
            self.assertIn(part, said, text)
            self.assertIn('schedule:%s:1\n' % row.split()[2], said)

    def test_parameters(self):
        good = 'pages 2\nframes 4\nheap 0\nstack 64\n'
        for text, line, part in (('frames 4\npages 2\nheap 0\nstack 64\n', 1, "'pages 2' stands here"), ('pages 2\nframes 4\nstack 64\nheap 0\n', 3, "'heap 0' stands here"),
                                 ('pages 2\nframes 4\nstack 64\n', 3, "'heap H' stands here, and is missing"), ('pages = 2\n', 1, "the row is 'pages 2'"), ('pages: 2\n', 1, "the row is 'pages 2'"),
                                 ('2\n4\n0\n64\n', 1, "'pages 2'"), (good + 'users 2\n', 5, 'four rows')):
            said = self.said(['link', 'object', self.put('params', text), 'image'], 'refused 66 %d' % line)
            self.assertIn(part, said, text)

    def test_pages_that_are_too_few(self):
        params = self.put('params', 'pages 4\nframes 64\nheap 0\nstack 64\n')
        user = self.put('user1.img', '')
        said = self.said(['link', 'object', params, 'image', user], 'refused 61 1 19456')
        self.assertIn("params:1:1\n    pages 4\n", said)
        self.assertIn("it has 19,456 words, which take 19 pages: write 'pages 19', or more", said)

    def test_a_text_in_place_of_an_image_is_named_before_it_is_linked(self):
        text, image, program = self.put('user1.s', 'loop: j loop\n'), self.put('user2.img', '\x00\x00\x00\x08'), self.put('user3.c0', 'int main() { return 0; }')
        said = given_texts.said(['link', 'object', 'params', 'image', text, image, program], './cvm')
        self.assertEqual([line.partition(' makes')[0] for line in said],
                         ["cvm: word 5, '%s', is a text and no image of a user: './cvm compile user %s %s.img'" % (text, text, text[:-2]),
                          "cvm: word 7, '%s', is a text and no image of a user: './cvm compile program %s %s.img'" % (program, program, program[:-3])])
        self.assertEqual(given_texts.said(['boot', text, text, '1', '1'], './cvm'), [])

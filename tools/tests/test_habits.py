"""Habits from C and from SPIM: each row of habit_rows has its sentence, and sources without a fault need none."""
import re
import unittest

from explain import asm_habits, c_habits
from tests import habit_rows


class Habits(unittest.TestCase):
    def over(self, rows, behind, is_program):
        for source, key, part in rows:
            at = len(source[:source.index('@')].encode())
            data = (source.replace('@', '', 1) + behind).encode()
            end = at + 1
            while key >= 20 and re.match(rb'\w', data[end:end + 1]):
                end += 1
            self.assertIn(part, c_habits.habit(key, data, at, end, is_program) or '', source)

    def test_sources(self):
        self.over(habit_rows.SOURCES, habit_rows.DISPATCH, False)

    def test_programs(self):
        self.over(habit_rows.PROGRAMS, habit_rows.MAIN, True)

    def test_a_program_hears_nothing_of_a_kernels(self):
        for source, key, _ in habit_rows.SOURCES:
            at = len(source[:source.index('@')].encode())
            said = c_habits.habit(key, source.replace('@', '', 1).encode(), at, at + 1, True) or ''
            self.assertNotRegex(said, "'ok = con_put\\(w\\)|dispatch", source)

    def test_a_name_that_the_program_has_is_none_of_a_kernels(self):
        data = b'int con_put(int a) { return a; } int main() { con_put(3); return 0; }'
        self.assertIn('needs its answer taken', c_habits.habit(12, data, data.rindex(b'('  b'3'), data.rindex(b'('  b'3') + 1, True))

    def test_texts_of_instructions(self):
        for source, line, part in habit_rows.INSIDE:
            self.assertIn(part, asm_habits.inside(source.partition('@')[2], line) or '', source)

    def test_texts(self):
        for text, key, part in habit_rows.TEXTS:
            line = next(line for line in text.split('\n') if '@' in line).replace('@', '', 1)
            self.assertIn(part, asm_habits.habit(key, line) or '', text)

    def test_any_place_and_any_bytes_do(self):
        data = bytes(range(256)) + b' /* x " \' asm { } 0x 12ab'
        for key in (10, 11, 12, 13, 20, 21, 22, 23, 24, 25, 26, 30, 31):
            for at in range(0, len(data) + 2, 3):
                for is_program in (False, True):
                    c_habits.habit(key, data, at, at + 2, is_program)
        for key in range(1, 8):
            for line in ('', ':', ',', '$', '$zz', '.word', 'lw', 'lw r1', 'a:b:', '# x', 'x' * 3000):
                asm_habits.habit(key, line)
                asm_habits.inside(line, key - 1)

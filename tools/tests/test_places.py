"""Places: lines, columns and marks."""
import unittest

from explain import places


class Places(unittest.TestCase):
    def test_first_byte_of_a_line(self):
        self.assertEqual(places.shown('f', b'ab\ncd\n', 3, 4), 'f:2:1\n    cd\n    ^')

    def test_mark_ends_with_the_line(self):
        self.assertEqual(places.shown('f', b'ab cd\nef\n', 3, 9), 'f:1:4\n    ab cd\n       ^~')

    def test_end_of_the_source(self):
        self.assertEqual(places.shown('f', b'int f(', 6, 7), 'f:1:7\n    int f(\n          ^')

    def test_end_behind_the_last_lf(self):
        self.assertEqual(places.shown('f', b'x\n', 2, 3), 'f:2:1\n    \n    ^')

    def test_empty_file(self):
        self.assertEqual(places.shown('f', b'', 0, 1), 'f:1:1\n    \n    ^')

    def test_columns_count_characters(self):
        data = '// \u00e9\u00e9 @'.encode()
        self.assertEqual(places.shown('f', data, data.index(b'@'), 9), 'f:1:7\n    // \u00e9\u00e9 @\n          ^')

    def test_bytes_that_are_no_text(self):
        self.assertTrue(places.shown('f', b'a \xff b', 2, 3).startswith('f:1:3\n    a \ufffd b\n      ^'))

    def test_tabs_stay_under_tabs(self):
        self.assertEqual(places.shown('f', b'\tx', 1, 2), 'f:1:2\n    \tx\n    \t^')

    def test_cr_is_shown_as_a_sign(self):
        self.assertIn('pages 1\u00b7', places.shown_line('f', b'pages 1\r\nframes 2\r\n', 1))

    def test_a_long_line_is_cut_around_the_place(self):
        shown = places.shown('f', b'x' * 5000 + b'@' + b'y' * 5000, 5000, 5001)
        self.assertLess(max(map(len, shown.split('\n'))), 200)
        _, line, mark = shown.split('\n')
        self.assertEqual(line[mark.index('^')], '@')

    def test_a_line_past_the_last_one(self):
        self.assertEqual(places.shown_line('f', b'pages 1\nframes 2\n', 4), 'f:3:1\n    \n    ^')

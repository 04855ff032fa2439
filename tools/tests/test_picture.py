"""Pictures: of each example, of ten turns, of ten thousand, and of texts that are none."""
import os
import random
import unittest
import xml.etree.ElementTree as ElementTree

from drawing import draw, rows, times
from explain import pages

SVG = '{http://www.w3.org/2000/svg}'
FIRST = 'turn 0 cause 0 data 00000000 user 0 next 1\n'


def example(name, file='printed'):
    return draw.read(os.path.join(pages.TOP, 'examples', name, file))


def texts(picture):
    return [text.text for text in ElementTree.fromstring(picture).iter(SVG + 'text')]


def ticks(picture):
    """The numbers of turns below the bands; those of lines are marks, of another class."""
    small = [text.text for text in ElementTree.fromstring(picture).iter(SVG + 'text') if text.get('class') == 'small']
    return [text for text in small if text.replace(',', '').isdigit()]


def random_boot(seed, turns):
    """A boot of so many turns with a dispatch every few of them."""
    chance, turn, user, text = random.Random(seed), 0, 1, FIRST
    while turn + 6 < turns:
        turn += chance.randint(1, 6)
        behind = chance.randint(1, 5)
        text += 'turn %d cause %d data 0000000c user %d next %d\n' % (turn, chance.choice((1, 6, 6, 7)), user, behind)
        user = behind
    return text + 'stopped\n'


class Pictures(unittest.TestCase):
    def test_each_example(self):
        for name in ('adder', 'faults', 'messages', 'round_robin', 'sharing'):
            picture = draw.draw(example(name), [], name)
            self.assertTrue(draw.is_picture(picture), name)
            self.assertIn('user 1', texts(picture))

    def test_what_stands_in_the_picture(self):
        picture = draw.draw(example('messages'), [example('messages', 'trace3')], 'messages')
        found = texts(picture)
        for part in ('messages', 'kernel', 'user 3', 'halted', 'total 265', 'cause 6: system call', 'changed by the kernel', 'ran 6, longest wait 94'):
            self.assertIn(part, found)
        self.assertIn('prefers-color-scheme: dark', picture)
        self.assertIn("0000002a (42, '*')", texts(draw.draw(example('adder'), [], 'adder')))

    def test_the_times_of_messages(self):
        boot = rows.Boot(example('messages'))
        last = times.end_of(boot, None, [])
        parts = times.stretches(boot, last)
        self.assertEqual([[(part.first, part.last) for part in parts[user]] for user in (1, 2, 3)], [[(1, 32)], [(33, 94)], [(95, 100)]])
        self.assertEqual([(wait.first, wait.last) for wait in times.waits(parts[2], last)], [(1, 32), (95, 100)])

    def test_each_turn_is_one_user_s_or_a_line_s(self):
        for seed in range(20):
            boot = rows.Boot(random_boot(seed, 3000))
            last = times.end_of(boot, 3000, [])
            parts = times.stretches(boot, last)
            lines = sum(1 for dispatch in boot.dispatches if dispatch.cause < 2)
            self.assertEqual(sum(times.ran(parts[user]) for user in parts) + lines, last + 1)
            for user in parts:
                waited = sum(wait.last - wait.first + 1 for wait in times.waits(parts[user], last))
                self.assertEqual(times.ran(parts[user]) + waited, last)

    def test_ten_turns_and_ten_thousand(self):
        ten = draw.draw(FIRST + 'turn 4 cause 6 data 0000000c user 1 next 2\nturn 9 cause 1 data 00000001 user 2 fault Bounds\n', [], 'ten')
        self.assertEqual(ticks(ten), [str(number) for number in range(10)])
        self.assertIn('fault Bounds', texts(ten))
        many = draw.draw(random_boot(1, 10000), [], 'many', 10000)
        self.assertLessEqual(len(ticks(many)), 13)
        self.assertLess(len(many), 500000)

    def test_a_window(self):
        boot = example('messages')
        whole, part = draw.draw(boot, [], 'm'), draw.draw(boot, [], 'm', None, (30, 95))
        self.assertIn('halted in turn 100; the kernel was called in 4 turns. Here are turns 30 to 95, and in 2 turns of them', texts(part))
        self.assertIn('ran 3, longest wait 63', texts(part))
        self.assertIn('halted', texts(whole))
        self.assertNotIn('halted', texts(part))
        self.assertEqual(ticks(part), ['30', '40', '50', '60', '70', '80', '90'])
        self.assertEqual(draw.draw(boot, [], 'm', None, (0, 100)), whole)
        self.assertEqual(draw.draw(boot, [], 'm', None, (0, 5000)), whole)
        for window in ((101, None), (200, 300)):
            with self.assertRaises(rows.BadText):
                draw.draw(boot, [], 'm', None, window)

    def test_a_mark_per_line(self):
        both = draw.draw(FIRST + 'turn 4 cause 1 data 00000009 user 1 next 2\nturn 9 cause 1 data 00000008 user 2 next 0\nhalted\n', [], 'lines')
        self.assertIn('cause 1: line 0', texts(both))
        self.assertIn('cause 1: line 3', texts(both))
        self.assertEqual([texts(both).count(digit) for digit in ('0', '3')], [3, 4])     # tick, marks and legend

    def test_it_says_where_marks_are_thinned_out(self):
        self.assertFalse(any('side by side' in (text or '') for text in texts(draw.draw(random_boot(3, 100), [], 'few', 100))))
        said = [text for text in texts(draw.draw(random_boot(3, 3000), [], 'many', 3000)) if text and 'side by side' in text]
        self.assertEqual(len(said), 1)
        self.assertIn('of user 1, user 2, user 3, user 4 and user 5 marks', said[0])

    def test_ticks(self):
        for turns in (1, 2, 9, 12, 13, 100, 9999, 10000, 4294967295):
            step = draw.nice_step(turns)
            self.assertLessEqual(turns / step, 12)
            self.assertEqual(str(step).rstrip('0') in ('1', '2', '5'), True)

    def test_a_change_stands_at_its_dispatch(self):
        boot, trace = rows.Boot(example('messages')), rows.Trace(example('messages', 'trace3'))
        parts = times.stretches(boot, times.end_of(boot, None, []))
        self.assertEqual(times.change_turns(trace, parts[3], boot), [(94, ['put', 'put'])])

    def test_many_words_of_the_console(self):
        text = example('adder').replace('con 0000002a\n', ''.join('con %08x\n' % word for word in range(40)))
        found = texts(draw.draw(text, [], 'many'))
        self.assertTrue(any((row or '').startswith('00000018 (24)') and row.endswith('0000001f (31) and 8 more') for row in found))

    def test_texts_that_are_none(self):
        for text in ('', 'hello\n', 'halted\n', FIRST + FIRST, FIRST + 'turn x\n', 'refused 12 5\n', '\x00\xff'):
            with self.assertRaises(rows.BadText):
                rows.Boot(text)
        for text in ('', FIRST, 'start 1 pages 1\nstep 5\n'):
            with self.assertRaises(rows.BadText):
                rows.Trace(text)

    def test_a_name_with_signs_of_xml(self):
        self.assertTrue(draw.is_picture(draw.draw(example('adder'), [], '<a&b>')))

"""The words of a command."""
import unittest

from explain import words


class Words(unittest.TestCase):
    def test_good_words(self):
        for line in ('compile kernel a b', 'compile user a b', 'link o p out', 'link o p out 1 2 3', 'boot i s 1 0', 'boot i s 4294967295 18446744073709551615',
                     'trace i s 1 0 64', 'migrate a b', 'sample 0', 'sample 4294967295', 'save i s 1 0 f', 'resume i s 4294967295 0 f'):
            self.assertIsNone(words.fault(line.split(' ')), line)

    def test_the_bad_word_is_named(self):
        for line, part in (('bot a b 1 1', "word 1, 'bot', is no command: did you mean 'boot'?"), ('compile', 'word 2 is missing'),
                           ('compile kernle a b', "word 2, 'kernle'"), ('compile kernel a', 'word 4, OBJ, is missing'),
                           ('compile kernel a b c', "word 5, 'c', is one too many"), ('boot i s 0 1', "word 4, TURNS, '0', is out of its range"),
                           ('boot i s 01 1', 'begins with a 0'), ('boot i s 10 1e9', 'word 5, STEPS'), ('boot i s 1,000 1', 'of digits alone'),
                           ('boot i s 0x10 1', 'is hexadecimal'), ('boot i s 4294967296 1', 'out of its range'), ('trace i s 1 1 65', "word 6, USER, '65'"),
                           ('boot i s 1 18446744073709551616', 'out of its range'), ('sample -1', "word 2, N, '-1'"), ('boot i s +1 5', 'word 4'), ('Boot a b 1 1', "did you mean 'boot'"),
                           ('compile kernel \udcff b', 'word 3, '), ('save i s 1 1', 'word 6, FILE, is missing'), ('resume i s 0 1 f', "word 4, TURNS, '0', is out of its range"),
                           ('resum i s 1 1 f', "did you mean 'resume'?"), ('save i s 1 1 f g', "word 7, 'g', is one too many")):
            self.assertIn(part, words.fault(line.split(' ')) or '', line)

    def test_files(self):
        self.assertEqual(words.files('link o p out u1 u2'.split()), (['o', 'p', 'u1', 'u2'], ['out']))
        self.assertEqual(words.files('trace i s 1 2 3'.split()), (['i', 's'], []))
        self.assertEqual(words.files('compile kernel a b'.split()), (['a'], ['b']))
        self.assertEqual(words.files('save i s 1 2 f'.split()), (['i', 's'], ['f']))
        self.assertEqual(words.files('resume i s 1 2 f'.split()), (['i', 's', 'f'], []))
        self.assertEqual(words.files('nothing'.split()), ([], []))

    def test_values(self):
        self.assertEqual(words.value('boot i s 10 20'.split(), 'STEPS'), '20')
        self.assertEqual(words.value('sample 3'.split(), 'STEPS'), '')

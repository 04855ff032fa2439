"""What the models say of the gate's cases, compared with what is stored of them."""
import contextlib
import io
import os
import unittest

from oracle import names

CRATES = os.path.join(os.path.dirname(os.path.abspath(__file__)), '..', '..', 'crates')


def said(name, *words):
    """What a module prints."""
    out = io.StringIO()
    with contextlib.redirect_stdout(out):
        status = names.main([name, *words])
    assert status == 0, (name, status)
    return out.getvalue()


def stored(crate):
    with open(os.path.join(CRATES, crate, 'stdout'), encoding='utf-8') as file:
        return file.read()


def data(crate, *names_of):
    return [os.path.join(CRATES, crate, 'data', name) for name in names_of]


def blocks(text):
    """The rows of each case of a text that was printed."""
    return dict(block.partition('\n')[::2] for block in ('\n' + text.rstrip('\n')).split('\n== ')[1:])


class Gate(unittest.TestCase):
    maxDiff = 2000

    def test_kernels(self):
        self.assertEqual(said('c0', *data('code_cases', 'expressions', 'statements', 'faults', 'calls', 'objects', 'asm')), stored('code_cases'))

    def test_systems(self):
        files = data('system_cases', 'traps', 'faults', 'primitives', 'paging', 'lines', 'random', 'figures')
        self.assertEqual(said('systems', os.path.join(CRATES, 'system_cases', 'stdout'), *files), stored('system_cases'))

    def test_layer(self):
        whole = stored('machine_cases')
        self.assertTrue(whole.endswith(said('fault', *data('machine_cases', 'faults'))))
        self.assertIn(said('frames', *data('machine_cases', 'blocks')), whole)
        self.assertEqual(said('rom', os.path.join(CRATES, 'rom_cases', 'stdin')), stored('rom_cases'))

    def test_checks(self):
        told, seen = blocks(stored('c0_cases')), 0
        for name in ('faults', 'names', 'types', 'expressions', 'statements', 'limits', 'order', 'docs', 'kernels', 'programs'):
            for head, answer in blocks(said('c0_checks', *data('c0_cases', name))).items():
                if answer.strip() == 'no tree':
                    self.assertIn(told[head].split(' ')[0], ('10', '11', '12', '13', '14'), head)
                else:
                    seen += 1
                    self.assertEqual(answer, told[head], head)
        self.assertGreater(seen, 400)

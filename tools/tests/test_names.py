"""The public names of specifications that stand in several crates: one idea each, or told apart here (docs/DECISIONS.md says how many)."""
import glob
import os
import re
import unittest

from explain import pages

PUBLIC = re.compile(r'\s*(?:[a-z]+ )*pub (?:[a-z]+ )*([^\s:({]+)')
KINDS = re.compile(r'\b(abbrev|record|data|unfoldable)\b')

# The definitions of written kernels and of systems of them, each crate's own, as tools/theorem writes them.
KERNELS = {'IsTurn', 'Phase', 'data_of', 'kernel_tree', 'report_lines', 'report_of', 'status_of_phase', 'text', 'total_of'}
# One idea over two formats, faults, hosts, layers, systems or graphs.
TWO_OF_A_KIND = {'AnswersAreSo', 'EndsWithin', 'GoesOnAt', 'HasWrongField', 'IsInRange', 'NothingElseIsSo', 'answer', 'header_of', 'mark_at',
                 'number_at', 'pieces', 'spelling', 'ranged', 'Fixed', 'Outer', 'mark_of', 'scope'}
# Samples, programs of cases, and an operator.
SAMPLES = {'DeskFits', 'IsTooLong', 'IsTooSmall', '◌>>=◌'}


def public():
    """The crates that have a public definition of each name."""
    crates = {}
    for path in glob.glob(os.path.join(pages.TOP, 'crates', '*', 'specs', '**', '*.antt'), recursive=True):
        with open(path) as f:
            for line in f:
                found = PUBLIC.match(line)
                if found and KINDS.search(line[:found.start(1)]):
                    crates.setdefault(found.group(1), set()).add(os.path.relpath(path, pages.TOP).split(os.sep)[1])
    return crates


class Names(unittest.TestCase):
    def test_no_other_name_stands_in_several_crates(self):
        crates = public()
        several = {name for name, where in crates.items() if len(where) > 1}
        trees = {name for name in several if name.startswith('dispatch_')}
        self.assertEqual(several - trees, KERNELS | TWO_OF_A_KIND | SAMPLES)
        with open(os.path.join(pages.TOP, 'docs', 'DECISIONS.md')) as f:
            said = re.search(r'Of ([\d,]+) public names of specs (\d+) stand in several crates: (\d+) in written kernels, (\d+) for', f.read())
        self.assertEqual([len(several), len(trees | KERNELS), len(TWO_OF_A_KIND)], [int(said.group(n)) for n in (2, 3, 4)])
        self.assertLess(abs(len(crates) - int(said.group(1).replace(',', ''))), 100)

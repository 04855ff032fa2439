"""The numbers of cases that docs/promises/tests.md tells, counted in the data and in what the programs of cases print; and the lines that README and DECISIONS tell."""
import functools
import glob
import importlib.machinery
import importlib.util
import os
import re
import unittest

from explain import pages


def stored(crate, name):
    with open(os.path.join(pages.TOP, 'crates', crate, name), encoding='utf-8') as file:
        return file.read()


def data(crate, *names):
    """The data of a program: these files, or else all that its arguments name."""
    names = names or stored(crate, 'args').split()
    return '\n'.join(stored(crate, os.path.join('data', name)) for name in names)


def heads(text, *kinds):
    """How many cases of these kinds a text has; of all kinds where none is named."""
    return len(re.findall(r'^== (?:%s)(?: |$)' % ('|'.join(kinds) or r'[\w-]+'), text, re.M))


def lines(text, *words):
    """How many lines begin with one of these words."""
    return len(re.findall(r'^(?:%s) ' % '|'.join(words), text, re.M))


def total(pattern, text):
    return sum(int(number) for number in re.findall(pattern, text, re.M))


def bounded(crate):
    """The files of c0_cases that are about bounds, and the users' programs, are no sources of kernels."""
    return data(crate, *(name for name in stored(crate, 'args').split() if name not in ('bounds', 'graphs', 'programs')))


COUNTED = {
    ('machine_cases', 'machines'): lambda c: lines(data(c, 'machines'), 'machine'),
    ('machine_cases', 'rows of an instruction'): lambda c: lines(data(c, 'machines'), 'row'),
    ('machine_cases', "machines of the layer's blocks"): lambda c: lines(data(c, 'blocks'), 'machine'),
    ('machine_cases', 'pages asked for'): lambda c: lines(data(c, 'faults'), 'ask'),
    ('rom_cases', 'ROMs'): lambda c: lines(stored(c, 'stdin'), 'rom'),
    ('c0_cases', 'sources'): lambda c: heads(bounded(c)),
    ('c0_cases', 'user programs'): lambda c: heads(data(c, 'programs')),
    ('c0_cases', 'kernels that are bounded'): lambda c: heads(data(c, 'bounds')),
    ('c0_cases', 'call graphs'): lambda c: heads(data(c, 'graphs')),
    ('format_cases', 'texts'): lambda c: heads(data(c, 'texts')),
    ('format_cases', 'objects'): lambda c: heads(data(c, 'objects')),
    ('format_cases', 'images of forms 1 and 3'): lambda c: heads(data(c, 'images')),
    ('format_cases', 'images of form 2'): lambda c: heads(data(c, 'old')),
    ('format_cases', "parameters and users' words"): lambda c: heads(data(c, 'systems')),
    ('format_cases', 'linked, accepted, migrated'): lambda c: heads(data(c, 'links', 'accepted', 'migrated'), 'link', 'accept', 'migrate'),
    ('format_cases', 'saved machines'): lambda c: heads(data(c, 'saved')),
    ('format_cases', 'samples shown whole'): lambda c: heads(data(c, 'samples'), 'sample'),
    ('format_cases', 'samples in a line'): lambda c: heads(data(c, 'samples'), 'checked'),
    ('code_cases', 'kernels'): lambda c: heads(data(c), 'run'),
    ('system_cases', 'systems'): lambda c: heads(data(c), 'system'),
    ('shell_cases', 'commands whose text is printed'): lambda c: heads(stored(c, 'stdout'), 'run', 'journal', 'sure'),
    ('shell_cases', 'boots with a line at a step'): lambda c: total(r'^(\d+) x\n', stored(c, 'stdout').split('== case the example messages, to its last step')[0])
    + total(r'^(\d+) x\n', stored(c, 'stdout').split('== each ')[-1].split('\n== ')[0]),
    ('saved_runs', 'forged files'): lambda c: total(r'^(\d+) files, ', stored(c, 'stdout')),
}


class Counts(unittest.TestCase):
    def test_each_row_of_the_table_is_counted(self):
        with open(os.path.join(pages.TOP, 'docs', 'promises', 'tests.md'), encoding='utf-8') as file:
            rows = [row for row in map(pages.cells, file.read().split('\n')) if len(row) == 3 and row[0].endswith('s') and row[2][0].isdigit()]
        self.assertEqual({(crate, what) for crate, what, _ in rows}, set(COUNTED))
        for crate, what, number in rows:
            self.assertEqual(int(number.replace(',', '')), COUNTED[crate, what](crate), '%s: %s' % (crate, what))


class Believed(unittest.TestCase):
    """tools/dev/believed counts the laws that README speaks of, and those of run_scripts that are no clauses of `run`."""

    def setUp(self):
        loader = importlib.machinery.SourceFileLoader('believed', os.path.join(pages.TOP, 'tools', 'dev', 'believed'))
        self.believed = importlib.util.module_from_spec(importlib.util.spec_from_loader('believed', loader))
        loader.exec_module(self.believed)

    def test_laws_are_public_functions_with_a_clause(self):
        named = {'%s::%s' % (crate, name) for _, laws in self.believed.LAWS for crate, _, name in laws}
        for law in ('kernel_linker::linked_images_are_accepted', 'cvm_shell::stack_out_is_not_printed', 'cvm_shell::booted_programs_run', 'cvm_shell::saved_and_resumed_are_booted',
                    'kernel_boots::round_robins_boot', 'summing::summing_boots', 'summing::compiled_sums_boot', 'answering::compiled_answers_boot'):
            self.assertIn(law, named)
        for _, laws in self.believed.LAWS:
            for crate, path, name in laws:
                self.assertTrue(self.believed.clauses(crate, path, 'pub fn %s(' % name)[1], name)

    def test_the_laws_of_run_scripts_are_all_counted(self):
        named = {name for _, laws in self.believed.LAWS for crate, _, name in laws if crate == 'run_scripts'}
        laws = set(re.findall(r'^pub fn (\w+)\(\)$', stored('run_scripts', 'src/laws.rt'), re.MULTILINE))
        clauses = set(re.findall(r'^    (\w+)\(\);$', stored('cvm_shell', 'src/lib.rt').split('pub fn run<')[1].split('\n}\n')[0], re.MULTILINE))
        self.assertEqual(len(clauses), 8)
        self.assertEqual(named, laws - clauses)

    def test_totals_are_the_sums_of_the_tables(self):
        specs, came, beside = self.believed.reach()
        printed = self.believed.of_laws(specs, beside)
        total = int(re.search(r'with ([\d,]+) lines beside', printed).group(1).replace(',', ''))
        groups = [int(it.replace(',', '')) for it in re.findall(r'^\*\*Beside .* \(([\d,]+) lines\)$', printed, re.M)]
        self.assertEqual((len(groups), sum(groups)), (len(self.believed.LAWS), total))
        self.assertEqual(sum(int(it) for it in re.findall(r'(?<=[a-z]) (\d+)(?=, | \|)', printed)), total)
        counted = [it for _, more in beside for it in more]
        self.assertEqual(len(counted), len(set(counted)))
        self.assertFalse(set(counted) & set(came))

    def test_three_totals_rise_from_the_headline_to_everything(self):
        specs, came, beside = self.believed.reach()
        headline, boots, everything = [found for _, found in self.believed.totals(specs)]
        self.assertTrue(set(headline) < set(boots) < set(everything))
        self.assertEqual(set(everything), set(came).union(*[more for _, more in beside]))
        self.assertTrue(set(headline) < set(came) < set(everything))
        # definitions that stand in a `mutual` are counted with the others
        for name in ('c0_meaning.specs.Evaluation.place_of', 'c0_expr_code.specs.Test.test_code'):
            where, _, word = name.rpartition('.')
            self.assertIn((specs.file(where).path, specs.file(where).own[word]), headline)
        # how a run ends is no word of the first, and is counted of the others
        ends = specs.file('run_scripts.specs.Ends')
        for name in ('Ends', 'WasDone', 'PlanAsks'):
            self.assertNotIn((ends.path, ends.own[name]), headline)
            self.assertIn((ends.path, ends.own[name]), boots)
        self.assertIn((ends.path, ends.own['as_outside']), headline)
        lines = sum(self.believed.lines_of(specs.files[path].blocks[block]) for path, block in everything)
        self.assertIn('| everything | %s |' % format(lines, ','), self.believed.of_totals(specs))


FIVE = ('boot_report', 'boot_turns', 'boot_run', 'machine_save', 'cvm_shell')


def texts_of(folder, *crates):
    """The files of one folder of these crates, or of all."""
    for path in (path for crate in crates or ('*',) for path in glob.glob(os.path.join(pages.TOP, 'crates', crate, folder, '**', '*.*t*'), recursive=True)):
        if path.endswith(('.rt', '.antt')):
            with open(path, encoding='utf-8') as file:
                yield file.read()


def lines_of(folder, *crates):
    return sum(text.count('\n') for text in texts_of(folder, *crates))


def clauses_of(*crates):
    return sum(len(re.findall(r'^ *(?:ensures|requires)\b', text, re.M)) for text in texts_of('src', *crates))


def numbers(found):
    return [int(number.replace(',', '')) for number in found.groups()]


class Lines(unittest.TestCase):
    """Numbers of lines on README and DECISIONS: those of BELIEVED are its own, and the others are within 3% of what is counted."""

    def near(self, said, counted):
        for a, b in zip(said, counted, strict=True):
            self.assertLessEqual(abs(a - b), 0.03 * b, '%d is said, and there are %d' % (a, b))

    def test_the_first_page(self):
        page = ' '.join(stored('..', 'README.md').split())
        said = numbers(re.search(r'Of ([\d,]+) lines of code with contracts, ([\d,]+) of definitions and ([\d,]+) of proofs some ([\d,]+) have to be believed of headline, '
                                 r'completeness and isolation, ([\d,]+) with the script, causes and faults of boots, and ([\d,]+) of everything', page))
        totals = re.search(r'^\| the headline[^|]*\| ([\d,]+) \|.*\n\| these[^|]*\| ([\d,]+) \|.*\n\| everything \| ([\d,]+) \|', pages.page('listings/BELIEVED.md'), re.M)
        self.near(said, [lines_of('src'), lines_of('specs'), lines_of('proofs'), *numbers(totals)])

    def test_lines_to_believe(self):
        page, decisions = pages.page('listings/BELIEVED.md'), ' '.join(pages.page('DECISIONS.md').split())
        said = re.search(r'skeleton of headline, completeness and isolation has ([\d,]+) \(.*?aim.*? that of `script` alone ([\d,]+) \(aim .*? that of all clauses of `run` ([\d,]+) \([\d,]+\)\. '
                         r'All that these reach is ([\d,]+) \(.*?aim [\d,]+\), ([\d,]+) without the last tier .*? With the laws it is ([\d,]+)\.', decisions)
        headline = numbers(re.search(r'^\| the headline, completeness and isolation \| [\d,]+ \| [\d,]+ \| ([\d,]+) \|', page, re.M))
        clauses = numbers(re.search(r'^The clauses of `run` alone: ([\d,]+) lines, ([\d,]+) without the last tier; the skeleton of `script` alone: ([\d,]+)\.$', page, re.M))
        skeleton = numbers(re.search(r'^\*\*The skeleton: .*\*\* \(([\d,]+) lines\)$', page, re.M))
        everything = numbers(re.search(r'^\| everything \| ([\d,]+) \|', page, re.M))
        self.assertEqual(numbers(said), [*headline, clauses[2], *skeleton, *clauses[:2], *everything])

    def test_crates_that_scripts_serve(self):
        decisions = ' '.join(pages.page('DECISIONS.md').split())
        said = re.search(r'\(%s\) have ([\d,]+) lines of specs and proofs without blank ones \(.*?, aim [\d,]+\) and (\d+) clauses, which are `requires` and `ensures` .*?'
                         r'With run_scripts \(([\d,]+) lines, (\d+) clauses\) and cvm_outside \(([\d,]+) lines, (\d+) clauses\) it is ([\d,]+),' % ', '.join(FIVE), decisions)
        five, scripts, outside = (sum(line != '' for folder in ('specs', 'proofs') for text in texts_of(folder, *crates) for line in text.split('\n')[:-1])
                                  for crates in (FIVE, ('run_scripts',), ('cvm_outside',)))
        self.near(numbers(said), [five, clauses_of(*FIVE), scripts, clauses_of('run_scripts'), outside, clauses_of('cvm_outside'), five + scripts + outside])


class Chain(unittest.TestCase):
    """How long the chain of crates is, as DECISIONS tells it, and that the one which FIGURES names is one."""

    def setUp(self):
        rows = re.findall(r'^(\w+):(.*)$', stored('..', 'crates.txt'), re.M)
        names = {name for name, _ in rows}
        self.below = {name: [it for it in below.split('#')[0].split() if it in names] for name, below in rows}

    def length(self, name):
        return 1 + max(map(self.length, self.below[name]), default=0)

    def test_its_length(self):
        said = re.search(r'It has (\w+) crates to the program\. .* It has (\w+) to a whole system', ' '.join(pages.page('DECISIONS.md').split()))
        words = ['nine', 'ten', 'eleven', 'twelve']
        self.length = functools.lru_cache(None)(self.length)
        self.assertEqual([9 + words.index(word) for word in said.groups()], [self.length('cvm'), self.length('mailing_boots')])

    def test_the_longest_one(self):
        text = re.search(r'The longest chain goes from mips_table and (.*?), \d+ minutes', ' '.join(pages.page('FIGURES.md').split())).group(1)
        names = re.findall(r'\w+', re.sub(r'\b(?:by|and|to)\b', '', text))
        for below, name in zip(names, names[1:]):
            self.assertIn(below, self.below[name])


class Edits(unittest.TestCase):
    """What docs/promises/tests.md says of the must-fail edits: which crates have none, and that no crate has more than six."""

    def test_the_crates_without_edits_are_those_of_the_page(self):
        page = ' '.join(pages.page('promises/tests.md').split())
        said = re.search(r'- None is in .*? laws alone\.', page).group(0)
        crates = re.findall(r'^([a-z0-9_]+):', stored('..', 'crates.txt'), re.MULTILINE)
        without, counts = set(), []
        for crate in crates:
            folder = os.path.join(pages.TOP, 'crates', crate)
            edits = os.listdir(os.path.join(folder, 'must-fail')) if os.path.isdir(os.path.join(folder, 'must-fail')) else []
            self.assertLessEqual(len(edits), 6, crate)
            counts.append(len(edits))
            # programs, and what only they stand on, have none
            if not edits and crate != 'case_file' and not os.path.exists(os.path.join(folder, 'stdout')):
                without.add(crate)
        self.assertEqual(set(re.findall(r'[a-z0-9]+_\w+', said)), without)
        how_many = re.search(r'`rt ci` tries all (\d+), at most six a crate, in (\d+) of the (\d+) crates', page)
        self.assertEqual(numbers(how_many), [sum(counts), sum(count > 0 for count in counts), len(crates)])

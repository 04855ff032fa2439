"""The tables of docs/, and what the pages of the examples say of their bounds."""
import glob
import os
import re
import unittest

from explain import pages

BOUND = re.compile(r'`\./cvm check kernel\.obj (\d+)` prints `yes (\d+)` and `(chain [\w ]+)`: no run of this kernel takes more than (\d+) words of stack\.')


def stored(*path):
    with open(os.path.join(pages.TOP, *path)) as f:
        return f.read()


class Pages(unittest.TestCase):
    def test_a_bar_in_a_cell(self):
        self.assertEqual(pages.cells('| 10 | a | `\\|` b |'), ['10', 'a', '`|` b'])
        self.assertEqual(pages.cells('no row'), [])

    def test_each_row_of_the_refusals_is_read(self):
        rows = pages.refusals()
        numbers = {line.split('|')[1].strip() for line in pages.page('REFUSALS.md').split('\n') if re.match(r'\| (\d+|[A-Z]\w+) \|', line)}
        self.assertEqual(numbers - {'N', 'Name'}, set(rows))
        self.assertTrue({'1', '12', '22', '36', '40', '66', '70', '90', 'BadUser', 'NullUse'} - {'36'} <= set(rows))
        self.assertTrue(all(row.name and row.when and row.remedy for row in rows.values()))

    def test_the_forms_are_those_of_the_commands(self):
        heads = [form[0] for form in pages.forms()]
        self.assertTrue({'compile', 'link', 'boot', 'trace', 'migrate', 'sample', 'save', 'resume'} <= set(heads))

    def test_the_words_of_a_saved_machine(self):
        self.assertEqual(pages.saved_word(6), "the current user: 1 to the image's users")
        self.assertEqual(pages.saved_word(52), "the number of the disk's next command, the low word first: at most the steps done")
        self.assertEqual(pages.saved_word(51), "the disk's sector register")
        self.assertIsNone(pages.saved_word(99))

    def test_each_example_names_the_bound_that_a_row_of_the_gate_has(self):
        printed = stored('crates', 'shell_cases', 'stdout')
        names = [name for name in sorted(os.listdir(os.path.join(pages.TOP, 'examples'))) if os.path.isdir(os.path.join(pages.TOP, 'examples', name))]
        self.assertTrue(names)
        for name in names:
            found = BOUND.search(stored('examples', name, 'README.md').replace('\n', ' '))
            self.assertTrue(found, '%s names no bound' % name)
            stack, words, chain, again = found.groups()
            self.assertEqual(words, again, name)
            self.assertIn('stack %s\n' % stack, stored('examples', name, 'params'))
            self.assertIn('== case the stack of the example %s\n== run compile kernel k o\nstatus 0\n== run check o %s\nyes %s\n%s\nstatus 0\n'
                          % (name, stack, words, chain), printed)


class Prose(unittest.TestCase):
    def test_lines_of_prose_have_at_most_120_characters(self):
        for path in every_page():
            for number, line in enumerate(prose(stored(path)), 1):
                self.assertLessEqual(len(line), 120, '%s:%d' % (path, number))


def every_page():
    """All pages but the listings, which have lines of sources."""
    for folder, folders, files in os.walk(pages.TOP):
        folders[:] = [name for name in folders if name not in ('.git', 'out', 'listings')]
        yield from (os.path.join(folder, name) for name in files if name.endswith('.md'))


def prose(page):
    """The lines of a page, with those of tables, blocks and pictures, which break no line, as empty ones."""
    inside = False
    for line in page.split('\n'):
        inside ^= line.startswith('```')
        yield '' if inside or re.match(r'\||    |!\[', line) else line


class FirstSystem(unittest.TestCase):
    """The folder with which docs/KERNELS.md begins is that of an example, and the row that it shows is printed of it."""

    def test_it_is_the_example(self):
        blocks = re.findall(r'(?:^    .*\n|^\n(?=    ))+', pages.page('KERNELS.md').split('## In short')[1].split('\n## ')[0], re.MULTILINE)
        kernel, beside, command = [[line[4:] for line in block.strip('\n').split('\n')] for block in blocks]
        self.assertEqual('\n'.join(kernel) + '\n', stored('examples', 'alternating', 'kernel.c0'))
        self.assertEqual([line[:40].rstrip() for line in beside], stored('examples', 'alternating', 'user1.s').split('\n')[:-1])
        self.assertEqual([line[40:] for line in beside], stored('examples', 'alternating', 'params').split('\n')[:-1])
        self.assertEqual(stored('examples', 'alternating', 'user2.s'), stored('examples', 'alternating', 'user1.s').replace('r0, 1\n', 'r0, 2\n'))
        self.assertEqual(command, ['./try FOLDER'])
        row = re.search(r'`(turn \d+ cause 6 [^`]*)`', pages.page('KERNELS.md')).group(1)
        self.assertIn(row + '\n', stored('examples', 'alternating', 'printed'))


class WordsTable(unittest.TestCase):
    """ARCHITECTURE's table of words beside the sources."""

    def test_what_keeps_a_word_is_a_function_or_a_clause(self):
        named = set()
        for path in glob.glob(os.path.join(pages.TOP, 'crates', '*', 'src', '**', '*.rt'), recursive=True):
            named |= set(re.findall(r'\bfn (\w+)|\bensures (\w+) \{', stored(path)))
        named = {name for pair in named for name in pair}
        rows = [pages.cells(line) for line in stored('docs', 'ARCHITECTURE.md').split('## Crates')[0].split('\n')]
        kept = [row for row in rows if len(row) == 4 and row[0] != "The field's word" and set(row[0]) != {'-'}]
        self.assertGreater(len(kept), 25)
        for word, _, _, by in kept:
            laws = [name for name in re.findall(r'`(?:\w+::)?(\w+)`', by) if name != 'Rules']
            self.assertTrue(laws or by in ('the same', '`rt ci`'), word)
            self.assertEqual([name for name in laws if name not in named], [], word)


class NamedFiles(unittest.TestCase):
    """Tables of VERIFYING and promises/compiler that say in which file a lemma or a proof stands."""

    def rows(self, page, head):
        lines = stored('docs', page).split('\n')
        at = next(number for number, line in enumerate(lines) if pages.cells(line) == head) + 2
        return [pages.cells(line) for line in lines[at:at + next(n for n, line in enumerate(lines[at:]) if not line.startswith('|'))]]

    def test_lemmas_stand_in_the_files_that_are_named(self):
        rows = self.rows('VERIFYING.md', ['Step', 'Lemma', 'In'])
        self.assertGreater(len(rows), 8)
        for _, lemmas, last in rows:
            # a lemma that stands elsewhere has the file in brackets behind it and those before it
            *others, rest = re.split(r'(?<=[a-z`]) \((\w+)\)', lemmas)
            for text, name in [*zip(others[::2], others[1::2]), (rest, last)]:
                stands = stored('crates', 'kernel_theorems', 'proofs', name + '.antt')
                for lemma in re.findall(r'`(\w+)(?:[^`]*)`', re.sub(r'`\w+` of specs/\w+', '', text.split(', with ')[0].split(': all')[0])):
                    self.assertRegex(stands, r'\bpub %s\b' % lemma, name)

    def test_proofs_of_the_compiler_stand_where_they_are_said_to(self):
        rows = self.rows('promises/compiler.md', ['What', 'By which function', 'Stated in `specs/` of its crate', 'Its proof, in `proofs/`'])
        self.assertGreater(len(rows), 5)
        for _, by, specs, proofs in rows:
            crates = [os.path.join(pages.TOP, 'crates', name) for name in re.findall(r'\((\w+)[,)]', by)]
            self.assertTrue(crates, by)
            for folder, names in (('specs', specs), ('proofs', proofs)):
                for name in names.split(', '):
                    found = [crate for crate in crates if glob.glob(os.path.join(crate, folder, name + ('.antt' if folder == 'specs' else '')))]
                    self.assertTrue(found, '%s: %s/%s' % (by, folder, name))

    def test_files_of_proofs_that_pages_name_are_there(self):
        """A file that a page names with its folder, as proofs/NAME or specs/NAME, stands in some crate."""
        there = {kind: {os.path.basename(path).split('.')[0] for path in glob.glob(os.path.join(pages.TOP, 'crates', '*', kind, '**', '*'), recursive=True)} for kind in ('proofs', 'specs')}
        for path in every_page():
            for kind, name in re.findall(r'\b(proofs|specs)/([A-Z]\w+)\b(?!/)', stored(path)):
                self.assertTrue(name in there[kind] or name in ('MODULE', 'FILE', 'NAME'), '%s: %s/%s' % (path, kind, name))


class Crates(unittest.TestCase):
    def test_each_crate_has_a_row_in_architecture(self):
        named = set(re.findall(r'^(\w+):', stored('crates.txt'), re.MULTILINE))
        lines = stored('docs', 'ARCHITECTURE.md').split('## Crates')[1].split('\n## ')[0].split('\n')
        rows = [pages.cells(line) for line in lines if not line.startswith('| *')]
        listed = [name for row in rows if len(row) == 2 for name in row[0].split(', ') if re.fullmatch(r'[a-z]\w+', name)]
        self.assertEqual((set(listed) - named, named - set(listed)), (set(), set()))
        self.assertEqual(len(listed), len(set(listed)))


    def test_each_crate_has_its_promises(self):
        """A section of its own, or where a storey has one for all a name on that storey's page."""
        promised = {path: stored(path) for path in glob.glob(os.path.join(pages.TOP, 'docs', 'promises', '*.md'))}
        sections = {name for text in promised.values() for head in re.findall(r'^## ([\w, ]+)$', text, re.MULTILINE) for name in head.split(', ')}
        for name in re.findall(r'^(\w+):', stored('crates.txt'), re.MULTILINE):
            told = name in sections or any(re.search(r'\b%s\b' % name, text) for path, text in promised.items() if os.path.basename(path) in ('theorems.md', 'tests.md'))
            self.assertTrue(told, '%s has no section in docs/promises' % name)


class CitedLemmas(unittest.TestCase):
    """The table of CONTRIBUTING of lemmas that proofs of other crates cite, beside the imports of the proofs."""

    def test_each_row_has_the_crates_whose_proofs_cite_its_files(self):
        cited, listed = imported(), set()
        for crate, files, crates in rows_of_lemmas():
            listed |= {(crate, name) for name in files}
            self.assertEqual(set().union(*(cited.get((crate, name), set()) for name in files)), crates, '%s: %s' % (crate, files))
        self.assertEqual(set(cited) - listed, set())


def imported():
    """Of each lemma file that a proof of another crate imports: these crates."""
    cited = {}
    for path in glob.glob(os.path.join(pages.TOP, 'crates', '*', 'proofs', '**', '*.antt'), recursive=True):
        crate = os.path.relpath(path, pages.TOP).split(os.sep)[1]
        for other, name in re.findall(r'Rattle\.(\w+)\.proofs\.(\w+)', stored(path)):
            if other != crate and os.path.isdir(os.path.join(pages.TOP, 'crates', other)):
                cited.setdefault((other, name), set()).add(crate)
    return cited


def rows_of_lemmas():
    """Of each row of the table: whose lemmas they are, the files, and the crates that cite them."""
    for crate, files, by in re.findall(r'^\| (\w+): ((?:`\w+`(?:, )?)+) \| (.*?) \|', stored('CONTRIBUTING.md'), re.MULTILINE):
        yield crate, re.findall(r'\w+', files), set(re.split(', ', re.sub(r'(, and |^)whoever .*', '', by))) - {''}

"""Tokens, tree, checks, meaning, code and stack of C0."""
import os
import unittest

from oracle import values
from oracle.c0 import checks, code, cut, emit, facts, meaning, ran, said, stack
from oracle.c0.tokens import NoTree, line_of, tokens
from oracle.c0.tree import Parser, unit_nodes
from oracle.sources import Source

KERNEL = '''int n;
int dispatch(int cause, int data, int user) {
  int next;
  next = 1;
  if (cause == 3) { n = n + 1; if (n == 2) { next = 0; } }
  return next;
}
'''
# Globals, frames and structs of which parts stand far away.
FAR = '''int g; int[9000] pad; int h; struct s { int[8189] a; int b; int c; struct s* n; int[3] d; }; struct s t; struct s* p;
int f(int a, int b) { int x; int[9000] big; int y; struct s l; x = a; big[2] = a; big[a] = y; y = 3; x = y; big[8999] = b; l.b = x; l.c = l.b; y = l.d[a % 3]; h = h + y; return x; }
int k(int a) { int[8190] z; int b; b = z[a]; return b; }
int huge(int a) { int[262200] z; z[3] = a; return z[a]; }
int m() { int x; int y; struct s[2] w; x = p->c; p->d[x] = 5; w[1].c = x; w[x].b = y; p->n = &t; t.n = p; p = p->n->n; if (p->c < t.d[2] && w[1].c == x) { while (w[0].d[1] > 3) { w[0].d[1] = 2; } } return t.c; }
int q(int a, int b, int c, int d, int e, int f, int g, int h) { int x; int[8187] u; x = huge(a); p = new struct s; u[3] = x; return u[x]; }
int dispatch(int cause, int data, int user) { int n; int[8184] v; int r; n = f(1, 2); n = k(n); n = m(); r = q(1, 2, 3, 4, 5, 6, 7, 8); return n; }'''
TOP = os.path.join(os.path.dirname(os.path.abspath(__file__)), '..', '..')


def read(*path):
    with open(os.path.join(TOP, *path), encoding='latin-1') as file:
        return file.read()


class Reading(unittest.TestCase):
    def test_tokens_have_places(self):
        self.assertEqual([tuple(t) for t in tokens('a<=b // c\n->12ab')],
                         [('a', 0, 1), ('<=', 1, 3), ('b', 3, 4), ('->', 10, 12), ('12', 12, 14), ('ab', 14, 16)])
        self.assertEqual([t.text for t in tokens('int f() asm // {\n { addu r2, r0, r0 # } x')][4:], ['asm', '{ addu r2, r0, r0 # ', 'x'])
        self.assertEqual(line_of('a\nb', 2), 2)

    def test_what_has_no_tree(self):
        for source in ('int x; @', 'int[007] x;', 'int f() { return 2147483648; }', 'int f() { return ' + '(' * 64 + '1', 'int f(', 'int f() { a = b = c; return 0; }',
                       'int f() { return 12ab; }', 'int f() asm int x;', 'int' + '*' * 511):
            with self.assertRaises(NoTree):
                Parser(source)

    def test_places_of_parts(self):
        source = 'int f(int a, int b) { int x; x = ((a)) + (b); return x; }'
        s = Parser(source).functions[0].body[0]
        self.assertEqual([source[at:end] for at, end in (s.span, s.parts[1].span, s.parts[1].parts[1].span)], ['x = ((a)) + (b);', '((a)) + (b)', 'a'])
        self.assertEqual(unit_nodes(Parser('int f(int a) { int b; b = a + 1; return b; }')), 1 + 1 + 1 + 5 + 1)

    def test_checks(self):
        for source, answer in ((KERNEL, 'typed'), ('int x; bool x;', '31 at 0-14'), ('int f() { return 1 + true; }' + KERNEL, '22 at 17-25'),
                               ('int* p; int f() { int[2] a; p = &a[1]; return 0; }' + KERNEL, '25 at 33-37')):
            self.assertEqual(checks.answer(source, 'kernel'), answer)
        self.assertEqual(checks.answer('int main() { int r; r = trap(1); return r; }', 'user'), 'typed')

    def test_lines_of_sources(self):
        source = Source('k', 'ab\n  c d \n')
        self.assertEqual((source.line(0), source.line(2), source.line(3), source.line_text(2), source.part((0, 7))), (1, 1, 2, 'c d', 'ab c'))


class Meaning(unittest.TestCase):
    def run_of(self, source, heap=10, room=64, most=1000):
        return said.StandIns(Parser(source), heap, room, most)

    def test_units(self):
        run = self.run_of(KERNEL)
        self.assertEqual((run.call('dispatch', [3, 0, 1]), run.units), (1, 19))
        loop = self.run_of('int dispatch(int a, int b, int c) { int i; while (i < 2) { i = i + 1; } return i; }')
        # call and local; the statement; three tests of four units; two times the body's five; the answer
        self.assertEqual((loop.call('dispatch', [0, 0, 0]), loop.units), (2, 2 + 1 + 3 * 4 + 2 * 5 + 1))

    def test_faults_have_their_places(self):
        for body, kind, text in (('n = a[3]; return 0; }', 'bounds', 'a[3]'), ('n = *p; return 0; }', 'null', '*p'), ('n = 1 % n; return 0; }', 'zero', '1 % n'),
                                 ('n = dispatch(0, 0, 0); return 0; }', 'stack', 'n = dispatch(0, 0, 0);')):
            source = 'int n; int[3] a; int* p; int dispatch(int x, int y, int z) { ' + body
            with self.assertRaises(meaning.Fault) as caught:
                self.run_of(source).call('dispatch', [0, 0, 0])
            at, end = caught.exception.node.span
            self.assertEqual((caught.exception.kind, source[at:end]), (kind, text))

    def test_a_run_can_be_gone_on_with(self):
        run = self.run_of('int n; int dispatch(int a, int b, int c) { while (n < 9) { n = n + 1; } return n; }', most=5)
        with self.assertRaises(meaning.TooLong):
            run.call('dispatch', [0, 0, 0])
        run.left = 1000
        while run.work:
            run.act()
        self.assertEqual(run.answer, 9)

    def test_values_as_texts(self):
        run = self.run_of('struct s { int a; struct s* next; }; struct s[2] t; struct s* p; bool[2] b; int dispatch(int x, int y, int z) { p = new struct s; t[1].next = p; '
                          'p->next = &t[1]; p->a = 7; b[1] = true; return 0; }')
        run.call('dispatch', [0, 0, 0])
        self.assertEqual([(n, v) for n, _, v in values.global_values(run)],
                         [('t', '{{a: 0, next: null}, {a: 0, next: -> struct s #1}}'), ('p', '-> struct s #1'), ('b', '{false, true}')])
        self.assertEqual(values.found(run.unit, 't[1].next'), (('ptr', ('struct', 's')), 3))
        for name in ('u', 't[2]', 't.a', 't[0].b', 'p-'):
            with self.assertRaises(values.BadName):
                values.found(run.unit, name)


class Code(unittest.TestCase):
    def test_the_page_is_cut_as_it_stands(self):
        page = read('docs', 'COMPILER.md')
        example = page[page.index('\n## An example\n'):].split('```')[1].strip('\n')
        made = cut.Cut(example)
        words = [int(row.split()[1], 16) for row in said.code_case(example)]
        self.assertEqual((made.at, made.unfit(words), code.code_words(example)), (len(words), None, len(words)))
        self.assertEqual(emit.Code(example).words(), words)
        self.assertEqual([(part.first, part.what) for part in made.parts], [
            (0, 'entry'), (5, 'head of dispatch'), (9, 'assign'), (12, 'return'), (13, 'end of dispatch'),
            (14, 'routine new'), (32, 'routine multiply'), (35, 'routine divide'), (40, 'routine remainder')])

    def test_other_words_do_not_fit(self):
        example = 'int x; int f() { return 1; } int dispatch(int a, int b, int c) { while (x < 9) { x = f(); } return 0; }'
        made = cut.Cut(example)
        self.assertIn('counts', made.unfit([0] * (made.at + 1))[1])
        self.assertIn('does not end', made.unfit([0] * made.at)[1])

    def test_all_sources_are_counted_alike(self):
        for folder in ('adder', 'mailbox', 'messages', 'services', 'round_robin'):
            text = read('examples', folder, 'kernel.c0')
            self.assertEqual(cut.Cut(text).at, code.code_words(text))

    def test_far_displacements(self):
        # what is past 32,767 bytes takes two words more at each access: here the three of `n`
        self.assertEqual(code.code_words('int[9000] a; ' + KERNEL), code.code_words(KERNEL) + 3 * 2)
        # the program makes as many words of it; an element of more words than 1,024 is found by a product, two to the eleventh ones too
        found = KERNEL.replace('n = n + 1;', 'n = a[n][7];')
        self.assertEqual(code.code_words('int[2048][3] a; ' + found), code.code_words('int[2047][3] a; ' + found))
        self.assertEqual((code.code_words(FAR), cut.Cut(FAR).at), (382, 382))

    def test_a_program_may_have_a_dispatch_of_its_own(self):
        made = cut.Cut('int dispatch() { return 1; } int main() { int x; x = dispatch(); x = trap(x); return x; }', True)
        self.assertEqual(made.primitive_numbers(), {'trap': 0})
        self.assertEqual([made.entry_of(name) for name in ('trap', 'dispatch')], [cut.PRIMITIVES, cut.START + 4 * made.starts['dispatch']])

    def test_what_is_known(self):
        """Before each statement of a function, and behind the last: the parameters in registers, the variable with the answer, and those that aren't null."""
        source = '''struct s { int v; struct s* n; };
struct s* f(struct s* p, struct s* q, int k) {
  struct s* r; int x;
  r = p->n;
  r = f(q, r, k);
  if (r != null && q->v == 1) { r = new struct s; } else { p = r; }
  while (q != null || r->v > k) { x = vm_size(p->v); }
  return q;
}
int dispatch(int a, int b, int c) { return 0; }'''
        made = emit.Code(source)
        f = made.tree.function_named('f')
        made.enter(f)
        known = [before for _, before in made.each(f.body, made.begins(f))] + [made.behind_all(f.body, made.begins(f))]
        self.assertEqual([(sorted(it.params), it.answer, sorted(it.sure)) for it in known], [
            ([0, 1, 2], None, []), ([0, 1, 2], None, [0]), ([], 3, [0]), ([], None, []), ([], None, [])])
        choice, loop = f.body[2:]
        self.assertEqual([sorted(made.told(choice.parts[0], s, facts.NOTHING).sure) for s in (True, False)], [[1, 3], []])
        self.assertEqual([sorted(made.told(loop.parts[0], s, facts.NOTHING).sure) for s in (True, False)], [[], [3]])

    def test_code_does_what_it_means(self):
        self.assertTrue(sum(ran.random_met(seed) for seed in range(12)) > 200)

    def test_a_fact_that_is_none_is_seen(self):
        """Where a parameter would be known behind a call, too, code and meaning differ."""
        called = facts.Facts.called
        facts.Facts.called = lambda known: known._replace(answer=None)
        self.addCleanup(setattr, facts.Facts, 'called', called)
        with self.assertRaises(ran.Differs):
            for seed in range(12):
                ran.random_met(seed)

    def test_stack(self):
        self.assertEqual(stack.check(read('examples', 'messages', 'kernel.c0'), 64), 'yes 15\nchain dispatch pick\n')
        self.assertEqual(stack.check('int x; int dispatch(int a, int b, int c) { x = dispatch(0, 0, 0); return 0; }', 64), 'no cycle\ncycle dispatch dispatch\n')

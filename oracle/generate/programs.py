"""Cases of user programs in C0 for shell_cases, with what each command prints.

usage: oracle/model write_programs CASES STDOUT [PRINTED]   as write_lines, whose rules for PRINTED hold here too
       oracle/model write_programs run CVM                  all kernels and 200 random programs, by the built program CVM; tells what differs

Three kinds: worked rows; the kernels of code_cases that call no primitive, as programs that tell the kernel what they come to; and random programs
under a kernel that answers by a rule. A journal is what the program means, by oracle/programs.py, and no code of a program is run for it; the turns of two
boots are those of the code that oracle/c0/emit.py makes. The gate tries all kernels and 40 random programs.
"""
import collections
import itertools
import os
import random
import re
import subprocess
import tempfile

from oracle import cases
from oracle.c0.meaning import Unit
from oracle.c0.tree import Parser
from oracle.generate.writing import TOP, BrokenRule, Writer, main_of, model
from oracle.programs import CALL, journal
from oracle.words import M

K1 = 'int dispatch(int cause, int data, int user) { int next; if (cause == 0) { next = 1; } return next; }'
PARAMS = 'pages 64\nframes 64\nheap 64\nstack 256\n'
TURNS, STEPS = 4000000000, 1000000000
# what the worked rows have where nothing else is said
ROW_PARAMS = 'pages 64\nframes 8\nheap 64\nstack 256\n'
ROW_TURNS, ROW_STEPS = 1000, 100000000
ANSWERS = '''int s;
int dispatch(int cause, int data, int user) {
  int next; int v; bool ok;
  if (cause == 0) { next = 1; }
  if (cause == 6) { if (data == 12) {
    v = vm_get(user, 4); s = s + v;
    ok = vm_set(user, 2, v * 10); next = user;
  } }
  return next;
}'''
RULE = '''int n;
int dispatch(int cause, int data, int user) {
  int next; int v; bool ok;
  if (cause == 0) { next = 1; }
  if (cause == 6) { if (data == 12) {
    n = n + 1; v = vm_get(user, 4);
    if (n % 4 != 3) { ok = vm_set(user, 2, v % 1000 - n); }
    next = 1;
  } }
  return next;
}'''
TWICE = 'int main() { int a; int b; a = trap(5); b = trap(a + 1); return 0; }'
INVERSE = 'int main() { int x; x = 1 / x; return 0; }'
# turns enough to see that a program doesn't end
FEW_TURNS = 2000
REFUSED = [
    ('int x;', '36 0 6'),
    ('int main(int a) { return a; }', '36 0 29'),
    ('bool main() { return true; }', '36 0 28'),
    ('int dispatch(int cause, int data, int user) { return 0; }', '36 0 57'),
    ('int main() { int x; x = vm_get(1, 4); return x; }', '20 24 30'),
    ('int main() { int x; x = trap(1, 2); return x; }', '23 24 34'),
    ('int main() { int x; x = trap(true); return x; }', '22 29 33'),
    ('int main() { return 0; ', '12 23'),
    ('int x; @', '10 7')]
NOTE = '''User programs in C0: worked rows, kernels as programs, and random programs. Written by oracle/generate/programs.py.

Journals are worked out by the meaning of the programs alone. At which turns the boots of the first two rows call the kernel hangs on the compiled code:
these are worked out by a model of the compiler.'''


# ---- words of instructions, and bytes as the program shows them
def jump(word):
    return 2 << 26 | word


def syscall(code):
    return code << 6 | 12


def addu(rd, rs, rt):
    return rs << 21 | rt << 16 | rd << 11 | 0x21


def spelled_words(words):
    return ''.join('\\x%02x' % b if not 0x20 <= b <= 0x7e or b == 0x5c else chr(b) for w in words for b in (w & M).to_bytes(4, 'little'))


def turns_for(rows):
    """How many turns a trace with these rows is given."""
    return FEW_TURNS if rows[-1] == 'stopped' else TURNS


# ---- the kernels of code_cases that call no primitive
def as_program(rest, source):
    """A kernel as a program: its `dispatch` is called as often as the case says, and the answers and the int globals are told."""
    calls = [w.split('/') for w in rest.split(' ')[2:] if re.fullmatch(r'-?\d+/-?\d+/-?\d+', w)]
    numbers = lambda c: ', '.join(x if not x.startswith('-') else '0 - %s' % x[1:] if x != '-2147483648' else '0 - 2147483647 - 1' for x in c)
    globals_ = [name for t, name in Unit(Parser(source)).globals if t == ('int',) and name != 'answer']
    body = ''.join('answer = dispatch(%s); answer = trap(answer); ' % numbers(c) for c in calls)
    return source.rstrip() + '\nint main() { int answer; %s%sreturn 0; }' % (body, ''.join('answer = trap(%s); ' % n for n in dict.fromkeys(globals_)))


def kernels():
    folder = os.path.join(TOP, 'crates', 'code_cases', 'data')
    for file in sorted(os.listdir(folder)):
        for head, source in cases.of_file(os.path.join(folder, file)):
            kind, _, rest = head.partition(' ')
            source = cases.unescaped(source)
            if kind == 'run' and not re.search(r'\b(vm|con)_\w+\(', source) and 'main' not in source:
                yield rest, source


def as_programs():
    """All of them: also those that never end, and whose traces then stop."""
    for rest, source in kernels():
        yield as_program(rest, source)


# ---- random programs
class Maker:
    """A random program that ends: each loop counts down, and functions call only those above them."""
    def __init__(self, seed):
        self.r, self.functions = random.Random(seed), []
        self.ints, self.left = [], 0

    def expr(self, depth=0):
        r = self.r
        k = r.randrange(10) if depth < 3 else r.randrange(4)
        if k < 2:
            return str(r.choice([0, 1, 2, 3, 7, 100, 65535, 70000, 2147483647, r.randrange(1000)]))
        if k < 5:
            return r.choice(self.ints)
        if k == 5:
            return 'a[%s]' % (r.choice(['0', '1', '2', 'i % 3', '%s %% 3' % r.choice(self.ints)]))
        if k == 6:
            return '-%s' % r.choice(self.ints)
        if k == 7 and r.randrange(3) == 0:
            return '(%s %s %s)' % (self.expr(depth + 1), r.choice('/%'), self.expr(depth + 1))
        if k == 8:
            return 'q->%s' % r.choice('vw') if r.randrange(3) else 'p->v'
        return '(%s %s %s)' % (self.expr(depth + 1), r.choice('+-*'), self.expr(depth + 1))

    def test(self):
        r = self.r
        return '%s %s %s' % (self.expr(2), r.choice(['<', '<=', '>', '>=', '==', '!=']), self.expr(2))

    def place(self):
        return self.r.choice(self.ints[:-1] + ['g', 'a[%d]' % self.r.randrange(3), 'q->v'])

    def statement(self, depth):
        r, k = self.r, self.r.randrange(12)
        if k < 4 or depth > 2:
            return '%s = %s;' % (self.place(), self.expr())
        if k < 7:
            return '%s = trap(%s);' % (self.place(), self.expr())
        if k == 7:
            return 'if (%s) { %s } else { %s }' % (self.test(), self.block(depth + 1), self.block(depth + 1))
        if k == 8:
            return 'i = %d; while (i > 0) { i = i - 1; %s }' % (r.randrange(1, 6), self.block(3)) if depth == 0 else 'x = x + i;'
        if k == 9 and self.functions:
            return '%s = %s(%s, %s);' % (self.place(), r.choice(self.functions), self.expr(), self.expr())
        if k == 10:
            return 'p = new struct node; p->w = %s; if (%s) { q = p; } else { g = g + 1; }' % (self.expr(), self.test())
        return 'g = g + %s;' % self.expr(2)

    def block(self, depth):
        return ' '.join(self.statement(depth) for _ in range(self.r.randrange(1, 4)))

    def function(self, name, params, ints):
        self.ints = ints + ['x', 'y', 'i']
        locals_ = 'int x; int y; int i; struct node* p; '
        body = 'p = q; ' + ' '.join(self.statement(0) for _ in range(self.r.randrange(2, 7)))
        return 'int %s(%s) { %s%s return %s; }' % (name, params, locals_, body, self.expr())

    def text(self):
        out = ['struct node { int v; int w; };', 'int g; int[3] a; struct node* q; struct node first;']
        for n in range(self.r.randrange(3)):
            out.append(self.function('f%d' % n, 'int b, int c', ['b', 'c']))
            self.functions.append('f%d' % n)
        main = self.function('main', '', ['g'])
        return '\n'.join(out) + '\n' + main.replace('p = q; ', 'q = &first; p = q; ' if self.r.randrange(8) else 'p = null; ', 1)


def random_programs():
    """Those that ask at least once, and end."""
    seed = 0
    while True:
        seed += 1
        text = Maker(seed).text()
        rows = journal(RULE, [text], PARAMS, 1, 400)
        if rows[-1] != 'stopped' and len(rows) >= 5:
            yield text


class Programs(Writer):
    quiet = ('file', 'zeros')
    note = NOTE

    def run(self, words, text='', status=0, kind='run'):
        self.part('%s %s' % (kind, words))
        if text:
            self.told.append(text.rstrip('\n'))
        self.told.append('status %d' % status)

    def system(self, kernel, params=PARAMS):
        """The files of a system with one user, and its kernel's object."""
        self.part('file k', kernel)
        self.part('file par', params)
        self.part('file s')
        for name in ('o', 'img', 'u1'):
            self.part('zeros ' + name, '400000')
        self.run('compile kernel k o')

    def program(self, text):
        self.part('file p', text)
        self.run('compile program p u1')
        self.run('link o par img u1')

    def journals(self, kernel, text, params=PARAMS, turns=None, steps=STEPS):
        self.program(text)
        rows = journal(kernel, [text], params, 1)
        self.run('trace img s %d %d 1' % (turns or turns_for(rows), steps), '\n'.join(rows), kind='journal')

    def shows_words(self, name, at, words):
        self.part('part %s %d %d' % (name, at, 4 * len(words)))
        self.told.append(spelled_words(words))

    def boot_of(self, kernel, text, rows_of):
        """A boot, of which these are the first rows, without the numbers of turns."""
        made = model(kernel, [text], ROW_PARAMS, '', ROW_TURNS)
        rows = re.sub(r'turn \d+', 'turn N', made).split('\n')
        if rows[:len(rows_of)] != rows_of:
            raise BrokenRule('a rule is broken: the boot of %s prints\n%s' % (text, made))
        self.run('boot img s %d %d' % (ROW_TURNS, ROW_STEPS), made)

    def worked_rows(self):
        self.part('case a program that asks twice', 'sectors 64')
        self.system(ANSWERS, ROW_PARAMS)
        self.journals(ANSWERS, TWICE, ROW_PARAMS, ROW_TURNS, ROW_STEPS)
        begins = 'turn N cause 0 data 00000000 user 0 next 1'
        self.boot_of(ANSWERS, TWICE, [begins] + ['turn N cause 6 data 0000000c user 1 next 1'] * 2
                     + ['turn N cause 6 data 0000004c user 1 next 0', 'halted', 'global s 56'])
        self.part('case a program that divides by 0', 'sectors 64')
        self.system(K1, ROW_PARAMS)
        self.program(INVERSE)
        self.boot_of(K1, INVERSE, [begins, 'turn N cause 6 data 0000010c user 1 next 0', 'halted'])
        self.part('case programs that use up their room', 'sectors 64')
        self.system(RULE)
        self.journals(RULE, 'int deep(int n) { int r; r = trap(n); r = deep(n + 1); return r; }\nint main() { int r; r = deep(1); return r; }')
        self.journals(RULE, 'struct big { int[300] a; }; int n;\nint main() { struct big* b; int r; b = new struct big; '
                      'while (b != null) { n = n + 1; b->a[299] = n; b = new struct big; } r = trap(n); r = b->a[0]; return r; }')

    def words_of_an_image(self):
        self.part('case the words of an image')
        self.part('zeros u1', '400000')
        self.part('file p', TWICE)
        self.run('compile program p u1')
        self.shows_words('u1', 0, [jump(16384), 0])
        self.shows_words('u1', 0x1008, [0, 1024, 4 * 17 * 1024, 4 * 18 * 1024, 4 * 19 * 1024, 0])
        self.shows_words('u1', 0x2000, [addu(4, 20, 0), addu(2, 0, 0), syscall(0), 31 << 21 | 8] + [0] * 6 + [jump(2064 + 2 * i) for i in range(5)] + [0]
                         + [w for i, code in enumerate((2, 3, 4, 5, 1)) for w in (syscall(code), jump(2064 + 2 * i))] + [0])
        self.shows_words('u1', 4 * 19 * 1024 - 4, [0])
        self.shows_words('u1', 4 * 19 * 1024, [])

    def refusals(self):
        self.part('case programs that are refused')
        self.part('zeros u1', '8')
        for text, row in REFUSED:
            self.part('file p', text)
            self.run('compile program p u1', 'refused ' + row, 2)
        for globals_ in ([40000, 40000], [46081], [46080]):
            self.part('file p', ''.join('int[%d] %s; ' % (n, name) for n, name in zip(globals_, 'ab')) + 'int main() { return 0; }')
            words = 1024 * (16 + 1 + (sum(globals_) + 1023) // 1024 + 2)
            if words > 65536:
                self.run('compile program p u1', 'refused 37 %d' % words, 2)
            else:
                self.part('zeros u2', '300000')
                self.run('compile program p u2')
        self.shows_zeros()

    def shows_zeros(self):
        self.part('show u1')
        self.told.append('\\x00' * 8)

    def bad_words(self):
        self.part('case words that compile no program')
        self.part('file p', 'int main() { return 0; }')
        self.part('zeros u1', '8')
        for words in ('compile program', 'compile program p', 'compile program p u1 u1', 'compile programs p u1', 'compile Program p u1', 'program p u1'):
            self.run(words, 'bad words', 1)
        self.run('compile program q u1', '', 6)    # there is no such file
        self.shows_zeros()

    def failing_calls(self):
        self.part('case the shelf fails when a program is got, and when its image is put', 'shelf 0 2')
        self.part('file p', 'int main() { return 0; }')
        self.part('zeros u1', '300000')
        self.run('compile program p u1', '', 6)
        self.run('compile program p u1', '', 6)
        self.shows_words('u1', 0, [0])
        self.run('compile program p u1')
        self.shows_words('u1', 0, [jump(16384)])
        self.part('case the sink fails where a program is refused', 'sink 0')
        self.part('file p', 'int x;')
        self.part('zeros u1', '8')
        self.run('compile program p u1', '', 7)
        self.run('compile program p u1', 'refused 36 0 6', 2)
        self.shows_zeros()

    def groups(self, name, texts, size=32):
        """The programs in cases of so many, since each case has one sink."""
        for n, text in enumerate(texts):
            if n % size == 0:
                self.part('case %s, from %d on' % (name, n), 'sectors 64')
                self.system(RULE)
            self.journals(RULE, text)

    def write(self):
        for rows in (self.worked_rows, self.words_of_an_image, self.refusals, self.bad_words, self.failing_calls):
            rows()
        self.groups('kernels that call no primitive, as programs', as_programs())
        self.groups('random programs', itertools.islice(random_programs(), 40))


# ---- all of them over a built program
class Built:
    """The built program, in a folder with the kernel that answers by the rule."""
    def __init__(self, cvm, folder):
        self.cvm, self.folder = os.path.abspath(cvm), folder
        for name, text in (('k', RULE), ('par', PARAMS), ('s', '')):
            self.put(name, text)
        self.command('compile kernel k o')

    def put(self, name, text):
        with open(os.path.join(self.folder, name), 'w') as f:
            f.write(text)

    def command(self, words):
        done = subprocess.run([self.cvm] + words.split(' '), cwd=self.folder, stdout=subprocess.PIPE, text=True)
        assert done.returncode == 0, (words, done.returncode, done.stdout)
        return done.stdout

    def journal(self, text, turns):
        self.put('p', text)
        self.command('compile program p u1')
        self.command('link o par img u1')
        return self.command('trace img s %d %d 1' % (turns, STEPS))


def run_all(cvm):
    """Runs all kernels and 200 random programs; prints how they end, and those whose journals differ."""
    ends, asked, wrong = collections.Counter(), 0, 0
    with tempfile.TemporaryDirectory() as folder:
        built = Built(cvm, folder)
        for kind, texts in (('kernel', as_programs()), ('random', itertools.islice(random_programs(), 200))):
            for text in texts:
                rows = journal(RULE, [text], PARAMS, 1)
                told = [row for row in built.journal(text, turns_for(rows)).split('\n') if not row.startswith('steps ')][:len(rows)]
                if told != rows:
                    wrong += 1
                    print('%s\nmeans %s\nruns  %s' % (text, rows, told))
                asked += rows.count('trap %d %08x' % CALL)
                ends[kind, rows[-2] if rows[-1] == 'halted' else rows[-1]] += 1
    for (kind, end), count in sorted(ends.items()):
        print('%-6s %-15s %3d' % (kind, end, count))
    print('%d programs, %d calls of trap, %d differ' % (sum(ends.values()), asked, wrong))
    return 70 if wrong else 0


LEAST_WORDS = 2


def main(words):
    return run_all(words[1]) if words[:1] == ['run'] else main_of(Programs, words)

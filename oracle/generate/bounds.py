"""Writes cases of c0_cases, with what is printed of each: kernels, and how much stack each needs, beside 64 words.

usage: oracle/model write_bounds FOLDER STDOUT   writes the files bounds and graphs to the folder, and what the program prints of both to STDOUT

What is printed of the kernels of `bounds` was worked out by hand, from the words of the frames (parameters, locals and three) and the chains of calls.
Those of `graphs` are made from random call graphs, and of each oracle/c0/stack.py goes through all chains: a search by force over the graph of which the source was
made, and no source is read.
"""
import random

from oracle.c0.stack import answer, text

HEAD = 'int dispatch(int cause, int data, int user)'
ROOM = 64

# Each kernel with its name and what is printed of it.
BY_HAND = [
    ('a dispatch that calls a function that picks',
     'int total; bool[4] done; int pick(int user) { int next; bool look; next = user; look = true; while (look) { next = next + 1; if (next > 3) { next = 1; } if (!done[next]) { look = false; } } return next; } '
     + HEAD + ' { int next; int v; bool ok; if (cause == 6) { v = vm_get(user, 4); done[user] = true; if (user == 3) { total = v; } else { ok = vm_put(3, 60 + 4 * user, v); } } if (!done[3]) { next = pick(user); } return next; }',
     'yes 15', 'chain dispatch pick'),
    ('a function that calls itself',
     'int x; int down(int n) { int r; if (n > 0) { r = down(n - 1); } else { r = 0; } return r; } ' + HEAD + ' { x = down(11); return 0; }',
     'no cycle', 'cycle dispatch down down'),
    ('a large frame', HEAD + ' { int[100] a; a[0] = 1; return 0; }', 'no 106', 'chain dispatch'),
    ('dispatch alone', HEAD + ' { return 0; }', 'yes 6', 'chain dispatch'),
    ('as many words as there are', HEAD + ' { int[58] a; a[0] = 1; return 0; }', 'yes 64', 'chain dispatch'),
    ('one word more', HEAD + ' { int[59] a; a[0] = 1; return 0; }', 'no 65', 'chain dispatch'),
    ('a function that is called twice', 'int f() { int x; return 0; } ' + HEAD + ' { int x; x = f(); x = f(); return 0; }', 'yes 11', 'chain dispatch f'),
    ('two chains of as many words, the first of which is called last',
     'int f() { int x; return 0; } int g() { int x; return 0; } ' + HEAD + ' { int x; x = g(); x = f(); return 0; }', 'yes 11', 'chain dispatch f'),
    ('two chains of as many words that part late',
     'int x; int a() { x = d(); x = c(); return 0; } int c() { int y; return 0; } int d() { int y; return 0; } ' + HEAD + ' { x = a(); return 0; }', 'yes 13', 'chain dispatch a c'),
    ('as many words in two functions as in one',
     'int x; int a() { x = b(); return 0; } int b() { return 0; } int c() { int[3] v; v[0] = 1; return 0; } ' + HEAD + ' { x = c(); x = a(); return 0; }', 'yes 12', 'chain dispatch a b'),
    ('as many words in one function as in two',
     'int x; int c() { int[3] v; v[0] = 1; return 0; } int a() { x = b(); return 0; } int b() { return 0; } ' + HEAD + ' { x = a(); x = c(); return 0; }', 'yes 12', 'chain dispatch c'),
    ('more words in fewer functions',
     'int x; int a() { x = b(); return 0; } int b() { x = c(); return 0; } int c() { return 0; } int large() { int[50] v; v[0] = 1; return 0; } ' + HEAD + ' { x = a(); x = large(); return 0; }',
     'yes 59', 'chain dispatch large'),
    ('a call in the else branch', 'int x; int f() asm { addu r2, r0, r0 } ' + HEAD + ' { if (x == 0) { x = 1; } else { x = f(); } return 0; }', 'yes 9', 'chain dispatch f'),
    ('a call in a loop', 'int x; int f() asm { addu r2, r0, r0 } ' + HEAD + ' { while (x < 1) { x = f(); } return 0; }', 'yes 9', 'chain dispatch f'),
    ('calls in both branches',
     'int x; int f() { int[9] a; a[0] = 0; return 0; } int g() { return 0; } ' + HEAD + ' { if (x == 0) { x = g(); } else { x = f(); } return 0; }', 'yes 18', 'chain dispatch f'),
    ('a call deep in statements',
     'int x; int f() { int[9] a; a[0] = 0; return 0; } ' + HEAD + ' { while (x < 1) { if (x == 0) { x = 1; } else { while (x < 2) { if (x == 1) { x = f(); } } } } return 0; }', 'yes 18', 'chain dispatch f'),
    ('an asm function of four parameters', 'int f(int a, int b, int c, int d) asm { addu r2, r4, r5 } ' + HEAD + ' { int x; x = f(1, 2, 3, 4); return 0; }', 'yes 14', 'chain dispatch f'),
    ('a primitive takes no frame', HEAD + ' { int x; x = vm_size(1); return 0; }', 'yes 7', 'chain dispatch'),
    ('eight parameters of each type',
     'struct s { int a; }; int x; int f(int a, int b, int c, bool d, bool e, int* g, struct s* h, bool* i) { return 0; } ' + HEAD + ' { x = f(1, 2, 3, true, false, null, null, null); return 0; }',
     'yes 17', 'chain dispatch f'),
    ('locals of struct and array types', 'struct s { int a; bool[3] b; }; int x; int f() { struct s[2] p; p[0].a = 1; return 0; } ' + HEAD + ' { x = f(); return 0; }', 'yes 17', 'chain dispatch f'),
    ('a local with a function\'s name', 'int f() { return 0; } ' + HEAD + ' { int f; f = f(); return 0; }', 'yes 10', 'chain dispatch f'),
    ('functions that nothing calls', 'int f() { int[100] a; a[0] = 1; return 0; } int g() { int x; x = f(); return 0; } ' + HEAD + ' { return 0; }', 'yes 6', 'chain dispatch'),
    ('a loop that dispatch does not reach', 'int x; int f() { x = g(); return 0; } int g() { x = f(); return 0; } int h() { return 0; } ' + HEAD + ' { x = h(); return 0; }', 'yes 9', 'chain dispatch h'),
    ('a loop beside a longer chain that ends',
     'int x; int f() { x = f(); return 0; } int g() { int[90] a; a[0] = 1; return 0; } ' + HEAD + ' { x = g(); x = f(); return 0; }', 'no cycle', 'cycle dispatch f f'),
    ('dispatch calls itself', HEAD + ' { int x; x = dispatch(0, 0, 0); return 0; }', 'no cycle', 'cycle dispatch dispatch'),
    ('a loop through dispatch', 'int x; int f() { x = dispatch(0, 0, 0); return 0; } ' + HEAD + ' { x = f(); return 0; }', 'no cycle', 'cycle dispatch f dispatch'),
    ('the first of two loops is called last', 'int x; int f() { x = f(); return 0; } int g() { x = g(); return 0; } ' + HEAD + ' { x = g(); x = f(); return 0; }', 'no cycle', 'cycle dispatch f f'),
    ('two loops that part late', 'int x; int f() { x = g(); return 0; } int g() { x = g(); x = f(); return 0; } ' + HEAD + ' { x = f(); return 0; }', 'no cycle', 'cycle dispatch f g f'),
    ('the first of a function\'s calls reaches no loop', 'int x; int a() { return 0; } int f() { x = a(); x = f(); return 0; } ' + HEAD + ' { x = a(); x = f(); return 0; }', 'no cycle', 'cycle dispatch f f'),
    ('a unit without a dispatch', 'int x;', 'not typed', None),
]

# Kernels at the limit of 100,000 nodes, of whose text the first row and the number of names are printed.
LARGE = [
    ('a chain of functions', 'int x; int f0() { x = 0; return 0; } `24996 int f^(){x=f?();return 0;}`' + HEAD + ' { x = f24996(); return 0; }', 'no %d' % (6 + 24997 * 3), 24998),
    ('a chain of functions, the newest first', 'int x;' + HEAD + ' { x = f0(); return 0; } `24996 int f?(){x=f^();return 0;}`int f24996() { x = 0; return 0; }', 'no %d' % (6 + 24997 * 3), 24998),
    ('a loop of functions', 'int x; int f0() { x = f24996(); return 0; } `24996 int f^(){x=f?();return 0;}`' + HEAD + ' { x = f24996(); return 0; }', 'no cycle', 24999),
    ('a loop of one function behind a chain', 'int x; int f0() { x = f0(); return 0; } `24996 int f^(){x=f?();return 0;}`' + HEAD + ' { x = f24996(); return 0; }', 'no cycle', 24999),
    ('many calls of each function', 'int x; int f0() { return 0; } `50 int f^() { ~990 x = f?(); ~return 0; }`' + HEAD + ' { x = f50(); return 0; }', 'no %d' % (6 + 51 * 3), 52),
    ('each function calls those before it', 'int x; `240 int f?(){ ~200 x = g(); ~return 0; }`int g() { return 0; }' + HEAD + ' { x = f239(); x = f0(); return 0; }', 'yes 12', 3),
]


class Graph:
    """A kernel's functions in source order: which is dispatch, the words of each frame, and whom each calls."""

    def __init__(self, rng):
        self.rng = rng
        self.count = rng.choice([1, 2, 3, 4, 5, 5, 6, 6, 7, 7, 8, 8])
        self.first = rng.randrange(self.count)
        self.names = ['dispatch' if n == self.first else rng.choice(['f', 'go_', 'Pick', 'z']) + str(n) for n in range(self.count)]
        self.frames, self.calls, self.texts = [], [], []
        # Most graphs let functions call later ones alone, so that some have no loop.
        self.forward = rng.random() < 0.7
        self.order = [n for n in range(self.count) if n != self.first]
        rng.shuffle(self.order)
        self.order.insert(0 if rng.random() < 0.8 else rng.randrange(self.count), self.first)
        self.asm = [n != self.first and rng.random() < 0.2 for n in range(self.count)]
        self.params = [3 if n == self.first else rng.randint(0, 4 if self.asm[n] else rng.choice([2, 8])) for n in range(self.count)]
        for n in range(self.count):
            self.texts.append(self.function(n))

    def callees(self, n):
        likely = self.rng.choice([0.15, 0.4, 0.7])
        later = set(self.order[self.order.index(n) + 1:])
        found = [m for m in range(self.count) if self.rng.random() < likely and (not self.forward or m in later)]
        self.rng.shuffle(found)
        return found

    def call(self, m):
        text = 'x = %s(%s);' % (self.names[m], ', '.join('0' for _ in range(self.params[m])))
        form = self.rng.randrange(7)
        if form == 1:
            return 'if (x == 0) { %s }' % text
        if form == 2:
            return 'if (x == 1) { x = 2; } else { %s }' % text
        if form == 3:
            return 'while (x < 0) { %s }' % text
        if form == 4:
            return 'if (x < 5) { while (x < 3) { x = x + 1; %s } } else { x = vm_size(1); }' % text
        if form == 5:
            return text + ' ' + text
        return text

    def function(self, n):
        params = ', '.join('int p%d' % i for i in range(self.params[n]))
        if self.asm[n]:
            self.frames.append(self.params[n] + 3)
            self.calls.append([])
            return 'int %s(%s) asm { addu r2, r0, r0 }' % (self.names[n], params)
        words, locals = 1, ['int x;']
        for i in range(self.rng.randrange(4)):
            kind, size = self.rng.choice([('int', 1), ('bool', 1), ('int*', 1), ('struct two', 2), ('int[5]', 5), ('struct two[6]', 12), ('int[20]', 20)])
            locals.append('%s l%d;' % (kind, i))
            words += size
        called = self.callees(n)
        self.frames.append(self.params[n] + words + 3)
        self.calls.append(sorted(called))
        return 'int %s(%s) { %s %s return 0; }' % (self.names[n], params, ' '.join(locals), ' '.join(self.call(m) for m in called))

    def source(self):
        return 'struct two { int a; bool b; }; ' + ' '.join(self.texts)

    def told(self):
        return text(self.names, ROOM, *answer(self.first, self.frames, self.calls)).split('\n')[:2]


LEAST_WORDS = 2


def main(words):
    folder, stdout = words
    told = []
    with open(folder + '/bounds', 'w') as out:
        out.write('Kernels, and how much stack each needs.\n')
        for name, source, head, row in BY_HAND:
            out.write('\n== bound %s\n%s' % (name, source))
            told += ['== bound ' + name, head] + ([row] if row else [])
        for name, source, head, count in LARGE:
            out.write('\n== count %s\n%s' % (name, source))
            told += ['== count ' + name, head, 'names %d' % count]
        out.write('\n')
    rng = random.Random(19)
    with open(folder + '/graphs', 'w') as out:
        out.write('Kernels of random call graphs.\n')
        for k in range(500):
            graph = Graph(rng)
            name = 'graph %d' % k
            out.write('\n== bound %s\n%s' % (name, graph.source()))
            told += ['== bound ' + name] + graph.told()
        out.write('\n')
    with open(stdout, 'w', encoding='utf-8') as out:
        out.write('\n'.join(told) + '\n')
    return 0

"""Random kernels whose functions hand on parameters, answers and pointers, so that the compiler comes to know things of variables, and to forget them."""
import random

HEAD = '''struct node { int v; struct node* n; bool b; struct node* m; };
int g; bool t; struct node* q; struct node first; struct node[2] pair; int[3] a;
'''
BEGIN = '''if (cause == 0) { q = &first; first.n = &pair[0]; first.m = &pair[1]; pair[0].n = &first;
  pair[0].m = q; pair[1].n = q; pair[1].m = q; pair[1].v = 3; first.v = 1; }
  '''


class Maker:
    """A random kernel that ends: each loop counts down, functions call those before them, and themselves with a smaller first argument."""

    def __init__(self, seed):
        self.r, self.functions, self.small = random.Random(seed), [], seed % 4 > 0
        self.names = {'int': [], 'bool': [], 'ptr': []}     # the function's variables by type
        self.calls = self.loops = 0
        self.set = self.r.choice([0, 2, 8])     # how often pointers are set at the begin

    def text(self):
        functions = [self.function('f%d' % n) for n in range(self.r.randrange(1, 5))]
        return HEAD + '\n'.join(functions + [self.calling() if self.small else self.function('dispatch')]) + '\n'

    def calling(self):
        """A `dispatch` that calls the function of a number, with pointers that are null or not."""
        given = {'int': 'data', 'bool': 'data > 1', 'ptr': 'u'}
        r, calls = self.r, ''
        for n, (name, answer, params) in enumerate(self.functions):
            args = ', '.join(r.choice(['u', 'w']) if t == 'ptr' else given[t] for t in params)
            calls += 'if (cause == %d) { %s = %s(%s); } ' % (n + 1, {'int': 'x', 'bool': 'o', 'ptr': 'u'}[answer], name, args)
        return ('int dispatch(int cause, int data, int user) { int x; bool o; struct node* u; struct node* w; %su = q; if (data / 2 %% 2 == 0) { u = null; } '
                'if (data %% 2 == 0) { w = &pair[1]; } %sif (o) { x = x + 100; } if (u == null) { x = x + 1000; } return x; }' % (BEGIN, calls))

    def function(self, name):
        r = self.r
        if name == 'dispatch':
            answer, params = 'int', [('int', 'cause'), ('int', 'data'), ('int', 'user')]
        else:
            answer = r.choice(['int', 'int', 'bool', 'ptr'])
            count = r.randrange(3 if self.small else r.choice([3, 8]))
            params = [('int', 'k')] + [(r.choice(['int', 'ptr', 'ptr', 'bool']), 'p%d' % i) for i in range(count)]
        self.calls = name == 'dispatch' or r.randrange(4) > 0
        count = r.randrange(3) if self.small else r.choice([0, 1, 2, 3, 4, 9])
        locals_ = [(r.choice(['int', 'ptr', 'ptr', 'bool']), 'x%d' % i) for i in range(count)]
        self.names = {ty: [n for t, n in params + locals_ if t == ty] for ty in ('int', 'bool', 'ptr')}
        self.own, self.loops = (name, answer, [t for t, _ in params]), 0
        arrays = 'int[3] z; ' if r.randrange(6) == 0 else ''
        body = ' '.join(['%s = %s;' % (n, r.choice(['q', '&first', 'q->n'])) for t, n in locals_ if t == 'ptr' and r.randrange(8) < self.set]
                        + [self.statement(int(self.small)) for _ in range(r.randrange(2, 6 if self.small else 8))])
        counters = ''.join('int i%d; ' % n for n in range(self.loops))
        text = '%s %s(%s) { %s%s%s%s%s return %s; }' % (
            spelled(answer), name, ', '.join('%s %s' % (spelled(t), n) for t, n in params), counters, arrays,
            ''.join('%s %s; ' % (spelled(t), n) for t, n in locals_), BEGIN if name == 'dispatch' else '', body, self.value(answer, 1))
        self.functions.append(self.own)
        return text

    def value(self, ty, depth=0):
        return {'int': self.int, 'bool': self.bool, 'ptr': self.pointer}[ty](depth)

    def variable(self, ty, other):
        return self.r.choice(self.names[ty]) if self.names[ty] and self.r.randrange(5) else other

    def int(self, depth=0):
        r = self.r
        k = r.randrange(9) if depth < 3 else r.randrange(4)
        if k < 3:
            return self.variable('int', 'g')
        if k == 3:
            return str(r.choice([0, 1, 2, 3, 7, 40000, 2147483647]))
        if k == 4:
            return '%s->v' % self.pointer(2)
        if k == 5:
            return 'a[%s]' % r.choice(['0', '1', '2', '%s %% 3' % self.variable('int', 'g')])
        if k == 6:
            op = r.choice('*/%')
            return '(%s %s %s)' % (self.int(depth + 1), op, self.int(depth + 1) if op == '*' or r.randrange(12) == 0 else r.choice(['3', '7']))
        return '(%s %s %s)' % (self.int(depth + 1), r.choice('+-'), self.int(depth + 1))

    def bool(self, depth=0):
        r = self.r
        k = r.randrange(10) if depth < 3 else r.randrange(4)
        if k == 0:
            return self.variable('bool', 't')
        if k < 3:
            return self.about(self.variable('ptr', 'q'))
        if k == 3:
            return '(%s %s %s)' % (self.int(2), r.choice(['<', '<=', '>', '>=', '==', '!=']), self.int(2))
        if k == 4:
            return '%s->b' % self.pointer(2)
        if k == 5:
            return '!(%s)' % self.bool(depth + 1)
        if k == 6:
            return '((%s) %s (%s))' % (self.bool(depth + 2), r.choice(['==', '!=']), self.bool(depth + 2))
        return '((%s) %s (%s))' % (self.bool(depth + 1), r.choice(['&&', '||']), self.bool(depth + 1))

    def about(self, p):
        """A test of a pointer, and perhaps what hangs on it."""
        r = self.r
        test = r.choice(['%s != null', '%s != null', '%s == null', 'null == %s', '!(%s == null)', '!(%s != null)', '%s->b', '!%s->b', '%s->v < 2']) % p
        more = r.choice(['%s->b', '!%s->b', '%s->v > 1', '%s->n == null', '%s->n != null && %s->n->b']).replace('%s', p)
        first, second = (test, more) if r.randrange(4) else (more, test)
        return '(%s)' % test if r.randrange(3) else '((%s) %s (%s))' % (first, r.choice(['&&', '||']), second)

    def pointer(self, depth=0):
        r = self.r
        k = r.randrange(8) if depth < 2 else r.randrange(5)
        if k < 5:
            return self.variable('ptr', r.choice(['q', 'q', 'first.n', 'pair[0].n']))
        if k < 7:
            return '%s->%s' % (self.pointer(depth + 1), r.choice('nm'))
        return r.choice(['(&first)', '(&pair[1])', '(&pair[g % 2])'] + ['null'] * (depth == 0))

    def place(self, ty):
        r = self.r
        if self.names[ty] and r.randrange(4):
            return r.choice(self.names[ty])
        if r.randrange(2):
            return '%s->%s' % (self.pointer(2), {'int': 'v', 'bool': 'b', 'ptr': r.choice('nm')}[ty])
        element = 'pair[%s %% 2].v' % self.variable('int', 'g')
        return {'int': r.choice(['g', 'a[1]', element]), 'bool': 't', 'ptr': r.choice(['q', 'first.n', 'pair[1].m'])}[ty]

    def statement(self, depth):
        r = self.r
        k = r.randrange(14) if depth < 3 else r.randrange(8)
        ty = r.choice(['int', 'bool', 'ptr'])
        if k < 4 or k < 7 and depth > 2 and not self.calls:
            return '%s = %s;' % (self.place(ty), self.value(ty))
        if k < 7 and self.calls:
            return self.call()
        if k == 7:
            place = self.place('ptr')
            more = 'if (%s != null) { %s->n = q; %s->m = q; }' % (place, place, place)
            return '%s = new struct node; ' % place + (more if r.randrange(4) else '')
        if k < 11:
            p = self.variable('ptr', 'q')
            follows = lambda: r.choice(['', '', '', 'g = %s->v; ', '%s->v = g; ', 't = %s->b; ']).replace('%s', p)
            test = r.choice([self.about(p), '%s %s %s' % (self.about(p), r.choice(['&&', '||']), self.about(p)), self.bool(1)])
            other = ' else { %s%s }' % (follows(), self.block(depth + 1)) if r.randrange(2) else ''
            return 'if (%s) { %s%s }%s %s' % (test, follows(), self.block(depth + 1), other, follows())
        if k < 13 and self.loops < 3:
            self.loops += 1
            i, p = 'i%d' % (self.loops - 1), self.variable('ptr', 'q')
            more = r.choice(['', ' && ' + self.bool(2), ' && %s != null' % p, ' && %s->v != 5' % p])
            test = '%s > 0%s' % (i, more) if r.randrange(2) or not more else '%s && %s > 0' % (more[4:], i)
            return '%s = %d; while (%s) { %s = %s - 1; %s }' % (i, r.randrange(1, 6), test, i, i, self.block(depth + 1))
        return '%s = %s;' % (self.place('ptr'), self.pointer())

    def call(self):
        r = self.r
        if not self.functions or r.randrange(4) == 0:
            name, ty, args = r.choice([('vm_get', 'int', 2), ('vm_set', 'bool', 3), ('vm_size', 'int', 1), ('con_put', 'bool', 1), ('con_get', 'int', 0)])
            return '%s = %s(%s);' % (self.place(ty), name, ', '.join(self.int(1) for _ in range(args)))
        name, ty, args = r.choice(self.functions + [self.own] * (self.own[0] != 'dispatch'))
        given = ', '.join(self.argument(t) for t in args[1:])
        first = ['k - 1'] if name == self.own[0] else [self.argument('int')]
        made = '%s = %s(%s);' % (self.place(ty), name, ', '.join(first + ([given] if given else [])))
        return 'if (k > 0 && k < 4) { %s }' % made if name == self.own[0] else made

    def argument(self, ty):
        return self.variable(ty, self.value(ty, 2)) if self.r.randrange(3) else self.value(ty, 1)

    def block(self, depth):
        return ' '.join(self.statement(depth) for _ in range(self.r.randrange(1, 4)))


def spelled(ty):
    return 'struct node*' if ty == 'ptr' else ty

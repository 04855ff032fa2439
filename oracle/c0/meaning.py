"""What a checked unit of C0 does, written from docs/MEANING.md apart from the crates: work items that are done one after another, with their units.

Values are ints, bools, None for null, or the location of what a pointer points to: a region, `'g'` of globals and `'h'` of the heap, and the number of a
word in it. The variables of the function that runs are the region `'l'`, to which no pointer points.
"""
from oracle.c0.tree import bare
from oracle.words import M, signed

# the primitives of a kernel: name, arguments, whether the answer is a bool
PRIMITIVES = [('vm_get', 2, 0), ('vm_set', 3, 1), ('vm_size', 1, 0), ('vm_resize', 2, 1), ('vm_word', 2, 0), ('vm_put', 3, 1),
              ('vm_copy', 5, 1), ('con_put', 1, 1), ('con_get', 0, 0), ('con_left', 0, 0)]
NUMBERS = {p[0]: n for n, p in enumerate(PRIMITIVES)}
INT, BOOL = ('int',), ('bool',)
NAMES = {'null': 'NullUse', 'bounds': 'Bounds', 'zero': 'DivZero', 'stack': 'StackOut'}


class Fault(Exception):
    """A fault, by its kind; `node` is the expression that has it, or the call."""

    def __init__(self, kind, node=None):
        Exception.__init__(self, kind)
        self.kind, self.node = kind, node

    @property
    def name(self):
        return NAMES[self.kind]


class TooLong(Exception):
    """The statements and tests of loops that a run may have are used up."""


class Frame:
    """A function that runs: its variables by name, as (type, word), their words, and the statement that is done."""
    __slots__ = ('function', 'variables', 'words', 'size', 'args', 'at', 'target', 'floor')

    def __init__(self, function, variables, words, size, args, target, floor):
        self.function, self.variables, self.words, self.size, self.args, self.target, self.floor = function, variables, words, size, args, target, floor
        self.at = None


class Unit:
    """What a run needs of a tree: its declarations without places, and where each global stands."""

    def __init__(self, tree):
        self.tree = tree
        self.structs = {name: [(bare(t), x[0]) for t, _, x in fields] for (name, _), fields in reversed(tree.structs)}
        self.globals = [(bare(t), x[0]) for t, _, x in tree.globals]
        self.functions = {f.name: f for f in reversed(tree.functions)}
        self.sizes, self.fields, self.places, self.layouts = {}, {}, {}, {}
        self.global_words = 0
        for t, name in self.globals:
            self.places.setdefault(name, (t, self.global_words))
            self.global_words += self.words(t)

    def words(self, t):
        """The words of a type."""
        size = self.sizes.get(t)
        if size is None:
            if t[0] == 'struct':
                size = sum(self.words(f) for f, _ in self.structs[t[1]])
            else:
                size = t[2] * self.words(t[1]) if t[0] == 'array' else 1
            self.sizes[t] = size
        return size

    def field(self, t, name):
        """The type of a struct's field, and the words before it."""
        found = self.fields.get((t[1], name))
        if found is None:
            at = 0
            for ft, n in self.structs[t[1]]:
                self.fields.setdefault((t[1], n), (ft, at))
                at += self.words(ft)
            found = self.fields[t[1], name]
        return found

    def layout(self, f):
        """Of a function: its variables by name, the words of its locals, and the words of its frame."""
        found = self.layouts.get(f.name)
        if found is None:
            variables, at = {}, 0
            for t, name in f.names:
                variables.setdefault(name, (t, at))
                at += self.words(t)
            found = self.layouts[f.name] = variables, at - len(f.params), at + 3
        return found


class Meaning:
    """Runs of a unit's functions, over globals and a heap that stay from one to the next. `units` counts those of the run, `left` the statements and tests
    that may still come. `seen`, where it is set, is told of each: see `Seen`."""

    def __init__(self, unit, heap, stack, most=400000):
        self.unit, self.heap_most, self.stack = unit if isinstance(unit, Unit) else Unit(unit), heap, stack
        self.globals, self.heap = [0] * self.unit.global_words, []
        self.frames, self.used, self.work = [], 0, []
        self.left, self.units, self.answer, self.seen = most, 0, None, None
        self.objects = []       # of each object of the heap: its first word, and its type
        self.doing = {'assign': self.assign, 'call': self.call_statement, 'new': self.allocate, 'if': self.choose, 'while': self.loop}

    # ---- memory
    def region(self, r):
        return self.globals if r == 'g' else self.heap if r == 'h' else self.frames[-1].words

    def load(self, place):
        return self.region(place[0])[place[1]]

    def store(self, place, value):
        self.region(place[0])[place[1]] = value

    # ---- expressions. A place is its type and its location
    def place(self, e):
        self.units += 1
        kind, parts = e.kind, e.parts
        if kind == 'var':
            frame = self.frames[-1].variables.get(parts[0])
            if frame is not None:
                return frame[0], ('l', frame[1])
            t, at = self.unit.places[parts[0]]
            return t, ('g', at)
        if kind == 'field':
            t, (r, at) = self.place(parts[0])
            ft, offset = self.unit.field(t, parts[1][0])
            return ft, (r, at + offset)
        if kind == 'arrow':
            t, p = self.pointed(e, parts[0])
            ft, offset = self.unit.field(t, parts[1][0])
            return ft, (p[0], p[1] + offset)
        if kind == 'index':
            t, (r, at) = self.place(parts[0])
            i = self.value(parts[1])[1]
            if not 0 <= i < t[2]:
                raise Fault('bounds', e)
            return t[1], (r, at + i * self.unit.words(t[1]))
        return self.pointed(e, parts[1])

    def pointed(self, e, inner):
        t, p = self.value(inner)
        if p is None:
            raise Fault('null', e)
        return t[1], p

    def value(self, e):
        """The type and the value of an expression."""
        kind = e.kind
        if kind in ('var', 'field', 'arrow', 'index') or (kind == 'un' and e.parts[0] == '*'):
            t, place = self.place(e)
            v = self.load(place)
            return t, (v or None) if t[0] == 'ptr' else bool(v) if t[0] == 'bool' else v
        if kind == 'bin':
            return self.binary(e, *e.parts)
        self.units += 1
        if kind == 'num':
            return INT, e.parts[0]
        if kind == 'un':
            return self.unary(*e.parts)
        return (('ptr', None), None) if kind == 'null' else (BOOL, kind == 'true')

    def unary(self, o, inner):
        if o == '&':
            t, place = self.place(inner)
            return ('ptr', t), place
        v = self.value(inner)[1]
        return (INT, signed(-v)) if o == '-' else (BOOL, not v)

    def binary(self, e, o, a, b):
        self.units += 1
        x = self.value(a)[1]
        if o == '&&':
            return BOOL, self.value(b)[1] if x else False
        if o == '||':
            return BOOL, True if x else self.value(b)[1]
        y = self.value(b)[1]
        if o in ('==', '!='):
            return BOOL, (x == y) == (o == '==')
        if o in ('<', '<=', '>', '>='):
            return BOOL, x < y if o == '<' else x <= y if o == '<=' else x > y if o == '>' else x >= y
        if o in ('/', '%'):
            if y == 0:
                raise Fault('zero', e)
            q = abs(x) // abs(y) * (1 if (x < 0) == (y < 0) else -1)
            return INT, signed(q if o == '/' else x - q * y)
        return INT, signed(x + y if o == '+' else x - y if o == '-' else x * y)

    # ---- a run: what is left to do is a list of work items, the last of which comes next
    def call(self, name, args):
        """Runs a function to its end, with an empty stack, and gives its answer."""
        self.begin(name, args)
        while self.work:
            self.act()
        return self.answer

    def begin(self, name, args):
        """Makes the call of a function, with an empty stack, what is to be done."""
        self.frames, self.used, self.work, self.answer = [], 0, [], None
        self.enter(self.unit.functions[name], args, None)

    def act(self):
        """Does one work item: a statement, a test of a loop, the store of an answer, or a return."""
        kind, item, value = self.work[-1]
        if kind in ('do', 'again'):
            self.tick(item)     # where no more may come, the item stays what is to be done
        self.work.pop()
        if kind == 'do':
            self.doing[item.kind](item)
        elif kind == 'again':
            self.test(item)
        elif kind == 'finish':
            self.frames[-1].at = item
            if self.seen is not None:
                self.seen.finishing(item.span[0])
            self.assigned(item, item.parts[0], value)
        else:
            self.leave(item)

    def tick(self, item):
        if self.left <= 0:
            raise TooLong()
        self.frames[-1].at = item
        if self.seen is not None:
            self.seen.reached(item.span[0])
        self.units += 1
        self.left -= 1

    def push(self, block):
        self.work.extend([('do', s, None) for s in reversed(block)])

    def assigned(self, statement, place, value):
        """Evaluates a place and stores a value there."""
        t, at = self.place(place)
        if self.seen is not None:
            self.seen.stored(statement, t, at, self.load(at), value)
        self.store(at, value)

    def assign(self, s):
        self.assigned(s, s.parts[0], self.value(s.parts[1])[1])

    def choose(self, s):
        answer = self.value(s.parts[0])[1]
        if self.seen is not None:
            self.seen.tested(s, answer)
        self.push(s.parts[1] if answer else s.parts[2])

    def loop(self, s):
        self.units += 1
        self.test(s)

    def test(self, s):
        answer = self.value(s.parts[0])[1]
        if self.seen is not None:
            self.seen.tested(s, answer)
        if answer:
            self.work.append(('again', s, None))
            self.push(s.parts[1])

    def allocate(self, s):
        t = bare(s.parts[1])
        n = self.unit.words(t)
        p = None
        self.units += 1
        if len(self.heap) + n <= self.heap_most:
            p = ('h', len(self.heap))
            self.objects.append((p[1], t))
            self.heap += [0] * n
            self.units += n
        self.work.append(('finish', s, p))

    def call_statement(self, s):
        args = [self.value(a)[1] for a in s.parts[2]]
        name = s.parts[1][0]
        if self.is_primitive(name):
            self.units += 1
            answer = self.primitive(name, args)
            if self.seen is not None:
                self.seen.primitive(s, name, args, answer)
            self.work.append(('finish', s, answer))
        else:
            self.enter(self.unit.functions[name], args, s)

    def is_primitive(self, name):
        return name in NUMBERS

    def primitive(self, name, args):
        """What a primitive answers; those who have a world say so."""
        raise NotImplementedError(name)

    def enter(self, f, args, target):
        """Calls a function: the stack is tested first."""
        self.units += 1
        variables, local, size = self.unit.layout(f)
        if self.used + size > self.stack:
            raise Fault('stack', target)
        if self.seen is not None:
            self.seen.entered(f, args)
        if f.asm is not None:
            answer, words = asm_answer(f.asm[0], args)
            self.units += words
            return self.deliver(f, target, answer)
        self.used += size
        self.units += local
        self.frames.append(Frame(f, variables, list(args) + [0] * local, size, list(args), target, len(self.work)))
        self.work.append(('leave', f, None))
        self.push(f.body)

    def leave(self, f):
        self.frames[-1].at = f
        if self.seen is not None:
            self.seen.reached(f.return_at)
        answer = self.value(f.result)[1]
        frame = self.frames.pop()
        self.used -= frame.size
        self.deliver(f, frame.target, answer)

    def deliver(self, f, target, answer):
        if self.seen is not None:
            self.seen.returned(f, answer)
        if target is None:
            self.answer = answer
        else:
            self.work.append(('finish', target, answer))


def asm_answer(text, args):
    """What the body of an asm function answers, and how many words it has."""
    r, count = [0] * 8, 0
    for i, a in enumerate(args):
        r[4 + i] = a & M
    for line in text.split('\n'):
        line = line.split('#')[0].strip()
        if line:
            count += 1
            asm_line(r, line)
    return signed(r[2]), count


def asm_line(r, line):
    """What one line does to the registers."""
    op, rest = (line.split(None, 1) + [''])[:2]
    xs = [x.strip() for x in rest.split(',')]
    ns = [int(x[1:]) if x[0] == 'r' else int(x, 0) for x in xs]
    d = ns[0]
    if op == 'lui':
        v = ns[1] << 16
    elif op in ('sll', 'srl', 'sra'):
        x = r[ns[1]]
        v = {'sll': x << ns[2], 'srl': x >> ns[2], 'sra': signed(x) >> ns[2]}[op]
    elif op in ('sllv', 'srlv', 'srav'):
        x, s = r[ns[1]], r[ns[2]] & 31
        v = {'sllv': x << s, 'srlv': x >> s, 'srav': signed(x) >> s}[op]
    elif op in ('addiu', 'slti', 'sltiu', 'andi', 'ori', 'xori'):
        x, n = r[ns[1]], ns[2]
        v = {'addiu': x + n, 'slti': int(signed(x) < n), 'sltiu': int(x < (n & M)), 'andi': x & n, 'ori': x | n, 'xori': x ^ n}[op]
    else:
        x, y = r[ns[1]], r[ns[2]]
        v = {'addu': x + y, 'subu': x - y, 'and': x & y, 'or': x | y, 'xor': x ^ y, 'nor': ~(x | y),
             'slt': int(signed(x) < signed(y)), 'sltu': int(x < y)}[op]
    if d:
        r[d] = v & M


class Seen:
    """Who is told of a run. Each of these is called in the order in which things happen; a place is (type, location)."""

    def reached(self, at):
        """The statement, test of a loop or return that begins at a byte is about to be done."""

    def finishing(self, at):
        """The answer of the call, or of the `new`, that begins at a byte is about to be stored."""

    def entered(self, f, args):
        """A function was called; of an asm function `returned` follows at once."""

    def stored(self, statement, t, place, old, value):
        """A statement stores a value of a type to a place, where the old one stands still."""

    def tested(self, statement, answer):
        """The test of an `if`, or of a `while`."""

    def primitive(self, statement, name, args, answer):
        """A primitive was called, and answered."""

    def returned(self, f, answer):
        """A function returned."""


def bits(v):
    """A value as its word's int."""
    return 0 if v is None or v is False else 1 if v is True else v

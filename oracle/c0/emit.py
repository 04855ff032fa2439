"""The words of a source's code, instruction by instruction, after docs/COMPILER.md; nothing is taken from the compiler's own code or from what it answers.

usage: oracle/model c0_code FILE..    prints the words of each kernel
"""
from oracle.assembler import assemble, three_registers, with_immediate
from oracle.c0.facts import ANSWER, ARGUMENTS, Knowing, inside
from oracle.c0.meaning import NUMBERS, Unit
from oracle.c0.tree import Parser, bare, is_scalar
from oracle.words import M

START, PRIMITIVES, EXITS, LEAVE = 0x10000, 0x2000, 0x2028, 0x2038
FAULTS = {'null': 0, 'bounds': 1, 'zero': 2, 'stack': 3}
STACK_FIRST, STACK_LIMIT = 0x1014, 0x1018
LARGEST = 262144    # a frame of more words has room in no stack
CLEARED = 8         # so many words of locals are cleared one by one
SCRATCH, EXPRESSIONS, GLOBALS, FRAME_END, STACK_END, RETURN = 1, 8, 28, 29, 30, 31

NEW = '''lw r3, 0x1008(r0)
lw r4, 0x100c(r0)
addu r5, r3, r2
sltu r1, r4, r5
bne r1, r0, 11
sw r5, 0x1008(r0)
lw r4, 0x1010(r0)
sll r3, r3, 2
addu r2, r4, r3
sll r5, r5, 2
addu r5, r4, r5
addu r3, r2, r0
sw r0, 0(r3)
addiu r3, r3, 4
bne r3, r5, -3
jr r31
addu r2, r0, r0
jr r31'''
DIVIDING = 'bne r21, r0, 1\nj %d\ndiv r20, r21\n%s r2\njr r31'
ROUTINES = (('new', NEW), ('multiply', 'mult r20, r21\nmflo r2\njr r31'), ('divide', DIVIDING % (EXITS // 4 + FAULTS['zero'], 'mflo')),
            ('remainder', DIVIDING % (EXITS // 4 + FAULTS['zero'], 'mfhi')))
BEHIND = [word for _, text in ROUTINES for word in assemble(text)]


# ---- instructions
def plain(funct):
    """An instruction of three registers: the target, and the two that are read."""
    return lambda d, q, t: three_registers(q, t, d, 0, funct)


def immediate(op):
    """An instruction with an immediate: the target, the register that is read, and the number."""
    return lambda d, q, k: with_immediate(op, q, d, k)


addu, subu, xor, slt, sltu = plain(0x21), plain(0x23), plain(0x26), plain(0x2a), plain(0x2b)
addiu, slti, sltiu, ori, xori, load, store = immediate(9), immediate(10), immediate(11), immediate(13), immediate(14), immediate(0x23), immediate(0x2b)


def mult(q, t):
    return three_registers(q, t, 0, 0, 0x18)


def mflo(d):
    return three_registers(0, 0, d, 0, 0x12)


def mfhi(d):
    return three_registers(0, 0, d, 0, 0x10)


def lui(d, k):
    return with_immediate(15, 0, d, k)


def jump(address):
    return 2 << 26 | address >> 2


def to_fault(kind):
    return jump(EXITS + 4 * FAULTS[kind])


def branch(where_equal, q, t, far):
    """To a place where two registers are equal, or where they differ."""
    return with_immediate(4 if where_equal else 5, q, t, far)


def by_sign(below, s, q, far):
    """To a place where a word is below 0, or where it is above, or where it isn't."""
    op, rt = ((1, 0) if s else (1, 1)) if below else (7, 0) if s else (6, 0)
    return with_immediate(op, q, rt, far)


def skip(n):
    return branch(True, 0, 0, n)


RETURNS = three_registers(RETURN, 0, 0, 0, 8)


# ---- constants and places
def near(k):
    """Whether a word is its lower half with its sign."""
    k &= M
    return k < 0x8000 or k >= M + 1 - 0x8000


def constant(d, n):
    """A constant goes to a register."""
    n &= M
    return [ori(d, 0, n)] if n < 0x10000 else [addiu(d, 0, n)] if near(n) else [lui(d, n >> 16), ori(d, d, n)]


class Place:
    """Code that has to run first, and then a register plus a displacement in bytes is the address."""

    def __init__(self, code, base, displacement):
        self.code, self.base, self.displacement = code, base, displacement & M

    def further(self, more):
        return Place(self.code, self.base, self.displacement + more)

    def access(self, instruction, q, r):
        """An instruction of the register q on it, with r for its address where the displacement is far."""
        k = self.displacement
        if near(k):
            return self.code + [instruction(q, self.base, k)]
        return self.code + [lui(SCRATCH, k + 0x8000 >> 16), addu(r, self.base, SCRATCH), instruction(q, r, k)]


class Value:
    """An expression: the code of its value, by target and first free register; its place, by the latter, which a variable in a register has none of; the
    register in which it stands without code; the number that is written there; and the word that it is known to be."""

    def __init__(self, ty, value, place=None, stands=None, literal=None, known=None):
        self.ty, self.value, self.place, self.stands, self.literal, self.known = ty, value, place, stands, literal, known

    def operand(self, r):
        """Its code, and the register in which it stands then."""
        return (self.value(r, r), r) if self.stands is None else ([], self.stands)


def fixed(ty, n, literal=None):
    return Value(ty, lambda d, r: constant(d, n), None, 0 if n == 0 else None, literal, n)


def at(ty, place):
    return Value(ty, lambda d, r: place(r).access(load, d, r), place)


def moved(d, q):
    """From a register to another one."""
    return [] if d == q else [addu(d, q, 0)]


def of_one(a, code):
    """Code that has an operand in a register, by the target and that register."""
    def value(d, r):
        before, q = a.operand(r)
        return before + code(d, q)
    return value


def of_two(a, b, code):
    """Code that has two operands in registers."""
    def value(d, r):
        first, q = a.operand(r)
        second, t = b.operand(r + 1)
        return first + second + code(d, q, t)
    return value


def logic(op, a, b):
    def value(d, r):
        right = b.value(r, r)
        return a.value(r, r) + [branch(op == '&&', r, 0, len(right))] + right + moved(d, r)
    return value


def equality(op):
    """What tells a difference from 0."""
    return (lambda d, q: sltiu(d, q, 1)) if op == '==' else (lambda d, q: sltu(d, 0, q))


def with_constant(op, k):
    """The code of an operator between a register and a constant, where an instruction has room for it."""
    if op in ('==', '!='):
        tells = equality(op)
        return (lambda d, q: [tells(d, q)]) if k == 0 else (lambda d, q: [xori(d, q, k), tells(d, d)]) if k < 0x10000 else None
    n = {'+': k, '-': -k, '<': k, '<=': k + 1, '>=': k}.get(op)
    if n is None or not near(n):
        return None
    if op in ('+', '-'):
        return lambda d, q: [addiu(d, q, n)]
    return lambda d, q: [slti(d, q, n)] + ([xori(d, d, 1)] if op == '>=' else [])


def between(op):
    """The code of an operator between two registers."""
    return {
        '+': lambda d, q, t: [addu(d, q, t)],
        '-': lambda d, q, t: [subu(d, q, t)],
        '*': lambda d, q, t: [mult(q, t), mflo(d)],
        '<': lambda d, q, t: [slt(d, q, t)],
        '>': lambda d, q, t: [slt(d, t, q)],
        '<=': lambda d, q, t: [slt(d, t, q), xori(d, d, 1)],
        '>=': lambda d, q, t: [slt(d, q, t), xori(d, d, 1)],
        '==': lambda d, q, t: [xor(d, q, t), sltiu(d, d, 1)],
        '!=': lambda d, q, t: [xor(d, q, t), sltu(d, 0, d)],
    }[op]


def division(op, sure):
    tested = (lambda t: []) if sure else (lambda t: [branch(False, t, 0, 1), to_fault('zero')])
    return lambda d, q, t: tested(t) + [three_registers(q, t, 0, 0, 0x1a), mflo(d) if op == '/' else mfhi(d)]


class Code(Knowing):
    """The code of a source. A call stands as ('call', name) until addresses are known, and that of the routine `new` has the name None."""

    def __init__(self, text, is_program=False):
        self.tree, self.is_program = Parser(text), is_program
        self.sizes = Unit(self.tree)
        self.globals = {}
        for ty, name in self.sizes.globals:
            self.globals.setdefault(name, ty)

    # ---- expressions, where some facts are known of variables
    def node(self, e, facts):
        kind, parts = e.kind, e.parts
        if kind == 'num':
            return fixed(('int',), parts[0], parts[0])
        if kind in ('true', 'false'):
            return fixed(('bool',), int(kind == 'true'))
        if kind == 'null':
            return fixed(('ptr', None), 0)
        if kind == 'var':
            return self.variable(parts[0], facts)
        if kind in ('field', 'arrow'):
            return self.field(self.node(parts[0], facts) if kind == 'field' else self.target(parts[0], facts), parts[1][0])
        if kind == 'index':
            return self.indexed(self.node(parts[0], facts), self.node(parts[1], facts))
        if kind == 'un':
            return self.target(parts[1], facts) if parts[0] == '*' else self.unary(parts[0], self.node(parts[1], facts))
        return self.binary(parts[0], self.node(parts[1], facts), self.node(parts[2], self.beside(e, facts)))

    def variable(self, name, facts):
        if name not in self.variables:
            spot = Place([], GLOBALS, 4 * self.sizes.places[name][1])
            return at(self.globals[name], lambda r: spot)
        number, ty = self.variables[name]
        if self.in_registers:
            return Value(ty, lambda d, r: [addu(d, ARGUMENTS + number, 0)], None, ARGUMENTS + number)
        spot, held = self.of_frame(3 + self.layout[0][name][1]), facts.register(number)
        return at(ty, lambda r: spot) if held is None else Value(ty, lambda d, r: moved(d, held), lambda r: spot, held)

    def of_frame(self, number):
        """The word of a number in the frame, which ends at FRAME_END."""
        return Place([], FRAME_END, 4 * (number - self.layout[2]))

    def target(self, e, facts):
        """What a pointer points to."""
        pointer, tested = self.node(e, facts), self.number(e) not in facts.sure

        def place(r):
            code, q = pointer.operand(r)
            return Place(code + ([branch(False, q, 0, 1), to_fault('null')] if tested else []), q, 0)
        return at(pointer.ty[1], place)

    def field(self, struct, name):
        found, before = self.sizes.field(struct.ty, name)
        return at(found, lambda r: struct.place(r).further(4 * before))

    def indexed(self, base, index):
        element, length = base.ty[1], base.ty[2]
        words = self.sizes.words(element)
        if index.literal is not None and index.literal < length:
            return at(element, lambda r: base.place(r).further(4 * words * index.literal))

        def place(r):
            before, (code, q) = base.place(r), index.operand(r + 1)
            bound = [sltiu(SCRATCH, q, length)] if length < 0x8000 else constant(SCRATCH, length) + [sltu(SCRATCH, q, SCRATCH)]
            tested = before.code + code + bound + [branch(False, SCRATCH, 0, 1), to_fault('bounds')]
            return Place(tested + scaled(words, q) + [addu(r, before.base, SCRATCH)], r, before.displacement)
        return at(element, place)

    def unary(self, op, inner):
        if op == '&':
            return Value(('ptr', inner.ty), lambda d, r: inner.place(r).access(addiu, d, r))
        if op == '-' and inner.literal is not None:
            return fixed(('int',), -inner.literal & M)
        if op == '-':
            return Value(('int',), of_one(inner, lambda d, q: [subu(d, 0, q)]))
        return Value(('bool',), of_one(inner, lambda d, q: [xori(d, q, 1)]))

    def binary(self, op, a, b):
        ty = ('int',) if op in '+-*/%' else ('bool',)
        if op in ('&&', '||'):
            return Value(ty, logic(op, a, b))
        if op in ('/', '%'):
            return Value(ty, of_two(a, b, division(op, bool(b.known))))
        for one, other in ((a, b), (b, a)) if op == '+' else ((a, b),):
            code = None if other.known is None else with_constant(op, other.known)
            if code:
                return Value(ty, of_one(one, code))
        return Value(ty, of_two(a, b, between(op)))

    # ---- tests: to a place that is so far behind their end, where they come out as s
    def test(self, e, s, far, facts, r=EXPRESSIONS):
        op, parts = e.parts[0] if e.kind in ('un', 'bin') else None, e.parts[1:]
        if op == '!':
            return self.test(parts[0], not s, far, facts, r)
        if op in ('&&', '||'):
            right = self.test(parts[1], s, far, self.beside(e, facts), r)
            decides = op == '||'
            return self.test(parts[0], decides, far + len(right) if decides == s else len(right), facts, r) + right
        if op in ('==', '!='):
            return of_two(self.node(parts[0], facts), self.node(parts[1], facts), lambda _, q, t: [branch(s == (op == '=='), q, t, far)])(r, r)
        if op in ('<', '<=', '>', '>='):
            return self.compared(op, self.node(parts[0], facts), self.node(parts[1], facts), s, far, r)
        return of_one(self.node(e, facts), lambda _, q: [branch(not s, q, 0, far)])(r, r)

    def compared(self, op, a, b, s, far, r):
        """A comparison as a test: of `<` and `>=`, and of `<=` and `>`, the second is the first for the other s."""
        below, straight = op in ('<', '>='), op in ('<', '<=')
        if b.known == 0:
            return of_one(a, lambda _, q: [by_sign(below, s == (op in ('<', '>')), q, far)])(r, r)
        k = None if b.known is None else b.known + (not below)
        if k is not None and near(k):
            return of_one(a, lambda _, q: [slti(SCRATCH, q, k), branch(s != straight, SCRATCH, 0, far)])(r, r)
        return of_two(a, b, lambda _, q, t: [slt(SCRATCH, q, t) if below else slt(SCRATCH, t, q), branch(s != (op in ('<', '>')), SCRATCH, 0, far)])(r, r)

    # ---- statements
    def block(self, statements, facts):
        return [word for s, known in self.each(statements, facts) for word in self.statement(s, known)]

    def stored(self, q, place, r):
        """The word of a register goes to a variable in a register, or to a place."""
        return [addu(place.stands, q, 0)] if place.place is None else place.place(r).access(store, q, r)

    def statement(self, s, facts):
        if s.kind == 'assign':
            place, value = self.node(s.parts[0], facts), self.node(s.parts[1], facts)
            if place.place is None:
                return value.value(place.stands, EXPRESSIONS)
            code, q = value.operand(EXPRESSIONS)
            return code + self.stored(q, place, EXPRESSIONS + 1)
        if s.kind == 'call':
            given = [word for i, a in enumerate(s.parts[2]) for word in self.node(a, facts.overwritten(i)).value(ARGUMENTS + i, EXPRESSIONS)]
            return given + [('call', s.parts[1][0])] + self.answer(s, facts)
        if s.kind == 'new':
            return constant(ANSWER, self.sizes.words(bare(s.parts[1]))) + [('call', None)] + self.answer(s, facts)
        test, yes, no = s.parts
        if s.kind == 'if':
            first, other = self.block(yes, self.told(test, True, facts)), self.block(no, self.told(test, False, facts))
            return self.test(test, False, len(first) + bool(no), facts) + first + ([skip(len(other))] + other if no else [])
        known = self.turning(s, facts)
        body = self.block(yes, self.told(test, True, known))
        return [skip(len(body))] + body + self.turn(test, len(body), known)

    def answer(self, s, facts):
        """The answer of a call, or of `new`, goes to its place."""
        return self.stored(ANSWER, self.node(s.parts[0], self.left(s, facts)), EXPRESSIONS)

    def turn(self, test, body, facts):
        """The test of a loop behind a body of so many words."""
        return self.test(test, True, -(max(body, 1) + len(self.test(test, True, 0, facts))), facts)

    def kinds(self, statements):
        """Which kinds of statements there are."""
        found = set()
        for s in statements:
            found.add(s.kind)
            if s.kind in ('if', 'while'):
                found |= self.kinds(s.parts[1]) | self.kinds(s.parts[2])
        return found

    # ---- functions
    def function(self, f):
        if f.asm is not None:
            return self.asm_head(f) + assemble(f.asm[0]) + [RETURNS]
        head, facts = self.enter(f), self.begins(f)
        return head + self.block(f.body, facts) + self.result(f, self.behind_all(f.body, facts)) + self.end()

    def result(self, f, facts):
        """The answer of a function goes to its register."""
        return self.node(f.result, facts).value(ANSWER, EXPRESSIONS)

    def asm_head(self, f):
        """The stack's test, and the arguments for a body of instructions."""
        self.layout = self.sizes.layout(f)
        given = [addu(4 + i, ARGUMENTS + i if i < len(f.params) else 0, 0) for i in range(4)]
        return self.tested(SCRATCH) + [addu(2, 0, 0), addu(3, 0, 0)] + given

    def enter(self, f):
        """Begins with a function that has a body of code: its head."""
        kinds = self.kinds(f.body)
        self.in_registers = 'call' not in kinds and all(is_scalar(ty) for ty, _ in f.names) and len(f.names) <= 8
        self.variables, self.layout = {}, self.sizes.layout(f)
        for number, (ty, name) in enumerate(f.names):
            self.variables.setdefault(name, (number, ty))
        self.is_calling = bool(kinds & {'call', 'new'})
        if self.in_registers:
            saved = [store(RETURN, FRAME_END, 0)] if self.is_calling else []
            return self.tested(SCRATCH) + saved + [addu(ARGUMENTS + n, 0, 0) for n in range(len(f.params), len(f.names)) if is_cleared(f, n)]
        saved = self.of_frame(0).access(store, RETURN, SCRATCH) if self.is_calling else []
        given = [word for i in range(len(f.params)) for word in self.of_frame(3 + i).access(store, ARGUMENTS + i, SCRATCH)]
        return self.tested(FRAME_END) + saved + given + self.zeros(f, len(f.params), self.layout[1])

    def zeros(self, f, first, count):
        """So many words of the frame become 0, from the word of a variable on; of few words those that are to be cleared."""
        if count <= CLEARED:
            return [word for n in range(first, first + count) if is_cleared(f, n) for word in self.of_frame(3 + n).access(store, 0, SCRATCH)]
        return self.of_frame(3 + first).access(addiu, ANSWER, ANSWER) + [store(0, ANSWER, 0), addiu(ANSWER, ANSWER, 4), branch(False, ANSWER, FRAME_END, -3)]

    def frame_end(self, d, words):
        return Place([], FRAME_END, 4 * words).access(addiu, d, d)

    def tested(self, d):
        """The test of the stack, by the frame's end in a register: a frame that has room in none has a jump to the fault before it."""
        large = [to_fault('stack')] if self.layout[2] > LARGEST else []
        return large + self.frame_end(d, self.layout[2]) + [sltu(SCRATCH, STACK_END, d), branch(True, SCRATCH, 0, 1), to_fault('stack')]

    def end(self):
        """What stands behind the answer of a function."""
        if self.in_registers:
            return ([load(RETURN, FRAME_END, 0)] if self.is_calling else []) + [RETURNS]
        back = self.of_frame(0).access(load, RETURN, SCRATCH) if self.is_calling else []
        return back + self.frame_end(FRAME_END, -self.layout[2]) + [RETURNS]

    # ---- the unit
    def entry(self, data):
        """The entry, for the address of the globals. It runs into the code behind it."""
        loaded = [load(FRAME_END, 0, STACK_FIRST), load(STACK_END, 0, STACK_LIMIT)]
        return [lui(GLOBALS, data >> 16), ori(GLOBALS, GLOBALS, data)] + loaded + [ori(RETURN, 0, LEAVE)]

    def in_order(self):
        """The functions as they stand behind the entry: in source order from the one that runs first on, and then those before it."""
        names, functions = [f.name for f in self.tree.functions], self.tree.functions
        first = names.index('main' if self.is_program else 'dispatch')
        return functions[first:] + functions[:first]

    def primitive_numbers(self):
        return {'trap': 0} if self.is_program else NUMBERS

    def count(self):
        """How many words there are."""
        return len(BEHIND) + len(self.entry(0)) + sum(len(self.function(f)) for f in self.tree.functions)

    def words(self):
        """All its words."""
        entered = {name: PRIMITIVES + 4 * number for name, number in self.primitive_numbers().items()}
        code, begin = [], START + 4 * len(self.entry(0))
        for f in self.in_order():
            entered.setdefault(f.name, begin + 4 * len(code))
            code += self.function(f)
        entered[None] = begin + 4 * len(code)
        whole = self.entry(4 * pages(START // 4 + self.count())) + code + BEHIND
        return [word if isinstance(word, int) else call(entered[word[1]]) for word in whole]


# ---- which locals are cleared
def is_cleared(f, number):
    """Whether a function begins with 0 in the word of a variable: where all locals are scalars, if it may be read before it is assigned."""
    if not all(is_scalar(ty) for ty, _ in f.names[len(f.params):]):
        return True
    name = f.names[number][1]
    return live_before(f.body, name, name in named(f.result))


def named(e):
    """The names of the variables in an expression."""
    return {e.parts[0]} if e.kind == 'var' else {name for part in inside(e) for name in named(part)}


def live_before(statements, name, live):
    """Whether a variable may be read in statements, or behind them if it is live there, before it is assigned."""
    for s in reversed(statements):
        live = live_in(s, name, live)
    return live


def live_in(s, name, live):
    if s.kind in ('assign', 'call', 'new'):
        place, read = s.parts[0], {'assign': s.parts[1:2], 'call': s.parts[2] if s.kind == 'call' else (), 'new': ()}[s.kind]
        kept = live and not (place.kind == 'var' and place.parts[0] == name)
        return kept or any(name in named(e) for e in read) or place.kind != 'var' and name in named(place)
    test, yes, no = s.parts
    behind = live or live_before(yes, name, False) if s.kind == 'while' else live_before(yes, name, live) or live_before(no, name, live)
    return name in named(test) or behind


# ---- the image of a program (docs/PROGRAMS.md)
ROOM = 1024         # the words of its heap, and of its stack
VARIABLES, LOOPS = 1026, 2064
ENDS = (2, 3, 4, 5, 1)      # the code of the trap that each exit gives: four faults, and the return of `main`


def image(text):
    """The words of a program's memory as it starts."""
    code = Code(text, True)
    made = code.words()
    heap = pages(pages(START // 4 + len(made)) + code.sizes.global_words)
    stack = pages(heap + ROOM)
    words = [0] * pages(stack + ROOM)
    parts = [(0, [jump(START)]), (VARIABLES, [0, ROOM, 4 * heap, 4 * stack, 4 * (stack + ROOM)]), (START // 4, made)]
    parts += [(PRIMITIVES // 4, [addu(4, ARGUMENTS, 0), addu(ANSWER, 0, 0), syscall(0), RETURNS])]
    parts += [(EXITS // 4 + n, [jump(4 * (LOOPS + 2 * n))]) for n in range(len(ENDS))]
    parts += [(LOOPS + 2 * n, [syscall(end), jump(4 * (LOOPS + 2 * n))]) for n, end in enumerate(ENDS)]
    for first, part in parts:
        words[first:first + len(part)] = part
    return words


def pages(words):
    """The first word of a page from a word on."""
    return (words + 1023) // 1024 * 1024


def syscall(code):
    return code << 6 | 12


def scaled(words, q):
    """4 times so many words for each of an index, into SCRATCH."""
    if words in [1 << n for n in range(11)]:
        return [three_registers(0, q, SCRATCH, words.bit_length() + 1, 0)]
    return constant(SCRATCH, 4 * words) + [mult(q, SCRATCH), mflo(SCRATCH)]


def call(address):
    return 3 << 26 | address >> 2


def main(names):
    for name in names:
        with open(name, encoding='latin-1') as file:
            made = Code(file.read()).words()
        print('%s: %d words' % (name, len(made)))
        for number, word in enumerate(made):
            print('%08x %08x' % (START + 4 * number, word))
    return 0

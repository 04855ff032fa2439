"""The checks of C0, written from docs/C0.md apart from the crates: which sources are typed, and which fault of the others comes first.

usage: oracle/model c0_checks FILE..    prints, for each case of the kinds `check`, `kernel`, `user` and `users` of the files, what c0_cases prints of it

A source is taken to have a tree: of one that has none `no tree` is printed. Asm texts are read by their form alone.
"""
import re

from oracle import cases
from oracle.c0.tokens import NoTree
from oracle.c0.tree import Node, Parser, bare, function_nodes, is_scalar

KERNEL = {'vm_get': (2, 'int'), 'vm_set': (3, 'bool'), 'vm_size': (1, 'int'), 'vm_resize': (2, 'bool'), 'vm_word': (2, 'int'), 'vm_put': (3, 'bool'),
          'vm_copy': (5, 'bool'), 'con_put': (1, 'bool'), 'con_get': (0, 'int'), 'con_left': (0, 'int')}
USER = {'trap': (1, 'int')}
FIRST = {'kernel': ('dispatch', 3, 31), 'user': ('main', 0, 36)}
MOST_WORDS = 1048576


PLACES = ('var', 'field', 'arrow', 'index')


def is_place(e):
    return e.kind in PLACES or (e.kind == 'un' and e.parts[0] == '*')


def need(e):
    if e.kind in ('num', 'true', 'false', 'null', 'var'):
        return 1
    if e.kind == 'index':
        return max(need(e.parts[0]), need(e.parts[1]) + 1)
    if e.kind == 'bin':
        a, b = need(e.parts[1]), need(e.parts[2])
        return max(a, b) if e.parts[0] in ('&&', '||') else max(a, b + 1)
    return need(e.parts[1] if e.kind == 'un' else e.parts[0])


REG = r'r[02-7]'
NUM = r'-?(0x[0-9a-fA-F]+|\d+)'
FORMS = [(r'(sll|srl|sra) +%s *, *%s *, *%s' % (REG, REG, NUM)), (r'(sllv|srlv|srav|addu|subu|and|or|xor|nor|slt|sltu) +%s *, *%s *, *%s' % (REG, REG, REG)),
         (r'(addiu|slti|sltiu|andi|ori|xori) +%s *, *%s *, *%s' % (REG, REG, NUM)), (r'lui +%s *, *%s' % (REG, NUM))]


def asm_lines(text):
    """How many instructions the allowed lines of a text hold, and its first line that isn't allowed."""
    count, bad = 0, None
    for number, line in enumerate(text.split('\n'), 1):
        line = line.split('#')[0].strip()
        if line and any(re.fullmatch(f, line) for f in FORMS):
            count += 1
        elif line and bad is None:
            bad = number
    return count, bad


class Check:
    """The faults of a unit, as a kernel or as a user program."""

    def __init__(self, unit, length, program):
        self.u, self.faults = unit, []
        self.primitives = KERNEL if program == 'kernel' else USER
        self.shapes = {}
        for (name, _), fields in reversed(unit.structs):
            self.shapes[name] = fields
        whole = (0, length)
        self.twice([], [n for n, _ in unit.structs])
        for (name, span), fields in unit.structs:
            self.fault(26, span, self.holds(name, name, set()))
            self.fault(34, span, self.words(('struct', name)) > MOST_WORDS)
            self.twice([], [x for _, _, x in fields])
            self.declared(fields)
        names = [x for _, _, x in unit.globals] + [(f.name, f.name_span) for f in unit.functions]
        self.twice(list(self.primitives), sorted(names, key=lambda x: x[1]))
        self.declared(unit.globals)
        total = sum(self.function(f) for f in unit.functions)
        self.fault(29, whole, total > 100000)
        self.fault(30, whole, sum(self.words(t) for t, _, _ in unit.globals) > 262144)
        first, params, number = FIRST[program]
        is_int = lambda t: t == ('int',)
        self.fault(number, whole, not any(
            f.name == first and len(f.params) == params and all(is_int(t) for t, _, _ in f.params) and is_int(f.answer) and f.asm is None
            for f in unit.functions))

    def fault(self, number, span, wrong=True, line=0):
        if wrong:
            self.faults.append((span[0], number, span[1], line))

    def least(self):
        return min(self.faults) if self.faults else None

    def twice(self, before, names):
        seen = set(before)
        for text, span in names:
            self.fault(21, span, text in seen)
            seen.add(text)

    # a struct holds another: a value of it has a value of the other in it
    def holds(self, name, other, seen):
        if name in seen:
            return False
        seen.add(name)
        for t, _, _ in self.shapes.get(name, []):
            while t[0] == 'array':
                t = t[1]
            if t[0] == 'struct' and (t[1] == other or self.holds(t[1], other, seen)):
                return True
        return False

    def words(self, t):
        if t[0] == 'array':
            return t[2] * self.words(t[1])
        if t[0] == 'struct':
            if t[1] not in self.shapes or self.holds(t[1], t[1], set()):
                return 0
            return sum(self.words(f) for f, _, _ in self.shapes[t[1]])
        return 1

    def type(self, t, span):
        s, empty = t, False
        while s[0] in ('ptr', 'array'):
            empty = empty or (s[0] == 'array' and s[2] == 0)
            s = s[1]
        if s[0] == 'struct':
            self.fault(20, s[2], s[1] not in self.shapes)
        self.fault(35, span, empty)
        self.fault(34, span, self.words(t) > MOST_WORDS)

    def declared(self, decls):
        for t, span, _ in decls:
            self.type(t, span)

    def function(self, f):
        passes = (lambda t: t == ('int',)) if f.asm is not None else is_scalar
        for t, span in [(f.answer, f.answer_span)] + [(t, s) for t, s, _ in f.params]:
            self.type(t, span)
            self.fault(22, span, not passes(t))
        self.declared(f.locals)
        self.variables = f.params + f.locals
        self.twice([], [x for _, _, x in self.variables])
        self.fault(33, f.name_span, len(f.params) > (4 if f.asm is not None else 8))
        count = function_nodes(f)
        if f.asm is not None:
            text, span = f.asm
            instructions, bad = asm_lines(text)
            self.fault(32, span, bad is not None, bad or 0)
            count += instructions
        else:
            self.statements(f.body)
            self.tested(bare(f.answer), f.result)
        self.fault(28, f.name_span, count > 2000)
        return count

    def variable(self, name):
        for local, decls in ((True, self.variables), (False, self.u.globals)):
            for t, _, x in decls:
                if x[0] == name:
                    return bare(t), local
        return None, False

    def callee(self, name):
        if name in self.primitives:
            n, answer = self.primitives[name]
            return [('int',)] * n, (answer,)
        for f in self.u.functions:
            if f.name == name:
                return [bare(t) for t, _, _ in f.params], bare(f.answer)
        return None

    def is_local(self, e):
        if e.kind == 'var':
            return self.variable(e.parts[0])[1]
        return e.kind in ('field', 'index') and self.is_local(e.parts[0])

    def member(self, t, name):
        for ft, _, x in self.shapes.get(t[1], []):
            if x[0] == name:
                return bare(ft)
        return None

    # the type of an expression, if it has one, and its faults
    def value(self, e):
        found = []

        def wrong(number, span):
            found.append((span[0], number, span[1], 0))

        def part(x):
            t, fs = self.value(x)
            found.extend(fs)
            return t

        if e.kind == 'bin':
            t = self.binary(e, found, wrong)
        elif e.kind == 'un':
            t = self.unary(e, part(e.parts[1]), wrong)
        elif e.kind in ('field', 'arrow', 'index'):
            t = self.within(e, [part(x) for x in e.parts if isinstance(x, Node)], wrong)
        elif e.kind == 'var':
            t = self.variable(e.parts[0])[0] or wrong(20, e.span)
        else:
            t = wrong(22, e.span) if e.kind == 'null' else ('int',) if e.kind == 'num' else ('bool',)
        return t, found

    def field_of(self, e, t, x, wrong):
        return (self.member(t, x[0]) or wrong(20, x[1])) if t[0] == 'struct' else wrong(22, e.span)

    def within(self, e, types, wrong):
        """The type of a field or an element, by the types of its parts."""
        t, inner = types[0], e.parts[0]
        if None in types:
            return None
        if e.kind == 'arrow':
            return self.field_of(e, t[1], e.parts[1], wrong) if t[0] == 'ptr' else wrong(22, e.span)
        if not is_place(inner):
            return wrong(24, inner.span)
        if e.kind == 'field':
            return self.field_of(e, t, e.parts[1], wrong)
        return t[1] if t[0] == 'array' and types[1] == ('int',) else wrong(22, e.span)

    def unary(self, e, t, wrong):
        """The type of an operator before an operand of this type."""
        o, x = e.parts
        if not t:
            return None
        if o == '*':
            return t[1] if t[0] == 'ptr' else wrong(22, e.span)
        if o == '&':
            return wrong(24, x.span) if not is_place(x) else wrong(25, x.span) if self.is_local(x) else ('ptr', t)
        return t if t == (('int',) if o == '-' else ('bool',)) else wrong(22, e.span)

    def binary(self, e, found, wrong):
        o, a, b = e.parts
        (ta, fa), (tb, fb) = self.value(a), self.value(b)
        if o in ('==', '!='):
            if a.kind == 'null' and tb and tb[0] == 'ptr':
                ta, fa = tb, []
            elif b.kind == 'null' and ta and ta[0] == 'ptr':
                tb, fb = ta, []
        found.extend(fa + fb)
        if not ta or not tb:
            return None
        if o in ('==', '!='):
            fine, t = is_scalar(ta) and ta == tb, ('bool',)
        elif o in ('&&', '||'):
            fine, t = ta == tb == ('bool',), ('bool',)
        else:
            fine, t = ta == tb == ('int',), ('int',) if o in ('+', '-', '*', '/', '%') else ('bool',)
        return t if fine else wrong(22, e.span)

    # an expression where a type may be asked
    def given(self, want, e):
        if e.kind == 'null' and want and want[0] == 'ptr':
            return
        t, fs = self.value(e)
        self.faults.extend(fs)
        self.fault(22, e.span, bool(want and t and want != t))

    def deep(self, span, registers):
        self.fault(27, span, registers > 12)

    def tested(self, want, e):
        self.given(want, e)
        self.deep(e.span, need(e))

    def left(self, p):
        t, fs = self.value(p)
        self.faults.extend(fs)
        if t and not is_place(p):
            return self.fault(24, p.span)
        if t and not is_scalar(t):
            return self.fault(22, p.span)
        return t

    def statements(self, stmts):
        for s in stmts:
            if s.kind in ('if', 'while'):
                self.tested(('bool',), s.parts[0])
                self.statements(s.parts[1])
                self.statements(s.parts[2])
                continue
            place = s.parts[0]
            want = self.left(place)
            if s.kind == 'assign':
                self.given(want, s.parts[1])
                self.deep(s.span, max(need(s.parts[1]), need(place) + 1))
            elif s.kind == 'new':
                t, span = s.parts[1:]
                self.type(t, span)
                self.fault(22, span, bool(want and want != ('ptr', bare(t))))
                self.deep(s.span, need(place) + 1)
            else:
                _, (name, at), args, span = s.parts
                c = self.callee(name)
                params = c[0] if c else []
                if c is None:
                    self.fault(20, at)
                else:
                    self.fault(23, span, len(params) != len(args))
                    self.fault(22, span, bool(want and want != c[1]))
                for i, e in enumerate(args):
                    self.given(params[i] if i < len(params) else None, e)
                self.deep(s.span, max([need(e) + 1 for e in args] + [1, need(place) + 1]))


def answer(src, program):
    """The row of a source: `typed`, or its first fault."""
    f = Check(Parser(src), len(src.encode('latin-1')), program).least()
    if f is None:
        return 'typed'
    return '%d at %d-%d' % (f[1], f[0], f[2]) + (', line %d' % f[3] if f[1] == 32 else '')


BEHIND = {'check': ('kernel', ''), 'kernel': ('kernel', ' int dispatch(int a, int b, int c) { return 0; }'), 'user': ('user', ''),
          'users': ('user', ' int main() { return 0; }')}


def main(files):
    for file in files:
        for head, source in cases.of_file(file):
            kind = head.partition(' ')[0]
            if kind not in BEHIND:
                continue
            program, behind = BEHIND[kind]
            try:
                print('== %s\n%s' % (head, answer(cases.unescaped(source) + behind, program)))
            except NoTree:
                print('== %s\nno tree' % head)
    return 0

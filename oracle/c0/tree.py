"""The tree of a C0 source with the places of its parts: docs/C0.md, "Grammar" and "Where a part stands".

A type is `('int',)`, `('bool',)`, `('struct', name, span of the name)`, `('ptr', type)` or `('array', type, length)`; `bare` leaves the span out.
"""
import re

from oracle.c0.tokens import NoTree, WORDS, tokens


class Node:
    """A part of the tree: its kind, its span, and what it is made of.

    Expressions: num n; true; false; null; var name; field e, (name, span); arrow e, (name, span); index e, i; un operator, e; bin operator, a, b.
    Statements: assign place, value; call place, (name, span), arguments, span of the call; new place, type, span of the type; if test, block, block;
    while test, block, [].
    """
    __slots__ = ('kind', 'span', 'parts')

    def __init__(self, kind, span, *parts):
        self.kind, self.span, self.parts = kind, span, parts


class Function:
    """A function: `params` and `locals` are declarations, `asm` is None or a text with its span, `body` and `result` are those of code."""

    def __init__(self, answer, answer_span, name):
        self.answer, self.answer_span, (self.name, self.name_span) = answer, answer_span, name
        self.params, self.locals, self.asm, self.body, self.result = [], [], None, [], None
        self.return_at = 0      # where the word `return` begins

    @property
    def names(self):
        """The bare type and the name of each parameter and local."""
        return [(bare(t), x[0]) for t, _, x in self.params + self.locals]


def bare(t):
    """A type without the places of its names."""
    return t[:2] if t[0] == 'struct' else (t[0], bare(t[1])) + t[2:] if t[0] in ('ptr', 'array') else t


def is_scalar(t):
    return t[0] in ('int', 'bool', 'ptr')


class Parser:
    """The unit of a source. `structs` has ((name, span), fields), `globals` and fields are declarations: (type, span, (name, span))."""

    def __init__(self, source):
        self.ts, self.i = tokens(source), 0
        self.structs, self.globals, self.functions = [], [], []
        while self.i < len(self.ts):
            if self.peek() == 'struct' and self.peek(2) == '{':
                self.struct()
            else:
                d = self.decl()
                if self.peek() == ';':
                    self.next()
                    self.globals.append(d)
                else:
                    self.functions.append(self.function(d))

    def struct(self):
        self.next()
        name = self.name()
        self.eat('{')
        fields = [self.field()]
        while self.peek() != '}':
            fields.append(self.field())
        self.eat('}')
        self.eat(';')
        self.structs.append((name, fields))

    def function_named(self, name):
        """The first function of a name; None where there is none."""
        return next((f for f in self.functions if f.name == name), None)

    def peek(self, k=0):
        return self.ts[self.i + k][0] if self.i + k < len(self.ts) else None

    def bad(self):
        return NoTree(self.ts[min(self.i, len(self.ts)) - 1].start if self.ts else 0)

    def next(self):
        if self.i >= len(self.ts):
            raise self.bad()
        self.i += 1
        return self.ts[self.i - 1][0]

    def eat(self, t):
        if self.next() != t:
            raise self.bad()

    def start(self):
        return self.ts[self.i][1] if self.i < len(self.ts) else 0

    def end(self):
        return self.ts[self.i - 1][2]

    def name(self):
        at = self.start()
        t = self.next()
        if not re.match(r'[A-Za-z_]', t) or t in WORDS:
            raise self.bad()
        return t, (at, self.end())

    def type(self):
        at = self.start()
        t = self.next()
        if t == 'struct':
            x = self.name()
            t = ('struct', x[0], x[1])
        elif t in ('int', 'bool'):
            t = (t,)
        else:
            raise self.bad()
        while self.peek() in ('*', '['):
            if self.next() == '*':
                t = ('ptr', t)
            else:
                n = self.next()
                if not n.isdigit():
                    raise self.bad()
                t = ('array', t, int(n))
                self.eat(']')
        return t, (at, self.end())

    def decl(self):
        return self.type() + (self.name(),)

    def field(self):
        d = self.decl()
        self.eat(';')
        return d

    def function(self, d):
        f = Function(*d)
        self.eat('(')
        if self.peek() != ')':
            f.params.append(self.decl())
            while self.peek() == ',':
                self.next()
                f.params.append(self.decl())
        self.eat(')')
        if self.peek() == 'asm':
            self.next()
            at = self.start()
            f.asm = (self.next()[1:], (at, self.end()))
            return f
        self.eat('{')
        while self.peek() in ('int', 'bool', 'struct'):
            f.locals.append(self.field())
        while self.peek() != 'return':
            f.body.append(self.statement())
        f.return_at = self.start()
        self.eat('return')
        f.result = self.expr()[0]
        self.eat(';')
        self.eat('}')
        return f

    def block(self):
        self.eat('{')
        out = []
        while self.peek() != '}':
            out.append(self.statement())
        self.eat('}')
        return out

    def statement(self):
        at = self.start()
        if self.peek() in ('if', 'while'):
            return self.branching(at)
        place = self.unary()[0]
        self.eat('=')
        if self.peek() == 'new':
            self.next()
            t, span = self.type()
            self.eat(';')
            return Node('new', (at, self.end()), place, t, span)
        if re.match(r'[A-Za-z_]', self.peek() or '') and self.peek() not in WORDS and self.peek(1) == '(':
            return self.call(at, place)
        value = self.expr()[0]
        self.eat(';')
        return Node('assign', (at, self.end()), place, value)

    def branching(self, at):
        k = self.next()
        self.eat('(')
        test = self.expr()[0]
        self.eat(')')
        yes, no = self.block(), []
        if k == 'if' and self.peek() == 'else':
            self.next()
            no = self.block()
        return Node(k, (at, self.end()), test, yes, no)

    def call(self, at, place):
        call = self.start()
        name = self.name()
        self.eat('(')
        args = []
        if self.peek() != ')':
            args.append(self.expr()[0])
            while self.peek() == ',':
                self.next()
                args.append(self.expr()[0])
        self.eat(')')
        span = (call, self.end())
        self.eat(';')
        return Node('call', (at, self.end()), place, name, args, span)

    # each of these gives an expression and the bytes from its first token to its last one, parentheses around it with them
    def chain(self, ops, part, once=False):
        e, at, end = part()
        while self.peek() in ops:
            o = self.next()
            r, _, end = part()
            e = Node('bin', (at, end), o, e, r)
            if once:
                break
        return e, at, end

    def expr(self):
        return self.chain(('||',), self.both)

    def both(self):
        return self.chain(('&&',), self.equal)

    def equal(self):
        return self.chain(('==', '!='), self.less, True)

    def less(self):
        return self.chain(('<', '<=', '>', '>='), self.sum, True)

    def sum(self):
        return self.chain(('+', '-'), self.product)

    def product(self):
        return self.chain(('*', '/', '%'), self.unary)

    def unary(self):
        if self.peek() in ('-', '!', '*', '&'):
            at = self.start()
            o = self.next()
            e, _, end = self.unary()
            return Node('un', (at, end), o, e), at, end
        return self.postfix()

    def postfix(self):
        e, at, end = self.primary()
        while self.peek() in ('.', '->', '['):
            o = self.next()
            if o == '[':
                i = self.expr()[0]
                self.eat(']')
                e = Node('index', (at, self.end()), e, i)
            else:
                x = self.name()
                e = Node('field' if o == '.' else 'arrow', (at, self.end()), e, x)
            end = self.end()
        return e, at, end

    def primary(self):
        at = self.start()
        if self.peek() == '(':
            self.next()
            e = self.expr()[0]
            self.eat(')')
            return e, at, self.end()
        t = self.peek()
        if t is None:
            raise self.bad()
        if t.isdigit():
            self.next()
            return Node('num', (at, self.end()), int(t)), at, self.end()
        if t in ('true', 'false', 'null'):
            self.next()
            return Node(t, (at, self.end())), at, self.end()
        x = self.name()
        return Node('var', x[1], x[0]), at, self.end()


def expression_nodes(e):
    """The nodes of an expression, as docs/C0.md counts them."""
    return 1 + sum(expression_nodes(p) for p in e.parts if isinstance(p, Node))


def statement_nodes(s):
    """The nodes of a statement and of those in its blocks."""
    if s.kind in ('if', 'while'):
        return 1 + expression_nodes(s.parts[0]) + sum(map(statement_nodes, s.parts[1] + s.parts[2]))
    more = expression_nodes(s.parts[1]) if s.kind == 'assign' else sum(map(expression_nodes, s.parts[2])) if s.kind == 'call' else 0
    return 1 + expression_nodes(s.parts[0]) + more


def function_nodes(f):
    """The nodes of a function with its head."""
    inside = 0 if f.asm is not None else sum(map(statement_nodes, f.body)) + expression_nodes(f.result)
    return 1 + len(f.params) + len(f.locals) + inside


def unit_nodes(unit):
    """The nodes of a unit."""
    return sum(map(function_nodes, unit.functions))

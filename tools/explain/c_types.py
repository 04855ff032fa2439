"""The names and types of a source of C0, as far as they can be read: for the sentences on wrong types and on names that nothing has.

It reads sources with faults, so nothing here is asked to hold: what can't be read has no type. Types are texts: `int`, `struct s*`, `int*[4]`.
"""
import re

from explain import places
from explain.c_tokens import tokens

PRIMITIVES = {
    'vm_get': ('int', ['int', 'int']), 'vm_set': ('bool', ['int', 'int', 'int']), 'vm_size': ('int', ['int']), 'vm_resize': ('bool', ['int', 'int']),
    'vm_word': ('int', ['int', 'int']), 'vm_put': ('bool', ['int', 'int', 'int']), 'vm_copy': ('bool', ['int', 'int', 'int', 'int', 'int']),
    'con_put': ('bool', ['int']), 'con_get': ('int', []), 'con_left': ('int', []),
}
OF_PROGRAMS = {'trap': ('int', ['int'])}
LEVELS = [('||',), ('&&',), ('==', '!='), ('<', '<=', '>', '>='), ('+', '-'), ('*', '/', '%')]


def element(kind):
    """The type of an element of an array type; None where it is none."""
    match = re.fullmatch(r'(.*)\[\d+\]', kind or '')
    return match and match.group(1)


def target(kind):
    """What a pointer type points to; None where it is none."""
    return kind[:-1] if kind and kind.endswith('*') else None


def is_scalar(kind):
    return kind in ('int', 'bool') or bool(target(kind))


def named(kind):
    """A type with its article."""
    return ('an ' if kind[0] in 'aeiou' else 'a ') + kind


class Function:
    """A function: its result, its parameters, its locals, where it begins and ends, and the first byte of its head."""

    def __init__(self, name, result, parameters, head):
        self.name, self.result, self.parameters, self.head = name, result, parameters, head
        self.locals, self.first, self.last = {}, head, head


class Source:
    """What a source declares."""

    def __init__(self, data, is_program=False):
        self.data, self.tokens = data, tokens(data)
        self.structs, self.globals, self.functions = {}, {}, {}
        self.calls = dict(OF_PROGRAMS if is_program else PRIMITIVES)
        at = 0
        while at < len(self.tokens):
            at = max(self.declaration(at), at + 1)
        self.calls.update({name: (function.result, [kind for kind, _ in function.parameters]) for name, function in self.functions.items() if name not in self.calls})

    def text(self, at):
        return self.tokens[at][1] if at < len(self.tokens) else ''

    def type_at(self, at):
        """A type that begins with a token, and the token behind it; None and the token itself where there is none."""
        first, words = self.text(at), 1
        if first == 'struct':
            first, words = 'struct ' + self.text(at + 1), 2
        elif first not in ('int', 'bool'):
            return None, at
        at += words
        while self.text(at) == '*' or self.text(at) == '[' and self.text(at + 2) == ']':
            first += '*' if self.text(at) == '*' else '[%s]' % self.text(at + 1)
            at += 1 if self.text(at) == '*' else 3
        return first, at

    def variables(self, at):
        """Declarations `type NAME ;` from a token on, by their names, and the token behind them."""
        found = {}
        while True:
            kind, behind = self.type_at(at)
            if not kind or self.text(behind + 1) != ';':
                return found, at
            found.setdefault(self.text(behind), kind)
            at = behind + 2

    def closed(self, at):
        """The token behind the bracket that closes the one at a token."""
        depth = 0
        while at < len(self.tokens):
            depth += (self.text(at) in '({[' and self.text(at) != '') - (self.text(at) in ')}]' and self.text(at) != '')
            at += 1
            if depth <= 0:
                break
        return at

    def declaration(self, at):
        """Reads what is declared at a token, and gives the token behind it."""
        if self.text(at) == 'struct' and self.text(at + 2) == '{':
            self.structs.setdefault(self.text(at + 1), self.variables(at + 3)[0])
            return self.closed(at + 2)
        kind, behind = self.type_at(at)
        if kind and self.text(behind + 1) == '(':
            return self.function(kind, at, behind)
        if kind and self.text(behind + 1) == ';':
            self.globals.setdefault(self.text(behind), kind)
        return behind + 1 if kind else at + 1

    def function(self, result, head, name):
        parameters, at = [], name + 2
        while at < len(self.tokens) and self.text(at) != ')':
            kind, behind = self.type_at(at)
            parameters.append((kind, self.text(behind) if kind else self.text(at)))
            at = behind + 1
            at += self.text(at) == ','
        made = Function(self.text(name), result, parameters, self.tokens[head][0])
        self.functions.setdefault(made.name, made)
        body = at + 2 if self.text(at + 1) == 'asm' else at + 1
        if self.text(body) != '{':
            return at
        made.locals = {name: kind for kind, name in parameters if kind}
        made.locals.update(self.variables(body + 1)[0])
        behind = self.closed(body)
        made.first, made.last = self.tokens[body][0], self.tokens[behind - 1][0]
        return behind

    def around(self, place):
        """The function whose body has a place; None where none has."""
        return next((function for function in self.functions.values() if function.first < place <= function.last), None)

    def names(self, place):
        """The variables that can be named at a place, with their types."""
        function = self.around(place)
        return {**self.globals, **(function.locals if function else {})}

    def expression(self, start, end):
        """The expression between two places, as a node; None where it can't be read."""
        part = [(place, text) for place, text in self.tokens if start <= place < end]
        reader = Reader(self, part, self.names(start))
        node = reader.binary(0)
        return node if node and reader.at == len(part) else None

    def type_of(self, start, end):
        node = self.expression(start, end)
        return node and node.kind


class Node:
    """A part of an expression: what it is made by, its parts, its type where it has one, and its text."""

    def __init__(self, how, parts, kind, text):
        self.how, self.parts, self.kind, self.text = how, parts, kind, text


class Reader:
    """Reads an expression from tokens."""

    def __init__(self, source, part, variables):
        self.source, self.part, self.variables, self.at = source, part, variables, 0

    def here(self):
        return self.part[self.at][1] if self.at < len(self.part) else ''

    def since(self, first):
        """The text from a token to the one before this."""
        if first >= len(self.part):
            return ''
        start, last = self.part[first][0], self.part[min(self.at, len(self.part)) - 1]
        return places.readable(self.source.data[start:last[0] + len(last[1].encode())])

    def binary(self, level):
        if level == len(LEVELS):
            return self.unary()
        first, left = self.at, self.binary(level + 1)
        while left and self.here() in LEVELS[level]:
            how = self.here()
            self.at += 1
            right = self.binary(level + 1)
            if not right:
                return None
            left = Node(how, [left, right], result_of(how, left.kind, right.kind), self.since(first))
        return left

    def unary(self):
        first, how = self.at, self.here()
        if how not in ('-', '!', '*', '&') or how == '':
            return self.postfix()
        self.at += 1
        part = self.unary()
        if not part:
            return None
        kind = {'-': 'int' if part.kind == 'int' else None, '!': 'bool' if part.kind == 'bool' else None,
                '*': target(part.kind), '&': part.kind + '*' if part.kind else None}[how]
        return Node('unary ' + how, [part], kind, self.since(first))

    def postfix(self):
        first, node = self.at, self.primary()
        while node and self.here() in ('.', '->', '['):
            how = self.here()
            self.at += 1
            if how == '[':
                index = self.binary(0)
                if not index or self.here() != ']':
                    return None
                kind = element(node.kind) if index.kind == 'int' else None
                parts = [node, index]
            else:
                struct = node.kind if how == '.' else target(node.kind)
                fields = self.source.structs.get((struct or '').partition('struct ')[2], {})
                kind, parts = fields.get(self.here()), [node, Node('field', [], None, self.here())]
            self.at += 1
            node = Node(how, parts, kind, self.since(first))
        return node

    def primary(self):
        first, text = self.at, self.here()
        self.at += 1
        if text == '(':
            node = self.binary(0)
            if not node or self.here() != ')':
                return None
            self.at += 1
            return Node('brackets', [node], node.kind, self.since(first))
        if text.isdigit():
            return Node('number', [], 'int', text)
        if text in ('true', 'false'):
            return Node('truth', [], 'bool', text)
        if text == 'null':
            return Node('null', [], 'null', text)
        return Node('name', [], self.variables.get(text), text) if re.fullmatch(r'[A-Za-z_]\w*', text) else None


def result_of(how, left, right):
    """The type of two operands put together; None where they don't fit."""
    if how in ('+', '-', '*', '/', '%'):
        return 'int' if left == right == 'int' else None
    if how in ('<', '<=', '>', '>='):
        return 'bool' if left == right == 'int' else None
    if how in ('&&', '||'):
        return 'bool' if left == right == 'bool' else None
    same = left == right and is_scalar(left) or left == 'null' and target(right) or right == 'null' and target(left)
    return 'bool' if same else None

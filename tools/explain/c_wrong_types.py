"""What a wrong type in a source of C0 comes from (22): both types by name, and what to write instead."""
from explain import places
from explain.c_types import Source, element, is_scalar, named, target

COMPARING = ('==', '!=', '<', '<=', '>', '>=')
LOGICAL = ('&&', '||')


def text_of(data, start, end):
    return places.readable(data[start:end]).strip()


def is_tight(node):
    """Whether a node stands beside a comparison without brackets."""
    return node.how not in COMPARING + LOGICAL and node.how != 'unary !'


def as_bool(node):
    """What to write where a bool is asked, of an int or a pointer."""
    if node.how == 'number':
        return 'false' if node.text == '0' else 'true'
    if node.how == 'brackets' and node.parts[0].kind == node.kind:
        node = node.parts[0]
    return '%s != %s' % (node.text, 'null' if target(node.kind) else '0')


def as_condition(node):
    """A condition of which each part that is an int or a pointer is compared; None where some part has no type."""
    if node.how in LOGICAL:
        parts = [as_condition(part) for part in node.parts]
        return None if None in parts else (' %s ' % node.how).join(parts)
    if node.how == 'unary !':
        part = node.parts[0]
        if part.kind == 'int' or target(part.kind):
            inner = part.parts[0] if part.how == 'brackets' else part
            return '%s == %s' % (inner.text, 'null' if target(part.kind) else '0')
        if part.how == 'brackets' and part.kind is None:
            inner = as_condition(part.parts[0])
            return inner and '!(%s)' % inner
        return node.text if part.kind == 'bool' else None
    if node.how == 'brackets' and node.kind is None:
        inner = as_condition(node.parts[0])
        return inner and '(%s)' % inner
    if node.kind == 'bool':
        return node.text
    return as_bool(node) if node.kind == 'int' or target(node.kind) else None


def of_access(node):
    """A wrong '.', '->' or index."""
    whole = node.parts[0]
    kind, what = whole.kind, '%s is %s' % (whole.text, named(whole.kind)) if whole.kind else ''
    if not kind:
        return None
    if node.how == '.' and (target(kind) or '').startswith('struct '):
        return "%s, a pointer: write '%s->%s'" % (what, whole.text, node.parts[1].text)
    if node.how == '->' and kind.startswith('struct ') and not target(kind) and not element(kind):
        return "%s and no pointer: write '%s.%s'" % (what, whole.text, node.parts[1].text)
    if node.how == '[':
        if node.parts[1].kind not in ('int', None):
            return "an index is an int, and '%s' %s" % (node.parts[1].text, named(node.parts[1].kind))
        if target(kind):
            inner = element(target(kind))
            return "%s: %s" % (what, "write '(*%s)[%s]'" % (whole.text, node.parts[1].text) if inner else "a pointer has no elements, '*%s' is what it points to" % whole.text)
        if not element(kind) and whole.how == '[':
            return "%s and no array: '%s' has one index; an array of arrays is declared as 'int[4][3]'" % (what, whole.parts[0].text)
        return None if element(kind) else "%s and no array, so it has no index" % what
    return "%s, and has no fields" % what if not kind.startswith('struct ') else None


def of_operator(node):
    """A wrong operand of an operator."""
    if node.how in ('.', '->', '['):
        return of_access(node)
    if any(part.kind is None for part in node.parts) and node.how not in LOGICAL:
        return None
    if node.how in LOGICAL or node.how == 'unary !':
        better = as_condition(node)
        what = ' and '.join("'%s' is %s" % (part.text, named(part.kind)) for part in node.parts if part.kind and part.kind != 'bool')
        return better and what and "'%s' takes bools, and %s: write '%s'" % (node.how.replace('unary ', ''), what, better)
    if node.how == 'unary *':
        return "'%s' is %s and no pointer, so there is nothing that it points to" % (node.parts[0].text, named(node.parts[0].kind))
    if node.how == 'unary -':
        return "'-' takes an int, and '%s' is %s" % (node.parts[0].text, named(node.parts[0].kind))
    if node.how == 'null':
        return "no type of pointer is asked of 'null' here"
    return of_two(node) if len(node.parts) == 2 else None


def of_two(node):
    left, right = node.parts
    kinds = (left.kind, right.kind)
    if node.how in ('==', '!='):
        pointer = next((part for part in node.parts if target(part.kind)), None)
        zero = next((part for part in node.parts if part.text == '0'), None)
        if pointer and zero:
            return "the pointer to nothing is 'null': write '%s %s null'" % (pointer.text, node.how)
        flag = next((part for part in node.parts if part.kind == 'bool'), None)
        number = next((part for part in node.parts if part.how == 'number'), None)
        if flag and number:
            is_it = (number.text != '0') == (node.how == '==')
            return "'%s' is a bool: write '%s%s'" % (flag.text, '' if is_it else '!', flag.text if is_tight(flag) or is_it else '(%s)' % flag.text)
        if kinds[0] == kinds[1] and not is_scalar(kinds[0]):
            return "only scalars are compared, and '%s' is %s: compare element by element" % (left.text, named(left.kind))
    if 'null' in kinds:
        return "'null' is a pointer, and '%s' is none" % next((part.text for part in node.parts if part.kind != 'null'), 'null')
    if node.how in ('==', '!='):
        return "'%s' compares two of one type, and '%s' is %s, '%s' %s" % (node.how, left.text, named(kinds[0]), right.text, named(kinds[1]))
    wrong = next(part for part in node.parts if part.kind != 'int')
    help_of = "; a pointer moves by no number: use an index into an array" if target(wrong.kind) else "; 'if (%s) { n = 1; } else { n = 0; }' makes an int of it" % wrong.text if wrong.kind == 'bool' else ''
    return "'%s' takes ints, and '%s' is %s%s" % (node.how, wrong.text, named(wrong.kind), help_of)


class Place:
    """What stands before a span in its statement."""

    def __init__(self, source, data, start):
        self.source, self.data, self.start = source, data, start
        self.before = [(place, text) for place, text in source.tokens if place < start]
        first = next((at for at in range(len(self.before) - 1, -1, -1) if self.before[at][1] in (';', '{', '}')), -1)
        self.part = self.before[first + 1:]
        self.words = [text for _, text in self.part]

    def left(self):
        """The text and the type of what is assigned to."""
        if '=' not in self.words:
            return None, None
        place = self.part[self.words.index('=')][0]
        return text_of(self.data, self.part[0][0], place), self.source.type_of(self.part[0][0], place)

    def call(self):
        """The function that is called around the span, and the number of the argument from 0."""
        depth, count = 0, 0
        for at in range(len(self.words) - 1, 0, -1):
            depth += (self.words[at] in (')', ']')) - (self.words[at] in ('(', '['))
            count += self.words[at] == ',' and depth == 0
            if depth < 0:
                return (self.words[at - 1], count) if self.words[at - 1] in self.source.calls else (None, 0)
        return None, 0


def of_assignment(place, node, text):
    """A right side of another type than the left one."""
    left, kind = place.left()
    if not left or not kind:
        return None
    if node.kind == kind and not is_scalar(kind):
        return None
    both = "%s is %s, and '%s' is %s" % (left, named(kind), text, named(node.kind) if node.kind != 'null' else 'a pointer')
    if kind == 'bool' and (node.kind == 'int' or target(node.kind)):
        return "%s: write '%s = %s;'" % (both, left, as_bool(node))
    if kind == 'int' and node.how == 'truth':
        return "%s: write '%s = %d;', or declare 'bool %s;'" % (both, left, node.text == 'true', left)
    if kind == 'int' and node.kind == 'bool':
        return "%s: write 'if (%s) { %s = 1; } else { %s = 0; }', or declare 'bool %s;'" % (both, text, left, left, left)
    if target(kind) and text == '0':
        return "%s: the pointer to nothing is 'null', '%s = null;'" % (both, left)
    if target(kind) == node.kind and node.how == 'unary *':
        return "%s: the pointer itself is '%s'" % (both, node.parts[0].text)
    if target(kind) == node.kind:
        return "%s: a pointer to it is '&%s'" % (both, text)
    if target(node.kind) == kind:
        return "%s: what it points to is '*%s'" % (both, text)
    return both


def of_argument(place, node, text):
    name, number = place.call()
    if not name:
        return None
    kinds = place.source.calls[name][1]
    if number >= len(kinds) or not kinds[number]:
        return None
    kind = kinds[number]
    function = place.source.functions.get(name)
    called = ", '%s'," % function.parameters[number][1] if function and number < len(function.parameters) else ''
    more = ": write '%s'" % as_bool(node) if kind == 'bool' and node.how == 'number' else ": write '%d'" % (node.text == 'true') if kind == 'int' and node.how == 'truth' else ''
    return "argument %d of '%s'%s is %s, and '%s' is %s%s" % (number + 1, name, called, named(kind), text, named(node.kind) if node.kind != 'null' else 'a pointer', more)


def of_call(source, place, data, start, end):
    """A call whose result has another type than the left side."""
    name = text_of(data, start, end).partition('(')[0].strip()
    left, kind = place.left()
    if name not in source.calls or not left or not kind:
        return None
    result = source.calls[name][0]
    return "'%s' gives %s, and %s is %s: declare '%s ok;', and write 'ok = %s(..);'" % (name, named(result), left, named(kind), result, name) if result == 'bool' else \
        "'%s' gives %s, and %s is %s: take the answer with a variable of that type" % (name, named(result), left, named(kind))


def sentence(data, start, end, is_program=False):
    """The sentence on a wrong type; None where its parts can't be read."""
    source = Source(data, is_program)
    place, text = Place(source, data, start), text_of(data, start, end)
    if not source.around(start):
        return of_head(text)
    if place.words[-1:] == ['new']:
        left, kind = place.left()
        return kind and "%s is %s, and 'new %s' gives %s" % (left, named(kind), text, named(text + '*')) + (": write 'new %s'" % target(kind) if target(kind) else '')
    behind = next((word for where, word in source.tokens if where >= end), '')
    if not place.words and behind == '=':
        kind = source.type_of(start, end)
        place_node = source.expression(start, end)
        if not kind and place_node is not None:
            return of_operator(place_node)
        return kind and "%s is %s, and only an int, a bool or a pointer is assigned: assign each %s" % (text, named(kind), 'element' if element(kind) else 'field')
    node = source.expression(start, end)
    if node is None:
        return of_call(source, place, data, start, end)
    if node.how == 'null' and place.words[-1:] and place.words[-1] in ('==', '!='):
        return of_null(source, place)
    if node.kind is None or node.how == 'null' and place.words[-1:] != ['='] and not place.call()[0]:
        return of_operator(node)
    return of_place(source, place, node, text)


def of_null(source, place):
    """What 'null' is compared with."""
    end, how = place.part[-1]
    for first, _ in place.part[:-1]:
        node = source.expression(first, end)
        if node and node.kind and node.how not in LOGICAL + COMPARING:
            better = {'int': "write '%s %s 0'" % (node.text, how), 'bool': "write '%s%s'" % ('!' if how == '==' else '', node.text)}.get(node.kind, 'only a pointer is compared with it')
            return "'%s' is %s, and 'null' is a pointer: %s" % (node.text, named(node.kind), better)
    return None


def of_place(source, place, node, text):
    """An expression that has a type, and stands where another one is asked."""
    if place.words[:1] in (['if'], ['while']):
        return "a condition is a bool, and '%s' is %s: write '%s'" % (text, named(node.kind), as_bool(node)) if node.kind != 'null' else None
    if place.words[:1] == ['return']:
        function = source.around(place.start)
        result = function.result
        more = ": write 'return %s;'" % as_bool(node) if result == 'bool' and node.kind == 'int' else \
            ": write 'return %d;', or 'bool %s(..)'" % (node.text == 'true', function.name) if result == 'int' and node.how == 'truth' else ''
        return "'%s' gives %s, and '%s' is %s%s" % (function.name, named(result), text, named(node.kind) if node.kind != 'null' else 'a pointer', more)
    return of_argument(place, node, text) or of_assignment(place, node, text)


def of_head(text):
    """A parameter or a result of a type that is none of a scalar."""
    if is_scalar(text):
        return "a function of instructions takes ints alone and gives one, and '%s' is none" % text
    return "a function takes and gives ints, bools and pointers, and '%s' is none of these: '%s*' is a pointer to one" % (text, text)

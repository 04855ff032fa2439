"""What is said of a name that stands twice, of a call with another number of arguments, of what is no place, and of structs and globals that are too large."""
import re

from explain import places
from explain.c_types import PRIMITIVES, Source, element

# The parameters of what a kernel and a user program call, in words.
PARAMETERS = {
    'vm_get': 'user, register', 'vm_set': 'user, register, word', 'vm_size': 'user', 'vm_resize': 'user, pages', 'vm_word': 'user, address',
    'vm_put': 'user, address, word', 'vm_copy': 'from user, from address, to user, to address, words', 'con_put': 'word', 'con_get': '', 'con_left': '', 'trap': 'word',
}


def twice(data, start, end, is_program):
    """Where a name was set before (21)."""
    name = places.readable(data[start:end])
    own = ('trap',) if is_program else PRIMITIVES
    if name in own:
        return "'%s' is what a %s calls: take another name" % (name, 'user program' if is_program else 'kernel')
    source, first = Source(data, is_program), 0
    function = next((function for function in source.functions.values() if function.head <= start <= function.last), None)
    is_head = data[end:].lstrip().startswith(b'(')
    if function and not is_head:
        first = function.head
    structs = [place for place, text in source.tokens if text == 'struct' and place < start and re.match(rb'struct\s+\w+\s*\{', data[place:])]
    if structs and not function and b'}' not in data[structs[-1]:start]:
        first = structs[-1]
    for place, text in source.tokens:
        if text == name and first <= place < start and is_of_space(data, place, first) and re.search(rb'[\w*\]]\s+$', data[:place]) and not re.search(rb'\b(?:return|new)\s+$', data[:place]):
            return "'%s' is set in line %d, too: take another name for one of them, or remove one" % (name, places.line_at(data, place)[0])
    return None


def is_of_space(data, place, first):
    """Whether a place stands outside of all braces, or a part that has a space of names of its own is looked at."""
    return first > 0 or data[:place].count(b'{') == data[:place].count(b'}') and data[:place].count(b'(') == data[:place].count(b')')


def arguments(source, start, end):
    """How many arguments a call between two places has."""
    inside = [text for place, text in source.tokens if start <= place < end]
    inside = inside[inside.index('(') + 1:-1] if '(' in inside else []
    depth = commas = 0
    for text in inside:
        depth += (text in ('(', '[')) - (text in (')', ']'))
        commas += text == ',' and depth == 0
    return commas + 1 if inside else 0


def count(data, start, end, is_program):
    """How many arguments a call has, and which it is to have (23)."""
    source = Source(data, is_program)
    name = places.readable(data[start:end]).partition('(')[0].strip()
    function = source.functions.get(name)
    if name not in source.calls:
        return None
    wanted = len(source.calls[name][1])
    of = ', '.join('%s %s' % pair for pair in function.parameters) if function else PARAMETERS.get(name, '')
    given = arguments(source, start, end)
    return "'%s(%s)' takes %s, and %s here" % (name, of, number_of(wanted), 'none stands' if not given else '1 stands' if given == 1 else '%d stand' % given)


def number_of(count):
    return 'no argument' if not count else '1 argument' if count == 1 else '%d arguments' % count


def no_place(data, start, end):
    """What stands where a place is to be (24)."""
    text = places.readable(data[start:end])
    return "'%s' is a value and no place: a variable, a field or an element stands there" % text


def itself(data, start, end):
    """Which field makes a struct hold itself (26)."""
    source, name = Source(data), places.readable(data[start:end])
    for field, kind in source.structs.get(name, {}).items():
        inner = kind
        while element(inner):
            inner = element(inner)
        if inner == 'struct ' + name:
            return "the field '%s' would be another '%s' within it, and so on: a pointer is '%s* %s;'" % (field, inner, kind, field)
    return None


def words_of(source, kind):
    """The words of a type."""
    inner = element(kind)
    if inner is not None:
        return int(re.search(r'\[(\d+)\]$', kind).group(1)) * words_of(source, inner)
    if kind.startswith('struct ') and not kind.endswith('*'):
        return sum(words_of(source, field) for field in source.structs.get(kind[len('struct '):], {}).values())
    return 1


def largest(data, is_program):
    """The largest global, where there are too many words of them (30, 37): where its name stands, and a sentence; None where there is none."""
    source = Source(data, is_program)
    try:
        sizes = {name: words_of(source, kind) for name, kind in source.globals.items()}
    except RecursionError:
        return None
    if not sizes:
        return None
    name = max(sizes, key=sizes.get)
    place = next((place for number, (place, text) in enumerate(source.tokens) if text == name and source.text(number + 1) == ';' and is_of_space(data, place, 0)), 0)
    return place, place + len(name), "the globals have %s words, and '%s %s;' has %s of them" % (format(sum(sizes.values()), ','), source.globals[name], name, format(sizes[name], ','))

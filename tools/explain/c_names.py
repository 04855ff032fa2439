"""The name that may have been meant where nothing has a name (20)."""
import difflib
import re

from explain import places
from explain.c_types import Source, target


def known(source, data, start, end):
    """The names that the place of a name can have: functions before '(', structs behind 'struct', fields behind '.' and '->', else variables."""
    before = [(place, text) for place, text in source.tokens if place < start]
    behind = next((text for place, text in source.tokens if place >= end), '')
    last = before[-1][1] if before else ''
    if last == 'struct':
        return list(source.structs)
    if last in ('.', '->'):
        return fields(source, before, last)
    if behind == '(' or re.search(rb'\(', data[start:end]):
        return list(source.calls)
    return list(source.names(start))


def fields(source, before, last):
    """The fields of what stands before '.' or '->'; all fields where its type can't be read."""
    first = len(before) - 1
    while first > 0 and re.fullmatch(r'\w+|\.|->|\[|\]|\)', before[first - 1][1]) and before[first - 1][1] not in ('return', 'if', 'while'):
        first -= 1
    kind = source.type_of(before[first][0], before[-1][0]) or ''
    struct = (target(kind) or '' if last == '->' else kind).partition('struct ')[2]
    return list(source.structs.get(struct, {})) or [name for struct in source.structs.values() for name in struct]


def nearest_of(data, start, end, is_program):
    """The sentence on the nearest name; None where none is near."""
    name = re.split(r'\W', places.readable(data[start:end]))[0]
    source = Source(data, is_program)
    names = known(source, data, start, end)
    same = next((other for other in [*names, 'true', 'false', 'null'] if other.lower() == name.lower()), None)
    close = [same] if same else difflib.get_close_matches(name, names, 1, 0.6)
    if close:
        return "nothing here has the name '%s': did you mean '%s'?" % (name, close[0])
    elsewhere = next((function for function in source.functions.values() if name in function.locals and function is not source.around(start)), None)
    if elsewhere:
        return "'%s' is a name of the function '%s' alone: pass it as a parameter, or make it a global" % (name, elsewhere.name)
    return of_kind(source, data, start, end, name)


def of_kind(source, data, start, end, name):
    """The sentence on a name that is like no other, by where it stands; None where nothing is to be said."""
    before = [(place, text) for place, text in source.tokens if place < start]
    last, behind = before[-1][1] if before else '', next((text for place, text in source.tokens if place >= end), '')
    if re.fullmatch(r'r\d+', name):
        return "a register is given by its number: '%s' in place of '%s'" % (name[1:], name)
    if last in ('.', '->') and source.structs:
        return "no field has the name '%s': there are %s" % (name, ', '.join(fields(source, before, last)))
    if last == 'struct':
        return "no struct has the name '%s'%s" % (name, ': there are ' + ', '.join(source.structs) if source.structs else '')
    if behind == '(' or b'(' in data[start:end]:
        return "no function has the name '%s': write one, as 'int %s(..) { .. }'" % (name, name)
    return "nothing here has the name '%s': declare it, as 'int %s;', as a global or first in the function" % (name, name)

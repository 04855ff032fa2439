"""C0 values and places as texts: `7`, `true`, `null`, `-> queue[2]`, `{1, 0}`; and what stands behind a name as it is written."""
import itertools
import re

MOST_PARTS = 12     # so many parts of an array or a struct are written out


def scalar(unit, t, v, objects=()):
    """A value of a scalar type."""
    if t[0] == 'bool':
        return 'true' if v else 'false'
    if t[0] == 'int':
        return str(int(v))
    return '-> ' + place_name(unit, v, objects, t[1]) if v else 'null'


def type_name(t):
    """A type as it is written."""
    return {'ptr': lambda: type_name(t[1]) + '*', 'array': lambda: '%s[%d]' % (type_name(t[1]), t[2]), 'struct': lambda: 'struct ' + t[1]}.get(t[0], lambda: t[0])()


def parts(unit, t):
    """The parts of a struct or an array: of each its name behind the whole's, its type, and the words before it."""
    if t[0] == 'array':
        size = unit.words(t[1])
        return (('[%d]' % i, t[1], i * size) for i in range(t[2]))
    return (('.' + name, *unit.field(t, name)) for _, name in unit.structs[t[1]])


def path(unit, t, offset, wanted=None):
    """The name, behind a whole of type t, of what stands so many words into it: down to a scalar, or to a part of the wanted type that begins there."""
    if offset == 0 and (t == wanted or t[0] not in ('array', 'struct')):
        return ''
    if t[0] == 'array':
        size = unit.words(t[1])
        return '[%d]' % (offset // size) + path(unit, t[1], offset % size, wanted)
    for name, inner, before in parts(unit, t):
        if before <= offset < before + unit.words(inner):
            return name + path(unit, inner, offset - before, wanted)
    return '?'


def place_name(unit, location, objects=(), wanted=None):
    """The name of a location among globals or in the heap, of whose objects the first words and types are given."""
    region, at = location
    if region == 'g':
        for name, (t, first) in unit.places.items():
            if first <= at < first + unit.words(t):
                return name + path(unit, t, at - first, wanted)
    for number, (first, t) in enumerate(objects, 1):
        if first <= at < first + unit.words(t):
            return '%s #%d' % (type_name(t), number) + path(unit, t, at - first, wanted)
    return '%s %d' % (region, at)


def whole(unit, t, words, at, objects=()):
    """The value of a type that stands at a word of a region."""
    if t[0] not in ('array', 'struct'):
        return scalar(unit, t, words[at], objects)
    shown = []
    for name, inner, before in parts(unit, t):
        if len(shown) == MOST_PARTS:
            shown.append('..')
            break
        text = whole(unit, inner, words, at + before, objects)
        shown.append('%s: %s' % (name[1:], text) if t[0] == 'struct' else text)
    return '{' + ', '.join(shown) + '}'


def global_values(meaning):
    """The name, the type and the value of each global, as texts."""
    unit = meaning.unit
    return [(name, type_name(t), whole(unit, t, meaning.globals, first, meaning.objects)) for name, (t, first) in unit.places.items()]


def frame_values(meaning, frame):
    """The same of a frame's parameters and locals."""
    unit = meaning.unit
    return [(name, type_name(t), whole(unit, t, frame.words, at, meaning.objects)) for name, (t, at) in frame.variables.items()]


def scalars(unit, t, words, at, name, objects=()):
    """The scalars of a value that aren't 0, as far as `whole` writes them: of each its name as it is written, behind the whole's, and its text."""
    if t[0] not in ('array', 'struct'):
        return [(name, scalar(unit, t, words[at], objects))] if words[at] else []
    return [found for part, inner, before in itertools.islice(parts(unit, t), MOST_PARTS) for found in scalars(unit, inner, words, at + before, name + part, objects)]


def frame_scalars(meaning, frame):
    """Those of a frame's parameters and locals."""
    unit = meaning.unit
    return [found for name, (t, at) in frame.variables.items() for found in scalars(unit, t, frame.words, at, name, meaning.objects)]


def parts_said(unit, t):
    """What parts a type has, in words."""
    if t[0] == 'array':
        return ': its parts are [0] to [%d]' % (t[2] - 1)
    return ': its parts are %s' % ', '.join(part for part, _, _ in parts(unit, t)) if t[0] == 'struct' else ': it is one word'


class BadName(Exception):
    """Why a name stands for no place, in a sentence."""


def found(unit, name):
    """The type and the first word of the global, or part of one, that is written so: `ticks`, `queue[2]`, `slots[1].user`."""
    first = re.match(r'[A-Za-z_]\w*', name)
    if not first or first.group() not in unit.places:
        raise BadName("there is no global '%s'; there are: %s" % (first.group() if first else name, ', '.join(unit.places) or 'none'))
    t, at = unit.places[first.group()]
    rest = name[first.end():]
    while rest:
        step = re.match(r'\.([A-Za-z_]\w*)|\[(\d+)\]', rest)
        if not step:
            raise BadName("behind '%s' stands '%s', which is neither '.FIELD' nor '[INDEX]'" % (name[:len(name) - len(rest)], rest))
        inner = next(((inner, before) for part, inner, before in (parts(unit, t) if t[0] in ('array', 'struct') else ()) if part == step.group()), None)
        if inner is None:
            raise BadName("'%s' has no part '%s'%s" % (name[:len(name) - len(rest)], step.group(), parts_said(unit, t)))
        t, at, rest = inner[0], at + inner[1], rest[step.end():]
    return t, at

"""Shapes of a source that C has and C0 has not, or that a slip leaves: brackets that stay open, prototypes, types without 'struct', and the like (12)."""
import re

from explain import places
from explain.c_tokens import tokens

TYPES = ('int', 'bool', 'struct')
ELIF = ('elif', 'elsif', 'elseif')


class Open:
    """A '{' that is open: its line, counted from 1, how far that line is indented, and the line."""

    def __init__(self, data, place):
        self.number, start, end = places.line_at(data, place)
        line = places.readable(data[start:end])
        self.indent, self.line, self.is_first = len(line) - len(line.lstrip()), line.strip(), data[start:place].strip() == b''


def open_brace(data):
    """The '{' for which a '}' is missing, by how the lines are indented; None where each has one."""
    stack, odd = [], None
    for place, text in tokens(data):
        if text == '{':
            stack.append(Open(data, place))
        elif text == '}' and stack:
            opened, closing = stack.pop(), Open(data, place)
            if odd is None and closing.is_first and closing.indent < opened.indent:
                odd = opened
    return (odd or stack[-1]) if stack else None


def is_over_closed(data, at):
    """Whether a '}' closes nothing."""
    depth = 0
    for place, text in tokens(data):
        if place >= at:
            return text == '}' and depth == 0
        depth = max(depth + (text == '{') - (text == '}'), 0)
    return False


def statement_before(found, at):
    """The tokens of the statement before a token, in order."""
    first = at
    while first > 0 and found[first - 1][1] not in (';', '{', '}'):
        first -= 1
    return [text for _, text in found[first:at]]


def of_head(part, here, found, at):
    """Heads of functions and declarations: prototypes, parameters without a type, names of structs without 'struct'."""
    if here == ';' and part[:1] and part[0] in TYPES and part[-1] == ')' and '(' in part:
        name = part[part.index('(') - 1]
        return "C0 has no prototypes: functions may call one another in any order, so remove '%s'" % text_of(part + [';']) if name.isidentifier() else None
    if part[:1] and part[0] in TYPES and '(' in part and '=' not in part and here.isidentifier() and part[-1] in ('(', ',') and here not in TYPES:
        return "a parameter has its type before its name: 'int %s'" % here if here != 'void' else "a function that takes nothing has '()'"
    structs = {found[place + 1][1] for place in range(len(found) - 2) if found[place][1] == 'struct' and found[place + 2][1] == '{'}
    first = part[0] if part else here
    if first in structs and (not part or len(part) == 1 and here == '*'):
        behind = [text for _, text in found[at:at + 3]] if part else [text for _, text in found[at + 1:at + 4]]
        name = next((text for text in behind if text.isidentifier()), 'p')
        return "a struct's name stands behind 'struct': '%s %s;'" % ('struct ' + first + ('*' if '*' in behind[:2] else ''), name)
    return None


def text_of(part):
    """Tokens as they are written in a line."""
    return re.sub(r' ([;,)\]*])|([(\[]) ', lambda match: match[1] or match[2], ' '.join(part)).replace(' (', '(')


def of_struct(found, at):
    """Whether the '}' before a token is that of a struct, whose ';' is missing."""
    depth = 0
    for place in range(at - 1, -1, -1):
        depth += (found[place][1] == '}') - (found[place][1] == '{')
        if depth == 0:
            return place >= 2 and found[place - 2][1] == 'struct' and found[at - 1][1] == '}'
    return False


def of_condition(part, here, found, at):
    """An '=' in a condition, where '==' is meant."""
    if here != '=' or part[:1] not in (['if'], ['while']):
        return None
    end = next((place for place in range(at, len(found)) if found[place][1] in (')', ';', '{')), at)
    left, right = text_of(part[2:]), text_of([text for _, text in found[at + 1:end]])
    return "'=' assigns, and is no part of a condition: '%s == %s'" % (left, right)


def sentence(data, at, is_program):
    """The sentence on the shape that a token which can't stand where it stands comes from; None where it is none of these."""
    found = tokens(data)
    place = next((number for number, (where, _) in enumerate(found) if where >= at), len(found))
    here = found[place][1] if place < len(found) else ''
    part = statement_before(found, place)
    if part[-1:] and part[-1] in ELIF or here in ELIF:
        return "C0 has no '%s': write 'else { if (..) { .. } }'" % (here if here in ELIF else part[-1])
    if not part and place > 0 and of_struct(found, place):
        return "a struct ends in ';' behind its '}': '};'"
    said = of_condition(part, here, found, place) or of_head(part, here, found, place)
    if said:
        return said
    opened = open_brace(data)
    if opened and (not here or here in ('return', *TYPES) or is_behind_return(found, place)):
        return "a '}' is missing: the '{' of line %d, '%s', is open" % (opened.number, opened.line)
    if here == '}' and is_over_closed(data, at):
        return "this '}' closes nothing: one '{' fewer stands before it"
    return None


def is_behind_return(found, place):
    """Whether a token comes right behind a 'return ..;'."""
    return place > 0 and found[place - 1][1] == ';' and 'return' in statement_before(found, place - 1)

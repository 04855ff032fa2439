"""Marks and parts of a source of C0 that are missing, too many or of another language: brackets, operands, indexes, heads of functions (12)."""
import re

from explain.c_shapes import statement_before
from explain.c_tokens import tokens

TYPES = ('int', 'bool', 'struct')
TESTS = ('if', 'while')
SUMS = ('+', '-', '*', '/', '%')
OPERATORS = SUMS + ('==', '!=', '<', '<=', '>', '>=', '&&', '||', '!', '&', '=')
WRITTEN = {'and': '&&', 'or': '||', 'not': '!', 'mod': '%', 'xor': '!=', 'then': '{', 'begin': '{', 'end': '}'}


def is_name(text):
    return text.isidentifier() and text not in TYPES + TESTS + ('else', 'return', 'new', 'true', 'false', 'null', 'asm')


def text_of(part):
    """Tokens as they are written in a line."""
    text = re.sub(r' ([;,)\]\[.*])|([(\[.!]) ', lambda match: match[1] or match[2], ' '.join(part))
    return re.sub(r' ?(->) ?', r'\1', re.sub(r'(?<!\bif)(?<!\bwhile)(?<=\w) \(', '(', text))


def open_bracket(part):
    """The last '(' or '[' of a part that is open; empty where none is."""
    stack = []
    for text in part:
        if text in ('(', '['):
            stack.append(text)
        elif text in (')', ']') and stack:
            stack.pop()
    return stack[-1] if stack else ''


def depth(found, at):
    """How many '{' are open before a token."""
    return sum((text == '{') - (text == '}') for _, text in found[:at])


def of_tests(part, here):
    """The brackets of a condition, and what stands behind them."""
    if part[:1] and part[0] in TESTS and len(part) > 1:
        is_open = open_bracket(part)
        if here == '{' and is_open:
            return "a '%s' is missing: the '%s' in '%s' is open" % ({'(': ')', '[': ']'}[is_open], is_open, text_of(part))
        if not is_open and part[-1] == ')':
            if here == ')':
                return "this ')' is one too many: each '(' of '%s' is closed before it" % text_of(part)
            if here == ';':
                return "no ';' stands behind the condition of '%s': '{' follows it" % part[0]
            if here in ('then', 'begin'):
                return "C0 has no '%s': '{' follows the condition" % here
    return None


def of_heads(part, here, behind, found, at):
    """Heads of functions, structs and types of arrays."""
    if part == ['struct'] and here == '{':
        return "a struct has a name: 'struct s { .. };'"
    if part[:1] and part[0] in TYPES:
        is_head = '(' in part and '=' not in part
        if is_head and open_bracket(part) == '(' and here == ';':
            return "',' stands between two parameters"
        if is_head and not open_bracket(part) and part[-1] == ')' and here not in ('{', 'asm', ';'):
            return "behind the head of a function, '%s', stands '{'" % text_of(part)
        if part[-1] == '[' and here == ']':
            return "an array has its length in its type: '%s[8] a;' has 8 elements" % text_of(part[:-1])
        if part[-1] == '[' and is_name(here):
            return "a length is a number, and '%s' is none: C0 has no names for numbers" % here
    if not part and is_name(here) and behind == '(' and depth(found, at) == 0:
        return "a function has the type of its result before its name: 'int %s(..)'" % here
    if here == '(' and part[-1:] == ['asm']:
        return "instructions stand in '{ .. }' behind 'asm', without quotes: 'asm { and r2, r4, r5 }'"
    if here == 'asm' and not part:
        return "'asm' stands behind the head of a function, in place of its body: 'int f(int a) asm { .. }'"
    return None


def of_indexes(part, here):
    """Indexes and brackets that are wrong in an expression."""
    is_open = open_bracket(part)
    if here == ',' and is_open == '[':
        first = len(part) - 1 - part[::-1].index('[')
        return "each index has brackets of its own: '%s[%s][..]'" % (part[first - 1] if first else 'a', text_of(part[first + 1:]))
    if here == ']' and part[-1:] == ['[']:
        return "an index is missing between '[' and ']'"
    if '=' in part or part[:1] == ['return']:
        if here in (';', '}') and is_open:
            return "a '%s' is missing: one '%s' of '%s' is open" % ({'(': ')', '[': ']'}[is_open], is_open, text_of(part))
        if here in (')', ']') and not is_open and part[-1] not in OPERATORS:
            return "this '%s' is one too many in '%s'" % (here, text_of(part + [here]))
    return None


def of_operands(part, here, behind, is_glued):
    """Operators of other languages, operands that are missing, and what is no assignment."""
    last = part[-1] if part else ''
    if here in WRITTEN and part and here not in ('then', 'begin', 'end', 'not'):
        return "'%s' is written '%s' in C0" % (here, WRITTEN[here])
    if last == 'not':
        return "'not' is written '!' in C0"
    if here.isdigit() and last == '.' and part[-2:-1] and part[-2].isdigit():
        return "numbers are whole in C0: an int has no '.'"
    if here in (')', ';', ']', ',') and last in OPERATORS:
        return "behind '%s' a value is missing" % last
    if here == '+' and last == '=' and is_glued:
        return "C0 has no '=+': write '%s = %s + ..;'" % (text_of(part[:-1]), text_of(part[:-1]))
    if here == '+' and last in OPERATORS + ('(', ','):
        return "no '+' stands before a value: '%s' alone" % behind
    starts = part[:1] and '=' not in part and part[0] not in TYPES + TESTS + ('return', 'else', 'new')
    if starts and here == '==':
        return "'==' compares two values, and is no statement: an assignment is '%s = ..;'" % text_of(part)
    if starts and here in SUMS and behind not in (here, '=') and not open_bracket(part) and (here != '*' or len(part) > 1):
        return "a statement is an assignment, with a variable, field or element before its '=': 'x = %s %s ..;'" % (text_of(part), here)
    if here == '(' and 'new' in part[:-1]:
        return "no parentheses stand behind 'new T': '%s;'" % text_of(part)
    return None


def sentence(data, at):
    """The sentence on a mark that a token which can't stand where it stands comes from; None where it is none of these."""
    found = tokens(data)
    place = next((number for number, (where, _) in enumerate(found) if where >= at), len(found))
    text = lambda number: found[number][1] if number < len(found) else ''
    here, behind, part = text(place), text(place + 1), statement_before(found, place)
    is_glued = 0 < place < len(found) and found[place - 1][0] + len(found[place - 1][1].encode()) == found[place][0]
    return of_tests(part, here) or of_heads(part, here, behind, found, place) or of_indexes(part, here) or of_operands(part, here, behind, is_glued)

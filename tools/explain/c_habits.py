"""Habits from C that a source of C0 is refused for, each by the sentence that names it."""
import re

from explain import c_counts, c_marks, c_names, c_shapes, c_wrong_types, places
from explain.c_tokens import tokens

# What a word of C stands for that C0 has not, by the word.
FOREIGN = {
    'for': "C0 has no 'for': assign first, then write 'while (..) { .. }' with the step as its last statement",
    'do': "C0 has no 'do': write 'while (..) { .. }', with a bool that is true at first",
    'switch': "C0 has no 'switch': write an 'if' for each value",
    'case': "C0 has no 'switch': write an 'if' for each value",
    'break': "C0 has no 'break': let the loop's condition be a bool that a statement sets",
    'continue': "C0 has no 'continue': put the rest of the body into an 'if'",
    'goto': "C0 has no 'goto': 'while' and 'if' lead from place to place",
    'void': "C0 has no 'void': a function answers an int or a bool, and takes nothing by '()'",
    'char': "C0 has no 'char': its scalars are int, bool and pointers",
    'long': "C0 has no 'long': an int has 32 bits",
    'short': "C0 has no 'short': an int has 32 bits",
    'unsigned': "C0 has no 'unsigned': an int is signed and has 32 bits",
    'signed': "C0 has no 'signed': an int is signed as it stands",
    'float': "C0 has no 'float': its numbers are ints",
    'double': "C0 has no 'double': its numbers are ints",
    'const': "C0 has no 'const': write the number where it is used, or a global that dispatch sets at cause 0",
    'static': "C0 has no 'static': a variable that stays from one dispatch to the next is a global",
    'extern': "C0 has no 'extern': a kernel is one source",
    'typedef': "C0 has no 'typedef': write the type out, as 'struct s'",
    'enum': "C0 has no 'enum': write the numbers",
    'union': "C0 has no 'union': write a struct with a field for each",
    'sizeof': "C0 has no 'sizeof': 'new T' takes an object of a type",
    'malloc': "C0 has no 'malloc': 'p = new T;' takes an object of a type, and null stands for a full heap",
    'free': "C0 has no 'free': nothing is given back",
    'printf': "C0 has no 'printf': 'ok = con_put(w);' logs a word",
    'NULL': "the null pointer is written 'null'",
    'uint32_t': "C0 has no 'uint32_t': an int is signed and has 32 bits",
    'int32_t': "C0 has no 'int32_t': an int has 32 bits",
}
BYTES = {
    b'#': "C0 has no lines with '#': no 'include' and no 'define'",
    b'"': "C0 has no strings: the console takes words, by 'con_put'",
    b"'": "C0 has no characters in quotes: write the number, as 65 for 'A'",
    b'|': "C0 has '||' alone; bits are put together in a function of instructions, as 'int bits(int a, int b) asm { or r2, r4, r5 }'",
    b'^': "C0 has no '^': write a function of instructions, as 'int differ(int a, int b) asm { xor r2, r4, r5 }'",
    b'~': "C0 has no '~': the bits of x turned are '-x - 1'",
    b'?': "C0 has no 'a ? b : c': write an 'if' with an 'else'",
    b':': "C0 has no labels, no 'case', and no 'a ? b : c'",
    b'\\': "C0 has no '\\' at the end of a line",
}
# What is said of a user's program in place of what a kernel is advised.
OF_PROGRAMS = {
    'static': "C0 has no 'static': a variable that stays from one call to the next is a global",
    'extern': "C0 has no 'extern': a program is one source",
    'printf': "C0 has no 'printf': a user program has 'trap' alone, as 'x = trap(n);', and its kernel puts words into the console",
    b'"': "C0 has no strings, and a user program no console: it has 'trap' alone, as 'x = trap(n);', whose argument is an int",
}
PRIMITIVES = ('vm_get', 'vm_set', 'vm_size', 'vm_resize', 'vm_word', 'vm_put', 'vm_copy', 'con_put', 'con_get', 'con_left')
TYPES = ('int', 'bool', 'struct')
RESERVED = TYPES + ('if', 'else', 'while', 'return', 'new', 'true', 'false', 'null', 'asm')


class Before:
    """The tokens before a place, the last one first, and those from it on."""

    def __init__(self, data, at):
        found = tokens(data)
        self.back = [text for place, text in found if place < at][::-1] + [''] * 8
        self.here = [text for place, text in found if place >= at] + [''] * 8
        last = max([place for place, text in found if place < at], default=0)
        first = min([place for place, text in found if place >= at], default=len(data))
        self.new_line = b'\n' in data[last:first]
        self.data = data
        self.glued = [text for place, text in found if place + len(text.encode()) == at]

    def has(self, name):
        """Whether a function of this name can be called."""
        return name in PRIMITIVES + ('trap',) or declares(self.data, name)

    def statement(self):
        """The tokens of the statement so far, in order."""
        part = []
        for text in self.back:
            if text in (';', '{', '}', ''):
                break
            part.append(text)
        return part[::-1]


def is_name(text):
    return bool(re.fullmatch(r'[A-Za-z_]\w*', text))


def foreign(word, is_program):
    """The sentence on a word of C that C0 has not."""
    return is_program and OF_PROGRAMS.get(word) or FOREIGN.get(word)


def first_foreign(words, is_program):
    """The sentence on the first word of C that C0 has not."""
    return next(filter(None, (foreign(word, is_program) for word in words)), None)


def primitive(name, is_program):
    """The sentence on a primitive of a kernel in a program, and on that of a program in a kernel."""
    if is_program and name in PRIMITIVES:
        return "'%s' is a kernel's: a user program has 'trap' alone, as 'x = trap(n);', and its kernel does the rest" % name
    if not is_program and name == 'trap':
        return "'trap' is a user program's, by which it asks its kernel: a kernel has 'vm_get', 'vm_set', 'con_put' and the other primitives"
    return None


def declares(data, name):
    """Whether a source has a function of a name."""
    return re.search(rb'\b(?:int|bool|struct\s+\w+)[\s*]+' + name.encode() + rb'\s*\(', data) is not None


def declaration(near, part):
    """Habits in declarations: values, several names, lengths behind the name, and places."""
    here = near.here[0]
    if part and part[0] in TYPES and is_name(near.back[0]):
        if here == '=':
            name = near.back[0]
            return "a declaration has no value in C0: write '%s %s;' among the declarations, which begin as 0, false or null, and '%s = ..;' behind them" % (' '.join(part[:-1]), name, name)
        if here == ',' and '(' not in part:
            return "one declaration has one name: write '%s;' and a declaration for each further name" % ' '.join(part).replace(' *', '*')
        if here == '[':
            lengths = ''.join(near.here[:near.here.index(';')] if ';' in near.here else ['[4]'])
            return "the length stands with the type: '%s%s %s;'" % (' '.join(part[:-1]).replace(' *', '*'), lengths, near.back[0])
    if here in TYPES and near.back[0] == '(' and not is_name(near.back[1]):
        return "C0 has no casts: an int becomes a bool by a comparison, and a bool an int by 'if'"
    if here in TYPES:
        return 'declarations stand first in a function, before its first statement; none stands in a block'
    first = part[0] if len(part) == 1 else here if not part else ''
    second = here if len(part) == 1 else near.here[1]
    if is_name(first) and is_name(second) and first not in RESERVED:
        return "a type is 'int', 'bool' or 'struct %s', each with '*' or '[n]' behind it" % first
    return None


def statement(near, part):
    """Habits in statements: calls without an answer, short forms, blocks without braces, and where 'return' stands."""
    here, back = near.here[0], near.back
    if here == '(' and part and is_name(part[-1]) and len(part) == 1:
        return "a call needs its answer taken: 'ok = %s(..);', with a variable of its type%s" % (part[0], '' if near.has(part[0]) else ", and nothing here has the name '%s'" % part[0])
    behind = near.here[1]
    if here in ('+', '-') and behind == here and '=' not in part:
        what = ''.join(part) or near.here[2] or 'x'
        return "C0 has no '%s%s': write '%s = %s %s 1;'" % (here, here, what, what, here)
    if here in ('+', '-', '*', '/', '%') and behind == '=' and '=' not in part:
        return "C0 has no '%s=': write '%s = %s %s ..;'" % (here, ''.join(part) or 'x', ''.join(part) or 'x', here)
    if here == '=' and '=' in part:
        return "an assignment is no expression in C0: write one statement for each"
    if here == 'if' and back[0] == 'else':
        return "C0 has no 'else if': write 'else { if (..) { .. } }'"
    if back[0] == 'else' or (back[0] == ')' and part and part[0] in ('if', 'while') and is_closed(part)):
        return "the parts of 'if' and 'while' have braces: '{ x = 1; }'"
    if here == 'return':
        return "a function returns once, at its end: keep the answer in a variable until there"
    if back[0] == 'return' and here == ';':
        return "each function answers a value: 'return 0;'"
    if here == '}' and not part:
        return "a function ends in 'return ..;': each answers a value"
    if back[0] == ';' and near.back[1] and 'return' in last_statement(near.back) and here != '}':
        return "a function returns once, at its end: nothing stands behind 'return ..;'"
    if here == ';' and not part:
        return "C0 has no empty statement: remove the ';'"
    if here == '{' and not part:
        return "a block stands only behind 'if', 'else' and 'while'"
    return None


def missing(near, part):
    """A mark that is missing: the ';' of the statement before, or the brackets of a condition."""
    here, last = near.here[0], near.back[0]
    if last in ('if', 'while') and here != '(':
        return "the condition of '%s' stands in brackets: '%s (..) { .. }'" % (last, last)
    ended = last in (')', ']', 'true', 'false', 'null') or is_name(last) and last not in RESERVED or last.isdigit()
    if ended and part and part[0] not in ('if', 'while') and (here == '}' or near.new_line and (is_name(here) or here == '*')):
        return "a ';' may be missing behind '%s'" % ' '.join(part[-3:])
    return None


def last_statement(back):
    """The tokens of the statement whose ';' is the first of these, which go backwards."""
    part = []
    for text in back[1:]:
        if text in (';', '{', '}', ''):
            break
        part.append(text)
    return part


def is_closed(part):
    """Whether the brackets of a condition are all closed."""
    return part.count('(') == part.count(')')


def right_side(near, part):
    """Habits in expressions: calls inside, numbers, shifts."""
    here, back = near.here[0], near.back
    number = near.glued[0] if near.glued else ''
    if re.fullmatch(r'\d+', number):
        if number == '0' and re.match(r'[xX]', here):
            return "numbers are decimal in C0: write '%s' as %s" % (number + here, decimal(number + here))
        if is_name(here):
            return "a number has no letters behind it: '%s' alone" % number
    if here in ('<', '>') and back[0] == here:
        return "C0 has no shift '%s%s': multiply or divide by a power of two, or write a function of instructions with 'sllv' or 'srav'" % (here, here)
    if here == '*' and back[0] == '/':
        return "C0's comments go from '//' to the end of the line: there is no '/* .. */'"
    if back[0] == '=' and here == '{':
        return "C0 has no lists of values: assign each element"
    if 'new' in back[:1] and here == '(':
        return "no parentheses stand behind 'new': write 'p = new struct s;', or 'p = new int;'"
    if 'new' in back[:1] and is_name(here) and here not in RESERVED:
        return "'%s' is no type: 'p = new struct %s;' takes an object of a struct" % (here, here)
    if here == '(' and is_name(back[0]) and back[0] not in RESERVED and len(part) > 1:
        return "a call stands only as the whole right side of an assignment: 'x = %s(..);' first, then use x" % back[0]
    if '=' in part and '(' in part and back[0] == ')' and here in ('+', '-', '*', '/', '%', '<', '>', '<=', '>=', '==', '!=', '&&', '||', '.', '->', '['):
        return "a call stands only as the whole right side of an assignment: keep its answer in a variable first"
    if here in ('<', '<=', '>', '>=', '==', '!='):
        return "comparisons do not chain: write 'a < b && b < c'"
    if here == 'new':
        return "'new T' stands only as the whole right side of an assignment"
    if here == '&' and (is_name(back[0]) or back[0].isdigit() or back[0] in (')', ']')):
        return "C0 has '&&' and no '&' of bits: write a function of instructions, as 'int both(int a, int b) asm { and r2, r4, r5 }'"
    return None


def decimal(text):
    """A hexadecimal number in decimal, where it is one of 32 bits."""
    try:
        value = int(text, 16)
    except ValueError:
        return 'a decimal'
    if value > 2147483647:
        return '%d, the int with these bits' % (value - 4294967296) if value < 4294967296 else 'a decimal'
    return str(value)


def unexpected(data, at, is_program):
    """The habit behind a token that can't stand where it stands (12)."""
    near = Before(data, at)
    part = near.statement()
    if near.here[0] == '/*' or data[at - 1:at + 1] == b'/*' or data[at:at + 2] == b'/*':
        return "C0's comments go from '//' to the end of the line: there is no '/* .. */'"
    word = first_foreign([near.here[0]], is_program) or first_foreign(part, is_program)
    called = near.back[0]
    if near.here[0] == '(' and not word and is_name(called) and not declares(data, called):
        word = primitive(called, is_program)
    return word or c_marks.sentence(data, at) or c_shapes.sentence(data, at, is_program) or missing(near, part) or declaration(near, part) or right_side(near, part) or statement(near, part)


def bad_byte(data, at, is_program):
    """The habit behind a byte that begins no token (10)."""
    byte = data[at:at + 1]
    if data[at:at + 2] == b':=':
        return "an assignment is written '=' in C0, and not ':='"
    if is_program and byte in OF_PROGRAMS:
        return OF_PROGRAMS[byte]
    if byte in BYTES:
        return BYTES[byte]
    if byte >= b'\x80':
        return 'a source is of ASCII but for its comments: no letters with accents, and no quotes, blanks or dashes of a text processor'
    return None


def unknown(data, start, end, is_program):
    """The habit behind a name that nothing has (20)."""
    name = re.split(r'\W', data[start:end].decode('utf-8', errors='replace'))[0]
    if is_program and name == 'syscall':
        return "a user program asks its kernel by 'trap', as 'x = trap(n);'"
    return foreign(name, is_program) or primitive(name, is_program) or c_names.nearest_of(data, start, end, is_program)


def number(data, at):
    """The habit behind a number that is none (11)."""
    text = places.readable(data[at:at + 12])
    if re.match(r'0\d', text):
        return 'numbers are decimal in C0, with no 0 before a further digit'
    digits = re.match(r'\d*', places.readable(data[at:at + 40])).group()
    if digits and 2147483647 < int(digits) < 4294967296:
        return 'an int goes from -2147483648 to 2147483647: the one with the bits of %s is %s' % (digits, decimal(hex(int(digits))).split(',')[0] if digits != '2147483648' else '-2147483647 - 1')
    if digits:
        return 'an int has 32 bits, and goes to 2147483647'
    return None


def habit(key, data, start, end, is_program=False):
    """The sentence that names the habit behind a refusal of a source, a kernel's or a user program's; None where there is none to name."""
    if key == 10:
        return bad_byte(data, start, is_program)
    if key == 11:
        return number(data, start)
    if key == 12:
        return unexpected(data, start, is_program)
    if key == 20:
        return unknown(data, start, end, is_program)
    if key == 21:
        return c_counts.twice(data, start, end, is_program)
    if key == 23:
        return c_counts.count(data, start, end, is_program)
    if key == 24:
        return c_counts.no_place(data, start, end)
    if key == 26:
        return c_counts.itself(data, start, end)
    if key == 22:
        return c_wrong_types.sentence(data, start, end, is_program)
    if key == 25:
        return "no pointer points to a local in C0: make it a global, or an object by 'new'"
    return None

"""Habits from SPIM and MARS that a user's text is refused for, each by the sentence that names it."""
import difflib
import re

# Their names of the registers, by the numbers here.
REGISTERS = ['zero', 'at', 'v0', 'v1', 'a0', 'a1', 'a2', 'a3'] + ['t%d' % n for n in range(8)] + ['s%d' % n for n in range(8)] \
    + ['t8', 't9', 'k0', 'k1', 'gp', 'sp', 'fp', 'ra']
NUMBERS = {name: number for number, name in enumerate(REGISTERS)}
NUMBERS['s8'] = 30

# Pseudo-instructions, and what stands for each.
PSEUDO = {
    'li': "'li' is a pseudo-instruction: 'ori rD, r0, N' loads 0 to 65535, 'addiu rD, r0, I' a small negative number, 'lui' and 'ori' any word",
    'la': "'la' is a pseudo-instruction: the program begins at address 0, so 'ori rD, r0, A' loads the address A; a label is no operand of it",
    'move': "'move' is a pseudo-instruction: 'addu rD, rS, r0' copies a register",
    'nop': "'nop' is a pseudo-instruction: 'sll r0, r0, 0' does nothing; no delay slot has to be filled here",
    'b': "'b' is a pseudo-instruction: 'j LABEL' jumps",
    'beqz': "'beqz' is a pseudo-instruction: 'beq rS, r0, LABEL'",
    'bnez': "'bnez' is a pseudo-instruction: 'bne rS, r0, LABEL'",
    'blt': "'blt' is a pseudo-instruction: 'slt r1, rS, rT' and 'bne r1, r0, LABEL'",
    'bge': "'bge' is a pseudo-instruction: 'slt r1, rS, rT' and 'beq r1, r0, LABEL'",
    'bgt': "'bgt' is a pseudo-instruction: 'slt r1, rT, rS' and 'bne r1, r0, LABEL'",
    'ble': "'ble' is a pseudo-instruction: 'slt r1, rT, rS' and 'beq r1, r0, LABEL'",
    'bltu': "'bltu' is a pseudo-instruction: 'sltu r1, rS, rT' and 'bne r1, r0, LABEL'",
    'bgeu': "'bgeu' is a pseudo-instruction: 'sltu r1, rS, rT' and 'beq r1, r0, LABEL'",
    'not': "'not' is a pseudo-instruction: 'nor rD, rS, r0'",
    'neg': "'neg' is a pseudo-instruction: 'sub rD, r0, rS'",
    'negu': "'negu' is a pseudo-instruction: 'subu rD, r0, rS'",
    'abs': "'abs' is a pseudo-instruction: a branch by 'bgez' over 'subu rD, r0, rS'",
    'mul': "'mul' is a pseudo-instruction: 'mult rS, rT' and 'mflo rD'",
    'rem': "'rem' is a pseudo-instruction: 'div rS, rT' and 'mfhi rD'",
    'remu': "'remu' is a pseudo-instruction: 'divu rS, rT' and 'mfhi rD'",
    'subi': "there is no 'subi': 'addiu rT, rS, -N'",
    'subiu': "there is no 'subiu': 'addiu rT, rS, -N'",
    'seq': "'seq' is a pseudo-instruction: 'xor rD, rS, rT' and 'sltiu rD, rD, 1'",
    'sne': "'sne' is a pseudo-instruction: 'xor rD, rS, rT' and 'sltu rD, r0, rD'",
    'sgt': "'sgt' is a pseudo-instruction: 'slt rD, rT, rS'",
    'push': "there is no stack by itself: set a register to the end of the memory, and use 'addiu' and 'sw'",
    'pop': "there is no stack by itself: 'lw' and 'addiu' with the register that you keep for it",
    'bal': "there is no 'bal': 'jal LABEL' calls",
    'break': "there is no 'break': 'syscall CODE' traps to the kernel",
    'ret': "there is no 'ret': 'jr r31' returns",
    'trap': "a user traps to its kernel by 'syscall CODE'",
    'ecall': "a user traps to its kernel by 'syscall CODE'",
    'mov': "there is no 'mov': 'addu rD, rS, r0' copies a register",
    'jmp': "there is no 'jmp': 'j LABEL' jumps",
    'call': "there is no 'call': 'jal LABEL' calls",
    'halt': "no user halts the run: its kernel does, where dispatch answers 0",
}
# How each instruction is written.
FORMS = {name: '%s %s' % (name, form) for form, names in (
    ('rD, rT, N', 'sll srl sra'), ('rD, rT, rS', 'sllv srlv srav'), ('rD, rS, rT', 'add addu sub subu and or xor nor slt sltu'), ('rS', 'jr mthi mtlo'), ('rD', 'mfhi mflo'),
    ('rS, rT', 'mult multu div divu'), ('rD, rS', 'jalr'), ('rS, LABEL', 'bltz bgez blez bgtz'), ('rS, rT, LABEL', 'beq bne'), ('LABEL', 'j jal'),
    ('rT, rS, N', 'addi addiu slti sltiu andi ori xori'), ('rT, N', 'lui'), ('rT, N(rS)', 'lw sw'), ('CODE', 'syscall'), ('V', '.word'), ('N', '.zero')) for name in names.split()}
BYTES_OF_MEMORY = ('lb', 'lbu', 'lh', 'lhu', 'sb', 'sh', 'lwl', 'lwr', 'swl', 'swr')
DIRECTIVES = {
    '.data': "there is no '.data': code and data stand in one list of words from address 0, as they are written",
    '.text': "there is no '.text': code and data stand in one list of words from address 0, as they are written",
    '.globl': "there is no '.globl': a program begins at its first word",
    '.global': "there is no '.global': a program begins at its first word",
    '.space': "'.zero N' gives N words of 0; '.space' counts bytes",
    '.align': "there is no '.align': each word stands at a multiple of 4 by itself",
    '.ascii': "there are no strings: each sign is a '.word' of its own",
    '.asciiz': "there are no strings: each sign is a '.word' of its own",
    '.byte': "memory is of words: '.word V'",
    '.half': "memory is of words: '.word V'",
    '.eqv': "there are no names for numbers: write the number",
    '.macro': "there are no macros",
    '.ent': "there is no '.ent': a label is enough",
    '.end': "there is no '.end': the text ends where it ends",
    '.set': "there is no '.set': the assembler moves and adds no instruction",
}


def code_of(line):
    """A line without its labels and comment."""
    line = line.split('#')[0].strip()
    while re.match(r'[A-Za-z_]\w*:', line):
        line = line.partition(':')[2].strip()
    return line


def register(line):
    """The sentence on the first register with '$'."""
    found = re.search(r'\$(\w+)', line)
    if not found:
        return None
    name = found.group(1)
    number = int(name) if name.isdigit() and int(name) < 32 else NUMBERS.get(name)
    if number is None:
        return "registers are r0 to r31, without '$'"
    return "registers are r0 to r31, without '$': '$%s' is r%d" % (name, number)


def operands(name, rest):
    """The sentence on operands of a known instruction that have a form of SPIM's."""
    parts = [part.strip() for part in rest.split(',')]
    spoken = re.search(r'(?<![$\w])(%s)(?!\w)' % '|'.join(REGISTERS), rest)
    if spoken:
        return "registers are r0 to r31: '%s' is r%d" % (spoken.group(1), NUMBERS[spoken.group(1)])
    if name in ('lw', 'sw') and len(parts) == 2:
        if re.fullmatch(r'\([^)]*\)', parts[1]):
            return "the distance is written, also where it is 0: '%s %s, 0%s'" % (name, parts[0], parts[1])
        if '(' not in parts[1]:
            return "an address is a number and a register, 'N(rS)': '%s %s, 64(r0)' reaches the word at 64; a label is none" % (name, parts[0])
    if name == '.word' and (len(parts) > 1 or ':' in rest):
        return "'.word' gives one word: write a line for each"
    if name == '.word' and re.fullmatch(r'[A-Za-z_]\w*', rest):
        return "'.word' takes a number, and no label"
    if name in ('jalr',) and len(parts) == 1:
        return "'jalr' names both registers: 'jalr r31, %s'" % (rest or 'rS')
    if name in ('mult', 'multu', 'div', 'divu') and len(parts) == 3:
        return "'%s rS, rT' leaves its answer in hi and lo: 'mflo rD' and 'mfhi rD' fetch it" % name
    if name in ('add', 'addu', 'and', 'or', 'xor', 'slt', 'sltu', 'sub', 'subu') and len(parts) == 3 and re.fullmatch(r'-?\w+', parts[2]) and not parts[2].startswith(('r', '$')):
        with_number = {'add': 'addi', 'addu': 'addiu', 'and': 'andi', 'or': 'ori', 'xor': 'xori', 'slt': 'slti', 'sltu': 'sltiu', 'sub': 'addi', 'subu': 'addiu'}[name]
        return "the third operand of '%s' is a register: '%s' takes a number" % (name, with_number)
    if "'" in rest:
        return "there are no signs in quotes: write the number, as 65 for 'A'"
    if rest.endswith(';'):
        return "no ';' stands behind an instruction"
    if ';' in rest or '//' in rest:
        return "a comment begins with '#'"
    return None


def of_form(name, rest):
    """The sentence on operands that don't have the instruction's form."""
    wrong = next((word for word in re.findall(r'\br(\d+)\b', rest) if int(word) > 31), None)
    if wrong is not None:
        return "registers are r0 to r31, and 'r%s' is none" % wrong
    if name not in FORMS:
        return None
    number = re.search(r'(?:^|,)\s*0\s*(?=,)', rest)
    return "it is written '%s'%s" % (FORMS[name], "; the register that is always 0 is r0" if number and name in ('beq', 'bne') else
                                     ', with commas' if rest and ',' not in rest and ',' in FORMS[name] else '')


def out_of_range(name, rest):
    """The sentence on a number that an instruction can't hold."""
    parts = [part.strip() for part in rest.split(',')]
    if name in ('addi', 'addiu', 'ori', 'slti', 'sltiu', 'andi', 'xori'):
        last = parts[-1]
        try:
            word = int(last, 0) & 0xffffffff
        except ValueError:
            return None
        if name in ('andi', 'ori', 'xori') and -32768 <= int(last, 0) < 0:
            return "'%s' takes 0 to 65535: 'addiu rD, r0, %s' loads %s" % (name, last, last)
        return "an instruction holds 16 bits of a number: 'lui rD, %d' and 'ori rD, rD, %d' load %s" % (word >> 16, word & 0xffff, last)
    if name in ('lw', 'sw') and re.fullmatch(r'-?\w+\(r\d+\)', parts[-1]):
        return "an address's number is -32768 to 32767: load %s into a register by 'lui' and 'ori', and write '%s %s, 0(rS)'" % (parts[-1].partition('(')[0], name, parts[0])
    if name in ('beq', 'bne', 'bltz', 'bgez', 'blez', 'bgtz'):
        return "a branch reaches 32767 words: branch over 'j LABEL' in place of it"
    return None


def habit(key, line):
    """The sentence that names the habit behind a refusal of a line of a user's text; None where there is none to name."""
    code = code_of(line)
    name, _, rest = code.replace('\t', ' ').partition(' ')
    rest = rest.strip()
    if key == 2:
        if name in PSEUDO:
            return PSEUDO[name]
        if name in DIRECTIVES:
            return DIRECTIVES[name]
        if name in BYTES_OF_MEMORY:
            return "memory is reached by whole words alone, 'lw' and 'sw'"
        if code.startswith((';', '//')):
            return "a comment begins with '#'"
        if re.match(r'\w+\s+:', code):
            return "the ':' follows a label's name directly"
        if name != name.lower() and name.isalpha():
            return "instructions are written in lower case"
        second = rest.split(' ')[0]
        if re.fullmatch(r'[A-Za-z_]\w*', name) and (second in FORMS or second in PSEUDO):
            return "a label ends with ':': '%s: %s'" % (name, rest)
        close = difflib.get_close_matches(name, FORMS, 1, 0.6)
        if rest and close:
            return "there is no '%s': did you mean '%s'?" % (name, FORMS[close[0]])
        return "a label ends with ':'" if re.fullmatch(r'[A-Za-z_]\w*', code) else None
    if key == 3:
        return register(code) or operands(name, rest) or of_form(name, rest)
    if key == 4:
        return out_of_range(name, rest)
    if key == 5:
        return "the label '%s' is set nowhere in this text; upper and lower case differ" % rest.split(',')[-1].strip()
    return None


# What a text of instructions in a source of C0 has of SPIM's that it may not have, by the instruction.
JUMPS = 'b bal beq bne beqz bnez blt bge bgt ble bltu bgeu bgez bgtz blez bltz j jal jalr'.split()
LITTLE = {
    'add': "such a text has no 'add', which traps where it overflows: 'addu'",
    'sub': "such a text has no 'sub', which traps where it overflows: 'subu'",
    'addi': "such a text has no 'addi', which traps where it overflows: 'addiu'",
    'neg': "'neg' is a pseudo-instruction: 'subu rD, r0, rS'",
    'jr': "no 'jr' stands at the end: the function returns behind its last instruction, with r2",
    'ret': "no 'ret' stands at the end: the function returns behind its last instruction, with r2",
    'la': "such a text has no addresses: it takes ints and answers one",
    'abs': "such a text has no branches: write the function with 'if' in C0",
    'syscall': "a kernel traps nowhere, and a program by 'trap' alone: such a text has no 'syscall'",
    'break': "such a text has no traps",
}
LITTLE.update({name: "such a text has no jumps and branches: write 'if' and 'while' in C0, and call it for the bits" for name in JUMPS})
LITTLE.update({name: "such a text reaches no memory: use arrays, structs and globals in C0" for name in ('lw', 'sw', 'push', 'pop', *BYTES_OF_MEMORY)})
LITTLE.update({name: "C0 multiplies and divides by '*', '/' and '%': such a text can't" for name in 'mul mult multu div divu rem remu mfhi mflo mthi mtlo'.split()})
# What of SPIM's has an answer that may stand in such a text.
SAME = ('li', 'move', 'nop', 'not', 'negu', 'subi', 'subiu', 'seq', 'sne', 'sgt')


def little_register(line):
    """The sentence on the first register that is none of r0 and r2 to r7."""
    for mark, name in re.findall(r'(\$?)\b([a-z]\w*|\d+(?=\s*(?:,|$)))', line):
        number = NUMBERS.get(name)
        if mark and name.isdigit() or not mark and re.fullmatch(r'r\d+', name):
            number = int(name.lstrip('r'))
        if number is not None and (mark or name in NUMBERS or number not in (0, 2, 3, 4, 5, 6, 7)) and number < 32:
            which = "registers are r0 and r2 to r7 in such a text"
            if number in (0, 2, 3, 4, 5, 6, 7):
                return "%s: '%s' is r%d" % (which, mark + name, number)
            return "%s: the arguments stand in r4 to r7, and the answer is to stand in r2" % which
    return None


def inside(text, number):
    """The sentence on a line of a text of instructions in C0 (32), which is given with its braces; None where there is none to name."""
    lines = text.split('\n')
    line = lines[number - 1] if 0 < number <= len(lines) else ''
    code = (line.partition('{')[2] if number == 1 else line).partition('}')[0].partition('#')[0].strip()
    if re.match(r'[A-Za-z_]\w*\s*:', code):
        return "such a text has no labels"
    if code.startswith('.'):
        return "such a text has no directives, and instructions alone"
    if ';' in code or '//' in code:
        return "an instruction ends with its line, and a comment begins with '#'"
    name, _, rest = code.replace('\t', ' ').partition(' ')
    if name in LITTLE:
        return LITTLE[name]
    if name in SAME:
        return PSEUDO[name].replace('; no delay slot has to be filled here', '')
    if name != name.lower() and name.isalpha():
        return "instructions are written in lower case"
    return little_register(rest) or operands(name, rest.strip()) or out_of_range(name, rest) or of_form(name, rest)

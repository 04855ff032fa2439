"""What the tokens of C0 and of the assembler are, by docs/C0.md and docs/ASSEMBLER.md, and all sources of the repository, to try the editors' files on."""
import glob
import os
import re

from explain import pages

PRIMITIVES = 'vm_get vm_set vm_size vm_resize vm_word vm_put vm_copy con_put con_get con_left trap'.split()
RESERVED = {'int': 'type', 'bool': 'type', 'struct': 'type', 'if': 'control', 'else': 'control', 'while': 'control', 'return': 'control', 'new': 'new',
            'true': 'constant', 'false': 'constant', 'null': 'constant'}
OF_ASM_TEXTS = 'sll srl sra sllv srlv srav addu subu and or xor nor slt sltu addiu slti sltiu andi ori xori lui'.split()
MNEMONICS = OF_ASM_TEXTS + 'add sub addi jr mthi mtlo mfhi mflo mult multu div divu jalr bltz bgez blez bgtz beq bne j jal lw sw mfc0 mtc0 syscall eret'.split()
ESCAPE = re.compile(r'\\(?:([nrt\\])|x([0-9a-fA-F]{2}))')
ESCAPES = {'n': '\n', 'r': '\r', 't': '\t', '\\': '\\'}


def name_kind(text, after, source):
    if text in RESERVED:
        return RESERVED[text]
    if not re.match(r'[ \t]*\(', source[after:]):
        return 'name'
    return 'primitive' if text in PRIMITIVES else 'function'


def c0_tokens(source):
    """The tokens of a source of C0, comments too, as places and kinds."""
    found, at = [], 0
    token = re.compile(r'(?P<comment>//[^\n]*)|(?P<name>[A-Za-z_]\w*)|(?P<number>[0-9]+)|(?P<operator>->|==|!=|<=|>=|&&|\|\||[=<>+\-*/%!&.])|(?P<mark>[{}()\[\];,])|(?P<bad>\S)', re.A)
    while True:
        match = token.search(source, at)
        if not match:
            return found
        at, text, kind = match.end(), match.group(), match.lastgroup
        if kind == 'name':
            kind = 'asm' if text == 'asm' else name_kind(text, at, source)
        if kind == 'number' and re.match(r'0[0-9]', text):
            kind = 'bad number'
        found.append((match.start(), kind))
        if kind == 'asm':
            some, at = asm_text(source, at)
            found += some


def asm_text(source, at):
    """The tokens from behind the word asm to the end of its text."""
    found = []
    opening = re.compile(r'(\s*(//[^\n]*)?)*')
    for comment in re.finditer(r'//[^\n]*', opening.match(source, at).group()):
        found.append((at + comment.start(), 'comment'))
    at = opening.match(source, at).end()
    end = source.find('}', at)
    if source[at:at + 1] != '{' or end < 0:
        return None, len(source)
    found.append((at, 'asm mark'))
    token = re.compile(r'(?P<comment>#[^}\n]*)|(?P<number>-?(0x[0-9A-Fa-f]{1,8}|0|[1-9][0-9]{0,9})(?!\w))|(?P<name>\w+)|(?P<comma>,)|(?P<bad>[^\s}])', re.A)
    for match in token.finditer(source, at + 1, end):
        kind, text = match.lastgroup, match.group()
        if kind == 'name':
            kind = 'mnemonic' if text in OF_ASM_TEXTS else 'register' if re.fullmatch(r'r[02-7]', text) else 'bad'
        found.append((match.start(), 'asm ' + kind))
    return found + [(end, 'asm mark')], end + 1


def asm_tokens(text):
    """The tokens of a user's text, as places and kinds."""
    found = []
    token = re.compile(r'(?P<comment>#[^\n]*)|(?P<label>[A-Za-z_]\w*:)|(?P<directive>\.(word|zero)\b)|(?P<number>-?(?<!\w)(0x[0-9A-Fa-f]{1,8}|0|[1-9][0-9]{0,9})(?!\w))|'
                       r'(?P<name>[A-Za-z_]\w*)|(?P<mark>[,()])|(?P<bad>\S)', re.A)
    for match in token.finditer(text):
        kind = match.lastgroup
        if kind == 'name':
            word = match.group()
            kind = 'mnemonic' if word in MNEMONICS else 'register' if re.fullmatch(r'r([12]?[0-9]|3[01])|c[0-8]', word) else 'name'
        found.append((match.start(), kind))
    return found


def read(name):
    with open(name, encoding='utf-8', errors='replace') as file:
        return file.read()


def files(ending):
    """All files of the repository with an ending, but for those that are made, and of files with one content the first."""
    found = []
    for folder in ('examples', 'exercises', 'bench', 'crates'):
        found += glob.glob(os.path.join(pages.TOP, folder, '**', '*' + ending), recursive=True)
    first = {}
    for name in sorted(name for name in found if os.sep + 'out' + os.sep not in name):
        first.setdefault(read(name), name)
    return sorted(first.values())


def case_parts(name):
    """The parts of a file of cases, behind their heads; escapes stay as they are."""
    return [part.partition('\n')[2] for part in read(name).split('\n== ')[1:]]


def c0_by_kind():
    """The sources of C0 by where they stand: files, and those in cases that are written without escapes."""
    found = {'files': [read(name) for name in files('.c0')], 'systems': system_parts('kernel')}
    for crate in ('code_cases', 'c0_cases'):
        names = sorted(glob.glob(os.path.join(pages.TOP, 'crates', crate, 'data', '*')))
        found[crate] = [part for name in names for part in case_parts(name)]
    return {kind: [source for source in some if not set('\\`~') & set(source) and is_closed(source)] for kind, some in found.items()}


def c0_sources():
    """All sources of C0: files, and those in cases."""
    return sum(c0_by_kind().values(), [])


def is_closed(source):
    """Whether each asm text of a source ends."""
    try:
        c0_tokens(source)
        return True
    except TypeError:
        return False


def system_parts(kind):
    """The parts of a kind, `kernel` or `user`, of the cases of systems."""
    found = []
    for name in sorted(glob.glob(os.path.join(pages.TOP, 'crates', 'system_cases', 'data', '*'))):
        for part in case_parts(name):
            found += [text.partition('\n%% ')[0] for text in part.split('%% ' + kind + '\n')[1:]]
    return found


def assembler_cases():
    """The texts of the assembler's cases, whose lines stand behind each other with escapes; none of those that repeat a part."""
    texts = case_parts(os.path.join(pages.TOP, 'crates', 'format_cases', 'data', 'texts'))
    return [ESCAPE.sub(lambda match: ESCAPES.get(match.group(1)) or chr(int(match.group(2), 16)), text) for text in texts if '`' not in text]


def asm_by_kind():
    """The texts of users by where they stand: files, cases of systems, cases of the assembler."""
    plain = lambda texts: [text for text in texts if not set('\\`~') & set(text)]
    return {'files': plain(map(read, files('.s'))), 'systems': plain(system_parts('user')), 'assembler': assembler_cases()}


def asm_sources():
    """All texts of users: files, and those in cases."""
    return sum(asm_by_kind().values(), [])

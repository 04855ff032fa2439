"""Compares the rows of habit_rows with what the program itself refuses: the one that ./try runs, or with the word --checked the one that is built with checks.
No test of the kind that needs no program."""
import os
import sys
import tempfile

sys.dont_write_bytecode = True
sys.path.insert(0, os.path.dirname(os.path.dirname(os.path.abspath(__file__))))
from explain import pages, status as explaining  # noqa: E402
from running import program, try_main  # noqa: E402
from tests import followed_rows, habit_rows  # noqa: E402


def cases():
    """Each row as a kind of command, the bytes, the refusal's first numbers, and a part of the sentence."""
    for source, key, part in habit_rows.SOURCES:
        at = len(source[:source.index('@')].encode())
        yield 'kernel', (source.replace('@', '', 1) + habit_rows.DISPATCH).encode(), [key, at], part
    for source, key, part in habit_rows.PROGRAMS:
        yield 'program', (source.replace('@', '', 1) + habit_rows.MAIN).encode(), [key, len(source[:source.index('@')].encode())], part
    for source, _, part in habit_rows.INSIDE:
        yield 'kernel', (source.replace('@', '', 1) + habit_rows.DISPATCH).encode(), [32, source.index('@')], part
    for text, key, part in habit_rows.TEXTS:
        yield 'user', (text.replace('@', '', 1) + '\n').encode(), [key, text[:text.index('@')].count('\n') + 1], part


def followed():
    """Each row of followed_rows as a case, and as a source that has no fault."""
    for source, key, part, after in followed_rows.ROWS:
        at = len(source[:source.index('@')].encode())
        yield (source.replace('@', '', 1).replace('~', '', 1) + habit_rows.DISPATCH).encode(), [key, at], part, (after + habit_rows.DISPATCH).encode()


def page_programs():
    """The whole programs of docs/C0.md and docs/ASSEMBLER.md and the first kernels of docs/KERNELS.md and docs/C0.md, each with the kind of command that takes it."""
    for page, kind, first in (('C0.md', 'kernel', '    int ticks;'), ('C0.md', 'kernel', '    struct call {'), ('KERNELS.md', 'kernel', '    int calls;'), ('ASSEMBLER.md', 'user', '    # Adds')):
        block = first + pages.page(page).partition(first)[2]
        lines = []
        for line in block.split('\n'):
            if line and not line.startswith('    '):
                break
            lines.append(line[4:])
        yield kind, '\n'.join(lines).encode()


def is_taken(start, folder, kind, data):
    """Whether a program is compiled without a refusal."""
    name = os.path.join(folder, 'text')
    with open(name, 'wb') as file:
        file.write(data)
    return program.run_to([*start, 'compile', kind, name, os.path.join(folder, 'made')], os.path.join(folder, 'out'))[0] == 0


def is_so(start, folder, kind, data, numbers, part):
    name = os.path.join(folder, 'text')
    with open(name, 'wb') as file:
        file.write(data)
    words = ['compile', kind, name, os.path.join(folder, 'made')]
    status, rows = program.run_to([*start, *words], os.path.join(folder, 'out'))
    said = explaining.explain(status, words, rows)
    return ''.join(rows).split()[1:3] == [str(number) for number in numbers] and any(part in line for line in said)


def main():
    options = try_main.Options()
    options.checked = '--checked' in sys.argv[1:]
    start = try_main.start_of(options)
    with tempfile.TemporaryDirectory() as folder:
        wrong = [case for case in cases() if not is_so(start, folder, *case)]
        wrong += [('kernel', data, numbers, part) for data, numbers, part, _ in followed() if not is_so(start, folder, 'kernel', data, numbers, part)]
        wrong += [('kernel', source.encode(), [31], part) for source, part in followed_rows.HEADS if not is_so(start, folder, 'kernel', source.encode(), [31, 0], part)]
        refused = [data for kind, data in page_programs() if not is_taken(start, folder, kind, data)]
        refused += [data for _, _, _, data in followed() if not is_taken(start, folder, 'kernel', data)]
    for kind, data, numbers, part in wrong:
        print('against_program: %s %r is to be refused with %s and %r' % (kind, data, numbers, part))
    for data in refused:
        print('against_program: a page or an advice has this program, which is refused: %r' % data[:90])
    return 1 if wrong or refused else 0


sys.exit(main())

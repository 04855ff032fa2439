"""The pages' blocks that hang on how many steps and words compiled code takes, beside what ./try prints: the clock's rows of KERNELS, the words and the fault of
LOOKING's small system, and the rows of a class in TEACHING. `tools/tests/pages_by_program.py`"""
import os
import subprocess
import sys

sys.dont_write_bytecode = True
sys.path.insert(0, os.path.dirname(os.path.dirname(os.path.realpath(__file__))))
from explain import pages  # noqa: E402
from running import guard, rooms  # noqa: E402
from running.guard import say  # noqa: E402

TRY = os.path.join(pages.TOP, 'try')
CLOCKED = os.path.join(pages.TOP, 'exercises', '2_round_robin', 'solution')
GRADED = os.path.join(pages.TOP, 'exercises', '3_aging')
PARAMS = 'pages 1\nframes 2\nheap 0\nstack 64\n'
# Of each of a class what stands in the solution, and in their kernel.
CLASS = {'ada': ('', ''), 'cleo': ('    ok = con_put(next);', '    con_put(next);'), 'eve': ('int[4] age;', 'int[3] age;')}


def block(page, first):
    """The lines of a page's block from the one that begins so."""
    lines = [*pages.page(page).split('\n'), '']
    at = next(number for number, line in enumerate(lines) if line.startswith('    ' + first))
    until = next(number for number in range(at, len(lines)) if not lines[number].startswith('    ') and (lines[number] or not lines[number + 1].startswith('    ')))
    return [line[4:] for line in lines[at:until]]


def printed(*words, where=pages.TOP):
    """What ./try prints, and what it says, as lines."""
    done = subprocess.run([TRY, *words], cwd=where, stdin=subprocess.DEVNULL, stdout=subprocess.PIPE, stderr=subprocess.PIPE, text=True)
    return done.stdout.split('\n'), done.stderr.split('\n')


def missing(wanted, lines, what):
    """Of lines of a page that don't stand in succession in what is printed: a sentence."""
    if any(lines[at:at + len(wanted)] == wanted for at in range(len(lines))):
        return []
    first = next((line for line in wanted if line not in lines), wanted[0])
    return ["%s: what is printed has no '%s'" % (what, first)]


def put(folder, **files):
    os.makedirs(folder)
    for name, text in files.items():
        with open(os.path.join(folder, name.replace('_', '.')), 'w', encoding='utf-8') as file:
            file.write(text)


def of_clock():
    return missing(block('KERNELS.md', 'turn 0 cause 0 data 00000000 user 0 next 1 step '), printed(CLOCKED, '--clock')[0], 'KERNELS, the clock')


def of_small_system(work):
    small = os.path.join(work, 'small')
    put(small, kernel_c0='\n'.join(block('LOOKING.md', 'int[4] queue;')) + '\n', user1_s='\n'.join(block('LOOKING.md', 'ori r1, r0, 5')) + '\n', params=PARAMS, schedule='')
    words = missing(block('LOOKING.md', '  kernel.c0:5  queue[tail] = user;'), printed(small, '--listing')[0], 'LOOKING, the words of a line')
    return words + missing(block('LOOKING.md', 'try: kernel.c0:5:3'), printed(small)[1], 'LOOKING, the fault')


def of_class(work):
    """The class of TEACHING, but for the kernel that never ends; bob's is one of the wrong solutions."""
    with open(os.path.join(GRADED, 'solution', 'kernel.c0'), encoding='utf-8') as file:
        solution = file.read()
    for name, (old, new) in CLASS.items():
        put(os.path.join(work, 'handed_in', name), kernel_c0=solution.replace(old, new))
    with open(os.path.join(GRADED, 'wrong', 'constant', 'kernel.c0'), encoding='utf-8') as file:
        put(os.path.join(work, 'handed_in', 'bob'), kernel_c0=file.read())
    names = sorted([*CLASS, 'bob'])
    rows = printed(*['handed_in/' + name for name in names], '--with', os.path.join(GRADED, 'start'), '--expect', os.path.join(GRADED, 'expected'), where=work)[0]
    wanted = [row for row in block('TEACHING.md', 'handed_in/ada: ') if not row.startswith('handed_in/dan: ')]
    return missing(wanted, rows, 'TEACHING, a class')


def main(words):
    if words:
        raise guard.Bad('it takes no word')
    with rooms.room('cvm-pages-') as work:
        said = of_clock() + of_small_system(work) + of_class(work)
    say(said)
    return 1 if said else 0


if __name__ == '__main__':
    sys.exit(guard.guarded('pages_by_program', main, sys.argv[1:]))

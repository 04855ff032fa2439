"""Looking into users in C0, over the run of an example that the program made: the lines at which --break stops are the statements that --page steps through;
and the words of sources in C0, which are all cut by their lines.
`tools/tests/looking_by_program.py [--checked]`"""
import os
import re
import sys

sys.dont_write_bytecode = True
sys.path.insert(0, os.path.dirname(os.path.dirname(os.path.realpath(__file__))))
from explain import pages  # noqa: E402
from running import guard, program, rooms, try_main  # noqa: E402
from running.guard import say  # noqa: E402
from showing import listing, looking, made, wanted  # noqa: E402
from oracle import cases  # noqa: E402
from oracle.c0.cut import Cut  # noqa: E402
from oracle.tests.test_c0 import FAR  # noqa: E402
from tests import page_against_program as against, page_parts as parts  # noqa: E402

EXAMPLE, USER = 'services', 'user1.c0'
# Lines of the user, with the variable that each changes: one of a function's loop, and the first one, before which no variable of the function is set.
LINES = {7: 'd', 8: 'sum'}
# Each statement of a user that the page steps to on a line, on and back, with the variables of its functions; and where a chosen line is stopped at.
OWN = '''
const run = new page.Run(data), told = { on: [], back: [], stops: [] }, here = () => [run.turn, run.calls().map(frame => [frame.name, [...frame.variables].map(pair => pair.join(' = ')).join(', ')])];
const isOn = () => run.files[run.place] === 1 && run.atLines[run.place] === LINE;
run.go(-1);
for (let to; (to = run.statementOn()) !== run.place;) { run.go(to); if (isOn()) told.on.push(here()); }
run.go(run.turns.length - 1);
for (let to; (to = run.statementBack()) !== run.place;) { run.go(to); if (isOn()) told.back.unshift(here()); }
run.go(-1);
for (let to; (to = run.toStop(1, new Set(['1:LINE']))) !== run.place;) { run.go(to); told.stops.push(here()); }
console.log(JSON.stringify(told));
'''


def reached(given, turns, line):
    """Of each time that a line is reached, the functions with their variables."""
    asked, rows = wanted.Wanted(), []
    asked.take('--break', ['%s:%d' % (USER, line)])
    looking.way_of(looking.Replay(given), asked, rows.append)(turns)
    found = []
    for row in rows:
        if row.startswith('turn '):
            found.append([])
        else:
            frame = re.fullmatch(r'  (\w+), at %s:\d+: (.*)' % re.escape(USER), row)
            found[-1] += [[frame[1], frame[2]]] if frame else []
    return found


def uncut(start, work):
    """Of each kernel of code_cases, and of one more with far displacements, that is compiled: why its words are not cut by its lines."""
    folder, found, count = os.path.join(pages.TOP, 'crates', 'code_cases', 'data'), [], 0
    sources = [('FAR', FAR)] + [(file, cases.unescaped(text)) for file in sorted(os.listdir(folder)) for _, text in cases.of_file(os.path.join(folder, file))]
    name, made_of = os.path.join(work, 'kernel'), os.path.join(work, 'kernel.obj')
    for file, text in sources:
        with open(name, 'w', encoding='latin-1') as out:
            out.write(text)
        if program.run_to([*start, 'compile', 'kernel', name, made_of], os.path.join(work, 'out'))[0] == 0:
            count += 1
            odd = Cut(text).unfit(listing.object_words(made_of))
            found += ['%s: %s: %s' % (file, odd[1], text[:60])] if odd else []
    return found if count > 100 else found + ['there are %d kernels alone' % count]


def main(words):
    options = try_main.Options()
    options.checked = '--checked' in words
    start = try_main.start_of(options)
    with rooms.room('cvm-looking-') as work:
        said = uncut(start, work) + own_statements(start)
    say(said[:5])
    return 1 if said else 0


def own_statements(start):
    """What differs between --break and the page over a user in C0, in sentences."""
    if not parts.has_node():
        say('node is missing, so the statements of users in C0 are not stepped through')
        return []
    with rooms.room('cvm-looking-') as work:
        run = against.built(start, EXAMPLE, work)
        text, total = against.page_of(run)
        given = made.given(run, run.folder)
        return [why for line, name in LINES.items() for why in differences(line, name, reached(given, total, line), parts.node(OWN.replace('LINE', str(line)), parts.data_of(text)))]


def differences(line, changed, machine, told):
    """What differs at one line, which changes this variable."""
    said = []
    if len(machine) < 20 or len(machine) != len(told['on']):
        said.append('--break stops %d times at line %d, and the page %d times' % (len(machine), line, len(told['on'])))
    if told['on'] != told['back'] or told['on'] != told['stops']:
        said.append('the page steps on, back and to the chosen line to other places')
    # the page shows the state behind a statement, and --break the one before it: all but what the line changes are the same
    without = lambda frames: [[name, re.sub(r'\b%s = -?\d+' % changed, changed, variables)] for name, variables in frames]
    for number, (one, (turn, other)) in enumerate(zip(machine, told['on'])):
        if without(one) != without(other):
            said.append('line %d, stop %d: --break shows %s, and the page in turn %d %s' % (line, number, one, turn, other))
    return said


if __name__ == '__main__':
    sys.exit(guard.guarded('looking_by_program', main, sys.argv[1:]))

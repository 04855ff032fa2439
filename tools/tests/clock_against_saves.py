"""Compares what --clock tells with the program's own saved machines, which name their steps, and with runs that may make just so many steps and one fewer.

No test of the kind that needs no toolchain: by the builds that ./try keeps.
"""
import os
import sys
import tempfile

sys.dont_write_bytecode = True
sys.path.insert(0, os.path.dirname(os.path.dirname(os.path.abspath(__file__))))
from explain import files, pages  # noqa: E402
from running import clock, guard, kept, program, system  # noqa: E402
from running.folder import Folder  # noqa: E402

# Systems with what makes turns long: lines and waits, pages that come from the disk and are shared, a program in C0.
SYSTEMS = ('exercises/2_round_robin/solution', 'examples/sharing', 'examples/services')
TURNS, STEPS, SAVES = 100000, 1000000, 2


def saved_steps(run, start, turns):
    """How many steps the machine has made that the program saves where so many turns are complete."""
    path = run.made('saved')
    words = ['save', *run.boot_words(turns, STEPS)[1:], path]
    if program.run_to([*start, *words], run.made('text'), run.work)[0] != 0:
        return None
    data = files.content(path)
    return int.from_bytes(data[12:20], 'little')


def status_within(run, start, steps):
    return program.run_to([*start, *run.boot_words(TURNS, steps)], run.made('text'), run.work)[0]


def faults(name, start, clock_start):
    """What the clock tells wrong of a system, in sentences."""
    with tempfile.TemporaryDirectory() as work:
        run = system.Run(start, Folder(os.path.join(pages.TOP, name)), os.path.realpath(work), lambda text: None, guard.say)
        if run.build():
            return ['it is not built']
        rows, steps = clock.steps_of(clock.told(clock_start, run, run.boot_words(TURNS, STEPS)))
        numbers = [int(row.split()[1]) for row in rows]
        found = [] if len(steps) > 2 and steps == sorted(steps) else ['the steps are %s' % steps]
        # the last turn halts, and nothing is saved there
        places = sorted({(len(rows) - 1) * part // SAVES for part in range(SAVES)} | {len(rows) - 2})
        for place in places:
            wanted = saved_steps(run, start, numbers[place] + 1)
            if steps[place] != wanted:
                found.append('turn %d was complete at step %s, and the clock tells %d' % (numbers[place], wanted, steps[place]))
        if (status_within(run, start, steps[-1]), status_within(run, start, steps[-1] - 1)) != (0, 4):
            found.append('the last turn is not complete just at step %d' % steps[-1])
        return found


def main(words):
    start, clock_start = kept.program(guard.say), clock.start(guard.say)
    said = [(name, fault) for name in SYSTEMS for fault in faults(name, start, clock_start)]
    for name, fault in said:
        print('clock_against_saves: %s: %s' % (name, fault))
    return 1 if said else 0


sys.exit(guard.guarded('clock_against_saves', main, sys.argv[1:]))

"""At which step of the machine each turn was complete, by a program over the program's own crates.

`tools/clock/program.rattle` boots an image by the functions by which `cvm boot` does, and prints behind each turn that called the kernel how many steps were
done. It is built with no proof in a repository of its own, from copies of the crates, and kept until a source changes.
"""
import os
import re
import shutil
import subprocess

from explain import files, pages
from running import kept, program, rooms, sharing
from running.guard import Bad

TOP = pages.TOP
SOURCE = os.path.join(TOP, 'tools', 'clock', 'program.rattle')
KEPT = os.path.join(TOP, 'out', 'clock')
NAME = 'cvm_clock'
USES = ('boot_run', 'cvm_outside', 'cvm_shell')
ROW = re.compile(rb'clock (\d+) (\d+)')


def fingerprint(about):
    """A sum over the toolchain, the sources of the crates and the program here."""
    return kept.fingerprint('%s %r' % (about, files.content(SOURCE)))


def lay_out(room):
    """Puts a repository into a folder that has the crates' sources and the program."""
    crates = sorted({crate for use in USES for crate in kept.crates_below(use)})
    for crate in crates:
        shutil.copytree(os.path.join(TOP, 'crates', crate, 'src'), os.path.join(room, 'crates', crate, 'src'))
    os.makedirs(os.path.join(room, 'crates', NAME, 'src'))
    shutil.copy(SOURCE, os.path.join(room, 'crates', NAME, 'src', 'main.rt'))
    with open(os.path.join(TOP, 'crates.txt'), encoding='utf-8') as file:
        rows = [row for row in file if row.partition(':')[0].strip() in crates]
    with open(os.path.join(room, 'crates.txt'), 'w', encoding='utf-8') as file:
        file.writelines([*rows, '%s: %s\n' % (NAME, ' '.join(USES))])


def build_into(rt, folder):
    """Builds the program by one run of the toolchain, and copies it into a folder while it waits for its schedule."""
    with rooms.room('cvm-clock-') as room:
        lay_out(room)
        pipe, image, log = (os.path.join(room, name) for name in ('pipe', 'image', 'log'))
        os.mkfifo(pipe)
        open(image, 'wb').close()
        words = ['boot', image, pipe, '1', '0']
        with open(log, 'wb') as out:
            tool = subprocess.Popen([rt, 'try', '--seconds', '900', '--', *words], cwd=os.path.join(room, 'crates', NAME), stdin=subprocess.DEVNULL, stdout=out, stderr=out)
        try:
            end = kept.wait_for_reader(pipe, tool)
            if end is None:
                with open(log, encoding='utf-8', errors='replace') as file:
                    tail = file.read().strip().split('\n')[-20:]
                raise kept.NoBuild("the toolchain could not build the clock's program. The end of what it said:\n" + '\n'.join('  ' + line for line in tail))
            kept.copy_program(pipe, words, folder, tool)
            os.close(end)
            tool.wait()
        finally:
            kept.stop(tool)


def start(say):
    """The words that start the clock's program, which is built where it is not kept."""
    what = "the clock's program over the same sources, with no proof: about a minute of a processor. It is kept until a source changes."
    rt, about = kept.toolchain()
    name = fingerprint(about)
    made = os.path.join(KEPT, name)
    if not kept.is_whole(made):
        kept.keep(KEPT, name, what, lambda new: build_into(rt, new), say)
        sharing.open_to_readers(KEPT)
    return kept.start_of(made)


def steps_of(text):
    """The rows of a clock's text that a boot prints too, and the step of each."""
    rows, steps = [], []
    for row in text.split(b'\n'):
        match = ROW.fullmatch(row)
        if match:
            steps.append(int(match[2]))
        elif row:
            rows.append(row)
    return rows, steps


def beside(text, told):
    """A boot's text with the step beside each row of a turn, by what the clock told. Where the two differ nothing can be said."""
    rows, steps = steps_of(told)
    turns = [row for row in text.split(b'\n') if row.startswith(b'turn ')]
    if turns != rows or len(rows) != len(steps):
        raise Bad("the clock's program and the program print other turns, so no step is told: the program is what is proved", 70)
    left = iter(steps)
    return b'\n'.join(b'%s step %d' % (row, next(left)) if row.startswith(b'turn ') else row for row in text.split(b'\n'))


def told(starting, run, words):
    """What the clock's program prints of a boot with these words."""
    path = run.made('clock')
    program.run_to([*starting, *words], path, run.work)
    return files.content(path) or b''

"""Whole systems in files of cases, by the abstract machine.

usage: oracle/model systems OUT FILE..   prints, for each case of the files, what system_cases prints of it

The turns of lines and the steps of parts, which are the physical machine's alone, are taken from OUT, what system_cases printed; the steps are compared
with their bounds, and a case that breaks one ends this with a sentence.
"""
import re

from oracle import cases
from oracle.c0.meaning import bits
from oracle.run import Run, of_texts
from oracle.words import M

ENDS = {'halted': 0, 'fault NullUse': 1, 'fault Bounds': 2, 'fault DivZero': 3, 'fault StackOut': 4, 'fault BadUser': 5}


class BrokenBound(ValueError):
    """A case whose steps are more than they may be."""


def has_steps(name, enter, leave, fault, primitive, pages, busy):
    """Whether the parts of a case that is there for its steps take as many as they may; a trap and a page fault begin with one step more."""
    copy = re.fullmatch(r'vm_copy of (\d+) words between pages that are (not )?there', name)
    if copy:
        return primitive <= 8 * int(copy.group(1)) + 200 + (2 * (busy + 2805) if copy.group(2) else 0)
    for begin, holds in (('a trap to dispatch and back', 1 + enter + leave <= 300),
                         ('a vm_get', primitive <= 60),
                         ('a page fault that writes a sector and reads one', 1 + fault <= 6000 + 2 * busy),
                         ('four pages name a frame', primitive < 3500),
                         ('a fifth page is copied', primitive > 7 * 1024)):
        if name.startswith(begin):
            return holds
    return True


def parts_of(src):
    parts = {'k': '', 's': '', 'u': []}
    now = None
    for line in src.split('\n'):
        if line.startswith('%% '):
            now = line[3]
            if now == 'u':
                parts['u'].append('')
        elif now == 'u':
            parts['u'][-1] += line + '\n'
        elif now:
            parts[now] += line + '\n'
    return parts


def shown(v):
    v = bits(v)
    return '%s%d' % v if isinstance(v, tuple) else str(v)


def lines_of(rows, told):
    """Which turn takes which lines: the schedule's lines in their order, and the row of the turns that took them."""
    lines = {}
    for row, turn in zip([r for r in rows if r[0] == 'line'], told.split()[1:]):
        if turn != '-':
            lines[int(turn)] = lines.get(int(turn), 0) | 1 << int(row[2])
    return lines


def user_row(k, f):
    total = 0
    for w in f.m:
        total = (total * 31 + w) & M
    return ('user %d pages %d pc %08x hi %08x lo %08x' % (k, f.pages(), f.pc, f.hi, f.lo)
            + ''.join(' r%d %08x' % (i, f.r[i]) for i in range(1, 32) if f.r[i]) + ' words %08x' % total)


def steps_told(name, row, rows, pages, frames):
    """The steps of a run's parts as they were told, which are within their bounds; pages are those of all users."""
    m = re.fullmatch(r'turns (\d+) (steps enter (\d+) leave (\d+) fault (\d+) primitive (\d+))', row)
    busy = max([int(r[2]) for r in rows if r[0] == 'busy'] + [0])
    steps = [int(x) for x in m.groups()[2:]]
    within = steps[0] <= 20000 + 64 * (pages + frames) and steps[1] <= 1000 and steps[2] <= 6 * pages + 5 * busy + 13600 + 100
    if not within or not (m.group(1) == '0' or has_steps(name, *steps, pages, busy)):
        raise BrokenBound('case %s took more steps than it may: %s' % (name, row))
    return m.group(2)


def run_system(rest, source, told):
    """The rows of a case."""
    q, frames, heap, stack, turns = [int(x) for x in rest.split(' ')[:5]]
    name, parts = ' '.join(rest.split(' ')[5:]), parts_of(source)
    rows = [r.split() for r in parts['s'].split('\n') if r]
    par = 'pages %d\nframes %d\nheap %d\nstack %d\n' % (q, frames, heap, stack)
    lines_row = next(r for r in told if r.split(' ')[0] == 'lines')
    run = Run(of_texts(parts['k'], parts['u'], par, parts['s']), lines_of(rows, lines_row))
    out = [call.row() for call in run.run(turns)]
    out.append('stopped' if run.end is None else 'off %d' % ENDS[run.end])
    out.append('globals' + ''.join(' ' + shown(v) for v in run.kernel.globals))
    out.append('heap' + ''.join(' ' + shown(v) for v in run.kernel.heap))
    out += [user_row(k + 1, f) for k, f in enumerate(run.users)]
    out.append('log' + ''.join(' %08x' % w for w in run.kernel.log))
    told_steps = steps_told(name, next(r for r in told if r.startswith('turns ')), rows, len(run.users) * q, frames)
    return out + [lines_row, 'turns %d %s' % (run.turn, told_steps)]


LEAST_WORDS = 2


def main(words):
    with open(words[0], encoding='utf-8') as file:
        told = file.read().split('\n== ')
    told = {t.split('\n')[0].removeprefix('== '): t.split('\n')[1:] for t in told}
    for name in words[1:]:
        for head, source in cases.of_file(name):
            print('== ' + head)
            print('\n'.join(run_system(head.partition(' ')[2], cases.unescaped(source), told.get(head, ['lines', 'turns 0 steps enter 0 leave 0 fault 0 primitive 0']))))
    return 0

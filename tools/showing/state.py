"""The whole state of a run as rows: the calls with their variables, the globals, the users."""
from oracle import values
from oracle.faults import chain
from oracle.words import signed


def c0_rows(source, meaning):
    """The functions of a source that run, each with its variables, and the globals."""
    rows = []
    for (name, _, line), frame in zip(chain(source, meaning), meaning.frames):
        variables = ', '.join('%s = %s' % (n, v) for n, _, v in values.frame_values(meaning, frame))
        rows.append('  %s, at %s: %s' % (name, source.where(line), variables or 'no variables'))
    return rows + global_rows(meaning)


def global_rows(kernel):
    found = ['%s = %s' % (n, v) for n, _, v in values.global_values(kernel)]
    rows = [] if found else ['  no globals']
    while found:
        row = found.pop(0)
        while found and len(row) + len(found[0]) < 120:
            row += ', ' + found.pop(0)
        rows.append('  ' + row)
    return rows


def user_rows(replay):
    rows = []
    for number, flat in enumerate(replay.users, 1):
        user = replay.source_of(number)
        line = user.line(flat.pc)
        registers = ', '.join('r%d = %d' % (i, signed(flat.r[i])) for i in range(1, 32) if flat.r[i]) or 'all registers 0'
        rows.append('  user %d: %d pages, pc %08x%s, %s' % (number, flat.pages(), flat.pc, ', ' + user.source.where(line) if line else '', registers))
    return rows


def rows(given, replay):
    return c0_rows(given.kernel, replay.kernel) + user_rows(replay)

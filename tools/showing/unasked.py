"""What is said of a run, on standard error, without being asked: of a fault of the kernel or of a user in C0, and of steps that were too few."""
import re

from explain import places
from running.guard import Bad, say
from showing import made, spent, state
from showing.rows import Rows
from oracle.c0.meaning import Fault
from oracle.faults import explained, parts_of
from oracle.replay import Differs, Replay

PROGRAM_FAULT = re.compile(rb'^turn \d+ cause 6 data 0000(?:008c|00cc|010c|014c) user (\d+) ', re.M)
STATEMENTS = ('tested', 'stored', 'primitive', 'returned')
LAST = 4


def say_why(run, folder, options, status):
    """Says what is to be said of a run that ended with this status. What the run printed stays as it is."""
    if status not in (0, 3, 4) or (options.trace and status != 3):
        return
    if options.trace:
        run.put, run.say = (lambda text: None), (lambda lines: None)
        run.boot(options.turns, options.steps)
    faulty = [] if status else faulty_programs(run, folder)
    if status == 0 and not faulty:
        return
    try:
        given = made.given(run, folder)
        lines = kernel_fault(given) if status == 3 else spent.lines(given, options.turns, options.steps) if status == 4 else program_faults(given, faulty)
    except Differs as differs:
        lines = ['%s. The program is what is proved.' % differs]
    except Bad as bad:
        lines = ['nothing more is said of it: %s' % bad]
    say(['try: ' + line if not line.startswith(' ') else line for line in lines])


def faulty_programs(run, folder):
    """The users in C0 that a row of the boot says to have met a fault."""
    with open(run.made('boot'), 'rb') as file:
        found = {int(user) for user in PROGRAM_FAULT.findall(file.read())}
    return sorted(user for user in found if user <= len(folder.users) and folder.users[user - 1].endswith('.c0'))


def kernel_fault(given):
    """The lines that say where and why the kernel met its fault."""
    replay = Replay(given)
    events = with_the_call_before(given, replay)
    fault = replay.run.fault
    if fault is None:
        return bad_user(given, replay, events)
    said = fault_lines(given.kernel, replay.kernel, fault, 'turn %d' % given.printed.last)
    return said + last_statements(events) + ['globals:'] + state.global_rows(replay.kernel)


def fault_lines(source, meaning, fault, when):
    """The place of a fault with its line and a mark, the values, and the calls."""
    about = explained(source, meaning, fault)
    node = fault.node
    start, end = node.span if node is not None else (about['place'], about['place'] + 1)
    shown = places.shown(source.name, source.text.encode('latin-1'), start, end).split('\n')
    calls = ['%s(%s) at line %d' % (name, ', '.join(args), line) for name, args, line in about['chain']]
    said = [shown[0]] + ['  ' + line for line in shown[1:]]
    said.append('fault %s in %s: `%s`: %s.' % (fault.name, when, about['text'], about['why']) if about['text'] else 'fault %s in %s: %s.' % (
        fault.name, when, about['why']))
    held = [pair for pair in parts_of(source, meaning, node)] if node is not None and node.kind != 'call' else []
    if held:
        said.append('  ' + ', '.join('%s = %s' % pair for pair in held))
    return said + (['called: ' + ', '.join(calls)] if calls else [])


def with_the_call_before(given, replay):
    """The events of the last turn that has a row, behind those of the call of the kernel before it."""
    turns, events = [turn for turn, _ in given.printed.rows[-2:]], []
    for turn in turns:
        replay.quietly(turn)
        events += replay.next_turn()
    return events


def last_statements(events, by=0):
    """The last statements that were done, with what they came to; those of an earlier turn with its number."""
    rows, last = [], events[-1].turn if events else 0
    for turn in sorted({event.turn for event in events}):
        mark = '' if turn == last else '    (turn %d)' % turn
        made_rows = Rows(lambda row, mark=mark: rows.append(row.rstrip() + mark))
        made_rows.take([event for event in events if event.turn == turn and event.kind in STATEMENTS and event.by == by])
    rows = [row for row in rows if not row.startswith('turn ')][-LAST:]
    return ['the last statements before it:'] + rows if rows else []


def bad_user(given, replay, events):
    """Why an answer of dispatch names no user."""
    left = next((event for event in reversed(events) if event.kind == 'returned' and event.name == 'dispatch'), None)
    if left is None:
        return []
    said = ['%s:%d: %s' % (left.file, left.line, left.text),
            'fault BadUser in turn %d: dispatch answers %s, and users are 1 to %d.' % (given.printed.last, left.answer, len(given.users))]
    return said + last_statements(events) + ['globals:'] + state.global_rows(replay.kernel)


# ---- users in C0
def program_faults(given, users):
    """The lines of the first fault of each of these users."""
    said, replay = [], Replay(given)
    left = set(users)
    for turn, row in given.printed.rows:
        found = PROGRAM_FAULT.match((row + ' ').encode('latin-1'))
        if not found or int(found.group(1)) not in left:
            continue
        user = int(found.group(1))
        left.discard(user)
        replay.quietly(turn)
        said += program_fault(given, user, turn, replay.next_turn())
    return said


def program_fault(given, user, turn, events):
    trap = next((event for event in events if event.kind == 'trap' and event.user == user), None)
    if trap is None or not isinstance(trap.fault, Fault):
        return ['user %d met a fault in turn %d. The kernel changed more of it than its answers, so its source does not tell where.' % (user, turn)]
    said = fault_lines(given.users[user - 1].source, trap.program, trap.fault, 'turn %d, of user %d, whose kernel was called with it' % (turn, user))
    return said + last_statements(events, user) + ['globals of user %d:' % user] + state.global_rows(trap.program)

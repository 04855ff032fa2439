"""When each user ran and waited, by the dispatches of a boot."""
from drawing.rows import BadText


class Stretch:
    """Turns from the first to the last, both counted in, in which a user made a step each."""

    def __init__(self, first, last):
        self.first, self.last = first, last


def end_of(boot, turns, traces):
    """The last turn of a run: of one that stopped the last wanted one, where it is known, else the last one of which something is known."""
    last = boot.dispatches[-1].turn
    if boot.end not in ('stopped', 'saved', None):
        return last
    if boot.end in ('stopped', 'saved') and turns:
        return max(last, turns - 1)
    lines = sum(1 for dispatch in boot.dispatches if dispatch.cause < 2)
    made = lines + sum(trace.steps for trace in traces)
    return max(last, made - 1 if len(traces) == boot.users else last)


def window(wanted, end):
    """The first and the last turn of a window of a run that ends with this turn; BadText where it has none of the run."""
    first, last = wanted[0] or 0, end if wanted[1] is None else min(wanted[1], end)
    if first > last:
        raise BadText('turns {:,} to {:,} are wanted, and the run has turns 0 to {:,}'.format(first, last if wanted[1] is None else wanted[1], end))
    return first, last


def clipped(parts, first, last):
    """What of stretches lies within a window."""
    return [Stretch(max(part.first, first), min(part.last, last)) for part in parts if part.first <= last and part.last >= first]


def stretches(boot, last):
    """The stretches of each user, by its number."""
    found = {user: [] for user in range(1, boot.users + 1)}
    for place, dispatch in enumerate(boot.dispatches):
        behind = boot.dispatches[place + 1] if place + 1 < len(boot.dispatches) else None
        stop = last if behind is None else behind.turn if behind.cause > 1 else behind.turn - 1
        if dispatch.next and stop > dispatch.turn:
            add(found[dispatch.next], dispatch.turn + 1, stop)
    return found


def add(parts, first, last):
    """Adds a stretch; where it begins in the turn behind a dispatch that interrupted the same user, they stay two."""
    parts.append(Stretch(first, last))


def waits(parts, last, first=0):
    """The stretches in which a user did not run: before, between and behind its own."""
    found, free = [], max(0, first - 1)
    for part in parts:
        if part.first > free + 1:
            found.append(Stretch(free + 1, part.first - 1))
        free = part.last
    if free < last:
        found.append(Stretch(free + 1, last))
    return found


def ran(parts):
    """How many turns a user's stretches have."""
    return sum(part.last - part.first + 1 for part in parts)


def longest(parts):
    """The longest of stretches; None where there is none."""
    return max(parts, key=lambda part: part.last - part.first, default=None)


def turn_of_step(parts, step):
    """The turn in which a user made its step of a number, from 1; None where it made fewer."""
    for part in parts:
        count = part.last - part.first + 1
        if step <= count:
            return part.first + step - 1
        step -= count
    return None


def change_turns(trace, parts, boot):
    """The dispatches at which the kernel changed something of a user, as far as its trace tells: pairs of a turn and what was changed.

    A change comes between two steps of the user. Of several dispatches there it is put at the last one.
    """
    found = []
    for steps, kinds in sorted(trace.changes.items()):
        before = turn_of_step(parts, steps) if steps else -1
        behind = turn_of_step(parts, steps + 1)
        if before is None:
            continue
        here = [dispatch.turn for dispatch in boot.dispatches if dispatch.turn >= max(before, 0) and (behind is None or dispatch.turn < behind)]
        if here:
            found.append((here[-1] if behind is not None else here[0], kinds))
    return found

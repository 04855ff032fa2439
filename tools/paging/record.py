"""A window of a run as data: the state before its first turn, and of each turn what changed and what the kernel did.

All texts are numbers into `texts`, and all places that change are numbers into `slots`, so that a turn is a short row of numbers: see `Record.data`.
"""
import json

import showing  # noqa: F401  (puts the models on the path)
from oracle import values
from oracle.journals import Journal
from oracle.replay import Replay
from oracle.words import M

PC, HI, LO, PAGES = 32, 33, 34, 35
PLACES = {'pc': PC, 'hi': HI, 'lo': LO}
SCALARS = {'int': 0, 'bool': 1, 'ptr': 2}
BEFORE = 40     # so many rows of a journal are kept of what comes before the window


class Table:
    """Values with their numbers, in the order in which they came."""

    def __init__(self, *first):
        self.rows, self.numbers = [], {}
        for value in first:
            self.number(value)

    def number(self, value):
        found = self.numbers.get(value)
        if found is None:
            found = self.numbers[value] = len(self.rows)
            self.rows.append(value)
        return found


def utf8(text):
    """A text whose characters are bytes, as the text that these bytes are."""
    return text.encode('latin-1', errors='replace').decode('utf-8', errors='replace')


class Record:
    """Makes the data of turns `first` to `last` of a run, as far as they are no more than `most` bytes. `over` says whether they would have been more."""

    def __init__(self, given, first, last, total, most):
        self.given, self.first, self.total, self.most, self.over = given, first, total, most, False
        self.replay = Replay(given)
        self.kernel, self.users, self.unit = self.replay.kernel, self.replay.users, self.replay.kernel.unit
        self.texts, self.slots, self.types, self.statements = Table(''), Table(), Table(), Table()
        self.journals = {n: Journal(n, flat) for n, flat in enumerate(self.users, 1)}
        self.turns, self.called, self.variables = [], None, {}
        self.numbers = {user.source.name: n for n, user in enumerate(given.users, 1)}
        self.skip(first)
        self.origins = {n: [[first - 1, self.numbers[self.replay.source_of(n).source.name]]] for n in self.numbers.values()}
        self.start = self.state()
        self.before = {n: [journal.steps, journal.rows[-BEFORE:], len(journal.rows)] for n, journal in self.journals.items()}
        for journal in self.journals.values():
            journal.rows = []
        self.told = {n: [] for n in self.journals}
        self.mirror = {n: {4 * at: w for at, w in enumerate(flat.m) if w} for n, flat in enumerate(self.users, 1)}
        self.known = len(self.kernel.objects)
        self.replay.recorder.take = self.take
        self.record(last)

    # ---- up to the window
    def skip(self, first):
        """Makes the turns before the window, with the journals alone."""
        run, printed = self.replay.run, self.given.printed.by_turn
        while run.turn < first and run.end is None:
            before = run.current
            call = run.go()
            if call is None:
                self.journals[before].steps += 1
                continue
            self.replay.compare(call, printed)
            self.note(before, call)

    def note(self, before, call):
        """Takes a turn down in each user's journal."""
        for journal in self.journals.values():
            journal.take(self.replay.run, before, call)

    # ---- what stands somewhere
    def text(self, text):
        return self.texts.number(utf8(text))

    def type(self, t, unit=None):
        """The number of a type, of the kernel or another unit."""
        unit = unit or self.unit
        if t[0] in SCALARS:
            return self.types.number((SCALARS[t[0]], self.text(values.type_name(t))))
        if t[0] == 'array':
            return self.types.number((3, self.type(t[1], unit), t[2], unit.words(t[1])))
        fields = tuple((self.text(name[1:]), self.type(inner, unit), before) for name, inner, before in values.parts(unit, t))
        return self.types.number((4, self.text(values.type_name(t)), fields))

    def function(self, by, name):
        """The number of a function's name, of the kernel (0) or of a user in C0. Its variables and their types are noted: each is 0 where it is called, but
        for its parameters."""
        number = self.text(name)
        key = '%d:%d' % (by, number)
        if key not in self.variables:
            unit = self.replay.programs[by].unit if by else self.unit
            self.variables[key] = [[self.text(variable), self.type(t, unit)] for variable, (t, _) in unit.layout(unit.functions[name])[0].items()]
        return number

    def scalars(self, t):
        """The scalar type of each word of a type."""
        if t[0] in SCALARS:
            return [t]
        if t[0] == 'array':
            return self.scalars(t[1]) * t[2]
        return [s for _, inner, _ in values.parts(self.unit, t) for s in self.scalars(inner)]

    def coded(self, t, value):
        """A value as a number: of a pointer that of the text that says where it points."""
        if t[0] == 'ptr':
            return self.text(values.scalar(self.unit, t, value, self.kernel.objects)) if value else 0
        return int(value or 0)

    def coded_words(self, words, parts):
        """The words of a region, of which parts stand at (first word, type)."""
        coded = [0] * len(words)
        for first, t in parts:
            for at, scalar in enumerate(self.scalars(t), first):
                coded[at] = self.coded(scalar, words[at])
        return coded

    def slot(self, kind, user, at, name=0, scalar=0):
        return self.slots.number((kind, user, at, name, scalar))

    def state(self):
        """The whole state before the first turn of the window."""
        kernel = self.kernel
        placed = [(first, t) for t, first in self.unit.places.values()]
        return {'users': [self.user_state(flat) for flat in self.users], 'globals': self.coded_words(kernel.globals, placed),
                'heap': self.coded_words(kernel.heap, kernel.objects), 'objects': [[first, self.type(t)] for first, t in kernel.objects],
                'console': list(kernel.log), 'current': self.replay.run.current}

    def user_state(self, flat):
        return {'pc': flat.pc, 'r': list(flat.r), 'hi': flat.hi, 'lo': flat.lo, 'pages': flat.pages(), 'mem': runs_of(flat.m)}

    # ---- turns
    def record(self, last):
        run, total = self.replay.run, 0
        while run.turn <= last and run.end is None:
            turn, before = run.turn, run.current
            row = json.dumps(self.turn(), separators=(',', ':'))
            if run.trap is not None or run.turn == 0 or self.called:
                self.note(before, self.called)
            elif before:
                self.journals[before].steps += 1
            self.tell(turn)
            total += len(row) + 1
            self.turns.append(row)
            if total > self.most:
                self.over = True
                return

    @property
    def last(self):
        return self.first + len(self.turns) - 1

    def drop_last(self):
        """Leaves the last turn out."""
        self.turns.pop()
        self.told = {n: [pair for pair in rows if pair[0] <= self.last] for n, rows in self.told.items()}

    def tell(self, turn):
        """Notes which rows came to the journals in a turn."""
        for number, journal in self.journals.items():
            if journal.rows:
                self.told[number] += [(turn, row) for row in journal.rows]
                journal.rows = []

    def take(self, event):
        """Takes an event at the time at which it happens: what a primitive changed stands there."""
        changes = []
        if event.kind == 'stored' and event.location[0] != 'l':
            changes = self.stored(event)
        elif event.kind == 'primitive' and event.answer == 'true':
            changes = self.changed(event.name, event.args)
        event.changes, event.objects = changes, self.kernel.objects[self.known:]
        self.known += len(event.objects)
        self.replay.events.append(event)

    def stored(self, event):
        region, at = event.location
        t = self.scalar_at(region, at)
        return [self.slot(region, 0, at, self.text(event.name), SCALARS[t[0]]), self.coded(t, event.value)]

    def scalar_at(self, region, at):
        """The scalar type of a word of the globals or of the heap."""
        parts = self.unit.places.values() if region == 'g' else [(t, first) for first, t in self.kernel.objects]
        t, at = next((t, at - first) for t, first in parts if first <= at < first + self.unit.words(t))
        while t[0] not in SCALARS:
            t, at = next((inner, at - before) for _, inner, before in values.parts(self.unit, t) if before <= at < before + self.unit.words(inner))
        return t

    def changed(self, name, args):
        """What a primitive that was done changed of users."""
        if name == 'vm_set':
            return [self.slot('r', args[0], args[1]), args[2] & M]
        if name == 'vm_put':
            return self.word(args[0], args[1], args[2] & M)
        if name == 'vm_copy':
            _, _, user, to, count = args
            words = self.users[user - 1].m[to // 4:to // 4 + count]
            return [part for at, word in enumerate(words) for part in self.word(user, to + 4 * at, word)]
        if name == 'vm_resize':
            user, pages = args
            lost = sorted(at for at in self.mirror[user] if at >= 4096 * pages)
            return [part for at in lost for part in self.word(user, at, 0)] + [self.slot('r', user, PAGES), pages]
        return []

    def word(self, user, at, value):
        """The change of a word of a user's memory; none where it is the same."""
        held = self.mirror[user]
        if held.get(at, 0) == value:
            return []
        held[at] = value
        if not value:
            del held[at]
        return [self.slot('m', user, at), value]

    def turn(self):
        """A turn as a row: the user that made a step, flags, changes, the instruction where no line has it, and the call of the kernel."""
        self.called = None
        events = list(self.replay.next_turn())
        step = next((event for event in events if event.kind == 'step'), None)
        dispatch = next((event for event in events if event.kind == 'dispatch'), None)
        row = self.step(step) if step else [0, 0, [], 0]
        if dispatch:
            self.called = Called(dispatch)
            row.append(self.call(events, dispatch))
        return row

    def step(self, event):
        """A user's step. Flags are 1 for a trap, 2 for a branch that was taken, 4 for one that was not, 8 where a source in C0 tells what it does."""
        changes = []
        for name, _, new in event.changes:
            if name.startswith('mem['):
                changes += self.word(event.user, int(name[4:-1]), new)
            else:
                changes += [self.slot('r', event.user, PLACES.get(name) or int(name[1:])), new]
        following = event.pc + 4 & M
        after = (following if event.trap[0] in (5, 6) else event.pc) if event.trap else self.users[event.user - 1].pc
        if after != following:
            changes += [self.slot('r', event.user, PC), after]
        flags = (1 if event.trap else 0) | (0 if event.taken is None else 2 if event.taken else 4) | (8 if event.by_source else 0)
        # a line of a user in assembler is the instruction itself
        is_line = event.line and self.given.users[self.origin(event) - 1].kind == 's'
        return [event.user, flags, changes, 0 if is_line else self.text(event.text)]

    def origin(self, event):
        """The number of the user whose source says what a step does: its own, or the one whose program a kernel has copied to it."""
        number, noted = self.numbers[event.file], self.origins[event.user]
        if noted[-1][1] != number:
            noted.append([event.turn, number])
        return number

    # ---- the kernel's calls
    def call(self, events, dispatch):
        """A call of the kernel: cause, data, user, the cause in words, who is next (-1 at a fault), the user's own statements, the kernel's, its fault, and
        for a user in C0 the functions that ran before these statements, with what of their variables isn't 0."""
        own = [self.event(event) for event in events if getattr(event, 'by', 0) or event.kind == 'trap']
        kernel = self.joined([event for event in events if event.kind not in ('step', 'dispatch', 'console', 'next', 'trap') and not getattr(event, 'by', 0)])
        next_event = events[-1]
        following = -1 if next_event.fault else next_event.next
        row = [dispatch.cause, dispatch.data, dispatch.user, self.text(dispatch.why), following, own, kernel, self.text(next_event.fault or '')]
        trap = next((event for event in events if event.kind == 'trap'), None)
        return row + [[self.frame(trap.user, *frame) for frame in trap.frames]] if trap else row

    def frame(self, user, name, held):
        return [self.function(user, name), [[self.text(variable), self.answer(value)] for variable, value in held]]

    def joined(self, events):
        """The kernel's events, where what a call or a primitive answered is stored by the same statement: the store stands within."""
        rows, last = [], None
        for event in events:
            row = self.event(event)
            if event.kind == 'stored' and last is not None and last.kind == 'primitive' and (last.line, last.text) == (event.line, event.text):
                rows[-1].append(row)
            else:
                rows.append(row)
            last = event
        return rows

    def statement(self, event):
        return self.statements.number((event.by, event.line, self.text(event.text)))

    def answer(self, text):
        """An answer as an int where it is one, and else as a text in a list."""
        return int(text) if text.lstrip('-').isdigit() else [self.text(text)]

    def event(self, event):
        return getattr(self, 'of_' + event.kind)(event)

    def of_tested(self, event):
        return [0, self.statement(event), int(event.answer)]

    def of_stored(self, event):
        made = [] if event.by else [[first, self.type(t)] for first, t in event.objects]
        if event.location[0] == 'l' or event.by:
            # a user's globals and objects are no variables of its functions
            return [5 if event.location[0] == 'l' else 9, self.statement(event), self.text(event.name), self.answer(event.new), *made]
        return [1, self.statement(event), *event.changes, *made]

    def of_primitive(self, event):
        answer, why = self.answer(event.answer), self.text(event.why or '')
        return [2, self.statement(event), self.text(event.name), event.args, answer, why, getattr(event, 'changes', [])]

    def of_call(self, event):
        return [3, self.statements.number((event.by, event.line, self.function(event.by, event.name))), [[self.text(name), self.answer(value)] for name, value in event.args]]

    def of_returned(self, event):
        return [4, self.statement(event), self.text(event.name), self.answer(event.answer)]

    def of_fault(self, event):
        return [6, self.statements.number((0, event.line, self.text(event.text))), self.text('fault %s: %s' % (event.fault, event.why))]

    def of_trap(self, event):
        said = event.ended or 'trap(%d) calls the kernel' % event.argument
        return [7, self.statements.number((event.user, event.line or 0, self.text(event.text))), self.text(said)]

    # ---- all of it
    def data(self, title):
        """The data as a text: JSON, in which no `<` stands."""
        given = self.given
        users = [{'name': utf8(user.source.name), 'text': utf8(user.source.text), 'kind': user.kind, 'lines': lines_of(user)} for user in given.users]
        head = {'title': title, 'first': self.first, 'total': self.total, 'end': given.printed.end or 'cut off',
                'kernel': {'name': utf8(given.kernel.name), 'text': utf8(given.kernel.text)}, 'users': users, 'start': self.start,
                'globals': [[self.text(name), self.type(t), first] for name, (t, first) in self.unit.places.items()],
                'before': self.before, 'journals': {n: rows for n, rows in self.told.items()},
                'origins': {n: noted for n, noted in self.origins.items() if noted != [[self.first - 1, n]]}}
        head.update(types=self.types.rows, slots=self.slots.rows, statements=self.statements.rows, texts=self.texts.rows, variables=self.variables)
        text = json.dumps(head, separators=(',', ':'))[:-1] + ',"turns":[' + ','.join(self.turns) + ']}'
        return text.replace('<', '\\u003c')


class Called:
    """What a journal looks at of a call: that it came."""

    def __init__(self, dispatch):
        self.turn = dispatch.turn


def runs_of(words):
    """Words as pairs of the address of the first one and the words from there on, without long stretches of zeros."""
    found, zeros = [], 4
    for at, word in enumerate(words):
        if word:
            if zeros >= 4:
                found.append([4 * at, []])
            else:
                found[-1][1] += [0] * zeros
            found[-1][1].append(word)
            zeros = 0
        else:
            zeros += 1
    return found


def lines_of(user):
    """The address of the first word that a line has, and the line of each word, 0 where none has it."""
    user.line(0)
    start = 0 if user.kind == 's' else 0x10000
    return [start, [line or 0 for line in user.numbers]]

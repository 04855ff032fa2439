"""Draws a run as an SVG: turns from left to right, a band a user, a mark a dispatch.

It is made by the standard library's ElementTree, which needs nothing beside Python: what a plotting library would add is an axis, and what it would take
is text that can be selected and colours that follow the reader's choice of light and dark.
"""
import re
import xml.etree.ElementTree as ElementTree

from drawing import rows, times
from running import pipes
from running.only import letters, signed

LEFT, WIDTH, RIGHT, TOP, BAND = 96, 780, 300, 66, 30
# With more marks than these in one band, marks are thinned out.
MOST_MARKS = 60
NO_LINE = -1
# The colours of Okabe and Ito, which the colour-blind can tell, yellow darkened on a light ground and all lightened on a dark one; and a shape for each,
# so that no colour is needed.
CAUSES = {0: ('start', 'c0', 'disc'), 1: ('lines', 'c1', 'up'), 2: ('fetch at no multiple of 4', 'c2', 'square'), 3: ('fetch past the memory', 'c2', 'box'),
          4: ('no instruction', 'c4', 'cross'), 5: ('overflow', 'c5', 'diamond'), 6: ('system call', 'c6', 'disc'),
          7: ('access at no multiple of 4', 'c7', 'down'), 8: ('access past the memory', 'c7', 'bar')}
STYLE = '''
svg { background: #ffffff; }
text { font: 13px system-ui, "DejaVu Sans", sans-serif; fill: #1a1a1a; }
.head { font-size: 16px; font-weight: 600; } .small { font-size: 11px; fill: #555555; } .fault { fill: #b0160a; font-weight: 600; }
.ground { fill: #ffffff; } .band { fill: #f3f3f1; } .grid { stroke: #d9d9d6; } .wait { stroke: #a8a8a4; } .longest { stroke: #55554f; stroke-dasharray: 5 3; stroke-width: 2; }
.run { fill: #9ec5e0; } .change { fill: none; stroke: #1a1a1a; } .edge { stroke: #1a1a1a; stroke-width: 1.5; } .mark { stroke: #ffffff; stroke-width: 0.7; }
.digit { font-size: 10px; font-weight: 700; } .mark + .digit { fill: #ffffff; }
.c0 { fill: #1a1a1a; } .c1 { fill: #0072b2; } .c2 { fill: #8a7500; } .c4 { fill: #d55e00; } .c5 { fill: #cc79a7; } .c6 { fill: #e69f00; } .c7 { fill: #009e73; }
@media (prefers-color-scheme: dark) {
svg { background: #16181c; }
text { fill: #ececec; } .small { fill: #b4b4b4; } .fault { fill: #ff8d7a; }
.ground { fill: #16181c; } .band { fill: #20242a; } .grid { stroke: #3a3f47; } .wait { stroke: #737a85; } .longest { stroke: #c4c9d1; }
.run { fill: #2f5f80; } .change { stroke: #ececec; } .edge { stroke: #ececec; } .mark { stroke: #16181c; } .mark + .digit { fill: #16181c; }
.c0 { fill: #ececec; } .c1 { fill: #56b4e9; } .c2 { fill: #f0e442; } .c4 { fill: #ff7a33; } .c5 { fill: #e39cc3; } .c6 { fill: #f5b83d; } .c7 { fill: #35c79a; }
}
'''


def element(parent, kind, text=None, title=None, **given):
    """Adds an element; an underscore in a name stands for a hyphen, and `kind_` for `class`."""
    names = {'kind_': 'class'}
    made = ElementTree.SubElement(parent, kind, {names.get(name, name.replace('_', '-')): number(value) for name, value in given.items()})
    if title:
        ElementTree.SubElement(made, 'title').text = title
    if text is not None:
        made.text = text
    return made


def number(value):
    """A value of an attribute, short."""
    return ('%.2f' % value).rstrip('0').rstrip('.') if isinstance(value, float) else str(value)


def nice_step(turns):
    """How many turns stand between two ticks of the axis, so that there are twelve at most: 1, 2 or 5 and zeros."""
    step = 1
    while turns / step > 12:
        step = step * 5 // 2 if str(step)[0] == '2' else step * 2
    return step


class Drawing:
    """A picture of a boot, with the traces that there are."""

    def __init__(self, boot, traces, title, turns, window=(None, None), facts=True):
        self.boot, self.traces, self.has_facts = boot, {trace.user: trace for trace in traces}, facts
        # signs that no XML can have
        self.title = re.sub('[\x00-\x1f\x7f-\x9f\ud800-\udfff\ufffe\uffff]', '\u00b7', title)
        self.end = times.end_of(boot, turns, traces)
        self.first, self.last = times.window(window, self.end)
        self.all_parts = times.stretches(boot, self.end)
        self.parts = {user: times.clipped(parts, self.first, self.last) for user, parts in self.all_parts.items()}
        self.scale = WIDTH / (self.last + 1 - self.first)
        self.bottom = TOP + BAND * (boot.users + 1)
        self.here = [dispatch for dispatch in boot.dispatches if self.first <= dispatch.turn <= self.last]
        self.kinds = sorted({kind for dispatch in self.here for kind in kinds_of(dispatch)})
        self.crowded = [user for user in range(boot.users + 1) if sum(dispatch.user == user for dispatch in self.here) > MOST_MARKS]
        self.svg = ElementTree.Element('svg', {'xmlns': 'http://www.w3.org/2000/svg', 'role': 'img'})

    def x(self, turn):
        return LEFT + (turn - self.first) * self.scale

    def middle(self, user):
        """The height of the middle of a user's band; 0 is the kernel."""
        return TOP + BAND * user + BAND / 2

    def ending(self):
        last = self.boot.dispatches[-1].turn
        if self.boot.end == 'halted':
            return 'halted in turn {:,}'.format(last)
        if self.boot.end == 'stopped':
            return 'stopped after {:,} turns'.format(self.end + 1)
        if self.boot.end == 'saved':
            return 'saved after {:,} turns'.format(self.end + 1)
        return '%s in turn %s' % (self.boot.end, format(last, ',')) if self.boot.end else 'cut off behind turn {:,}'.format(last)

    def draw(self):
        """The whole picture, as a text."""
        legend = self.legend_places()
        facts = self.facts()
        height = self.bottom + 34 + 20 * legend[-1][1] + 26 + 18 * len(facts) + 10
        self.svg.set('viewBox', '0 0 %d %d' % (LEFT + WIDTH + RIGHT, height))
        self.svg.set('width', str(LEFT + WIDTH + RIGHT))
        self.svg.set('height', str(height))
        element(self.svg, 'title', '%s: %s' % (self.title, self.ending()))
        element(self.svg, 'desc', 'Turns from left to right, a band for each user, and a mark for each turn that called the kernel.')
        element(self.svg, 'style', STYLE)
        element(self.svg, 'rect', kind_='ground', x=0, y=0, width=LEFT + WIDTH + RIGHT, height=height)
        element(self.svg, 'text', self.title, kind_='head', x=16, y=26)
        element(self.svg, 'text', '%s; the kernel was called in %s%s' % (self.ending(), turns_said(len(self.boot.dispatches)), self.window_said()), x=16, y=47)
        self.axis()
        for user in range(1, self.boot.users + 1):
            self.band(user)
        self.marks()
        self.legend(legend)
        self.list_facts(facts, self.bottom + 34 + 20 * legend[-1][1] + 30)
        return ElementTree.tostring(self.svg, encoding='unicode') + '\n'

    def window_said(self):
        if self.first == 0 and self.last == self.end:
            return ''
        return '. Here are turns {:,} to {:,}, and in {} of them'.format(self.first, self.last, turns_said(len(self.here)) if self.here else 'none')

    def axis(self):
        step = nice_step(self.last + 1 - self.first)
        element(self.svg, 'text', 'kernel', x=16, y=self.middle(0) + 4)
        for turn in range(-(-self.first // step) * step, self.last + 1, step):
            element(self.svg, 'line', kind_='grid', x1=self.x(turn), x2=self.x(turn), y1=TOP, y2=self.bottom)
            element(self.svg, 'text', '{:,}'.format(turn), kind_='small', x=self.x(turn), y=self.bottom + 15, text_anchor='middle')
        element(self.svg, 'text', 'turn', kind_='small', x=LEFT + WIDTH + 12, y=self.bottom + 15)

    def band(self, user):
        """A user's band: where it ran and waited, and the numbers of both."""
        middle = self.middle(user)
        element(self.svg, 'rect', kind_='band', x=LEFT, y=middle - BAND / 2 + 2, width=WIDTH, height=BAND - 4)
        element(self.svg, 'text', 'user %d' % user, x=16, y=middle + 4)
        waits = times.waits(self.parts[user], self.last, self.first)
        for first, last in joined([(self.x(wait.first), self.x(wait.last + 1)) for wait in waits]):
            element(self.svg, 'line', kind_='wait', x1=first, x2=last, y1=middle, y2=middle)
        most = times.longest(waits)
        if most:
            element(self.svg, 'line', kind_='longest', x1=self.x(most.first), x2=self.x(most.last + 1), y1=middle, y2=middle,
                    title='the longest wait of user %d: turns %d to %d' % (user, most.first, most.last))
        self.runs(user, middle)
        element(self.svg, 'text', self.numbers(user, most), kind_='small', x=LEFT + WIDTH + 12, y=middle + 4)

    def runs(self, user, middle):
        """Where a user ran; stretches that can't be told apart are drawn as one, paler the less of it they fill."""
        spans = [(self.x(part.first), self.x(part.last + 1)) for part in self.parts[user]]
        for first, last, share in merged(spans):
            drawn = element(self.svg, 'rect', kind_='run', x=first, y=middle - 8, width=max(last - first, 0.6), height=16)
            if share < 0.95:
                drawn.set('opacity', number(max(0.3, share)))

    def numbers(self, user, most):
        ran = times.ran(self.parts[user])
        wait = most.last - most.first + 1 if most else 0
        return 'ran {:,}, longest wait {:,}{}'.format(ran, wait, ' (to the end)' if most and most.last == self.end and wait else '')

    def marks(self):
        """A mark for each dispatch, at the user that it came from, and for each user what the kernel changed of it."""
        for user in range(self.boot.users + 1):
            here = [dispatch for dispatch in self.here if dispatch.user == user]
            self.thinned(user, here) if user in self.crowded else self.each(user, here)
        for user, trace in sorted(self.traces.items()):
            if user <= self.boot.users:
                self.changes(user, trace)
        self.end_mark()

    def each(self, user, here):
        for dispatch in here:
            kinds = kinds_of(dispatch)
            for place, kind in enumerate(kinds):
                self.mark(user, kind, [dispatch], self.middle(user) + 11 * (place - (len(kinds) - 1) / 2), 1.0)

    def thinned(self, user, here):
        """Where there are too many for one band: small marks, a lane a kind, and one mark for those of a kind that stand side by side."""
        kinds, spots = sorted({kind for dispatch in here for kind in kinds_of(dispatch)}), {}
        for dispatch in here:
            for kind in kinds_of(dispatch):
                spots.setdefault((kind, int(self.x(dispatch.turn) / 10)), []).append(dispatch)
        for (kind, _), some in spots.items():
            shift = (kinds.index(kind) - (len(kinds) - 1) / 2) * min(6.5, 22 / len(kinds))
            self.mark(user, kind, some, self.middle(user) + shift, 0.55)

    def mark(self, user, kind, here, y, size):
        first = here[0]
        name, colour, form = about(kind)
        said = 'turn %d: %s, data %s, user %d, %s' % (first.turn, name, first.data, user, 'fault ' + first.fault if first.fault else 'next %d' % first.next)
        if len(here) > 1:
            said += '; and {:,} more up to turn {:,}'.format(len(here) - 1, here[-1].turn)
        shape(self.svg, form, self.x(first.turn + 0.5), y, 'mark ' + colour, said, size)

    def changes(self, user, trace):
        """A ring below the band where the kernel changed something of the user."""
        spots = {}
        for turn, kinds in times.change_turns(trace, self.all_parts[user], self.boot):
            if not self.first <= turn <= self.last:
                continue
            spots.setdefault(round(self.x(turn) / 5), (turn, []))[1].extend(kinds)
        for turn, kinds in spots.values():
            counts = ', '.join('%d %s' % (kinds.count(kind), kind) for kind in ('set', 'size', 'put') if kind in kinds)
            element(self.svg, 'rect', kind_='change', x=self.x(turn + 0.5) - 2.5, y=self.middle(user) + 8.5, width=5, height=5,
                    title='turn %d: the kernel changed user %d: %s' % (turn, user, counts))

    def end_mark(self):
        """How the run ended, at its end in the kernel's row."""
        if self.last < self.end:
            return
        x, y = self.x(self.last + 1), self.middle(0)
        element(self.svg, 'line', kind_='edge', x1=x, x2=x, y1=y - 9, y2=self.bottom)
        kind = 'fault' if (self.boot.end or '').startswith('fault') else 'end'
        element(self.svg, 'text', self.boot.end or 'cut off', kind_=kind, x=x - 8, y=y + 4, text_anchor='end')

    def legend_places(self):
        """The marks of the legend with their row and the place where each begins."""
        items = [('cause %d: %s' % (kind[0], about(kind)[0]), 'mark ' + about(kind)[1], about(kind)[2]) for kind in self.kinds]
        items += [('runs', 'run', 'block'), ('waits', 'wait', 'dash'), ('longest wait', 'longest', 'dash')]
        if any(trace.changes for trace in self.traces.values()):
            items.append(('changed by the kernel', 'change', 'ring'))
        placed, x, row = [], LEFT, 0
        for item in items:
            wide = 34 + 7.2 * len(item[0])
            if x + wide > LEFT + WIDTH + RIGHT - 20:
                x, row = LEFT, row + 1
            placed.append((item, row, x))
            x += wide
        return placed

    def legend(self, placed):
        for (name, kind, form), row, x in placed:
            y = self.bottom + 38 + 20 * row
            shape(self.svg, form, x + 6, y, kind, None)
            element(self.svg, 'text', name, kind_='small', x=x + 20, y=y + 4)

    def facts(self):
        """Where marks are thinned out, the console's words and the globals, in rows."""
        found = []
        if self.crowded:
            names = ' and '.join(', '.join('user %d' % user if user else 'the kernel' for user in self.crowded).rsplit(', ', 1))
            found.append(('thinned out', 'of %s marks of a kind that stand side by side are one; --from A --to B shows fewer turns' % names))
        if not self.has_facts:
            return found
        words = ['%s (%d%s)' % (word, signed(int(word, 16)), lettered(int(word, 16))) for word in self.boot.console]
        for name, parts in (('console', words), ('globals', self.boot.globals)):
            shown = [parts[at:at + 8] for at in range(0, min(len(parts), 32), 8)]
            texts = [' \u00b7 '.join(row) for row in shown]
            if len(parts) > 32:
                texts[-1] += ' and {:,} more'.format(len(parts) - 32)
            found += [('' if place else name, text) for place, text in enumerate(texts)]
        return found

    def list_facts(self, facts, y):
        for name, text in facts:
            element(self.svg, 'text', name, kind_='small', x=16, y=y)
            element(self.svg, 'text', text, x=LEFT, y=y)
            y += 18


def turns_said(count):
    return '{:,} turns'.format(count) if count > 1 else 'one turn'


def lettered(word):
    """The letters of a word in quotes, where it has some."""
    return ", '%s'" % letters(word) if letters(word) else ''


def kinds_of(dispatch):
    """The kinds of mark of a dispatch: its cause, and where that is 1 each line that was taken."""
    lines = [line for line in range(8) if int(dispatch.data, 16) >> line & 1] if dispatch.cause == 1 else []
    return [(1, line) for line in lines] or [(dispatch.cause, NO_LINE)]


def about(kind):
    """The name, the colour and the form of a kind of mark."""
    cause, line = kind
    if line != NO_LINE:
        return 'line %d' % line, 'c1', str(line)
    return CAUSES.get(cause, ('cause %d' % cause, 'c0', 'disc'))


def joined(spans):
    """Spans, with those put together that stand less than half a unit apart."""
    found = []
    for first, last in spans:
        if found and first - found[-1][1] < 0.5:
            found[-1] = (found[-1][0], last)
        else:
            found.append((first, last))
    return found


def merged(spans):
    """Spans with the share that they fill. Where there are many, those that stand within two units become one."""
    if len(spans) <= 200:
        return [(first, last, 1.0) for first, last in spans]
    found = []
    for first, last in spans:
        if found and first - found[-1][1] < 2 and last - found[-1][0] < 8:
            before = found[-1]
            found[-1] = (before[0], last, before[2] + last - first)
        else:
            found.append((first, last, last - first))
    return [(first, last, filled / max(last - first, 1e-9)) for first, last, filled in found]


SHAPES = {'up': [(0, -6), (6, 5), (-6, 5)], 'down': [(0, 6), (6, -5), (-6, -5)], 'diamond': [(0, -6.5), (6.5, 0), (0, 6.5), (-6.5, 0)],
          'square': [(-5, -5), (5, -5), (5, 5), (-5, 5)], 'box': [(-6.5, -3), (6.5, -3), (6.5, 3), (-6.5, 3)], 'bar': [(-2.5, -7), (2.5, -7), (2.5, 7), (-2.5, 7)],
          'cross': [(-5.5, -2.5), (-2.5, -5.5), (0, -3), (2.5, -5.5), (5.5, -2.5), (3, 0), (5.5, 2.5), (2.5, 5.5), (0, 3), (-2.5, 5.5), (-5.5, 2.5), (-3, 0)]}


def shape(parent, form, x, y, kind, said, size=1.0):
    """A mark around a point; a digit is its own."""
    if form.isdigit():
        return digit(parent, form, x, y, kind, said, size)
    if form == 'disc':
        return element(parent, 'circle', kind_=kind, cx=x, cy=y, r=5 * size, title=said)
    if form == 'block':
        return element(parent, 'rect', kind_=kind, x=x - 6, y=y - 6, width=16, height=12, title=said)
    if form == 'dash':
        return element(parent, 'line', kind_=kind, x1=x - 8, x2=x + 10, y1=y, y2=y)
    if form == 'ring':
        return element(parent, 'rect', kind_=kind, x=x - 2.5, y=y - 2.5, width=5, height=5, title=said)
    points = ' '.join('%s,%s' % (number(float(x + size * right)), number(float(y + size * down))) for right, down in SHAPES[form])
    return element(parent, 'polygon', kind_=kind, points=points, title=said)


def digit(parent, form, x, y, kind, said, size):
    """The mark of a line: a box with its number, and where marks are small the number alone."""
    group = element(parent, 'g', title=said)
    if size > 0.8:
        element(group, 'rect', kind_=kind, x=x - 5.5, y=y - 6.5, width=11, height=13, rx=2)
    element(group, 'text', form, kind_='digit' if size > 0.8 else 'digit ' + kind.split()[-1], x=x, y=y + (4 if size > 0.8 else 3), text_anchor='middle')
    return group


def draw(boot_text, trace_texts, title='a run', turns=None, window=(None, None), facts=True):
    """The picture of a boot's text, with those of traces, as an SVG's text. Raises BadText where a text is none of them."""
    boot = rows.Boot(boot_text)
    return Drawing(boot, [rows.Trace(text) for text in trace_texts], title, turns, window, facts).draw()


def read(name):
    with open(name, encoding='utf-8', errors='replace') as file:
        return file.read()


def draw_files(boot, traces, to, title, turns, window=(None, None)):
    """Draws the texts of files into a file."""
    svg = draw(read(boot), [read(name) for name in traces], title, turns, window)
    pipes.put(to, svg.encode('utf-8'))


def is_picture(text):
    """Whether a text is a whole SVG."""
    try:
        return re.sub(r'\{.*\}', '', ElementTree.fromstring(text).tag) == 'svg'
    except ElementTree.ParseError:
        return False

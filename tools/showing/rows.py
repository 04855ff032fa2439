"""Events of a run as rows with source lines."""
from oracle.replay import signed_words


def place(event):
    return '%s:%s' % (event.file, event.line) if event.line else event.file


def change(name, old, new):
    return '%s = %d (was %d)' % (name, new, old)


class Rows:
    """Makes rows of events; `put` takes each. A row of a primitive waits for what is stored of its answer."""

    def __init__(self, put, user=None, kernel=False):
        self.put, self.user, self.kernel = put, user, kernel
        self.waits, self.head, self.under_way = None, None, None

    def take(self, events):
        for event in events:
            if self.is_wanted(event):
                if event.kind != 'stored' or not self.waits or self.waits[0].text != event.text or self.waits[0].line != event.line:
                    self.flush()
                getattr(self, event.kind)(event)
        self.flush()

    def is_wanted(self, event):
        if self.kernel:
            return event.kind not in ('step', 'trap') and not getattr(event, 'by', 0)
        if not self.user:
            return True
        if event.kind in ('step', 'trap'):
            return event.user == self.user
        return getattr(event, 'by', 0) == self.user or (event.kind == 'primitive' and self.user in changed_users(event))

    def end(self):
        """The end of the rows, where a user in C0 may be between two traps."""
        if self.under_way:
            self.put('turn %d  user %d  is between two calls of trap, at %s: its statements stand at the turn of the next one' % self.under_way)

    def flush(self):
        if self.waits:
            event, more = self.waits
            self.waits = None
            self.statement(event, primitive_text(event) + more)

    def statement(self, event, what):
        if event.by and self.head != (event.turn, event.by):
            self.head = event.turn, event.by
            self.put('turn %d  user %d  in %s since its last trap' % (event.turn, event.by, event.file))
        lead = '' if not self.user or event.by else 'turn %d  ' % event.turn
        self.put(('%s%s%-14s  %-36s  %s' % (lead, '  ' * max(1, event.depth), place(event), event.text, what)).rstrip())

    # ---- one method a kind of event
    def step(self, event):
        if event.by_source:
            self.under_way = event.turn, event.user, place(event)
            return
        what = ['taken' if event.taken else 'not taken'] if event.taken is not None else []
        what += [change(*one) for one in signed_words(event.changes)]
        what += ['traps'] if event.trap else []
        self.put(('turn %d  user %d  %08x  %-12s  %-24s  %s' % (event.turn, event.user, event.pc, place(event), event.text, ', '.join(what))).rstrip())

    def trap(self, event):
        self.under_way = None
        what = event.ended or 'trap(%d) calls the kernel' % event.argument
        self.put('turn %d  user %d  %-14s  %-36s  %s' % (event.turn, event.user, place(event), event.text, what))

    def dispatch(self, event):
        self.put('turn %d  dispatch(%d, %d, %d)  %s' % (event.turn, event.cause, event.data, event.user, event.why))

    def call(self, event):
        event.text = '%s(%s)' % (event.name, ', '.join('%s = %s' % arg for arg in event.args))
        self.statement(event, '')

    def returned(self, event):
        self.statement(event, '%s is %s' % (event.name, event.answer))

    def tested(self, event):
        answer = 'true' if event.answer else 'false'
        self.statement(event, '%s, as `%s` is' % (answer, event.by_part) if event.by_part else answer)

    def stored(self, event):
        what = '%s = %s%s' % (event.name, event.new, ' (was %s)' % event.old if event.old != event.new else '')
        if self.waits:
            self.waits = self.waits[0], '; ' + what
        else:
            self.statement(event, what)

    def primitive(self, event):
        self.waits = event, ''

    def console(self, event):
        self.put('  console  %08x  %d' % (event.word, event.word - (event.word >> 31 << 32)))

    def fault(self, event):
        self.put('  %-14s  %-36s  fault %s: %s' % (place(event), event.text, event.fault, event.why))

    def next(self, event):
        if not event.fault:
            self.put('  next %d%s' % (event.next, '' if event.next else ': the run halts'))
        elif event.fault == 'BadUser':
            self.put('  fault BadUser: dispatch answers no user')


def changed_users(event):
    """The users that a primitive may have changed."""
    if event.answer != 'true':
        return ()
    return event.args[2:3] if event.name == 'vm_copy' else event.args[:1] if event.name in ('vm_set', 'vm_resize', 'vm_put') else ()


def primitive_text(event):
    text = '%s(%s) is %s' % (event.name, ', '.join(map(str, event.args)), event.answer)
    return text + (': ' + event.why if event.why else '')

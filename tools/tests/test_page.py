"""Pages of runs: their data by node against the run made again, windows, sizes, and the words of ./try."""
import re
import tempfile
import unittest

from explain import pages
from paging import page, record
from running import guard, rooms, try_main
from showing import looking, wanted
from tests import browsing, page_against_program as against, page_parts as parts
from oracle import journals, values
from oracle import run as running
from oracle.assembler import assemble
from oracle.c0.tree import Parser
from oracle.replay import Given, Replay, User

PARAMS = 'pages 3\nframes 8\nheap 9\nstack 64\n'
KERNEL = '''struct entry { int user; bool even; struct entry* next; };
struct entry* first;
int[3][2] last;
int turns;
bool odd;

int put(int user) {
  last[turns % 2][0] = user;
  turns = turns + 1;
  return turns;
}

int dispatch(int cause, int data, int user) {
  struct entry* made; bool ok; int number; int next;
  odd = !odd;
  next = 3 - user;
  if (cause == 0) { next = 1; }
  if (cause == 6) {
    made = new struct entry;
    if (made != null) { made->user = user; made->next = first; made->even = !odd; first = made; }
    number = put(user);
    ok = vm_put(2, 512, number);
    ok = vm_copy(2, 512, 1, 600, 1);
    ok = vm_set(user, 7, 0 - number);
    ok = con_put(65 + number);
    ok = vm_resize(1, 1 + number % 3);
    ok = vm_resize(2, 9);
    if (number == 12) { next = 0; }
  }
  return next;
}
'''
COPIES = '''int dispatch(int cause, int data, int user) {
  bool ok;
  if (cause == 0) { ok = vm_resize(2, 1); ok = vm_copy(1, 0, 2, 0, 1024); }
  if (cause == 6) { ok = vm_resize(user, 0); }
  return 2;
}
'''
# A function whose variables are single words, a struct, an array and a pointer, some of them looked at before they are set.
LOCALS = '''struct pair { int left; bool[2] right; };
struct pair* kept;

int pick(int user) {
  int at; struct pair both; int[14] seen; bool done; struct pair* none;
  seen[at] = user;
  both.right[1] = true;
  while (!done) {
    at = at + 1;
    seen[at] = seen[at - 1] + user;
    done = at == 12;
    none = kept;
  }
  both.left = seen[12];
  kept = new struct pair;
  return both.left;
}

int dispatch(int cause, int data, int user) {
  int next; bool ok;
  next = pick(user);
  ok = vm_set(1, 7, next);
  return 1;
}
'''
# Of each statement of these lines the turn, the line, and the functions with their variables behind the statement before it.
BEFORE_LINES = '''
const run = new page.Run(data), told = [];
for (let place = 1; place < run.turns.length; place++) {
  if (!run.isStatement(place) || !LINES.includes(run.atLines[place])) continue;
  run.go(place - 1);
  told.push([run.turns[place], run.atLines[place], run.calls().map(frame => frame.name + ': ' + [...frame.variables].map(pair => pair.join(' = ')).join(', '))]);
}
console.log(JSON.stringify(told));
'''
USERS = ['loop: addiu r2, r2, 1\nsw r2, 256(r0)\nmult r2, r2\nsyscall 3\nj loop\n', 'again: addiu r3, r3, -1\nsyscall 4\nbne r3, r0, again\n']
STATES = '''
const run = new page.Run(data), states = [], text = value => JSON.stringify(value);
const state = () => ({ globals: data.globals.map(([name, type, first]) => run.value(type, run.globals, first)), objects: run.objects.map(([first, type]) => run.value(type, run.heap, first)),
  console: run.console, current: run.current, users: run.users.map(user => ({ r: user.r, mem: Object.fromEntries([...user.memory].sort((a, b) => a[0] - b[0])) })) });
for (let turn = run.first - 1; turn <= run.last; turn++) { run.go(run.complete(turn)); states.push(JSON.parse(text(state()))); }
const forward = states.map(text), back = [];
for (let turn = run.last; turn >= run.first - 1; turn--) { run.go(run.complete(turn)); back.unshift(text(state())); }
const jumps = [];
for (const turn of [5, 0, 9, 3]) { run.go(run.complete(run.first + turn)); jumps.push(text(state()) === forward[turn + 1]); }
run.go(run.turns.length - 1);
console.log(text({ states, same: text(back) === text(forward), jumps, journals: run.users.map((user, at) => run.journal(at + 1)), rows: run.rowsOf(run.last).map(row => row.text) }));
'''


def given_of(turns=100000, kernel=KERNEL, users=USERS):
    words = [assemble(text) for text in users]
    system = running.System(Parser(kernel), words, PARAMS, '')
    printed = '\n'.join(running.boot_rows(system, turns, {})) + '\n'
    return Given(kernel, [User('user%d.s' % n, text, w) for n, (text, w) in enumerate(zip(users, words), 1)], PARAMS, '', printed), system


def state_of(replay):
    """The state of a run made again, as the script tells that of the page."""
    kernel = replay.kernel
    objects = [values.whole(kernel.unit, t, kernel.heap, first, kernel.objects) for first, t in kernel.objects]
    users = [{'r': [*flat.r, flat.pc, flat.hi, flat.lo, flat.pages()], 'mem': {str(4 * at): word for at, word in enumerate(flat.m) if word}} for flat in replay.users]
    return {'globals': [value for _, _, value in values.global_values(kernel)], 'objects': objects, 'console': kernel.log, 'current': replay.run.current, 'users': users}


def page_of(given, window=(None, None), total=10**6):
    """The text of a page and its record."""
    text, made = page.made_page(given, 'a <run>', window, min(total, given.printed.last + 1), lambda first, last: '')
    return text.decode(), made


@unittest.skipUnless(parts.has_node(), 'node is missing, so the logic of pages is not tested')
class Logic(unittest.TestCase):
    def test_each_state_on_back_and_by_jumps(self):
        for window in ((None, None), (7, None), (7, 30)):
            given, _ = given_of()
            text, made = page_of(given, window)
            told = parts.node(STATES, parts.data_of(text))
            replay = Replay(given)
            replay.quietly(made.first)
            for number, state in enumerate(told['states']):
                self.assertEqual(state, state_of(replay), (window, number))
                replay.quietly(made.first + number + 1)
            self.assertTrue(told['same'] and all(told['jumps']), window)

    def test_journals_are_those_of_a_trace(self):
        given, system = given_of()
        told = parts.node(STATES, parts.data_of(page_of(given)[0]))
        for user, journal in enumerate(told['journals'], 1):
            rows = journals.trace_rows(system, 100000, {}, user)
            own = [row for _, row in journal['rows']] + (['steps %d' % journal['steps']] if journal['steps'] else [])
            self.assertEqual(own, rows[:rows.index('halted')])

    def test_where_to_go(self):
        script = '''
const run = new page.Run(data), seen = {}, told = [];
const go = (name, to) => { run.go(to); told.push([name, run.turn, run.part]); };
run.go(-1);
go('dispatch', run.dispatchOn()); go('dispatch', run.dispatchOn()); go('statement', run.statementOn()); go('statement', run.statementOn()); go('back', run.statementBack());
go('turn', run.turnOn()); go('turn', run.turnOn()); go('back', run.turnBack()); go('dispatch back', run.dispatchBack());
go('change', run.toChange(1, 'g:turns')); go('change', run.toChange(1, 'h:2')); go('change', run.toChange(1, 'm:1:256')); go('change', run.toChange(1, 'con')); go('change', run.toChange(-1, 'r:2:3'));
go('stop', run.toStop(1, new Set(['0:9']))); go('stop', run.toStop(1, new Set(['1:2']))); go('none', run.toStop(1, new Set(['0:1'])));
run.go(run.toStop(1, new Set(['0:9'])));
console.log(JSON.stringify({ told, calls: run.calls().map(f => [f.name, [...f.variables]]), changed: [...run.changedHere().keys()].map(slot => run.slotName(slot)),
  hash: page.ofHash(page.toHash({ turn: 3, choice: 'g:a b', lines: '0:9,1:2', user: '' })), letters: [65, 0x4142, 0x41000042, 7].map(page.letters) }));
'''
        found = parts.node(script, parts.data_of(page_of(given_of()[0])[0]))
        self.assertEqual(found['told'], [['dispatch', 0, 0], ['dispatch', 4, 1], ['statement', 4, 2], ['statement', 4, 3], ['back', 4, 2], ['turn', 4, found['told'][5][2]],
                                         ['turn', 5, 0], ['back', 4, found['told'][5][2]], ['dispatch back', 4, 1], *found['told'][9:]])
        self.assertEqual([turn for _, turn, _ in found['told'][9:]], [4, 6, 9, 11, 5, 6, 9, 9])
        self.assertEqual([name for name, _ in found['calls']], ['dispatch', 'put'])
        self.assertEqual(found['calls'][1][1], [['user', '1']])
        self.assertIn('turns', found['changed'])
        self.assertEqual(found['hash'], {'turn': '3', 'choice': 'g:a b', 'lines': '0:9,1:2'})
        self.assertEqual(found['letters'], ['A', 'AB', '', ''])

    def test_variables_are_those_that_a_break_tells(self):
        lines, asked, rows, stops = [6, 7, 8, 9, 10, 11, 12, 14, 15, 22], wanted.Wanted(), [], []
        given, _ = given_of(12, LOCALS)
        for line in lines:
            asked.take('--break', ['kernel.c0:%d' % line])
        looking.way_of(Replay(given), asked, rows.append)(12)
        for row in rows:
            at, frame = re.match(r'turn (\d+)  kernel.c0:(\d+)', row), re.match(r'  (\w+), at kernel.c0:\d+(: .*)', row)
            if at:
                stops.append([int(at[1]), int(at[2]), []])
            elif frame:
                stops[-1][2].append(frame[1] + frame[2])
        self.assertEqual(parts.node(BEFORE_LINES.replace('LINES', str(lines)), parts.data_of(page_of(given)[0])), stops)
        self.assertEqual(stops[0][2][1], 'pick: user = 0, at = 0, both = {left: 0, right: {false, false}}, seen = {0, 0, 0, 0, 0, 0, 0, 0, 0, 0, 0, 0, ..}, done = false, none = null')
        self.assertTrue(any('both = {left: 0, right: {false, true}}, seen = {1, 2, 3, 0, ' in shown and 'none = -> struct pair #1' in shown for _, _, frames in stops for shown in frames))

    def test_a_process_has_the_source_of_the_program_that_was_copied_to_it(self):
        script = '''
const run = new page.Run(data), stops = new Set(['1:2']);
run.go(-1);
run.go(run.toStop(1, stops));
const place = run.place;
console.log(JSON.stringify([run.turn, run.stepText(place), [...run.linesHere(1)], [-1, 0, 1, 2].map(turn => run.origin(2, turn)), run.toStop(1, stops) === place]));
'''
        for window in ((None, 3), (2, 3)):
            given, _ = given_of(5, COPIES, ['ori r1, r0, 5\nloop: syscall 2\nj loop\n', '# a place'])
            turn, row, lines, origins, is_last = parts.node(script, parts.data_of(page_of(given, window)[0]))
            self.assertEqual((turn, row, lines, is_last), (2, 'user 2  00000004  user1.s:2  loop: syscall 2  traps', [2], True))
            self.assertEqual(origins, [2, 2, 1, 1])

    def test_other_data_is_found(self):
        """The comparison with the program's reports sees one wrong word, register, global or word of the console."""
        given, system = given_of()
        text, _ = page_of(given)
        rows = running.boot_rows(system, 100000, {})
        last = given.printed.last
        for change in ('', 'run.globals[7]++', 'run.console.push(3)', 'run.users[0].r[2]++', 'run.users[1].memory.set(8, 1)'):
            script = against.BY_NODE.replace('TURNS', str([last])).replace('run.go(run.complete(turn));', 'run.go(run.complete(turn)); %s;' % change)
            said = against.differences(last, parts.node(script, parts.data_of(text))[str(last)], parts.report(rows))
            self.assertEqual(len(said), 1 if change else 0, change)


# A system that goes on for ever: users that count and call, and a kernel with a queue, objects and a console.
BUSY = '''struct entry { int user; struct entry* next; };
struct entry* first;
int[8] queue;
int[4] counts;
int head; int tail; int calls; int total;

int put(int user) {
  queue[tail % 8] = user;
  tail = tail + 1;
  return tail;
}

int dispatch(int cause, int data, int user) {
  struct entry* made; bool ok; int number; int next; int value;
  next = 1;
  if (cause == 6) {
    calls = calls + 1;
    counts[user] = counts[user] + 1;
    if (calls % 100 == 0) {
      made = new struct entry;
      if (made != null) { made->user = user; made->next = first; first = made; }
    }
    value = vm_get(user, 4);
    total = total + value;
    ok = vm_put(3, 1024 + 4 * user, total);
    ok = vm_set(user, 7, 0 - total);
    if (calls % 50 == 0) { ok = con_put(total); }
    number = put(user);
    next = user % 3 + 1;
  }
  return next;
}
'''
COUNTS = 'loop: addiu r4, r4, 1\nsw r4, 256(r0)\nmult r4, r4\nmflo r5\naddiu r6, r6, 1\nandi r6, r6, 15\nsll r7, r6, 2\nsw r5, 512(r7)\nsyscall 3\nj loop\n'
CALLS = 'loop: addiu r4, r4, 1\nsyscall 3\nj loop\n'


@unittest.skipUnless(parts.browser(), 'no Chromium is installed, so no page is opened')
class Opening(unittest.TestCase):
    def test_a_page_is_open_within_a_second(self):
        """The page's own thread takes less than a second of a processor until it is painted: its time by the clock is of the machine, too."""
        with rooms.room('cvm-page-') as room, browsing.browsing(parts.browser()) as browser:
            browser.ask('Performance.enable', timeDomain='threadTicks')
            for turns, user in ((1000, COUNTS), (10000, COUNTS), (10000, CALLS)):
                text, made = page_of(given_of(turns, BUSY, [user] * 3)[0], total=turns)
                self.assertGreater(made.last - made.first, turns - 30)
                name = room + '/page.html'
                with open(name, 'w', encoding='utf-8') as file:
                    file.write(text)
                browser.open('about:blank')
                before = browser.thread_seconds()
                browser.open('file://' + name)
                self.assertLess(browser.thread_seconds() - before, 1, (turns, user))
                self.assertEqual(browser.value('document.getElementById("turnname").textContent'), 'turn %d' % made.first)
                browser.key('End')
                self.assertEqual(browser.value('document.getElementById("turnname").textContent'), 'turn %d' % made.last)


class Pages(unittest.TestCase):
    def test_a_page_needs_no_network(self):
        text, _ = page_of(given_of()[0])
        self.assertEqual(re.findall(r'(?:https?:|url\(|@import|src=|<link)[^"\']*', text.replace('http://www.w3.org/2000/svg', '')), [])
        self.assertIn("default-src 'none'", text)
        self.assertIn('<title>a &lt;run&gt;</title>', text)
        self.assertNotIn('<run>', text)

    def test_it_can_be_read_without_a_mouse(self):
        text = page.part('page.html') + page.part('page.js')
        for part in ('lang="en"', 'role="toolbar"', 'aria-live="polite"', 'aria-keyshortcuts="ArrowRight"', 'aria-label="turn"', 'role="listbox"', 'aria-activedescendant', 'aria-current',
                     'aria-pressed', '<label for="number">'):
            self.assertIn(part, text)
        self.assertIn('prefers-color-scheme: dark', page.part('page.css'))
        self.assertIn(':focus-visible', page.part('page.css'))

    def test_windows(self):
        self.assertEqual([page.window_of(*wanted) for wanted in ((None, None, 50), (3, None, 50), (None, 9, 50), (3, 90, 50), (None, None, 25000), (4, None, 25000))],
                         [(0, 49), (3, 49), (0, 9), (3, 49), (15000, 24999), (4, 24999)])
        for wanted in ((50, None, 50), (0, None, 0)):
            with self.assertRaises(guard.Bad) as caught:
                page.window_of(*wanted)
            self.assertEqual(caught.exception.status, 70)

    def test_what_is_too_much_is_left_out(self):
        given, _ = given_of()
        last = given.printed.last
        late = page.recorded(given, 0, last, last + 1, 1500, False)
        self.assertEqual(late.last, last)
        self.assertGreater(late.first, 0)
        early = page.recorded(given, 2, last, last + 1, 1500, True)
        self.assertEqual(early.first, 2)
        self.assertLess(early.last, last)
        for made in (late, early):
            self.assertLessEqual(sum(len(row) + 1 for row in made.turns), 1500)
            self.assertTrue(all(made.first <= turn <= made.last for rows in made.told.values() for turn, _ in rows))
        with self.assertRaises(guard.Bad):
            page.recorded(given, 4, last, last + 1, 10, True)

    def test_long_memories_are_short(self):
        self.assertEqual(record.runs_of([1, 0, 0, 2, 0, 0, 0, 0, 3]), [[0, [1, 0, 0, 2]], [32, [3]]])

    def test_words(self):
        with tempfile.TemporaryDirectory() as room:
            name = room + '/x.html'
            for words, part in ((['--page', name, '--trace', '1'], 'go with the boot alone'), (['--page', name, '--show'], 'leave out --show'), (['--from', '3'], 'give one of them'),
                                (['--page', name, '--from', '5', '--to', '4'], 'is to come first'), (['--page', name, '--picture', name], 'give two names'),
                                (['--page', room], 'is a folder'), (['--page', 'none/x'], 'no folder'), (['examples/faults', '--page', name], 'for one folder')):
                options = try_main.options_of([pages.TOP + '/examples/adder', *words])
                with self.assertRaises(guard.Bad) as caught:
                    try_main.checked(options)
                self.assertIn(part, str(caught.exception))
            for words in (['--from', 'x'], ['--to', '-1'], ['--page']):
                with self.assertRaises(guard.Bad):
                    try_main.options_of(words)
            good = try_main.options_of([pages.TOP + '/examples/adder', '--page', name, '--from', '2', '--to', '5'])
            try_main.checked(good)
            self.assertEqual((good.page, good.first, good.last), (name, 2, 5))

    def test_a_run_that_differs_makes_no_page(self):
        given, _ = given_of()
        given.printed.rows[3] = given.printed.rows[3][0], 'another row'
        given.printed.by_turn = dict(given.printed.rows)
        with self.assertRaises(page.Differs):
            page_of(given)

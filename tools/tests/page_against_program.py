"""A page of an example: it is stepped through in a real browser where one is installed, and by node where not, and what it shows at ten turns is compared
with what the program reports of a boot that ends there. `tools/tests/page_against_program.py [--checked] [EXAMPLE..]`"""
import os
import sys

sys.dont_write_bytecode = True
sys.path.insert(0, os.path.dirname(os.path.dirname(os.path.realpath(__file__))))
from explain import pages  # noqa: E402
from running import guard, rooms, system, try_main  # noqa: E402
from running.folder import Folder  # noqa: E402
from running.guard import Bad, say  # noqa: E402
from paging import page as paging  # noqa: E402
from tests import page_parts as parts  # noqa: E402

NUMBERS = {'32': 'pc', '33': 'hi', '34': 'lo', '35': 'pages'}


def quiet(text):
    """Puts nothing."""


def built(start, name, work):
    """An example that is compiled and linked."""
    run = system.Run(start, Folder(os.path.join(pages.TOP, 'examples', name)), work, quiet, say)
    if run.build():
        raise Bad('%s could not be built' % name, 70)
    return run


def page_of(run):
    """The text of an example's page, and how many turns the run has."""
    options = try_main.Options()
    options.page = run.made('page.html')
    run.boot(options.turns, options.steps)
    if paging.put_page(run, run.folder, options):
        raise Bad('no page was put', 70)
    with open(options.page, encoding='utf-8') as file:
        text = file.read()
    with open(run.made('boot'), encoding='latin-1') as file:
        last = [row for row in file.read().split('\n') if row.startswith('turn ')][-1]
    return text, int(last.split(' ')[1]) + 1


def reports(run, turns):
    """What the program reports of boots of so many turns."""
    found = {}
    for turn in turns:
        run.boot(turn + 1, 1000000)
        with open(run.made('boot'), encoding='latin-1') as file:
            rows = file.read().rstrip('\n').split('\n')
        found[turn] = parts.report(rows)
    return found


def hexadecimal(text):
    return '%08x' % (int(text) & 0xffffffff)


def register(name, text):
    return text if name in ('pc', 'pages') else hexadecimal(text)


def differences(turn, shown, wanted):
    """What the page shows otherwise than the program reports, in sentences."""
    said = []
    for name, value in wanted['globals'].items():
        other = shown['globals']['g:' + name]
        if ('set' if other.startswith('-> ') else other) != value:
            said.append('turn %d: the page shows %s = %s, and the program reports %s' % (turn, name, other, value))
    if shown['console'] != wanted['console']:
        said.append('turn %d: the page shows the console %s, and the program reports %s' % (turn, shown['console'], wanted['console']))
    for number, (user, other) in enumerate(zip(shown['users'], wanted['users']), 1):
        registers = {}
        for choice, text in user['registers'].items():
            at = choice.split(':')[2]
            name = NUMBERS.get(at, 'r' + at)
            registers[name] = register(name, text)
        registers = {name: value for name, value in registers.items() if value != '00000000' or name == 'pc'}
        memory = {int(choice.split(':')[2]): hexadecimal(text) for choice, text in user['memory'].items() if text != '0'}
        for what, own, theirs in (('registers', registers, other['r']), ('words', memory, other['mem'])):
            if own != theirs:
                said.append('turn %d: of user %d the page shows the %s %s, and the program reports %s' % (turn, number, what, own, theirs))
    return said


def addresses(told):
    """For each user the addresses from which 32 words are looked at, so that each word which a report has is seen, and the ones around it."""
    users = len(next(iter(told.values()))['users'])
    return [sorted({at // 128 * 128 for report in told.values() for at in report['users'][number]['mem']}) for number in range(users)]


BY_NODE = '''
const run = new page.Run(data), told = {};
for (const turn of TURNS) {
  run.go(run.complete(turn));
  told[turn] = { console: run.console.map(page.hex), globals: Object.fromEntries(data.globals.map(([name, type, first]) => ['g:' + data.texts[name], run.value(type, run.globals, first)])),
    users: run.users.map((user, at) => ({ registers: Object.fromEntries(user.r.map((word, r) => ['r:' + (at + 1) + ':' + r, r === 32 ? page.hex(word) : String(r === 35 ? word : page.signed(word))])),
      memory: Object.fromEntries([...user.memory].map(([a, word]) => ['m:' + (at + 1) + ':' + a, String(page.signed(word))])) })) };
}
console.log(JSON.stringify(told));
'''
BY_BROWSER = '''
const places = ADDRESSES, result = {};
for (const turn of TURNS) {
  if (turn % 2) submit('goto', 'number', String(turn));
  else { submit('goto', 'number', String(turn - 2)); click('turnOn'); click('statementOn'); click('statementBack'); submit('goto', 'number', String(turn - 1)); click('turnOn'); }
  result[turn] = shown(places);
}
return result;
'''


def compared(start, name):
    """Compares an example's page with the program's reports. Gives what differs, in sentences."""
    with rooms.room('cvm-page-') as work:
        run = built(start, name, work)
        text, total = page_of(run)
        turns = sorted({max(1, total * number // 10 - 1) for number in range(1, 11)})
        told = reports(run, turns)
    said = []
    by_node = parts.node(BY_NODE.replace('TURNS', str(turns)), parts.data_of(text)) if parts.has_node() else {}
    by_browser = parts.in_browser(text, BY_BROWSER.replace('TURNS', str(turns)).replace('ADDRESSES', str(addresses(told)))) if parts.browser() else {}
    for turn in turns:
        for shown in [way[str(turn)] for way in (by_node, by_browser) if way]:
            said += differences(turn, shown, told[turn])
        if by_browser and by_browser[str(turn)]['turn'] != 'turn %d' % turn:
            said.append('turn %d: the page shows %s' % (turn, by_browser[str(turn)]['turn']))
    return ['%s: %s' % (name, sentence) for sentence in said]


def main(words):
    if not parts.browser():
        say('no Chromium is installed, so pages are tested by %s' % ('node alone' if parts.has_node() else 'nothing: node is missing, too'))
        if not parts.has_node():
            return 0
    options = try_main.Options()
    options.checked, words = '--checked' in words, [word for word in words if word != '--checked']
    start = try_main.start_of(options)
    said = [sentence for name in words or ['messages', 'services'] for sentence in compared(start, name)]
    say(said)
    return 1 if said else 0


if __name__ == '__main__':
    sys.exit(guard.guarded('page_against_program', main, sys.argv[1:]))

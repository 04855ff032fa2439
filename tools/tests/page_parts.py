"""What the tests of pages share: the data of a page, the logic of it by node, and a real browser where one is installed."""
import json
import os
import re
import shutil
import subprocess

from explain import pages
from running import rooms

LOGIC = os.path.join(pages.TOP, 'tools', 'paging', 'page.js')
BROWSERS = ('chromium', 'chromium-browser', 'google-chrome')
# Goes to turns by the page's buttons and fields, and puts what it shows into the page, from where it is read.
STEPS = '''
const told = [], click = name => document.querySelector('[data-do=' + name + ']').click();
const cells = box => Object.fromEntries([...document.querySelectorAll('#' + box + ' [data-choice]')].map(cell => [cell.dataset.choice, cell.querySelector('.value').textContent]));
const submit = (form, field, value) => { document.getElementById(field).value = value; document.getElementById(form).requestSubmit(); };
function shown(addresses) {
  const users = addresses.map((from, at) => {
    document.getElementById('user').value = at + 1;
    document.getElementById('user').dispatchEvent(new Event('change'));
    const memory = {};
    for (const address of from) { submit('address', 'from', String(address)); Object.assign(memory, cells('memory')); }
    return { registers: cells('registers'), memory };
  });
  return { hash: location.hash, turn: document.getElementById('turnname').textContent, globals: cells('globals'), users,
    console: [...document.querySelectorAll('#console .cell .name')].map(name => name.textContent) };
}
'''


def node(script, data):
    """What a script prints as JSON that has the page's logic as `page` and the data of a page as `data`."""
    with rooms.room('cvm-page-') as room:
        name = os.path.join(room, 'data.json')
        with open(name, 'w', encoding='utf-8') as file:
            file.write(data)
        head = 'const page = require(%s), data = JSON.parse(require("fs").readFileSync(%s, "utf8"));' % (json.dumps(LOGIC), json.dumps(name))
        done = subprocess.run(['node', '-e', head + script], stdin=subprocess.DEVNULL, capture_output=True, text=True, timeout=300)
    if done.returncode:
        raise AssertionError(done.stderr)
    return json.loads(done.stdout)


def has_node():
    return shutil.which('node') is not None


def browser():
    """The browser that is installed; None where none is."""
    return next(filter(None, map(shutil.which, BROWSERS)), None)


def data_of(page):
    """The data of a page's text."""
    return re.search(r'<script type="application/json" id="data">(.*?)</script>', page, re.S)[1]


def in_browser(page, script, dark=False):
    """What a script that runs in a page, behind its own, gives by `return`."""
    tail = '<script>%s\ndocument.body.dataset.told = JSON.stringify((() => { %s })());</script></body>' % (STEPS, script)
    with rooms.room('cvm-page-') as room:
        name = os.path.join(room, 'page.html')
        with open(name, 'w', encoding='utf-8') as file:
            file.write(page.replace('</body>', tail))
        words = [browser(), '--headless=new', '--no-sandbox', '--disable-gpu', '--user-data-dir=' + os.path.join(room, 'profile'), '--dump-dom', 'file://' + name]
        done = subprocess.run(words, stdin=subprocess.DEVNULL, capture_output=True, text=True, timeout=600)
    found = re.search(r'data-told="([^"]*)"', done.stdout)
    if not found:
        raise AssertionError('the browser told nothing: ' + done.stderr[-2000:])
    return json.loads(found[1].replace('&quot;', '"').replace('&lt;', '<').replace('&gt;', '>').replace('&amp;', '&'))


def report(rows):
    """The report of a boot: globals, the console's words, and of each user its registers and words by name."""
    found = {'globals': {}, 'console': [], 'users': []}
    for row in rows:
        kind, *words = row.split(' ')
        if kind == 'global':
            found['globals'][words[0]] = words[1]
        elif kind == 'con':
            found['console'].append(words[0])
        elif kind == 'user':
            found['users'].append({'r': {'pages': words[2], 'pc': words[4]}, 'mem': {}})
        elif kind == 'mem':
            found['users'][-1]['mem'][int(words[0], 16)] = words[1]
        elif kind in ('reg', 'hi', 'lo'):
            found['users'][-1]['r']['r' + words[0] if kind == 'reg' else kind] = words[-1]
    return found

"""A headless Chromium that a test speaks with, by its DevTools over two pipes: opens pages, runs scripts in them, and tells how long they took."""
import contextlib
import json
import os
import select
import subprocess
import time

from running import rooms

# How long one answer may take, in seconds.
MOST = 300
# What a page tells of its opening, in milliseconds since the navigation began: when its first picture stood, and when its own script was done.
OPENED = '''new Promise(done => requestAnimationFrame(() => setTimeout(() => {
  const of = kind => performance.getEntriesByType(kind), painted = of('paint').find(one => one.name === 'first-contentful-paint');
  done({ painted: painted ? painted.startTime : null, loaded: of('navigation')[0].domContentLoadedEventEnd, done: performance.now(), bytes: of('navigation')[0].decodedBodySize });
})))'''


class Browser:
    """A browser that runs. `work` is a folder for its profile."""

    def __init__(self, name, work):
        into, self.put = os.pipe()
        self.got, out = os.pipe()
        words = [name, '--headless=new', '--no-sandbox', '--disable-gpu', '--disable-extensions', '--no-first-run', '--remote-debugging-pipe', '--window-size=1280,900',
                 '--user-data-dir=' + os.path.join(work, 'profile'), 'about:blank']
        # the browser reads what it is told from descriptor 3, and answers on 4
        self.process = subprocess.Popen(['sh', '-c', 'exec "$@" 3<&%d 4>&%d' % (into, out), 'sh', *words], stdin=subprocess.DEVNULL, stdout=subprocess.DEVNULL,
                                        stderr=subprocess.DEVNULL, pass_fds=(into, out))
        os.close(into)
        os.close(out)
        self.number, self.kept, self.session, self.told = 0, b'', None, []
        targets = self.ask('Target.getTargets')['targetInfos']
        target = next(one['targetId'] for one in targets if one['type'] == 'page')
        self.session = self.ask('Target.attachToTarget', targetId=target, flatten=True)['sessionId']
        self.ask('Page.enable')

    def ask(self, method, **params):
        """What the browser answers."""
        self.number += 1
        asked = {'id': self.number, 'method': method, 'params': params}
        if self.session:
            asked['sessionId'] = self.session
        os.write(self.put, json.dumps(asked).encode() + b'\0')
        while True:
            said = self.next()
            if said.get('id') == self.number:
                if 'error' in said:
                    raise AssertionError('%s: %s' % (method, said['error']))
                return said['result']
            self.told.append(said.get('method'))

    def next(self):
        """The next message of the browser."""
        end = time.monotonic() + MOST
        while b'\0' not in self.kept:
            if not select.select([self.got], [], [], max(0, end - time.monotonic()))[0]:
                raise AssertionError('the browser says nothing')
            part = os.read(self.got, 1 << 20)
            if not part:
                raise AssertionError('the browser has ended')
            self.kept += part
        said, _, self.kept = self.kept.partition(b'\0')
        return json.loads(said)

    def open(self, address):
        """Opens a page, and waits until it is loaded. Gives what it tells of its opening."""
        self.told.clear()
        self.ask('Page.navigate', url=address)
        while 'Page.loadEventFired' not in self.told:
            self.told.append(self.next().get('method'))
        return self.value(OPENED)

    def value(self, script):
        """What an expression is in the page, once it is there."""
        found = self.ask('Runtime.evaluate', expression=script, awaitPromise=True, returnByValue=True)
        if 'exceptionDetails' in found:
            raise AssertionError(json.dumps(found['exceptionDetails'])[:2000])
        return found['result'].get('value')

    def thread_seconds(self):
        """How many seconds of a processor the thread of the page has taken, once `Performance.enable` was asked."""
        return next(one['value'] for one in self.ask('Performance.getMetrics')['metrics'] if one['name'] == 'ThreadTime')

    def dark(self, is_dark):
        """Has pages be told that dark ones are wanted, or light ones."""
        self.ask('Emulation.setEmulatedMedia', features=[{'name': 'prefers-color-scheme', 'value': 'dark' if is_dark else 'light'}])

    def key(self, name, text=''):
        """Presses a key and lets it go."""
        for kind in ('keyDown', 'keyUp'):
            self.ask('Input.dispatchKeyEvent', type=kind, key=name, **({'text': text} if text and kind == 'keyDown' else {}))

    def picture(self):
        """What is seen, as a PNG in base 64."""
        return self.ask('Page.captureScreenshot', format='png')['data']

    def end(self):
        with contextlib.suppress(OSError):
            os.close(self.put)
        try:
            self.process.wait(20)
        except subprocess.TimeoutExpired:
            self.process.kill()
            self.process.wait()
        os.close(self.got)


@contextlib.contextmanager
def browsing(name):
    """A browser, as long as it is used."""
    with rooms.room('cvm-browser-') as work:
        browser = Browser(name, work)
        try:
            yield browser
        finally:
            browser.end()

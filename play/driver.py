"""A playground that is served, and a headless Chromium that uses it as a person does."""
import os
import re
import signal
import subprocess
import sys
import time

HERE = os.path.dirname(os.path.realpath(__file__))
TOP = os.path.dirname(HERE)
sys.path.insert(0, os.path.join(TOP, 'view'))
from browser import Browser

CONTROL, SHIFT = 2, 8
KEY_CODES = {'Tab': 9, 'Enter': 13, 'Escape': 27, ' ': 32, 'ArrowLeft': 37, 'ArrowUp': 38, 'ArrowRight': 39, 'ArrowDown': 40, 'Delete': 46,
             '.': 190, '-': 189, '+': 187, '/': 191}


def tree(pid):
    """A process, and all that it started."""
    found, waiting = [], [str(pid)]
    while waiting:
        found.append(waiting.pop())
        waiting += subprocess.run(['ps', '-o', 'pid=', '--ppid', found[-1]], stdout=subprocess.PIPE, text=True, check=False).stdout.split()
    return found


def spent(pid):
    """The seconds of processor time of a process and all that it started, also of what has ended since."""
    ticks = 0
    for each in tree(pid):
        try:
            with open('/proc/%s/stat' % each, encoding='utf-8') as file:
                ticks += sum(int(field) for field in file.read().rpartition(')')[2].split()[11:15])
        except OSError:
            pass
    return ticks / os.sysconf('SC_CLK_TCK')


class Playground:
    """A process of ./playground."""

    def __init__(self, *words, command=os.path.join(TOP, 'playground'), **place):
        self.process = subprocess.Popen([command, *words], stdout=subprocess.PIPE, stderr=subprocess.PIPE, text=True, env={**os.environ, **place})
        line = self.process.stdout.readline()
        found = re.fullmatch(r'playground: (http://127\.0\.0\.1:(\d+)/([A-Za-z0-9_-]+)/)\n', line)
        if not found:
            raise RuntimeError('no address: %r, %s' % (line, self.process.stderr.read()))
        self.address, self.port, self.secret = found[1], int(found[2]), found[3]
        self.origin = 'http://127.0.0.1:%d' % self.port

    def end(self, number=signal.SIGINT):
        """Ends it by a signal, and tells the seconds that it took and the exit status."""
        begin = time.monotonic()
        self.process.send_signal(number)
        status = self.process.wait(20)
        self.process.stdout.close()
        self.process.stderr.close()
        return time.monotonic() - begin, status

    def __enter__(self):
        return self

    def __exit__(self, *_):
        if self.process.poll() is None:
            self.end()


class Person(Browser):
    """The browser, and what its console says."""

    def __init__(self, width=1280, height=800):
        self.said = []
        super().__init__(width, height)
        self.call('Runtime.enable')
        self.call('Log.enable')
        self.call('Page.enable')

    def receive(self):
        message = super().receive()
        parameters = message.get('params', {})
        if message.get('method') == 'Runtime.exceptionThrown':
            details = parameters['exceptionDetails']
            self.said.append(details.get('exception', {}).get('description', details['text']))
        if message.get('method') == 'Runtime.consoleAPICalled' and parameters['type'] in ('error', 'warning', 'assert'):
            self.said.append(' '.join(str(each.get('value', each.get('description'))) for each in parameters['args']))
        if message.get('method') == 'Log.entryAdded' and parameters['entry']['level'] in ('error', 'warning'):
            self.said.append('%(source)s: %(text)s' % parameters['entry'] + ' ' + parameters['entry'].get('url', ''))
        return message

    def visit(self, address):
        """Opens the playground and waits for its picture."""
        self.call('Page.navigate', url='about:blank')
        self.call('Page.navigate', url=address)
        self.until('document.readyState === "complete" && !!window.playground && playground.isSettled')
        self.frame()

    def until(self, holds, seconds=30):
        """Waits until an expression holds."""
        end = time.monotonic() + seconds
        while not self.run('!!(%s)' % holds):
            if time.monotonic() > end:
                raise RuntimeError('it does not come to hold: %s; %s' % (holds, self.said))
            time.sleep(.01)

    def settle(self):
        """Waits until the answer on the last change stands."""
        self.frame()
        self.until('playground.isSettled')
        self.frame()

    def box(self, selector):
        """The middle of an element that is seen."""
        return self.run('(() => { const e = document.querySelector(%r); e.scrollIntoView({ block: "nearest" }); const b = e.getBoundingClientRect();'
                        ' return [b.left + b.width / 2, b.top + b.height / 2]; })()' % selector)

    def press(self, selector):
        """A click on an element."""
        self.click(*self.box(selector))

    def press_words(self, words, inside='document'):
        """A click on the button that has these words."""
        place = self.run('(() => { const e = [...%s.querySelectorAll("button, summary, a")].find(e => e.textContent.trim() === %r && e.offsetParent);'
                         ' if (!e) return null; e.scrollIntoView({ block: "nearest" }); const b = e.getBoundingClientRect(); return [b.left + b.width / 2, b.top + b.height / 2]; })()' % (inside, words))
        if place is None:
            raise RuntimeError('there is no button %r' % words)
        self.click(*place)

    def spot(self, lane, beat):
        """Where a lane stands on the screen at a beat."""
        return self.run('(() => { const lane = timeline.model.lanes.get(%r); timeline.reveal(lane); timeline.drawNow(); const at = timeline.place(lane, %d),'
                        ' box = timeline.canvas.getBoundingClientRect(); return [box.left + at.x, box.top + at.y + at.height / 2]; })()' % (lane, beat))

    def strike(self, key, text='', modifiers=0):
        """A key, as the keyboard gives it."""
        code = KEY_CODES.get(key, ord(key.upper()) if len(key) == 1 else 0)
        more = {'text': text} if text else {}
        if key == 'Enter':
            more = {'text': '\r'}
        self.call('Input.dispatchKeyEvent', type='keyDown', key=key, windowsVirtualKeyCode=code, modifiers=modifiers, **more)
        self.call('Input.dispatchKeyEvent', type='keyUp', key=key, windowsVirtualKeyCode=code, modifiers=modifiers)
        self.frame()

"""A headless Chromium, spoken to over the pipe of its DevTools protocol, with the standard library alone."""
import base64
import json
import os
import shutil
import subprocess
import tempfile
import time

SWITCHES = ['--headless', '--no-sandbox', '--disable-gpu', '--hide-scrollbars', '--no-first-run', '--disable-dev-shm-usage',
            '--mute-audio', '--remote-debugging-pipe']


def find_or_install():
    """The command of the browser. Where there is none, the distribution's package is installed, for which one must be root."""
    for name in ('chromium', 'chromium-browser'):
        if shutil.which(name):
            return name
    subprocess.run(['apt-get', 'update', '-qq'], check=True)
    subprocess.run(['apt-get', 'install', '-y', '-qq', '--no-install-recommends', 'chromium'], check=True, stdout=subprocess.DEVNULL)
    return 'chromium'


class Browser:
    """One browser with one page. Each call waits for its answer; events are passed over."""

    def __init__(self, width=1280, height=800):
        self.folder = tempfile.TemporaryDirectory(ignore_cleanup_errors=True)
        to_read, self.output = os.pipe()
        self.input, to_write = os.pipe()
        # The protocol's two pipes are the descriptors 3 and 4 of the browser.
        command = 'exec nice -n 10 "$0" "$@" 3<&%d 4>&%d' % (to_read, to_write)
        arguments = [find_or_install(), *SWITCHES, '--user-data-dir=' + self.folder.name, '--window-size=%d,%d' % (width, height)]
        self.process = subprocess.Popen(['sh', '-c', command, *arguments], pass_fds=(to_read, to_write),
                                        stdout=subprocess.DEVNULL, stderr=subprocess.DEVNULL)
        os.close(to_read)
        os.close(to_write)
        self.rest, self.number, self.session = b'', 0, None
        target = self.call('Target.createTarget', url='about:blank')['targetId']
        self.session = self.call('Target.attachToTarget', targetId=target, flatten=True)['sessionId']
        self.call('Page.enable')
        self.call('DOM.enable')
        self.size(width, height)

    def close(self):
        self.process.terminate()
        self.process.wait(20)
        os.close(self.output)
        os.close(self.input)
        self.folder.cleanup()

    def __enter__(self):
        return self

    def __exit__(self, *_):
        self.close()

    def call(self, method, **parameters):
        self.number += 1
        message = {'id': self.number, 'method': method, 'params': parameters}
        if self.session:
            message['sessionId'] = self.session
        data = json.dumps(message).encode() + b'\0'
        while data:
            data = data[os.write(self.output, data):]
        while True:
            answer = self.receive()
            if answer.get('id') == self.number:
                break
        if 'error' in answer:
            raise RuntimeError('%s: %s' % (method, answer['error']))
        return answer['result']

    def receive(self):
        while b'\0' not in self.rest:
            more = os.read(self.input, 1 << 20)
            if not more:
                raise RuntimeError('the browser has ended')
            self.rest += more
        message, self.rest = self.rest.split(b'\0', 1)
        return json.loads(message)

    def run(self, expression):
        """The value of an expression in the page; a promise is awaited."""
        answer = self.call('Runtime.evaluate', expression=expression, returnByValue=True, awaitPromise=True)
        if 'exceptionDetails' in answer:
            details = answer['exceptionDetails']
            raise RuntimeError(details.get('exception', {}).get('description', details['text']))
        return answer['result'].get('value')

    def open(self, path):
        """Opens a page, and tells the seconds until it was drawn."""
        return self.open_link(path, '')

    def open_link(self, path, link):
        """The same of a page and the words behind its `#`."""
        begin = time.monotonic()
        self.call('Page.navigate', url='file://' + os.path.abspath(path) + link)
        while not self.run('document.readyState === "complete" && !!window.timeline'):
            time.sleep(.02)
        self.frame()
        return time.monotonic() - begin

    def frame(self):
        self.run('new Promise(done => requestAnimationFrame(() => requestAnimationFrame(done)))')

    def size(self, width, height, ratio=1):
        self.call('Emulation.setDeviceMetricsOverride', width=width, height=height, deviceScaleFactor=ratio, mobile=False)

    def choose_file(self, selector, path):
        root = self.call('DOM.getDocument')['root']['nodeId']
        node = self.call('DOM.querySelector', nodeId=root, selector=selector)['nodeId']
        self.call('DOM.setFileInputFiles', files=[os.path.abspath(path)], nodeId=node)

    def mouse(self, kind, x, y, **more):
        self.call('Input.dispatchMouseEvent', type=kind, x=x, y=y, **more)

    def click(self, x, y):
        self.mouse('mouseMoved', x, y)
        self.mouse('mousePressed', x, y, button='left', buttons=1, clickCount=1)
        self.mouse('mouseReleased', x, y, button='left', clickCount=1)
        self.frame()

    def drag(self, x, y, dx, dy):
        self.mouse('mousePressed', x, y, button='left', buttons=1, clickCount=1)
        for i in range(1, 9):
            self.mouse('mouseMoved', x + dx * i / 8, y + dy * i / 8, button='left', buttons=1)
        self.mouse('mouseReleased', x + dx, y + dy, button='left', clickCount=1)
        self.frame()

    def wheel(self, x, y, dx, dy, modifiers=0):
        self.mouse('mouseWheel', x, y, deltaX=dx, deltaY=dy, modifiers=modifiers)
        self.frame()

    def touch(self, kind, points):
        self.call('Input.dispatchTouchEvent', type=kind, touchPoints=[{'x': x, 'y': y, 'id': i} for i, (x, y) in enumerate(points)])

    def key(self, key, text=''):
        self.call('Input.dispatchKeyEvent', type='keyDown', key=key, **({'text': text} if text else {}))
        self.call('Input.dispatchKeyEvent', type='keyUp', key=key)
        self.frame()

    def type(self, text):
        for letter in text:
            self.key(letter, letter)

    def picture(self, path):
        self.frame()
        data = base64.b64decode(self.call('Page.captureScreenshot', format='png')['data'])
        with open(path, 'wb') as file:
            file.write(data)

    def paper(self, path):
        data = base64.b64decode(self.call('Page.printToPDF', preferCSSPageSize=True, printBackground=True)['data'])
        with open(path, 'wb') as file:
            file.write(data)

"""Firefox without a window, over Marionette: a page is opened, its elements are clicked, keys are typed, values are read."""

import base64
import json
import os
import shutil
import socket
import subprocess
import tempfile
import time

PROGRAM = shutil.which('firefox-esr') or shutil.which('firefox')


class Firefox:
    """A page in Firefox. A message is JSON with its length and a colon before it."""

    def __init__(self, url):
        self.home, self.number, self.buffer = tempfile.mkdtemp(), 0, b''
        with socket.create_server(('127.0.0.1', 0)) as free:
            port = free.getsockname()[1]
        with open(os.path.join(self.home, 'user.js'), 'w', encoding='utf-8') as file:
            file.write('user_pref("marionette.port", %d);\n' % port)
        size = {'MOZ_HEADLESS_WIDTH': '1680', 'MOZ_HEADLESS_HEIGHT': '950'}
        self.process = subprocess.Popen([PROGRAM, '--headless', '--marionette', '--no-remote', '--profile', self.home], stdout=subprocess.DEVNULL,
                                        stderr=subprocess.DEVNULL, env={**os.environ, **size, 'HOME': self.home})
        self.line = connected(port)
        self.next()
        self.call('NewSession')
        self.call('Navigate', url=url)

    def call(self, command, **params):
        """What Firefox answers to a command."""
        self.number += 1
        message = json.dumps([0, self.number, 'WebDriver:' + command, params]).encode()
        self.line.sendall(b'%d:%s' % (len(message), message))
        _, _, error, result = self.next()
        if error:
            raise RuntimeError('%s: %s' % (command, error['message']))
        return result['value'] if result and set(result) == {'value'} else result

    def next(self):
        """The next message of Firefox."""
        while b':' not in self.buffer or len(self.buffer.split(b':', 1)[1]) < int(self.buffer.split(b':', 1)[0]):
            piece = self.line.recv(1 << 20)
            if not piece:
                raise RuntimeError('Firefox has gone')
            self.buffer += piece
        size, rest = self.buffer.split(b':', 1)
        self.buffer = rest[int(size):]
        return json.loads(rest[:int(size)])

    def value(self, code):
        """The value of an expression in the page, or that of its promise once it is kept. The page's own names are not seen from here."""
        return self.call('ExecuteAsyncScript', args=[], script='const done = arguments[arguments.length - 1]; '
                         '(async () => (%s))().then(done, error => done("failed: " + error));' % code, newSandbox=False)

    def wait(self, code, most=40):
        """Waits until something is so."""
        end = time.monotonic() + most
        while self.value(code) is not True:
            if time.monotonic() > end:
                raise RuntimeError('it does not come: %s' % code)
            time.sleep(0.05)

    def element(self, selector):
        return list(self.call('FindElement', using='css selector', value=selector).values())[0]

    def click(self, selector):
        """Clicks an element, where it is."""
        self.call('ElementClick', id=self.element(selector))

    def type(self, selector, text):
        self.call('ElementSendKeys', id=self.element(selector), text=text)

    def shot(self):
        """The window as PNG."""
        return base64.b64decode(self.call('TakeScreenshot', full=False))

    def close(self):
        self.process.terminate()
        self.process.wait()
        self.line.close()
        shutil.rmtree(self.home, ignore_errors=True)


def connected(port):
    """A connection to a port, once somebody listens there."""
    end = time.monotonic() + 60
    while True:
        try:
            return socket.create_connection(('127.0.0.1', port), timeout=60)
        except OSError:
            if time.monotonic() > end:
                raise
            time.sleep(0.1)

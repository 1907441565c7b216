"""Chromium without a window, over its DevTools pipe: pages are opened, keys and clicks are made, values are read."""

import atexit
import fcntl
import json
import os
import queue
import shutil
import subprocess
import tempfile
import threading
import time

PROGRAM = shutil.which('chromium') or shutil.which('chromium-browser')

# Nobody looks at the pages; they are to be as fast as one that is looked at.
WORDS = ['--headless', '--no-sandbox', '--disable-gpu', '--remote-debugging-pipe', '--window-size=1680,950', '--disable-renderer-backgrounding',
         '--disable-background-timer-throttling', '--disable-backgrounding-occluded-windows', 'about:blank']

# The room for a page in a window of that size.
ROOM = {'width': 1680, 'height': 863, 'deviceScaleFactor': 1, 'mobile': False}

LOCK = threading.Lock()


class Chromium:
    """The browser, which has all pages. A message is JSON with a NUL behind it; one that names no session is of the browser itself."""

    shared = None  # the one that is running

    def __init__(self):
        self.home, self.inboxes, self.number, self.lock = tempfile.mkdtemp(), {}, 0, threading.Lock()
        self.start()
        self.reader = threading.Thread(target=self.read, daemon=True)
        self.reader.start()
        atexit.register(self.close)

    @classmethod
    def running(cls):
        """The browser, which is started where it is not yet."""
        with LOCK:
            cls.shared = cls.shared or cls()
            return cls.shared

    def start(self):
        """Starts the browser, which reads from descriptor 3 and writes to 4; a shell puts them there, since other threads start programs, too."""
        to_read, self.to = os.pipe()
        self.out, to_write = os.pipe()
        # Neither is 3 or 4 here, so that one does not take the place of the other.
        high = [fcntl.fcntl(descriptor, fcntl.F_DUPFD_CLOEXEC, 20) for descriptor in (to_read, to_write)]
        self.process = subprocess.Popen(['bash', '-c', 'exec "$@" 3<&%d 4>&%d' % tuple(high), 'bash', PROGRAM, '--user-data-dir=' + self.home, *WORDS],
                                        pass_fds=high, stdout=subprocess.DEVNULL, stderr=subprocess.DEVNULL)
        for descriptor in (to_read, to_write, *high):
            os.close(descriptor)

    def inbox(self, session):
        """The messages of a session that are not read yet; None is the last one, when the browser has gone."""
        return self.inboxes.setdefault(session, queue.SimpleQueue())

    def read(self):
        """Puts each message that comes where its session has it."""
        rest = b''
        while piece := os.read(self.out, 1 << 20):
            *lines, rest = (rest + piece).split(b'\0')
            for message in map(json.loads, lines):
                self.inbox(message.get('sessionId', '')).put(message)
        for inbox in list(self.inboxes.values()):
            inbox.put(None)

    def send(self, message):
        with self.lock:
            written = memoryview(json.dumps(message).encode() + b'\0')
            while written:
                written = written[os.write(self.to, written):]

    def call(self, method, **params):
        """What the browser answers to a call that is about no page."""
        with LOCK:
            self.number += 1
            self.send({'id': self.number, 'method': method, 'params': params})
            while (answer := message_in(self.inbox(''))).get('id') != self.number:
                pass
        return result_of(method, answer)

    def close(self):
        self.process.terminate()
        self.process.wait()
        self.reader.join()
        os.close(self.to)
        os.close(self.out)
        shutil.rmtree(self.home, ignore_errors=True)


def message_in(inbox):
    """The next message, once it is there."""
    message = inbox.get()
    if message is None:
        raise RuntimeError('the browser has gone')
    return message


def result_of(method, answer):
    if 'error' in answer:
        raise RuntimeError('%s: %s' % (method, answer['error']))
    return answer['result']


class Browser:
    """A page in the browser. It is laid out whenever something is asked of it; what it looks like is drawn, frame by frame, only where `is_drawn`: most of
    the time goes there. A page that is not drawn hears of no frames, and so of no scrolling and no other size of the window."""

    def __init__(self, url, is_drawn=True):
        self.number, self.faults, self.chromium = 0, [], Chromium.running()
        how = {'newWindow': True} if is_drawn else {'hidden': True}
        self.target = self.chromium.call('Target.createTarget', url='about:blank', **how)['targetId']
        self.session = self.chromium.call('Target.attachToTarget', targetId=self.target, flatten=True)['sessionId']
        self.inbox = self.chromium.inbox(self.session)
        self.call('Runtime.enable')
        self.call('Page.enable')
        self.call('Emulation.setFocusEmulationEnabled', enabled=True)
        self.resize()
        self.go(url)

    def resize(self, **size):
        """Makes the window another one, or by itself as large as it is at first."""
        self.call('Emulation.setDeviceMetricsOverride', **{**ROOM, **size})

    def go(self, url):
        """Opens another page."""
        self.call('Page.navigate', url=url)
        while self.value('document.readyState') != 'complete':
            time.sleep(0.02)

    def reload(self):
        """Loads the page again."""
        self.value('window.isOld = true')
        self.call('Page.reload')
        while not self.value('!window.isOld && document.readyState === "complete"'):
            time.sleep(0.02)

    def call(self, method, **params):
        """What the page answers to a call. Faults of scripts that it reports meanwhile are kept."""
        self.number += 1
        self.chromium.send({'id': self.number, 'method': method, 'params': params, 'sessionId': self.session})
        while True:
            answer = message_in(self.inbox)
            if answer.get('method') == 'Runtime.exceptionThrown':
                self.faults.append(answer['params']['exceptionDetails']['exception'].get('description', ''))
            if answer.get('id') == self.number:
                return result_of(method, answer)

    def value(self, code):
        """The value of an expression in the page, or that of its promise once it is kept."""
        answer = self.call('Runtime.evaluate', expression=code, returnByValue=True, awaitPromise=True)
        if 'exceptionDetails' in answer:
            self.faults.append(str(answer['exceptionDetails'].get('exception', {}).get('description', answer['exceptionDetails'])))
        return answer['result'].get('value')

    def key(self, key, text=None):
        """Presses a key."""
        self.call('Input.dispatchKeyEvent', type='keyDown', key=key, **({'text': text} if text else {}))
        self.call('Input.dispatchKeyEvent', type='keyUp', key=key)

    def click(self, x, y):
        """Clicks at a place of the window."""
        for kind in ('mousePressed', 'mouseReleased'):
            self.call('Input.dispatchMouseEvent', type=kind, x=x, y=y, button='left', clickCount=1)

    def shot(self):
        """The window as PNG, in base64."""
        return self.call('Page.captureScreenshot')['data']

    def close(self):
        self.chromium.call('Target.closeTarget', targetId=self.target)

"""zplay as a test uses it: the command, its questions, its page in Chromium, and some scenarios."""

import http.client
import json
import os
import re
import signal
import subprocess

import browser
from case import EXAMPLES, PROGRAM, TOP, content

# A test that runs in the background may have been started with Ctrl-C ignored, and so would be what it starts.
signal.signal(signal.SIGINT, signal.default_int_handler)

ZPLAY = os.path.join(TOP, 'zplay')
ZVIEW = os.path.join(TOP, 'zview')


def zy_bench(words, given):
    return subprocess.run([PROGRAM, *words], input=given, stdout=subprocess.PIPE, stderr=subprocess.DEVNULL, check=True,
                          timeout=300).stdout.decode()


def zviewed(text):
    """What the file has that zview makes of a scenario."""
    made = subprocess.run([ZVIEW], input=text.encode(), stdout=subprocess.PIPE, stderr=subprocess.DEVNULL, env={**os.environ, 'ZY_BENCH': PROGRAM}).stdout
    return json.loads(re.search(r'id="data">(.*?)</script>', made.decode(), re.S).group(1).replace('<\\/', '</'))


def head(text):
    """The lines of a scenario before its choices."""
    lines = text.split('\n')
    return lines[:next(n for n, line in enumerate(lines) if line.split(';')[0].split()[:1] in (['A'], ['B'], ['C'], ['end']))]


def part_of(text):
    """A scenario through its line `end`, without what is below it."""
    lines = text.split('\n')
    return '\n'.join(lines[:lines.index('end') + 1] + [''])


def bare(text):
    """A scenario without its choices."""
    return '\n'.join(head(text) + ['end', ''])


class Play:
    """A zplay that runs, and its address. It takes any port that is free, or the one given, or where that is '' its usual one; it opens no
    browser, or the program named."""

    def __init__(self, *words, port='0', opens=None):
        browsers = {'DISPLAY': ':0', 'BROWSER': opens} if opens else {}
        flags = (['--port', port] if port else []) + ([] if opens else ['--no-open'])
        self.process = subprocess.Popen([ZPLAY, *words, *flags], stdout=subprocess.PIPE, stderr=subprocess.DEVNULL, text=True,
                                        env={**os.environ, 'ZY_BENCH': PROGRAM, **browsers})
        self.address = self.process.stdout.readline().strip()
        self.port, self.token = re.match(r'http://127.0.0.1:(\d+)/\?token=([\w-]+)', self.address).groups()

    def __enter__(self):
        return self

    def __exit__(self, *_):
        self.process.terminate()
        self.process.wait(20)

    def line(self, method, path, body=None, **headers):
        """A connection on which a question was asked. Headers that are None are left out."""
        own = {'Host': '127.0.0.1:' + self.port, 'Origin': 'http://127.0.0.1:' + self.port, 'Cookie': 'zplay_%s=%s' % (self.port, self.token)}
        own.update(headers)
        line = http.client.HTTPConnection('127.0.0.1', int(self.port), timeout=60)
        line.request(method, path, body, {name: value for name, value in own.items() if value is not None})
        return line

    def request(self, method, path, body=None, **headers):
        """The status and the headers of an answer, and its body."""
        answer = self.line(method, path, body, **headers).getresponse()
        return answer.status, answer.headers, answer.read()

    def ask(self, path, text, **more):
        """The answer to a question about a text; that of a search is its last line."""
        return json.loads(self.request('POST', path, json.dumps({'text': text, **more}))[2].splitlines()[-1])


SMALLEST = 'zephyr 1\ncap 2\npages 1\nrule held\nend\n'
TEXT = json.dumps({'text': SMALLEST})

NOTED = '''zephyr 1
cap 4
pages 2
rule held ; the rule
row 10 1
txn reader ; the one
set r0 10
read r1 r0
commit
C begin reader
A run reader x 2 ; it reads
C start
end
'''


def is_program(pid):
    try:
        return os.readlink('/proc/%s/exe' % pid) == os.path.realpath(PROGRAM)
    except OSError:
        return False


def loops():
    """Programs with more states than any search reaches."""
    programs = ['txn %d\nagain: add r0 r1\nset r1 1\nbeq r2 r2 again\ncommit' % t for t in range(8)]
    return '\n'.join(['zephyr 1', 'cap 4', 'pages 2', 'rule held', 'row 1 1'] + programs + ['end', ''])


# Whether something is so within some milliseconds; the page itself waits for it.
WAITING = '''(async () => {
  for (const end = Date.now() + %d; !(%s);) {
    if (Date.now() > end) return false;
    await new Promise(done => setTimeout(done, 5));
  }
  return true;
})()'''


# The middle of something that is brought into sight, two frames later, when all has heard of that.
IN_SIGHT = '''(async it => {
  it.scrollIntoView({block: 'nearest'});
  await new Promise(done => requestAnimationFrame(() => requestAnimationFrame(done)));
  const box = it.getBoundingClientRect();
  return [box.left + box.width / 2, box.top + box.height / 2];
})(document.querySelector(%s))'''


class Page(browser.Browser):
    """A page of zplay."""

    def __init__(self, address, is_drawn=True):
        super().__init__(address, is_drawn)
        self.wait()

    def open(self, address):
        """Opens another zplay, and waits for its run."""
        self.go(address)
        self.wait()

    def wait(self, code='D && !busy && known.has(textHere())', most=20):
        """Waits until something is so; by itself, until the run and the outcomes of the next choices are shown."""
        if not self.value(WAITING % (1000 * most, code)):
            raise RuntimeError('it does not come: %s; %s' % (code, self.faults + [self.value('$("note").textContent')]))

    def text(self):
        return self.value('doc.text')

    def begin(self, text, name='x'):
        """Takes another text, which is named so; the user has no other one."""
        self.value('own = new Map(); begin(%s, %s)' % (json.dumps(text), json.dumps(name)))
        self.wait()

    def type(self, text):
        """Types another text."""
        self.value('{$("text").value = %s; $("text").dispatchEvent(new Event("input"))}' % json.dumps(text))
        self.wait('!busy')

    def press(self, selector):
        """Clicks something, where it is, as if it were a while after the last click."""
        x, y = self.value('(() => { clicked.time = changedAt = -SOON; const it = document.querySelector(%s); it.scrollIntoView({block: "nearest"}); '
                          'const b = it.getBoundingClientRect(); return [b.left + 12, b.top + b.height / 2]; })()' % json.dumps(selector))
        self.click(x, y)
        self.wait()

    def rest(self, selector):
        """Moves the pointer to the middle of something, once it is in sight, and gives the tip that comes there."""
        self.call('Input.dispatchMouseEvent', type='mouseMoved', x=1, y=1)
        place = self.value(IN_SIGHT % json.dumps(selector))
        self.call('Input.dispatchMouseEvent', type='mouseMoved', x=place[0], y=place[1])
        return self.tip()

    def tip(self):
        """The tip that is shown, once one comes."""
        self.wait('!$("tip").hidden')
        return self.value('$("tip").textContent')

    def choice(self, choice):
        """Clicks the button of a choice, and gives the outcome that it showed and whether it was grey; None where there is no button."""
        selector = '[data-choice="%s"]' % choice
        shown = self.value('(it => it && [it.querySelector("span").textContent, it.matches(".still")])(document.querySelector(%s))' %
                           json.dumps(selector))
        if shown is not None:
            self.press(selector)
        return shown

    def close(self):
        self.faults += [] if self.value('true') else ['the page is gone']
        super().close()


# ---- the page

def steps_of(listing):
    lines = listing.splitlines()
    return [line.split(' ', 1)[1].split(' -> ') for line in lines[lines.index('steps') + 1:lines.index('final')]]


def first_choices(text, count):
    """A text with its first choices, one a line."""
    return '\n'.join(head(text) + [choice for choice, _ in steps_of(zy_bench(['run'], text.encode()))[:count]] + ['end', ''])


# A search, as the page asks for it.
SEARCH = {'text': SMALLEST, 'position': 0, 'way': 'for', 'goal': 'stuck', 'kill': False, 'states': 9}

# A migration of one page, by hand, in the order in which rounds of takes, finishes and pushes make its steps.
MIGRATION = ['C start', 'B take', 'A take', 'B take', 'A finish', 'A push', 'B take', 'B take', 'A take']

ANOMALY = content(os.path.join(EXAMPLES, 'anomaly.zephyr')).decode()
WAITING = content(os.path.join(EXAMPLES, 'deadlock.zephyr')).decode()
DEADLOCK = bare(WAITING)
GONE = bare(content(os.path.join(EXAMPLES, 'gone.zephyr')).decode())
HELD = bare(content(os.path.join(EXAMPLES, 'anomaly_under_held.zephyr')).decode())

# Schedules that do not end by themselves: two transactions wait for each other, and a program goes round; with the choices that end a migration of
# theirs, and who is killed by them.
SPINNING = 'zephyr 1\ncap 4\npages 1\nrule held\ntxn spin\nbeq r0 r0 @0\ncommit\nC begin spin\nC start\nend\n'
KILLED = [(WAITING, ['C start', 'C kill 0', 'C kill 1', 'B take', 'A take', 'B take', 'A finish'] + ['B take', 'A push'] * 2 + ['B take', 'A take'], 'up, down'),
          (SPINNING, ['C kill 0', 'B take', 'A take', 'B take', 'A finish', 'B take', 'A push', 'B take', 'A take'], 'spin')]

# Verdicts on the anomaly up to some positions, as docs/loose.md has it: whether it is serial, the order of the commits, the one that explains the rows,
# and the rows here and one by one.
VERDICTS = [(14, True, [], [], [['10', '1', '1'], ['20', '2', '2'], ['30', '3', '3'], ['40', '4', '4']]),
            (15, True, [1], [], [['10', '9', '9'], ['20', '2', '2'], ['30', '3', '3'], ['40', '4', '4']]),
            (18, False, [1, 0], [0, 1], [['10', '9', '9'], ['20', '2', '2'], ['30', '1', '9'], ['40', '4', '4']])]

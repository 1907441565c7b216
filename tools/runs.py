"""A run as `zy_bench trace` writes it: its steps, and for each line of the state the steps at which it changes."""

from bisect import bisect
from collections import namedtuple
from functools import lru_cache
from itertools import islice

import bench

NODES = ('A', 'B')
LINKS = ('AB', 'BA')

Step = namedtuple('Step', 'number line actor action txn outcome sent')


@lru_cache(1 << 14)
def step_of(line):
    """A step by its line: `12 B run 1 -> pulls 0 ! pull`. It is kept, since zplay reads runs that begin alike."""
    choice, outcome = line.split(' -> ')
    outcome, _, sent = outcome.partition(' ! ')
    number, actor, action, *txn = choice.split()
    return Step(int(number), line, actor, action, int(txn[0]) if txn else None, outcome, sent)


def programs_of(scenario):
    """The instructions of each program of a canonical text."""
    programs = []
    for line in scenario:
        word = line.split()[0]
        if word == 'txn':
            programs.append([])
        elif word in ('A', 'B', 'C', 'end'):
            break
        elif programs:
            programs[-1].append(line)
    return programs


class Timeline:
    """A value from position to position: the changes of it, as pairs of a position and what it is from there on. The first is at 0."""

    def __init__(self, changes):
        self.changes = changes
        self.positions = [position for position, _ in changes]

    def at(self, position):
        """What it is at a position."""
        return self.changes[bisect(self.positions, position) - 1][1]

    def behind(self, position):
        """The changes behind a position."""
        return islice(self.changes, bisect(self.positions, position), None)

    def map(self, value_of):
        """The timeline of a part of it."""
        kept = []
        for position, whole in self.changes:
            value = value_of(whole)
            if not kept or kept[-1][1] != value:
                kept.append((position, value))
        return Timeline(kept)

    def spans(self, last=None):
        """(from, to, value) of each stretch; `to` is `last` for the one that lasts."""
        ends = [position for position, _ in self.changes[1:]] + [last]
        return [(start, end, value) for (start, value), end in zip(self.changes, ends)]


class Message:
    """A message: the step that sent it, the first that met it and left it in its link, and the one that took it."""

    def __init__(self, link, text, sent):
        self.link, self.text, self.sent, self.met, self.taken = link, text.replace(':', ' '), sent, None, None
        self.kind = text.split(':')[0]


def messages_of(link, timeline):
    """The messages of a link, from what is in it: what is longer was sent to, what is shorter was taken from."""
    queue, found = [], []
    for position, line in timeline.changes:
        now = line.split()[2:]
        if len(now) > len(queue):
            queue.append(Message(link, now[-1], position))
            found.append(queue[-1])
        elif len(now) < len(queue):
            queue.pop(0).taken = position
        assert [message.text for message in queue] == [text.replace(':', ' ') for text in now], line
    return found


def note_met(messages, steps):
    """Notes of each message the first step that met it at the front of its link and left it there."""
    for step in steps:
        if step.outcome.split()[0] in ('held', 'stray'):
            link = 'BA' if step.actor == 'A' else 'AB'
            front = next(m for m in messages if m.link == link and m.sent < step.number and (m.taken is None or m.taken > step.number))
            front.met = front.met or step.number


Life = namedtuple('Life', 'txn node begin end outcome')


def life_of(txn, timeline):
    """Where a transaction is active, from which step to which, and how it ended ('' where it did not); None where it never began."""
    active = [(position, line.split()) for position, line in timeline.changes if line.split()[2] == 'active']
    if not active:
        return None
    end, outcome = None, ''
    if timeline.changes[-1][1].split()[2] != 'active':
        end, words = timeline.changes[-1][0], timeline.changes[-1][1].split(' done ')[0].split()
        outcome = ' '.join([words[2]] + words[4:])
    return Life(txn, active[0][1][3], active[0][0], end, outcome)


class Run:
    """A run: its scenario, its steps, and the timelines of its state."""

    def __init__(self, lines, names):
        here = lines.index('trace')
        end = lines.index('final', here)
        self.scenario, self.final = lines[:here], lines[end:]
        self.version, self.cap, self.limit, self.rule = (line.split()[1] for line in self.scenario[:4])
        self.programs = programs_of(self.scenario)
        self.names = names or [''] * len(self.programs)
        self.verdict = self.final[-2]
        self.steps, self.lines = [], lines[here + 2:end]
        self.read_lines()
        self.messages = [message for link in LINKS for message in messages_of(link, self.links[link])]
        note_met(self.messages, self.steps)
        self.lives = [life_of(txn, timeline) for txn, timeline in enumerate(self.txns)]
        self.left_locked = {step: number for number, page in enumerate(self.pages) for step in left_locked(page.map(page_words))}
        self.instrs = [''] + [self.instr_of(step) for step in self.steps]
        self.tries = {}
        for step in self.steps:
            if step.action == 'run':
                self.tries.setdefault(step.txn, []).append(step)

    def read_lines(self):
        """Makes the timelines. A page that comes up later is '' until then."""
        found = {}
        for line in self.lines:
            if line.startswith('  '):
                subject = tuple(line.split(None, 2)[:2])
                found.setdefault(subject, [(0, '')] if self.steps else []).append((len(self.steps), line[2:]))
            else:
                self.steps.append(step_of(line))
        self.modes = {node: Timeline(found['mode', node]).map(lambda line: line.split()[2]) for node in NODES}
        self.links = {link: Timeline(found['link', link]) for link in LINKS}
        self.pages = numbered(found, 'page')
        self.txns = numbered(found, 'txn')

    def instr_of(self, step):
        """The instruction that a step tries: the one at the place where its transaction is before the step."""
        if step.action != 'run' or step.outcome in ('idle', 'elsewhere'):
            return ''
        _, _, behind = self.txns[step.txn].at(step.number - 1).partition(' pc ')
        return self.programs[step.txn][int(behind.partition(' ')[0])]

    def name(self, txn):
        """A transaction's number, and its name where it has one."""
        return 't%d' % txn + (' ' + self.names[txn] if self.names[txn] else '')

    def state(self, position):
        """The lines of the state at a position."""
        modes = ['mode %s %s' % (node, self.modes[node].at(position)) for node in NODES]
        pages = [page.at(position) for page in self.pages if page.at(position)]
        return modes + pages + [self.links[link].at(position) for link in LINKS] + [txn.at(position) for txn in self.txns]

    def acting(self):
        """The steps that change a line of the state."""
        lines = [*self.modes.values(), *self.links.values(), *self.pages, *self.txns]
        return {position for line in lines for position, _ in line.changes if position}

    def sender(self, step):
        """The node whose message a step sends; None where it sends none."""
        return next((message.link[0] for message in self.messages if message.sent == step.number), None)


def numbered(found, word):
    """The timelines of the pages or of the transactions, by number."""
    count = sum(subject[0] == word for subject in found)
    return [Timeline(found[word, str(number)]) for number in range(count)]


def read(text, quiet=False):
    """The run of the scenario part of a text; `quiet` is for the program's words on standard error."""
    part, _ = bench.cut(text)
    return Run(bench.ask(['trace'], part.encode(**bench.BYTES), quiet=quiet), bench.names_of(part))


def read_image(image):
    """The run of an image, whose transactions have no names."""
    return Run(bench.ask(['trace', '--image'], image), [])


def page_words(line):
    """(place, low, rows, locks) of a page's line; None where there is no such page yet."""
    if not line:
        return None
    words = line.split()
    locks = words.index('locks')
    return words[2], words[4], words[6:locks], words[locks + 1:]


def is_away(where, locks):
    """Whether one of a page's locks is at a node where the page is not."""
    return any(lock[0] != where for lock in locks)


def left_locked(page):
    """The steps at which a page leaves a node where it is locked; of its timeline, in words."""
    away = page.map(lambda words: bool(words) and is_away(words[0], words[3]))
    return [position for position, is_so in away.changes if is_so]

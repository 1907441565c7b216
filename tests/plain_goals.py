"""A plain reader of goals by the grammar of docs/search.md, and what a goal means in a state of tests/plain_table.py.

The reader tries every way through the grammar. So the furthest word that one of them comes to and does not take is the first one that does not fit: the
words before it begin some goal, and no goal goes on with it."""

import re
import sys

from alone import alone
from plain_table import database, node_of, step

# The grammar as the docs have it. A bracket or a sign of the grammar itself is in quotes here; tests/questions compares both.
GRAMMAR = """
GOAL    = EXPR [ then OUTCOME ] | then OUTCOME
EXPR    = ALL { or ALL }
ALL     = ONE { and ONE }
ONE     = not ONE | '(' EXPR ')' | FACT
FACT    = differs | stuck | deadlock | over | committed | aborted | WHY
        | mode NODE MODE
        | page P ( at NODE | at LINK | moving | locked | absent )
        | txn ( T | any | all ) ( new | active | committed | aborted [ WHY ] | at NODE | wrote K )
        | txn T committed before T
        | txn T locks P
        | link LINK ( empty | has KIND | has pull P | has page P )
        | key K absent
        | TERM ( = | != | < | <= | > | >= ) TERM
TERM    = N | key K | sum K to K | reg T REG | pc T | done T | commits
OUTCOME = began [ NODE ] | committed [ I ] | aborted [ WHY ] | active [ T ] | split [ P [ P [ K ] ] ]
        | got ( wire | ready | dual | finish | done | pull [ P ] | page [ P ] )
        | ( waits | pulls | awaits | stale | held | pushed ) [ P ]
        | started | badmode | idle | elsewhere | notyet | did | nomessage | stray | finishing | nopush
NODE    = A | B
LINK    = AB | BA
MODE    = normal | empty | sinit | sdual | sfinish | dinit | ddual | dfinish
WHY     = own | killed | badkey | missing | duplicate | nopage | frozen [ P ] | gone [ P ]
KIND    = wire | ready | dual | pull | page | finish | done
REG     = r0 | r1 | r2 | r3 | r4 | r5 | r6 | r7
"""

MOST_PARTS = 64
JOINTS = ('and', 'or', 'not', "'('")       # each is a part, and so is a fact

WORD = re.compile(r'[()]|[=!<>]+|[^ \t\r\n()=!<>]+')
NAME = re.compile(r'[A-Za-z_][A-Za-z0-9_]{0,31}')

sys.setrecursionlimit(20000)               # 64 brackets are that deep


def number_below(limit):
    return lambda word: re.fullmatch('[0-9]{1,10}', word) is not None and int(word) < limit


def is_transaction(word):
    return number_below(64)(word) or NAME.fullmatch(word) is not None and word not in ('any', 'all')


NUMBERS = {'T': is_transaction, 'I': number_below(65), 'K': number_below(65536), 'P': number_below(65536), 'N': number_below(10 ** 10)}


# The grammar as data: a rule is a list of alternatives, each a list of symbols, and a symbol is a word, the name of a rule, or a group.

def rules():
    found, name = {}, None
    for line in GRAMMAR.strip().splitlines():
        head, line = line[:8].strip(), line[10 if line[8] == '=' else 8:]
        name = head or name
        found[name] = found.get(name, []) + line.split()
    return {name: alternatives(words, None) for name, words in found.items()}


def alternatives(words, end):
    """The alternatives that come before an end, which is taken away with them."""
    found = [[]]
    while words and words[0] != end:
        word = words.pop(0)
        if word == '|':
            found.append([])
        elif word in CLOSED_BY:
            found[-1].append((word, alternatives(words, CLOSED_BY[word])))
        else:
            found[-1].append(word)
    if end:
        words.pop(0)
    return [one for one in found if one]


CLOSED_BY = {'(': ')', '[': ']', '{': '}'}
RULES = rules()


class NoGoal(Exception):
    """A text that is no goal, with the place of the first word that does not fit, and its end."""

    def __init__(self, start, end):
        super().__init__(start, end)
        self.start, self.end = start, end


class Reader:
    """Each method gives, for every way to read from a word on, the place behind it, the number of parts so far, and what was read: a list of words and of
    rules, each a pair of its name and such a list. A transaction is like a rule, and has its place in the text."""

    def __init__(self, text):
        self.places = [(found.start(), found.end()) for found in WORD.finditer(text)]
        self.words = [text[start:end] for start, end in self.places] + ['']
        self.places.append((len(text), len(text)))
        self.furthest = 0

    def choice(self, options, at, parts):
        for option in options:
            yield from self.sequence(option, 0, at, parts)

    def sequence(self, symbols, first, at, parts):
        if first == len(symbols):
            yield at, parts, []
            return
        for end, count, read in self.symbol(symbols[first], at, parts):
            for last, total, rest in self.sequence(symbols, first + 1, end, count):
                yield last, total, read + rest

    def symbol(self, symbol, at, parts):
        if isinstance(symbol, tuple):
            yield from self.group(*symbol, at, parts)
        elif symbol in RULES:
            yield from self.rule(symbol, at, parts)
        else:
            yield from self.word(symbol, at, parts)

    def group(self, kind, options, at, parts):
        for end, count, read in self.choice(options, at, parts):
            if kind == '{':
                for last, total, rest in self.group(kind, options, end, count):
                    yield last, total, read + rest
            else:
                yield end, count, read
        if kind != '(':
            yield at, parts, []

    def rule(self, name, at, parts):
        self.furthest = max(self.furthest, at)
        count = parts + (name == 'FACT')
        if count <= MOST_PARTS:
            for end, total, read in self.choice(RULES[name], at, count):
                yield end, total, [(name, read)]

    def word(self, symbol, at, parts):
        self.furthest = max(self.furthest, at)
        count = parts + (symbol in JOINTS)
        fits = NUMBERS[symbol](self.words[at]) if symbol in NUMBERS else self.words[at] == symbol.strip("'")
        if fits and count <= MOST_PARTS:
            yield at + 1, count, [('T', [self.words[at]], self.places[at]) if symbol == 'T' else self.words[at]]


def read_goal(text, rule='GOAL'):
    """What was read of a goal, or with EXPR of one that every state is to meet."""
    reader = Reader(text)
    for end, _, read in reader.rule(rule, 0, 0):
        reader.furthest = max(reader.furthest, end)
        if end == len(reader.words) - 1:
            return read[0] if rule == 'GOAL' else ('GOAL', read)
    raise NoGoal(*reader.places[reader.furthest])


# What a goal means. A test takes a view of a state, and says whether it holds there.

class View:
    """A state, with what is asked of it: outcomes are those of the considered choices, in their order."""

    def __init__(self, scenario, state, outcomes):
        self.scenario, self.state, self.outcomes = scenario, state, outcomes
        self.known = {}

    def database(self):
        if 'database' not in self.known:
            self.known['database'] = database(self.state)
        return self.known['database']

    def differs(self):
        if 'differs' not in self.known:
            rows = dict(self.scenario.rows)
            for t, done in self.state.commits:
                rows = alone(rows, self.scenario.programs[t], done)
            self.known['differs'] = rows != self.database()
        return self.known['differs']

    def locks(self):
        return [lock for node in self.state.nodes for lock in node.locks]


STILL = {'badmode', 'idle', 'elsewhere', 'notyet', 'waits', 'awaits', 'nomessage', 'held', 'stray', 'active', 'nopush'}


def kind_of(outcome):
    """An outcome without its numbers and its node."""
    return ' '.join(word for word in outcome.split() if not word.isdigit() and word not in 'AB')


def is_stuck(view):
    return any(txn.status == 'active' for txn in view.state.txns) and all(kind_of(outcome) in STILL for _, outcome in view.outcomes)


def waiting(view):
    """Each transaction whose next step waits, with the page that it waits for."""
    for t, txn in enumerate(view.state.txns):
        if txn.status == 'active':
            outcome = step(view.scenario, view.state, (txn.node, 'run', t))[0]
            if outcome.startswith('waits '):
                yield t, int(outcome.split()[1])


def is_deadlocked(view):
    """Whether some transactions are left once those are taken away, again and again, that wait for none of the others."""
    waits = dict(waiting(view))
    left = set(waits)
    while True:
        kept = {t for t in left if any(page == waits[t] and u in left and u != t
                                       for page, u, _ in node_of(view.state, view.state.txns[t].node).locks)}
        if kept == left:
            return bool(left)
        left = kept


def is_over(view):
    """Whether one node is normal, the other one empty, nothing is on a link, and nobody is active."""
    modes = sorted(node.mode for node in view.state.nodes)
    return modes == ['empty', 'normal'] and view.state.links == ((), ()) and all(txn.status != 'active' for txn in view.state.txns)


PLAIN_FACTS = {
    'differs': View.differs,
    'stuck': is_stuck,
    'deadlock': is_deadlocked,
    'over': is_over,
    'committed': lambda view: all(txn.status == 'committed' for txn in view.state.txns),
    'aborted': lambda view: any(txn.status == 'aborted' for txn in view.state.txns),
}
SIGNS = {'=': lambda x, y: x == y, '!=': lambda x, y: x != y, '<': lambda x, y: x < y,
         '<=': lambda x, y: x <= y, '>': lambda x, y: x > y, '>=': lambda x, y: x >= y}
LINKS = ('AB', 'BA')


def flat(read):
    """The words of what was read."""
    return [word for part in read for word in ([part] if isinstance(part, str) else flat(part[1]))]


def transactions(read):
    """The transactions that a goal names, each with its place."""
    if read[0] == 'T':
        return [(read[1][0], read[2])]
    return [named for part in read[1] if isinstance(part, tuple) for named in transactions(part)]


def pages_behind(words, before):
    """The numbers of the pages among some words: each behind one of these words."""
    return [int(word) for last, word in zip(words, words[1:]) if last in before and word.isdigit()]


def pages_of_outcome(words):
    """The numbers of the pages that an outcome names: of a split the page and the new one, and not its boundary."""
    if words[0] == 'split':
        return [int(word) for word in words[1:3]]
    return pages_behind(words, ('page', 'pull', 'frozen', 'gone', 'waits', 'pulls', 'awaits', 'stale', 'held', 'pushed'))


def numbers_named(read):
    """The numbers of the transactions, and of the pages, that a goal names."""
    outcomes = [flat([part]) for part in read[1] if part[0] == 'OUTCOME']
    tests = flat([part for part in read[1] if part[0] != 'OUTCOME'])
    return ([int(word) for word, _ in transactions(read) if word.isdigit()],
            pages_behind(tests, ('page', 'pull', 'locks', 'frozen', 'gone')) + [page for words in outcomes for page in pages_of_outcome(words)])


def reads_ended(read):
    """Whether what was read of a goal has to do with what an ended transaction had: a register, the program counter, how much it did, or its node."""
    name, parts = read[:2]
    is_of_one = name == 'TERM' and parts[0] in ('reg', 'pc', 'done') or name == 'FACT' and parts[0] == 'txn' and 'at' in parts
    return is_of_one or any(reads_ended(part) for part in parts if isinstance(part, tuple))


def takes_steps(read):
    """Whether what was read of a goal has `stuck` or `deadlock`."""
    name, parts = read[:2]
    return name == 'FACT' and parts in (['stuck'], ['deadlock']) or any(takes_steps(part) for part in parts if isinstance(part, tuple))


class Meaning:
    """The tests of what was read, whose transactions may have the names of a scenario."""

    def __init__(self, names):
        self.names = names

    def number(self, word):
        return int(word) if word.isdigit() else self.names[word]

    def goal(self, read):
        """The test of a goal, and the words of the outcome that it asks for, if any."""
        parts = read[1]
        test = self.expression(parts[0]) if parts[0] != 'then' else lambda view: True
        return test, self.outcome(parts[-1]) if 'then' in parts else None

    def outcome(self, read):
        """The words of an outcome, with its numbers as the listing has them."""
        named = [word for word, _ in transactions(read)]
        return as_listed(str(self.number(word)) if word in named else word for word in flat([read]))

    def expression(self, read):
        name, parts = read
        if name == 'FACT':
            return self.fact(parts)
        if parts[0] == 'not':
            inner = self.expression(parts[1])
            return lambda view: not inner(view)
        tests = [self.expression(part) for part in parts if isinstance(part, tuple)]
        if len(tests) == 1:
            return tests[0]
        return (lambda view: any(test(view) for test in tests)) if name == 'EXPR' else lambda view: all(test(view) for test in tests)

    def fact(self, parts):
        if parts[0][0] == 'TERM':
            first, sign, second = self.term(parts[0][1]), SIGNS[parts[1]], self.term(parts[2][1])
            return lambda view: sign(first(view), second(view))
        words = flat(parts)
        if parts[0][0] == 'WHY':
            return lambda view: any(has_ended_for(txn, words) for txn in view.state.txns)
        if len(words) == 1:
            return PLAIN_FACTS[words[0]]
        return getattr(self, words[0])(*words[1:])

    @staticmethod
    def mode(node, mode):
        return lambda view: node_of(view.state, node).mode == mode

    @staticmethod
    def page(page, *where):
        place = {'moving': ('AB', 'BA'), 'absent': ('',)}.get(where[0], where[1:])
        page = int(page)
        if where[0] == 'locked':
            return lambda view: any(lock[0] == page for lock in view.locks())
        return lambda view: place_of(view.state, page) in place

    def txn(self, which, *what):
        if what[:2] == ('committed', 'before'):
            first, second = self.number(which), self.number(what[2])
            return lambda view: comes_before(first, second, [t for t, _ in view.state.commits])
        if what[0] == 'locks':
            holder, page = self.number(which), int(what[1])
            return lambda view: any(lock[:2] == (page, holder) for lock in view.locks())
        test = txn_test(*what)
        if which in ('any', 'all'):
            joined = any if which == 'any' else all
            return lambda view: joined(test(txn) for txn in view.state.txns)
        number = self.number(which)
        return lambda view: number < len(view.state.txns) and test(view.state.txns[number])

    @staticmethod
    def link(link, _, kind='', page=None):
        at, front = LINKS.index(link), (kind,) if page is None else (kind, int(page))
        if not kind:
            return lambda view: not view.state.links[at]
        return lambda view: any(message[:len(front)] == front for message in view.state.links[at])

    @staticmethod
    def key(key, _):
        return lambda view: int(key) not in view.database()

    def term(self, parts):
        word, *rest = flat(parts)
        if word.isdigit():
            return lambda view: int(word)
        if word == 'commits':
            return lambda view: len(view.state.commits)
        if word in ('key', 'sum'):
            low, high = int(rest[0]), int(rest[-1])
            return lambda view: sum(value for key, value in view.database().items() if low <= key <= high)
        number = self.number(rest[0])
        value = {'reg': lambda txn: txn.regs[int(rest[1][1])], 'pc': lambda txn: txn.pc, 'done': lambda txn: txn.done}[word]
        return lambda view: value(view.state.txns[number]) if number < len(view.state.txns) else 0


def as_listed(words):
    """Words, with each number as the listing has it."""
    return [str(int(word)) if word.isdigit() else word for word in words]


def is_asked(words, had):
    """Whether an outcome or a reason begins with the words that are asked for: what they leave out may be any."""
    return had.split()[:len(words)] == words


def has_ended_for(txn, why):
    return txn.status == 'aborted' and is_asked(as_listed(why), txn.why)


def txn_test(what, *more):
    """The test of one transaction for what a fact says of it."""
    if what == 'at':
        return lambda txn: txn.node == more[0]
    if what == 'wrote':
        return lambda txn: int(more[0]) in dict(txn.private)
    if more:
        return lambda txn: has_ended_for(txn, more)
    return lambda txn: txn.status == what


def comes_before(first, second, commits):
    return first in commits and second in commits and commits.index(first) < commits.index(second)


def place_of(state, page):
    """The node or the link where a page is; nowhere if there is none."""
    for name, node in zip('AB', state.nodes):
        if any(number == page for number, _ in node.pages):
            return name
    for name, link in zip(LINKS, state.links):
        if any(message[:2] == ('page', page) for message in link):
            return name
    return ''

"""Whom a step waits for: who has a lock that is in its way, or where the page is that is not here."""

from collections import namedtuple
from functools import lru_cache

from runs import NODES, page_words

KINDS = {'s': 'shared', 'x': 'exclusive'}

# Which operands of an instruction are keys: of the row that it tries, or of the first and the last one.
KEYS = {'read': (1,), 'write': (0,), 'insert': (0,), 'sum': (0, 1)}

ROWS = {1: ' (row %s)', 2: ' (rows %s to %s)'}

# How a sentence begins, by the outcome: what becomes of a page, or of the request for it.
BEGINNINGS = {'waits': 'waits for %s', 'held': '%s stays', 'pulls': 'asks for %s', 'awaits': 'waits for %s'}

# A step that waits: its outcome's word, the page with the rows that are tried, where the page is or is locked, and the locks there, each as its
# transaction and kind.
Wait = namedtuple('Wait', 'word page place locks')


def page_of(step):
    """The number of the page that a step waits for; None where it waits for none."""
    word, *number = step.outcome.split()
    return int(number[0]) if word in BEGINNINGS else None


def wait_of(run, step):
    """What a step waits for; None where it waits for no page."""
    page = page_of(step)
    return None if page is None else wait_at(step, run.pages[page].at(step.number), rows_of(run, step, run.instrs[step.number].split()))


def wait_at(step, line, rows=''):
    """What a step waits for, by the line of its page."""
    where, _, _, locks = page_words(line)
    word, number = step.outcome.split()
    place = step.actor if word in ('waits', 'held') else where
    return Wait(word, 'page ' + number + rows, place, [lock for lock in locks_at(place, locks) if lock[0] != step.txn])


def locks_at(place, locks):
    """Those of a page's locks that are at a node, each as its transaction and kind."""
    return [(int(txn), kind) for node, txn, kind in (lock.split(':') for lock in locks) if node == place]


@lru_cache(1 << 14)
def place_and_holders(line, node):
    """Where a page is, and the transactions that have locks on it at a node."""
    where, _, _, locks = page_words(line)
    return where, {txn for txn, _ in locks_at(node, locks)}


def is_free(step, line):
    """Whether a page is at the node of a step that waits for it, and no other transaction has a lock on it there, by the page's line. Who waits to read
    waits for an exclusive lock: where that is dropped there is no other one yet."""
    where, holders = place_and_holders(line, step.actor)
    return where == step.actor and not holders - {step.txn}


def freed(run, step, last):
    """The position, of those up to a last one, at which that has come for which a transaction's step waits: a page, a lock, or a node where it can run;
    else the last one."""
    page = page_of(step)
    line = run.modes[step.actor] if page is None else run.pages[page]
    for position, value in line.behind(step.number):
        if last is not None and position >= last:
            return last
        if value != 'dinit' if page is None else is_free(step, value):
            return position
    return last


def rows_of(run, step, tried):
    """The rows that an instruction tries, in brackets; nothing where none is tried."""
    if not tried or tried[0] not in KEYS:
        return ''
    words = run.txns[step.txn].at(step.number).split()
    values = words[words.index('regs') + 1:]
    keys = tuple(values[int(tried[1 + place][1:])] for place in KEYS[tried[0]])
    return ROWS[len(keys)] % keys


def at(place):
    """Where a page is, in words."""
    return ('at %s' if place in NODES else 'on link %s') % place


def transaction(names, lock):
    """Who has a lock, and of which kind."""
    return ' '.join(filter(None, ['transaction %d' % lock[0], names[lock[0]]])) + ' (%s)' % KINDS[lock[1]]


def sentence(run, step):
    """`waits for page 1 (row 30), locked at A by transaction 1 (exclusive)`; nothing where a step waits for no page."""
    wait = wait_of(run, step)
    return said(wait, run.names) if wait else ''


def said(wait, names):
    """A wait as a sentence."""
    there = '' if wait.word in ('waits', 'held') else ', which is ' + at(wait.place)
    holders = ' and '.join(transaction(names, lock) for lock in wait.locks)
    locked = ', locked %s by %s' % ('there' if there else at(wait.place), holders) if holders else ''
    return BEGINNINGS[wait.word] % wait.page + there + locked


def note(run, step):
    """The same in few words, as ` [locked by t1]`."""
    wait = wait_of(run, step)
    if not wait:
        return ''
    there = [] if wait.word in ('waits', 'held') else [at(wait.place)]
    locked = ['locked by ' + ' and '.join(run.name(txn) for txn, _ in wait.locks)] if wait.locks else []
    return ' [%s]' % ', '.join(there + locked)

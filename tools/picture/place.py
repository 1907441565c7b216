"""Where the columns, the rows and the bars of a picture are."""

import math

from picture.looks import look_of, node_of, stuck
from picture.rows import row_text
from runs import NODES

ROW = 22           # the height of a row
CHAR = 6.95        # the width of a letter of the listing
LABEL = 6.4        # the width of a letter of a label
BAND = 54          # the width of a mode's band
GAP = 146          # from one node's line to the other's
WIDE_PAGES = 24    # as many pages have a ribbon each


class Place:
    """The columns of the picture from left to right: the listing, the client, A, what is between, B, the pages; and the stretches of the bars that
    wait."""

    def __init__(self, run, rows):
        self.rows, self.height = rows, len(rows.rows) * ROW
        self.place_text([row_text(run, *row) for row in rows.rows])
        self.slots = {node: slots_of([life for life in run.lives if life and life.node == node], len(run.steps)) for node in NODES}
        self.pitch = {node: max(4, min(22, 128 / self.slot_count(node))) for node in NODES}
        self.stuck = {life.txn: stuck(run, life) for life in run.lives if life}
        self.place_nodes({node: max([6] + [len(label_of(run, step)) for step in run.steps if node_of(run, step) == node]) for node in NODES})
        self.pages = self.right['B'] + 26
        self.ribbon = 15 if len(run.pages) <= WIDE_PAGES else 96 / len(run.pages)
        self.width = self.pages + max(42, self.ribbon * len(run.pages)) + 18

    def place_text(self, texts):
        """The columns of the listing are as wide as their contents."""
        widths = [max(len(text[k]) for text in texts) * CHAR for k in range(4)]
        self.number = 10 + widths[0]
        self.choice = self.number + 10
        self.instr = self.choice + widths[1] + 12
        self.outcome = self.instr + (widths[2] + 12 if widths[2] else 0)
        self.client = self.outcome + widths[3] + 32

    def place_nodes(self, longest):
        """A node's lane has from its outer side the band of its mode, the bars, the labels, and its line."""
        wide = {node: self.bars(node) + 14 + longest[node] * LABEL + 12 for node in NODES}
        self.left = {'A': self.client + 28}
        self.right = {'A': self.left['A'] + wide['A']}
        self.left['B'] = self.right['A'] + GAP
        self.right['B'] = self.left['B'] + wide['B']
        self.line = {'A': self.right['A'], 'B': self.left['B']}

    def slot_count(self, node):
        return max(self.slots[node].values(), default=0) + 1

    def bars(self, node):
        """How far from a lane's outer side its bars go."""
        return BAND + 4 + self.slot_count(node) * self.pitch[node]

    def from_outside(self, node, offset):
        return self.left['A'] + offset if node == 'A' else self.right['B'] - offset

    def y(self, position):
        return self.rows.of[position] * ROW + ROW / 2

    def bar(self, life):
        """The middle of a transaction's bar."""
        return self.from_outside(life.node, BAND + 8 + (self.slots[life.node][life.txn] + 0.5) * self.pitch[life.node])

    def zone(self, node):
        """Where the labels begin that belong to a node's bars."""
        return self.from_outside(node, self.bars(node) + 8)

    def band(self, node):
        return self.left['A'] if node == 'A' else self.right['B'] - BAND

    def inward(self, node):
        """1 where the other node is to the right."""
        return 1 if node == 'A' else -1


def repeats(top, bottom):
    """The heights of the labels of something long: its top, and between two rows at each thirtieth row of the picture."""
    each = 30 * ROW
    between = [y + ROW + 3 for y in range(math.ceil((top + 2 * ROW) / each) * each, max(0, int(bottom)), each)]
    return [top] + [y for y in between if y < bottom]


def slots_of(lives, last):
    """The slot of each transaction at a node: the first that is free when it begins."""
    ends, slots = [], {}
    for life in sorted(lives, key=lambda life: life.begin):
        free = next((slot for slot, end in enumerate(ends) if end < life.begin), len(ends))
        ends[free:free + 1] = [last if life.end is None else life.end]
        slots[life.txn] = free
    return slots


def label_of(run, step):
    """What is written beside the mark of a step; nothing where the mark, an arrow or the listing says it."""
    word = step.outcome.split()[0]
    if word == 'began':
        return run.names[step.txn][:16]
    if word == 'split':
        return 'split %s → %s' % tuple(step.outcome.split()[1:3])
    return step.outcome if look_of(step) in ('ok', 'bad', 'wait') or word == 'stale' else ''

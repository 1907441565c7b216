"""Random scenarios with their schedules, each a function of a number and a table alone: small ones, in which most choices do something, and in which rare
outcomes occur."""

import random

from plain_laws import answer
from plain_search import KINDS, considered
from plain_table import opening, other, read

# How often a choice that would change nothing is made all the same: one that waits, and any; and how many choices are drawn for one that is made.
STILL, IDLE, TRIED = 0.3, 0.04, 24
WAITS = (['waits'], ['awaits'], ['held'], ['notyet'], ['active'])

# How many choices are drawn by the same weights at most, and how many a migration has at most.
MOOD, MOST_STEPS = 15, 40

# How often choices of each kind are drawn, by the mood.
WEIGHTS = {'start': (0, 0.3, 2), 'begin': (0.1, 1, 9), 'kill': (0, 0, 0, 0.2), 'run': (2, 6, 20), 'take': (0.2, 2, 6), 'finish': (0, 0.2, 3),
           'push': (0, 0.2, 2)}


def random_run(number, step):
    """The scenario of a number, with a schedule in which most choices change the state by a table. In each third one no migration begins while transactions
    run: they crowd on a few keys."""
    chance, is_crowd = random.Random(number), number % 3 == 2
    scenario = read(random_text(chance, is_crowd))
    walk = Walk(step, scenario)
    for _ in range(chance.choice((0, 0, 1, 2)) if scenario.version == 2 else 0):
        migrate(walk)
    if is_crowd:
        gather(chance, walk)
    elif chance.random() < 0.6:
        divide(chance, walk)
    choices = [choice for choice in considered(scenario, True) if not is_crowd or choice[1] in ('begin', 'run', 'kill')]
    length = len(walk.made) + chance.choice((15, 30, 50, 75))
    while len(walk.made) < length and not have_all_ended(walk.state):
        weights = random_weights(chance, choices)
        for _ in range(chance.randint(2, MOOD)):
            before = walk.state
            walk.make(random_choice(chance, walk, chance.choices(choices, weights, k=TRIED), chance.random() < IDLE))
            if walk.state is before:
                break
    return scenario._replace(choices=walk.made)


class Walk:
    """Choices that are made by a table one after the other, and the state after them."""

    def __init__(self, step, scenario):
        self.step, self.scenario, self.state, self.made = step, scenario, opening(scenario), []

    def answer(self, choice):
        """The outcome of a choice, and the state after it; where the table has no answer, none and the same state."""
        return answer(self.step, self.scenario, self.state, choice) or ('', self.state)

    def make(self, choice):
        self.made.append(choice)
        self.state = self.answer(choice)[1]


def migrate(walk):
    """Makes the choices of a migration that nothing keeps waiting."""
    walk.make(('C', 'start', None))
    steps = [(node, action, None) for action in ('take', 'finish', 'push') for node in 'AB']
    for _ in range(MOST_STEPS):
        left = [choice for choice in steps if walk.answer(choice)[1] is not walk.state]
        if not left:
            break
        walk.make(left[0])


def gather(chance, walk):
    """Has most transactions begin."""
    for t in range(len(walk.state.txns)):
        if chance.random() < 0.8:
            walk.make(('C', 'begin', t))


def divide(chance, walk):
    """Has some transactions run, a migration come to where both nodes run transactions, and others run at the destination."""
    source = 'A' if walk.state.nodes[0].mode == 'normal' else 'B'
    txns = chance.sample(range(len(walk.state.txns)), len(walk.state.txns))
    early, late = txns[:len(txns) // 2 + 1], txns[len(txns) // 2 + 1:]
    made = [('C', 'begin', t) for t in early] + [(source, 'run', t) for t in early for _ in range(chance.randint(0, 6))]
    made += [('C', 'start', None)] + [(node, 'take', None) for node in (other(source), source, other(source))]
    made += [('C', 'begin', t) for t in late]
    for _ in range(chance.randint(0, 12) if late else 0):
        made += [(other(source), 'run', chance.choice(late))] * 2 + [(source, 'take', None), (other(source), 'take', None)] * chance.randint(0, 1)
    for choice in made:
        walk.make(choice)


def have_all_ended(state):
    """Whether each transaction has ended, and no migration is under way."""
    return all(txn.status in ('committed', 'aborted') for txn in state.txns) and {node.mode for node in state.nodes} == {'normal', 'empty'}


def random_weights(chance, choices):
    """Weights of the choices: by kind, and by transaction."""
    kinds = {kind: chance.choice(WEIGHTS[kind]) for kind in KINDS}
    txns = {t: chance.choice((0.01, 1, 1, 6)) for _, _, t in choices if t is not None} if chance.random() < 0.7 else {}
    return [kinds[kind] * txns.get(t, 1) for _, kind, t in choices]


def random_choice(chance, walk, choices, is_any):
    """The first of some choices that changes the state, or one that does not."""
    for choice in choices:
        outcome, after = walk.answer(choice)
        if is_any or after is not walk.state or outcome.split()[:1] in WAITS and chance.random() < STILL:
            break
    return choice


def random_text(chance, is_crowd):
    """A scenario without choices; where there is a crowd, with fewer pages and keys."""
    version, cap, opened = chance.randint(1, 2), chance.choice((2, 2, 2, 2, 3, 4)), chance.choice((1, 2) if is_crowd else (1, 2, 2, 3, 3))
    size = (cap + 1) // 2
    rows = sorted(chance.sample(range(9), chance.randint(size * (opened - 1) + (opened > 1 or chance.random() < 0.8), size * opened)))
    lines = ['zephyr %d' % version, 'cap %d' % cap, 'pages %d' % chance.randint(opened, opened + 3), 'rule %s' % chance.choice(('held', 'loose'))]
    lines += ['row %d %d' % (key, chance.choice((0, 5, 6, 7))) for key in rows]
    weights = {part: chance.choice((0, 1, 4)) for part in PARTS if part not in ('sum', 'range', 'move') or version == 2}
    old, new = chance.sample(rows, min(len(rows), chance.choice((2, 2, 3)))) or [0], [key for key in range(10) if key not in rows]
    keys = {'K': old, 'N': (chance.sample(new, 3) if is_crowd else new) + chance.sample(old, 1)}
    for t in range(chance.choice((2, 3, 3) if is_crowd else (1, 2, 3, 3, 4, 5))):
        lines += ['txn %d' % t] + random_program(chance, t, {**weights, 'set': 1}, CROWDED if is_crowd else MIGRATED, keys)
    return '\n'.join(lines + ['end', ''])


# What a program does, in one to six instructions at a time: r0 and r1 have keys, r2 and r3 values.
PARTS = {
    'read': ('set r0 K', 'read r2 r0'),
    'write': ('set r0 K', 'write r0 r3'),
    'insert': ('set r0 N', 'insert r0 r3'),
    'fill': ('set r0 N', 'insert r0 r3', 'set r0 N', 'insert r0 r2'),
    'look': ('set r0 K', 'read r2 r0', 'set r0 N', 'insert r0 r3', 'set r0 N', 'insert r0 r3'),
    'seen': ('set r0 K', 'write r0 r3', 'read r2 r0'),
    'sum': ('set r0 K', 'set r1 K', 'sum r0 r1', 'add r2 r0'),
    'range': ('set r0 N', 'set r1 N', 'sum r0 r1', 'add r2 r0'),
    'add': ('add r2 r3',),
    'set': ('set r2 V',),
    'beq': ('beq r2 r3 @',),
    'again': ('set r0 K', 'write r0 r2'),
    'both': ('set r0 K', 'read r2 r0', 'set r1 K', 'write r1 r2'),
    'raise': ('set r0 K', 'read r2 r0', 'add r2 r3', 'write r0 r2'),
    'upper': ('set r0 N', 'read r2 r0'),
    'move': ('set r0 K', 'set r1 K', 'sum r0 r1', 'set r1 K', 'write r1 r0'),
}


# Parts that are programs by themselves: where transactions crowd, and where they migrate.
CROWDED, MIGRATED = ('raise', 'look', 'seen', 'upper', 'fill', 'range', 'again'), ('both', 'both', 'raise', 'write')


def random_program(chance, t, weights, few, keys):
    """A program of some parts, or of one of a few."""
    drawn = chance.choices(list(weights), list(weights.values()), k=chance.choice((1, 1, 2, 2, 3, 4)))
    parts = drawn if chance.random() < 0.5 else [part for part in (chance.choice(few),) if part in weights]
    lines = ['set r3 %d' % (10 + t)] * (chance.random() < 0.8) + [line for part in parts for line in PARTS[part]]
    lines += [chance.choice(('commit',) * 9 + ('abort',))]
    return [with_numbers(chance, line, keys, len(lines)) for line in lines]


def with_numbers(chance, line, keys, length):
    """A line with the key of a row for K, mostly another one for N, a value for V, and a place in the program behind @."""
    for letter in keys:
        key = chance.choice(keys[letter]) if chance.random() < 0.97 else chance.choice((65535, 65536, 4294967295))
        line = line.replace(letter, str(key))
    return line.replace('V', str(chance.randrange(4))).replace('@', '@%d' % chance.randrange(length))

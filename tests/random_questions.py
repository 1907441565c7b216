"""Random scenarios of a few hundred states, and random goals of the whole grammar of tests/plain_goals.py."""

from plain_goals import RULES, Meaning, flat
from plain_search import KINDS, States, TooMany, considered
from plain_table import opening, read, step

# How many states a scenario may come to.
MOST = 400

KEYS = range(8)
NAMES = ('alpha', 'not', 'txn', 'B', 'any')     # a name may be any word of the grammar; a goal that says `any` does not mean it

# How deep goals are, and how facts are drawn: TRIES times, until one holds in some of LOOKED_AT states and not in others.
DEPTHS = (0, 0, 1, 1, 2, 2, 3, 4, 5)
TRIES, LOOKED_AT = 6, 25


def random_text(chance):
    """A scenario without choices: 1 to 3 transactions of 1 to 5 instructions, and 1 to 3 pages."""
    version, cap, opened = chance.randint(1, 2), chance.randint(2, 4), chance.randint(1, 3)
    size = (cap + 1) // 2
    rows = sorted(chance.sample(KEYS, chance.randint(size * (opened - 1), size * opened)))
    lines = ['zephyr %d' % version, 'cap %d' % cap, 'pages %d' % chance.randint(opened, 3), 'rule %s' % chance.choice(['held', 'loose', 'loose'])]
    lines += ['row %d %d' % (key, chance.choice([0, chance.randint(1, 9)])) for key in rows]
    names = chance.sample(NAMES, 3)
    for t in range(chance.choice([1, 1, 2, 2, 3])):
        program = random_program(chance, version) if chance.random() < 0.5 else random_pair(chance, version, rows or [0])
        lines += ['txn %s' % (names[t] if chance.random() < 0.3 else t)] + program
    return '\n'.join(lines + ['end', ''])


def random_program(chance, version):
    length = chance.choice([1, 2, 3, 4, 4, 5, 5])
    body = [random_instruction(chance, version, length, at) for at in range(length - 1)]
    return body + [chance.choice(['commit'] * 6 + ['abort'])]


def random_pair(chance, version, rows):
    """A program that does something with one row, and then with another one or the same."""
    first, second = chance.choice(rows), chance.choice(rows)
    last = chance.choice(['write r0 r1', 'write r0 r2', 'insert r2 r1', 'read r1 r0'] + ['sum r2 r0'] * (version - 1))
    return ['set r0 %d' % first, chance.choice(['read r1 r0', 'write r0 r0']), 'set r0 %d' % second, last, 'commit']


def random_instruction(chance, version, length, at):
    word = chance.choice(['set', 'set', 'read', 'read', 'write', 'write', 'insert', 'insert', 'add', 'beq'] + ['sum', 'sum'] * (version - 1))
    first, second = chance.choices(('r0', 'r1', 'r2', 'r7'), (6, 6, 2, 1), k=2)
    if word == 'set':
        return 'set %s %d' % (first, chance.choice([chance.choice(KEYS)] * 15 + [65536, 4294967295]))
    if word == 'beq':
        return 'beq %s %s @%d' % (first, second, chance.choice([at + 1] * 2 + list(range(length))))
    return '%s %s %s' % (word, first, second)


def random_walk(chance, scenario, state, kill, length):
    """Choices that a random schedule makes, most of which do something, and the state after them."""
    made = []
    while len(made) < length:
        steps = [(choice, step(scenario, state, choice)[1]) for choice in considered(scenario, kill)]
        moves = [pair for pair in steps if pair[1] != state]
        choice, state = chance.choice(moves if moves and chance.random() < 0.9 else steps)
        made.append(choice)
    return made, state


def line_of(choice):
    return ' '.join(str(word) for word in choice if word is not None)


def random_case(chance):
    """A text, and its states by some kinds of choices, of which there are not too many: so long as there are, the scenario makes some choices more. The
    text may have choices more, which are not taken."""
    while True:
        text, kill = random_text(chance), chance.random() < 0.4
        left_out = chance.sample(KINDS, chance.choice([0, 0, 0, 1, 1, 2]))
        scenario = read(text)
        choices, state = random_walk(chance, scenario, opening(scenario), chance.random() < 0.5, chance.choice([0, 0, 0, 2, 4, 8]))
        for _ in range(4):
            try:
                states = States(scenario._replace(choices=choices), kill, MOST, left_out)
                behind = random_walk(chance, scenario, state, kill, chance.randint(0, 4))[0] if chance.random() < 0.25 else None
                states.words += [] if behind is None else ['--from', str(len(choices))]
                return text.replace('\nend\n', ''.join('\n' + line_of(choice) for choice in choices + (behind or [])) + '\nend\n'), states
            except TooMany:
                more, state = random_walk(chance, scenario, state, kill, chance.randint(2, 6))
                choices = choices + more


class Goals:
    """Random goals over the states of a scenario."""

    def __init__(self, chance, states):
        self.chance, self.views = chance, chance.sample(states.whole.views, min(LOOKED_AT, len(states.whole.views)))
        self.meaning = Meaning(states.scenario.names)
        numbers = [str(t) for t in range(len(states.scenario.programs))]
        names = [name for name in states.scenario.names if name != 'any']
        rows = [str(key) for key, _ in states.scenario.rows]
        self.pools = {'T': names * 4 + numbers * 2 + [str(len(numbers))], 'P': ['0', '0', '1', '1', '2', '3'], 'I': ['0', '1', '1', '2'],
                      'K': rows * 3 + [str(key) for key in KEYS] * 2 + ['65535'], 'REG': ['r0', 'r1', 'r2', 'r7'] * 2 + [word for word, in RULES['REG']],
                      'N': [str(number) for number in range(10)] * 3 + ['100', '4294967295', '9999999999']}

    def goal(self):
        """A goal of --for or of --always, as text, and which."""
        always = self.chance.random() < 0.25
        words = self.expression(self.chance.choice(DEPTHS))
        if not always and self.chance.random() < 0.3:
            words = (words if self.chance.random() < 0.7 else []) + ['then'] + flat([self.rule('OUTCOME')])
        return spaced(words, self.chance), always

    def expression(self, depth):
        """An expression of some depth. What a joint joins may have brackets or not; the grammar says what it means without them."""
        if depth == 0 or self.chance.random() < 0.2:
            return self.fact()
        if self.chance.random() < 0.25:
            return ['not'] + self.part(depth - 1)
        joint = self.chance.choice(['and', 'or'])
        return self.part(depth - 1) + [joint] + self.part(self.chance.randint(0, depth - 1))

    def part(self, depth):
        words = self.expression(depth)
        return ['('] + words + [')'] if self.chance.random() < 0.4 else words

    def fact(self):
        """A fact that tells states apart, if one is drawn soon."""
        for _ in range(TRIES):
            read = self.rule('FACT')
            test = self.meaning.expression(read)
            if len({test(view) for view in self.views}) > 1:
                break
        return flat([read])

    def rule(self, name):
        """What could be read of a rule, in which the longer alternatives come oftener than those of one word."""
        options = RULES[name]
        return name, self.drawn(self.chance.choices(options, [1 + 2 * (len(option) > 1 or option[0] == 'WHY') for option in options])[0])

    def drawn(self, symbols):
        return [part for symbol in symbols for part in self.symbol(symbol)]

    def symbol(self, symbol):
        if isinstance(symbol, tuple):
            return self.drawn(self.chance.choice(symbol[1])) if symbol[0] == '(' or self.chance.random() < 0.5 else []
        if symbol in self.pools:
            return [self.chance.choice(self.pools[symbol])]
        return [self.rule(symbol)] if symbol in RULES else [symbol]


def spaced(words, chance):
    """The text of some words. A bracket or a sign may stand close to its neighbours, but no two signs to one another; other words may stand apart."""
    text = ''.join(words[:1])
    for before, word in zip(words, words[1:]):
        kinds = {kind_of_sign(before[-1]), kind_of_sign(word[0])}
        may_be_close = kinds != {''} and kinds != {'sign'}
        text += ('' if may_be_close and chance.random() < 0.5 else chance.choice([' ', ' ', ' ', '  ', '\t', '\r\n'])) + word
    return text


def kind_of_sign(byte):
    return 'bracket' if byte in '()' else 'sign' if byte in '=!<>' else ''

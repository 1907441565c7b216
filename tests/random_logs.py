"""Random scenarios with logs of a run: each step a line of its actor's log, some of its parts left out, and the logs mixed. Steps of the client may be told by
a line of the node where they took place, too, or by that alone. Some logs lack lines, with a gap in their place."""

from collections import namedtuple

from plain_order import ACTORS, DEFAULT_GAP, GAP, Line, TooMany, came_of, can_stand, is_gap, is_possible, log_of, order, split
from plain_table import LAST_KEY, NODES, opening, read
from random_questions import line_of, random_text, random_walk

# A scenario with its own choices, the state after them, lines, how many steps a gap stands for at most, and the whole text with the number of each line
# in it.
Logs = namedtuple('Logs', 'scenario start lines gap text numbers')

# How many places the model may come to.
MOST = 2000

# How often a part of a line is left out: in a log none, some or all.
SHARES = (0, 0, 0.2, 0.6, 1)

# The outcomes that a line may tell which is changed, where its action can have them, and the messages.
OUTCOMES = ('started', 'badmode', 'began A', 'began B', 'idle', 'elsewhere', 'notyet', 'did', 'did', 'split 0 1 2', 'aborted own', 'aborted killed',
            'aborted badkey', 'aborted missing', 'aborted duplicate', 'aborted frozen 0', 'aborted nopage', 'aborted gone 0', 'aborted gone 1', 'committed 1',
            'committed 2', 'waits 0', 'waits 1', 'pulls 0', 'pulls 1', 'awaits 0', 'nomessage', 'got wire', 'got ready', 'got dual', 'stale 0', 'held 0',
            'got pull 0', 'got page 0', 'got page 1', 'got finish', 'got done', 'stray', 'finishing', 'active 0', 'pushed 0', 'pushed 1', 'nopush')
KINDS = ('wire', 'ready', 'dual', 'pull', 'page', 'finish', 'done')

# The largest value, and how many rows a line tells at most.
LAST_VALUE, MOST_ROWS = 2 ** 32 - 1, 16

# The choices whose steps send or take a page.
MOVING = ('take', 'push')

# Which logs tell a step of the client: its own, that of the node where it took place, both, or any of these by turns.
TELLING = ('own', 'own', 'node', 'both', 'any')


def random_logs(chance, changes, gaps):
    """Logs of a random run with a number of changes and of gaps, for which there are not too many places."""
    while True:
        text = random_text(chance)
        scenario = read(text)
        kill = chance.random() < 0.5
        own, start = random_walk(chance, scenario, opening(scenario), kill, chance.choice([0, 0, 2, 6]))
        steps, _ = random_walk(chance, scenario, start, kill, chance.randint(1, 12 if gaps else 30))
        telling = chance.choice(TELLING)
        lines, gap = logged(chance, scenario, start, steps, telling), chance.choice([1, 1, 2, 3, DEFAULT_GAP])
        for _ in range(gaps):
            lines = with_gap(chance, lines, gap, telling == 'both')
        for _ in range(changes):
            lines = changed(chance, lines)
        try:
            answer = order(scenario, start, split(lines), gap, MOST)
        except TooMany:
            continue
        mixed_lines = mixed(chance, split(lines))
        head = text.replace('\nend\n', ''.join('\n' + line_of(choice) for choice in own) + '\nend\n')
        return Logs(scenario._replace(choices=own), start, mixed_lines, gap, *written(chance, scenario, head, mixed_lines)), answer


def right_run(chance, part, count):
    """A scenario with its text, the lines of a run, mixed, and a number or more of them that tell a part, `value` or `rows` (lines_in_full). Where it is the
    rows a page was pulled, too, which few runs do."""
    while True:
        scenario = read(text := random_text(chance))
        steps, _ = random_walk(chance, scenario, opening(scenario), False, 60)
        lines = lines_in_full(chance, scenario, steps, chance.choice(TELLING))
        telling = [(line, word) for line, word in lines if getattr(line, part) is not None]
        if len(telling) >= count and (part == 'value' or 'got pull' in [word for _, word in telling]):
            return scenario, text, mixed(chance, split([line for line, _ in lines])), telling


def wrong_parts(chance, part, count):
    """The right logs of a run; and a number of logs of which one line tells a wrong part, `value` or `rows`: each with that line and words for it."""
    scenario, text, lines, telling = right_run(chance, part, count)

    def logs_of(lines):
        return Logs(scenario, opening(scenario), lines, DEFAULT_GAP, *written(chance, scenario, text, lines))

    others = []
    for line, word in chance.sample(telling, count):
        change, told = another_part(chance, part, line)
        other = line._replace(**{part: told})
        others.append((logs_of([other if each is line else each for each in lines]), other, [word, *change]))
    return logs_of(lines), others


def another_part(chance, part, line):
    """Words for a change of a part of a line, and what the line tells then."""
    if part == 'value':
        return [], another_value(chance, line.value)
    change, rows = another_page(chance, line.rows)
    return [change], rows


def lines_in_full(chance, scenario, steps, telling):
    """The lines of the steps of a run that changed something, each of which tells all but the number of a commit; each with the word of its instruction, or if
    it is no `run` with the first words of its outcome."""
    lines, state = [], opening(scenario)
    for choice in steps:
        shown, after = came_of(scenario, state, choice)
        if after != state:
            told = shown.outcome[:1] if shown.outcome[0] == 'committed' else shown.outcome
            is_run, count = choice[1] == 'run', 2 if choice[1] == 'take' else 1
            word = scenario.programs[choice[2]][state.txns[choice[2]].pc][0] if is_run else ' '.join(shown.outcome[:count])
            lines += [(Line(choice, told, shown.value, shown.sent, shown.rows, node), word) for node in tellers(chance, choice, shown, telling)]
        state = after
    return lines


def tellers(chance, choice, shown, telling):
    """In which logs a step is told: None is that of its actor. What changes nothing may be told in the log of either node."""
    telling = 'own' if choice[0] != 'C' else chance.choice(TELLING[1:4]) if telling == 'any' else telling
    return [None] * (telling != 'node') + [shown.node or chance.choice(NODES)] * (telling != 'own')


def logged(chance, scenario, state, steps, telling):
    """The lines of a run."""
    outcomes, numbers, values, messages, pages = (chance.choice(SHARES) for _ in range(5))
    lines = []
    for choice in steps:
        shown, state = came_of(scenario, state, choice)
        for node in tellers(chance, choice, shown, telling):
            told = [] if chance.random() < outcomes else shortened(chance, shown.outcome) if chance.random() < numbers else shown.outcome
            lines.append(Line(choice, told, None if not told or chance.random() < values else shown.value,
                              None if chance.random() < messages else shown.sent, None if chance.random() < pages else shown.rows, node))
    return lines


def shortened(chance, outcome):
    """An outcome without some of its last words; `got` is not an outcome by itself."""
    return outcome[:chance.randint(2 if outcome[0] == 'got' else 1, len(outcome))]


def with_gap(chance, lines, gap, is_told_twice):
    """Lines with a gap, in the place of as many lines of a log as it may stand for, or of fewer. A gap of a node stands for none of the client, so those remain
    that are not told twice."""
    actor = chance.choice(ACTORS)
    own = [at for at, line in enumerate(lines) if log_of(line) == actor]
    first = chance.randint(0, len(own))
    lacking = own[first:first + chance.randint(0, gap)]
    if any(is_gap(lines[at]) or lines[at].node and not is_told_twice for at in lacking):
        lacking = []
    behind = own[first] if first < len(own) else len(lines)
    left = [(at, line) for at, line in enumerate(lines) if at not in lacking]
    return [line for at, line in left if at < behind] + [Line((actor, GAP, None), [], None, None)] + [line for at, line in left if at >= behind]


def changed(chance, lines):
    """Lines of which one is changed: it tells something else, is swapped with the next one of its log, stands elsewhere in it or in another log, or is
    missing."""
    if not lines:
        return lines
    at = chance.randrange(len(lines))
    if is_gap(lines[at]):
        return swapped(lines, at)
    line, kind = lines[at], chance.choice(['outcome', 'outcome', 'message', 'value', 'value', 'rows', 'swap', 'swap', 'move', 'log', 'missing'])
    if kind in CHANGES:
        return CHANGES[kind](chance, lines)
    if kind == 'swap':
        return swapped(lines, at)
    if kind == 'missing':
        return lines[:at] + lines[at + 1:]
    others = [told for told in map(str.split, OUTCOMES) if is_possible(line.choice[1], told) and can_stand(line._replace(told=told))]
    other = line._replace(told=chance.choice(others), value=None) if kind == 'outcome' else line._replace(sent=chance.choice(KINDS))
    return lines[:at] + [other] + lines[at + 1:]


def with_another_value(chance, lines):
    """Lines of which one that tells of a run that did, if there is one, tells another value."""
    did = [at for at, line in enumerate(lines) if line.told[:1] == ['did']]
    if not did:
        return lines
    at = chance.choice(did)
    return lines[:at] + [lines[at]._replace(value=another_value(chance, lines[at].value or 0))] + lines[at + 1:]


def with_other_rows(chance, lines):
    """Lines of which one, of a take or a push if there is one, tells other rows: if it can be one that tells some."""
    moving = [at for at, line in enumerate(lines) if line.choice[1] in MOVING]
    telling = [at for at in moving if lines[at].rows is not None]
    if not moving:
        return lines
    at = chance.choice(telling or moving)
    return lines[:at] + [lines[at]._replace(rows=another_page(chance, lines[at].rows or ())[1])] + lines[at + 1:]


def moved(chance, lines):
    """Lines of which one, that stands in the log of a node though the client chose its step if there is one, stands elsewhere in its log."""
    shared = [at for at, line in enumerate(lines) if line.node]
    at = chance.choice(shared or range(len(lines)))
    left = lines[:at] + lines[at + 1:]
    places = [place for place, line in enumerate(left) if log_of(line) == log_of(lines[at])] + [len(left)]
    place = chance.choice(places)
    return left[:place] + [lines[at]] + left[place:]


def in_another_log(chance, lines):
    """Lines of which one, that tells a step of the client if there is one, stands in another log."""
    told = [at for at, line in enumerate(lines) if line.choice[0] == 'C' and not is_gap(line)]
    if not told:
        return lines
    at = chance.choice(told)
    other = lines[at]._replace(node=chance.choice([node for node in (None, *NODES) if node != lines[at].node]))
    return lines[:at] + [other if can_stand(other) else other._replace(told=other.told[:1])] + lines[at + 1:]


# The changes for which a line is sought that they can be made to.
CHANGES = {'value': with_another_value, 'rows': with_other_rows, 'move': moved, 'log': in_another_log}


def another_page(chance, rows):
    """Other rows of a page, and what is other: a value, a key, or that a row is left out or added."""
    change = chance.choice(['value', 'key', 'left out'] * bool(rows) + ['added'] * (len(rows) < MOST_ROWS))
    told = dict(rows)
    key = chance.choice(sorted(told)) if rows else 0
    value = told.get(key, 0) if change == 'added' else told.pop(key)
    if change == 'value':
        told[key] = another_value(chance, value)
    if change in ('key', 'added'):
        told[chance.choice([other for other in (0, key + 1, key + 2, 7, LAST_KEY) if other <= LAST_KEY and other not in dict(rows)])] = value
    return change, tuple(sorted(told.items()))


def another_value(chance, value):
    """A value that is not this one."""
    return chance.choice([other for other in (value - 1, value + 1, value + 1000, 0, 1, LAST_VALUE) if 0 <= other <= LAST_VALUE and other != value])


def swapped(lines, at):
    """Lines of which one and the next one of its log have changed places."""
    after = next((i for i in range(at + 1, len(lines)) if log_of(lines[i]) == log_of(lines[at])), at)
    swap = list(lines)
    swap[at], swap[after] = lines[after], lines[at]
    return swap


def mixed(chance, logs):
    """The lines of logs, mixed."""
    actors = [x for x in range(len(ACTORS)) for _ in logs[x]]
    chance.shuffle(actors)
    left = [iter(log) for log in logs]
    return [next(left[x]) for x in actors]


def written(chance, scenario, head, lines):
    """The text of a scenario with the lines below it, some of them behind comments and empty lines, and the number of each line."""
    texts, numbers = head.splitlines(), []
    for line in lines:
        texts += chance.choices([[], [''], ['; A run 0 -> did'], ['', '\t; ']], (9, 1, 1, 1))[0]
        texts.append(chance.choice(['', '', ' ']) + spelled(chance, scenario, line) + chance.choice(['', '', ' ', ' ; -> ?']))
        numbers.append(len(texts))
    return '\n'.join(texts) + chance.choice(['', '\n']), numbers


def spelled(chance, scenario, line):
    """A line as text."""
    _, action, txn = line.choice
    if is_gap(line):
        return log_of(line) + chance.choice([' ', '  ', '\t']) + GAP
    words = [log_of(line), action] + ([] if txn is None else [name_of(chance, scenario, txn)])
    if line.told:
        words += ['->'] + line.told[:1] + [name_of(chance, scenario, int(word)) if line.told[0] == 'active' else word for word in line.told[1:]]
        words += [] if line.value is None else [chance.choice(['%d', '%d', '%010d']) % line.value]
    elif chance.random() < 0.5:
        words += ['->', '?']
    words += ['!', line.sent] if line.sent else []
    words += [] if line.rows is None else ['rows'] + [chance.choice(['%d=%d', '%d=%d', '%05d=%010d']) % row for row in line.rows]
    return chance.choice([' ', ' ', ' ', '\t']).join(words)


def name_of(chance, scenario, txn):
    """A transaction's number, or its name if it has one."""
    names = [name for name, number in scenario.names.items() if number == txn]
    return chance.choice(names)

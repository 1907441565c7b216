"""A plain model of `zy_bench order` (docs/order.md), over the plain table. It goes along the logs step by step; orders of the same lines that lead to the
same state go on as one. `tried_merges` answers the same without that: it runs every merge of every completion of the logs.

Logs are the lines of the client, of A and of B, some of which are gaps. A choice of the client may stand in the log of a node, too, or there alone. A place
is how many lines of each log are made, how many steps that it lacks were made since the last of them, and the state there."""

import os
import re
from collections import namedtuple
from itertools import product

from case import TOP, content
from plain_goals import is_over
from plain_search import considered
from plain_table import NODES, other, step

# What a line tells: a choice, the words of its outcome, of which the last ones or all may be left out, the value of its instruction, or None, the kind of the
# message, or None, and the rows of the page that was sent or taken, or None; and the node in whose log it stands though the choice is the client's, or None.
Line = namedtuple('Line', 'choice told value sent rows node', defaults=(None, None))

# What a step shows: the words of its outcome, the value of its instruction, or None, the kind of the message that it sent, or None, and the rows of the page
# that it sent or took, or None; and the node where a step of the client took place, or None, as of one that changed nothing.
Shown = namedtuple('Shown', 'outcome value sent rows node')

# What comes of it: whether there is an order, the places that are reached, and those that are furthest.
Answer = namedtuple('Answer', 'verdict places furthest')

Place = namedtuple('Place', 'made missing state')

ACTORS = 'CAB'

GAP = '...'

# The first words of the outcomes that change nothing.
NOTHING = ('badmode', 'idle', 'elsewhere', 'notyet', 'waits', 'awaits', 'nomessage', 'held', 'stray', 'active', 'nopush')

# How many steps a gap stands for at most, if nothing is said.
DEFAULT_GAP = 4

STEP_TABLE = os.path.join(TOP, 'docs', 'step-table.md')


class TooMany(Exception):
    """There are more places than are wanted."""


def outcomes_of_actions():
    """The outcomes for which docs/step-table.md has a line, by action: each as its words without pages, transactions and nodes."""
    given, action, column = {}, '', None
    for line in content(STEP_TABLE).decode().splitlines():
        cells = [cell.strip() for cell in line.strip('|').split('|')]
        if line.startswith('## '):
            action, column = (re.findall(r'`n (\w+)', line) + [''])[0], None
        elif 'Outcome' in cells:
            column = cells.index('Outcome')
        elif column is not None and line.startswith('| '):
            action = (re.findall(r'^`[Cn] (\w+)', cells[0]) + [action])[0]
            given.setdefault(action, set()).update(re.findall(r'`((?:\w\w+ ?)+)', cells[column]))
    return {action: [outcome.split() for outcome in sorted(outcomes)] for action, outcomes in given.items()}


# The outcomes that each action can have, whatever the state.
OUTCOMES_OF = outcomes_of_actions()


def is_possible(action, told):
    """Whether an action can have the outcome that a line has."""
    return any(all(word == wanted for word, wanted in zip(told, outcome)) for outcome in OUTCOMES_OF[action])


def can_stand(line):
    """Whether a line can stand in its log: where that is a node's, `began` names this node, or none."""
    return line.node is None or line.told[:1] != ['began'] or line.told[1:] in ([], [line.node])


def is_gap(line):
    return line.choice[1] == GAP


def log_of(line):
    """In whose log a line stands."""
    return line.node or line.choice[0]


def split(lines):
    """The logs of some lines, with their gaps."""
    return tuple(tuple(line for line in lines if log_of(line) == actor) for actor in ACTORS)


def made_of(log):
    """The lines of a log that are no gaps."""
    return tuple(line for line in log if not is_gap(line))


def room_in(log, gap):
    """How many steps may be missing from a log: before each of its lines, and behind the last."""
    room = [0]
    for line in log:
        if is_gap(line):
            room[-1] += gap
        else:
            room.append(0)
    return room


def sent_by(before, after):
    """The message that a step sent, or None."""
    return next((new[-1] for old, new in zip(before.links, after.links) if len(new) > len(old)), None)


def rows_moved(state, choice, outcome, sent):
    """The rows of the page that a step from a state sent or took, or None."""
    is_taken = outcome.startswith('got page')
    message = state.links[NODES.index(other(choice[0]))][0] if is_taken else sent
    return message[2] if message and message[0] == 'page' else None


def value_of(instruction, txn):
    """The value of an instruction that a transaction has done: what its register holds now, or what it wrote. Of `beq` None."""
    word, first, *_ = instruction
    held = txn.regs[int(first[1:])]
    return dict(txn.private)[held] if word in ('write', 'insert') else None if word == 'beq' else held


def node_of_step(choice, before, after):
    """The node where a step of the client took place: the one where its transaction is or was, or which starts a migration. None if it changed nothing."""
    if choice[0] != 'C' or before == after:
        return None
    if choice[1] == 'start':
        return next(name for name, node in zip(NODES, after.nodes) if node.mode == 'sinit')
    return after.txns[choice[2]].node


def came_of(scenario, state, choice):
    """What the step of a choice shows, and the state after it."""
    outcome, after = step(scenario, state, choice)
    t = choice[2]
    value = value_of(scenario.programs[t][state.txns[t].pc], after.txns[t]) if outcome == 'did' else None
    sent = sent_by(state, after)
    return Shown(outcome.split(), value, sent and sent[0], rows_moved(state, choice, outcome, sent), node_of_step(choice, state, after)), after


def agrees(line, shown):
    """Whether what a step shows is what a line tells, and the line may stand in its log."""
    parts = (line.value, shown.value), (line.sent, shown.sent), (line.rows, shown.rows), (line.node, shown.node or line.node)
    return shown.outcome[:len(line.told)] == line.told and all(told in (None, part) for told, part in parts)


def told_by(line, shown):
    """What a step shows, in the words of a log: the value and the rows where the line tells some."""
    value = [str(shown.value)] if None not in (line.value, shown.value) else []
    rows = ['rows'] + ['%d=%d' % row for row in shown.rows] if None not in (line.rows, shown.rows) else []
    return shown.outcome + value + (['!', shown.sent] if shown.sent else []) + rows


def tells_once(version, line):
    """Whether a line tells what comes of its choice only once: in version 1 there is one migration."""
    return line.choice[0] == 'C' and line.told[:1] in (['began'], ['aborted'], *[['started']] * (version == 1))


def are_twins(version, line, twin):
    """Whether lines are of two logs and of one choice, and both tell what comes only once."""
    return log_of(line) != log_of(twin) and line.choice == twin.choice and tells_once(version, line) and tells_once(version, twin)


def has_twin(version, logs, line):
    """Whether a line has a twin in some logs."""
    return tells_once(version, line) and any(are_twins(version, line, twin) for log in logs for twin in log)


def are_one(version, logs, line, second):
    """Whether a line of the client and one of a node may tell one step: they are of one choice, and twins if the second one has a twin."""
    return line.choice == second.choice and (are_twins(version, line, second) or not has_twin(version, logs, second))


def may_be_step(version, logs, lines):
    """Whether lines, each of another log, may tell one step: one that has no twin, or one of the client's and one of a node's."""
    if len(lines) == 1:
        return not has_twin(version, logs, lines[0])
    return log_of(lines[0]) == 'C' and are_one(version, logs, *lines)


# The logs that may tell a step together: each one alone, and the client's with that of a node.
TELLING = ((0,), (1,), (2,), (0, 1), (0, 2))


def put(numbers, x, number):
    """Numbers of which one is another."""
    return numbers[:x] + (number,) + numbers[x + 1:]


def passed(made, telling):
    """How many lines of each log are made, once one more is made of some."""
    return tuple(count + (x in telling) for x, count in enumerate(made))


def places_by_lines(scenario, logs, place, apart=False):
    """The places one step of lines further, each with the choice of the step. Twins may come apart if it is said so."""
    made, missing, state = place
    for telling in TELLING:
        lines = [logs[x][made[x]] for x in telling if made[x] < len(logs[x])]
        if len(lines) < len(telling) or lines[0].choice != lines[-1].choice or not (apart or may_be_step(scenario.version, logs, lines)):
            continue
        shown, after = came_of(scenario, state, lines[0].choice)
        if all(agrees(line, shown) for line in lines):
            yield lines[0].choice, Place(passed(made, telling), tuple(count * (x not in telling) for x, count in enumerate(missing)), after)


def places_by_missing(scenario, rooms, place):
    """The places one missing step further, but for those of a step that changes nothing: what comes behind it comes without it."""
    made, missing, state = place
    for choice in considered(scenario, True):
        x = ACTORS.index(choice[0])
        after = step(scenario, state, choice)[1] if missing[x] < rooms[x][made[x]] else state
        if after != state:
            yield Place(made, put(missing, x, missing[x] + 1), after)


def rank(made):
    """Of two places the one with the higher rank is further: with more lines of A and B, or with as many and fewer of the client."""
    client, a, b = made
    return a + b, -client


def is_alone(log, at):
    """Whether the line at a place of a node's log is of a choice of the node, and tells of a run that did, or that nothing came."""
    return any(not line.node and (line.told[:1] == ['did'] or line.told and line.told[0] in NOTHING) for line in log[at:at + 1])


def place_alone(scenario, logs, rooms, place):
    """The place one line further of a node, A if both have one, whose next line tells of a run that did, or that nothing came, if that fits and no step can be
    missing before it."""
    for x in (ACTORS.index('A'), ACTORS.index('B')):
        if is_alone(logs[x], place.made[x]) and place.missing[x] >= rooms[x][place.made[x]]:
            after = [after for choice, after in places_by_lines(scenario, logs, place) if after.made[x] > place.made[x]]
            if after:
                return after
    return []


def places_after(scenario, logs, rooms, place, apart):
    """The places one step further."""
    return [*(after for _, after in places_by_lines(scenario, logs, place, apart)), *places_by_missing(scenario, rooms, place)]


def order(scenario, state, all_logs, gap, most, reduced=True, apart=False):
    """Whether there is an order of the logs from a state on, if at most `most` places are reached; else TooMany. If it is reduced, some lines
    are followed alone, which may come before all that the others do. Twins may come apart if it is said so."""
    logs, rooms = [made_of(log) for log in all_logs], [room_in(log, gap) for log in all_logs]
    places, level = set(), {Place((0, 0, 0), (0, 0, 0), state)}
    while level:
        places |= level
        if len(places) > most:
            raise TooMany
        alone = {place: reduced and place_alone(scenario, logs, rooms, place) for place in level}
        level = {after for place in level for after in alone[place] or places_after(scenario, logs, rooms, place, apart)} - places
    found = any(place.made == tuple(map(len, logs)) for place in places)
    best = max(rank(place.made) for place in places)
    return Answer('found' if found else 'none', places, [place for place in places if rank(place.made) == best])


def settled_verdict(all_logs, places):
    """Whether an order of the logs ends settled, by the places that are reached: `found`, `other end` where each order ends otherwise, or `none`."""
    whole = [place for place in places if place.made == tuple(len(made_of(log)) for log in all_logs)]
    return 'none' if not whole else 'found' if any(map(is_over, whole)) else 'other end'


def fillings(scenario, actor, gap):
    """The lines that a gap of an actor may stand for: at most `gap` lines of steps of which nothing was logged."""
    lines = [Line(choice, [], None, None) for choice in considered(scenario, True) if choice[0] == actor]
    return [filling for count in range(gap + 1) for filling in product(lines, repeat=count)]


def completions(scenario, log, gap):
    """A log with each of its gaps filled in each way; a line is given with whether it is one of the log."""
    parts = [[((line, True),)] if not is_gap(line) else [tuple((missing, False) for missing in filling)
             for filling in fillings(scenario, line.choice[0], gap)] for line in log]
    return [sum(chosen, ()) for chosen in product(*parts)]


def merges(logs, at=(0, 0, 0)):
    """Each merge of completed logs from some lines on: of each step the logs that tell it. Two lines of one step are of one choice, and none is missing."""
    if at == tuple(map(len, logs)):
        yield ()
    for telling in steps_at(logs, at):
        for rest in merges(logs, passed(at, telling)):
            yield (telling,) + rest


def steps_at(logs, at):
    """The logs whose next lines may tell a step together, as far as their choices say; a line is given with whether it is one of the log."""
    for telling in TELLING:
        lines = [logs[x][at[x]] for x in telling if at[x] < len(logs[x])]
        if len(lines) == len(telling) and (len(lines) == 1 or all(is_logged for _, is_logged in lines) and lines[0][0].choice == lines[1][0].choice):
            yield telling


def merge_count(logs):
    """How many merges of completed logs there are."""
    counts = {tuple(map(len, logs)): 1}
    for at in product(*(range(len(log), -1, -1) for log in logs)):
        if at not in counts:
            counts[at] = sum(counts[passed(at, telling)] for telling in steps_at(logs, at))
    return counts[0, 0, 0]


def trial_count(scenario, logs, gap):
    """How many merges of completions there are at most."""
    count = merge_count([[(line, not is_gap(line)) for line in log for _ in range(gap if is_gap(line) else 1)] for log in logs])
    for line in sum(logs, ()):
        if is_gap(line):
            choices = sum(choice[0] == line.choice[0] for choice in considered(scenario, True))
            count *= sum(choices ** steps for steps in range(gap + 1))
    return count


def made_along(scenario, state, logs, merge):
    """How many lines of each log are made along a merge of completions, after each step whose lines fit."""
    own = [[line for line, is_logged in log if is_logged] for log in logs]
    at, made = (0, 0, 0), (0, 0, 0)
    yield made
    for telling in merge:
        lines, are_logged = zip(*(logs[x][at[x]] for x in telling))
        shown, state = came_of(scenario, state, lines[0].choice)
        if not all(agrees(line, shown) for line in lines) or all(are_logged) and not may_be_step(scenario.version, own, lines):
            return
        at, made = passed(at, telling), passed(made, telling if all(are_logged) else ())
        yield made


def tried_merges(scenario, state, logs, gap):
    """The verdict, and the rank of the furthest places, by trying each merge of each completion."""
    reached = {made for completed in product(*(completions(scenario, log, gap) for log in logs))
               for merge in merges(completed) for made in made_along(scenario, state, completed, merge)}
    return 'found' if tuple(len(made_of(log)) for log in logs) in reached else 'none', max(map(rank, reached))

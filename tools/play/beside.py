"""Two runs side by side, from where they part."""

from itertools import takewhile

import runs
from picture.looks import look_of
from picture.rows import choice_of


def beside(asked):
    """Where the scenarios differ, how many steps both begin with, the steps of each behind these, the two verdicts, and the lines of the last states
    that differ."""
    pair = [runs.read(text, quiet=True) for text in (asked['texts'][0], asked['texts'][1])]
    both = sum(1 for _ in takewhile(lambda steps: steps[0].line == steps[1].line, zip(*(run.steps for run in pair))))
    behind = [[shown(run, step) for step in run.steps[both:]] for run in pair]
    return {'scenarios': differing(*map(parts_of, pair)), 'both': both, 'steps': behind, 'verdicts': [run.verdict for run in pair],
            'states': [lines for _, *lines in differing(*map(last_state, pair))]}


def parts_of(run):
    """What a scenario has before its choices, by what it is about: its numbers, its rule, its rows, its programs."""
    rows = {'row ' + line.split()[1]: line.split()[2] for line in run.scenario if line.startswith('row ')}
    programs = {'program %d' % txn: '; '.join(lines) for txn, lines in enumerate(run.programs)}
    return {'version': run.version, 'cap': run.cap, 'pages': run.limit, 'rule': run.rule, **rows, **programs}


def shown(run, step):
    """A step: its choice with the name of its transaction, the instruction that it tries, its outcome and its look."""
    actor, action, *txn = choice_of(step).split()
    name = [run.names[int(number)] or 't' + number for number in txn]
    return [' '.join([actor, action] + name), run.instrs[step.number], step.line.split(' -> ')[1], look_of(step)]


def last_state(run):
    """The lines of the last state, each by what it is about."""
    return {tuple(line.split()[:2]): line for line in run.state(len(run.steps))}


def differing(one, other):
    """What differs of two states or scenarios: what it is about, and what each of them has there; '' where one has nothing."""
    return [[subject, one.get(subject, ''), other.get(subject, '')] for subject in {**one, **other} if one.get(subject) != other.get(subject)]

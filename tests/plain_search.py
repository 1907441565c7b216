"""A plain model of `zy_bench search` (docs/search.md), over the plain table and the plain goals.

    tests/plain_search.py [--kill] [--bare] GOAL FILE..

As a program it prints what comes of a search in each scenario, or with --bare in each without its choices: the verdict, how many states were reached, and how
many choices were added (found) or the most that a state takes (none)."""

import sys
from collections import namedtuple
from functools import cached_property

from plain_goals import Meaning, View, is_asked, read_goal, reads_ended
from plain_table import NOBODY, opening, read, step

Answer = namedtuple('Answer', 'verdict states length choices')


class TooMany(Exception):
    """There are more states than are wanted."""


KINDS = ('start', 'begin', 'kill', 'run', 'take', 'finish', 'push')


def considered(scenario, kill, left_out=()):
    """The choices that a search makes in each state, in this order, but for those of the kinds that are left out."""
    txns = range(len(scenario.programs))
    choices = [('C', 'start', None)] + [('C', 'begin', t) for t in txns] + [('C', 'kill', t) for t in txns if kill]
    for node in 'AB':
        choices += [(node, 'run', t) for t in txns] + [(node, action, None) for action in ('take', 'finish', 'push')]
    return [choice for choice in choices if choice[1] not in left_out]


def onward(state):
    """What the nodes do next to end a migration; None where none goes on."""
    if any(state.links):
        return 'B' if state.links[0] else 'A', 'take', None
    doing = {'sdual': 'finish', 'sfinish': 'push'}
    return next(((name, doing[node.mode], None) for name, node in zip('AB', state.nodes) if node.mode in doing), None)


def way_out(scenario, state):
    """The choices that end the migration from a state: the kills of the active transactions, and what the nodes do after them."""
    kills, steps = [('C', 'kill', t) for t, txn in enumerate(state.txns) if txn.status == 'active'], []
    for choice in kills:
        state = step(scenario, state, choice)[1]
    while choice := onward(state):
        steps.append(choice)
        state = step(scenario, state, choice)[1]
    return kills, steps


def whole(state):
    return state


def live(state):
    """A state with what later steps may read: of a transaction that is not active, how it ended and its private rows."""
    return state._replace(txns=tuple(txn if txn.status == 'active' else NOBODY._replace(status=txn.status, why=txn.why, private=txn.private)
                                     for txn in state.txns))


class Walk:
    """The states that a scenario comes to, breadth first from the one after its choices; of those that are alike the first one alone."""

    def __init__(self, scenario, choices, part, most=None):
        self.scenario, self.choices, self.part = scenario, choices, part
        start = opening(scenario)
        for choice in scenario.choices:
            _, start = step(scenario, start, choice)
        self.views, self.ways = [], [(None, None)]      # of each state the view, the state before it and the choice
        self.lengths = [0]
        self.explore(start, most)

    def explore(self, start, most):
        known = {self.part(start)}
        states = [start]
        while len(self.views) < len(states):
            at = len(self.views)
            outcomes = []
            for choice in self.choices:
                outcome, state = step(self.scenario, states[at], choice)
                outcomes.append((choice, outcome))
                if self.part(state) not in known:
                    known.add(self.part(state))
                    states.append(state)
                    self.ways.append((at, choice))
                    self.lengths.append(self.lengths[at] + 1)
            if most and len(states) > most:
                raise TooMany
            self.views.append(View(self.scenario, states[at], outcomes))

    def way_to(self, at):
        """The choices that lead to a state."""
        found = []
        while self.ways[at][0] is not None:
            at, choice = self.ways[at]
            found.append(choice)
        return found[::-1]

    def answer(self, test, outcome=None):
        """What comes of a search for the first state that passes a test and in which a considered choice has an outcome."""
        for at, view in enumerate(self.views):
            if test(view):
                last = [choice for choice, had in view.outcomes if outcome and is_asked(outcome, had)][:1]
                if outcome is None or last:
                    return Answer('found', at + 1, self.lengths[at] + len(last), self.way_to(at) + last)
        return Answer('none', len(self.views), self.lengths[-1], [])

    def bounds(self, most):
        """Which numbers of choices a search may name that gives up after some states, of which there are more: it has judged all that take fewer."""
        return range(self.lengths[most - 1], self.lengths[most] + 1)


class States:
    """A scenario, the flags that say by which choices it comes to its states, and two walks through them: two states are alike in the first if they are
    equal, and in the second if they are so in what later steps may read."""

    def __init__(self, scenario, kill=False, most=None, left_out=()):
        self.scenario = scenario
        self.words = ['--kill'] * kill + ['--without=' + kind for kind in left_out]
        self.considered = considered(scenario, kill, left_out)
        self.whole = Walk(scenario, self.considered, whole, most)

    @cached_property
    def live(self):
        return Walk(self.scenario, self.considered, live)

    def walk_for(self, goal):
        """The walk of a search for what was read of a goal."""
        return self.whole if reads_ended(goal) else self.live


def search(states, goal, always=False):
    """What comes of a search for a goal, or for a state that does not meet it."""
    read_as = read_goal(goal, 'EXPR' if always else 'GOAL')
    test, outcome = Meaning(states.scenario.names).goal(read_as)
    return states.walk_for(read_as).answer((lambda view: not test(view)) if always else test, outcome)


def main(words):
    kill, bare = '--kill' in words, '--bare' in words
    goal, *paths = [word for word in words if word not in ('--kill', '--bare')]
    for path in paths:
        with open(path, encoding='utf-8') as file:
            scenario = read(file.read())
        answer = search(States(scenario._replace(choices=[]) if bare else scenario, kill), goal)
        print(path, *answer[:3])


if __name__ == '__main__':
    main(sys.argv[1:])

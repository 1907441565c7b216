"""A plain model of `zsuite --all` (docs/search.md), over that of the search: all shortest schedules that meet a goal, and their order."""

from collections import namedtuple

from plain_goals import Meaning, is_asked, read_goal
from plain_table import step

# The choices, and the place and the number of choices in common of the one that it parts from (none of the first).
Parting = namedtuple('Parting', 'choices parent shared')


def ways_between(walk):
    """For each state of a walk the pairs of a state that is one choice nearer to the start and a choice that leads from there to it."""
    places = {view.state: at for at, view in enumerate(walk.views)}
    ways = [[] for _ in walk.views]
    for at, view in enumerate(walk.views):
        for choice in walk.choices:
            to = places[step(walk.scenario, view.state, choice)[1]]
            if walk.lengths[to] == walk.lengths[at] + 1:
                ways[to].append((at, choice))
    return ways


def ways_to(ways, at):
    """All shortest lists of choices that lead to a state."""
    return [way + (choice,) for before, choice in ways[at] for way in ways_to(ways, before)] if ways[at] else [()]


def ends(walk, goal, always):
    """The states of a walk that meet a goal, each with the choices that may come last: those with the outcome that is asked for, or else none."""
    test, outcome = Meaning(walk.scenario.names).goal(read_goal(goal, 'EXPR' if always else 'GOAL'))
    for at, view in enumerate(walk.views):
        last = [(choice,) for choice, had in view.outcomes if is_asked(outcome, had)] if outcome else [()]
        if test(view) != always and last:
            yield at, last


def all_shortest(states, goal, always=False):
    """All shortest schedules that meet a goal, or, if it is always to hold, after which it does not. Alike states are apart here: a list of choices that
    comes to one of them is another schedule."""
    walk = states.whole
    found = list(ends(walk, goal, always))
    length = min((walk.lengths[at] for at, _ in found), default=None)
    ways = ways_between(walk)
    return [way + choice for at, last in found if walk.lengths[at] == length for way in ways_to(ways, at) for choice in last]


def in_order(schedules, choices):
    """The schedules in their order, with where each parts from which other one: of those that begin alike the one whose choices come first in the order
    of all choices is found."""
    places, first = {choice: place for place, choice in enumerate(choices)}, {}
    for schedule in sorted(schedules, key=lambda schedule: [places[choice] for choice in schedule]):
        for at in range(len(schedule) + 1):
            first.setdefault(schedule[:at], schedule)
    found = [Parting(first[()], None, -1)]
    for number, (schedule, _, shared) in enumerate(found):      # it grows on the way
        for at in range(shared + 1, len(schedule)):
            begun = [schedule[:at] + (choice,) for choice in choices if choice != schedule[at]]
            found += [Parting(first[beginning], number, at) for beginning in begun if beginning in first]
    return found

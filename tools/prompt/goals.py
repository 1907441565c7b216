"""Goals of the states of a run: where they are met, and the prompt's own stops, which fire where a goal turns true."""

import bench

NONE = 4  # the status of `find` where no state meets a goal


class NoGoal(Exception):
    """Words that are no goal, and why."""


def met(goal, text):
    """The positions of a scenario's run at which a goal is met."""
    try:
        return [int(line) for line in bench.ask(['find', '--for', goal], text.encode(**bench.BYTES), good=(0, NONE), quiet=True)]
    except bench.Refused as refused:
        raise NoGoal(refused.line().removeprefix('zy_bench: --for: ')) from None


def turns(goal, text):
    """The positions at which a goal is met, and was not one choice before."""
    places = met(goal, text)
    return [place for place in places if place and place - 1 not in set(places)]


class Goals:
    """The goals that are set, by their numbers from 1 on."""

    def __init__(self):
        self.set = {}

    def add(self, goal, text):
        """One goal more, under the lowest free number, which is returned."""
        met(goal, text)
        number = next(number for number in range(1, len(self.set) + 2) if number not in self.set)
        self.set[number] = goal
        return number

    def shown(self):
        return ['goal %d %s' % goal for goal in sorted(self.set.items())]

    def firing(self, places, text):
        """The first of some positions at which a goal turns true, and the lowest number of such a goal; none where none does."""
        turning = {number: set(turns(goal, text)) for number, goal in self.set.items()}
        hits = ((place, number) for place in places for number in sorted(turning) if place in turning[number])
        return next(hits, None)

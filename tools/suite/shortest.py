"""All shortest schedules that meet a goal. Each that is found is left at each of its choices: a search says whether another choice there leads to the goal
as soon."""

import os
import re
from collections import namedtuple
from concurrent.futures import ThreadPoolExecutor
from contextlib import closing
from itertools import islice

import bench
import outcomes
from suite.making import put
from suite.quest import Text
from suite.questions import FOUND, NONE, SPENT

# The choices that lead to the goal, the state before each of them, the number of the schedule that it parts from (none of the first one), and how many
# choices the two share.
Schedule = namedtuple('Schedule', 'choices states parent shared')

# What comes of a choice in a state: the status of the search, the choices that lead on to the goal from there, and the state before each of them.
Way = namedtuple('Way', 'status choices states')

# The most states of the first search that a question takes; each further one may have twice as many.
FEW = 1024

HEAD = '''\
; Number: how many choices lead to the goal; from which schedule it parts, at which step, and its choice there.
'''


class Shortest:
    """The shortest schedules that meet a goal, from one of them on. No search reaches more states than `most`."""

    def __init__(self, quest, text, length, most):
        self.quest, self.most, self.length = quest, most, length
        self.text = Text(text, length)
        self.choices = quest.considered(self.text.names)
        self.outcome = quest.outcome(text)
        self.found, self.asked, self.open = [], {}, set()
        self.written, self.has_more = [], False

    def all(self):
        """Each schedule. They come in the order of that which they part from, then of the step at which they do, then of the choices as a search makes
        them."""
        pool = ThreadPoolExecutor(os.cpu_count())
        try:
            yield self.noted(Schedule(self.text.choices, self.text.states(self.text.choices, 0), None, -1))
            for number, schedule in enumerate(self.found):      # they become more on the way
                yield from self.parting(pool, number, schedule)
        finally:
            pool.shutdown(cancel_futures=True)

    def noted(self, schedule):
        """A schedule, which is one of those that are found."""
        self.found.append(schedule)
        return schedule

    def parting(self, pool, number, schedule):
        """The schedules that part from one of them, but for those that part from its own parent, too."""
        places = [(at, choice) for at in range(schedule.shared + 1, self.length) for choice in self.choices if choice != schedule.choices[at]]
        for (at, choice), way in [(place, self.way(pool, schedule, *place)) for place in places]:
            status, choices, states = way.result()
            if status == SPENT:
                self.open.add((schedule.states[at], choice))
            if status == FOUND:
                yield self.noted(Schedule((*schedule.choices[:at], choice, *choices), schedule.states[:at + 1] + states, number, at))

    def way(self, pool, schedule, at, choice):
        """What will come of another choice at a place of a schedule; it is asked once of each state."""
        key = schedule.states[at], choice
        if key not in self.asked:
            self.asked[key] = pool.submit(self.way_behind, (*schedule.choices[:at], choice))
        return self.asked[key]

    def way_behind(self, begun):
        """What comes of the last of some choices."""
        status, choices = self.answer(begun)
        return Way(status, choices, self.text.states(begun + choices, len(begun)) if choices else ())

    def answer(self, begun):
        """Which choices lead on from some others to the goal, with as many in all as the shortest schedules have."""
        left = self.length - len(begun)
        if self.outcome and not left:
            return FOUND if self.ends_with_outcome(begun) else NONE, ()
        most = min(4 ** (left + 1), FEW, self.most)
        while True:
            status, choices, bound = self.searched(begun, most)
            if status == FOUND and len(choices) == left:
                return FOUND, choices
            if status != SPENT or self.rules_out(bound, left):
                return NONE, ()
            if most == self.most:
                return SPENT, ()
            most = min(2 * most, self.most)

    def rules_out(self, bound, left):
        """Whether no schedule is as short as what is left, if none has fewer choices than a bound; the last choice of those with `then` does not count."""
        return bound > left - bool(self.outcome)

    def searched(self, begun, most):
        """What one search answers that goes on from some choices: its status, the choices that it found, and the bound at which it gave up."""
        status, text, said = self.quest.search(['--threads', '1', '--states', str(most)], self.text.with_choices(begun))
        if status not in (FOUND, NONE, SPENT):
            raise bench.Refused(status, said.strip())
        choices = self.text.choices_of(text)[len(begun):] if status == FOUND else ()
        return status, choices, int(re.search(r'fewer than (\d+) choice', said).group(1)) if status == SPENT else None

    def ends_with_outcome(self, choices):
        """Whether the last of some choices has the outcome that the goal asks for."""
        lines = self.text.listing(choices)
        last = lines[lines.index('final') - 1].split(' -> ')[1]
        return outcomes.words_in(last)[:len(self.outcome)] == self.outcome

    def write(self, folder, most):
        """Writes at most `most` schedules, each with its listing, and the index last. Then it looks whether there is one more."""
        with closing(self.all()) as schedules, ThreadPoolExecutor(os.cpu_count()) as pool:
            self.written = list(islice(schedules, most))
            list(pool.map(lambda one: self.put(folder, *one), enumerate(self.written, 1)))
            put(folder, 'index', (HEAD + ''.join(self.line_of(*one) + '\n' for one in enumerate(self.written, 1))).encode(**bench.BYTES))
            self.has_more = next(schedules, None) is not None

    def put(self, folder, number, schedule):
        """Writes the files of a schedule."""
        put(folder, '%d.zephyr' % number, self.text.with_choices(schedule.choices))
        put(folder, '%d.listing' % number, ''.join(line + '\n' for line in self.text.listing(schedule.choices)).encode(**bench.BYTES))

    def line_of(self, number, schedule):
        """The line of a schedule in the index."""
        if schedule.parent is None:
            return '%d: %d' % (number, self.length)
        step = self.text.taken + schedule.shared + 1
        return '%d: %d parts from %d at %d: %s' % (number, self.length, schedule.parent + 1, step, schedule.choices[schedule.shared])

    def lacks_some(self, most):
        """Whether fewer than `most` were written and a search gave up, so that there may be more."""
        return bool(self.open) and len(self.written) < most

    def summary(self):
        """How many schedules were written, and whether there are others."""
        many = counted(len(self.written), 'shortest schedule')
        if self.has_more:
            return '%s; there are more' % many
        if self.open:
            return '%s; %s gave up, so there may be more' % (many, counted(len(self.open), 'search'))
        return '%s, and there are no others' % many


def counted(number, word):
    """A number of things: 1 search, 2 searches."""
    return '%d %s%s' % (number, word, '' if number == 1 else 'es' if word.endswith('ch') else 's')

"""A suite: its questions asked of each of some programs, and its files."""

import os
from collections import namedtuple
from concurrent.futures import ThreadPoolExecutor

import bench
from suite.questions import FOUND, NONE, PHASES, SPENT, outcome_goals

# A phase, an outcome, the status of the search, and the programs and the answer where there is a scenario.
Row = namedtuple('Row', 'phase outcome status programs answer')

HEAD = '''\
; A mode, B mode, outcome: how many choices the scenario has, its file, the programs that it is of.
; never: no schedule of any of the programs brings it about there{0}.
; unknown: a search gave up.
'''

KILLS = ' (the client kills nobody, but for aborted-killed)'


class Suite:
    """The shortest scenarios of some programs, by phase and outcome."""

    def __init__(self, programs, states):
        self.programs, self.states = programs, states
        with ThreadPoolExecutor(os.cpu_count()) as pool:
            reached = list(pool.map(self.reaching, PHASES))
            pairs = [(phase, outcome, able) for phase, able in zip(PHASES, reached) if able for outcome in outcome_goals()]
            self.rows = list(pool.map(lambda pair: self.row(*pair), pairs))

    def reaching(self, phase):
        """The programs that can be in a phase."""
        return [one for one in self.programs if one.reaches(phase, self.states)]

    def row(self, phase, outcome, programs):
        """The shortest answer of all programs."""
        answers = [(one, one.ends_with(phase, outcome, self.states)) for one in programs]
        found = [(one, answer) for one, answer in answers if answer.status == FOUND]
        if found:
            return Row(phase, outcome, FOUND, *min(found, key=lambda pair: pair[1].choices))
        status = SPENT if any(answer.status == SPENT for _, answer in answers) else NONE
        return Row(phase, outcome, status, None, None)

    def is_open(self):
        """Whether a search gave up."""
        return any(row.status == SPENT for row in self.rows)

    def write(self, folder):
        """Writes each scenario and its listing, and the index last."""
        for row in self.rows:
            if row.status == FOUND:
                put(folder, name_of(row) + '.zephyr', row.answer.text)
                put(folder, name_of(row) + '.listing', ''.join(line + '\n' for line in bench.ask(['run'], row.answer.text, quiet=True)).encode(**bench.BYTES))
        put(folder, 'index', (HEAD.format(KILLS) + ''.join(line_of(row) + '\n' for row in self.rows)).encode(**bench.BYTES))

    def summary(self):
        """How many scenarios there are, and how often an outcome cannot come."""
        count = [sum(row.status == status for row in self.rows) for status in (FOUND, NONE, SPENT)]
        return '%d scenarios; %d times an outcome cannot come in a phase, %d times a search gave up' % tuple(count)


def name_of(row):
    """The name of a row's files, without what they end with."""
    return '%s-%s.%s' % (*row.phase, row.outcome.replace(' ', '-'))


def line_of(row):
    """The line of a row in the index."""
    what = ' '.join((*row.phase, row.outcome.replace(' ', '-')))
    if row.status == FOUND:
        return '%s: %d %s.zephyr %s' % (what, row.answer.choices, name_of(row), row.programs.name)
    return '%s: %s' % (what, 'never' if row.status == NONE else 'unknown')


def put(folder, name, content):
    """Writes a file; a fault names it."""
    path = os.path.join(folder, name)
    try:
        with open(path, 'xb') as file:
            file.write(content)
    except OSError as error:
        raise OSError(error.errno, error.strerror, path) from None

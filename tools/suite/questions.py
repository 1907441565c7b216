"""What a suite asks of the program: in which phases of a migration some programs can be, and how an outcome comes there."""

import re
import subprocess
from collections import namedtuple

import bench
import outcomes

MODES = ('normal', 'empty', 'sinit', 'sdual', 'sfinish', 'dinit', 'ddual', 'dfinish')

FOUND, NONE, SPENT = 0, 4, 6

# What a search has answered: its status, and the scenario, its number of choices and the outcome of its last step where there is one.
Answer = namedtuple('Answer', 'status text choices')

# The modes of A and of B.
Phase = namedtuple('Phase', 'a b')

PHASES = [Phase(a, b) for a in MODES for b in MODES]


def outcome_goals():
    """Each outcome of the table in the words of a goal, as docs/formats.md has them: those with a reason or a kind one by one."""
    names = [' '.join(outcomes.words_in(pattern)) for pattern, _ in outcomes.patterns()]
    return [name for name in dict.fromkeys(names) if name not in ('aborted WHY', 'aborted')]


class Programs:
    """The programs of a scenario, and the state that its choices lead to."""

    def __init__(self, name, text):
        self.name, self.text = name, text

    def search(self, goal, states, kills=False):
        """What comes of a search for a goal. It has one thread, since others are made beside it."""
        words = ['search', '--canon', '--threads', '1', '--for', goal, '--states', states] + ['--kill'] * kills
        with bench.start(words, stdin=subprocess.PIPE, stdout=subprocess.PIPE, stderr=subprocess.PIPE) as process:
            written, said = process.communicate(self.text)
        if process.returncode not in (FOUND, NONE, SPENT):
            words = said.decode(**bench.BYTES).strip()
            raise bench.Refused(process.returncode, words and '%s: %s' % (self.name, words))
        return Answer(process.returncode, written, len(re.findall(rb'^[CAB] ', written, re.MULTILINE)))

    def reaches(self, phase, states):
        """Whether a phase can come, as far as the search goes."""
        return self.search('mode A %s and mode B %s' % phase, states).status != NONE

    def ends_with(self, phase, outcome, states):
        """A shortest scenario whose last step has an outcome in a phase. The client kills nobody but for the outcome of that."""
        goal = 'mode A %s and mode B %s then %s' % (*phase, outcome)
        return self.search(goal, states, kills=outcome == 'aborted killed')

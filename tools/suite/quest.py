"""What is asked of the program about the schedules that meet a goal, and the text of a scenario that was found."""

import re
import subprocess

import bench


class Quest:
    """What is looked for, in the words of `search`: a goal, and the choices that are considered."""

    def __init__(self, goal, always, kills, left_out):
        self.goal = ['--%s=%s' % flag for flag in (('for', goal), ('always', always)) if flag[1] is not None]
        self.kinds = ['--kill'] * kills + ['--without=' + kind for kind in left_out]
        self.kills, self.left_out = kills, left_out
        self.sought = goal or ''

    def search(self, words, text=b''):
        """The status of a search, what it wrote, and what it said."""
        words = ['search', *self.goal, *self.kinds, *words]
        with bench.start(words, stdin=subprocess.PIPE, stdout=subprocess.PIPE, stderr=subprocess.PIPE) as process:
            written, said = process.communicate(text)
        return process.returncode, written.decode(**bench.BYTES), said.decode(**bench.BYTES)

    def considered(self, names):
        """The choices that are considered, in the order in which a search makes them, with the names of the transactions."""
        txns = [name or str(number) for number, name in enumerate(names)]
        client = ['C start'] + ['C begin ' + txn for txn in txns] + ['C kill ' + txn for txn in txns if self.kills]
        nodes = [node + action for node in 'AB' for action in [' run ' + txn for txn in txns] + [' take', ' finish', ' push']]
        return [choice for choice in client + nodes if choice.split()[1] not in self.left_out]

    def outcome(self, text):
        """The words of the outcome that the last choice is to have; none where the goal has no `then`, which is not allowed behind --always."""
        if not self.sought:
            return []
        with bench.start(['find', '--always=' + self.sought], stdin=subprocess.PIPE, stdout=subprocess.DEVNULL, stderr=subprocess.PIPE) as process:
            said = process.communicate(text.encode(**bench.BYTES))[1].decode(**bench.BYTES)
        then = re.search(r"\(column (\d+): '[^>]*>then<", said)
        return self.sought[int(then.group(1)) - 1 + len('then'):].split() if then else []


class Text:
    """A scenario that was found: its lines above the choices that lead to the goal, these, and the lines below."""

    def __init__(self, text, length):
        lines = text.split('\n')
        end = next(number for number, line in enumerate(lines) if bench.words_of(line) == ['end'])
        self.above, self.choices, self.below = lines[:end - length], tuple(lines[end - length:end]), lines[end:]
        self.names = bench.names_of('\n'.join(self.above))
        self.pages = next(int(words[1]) for words in map(bench.words_of, lines) if words[:1] == ['pages'])
        self.taken = self.steps(()) if length else 0

    def with_choices(self, choices):
        return '\n'.join([*self.above, *choices, *self.below]).encode(**bench.BYTES)

    def choices_of(self, text):
        """The choices that another found scenario has there."""
        lines = text.split('\n')
        return tuple(lines[len(self.above):len(lines) - len(self.below)])

    def listing(self, choices):
        return bench.ask(['run'], self.with_choices(choices), quiet=True)

    def steps(self, choices):
        """How many steps there are up to the last of some choices, those of the scenario's own choices too."""
        lines = self.listing(choices)
        return lines.index('final') - lines.index('steps') - 1

    def states(self, choices, first):
        """The states before each of some choices, from the one with this number on: all that the debugger replies of them."""
        questions = ['node A', 'node B', 'links'] + ['page %d' % page for page in range(self.pages)] + ['txn %d' % txn for txn in range(len(self.names))]
        commands = ['goto %d\n' % (self.taken + at) + '\n'.join(questions) for at in range(first, len(choices))]
        replies = bench.ask(['debug'], self.with_choices(choices) + '\n'.join(['', *commands, '']).encode(), quiet=True)
        size = len(replies) // max(len(commands), 1)
        return tuple('\n'.join(replies[at + 1:at + size]) for at in range(0, len(replies), size or 1))


def length_in(said):
    """How many choices a search says that it has found."""
    return int(re.search(r': (\d+) choices? leads? there', said).group(1))

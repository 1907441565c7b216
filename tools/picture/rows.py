"""The rows of a picture: one for each step, or one for some like steps in a row that are folded."""

from picture.looks import look_of

# Above this number of steps, like steps in a row share a row.
LONG = 200


def choice_of(step):
    """The choice of a step, as the listing has it."""
    return step.line.split(' -> ')[0].split(' ', 1)[1]


def fold_key(step):
    """Steps in a row are folded where they have the same key: they say the same, or nothing happens in any of them."""
    return 'quiet' if look_of(step) == 'quiet' else step.line.split(' ', 1)[1]


class Rows:
    """Row 0 is the opening; each other row is the first and the last of the steps in it."""

    def __init__(self, steps, fold):
        self.rows = [(0, 0)]
        for step in steps:
            first, last = self.rows[-1]
            like = fold and first > 0 and fold_key(steps[first - 1]) == fold_key(step)
            self.rows[-1 if like else len(self.rows):] = [(first if like else step.number, step.number)]
        self.rows = [row for first, last in self.rows for row in kept(first, last)]
        self.of = [row for row, (first, last) in enumerate(self.rows) for _ in range(first, last + 1)]


def kept(first, last):
    """Two like steps are not worth a fold."""
    return [(first, last)] if last - first != 1 else [(first, first), (last, last)]


def row_text(run, first, last):
    """The number, the choice, the instruction and the outcome of a row."""
    if last == 0:
        return ('0', 'opening', '', '')
    step = run.steps[first - 1]
    if first == last:
        return (str(first), choice_of(step), run.instrs[first], step.line.split(' -> ')[1])
    return (str(first),) + folded_text(run, run.steps[first - 1:last])


def folded_text(run, steps):
    """The choice, the instruction and the outcome of some like steps together."""
    step, actors = steps[0], {step.actor for step in steps}
    same = len({choice_of(other) for other in steps}) == 1
    choice = choice_of(step) if same else ' and '.join(sorted(actors)) if len(actors) > 1 else step.actor + ' …'
    more = ' …' if len({other.outcome for other in steps}) > 1 else ''
    instr = run.instrs[step.number] + ' …' if run.instrs[step.number] and look_of(step) == 'did' else run.instrs[step.number]
    return choice, instr, '%s%s ×%d' % (step.outcome, more, len(steps))

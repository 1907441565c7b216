"""How a step looks: the kind of its mark, and whether its transaction waits."""

from functools import lru_cache

from waiting import freed

LOOKS = {'did': 'did', 'began': 'begin', 'committed': 'ok', 'aborted': 'bad', 'waits': 'wait', 'awaits': 'wait', 'held': 'wait',
         'active': 'wait', 'notyet': 'wait', 'pulls': 'pull', 'split': 'split', 'got': 'take', 'stale': 'take', 'started': 'send',
         'finishing': 'send', 'pushed': 'send', 'stray': 'bad'}

# The outcomes after which the transaction tries the same instruction again.
STUCK = ('waits', 'awaits', 'pulls', 'notyet')


def look_of(step):
    """did, begin, ok, bad, wait, pull, split, take, send; quiet where nothing happens."""
    return looks(step.outcome)


@lru_cache(1 << 12)
def looks(outcome):
    """The look of each step with an outcome: there are few of them."""
    return LOOKS.get(outcome.split()[0], 'quiet')


def stuck(run, life):
    """The stretches in which a transaction waits: from a step that says so until that has come for which it waits, or to its next step that goes on,
    or to its end."""
    tries = [step for step in run.tries.get(life.txn, []) if life.begin < step.number <= (life.end or step.number) and step.actor == life.node]
    found = []
    for step, after in zip(tries, [step.number for step in tries[1:]] + [life.end]):
        if step.outcome.split()[0] in STUCK:
            start = found.pop()[0] if found and found[-1][1] == step.number else step.number
            found.append((start, freed(run, step, after)))
    return found


def node_of(run, step):
    """The node in whose lane a step is labelled; None where it is the client's alone."""
    if step.actor != 'C':
        return step.actor
    return run.lives[step.txn].node if step.txn is not None and run.lives[step.txn] else None

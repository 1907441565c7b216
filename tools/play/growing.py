"""A run that begins like another one. `trace` writes the state at each step; where few steps are new the debugger replies it at these alone, in the
same lines, which takes a hundredth of the time."""

from itertools import takewhile

import bench
import runs

# At most as many steps are asked for one by one.
MOST = 16


def grown(text, old):
    """The run of a text, of which an old run may have the first steps."""
    part, _ = bench.cut(text)
    lines = old and traced(part, old)
    return runs.Run(lines, bench.names_of(part)) if lines else runs.read(part, quiet=True)


def traced(part, old):
    """The lines of the trace of a text; None where an old run has too few of its steps, or is one of another scenario."""
    listing = bench.ask(['run'], part.encode(**bench.BYTES), quiet=True)
    here, end = listing.index('steps'), listing.index('final')
    steps = listing[here + 1:end]
    if listing[:here - 1 - len(steps)] != old.scenario[:-1 - len(old.steps)]:
        return None
    both = sum(1 for _ in takewhile(lambda pair: pair[0] == pair[1].line, zip(steps, old.steps)))
    if len(steps) - both > MOST:
        return None
    known = old.lines[:old.lines.index(old.steps[both].line)] if both < len(old.steps) else old.lines
    return listing[:here] + ['trace', '0 opening'] + known + behind(part, old, both, steps) + listing[end:]


def behind(part, old, both, steps):
    """The lines of the steps behind those that both runs have: each with the lines of the state that it changes."""
    before, found = set(old.state(both)), []
    for step, state in zip(steps[both:], states(part, old, range(both + 1, len(steps) + 1))):
        found += [step] + ['  ' + line for line in state if line not in before]
        before = set(state)
    return found


def states(part, old, positions):
    """The lines of the state at each of some positions, as the debugger has them. A step splits at most one page."""
    most = min(int(old.limit), len(old.pages) + len(positions))
    asked = ['where', 'links', *('page %d' % page for page in range(most)), *('txn %d' % txn for txn in range(len(old.txns)))]
    commands = [line for position in positions for line in ('goto %d' % position, *asked)]
    replies = bench.ask(['debug'], '\n'.join([part + commands[0], *commands[1:], '']).encode(**bench.BYTES), quiet=True) if commands else []
    each = len(asked) + 2  # the links are two lines
    for start in range(0, len(replies), each):
        where, *lines = replies[start + 1:start + each]
        modes = ['mode %s %s' % pair for pair in zip(runs.NODES, where.split()[-2:])]
        yield modes + [line for line in lines if line.split()[-1] != 'none']

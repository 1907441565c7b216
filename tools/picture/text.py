"""The picture in letters, for a terminal: a lane for the client, for each node and for the messages between them, and a summary."""

from collections import Counter

from picture.looks import node_of
from picture.rows import folded_text
from runs import LINKS, NODES, page_words
from waiting import note

# What goes out from a node, and the lanes from left to right.
ARROWS = {'A': '%s ▶', 'B': '◀ %s'}
LANES = ('step', 'client', 'A', 'messages', 'B')


def text(picture, part):
    """The rows of a part, and below them the summary of the whole run."""
    run = picture.run
    opening = ['A ' + run.modes['A'].at(max(0, part[0] - 1)), 'B ' + run.modes['B'].at(max(0, part[0] - 1))]
    rows = [['step', 'client', opening[0], 'messages', opening[1]]]
    rows += [row_of(run, first, last) for first, last in picture.rows.rows[1:] if part[0] <= last and first <= part[1]]
    widths = [max(len(row[lane]) for row in rows) for lane in range(len(LANES))]
    return ''.join(line_of(row, widths) + '\n' for row in rows) + '\n' + ''.join(line + '\n' for line in summary(run, picture.verdict))


def line_of(row, widths):
    """A row with each cell as wide as its lane: numbers to the right, messages in the middle, what is at B at its end."""
    number, *cells = row
    aligned = [number.rjust(widths[0])] + [cell.ljust(width) for cell, width in zip(cells, widths[1:])]
    aligned[3] = row[3].center(widths[3])
    return '  '.join(aligned).rstrip()


def row_of(run, first, last):
    """The cells of a row."""
    step = run.steps[first - 1]
    cells = dict.fromkeys(LANES, '')
    cells['step'] = str(first)
    if first == last:
        put_step(run, step, cells)
    else:
        steps = run.steps[first - 1:last]
        choice, instr, outcome = folded_text(run, steps)
        name = run.name(step.txn) + ' ' if instr and len({other.txn for other in steps}) == 1 else ''
        cells['client' if step.actor == 'C' else step.actor] = '%s%s: %s' % (name, instr or choice, outcome)
    if step.actor in NODES:
        cells[step.actor] += note(run, step)
    for node in NODES:
        modes = [mode for position, mode in run.modes[node].changes if first <= position <= last]
        cells[node] = (cells[node] + ''.join(' [%s]' % mode for mode in modes)).strip()
    if first in run.left_locked:
        cells[step.actor] += ' [page %d leaves locked]' % run.left_locked[first]
    return [cells[lane] for lane in LANES]


def put_step(run, step, cells):
    """What a step did, in the lane of its actor, and for the client in that of the node too."""
    node, name = node_of(run, step), '' if step.txn is None else run.name(step.txn)
    if step.sent:
        message = next(m for m in run.messages if m.sent == step.number)
        cells['messages'] = ARROWS[message.link[0]] % message.text
        node = message.link[0]
    if step.actor != 'C':
        tried = run.instrs[step.number] or step.action
        cells[step.actor] = '%s %s: %s' % (name, tried, step.outcome) if name else step.outcome
    elif node and step.outcome.split()[0] in ('began', 'started', 'aborted'):
        cells['client'] = ('%s %s' % (step.action, name)).strip()
        cells[node] = ('%s %s' % (name, step.outcome)).strip()
    else:
        cells['client'] = '%s: %s' % (('%s %s' % (step.action, name)).strip(), step.outcome)


def summary(run, verdict):
    """The run in some lines: outcomes, transactions, pages, messages that are on their way, the migration, the verdict."""
    last = len(run.steps)
    counted = Counter(step.outcome.split()[0] for step in run.steps)
    yield '%d steps: %s' % (last, ', '.join('%s %d' % pair for pair in counted.most_common()) or 'none')
    yield from transactions(run)
    places = Counter(page_words(page.at(last))[0] for page in run.pages)
    yield 'pages: ' + ', '.join('%d at %s' % (places[node], node) for node in NODES) + ''.join(
        ', %d on link %s' % (places[link], link) for link in LINKS if places[link])
    if run.left_locked:
        yield 'left while locked: ' + ', '.join('page %d at step %d' % (page, step) for step, page in sorted(run.left_locked.items()))
    waiting = ['%s %s' % (message.link, message.text) for message in run.messages if message.taken is None]
    yield 'messages on their way: ' + (', '.join(waiting) or 'none')
    yield 'migration: ' + migration(run)
    yield verdict


def transactions(run):
    """How the transactions ended, each kind in a line."""
    ends = {'committed': [], 'aborted': [], 'active': [], 'new': []}
    for txn, life in sorted(enumerate(run.lives), key=lambda pair: (pair[1] and pair[1].end or 0, pair[0])):
        words = life.outcome.split(' ', 1) if life else ['new']
        why = ' (%s)' % words[1] if words[0] == 'aborted' else ''
        ends[words[0] or 'active'].append(run.name(txn) + why)
    for word, names in ends.items():
        if names:
            yield '%s: %s' % (word, ', '.join(names))


def migration(run):
    """Whether a migration was started, and whether the last one ended."""
    started = [step.number for step in run.steps if step.outcome == 'started']
    modes = [run.modes[node].at(len(run.steps)) for node in NODES]
    if not started:
        return 'none was started'
    words = 'A is %s, B is %s' % tuple(modes)
    if sorted(modes) != ['empty', 'normal']:
        return 'started at step %d, not ended: %s' % (started[-1], words)
    ended = max(run.modes[node].changes[-1][0] for node in NODES)
    return 'started at step %d, ended at step %d: %s' % (started[-1], ended, words)

"""The picture as a sequenceDiagram of Mermaid."""

import sys

from picture.looks import look_of
from picture.rows import row_text
from runs import NODES

ARROWS = {'page': '->>', 'pull': '--)'}
MOST = 50000  # the most letters that Mermaid takes without a setting


def mermaid(picture, part):
    """A sequenceDiagram: each message where it is taken, a note for what happens at a node; like steps in a row share a note."""
    run, rows = picture.run, picture.rows
    lines = ['participant C as client', 'participant A as node A', 'participant B as node B']
    lines += ['Note over %s: %s' % (node, run.modes[node].at(max(0, part[0] - 1))) for node in NODES]
    for first, last in rows.rows[1:]:
        if part[0] <= last and first <= part[1]:
            lines += mermaid_row(run, first, last)
    lines += ['%s-x%s: %s stays in the link' % (*message.link, message.text) for message in run.messages
              if part[0] <= message.sent <= part[1] and (message.taken or part[1] + 1) > part[1]]
    # To Mermaid a semicolon ends a line.
    lines += ['Note over C,B: ' + picture.verdict.replace(';', ',')] if part[1] == len(run.steps) else []
    made = 'sequenceDiagram\n' + ''.join('    %s\n' % line for line in lines)
    if len(made) > MOST:
        print('zview: Mermaid draws at most %d letters, and these are %d: try --steps' % (MOST, len(made)), file=sys.stderr)
    return made


def mermaid_row(run, first, last):
    """The lines of a row: what it did, and the modes that it changed."""
    step, life = run.steps[first - 1], None
    number, choice, _, outcome = row_text(run, first, last)
    if step.txn is not None:
        life, choice = run.lives[step.txn], choice.rsplit(' ', 1)[0] + ' ' + run.name(step.txn) if last == first else choice
    words = '%s %s: %s' % (number, choice, outcome.replace(' ! ', ', sends '))
    taken = next((message for message in run.messages if message.taken == first), None)
    if taken:
        lines = ['%s%s%s: %s sent at %d, %s' % (taken.link[0], ARROWS.get(taken.kind, '-)'), taken.link[1], taken.text, taken.sent, words)]
    elif step.actor == 'C' and step.outcome.startswith(('began', 'started')):
        lines = ['C->>%s: %s' % (life.node if step.action == 'begin' else run.sender(step), words)]
    elif look_of(step) in ('ok', 'bad') and life:
        lines = ['%s-->>C: %s' % (life.node, words)]
    else:
        lines = ['Note over %s: %s' % (step.actor, words)]
    if first in run.left_locked:
        lines.append('Note over %s: page %d leaves locked' % (step.actor, run.left_locked[first]))
    return lines + ['Note over %s: %s' % (node, mode) for node in NODES for start, mode in run.modes[node].changes if start == first]

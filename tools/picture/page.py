"""The picture as one HTML file: the drawing in pieces, the state after each step beside it, and the script that shows them."""

import json
import re
from html import escape

from outcomes import meanings
from picture.colours import page_css, part
from picture.drawing import draw_head_row
from picture.looks import look_of
from picture.place import ROW
from picture.svg import draw_key
from runs import NODES
from waiting import sentence

CHUNK = 60  # as many rows are drawn at a time


def html(picture, goals):
    """The file; `goals` are the stretches of states that meet each goal."""
    return filled(part('page.html'), {
        'title': escape(picture.title), 'css': page_css(), 'script': part('page.js'),
        'data': json.dumps({**data_of(picture), 'goals': goals}, separators=(',', ':')).replace('</', '<\\/')})


def filled(html_text, parts):
    """A page with its parts in the places of their names."""
    return re.sub(r'\{\{(\w+)\}\}', lambda name: parts[name.group(1)], html_text)


def data_of(picture):
    """What the script shows: the run, and all pieces of the drawing."""
    return {**run_of(picture), 'pieces': [picture.sheet.part(*piece) for piece in pieces(picture)]}


def pieces(picture):
    """The heights between which each piece of the drawing is."""
    return [(top, top + CHUNK * ROW) for top in range(0, picture.place.height, CHUNK * ROW)]


# A step behind every other.
NEVER = 1 << 20


def run_of(picture):
    """What the script shows of the run."""
    run, place = picture.run, picture.place
    glosses, gloss = glossed(run.steps)
    key, tall = draw_key(place.width)
    return {
        'last': len(run.steps), 'row': ROW, 'rowOf': picture.rows.of, 'width': place.width, 'height': place.height, 'chunk': CHUNK * ROW,
        'head': draw_head_row(run, place), 'key': key, 'tall': tall, 'overview': overview(run, picture.rows),
        'chips': chips(run), 'verdict': verdict(picture),
        'lines': ['0 opening'] + [step.line for step in run.steps], 'instrs': run.instrs, 'glosses': glosses, 'gloss': gloss,
        'waits': waits(run),
        'marks': marks(run),
        'modes': {node: run.modes[node].changes for node in NODES}, 'pages': [page.changes for page in run.pages],
        'txns': [txn.changes for txn in run.txns], 'names': [run.name(txn) for txn in range(len(run.txns))],
        'programs': run.programs, 'actors': [0] + [step.txn if step.txn is not None else -1 for step in run.steps],
        'messages': [(message.link, message.text, message.sent, message.taken or NEVER) for message in run.messages]}


def glossed(steps):
    """The sentences on the outcomes, each once, and for each step the number of its own."""
    meaning, numbers = meanings({step.outcome for step in steps}), {}
    gloss = [numbers.setdefault(meaning[step.outcome], len(numbers)) for step in steps]
    return list(numbers), gloss


def waits(run):
    """Whom each step waits for, as a sentence, by the number of the step."""
    words = {step.number: sentence(run, step) for step in run.steps}
    return {number: found[0].upper() + found[1:] + '.' for number, found in words.items() if found}


def marks(run):
    """The steps to which `n` and `p` go: commits, aborts, waits and splits, those that change a mode, and those in which a locked page leaves."""
    others = set(run.left_locked) | {start for node in NODES for start, _ in run.modes[node].changes}
    return [step.number for step in run.steps if look_of(step) in ('ok', 'bad', 'wait', 'split') or step.number in others]


def chips(run):
    """The scenario's header and its sizes."""
    pages = '%s of at most %s' % (counted(len(run.pages), 'page'), run.limit)
    return ['version ' + run.version, 'rule ' + run.rule, 'cap ' + run.cap, pages, counted(len(run.txns), 'transaction'),
            counted(len(run.steps), 'step')]


def counted(number, noun):
    return '%d %s%s' % (number, noun, '' if number == 1 else 's')


def verdict(picture):
    """The verdict of the listing, the rows that differ, and what `check` says of a listing that was given; each with whether it is good."""
    check = [('check: ' + picture.check, picture.check == 'table')] if picture.check else []
    return [(picture.verdict, picture.run.verdict == 'serial same')] + check


def overview(run, rows):
    """The whole run as a strip: the modes at its sides; commits, aborts, waits and pages that move between them."""
    total = len(rows.rows)
    parts = []
    for x, node in ((0, 'A'), (46, 'B')):
        for start, end, mode in run.modes[node].spans():
            top, bottom = rows.of[start], total if end is None else rows.of[end]
            parts.append('<rect class="%s" x="%d" y="%d" width="14" height="%d"/>' % (mode, x, top, bottom - top))
    for look, x in (('wait', 15), ('take', 21), ('ok', 27), ('bad', 33), ('split', 39)):
        at = sorted({rows.of[step.number] for step in run.steps if look_of(step) == look and (look != 'take' or 'page' in step.outcome)})
        parts.append('<path class="tick %s" d="%s"/>' % (look, ''.join('M%d %gh6' % (x, row + 0.5) for row in at)))
    return {'rows': total, 'thick': max(1, total / 400), 'parts': ''.join(parts)}

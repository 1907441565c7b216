"""The marks in the lanes: bars of transactions, arrows of messages, and what each step did."""

import math

from picture.looks import look_of
from picture.place import GAP, label_of, repeats
from picture.sheet import num


def draw_life(run, place, sheet, life):
    """The bar of a transaction from where it begins to where it ends, with the stretches in which it is stuck."""
    pitch = place.pitch[life.node]
    x, width, thin = place.bar(life), min(15, pitch - (4 if pitch >= 8 else 1)), '' if pitch >= 8 else ' thin'
    top, bottom = place.y(life.begin), place.height if life.end is None else place.y(life.end)
    look = {'c': 'ok', 'a': 'bad', '': 'open'}[life.outcome[:1]]
    title = '%s at %s: %s' % (run.name(life.txn), life.node, life.outcome or 'active to the end')
    sheet.rect(3, 'bar ' + look + thin, x - width / 2, top - 8, width, bottom - top + (8 if life.end is None else 16), width / 2, title)
    for start, end in place.stuck[life.txn]:
        y, y2 = place.y(start) - 8, place.height if end is None else place.y(end) - 4
        sheet.rect(4, 'stuck', x - width / 2, y, width, max(16, y2 - y), min(4, width / 2))
    if pitch >= 14:
        for y in repeats(top + 4, bottom - 8):
            sheet.text('txn ' + look, x, y, str(life.txn))


MESSAGES = {'page': 'page', 'pull': 'ask'}


def draw_message(run, place, sheet, message):
    """An arrow from the line of the node that sent it to that of the one that took it, or to a ring where it was met and left, or to one
    half way where it is in the link still."""
    sender, taker = message.link
    way, look = place.inward(sender), MESSAGES.get(message.kind, 'note')
    x, y = place.line[sender] + 6 * way, place.y(message.sent)
    if message.met:
        x2, y2 = place.line[taker] - 14 * way, place.y(message.met)
        draw_kept(place, sheet, message, look, x2, way)
    elif message.taken:
        x2, y2 = place.line[taker] - 11 * way, place.y(message.taken)
        draw_head(sheet, look, x2 + 5 * way, y2, x2 - x, y2 - y)
    else:
        x2, y2 = place.line[sender] + GAP * 0.62 * way, place.height - 4
    sheet.line(4, 'msg ' + look, x, y, x2, y2, ' data-a="%d" data-b="%d"' % (message.sent, message.taken or 0))
    if message.met or not message.taken:
        sheet.dot('ring ' + look, x2, y2, 3.5)
    sheet.text('word ' + look, x + 0.36 * (x2 - x), y + 0.36 * (y2 - y) + 3.8, message.text)


def draw_kept(place, sheet, message, look, x, way):
    """A message that was met and left: it stays at the front until it is taken, if it is."""
    y, end = place.y(message.met), place.y(message.taken) if message.taken else place.height
    sheet.line(4, 'kept', x, y, x, end)
    if message.taken:
        sheet.line(4, 'msg ' + look, x, end, x + 6 * way, end)
        draw_head(sheet, look, x + 8 * way, end, way, 0)


def draw_head(sheet, look, x, y, dx, dy):
    """The head of an arrow that comes from (-dx, -dy)."""
    size, turn = (10 if look == 'page' else 8), math.atan2(dy, dx)
    back = [(x - size * math.cos(turn + side), y - size * math.sin(turn + side)) for side in (0.42, -0.42)]
    sheet.path(5, 'tip ' + look, y, 'M%s %sL%s %sL%s %sz' % tuple(num(v) for v in (x, y) + back[0] + back[1]))


def draw_step(run, place, sheet, step):
    """The mark of a step, on its transaction's bar or on its node's line, and its label."""
    y, look = place.y(step.number), look_of(step)
    life = run.lives[step.txn] if step.txn is not None else None
    on_bar = life and life.begin < step.number <= (life.end or step.number) and step.actor in (life.node, 'C')
    if step.actor == 'C':
        draw_client(run, place, sheet, step, life, look, y)
    if look == 'begin':
        draw_label(place, sheet, step, label_of(run, step), life.node, place.bar(life), y, look)
    if step.actor == 'C' and not (look == 'bad' and on_bar):
        return
    node = life.node if on_bar else step.actor
    x = place.bar(life) if on_bar else place.line[node]
    draw_label(place, sheet, step, label_of(run, step), node, x, y, look)
    draw_mark(sheet, look, x, y, node, place.pitch[node] if on_bar else 22)


def draw_client(run, place, sheet, step, life, look, y):
    """The client's own mark, and a thread to what it starts, begins or kills."""
    if look == 'begin':
        sheet.line(3, 'thread', place.client, y, place.bar(life) - 8, y)
    elif look == 'send':
        source = run.sender(step)
        sheet.line(3, 'thread', place.client, y, place.line[source], y)
        sheet.dot('mark send ' + source, place.line[source], y, 4.5)
    elif look == 'bad':
        sheet.line(3, 'thread bad', place.client, y, place.bar(life), y)
    sheet.dot('mark ' + ('client' if look != 'quiet' else 'quiet'), place.client, y, 4.5 if look != 'quiet' else 2.5)


def draw_label(place, sheet, step, label, node, x, y, look):
    """The label of a mark on a bar is inside of the bars, that of one on the node's line beside it; a thread joins a bar with its label,
    or with the line where a message goes out."""
    way, on_bar = place.inward(node), x != place.line[node]
    end = place.line[node] if step.sent and not label else place.zone(node) - 3 * way
    if on_bar and (label or step.sent) and (end - x) * way > place.pitch[node] / 2 + 4:
        sheet.line(3, 'leader ' + look, x, y, end, y)
    if label:
        anchor = 'right' if on_bar == (node == 'B') else 'left'
        sheet.text('label %s %s' % (look, anchor), place.zone(node) if on_bar else place.line[node] - 11 * way, y + 3.8, label)
    elif step.sent:
        sheet.dot('mark send ' + node, place.line[node], y, 4.5)


def draw_mark(sheet, look, x, y, node, pitch):
    """A tick for a commit, a cross for an abort, two strokes for a wait, a diamond for a split; else a dot."""
    r = max(3.5, min(7, pitch / 2 - 0.5))
    signs = {'ok': 'M%s %sl2.4 2.6l4.2 -5.4' % (num(x - 3.2), num(y + 0.4)),
             'bad': 'M%s %sl5.6 5.6m0 -5.6l-5.6 5.6' % (num(x - 2.8), num(y - 2.8)),
             'wait': 'M%s %sv5.6m3.6 -5.6v5.6' % (num(x - 1.8), num(y - 2.8))}
    if look in signs:
        sheet.dot('mark ' + look, x, y, r)
        if r > 5:
            sheet.path(6, 'sign', y, signs[look])
    elif look == 'split':
        sheet.path(5, 'mark split', y, 'M%s %sl{0} {0}l-{0} {0}l-{0} -{0}z'.format(num(r - 1)) % (num(x), num(y - r + 1)))
    else:
        sheet.dot('mark %s %s' % (look, node), x, y, min({'did': 2.6, 'quiet': 2.5}.get(look, 4.5), pitch / 2 - 0.4))

"""The picture alone, as one SVG file that needs nothing else."""

from html import escape

from picture.colours import svg_css
from picture.drawing import HEAD, draw_head_row
from picture.place import BAND, ROW
from picture.sheet import num
from runs import NODES


def draw_cut(run, place, sheet, first):
    """Where the picture begins at a later step: its top says the modes and the transactions there."""
    y = place.rows.of[first] * ROW + ROW / 2 + 4
    for node in NODES:
        sheet.text('mode', place.band(node) + BAND / 2, y, run.modes[node].at(first))
    for life in run.lives:
        if life and life.begin < first and (life.end is None or first < life.end) and place.pitch[life.node] >= 14:
            sheet.text('txn', place.bar(life), y, str(life.txn))


def body(picture, part):
    """The rows of a part, cut out, and how high they are."""
    run, place = picture.run, picture.place
    top = 0 if part[0] <= 1 else place.rows.of[part[0]] * ROW
    if top:
        draw_cut(run, place, picture.sheet, part[0])
    bottom = (place.rows.of[part[1]] + 1) * ROW
    wide, tall = num(width(picture)), num(bottom - top)
    return '<svg x="0" y="%d" width="%s" height="%s" viewBox="0 %s %s %s">%s</svg>' % (
        TITLE + HEAD, wide, tall, num(top), wide, tall, picture.sheet.part(top, bottom)), bottom - top


TITLE = 34    # the height of the title
VERDICT = 40  # and of the line below the rows


def width(picture):
    return max(picture.place.width, 820)


def svg(picture, part):
    """The picture as one file; `part` is the first and the last step that it shows."""
    run = picture.run
    rows, tall = body(picture, part)
    key, key_tall = draw_key(width(picture))
    end = TITLE + HEAD + tall
    wide, height = num(width(picture)), num(end + VERDICT + key_tall + 6)
    verdict = '<text class="title %s" x="12" y="%s">%s</text>' % (
        'ok' if run.verdict == 'serial same' else 'bad', num(end + 24), escape(picture.verdict)) if part[1] == len(run.steps) else ''
    return '''<svg xmlns="http://www.w3.org/2000/svg" width="%s" height="%s" viewBox="0 0 %s %s"><style>%s</style>
<rect class="sheet" width="100%%" height="100%%"/><text class="title" x="12" y="24">%s</text><g transform="translate(0 %d)">%s</g>
%s
%s<g transform="translate(0 %s)">%s</g></svg>
''' % (wide, height, wide, height, svg_css(), escape(headline(picture)), TITLE, draw_head_row(run, picture.place), rows, verdict,
       num(end + VERDICT), key)


def headline(picture):
    """The title, and the scenario's header."""
    run = picture.run
    words = '%s · rule %s, cap %s, pages %s' % (picture.title, run.rule, run.cap, run.limit)
    return words + (' · check: ' + picture.check if picture.check else '')


KEY = (('<rect class="bar ok" x="9" y="1" width="9" height="16" rx="4"/>', 'committed'),
       ('<rect class="bar bad" x="9" y="1" width="9" height="16" rx="4"/>', 'aborted'),
       ('<rect class="bar open" x="9" y="1" width="9" height="20" rx="4"/>', 'active to the end'),
       ('<rect class="stuck" x="9" y="1" width="9" height="16" rx="4"/>', 'waits: for a lock, a page or the message dual'),
       ('<circle class="mark wait" cx="13" cy="9" r="7"/><path class="sign" d="M11.2 6.2v5.6m3.6 -5.6v5.6"/>', 'may not go on'),
       ('<path class="mark split" d="M13 3l6 6l-6 6l-6 -6z"/>', 'a page is split'),
       ('<circle class="mark quiet" cx="13" cy="9" r="2.5"/>', 'nothing happens'),
       ('<path class="msg page" d="M1 9h20"/><path class="tip page" d="M26 9l-9 -4v8z"/>', 'a page moves'),
       ('<path class="msg ask" d="M1 9h20"/><path class="tip ask" d="M26 9l-8 -3v6z"/>', 'a page is asked for'),
       ('<path class="msg note" d="M1 9h20"/><path class="tip note" d="M26 9l-8 -3v6z"/>', 'another message'),
       ('<text class="c" x="4" y="13">! m</text>', 'sends the message m'),
       ('<path class="kept" d="M13 1v16"/>', 'a message is held at the front'),
       ('<rect class="atA" x="7" y="1" width="12" height="16"/>', 'page at A'), ('<rect class="atAB" x="7" y="1" width="12" height="16"/>', 'on the way'),
       ('<rect class="atB" x="7" y="1" width="12" height="16"/>', 'at B'),
       ('<rect class="atA" x="7" y="1" width="12" height="16"/><rect class="lock" x="12" y="1" width="2" height="16"/>', 'locked shared'),
       ('<rect class="atA" x="7" y="1" width="12" height="16"/><rect class="lock" x="10.5" y="1" width="5" height="16"/>', 'exclusive'),
       ('<rect class="atB" x="7" y="1" width="12" height="16"/><rect class="lock away" x="11.5" y="1" width="3" height="16"/>', 'still locked at the node that it left'),
       ('<circle class="mark bad" cx="13" cy="9" r="6.5"/><text class="mid alarm" x="13" y="13">!</text>', 'a locked page leaves'),
       ('<rect class="atA" x="7" y="1" width="12" height="16"/><circle class="rows" cx="13" cy="9" r="3.2"/>', 'its rows change'))


def draw_key(wide):
    """The key, in as many rows as it takes, and its height."""
    x, y, parts = 12, 0, []
    for sample, label in KEY:
        if x + 32 + 5.9 * len(label) > wide:
            x, y = 12, y + 24
        parts.append('<g transform="translate(%s %d)">%s<text class="key" x="32" y="13">%s</text></g>' % (num(x), y, sample, label))
        x += 50 + 5.9 * len(label)
    return ''.join(parts), y + 24

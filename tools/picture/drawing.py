"""The picture of a run below its head: lanes, pages, rows of the listing, and the marks in the lanes."""

from collections import Counter
from functools import cached_property
from html import escape

from picture.looks import look_of
from picture.marks import draw_life, draw_message, draw_step
from picture.place import BAND, GAP, ROW, WIDE_PAGES, Place, repeats
from picture.rows import row_text
from picture.serial import differences, verdict_line
from picture.sheet import Sheet, num
from runs import NODES, Timeline, is_away, left_locked, page_words


class Picture:
    """A run and all that the files are made of: its rows, their places, the marks, the verdict, and what `check` says of a listing."""

    def __init__(self, run, rows, title, check=''):
        self.run, self.rows, self.title, self.check = run, rows, title, check
        self.differs = differences(run)
        self.verdict = verdict_line(run, self.differs)
        self.place = Place(run, rows)

    @cached_property
    def sheet(self):
        """All marks."""
        sheet = Sheet()
        draw(self.run, self.place, sheet, self.rows.rows)
        return sheet

    def piece(self, top, bottom):
        """The marks that show between two heights, without the others being drawn."""
        sheet = Sheet(top, bottom)
        draw(self.run, self.place, sheet, self.rows.rows[max(0, int(top // ROW) - 1):int(bottom // ROW) + 2])
        return sheet.part(top, bottom)


def draw(run, place, sheet, rows):
    """Puts the marks on the sheet; of steps those of some rows in a row."""
    draw_modes(run, place, sheet)
    draw_pages(run, place, sheet)
    for life in filter(None, run.lives):
        draw_life(run, place, sheet, life)
    for message in run.messages:
        draw_message(run, place, sheet, message)
    for step in run.steps[max(0, rows[0][0] - 1):rows[-1][1]]:
        draw_step(run, place, sheet, step)
    for row in rows:
        draw_text(run, place, sheet, row)


def draw_modes(run, place, sheet):
    """The lanes: each node's mode as a band at its outer side, and lightly all over."""
    sheet.line(1, 'life', place.client, 0, place.client, place.height)
    for node in NODES:
        for start, end, mode in run.modes[node].spans():
            top = place.y(start) if start else 0
            height = (place.height if end is None else place.y(end)) - top
            sheet.rect(0, 'tint ' + mode, place.left[node], top, place.right[node] - place.left[node], height)
            sheet.rect(1, 'band ' + mode, place.band(node), top, BAND, height)
            is_short = height < ROW  # it begins in the last row
            for y in repeats(top + (9 if is_short else 15), top + height - 8):
                sheet.text('mode short' if is_short else 'mode', place.band(node) + BAND / 2, y, mode)
        sheet.line(2, 'life', place.line[node], 0, place.line[node], place.height)


def draw_pages(run, place, sheet):
    """A ribbon for each page, or where there are many pages how many are at each place."""
    if len(run.pages) > WIDE_PAGES:
        return draw_counts(run, place, sheet)
    for number, timeline in enumerate(run.pages):
        draw_ribbon(place, sheet, place.pages + number * place.ribbon, timeline.map(page_words))


def draw_ribbon(place, sheet, x, timeline):
    """Where a page is from step to step, the locks on it, and a mark where its rows change."""
    for start, end, where in timeline.map(lambda page: page and page[0]).spans():
        if where:
            draw_stretch(place, sheet, 1, 'at' + where, x + 1, place.ribbon - 3, start, end)
    middle = x + (place.ribbon - 1) / 2
    for start, end, locks in timeline.map(lambda page: (page[0], page[3]) if page and page[3] else None).spans():
        if locks:
            away = is_away(*locks)
            wide = 6 if any(lock.endswith('x') for lock in locks[1]) else 3 if away else 2
            draw_stretch(place, sheet, 2, 'lock away' if away else 'lock', middle - wide / 2, wide, start, end)
    for position in left_locked(timeline):
        draw_alarm(sheet, middle, place.y(position))
    for (_, old), (position, new) in zip(timeline.changes, timeline.changes[1:]):
        if old and new and old[2] != new[2]:
            sheet.dot('rows', middle, place.y(position), 3.2)


def draw_alarm(sheet, x, y):
    """A locked page leaves."""
    sheet.dot('mark bad', x, y, 6.5)
    sheet.text('mid alarm', x, y + 4, '!')


def draw_stretch(place, sheet, layer, look, x, width, start, end):
    top = place.y(start) if start else 0
    sheet.rect(layer, look, x, top, width, max(1, (place.height if end is None else place.y(end)) - top))


def draw_counts(run, place, sheet):
    """Of many pages: how many are at A, on their way and at B, and where a locked one leaves."""
    for position in run.left_locked:
        draw_alarm(sheet, place.pages - 10, place.y(position))
    for start, end, three in counted(run.pages).spans():
        x = place.pages
        for look, count in zip(('atA', 'atAB', 'atB'), three):
            if count:
                draw_stretch(place, sheet, 1, look, x, count * place.ribbon, start, end)
            x += count * place.ribbon


def counted(pages):
    """How many pages are at A, on their way and at B, as a timeline."""
    moves = [(position, number, place) for number, timeline in enumerate(pages) for position, place in timeline.map(place_of).changes]
    where, found, counts = {}, Counter(), {}
    for position, number, place in sorted(moves):
        found[where.get(number)] -= 1
        found[place] += 1
        where[number], counts[position] = place, (found['A'], found['AB'] + found['BA'], found['B'])
    return Timeline(list(counts.items())).map(lambda three: three)


def place_of(line):
    """Where a page is, by its line; '' where there is no such page yet."""
    return line.split(' ', 3)[2] if line else ''


def draw_text(run, place, sheet, row):
    """A row of the listing."""
    first, last = row
    y = place.y(first) + 4
    look = look_of(run.steps[first - 1]) if first else 'quiet'
    cells = zip((place.number, place.choice, place.instr, place.outcome), ('n', 'c', 'i', 'o ' + look), row_text(run, first, last))
    sheet.add(6, y - 12, y + 4, '<text y="%s">%s</text>' % (num(y), ''.join(
        '<tspan class="%s" x="%s">%s</tspan>' % (cell, num(x), escape(text)) for x, cell, text in cells if text)))


HEAD = 44  # the height of the head above the columns

# In version 1 there is one migration, from A to B; in version 2 the nodes change their roles.
ROLES = {('1', 'A'): 'source', ('1', 'B'): 'destination'}


def draw_head_row(run, place):
    """The head above the columns."""
    sheet = Sheet()
    sheet.text('head', place.choice, 26, 'listing')
    sheet.text('head mid', place.client, 26, 'client')
    for node in NODES:
        middle = (place.left[node] + place.right[node]) / 2
        sheet.text('head mid big ' + node, middle, 19, 'node ' + node)
        sheet.text('sub mid', middle, 35, ROLES.get((run.version, node), ''))
    sheet.text('head mid', place.line['A'] + GAP / 2, 19, 'messages')
    sheet.text('sub', place.line['A'] + 8, 35, 'AB →')
    sheet.text('sub right', place.line['B'] - 8, 35, '← BA')
    sheet.text('head', place.pages, 19, 'pages')
    if len(run.pages) > WIDE_PAGES:
        sheet.text('sub', place.pages, 35, 'A, moving, B')
    else:
        for number in range(len(run.pages)):
            sheet.text('sub mid', place.pages + (number + 0.5) * place.ribbon - 0.5, 36, str(number))
    return sheet.part(0, HEAD)

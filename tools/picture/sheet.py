"""Marks that are drawn in layers, and the part of them between two heights."""

import math
from collections import namedtuple
from html import escape


def num(value):
    return '%g' % round(value, 1)


# How far what is long goes beyond the edges of a part: farther than a round corner.
BEYOND = 44


class Rect(namedtuple('Rect', 'look x y width height round title')):
    """A box, which is drawn as far as a part goes: so a part stays as it is where a box goes on below it."""

    def drawn(self, top, bottom):
        y = max(self.y, top - BEYOND)
        return '<rect class="%s" x="%s" y="%s" width="%s" height="%s"%s>%s</rect>' % (
            self.look, num(self.x), num(y), num(self.width), num(max(0, min(self.y + self.height, bottom + BEYOND) - y)),
            ' rx="%s"' % num(self.round) if self.round else '', '<title>%s</title>' % escape(self.title) if self.title else '')


class Upright(namedtuple('Upright', 'look x y y2')):
    """A line from above to below, which is drawn as far as a part goes."""

    def drawn(self, top, bottom):
        return '<path class="%s" d="M%s %sL%s %s"/>' % (self.look, num(self.x), num(max(self.y, top - BEYOND)), num(self.x), num(min(self.y2, bottom + BEYOND)))


class Sheet:
    """Marks with the heights between which each lies, so that a part can be cut out. Those that do not show between `top` and `bottom` are left out."""

    def __init__(self, top=-math.inf, bottom=math.inf):
        self.marks, self.top, self.bottom = {}, top, bottom

    def shows(self, one, other):
        """Whether something between two heights shows."""
        return min(one, other) <= self.bottom and max(one, other) >= self.top

    def add(self, layer, top, bottom, mark):
        """Adds a mark, which is a text or says how it is drawn, to a layer; one that is there already is not added again."""
        self.marks.setdefault(mark, (layer, min(top, bottom), max(top, bottom)))

    def rect(self, layer, look, x, y, width, height, round=0, title=''):
        if self.shows(y, y + height):
            self.add(layer, y, y + height, Rect(look, x, y, width, height, round, title))

    def line(self, layer, look, x, y, x2, y2, more=''):
        if self.shows(y, y2):
            self.add(layer, y, y2, Upright(look, x, y, y2) if x == x2 and not more else '<path class="%s" d="M%s %sL%s %s"%s/>' % (
                look, num(x), num(y), num(x2), num(y2), more))

    def dot(self, look, x, y, r):
        if self.shows(y - r, y + r):
            self.add(5, y - r, y + r, '<circle class="%s" cx="%s" cy="%s" r="%s"/>' % (look, num(x), num(y), num(r)))

    def path(self, layer, look, y, d):
        if self.shows(y - 8, y + 8):
            self.add(layer, y - 8, y + 8, '<path class="%s" d="%s"/>' % (look, d))

    def text(self, look, x, y, text, layer=6):
        if self.shows(y - 10, y + 4):
            self.add(layer, y - 10, y + 4, '<text class="%s" x="%s" y="%s">%s</text>' % (look, num(x), num(y), escape(text)))

    def part(self, top, bottom):
        """The marks that show between two heights, the lowest layer first."""
        shown = [(layer, mark) for mark, (layer, low, high) in self.marks.items() if low <= bottom and high >= top]
        return ''.join(mark if isinstance(mark, str) else mark.drawn(top, bottom) for _, mark in sorted(shown, key=lambda pair: pair[0]))

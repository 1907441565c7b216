"""The runs that the page has asked for last: kept, so that what they share with the next one is neither sent nor drawn again."""

import threading
from collections import OrderedDict
from hashlib import sha256

from picture.drawing import Picture
from picture.page import pieces, run_of
from picture.rows import LONG, Rows
from play.growing import grown

# At least as many runs are kept; and more, as long as all together have no more steps: those of short ones, which undo and branches come back to.
LEAST, MOST_STEPS = 8, 1 << 14

# What of a run is a list of timelines, or timelines by name; of each the part that is new is sent.
TIMELINES = ('modes', 'pages', 'txns')

KEPT, LOCK = OrderedDict(), threading.Lock()


class Kept:
    """A run with its picture, and what the page's script shows of it; an old one may be kept that begins alike."""

    def __init__(self, text, title, old=None):
        run = grown(text, old and old.picture.run)
        self.picture = Picture(run, Rows(run.steps, len(run.steps) > LONG), title)
        self.shown, self.heights = run_of(self.picture), pieces(self.picture)

    def pieces(self, numbers):
        """Some pieces of the drawing, by number: they are drawn in one go with those between them."""
        wanted = sorted({number for number in numbers if 0 <= number < len(self.heights)})
        return {number: self.picture.piece(*self.heights[number]) for number in wanted}


def name_of(text, title):
    return sha256(('%s\0%s' % (title, text)).encode('utf-8', 'surrogatepass')).hexdigest()


def kept(text, title, old=None):
    """A run, read where it is not kept, and its name; an old one may begin alike."""
    name = name_of(text, title)
    with LOCK:
        found = KEPT.pop(name, None)
    found = found or Kept(text, title, old)
    with LOCK:
        KEPT[name] = found
        while len(KEPT) > LEAST and sum(1 + run.shown['last'] for run in KEPT.values()) > MOST_STEPS:
            KEPT.popitem(last=False)
    return name, found


def known(name):
    """A run that the page names, and its name; nothing where it is not kept any more."""
    with LOCK:
        found = KEPT.get(name)
    return (name, found) if found else ('', None)


def growth(old, new):
    """A list as how many items of an old one it begins with, and those behind them."""
    both = next((n for n, (one, other) in enumerate(zip(old, new)) if one != other), min(len(old), len(new)))
    return [both, new[both:]]


def changes(old, new):
    """What of a run is another than in an old one: of lists what they grew by, of timelines the same of each, all else as it is."""
    different = {name: value for name, value in new.items() if old.get(name) != value}
    lists = {name: growth(old.get(name, []), value) for name, value in different.items() if isinstance(value, list) and name not in TIMELINES}
    lines = {name: timelines(items(old.get(name, [])), items(different[name])) for name in TIMELINES if name in different}
    whole = {name: value for name, value in different.items() if name not in lists and name not in lines}
    return {'lists': lists, 'timelines': lines, 'whole': whole}


def items(many):
    """Timelines by their names or numbers."""
    return dict(many if isinstance(many, dict) else enumerate(many))


def timelines(old, new):
    """How many timelines there are, and what those grew by that are other ones."""
    return {'size': len(new), 'grown': {name: growth(old.get(name, []), line) for name, line in new.items() if old.get(name) != line}}

"""The lines of a log, in the words of a listing or as objects of JSON. The head of a line says what is done, and its tail what came of it, with the kind of
the message that was sent, if one was, behind `did` the value of the instruction, and at the end the rows of a page that was sent or taken. A line whose tail
is missing has no outcome."""

import json
import re


def words_of(rows):
    """The rows of a page, each as a word."""
    return ['%d=%d' % tuple(row) for row in rows]


class Words:
    @staticmethod
    def head(actor, action):
        return '%s %s' % (actor, action)

    @staticmethod
    def tail(outcome, sent=None, value=None, rows=None):
        told = '' if value is None else ' %d' % value
        page = '' if rows is None else ' '.join([' rows', *words_of(rows)])
        return ' -> %s%s%s%s\n' % (outcome, told, ' ! ' + sent if sent else '', page)

    # What of a tail a line ends with, perhaps nothing; and what ends a line without one.
    TAIL, NO_TAIL = re.compile(r'(\s+(-(>(\s.*)?)?)?)?$'), '\n'


class Objects:
    @staticmethod
    def head(actor, action):
        return '{"actor": %s, "do": %s' % (json.dumps(actor), json.dumps(action))

    @staticmethod
    def tail(outcome, sent=None, value=None, rows=None):
        told = '' if value is None else ', "value": %d' % value
        page = '' if rows is None else ', "rows": %s' % json.dumps(' '.join(words_of(rows)))
        return ', "came": %s%s%s%s}\n' % (json.dumps(outcome), told, ', "sent": %s' % json.dumps(sent) if sent else '', page)

    # Another store may leave out the spaces, or have more.
    TAIL, NO_TAIL = re.compile(r'\s*(,\s*("(c(a(m(e(".*)?)?)?)?)?)?)?$'), '}\n'


def form_of(is_json):
    return Objects if is_json else Words

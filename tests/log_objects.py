"""Lines of logs as objects of JSON, written in any way that JSON has, and such that are damaged."""

import json
import re

# What an object may have besides: other fields, whatever their values and however often they come.
OTHERS = ('"time":1764345600.25', '"seen":["did",{"do":null}]', '"Actor":"C"', '"time":-0', '"\\u2028":"\u00e9"')
SPACES = ('', '', '', ' ', '\t', '\r', ' \t ')
ESCAPES = {' ': '\\u0020', '!': '\\u0021', '0': '\\u0030', '=': '\\u003d', '?': '\\u003F', '\t': '\\t'}

# What stands in a line before the rows of a page.
ROWS = '[ \t]+rows(?:[ \t]+|$)'


def fields_of(line):
    """The fields of a line of a log; none where it has no words."""
    line = line.split(';')[0].strip(' \t\r')
    if not line:
        return None
    actor, rest = re.split('[ \t]+', line, maxsplit=1)
    rest, *rows = re.split(ROWS, rest, maxsplit=1) if re.match('take|push', rest) else (rest,)
    rest, *sent = re.split('[ \t]+![ \t]*', rest)
    action, *came = re.split('[ \t]+->[ \t]*', rest)
    told = {'actor': [actor], 'do': [action], 'came': came, 'sent': sent, 'rows': rows}
    return {name: words[0] for name, words in told.items() if words}


def with_value(fields):
    """The fields of a line that tells a value, with a field for it."""
    did = re.fullmatch('did[ \t]+([0-9]+)', fields.get('came', ''))
    return {**fields, 'came': 'did', 'value': int(did[1])} if did else fields


def string(chance, text):
    """A text as a string of JSON, some of its signs by their escapes."""
    signs = [ESCAPES.get(sign, '\\u%04x' % ord(sign)) if sign == '\t' or chance.random() < 0.1 else sign for sign in text]
    return '"%s"' % ''.join(signs)


def written(chance, fields):
    """Fields as one line of JSON: in any order, with spaces and other fields between."""
    space = lambda: chance.choice(SPACES)
    told = {name: str(told) if name == 'value' else string(chance, told) for name, told in fields.items()}
    members = [space() + string(chance, name) + space() + ':' + space() + text + space() for name, text in told.items()]
    members += chance.sample(OTHERS, chance.choice([0, 0, 1, 2]))
    chance.shuffle(members)
    return space() + '{' + ','.join(members) + '}' + space()


def objects_below(chance, text):
    """An input of logs with objects in place of the lines below its scenario, and as many lines."""
    lines = text.split('\n')
    end = next(i for i, line in enumerate(lines) if line.split(';')[0].split() == ['end'])
    below = [fields and (with_value(fields) if chance.random() < 0.9 else fields) for fields in map(fields_of, lines[end + 1:])]
    return '\n'.join(lines[:end + 1] + [chance.choice(SPACES) if fields is None else written(chance, fields) for fields in below])


def plain(fields):
    """Fields as `run --json` writes them."""
    return json.dumps(fields, separators=(',', ':'))


# Objects that are damaged, and what is said of each.
FIELD = 'the field "%s" %s'
SIGNS = 'has no line feed, no !, no ; and no >'
NO_STRING = 'is no string; leave it out where there is nothing to tell'
NO_NUMBER = 'is a whole number from 0 to 4294967295, as 7; leave it out where there is nothing to tell'
ALONE = 'is allowed only beside "came":"did"'
NO_OBJECT = 'a line is one object, as {"actor":"A","do":"run 0","came":"did"}'
DAMAGED = (
    ('A run 0 -> did', 'the line is no JSON (byte 0)'),
    ('; {"actor":"A","do":"run 0"}', 'the line is no JSON (byte 0)'),
    ('{"actor":"A","do":"run 0"} ; did', None),
    ('{"actor":"A","do":"run 0"', None),
    ('{"actor":"A","do":"run 0",}', None),
    ("{'actor':'A','do':'run 0'}", None),
    ('{"actor":"A","do":"run 0"}{"actor":"A","do":"run 0"}', None),
    ('"A run 0"', NO_OBJECT),
    ('[{"actor":"A","do":"run 0"}]', NO_OBJECT),
    ('null', NO_OBJECT),
    ('{}', FIELD % ('actor', 'is missing')),
    ('{"do":"run 0","came":"did"}', FIELD % ('actor', 'is missing')),
    ('{"actor":"A","Do":"run 0"}', FIELD % ('do', 'is missing')),
    ('{"actor":"A","do":"run 0","actor":"A"}', FIELD % ('actor', 'comes twice')),
    ('{"actor":"A","do":"run 0","came":"did","came":"did"}', FIELD % ('came', 'comes twice')),
    ('{"actor":1,"do":"run 0"}', FIELD % ('actor', NO_STRING)),
    ('{"actor":"A","do":["run",0]}', FIELD % ('do', NO_STRING)),
    ('{"actor":"A","do":"run 0","came":null}', FIELD % ('came', NO_STRING)),
    ('{"actor":"A","do":"run 0","sent":false}', FIELD % ('sent', NO_STRING)),
    ('{"actor":"A","do":"run 0","came":"did","value":7,"value":7}', FIELD % ('value', 'comes twice')),
    *(('{"actor":"A","do":"run 0","came":"did","value":%s}' % value, FIELD % ('value', NO_NUMBER))
      for value in ('"7"', 'null', '[7]', 'true', '-7', '-0', '7.0', '7e0', '4294967296', '12345678901')),
    ('{"actor":"A","do":"run 0","came":"did","value":07}', None),
    ('{"actor":"A","do":"run 0","came":"waits 0","value":"7"}', FIELD % ('value', NO_NUMBER)),
    *(('{"actor":"A","do":"run 0",%s"value":7}' % came, FIELD % ('value', ALONE))
      for came in ('', '"came":"?",', '"came":"did ",', '"came":"did 7",', '"came":"waits 0",')),
    ('{"actor":"a","do":"run 0"}', 'the field "actor" is "C", "A" or "B"'),
    ('{"actor":"A","do":"run 0 -> did"}', FIELD % ('do', SIGNS)),
    ('{"actor":"A","do":"run 0","came":"did ! pull"}', FIELD % ('came', SIGNS)),
    ('{"actor":"A","do":"run 0","came":"did\\nB push"}', FIELD % ('came', SIGNS)),
    ('{"actor":"A","do":"run 0","sent":"pull ; late"}', FIELD % ('sent', SIGNS)),
    ('{"value":"7","actor":"A","do":"run 0","came":"did","value":7}', FIELD % ('value', 'comes twice')),
    ('{"actor":"A","do":"...","value":7}', FIELD % ('value', ALONE)),
    ('{"actor":"A","do":"run 0","came":null,"value":"7"}', FIELD % ('came', NO_STRING)),
    ('{"actor":"A","do":"run 0","sent":1,"value":7}', FIELD % ('value', ALONE)),
    *(('{"actor":"A","do":"take","rows":%s}' % rows, FIELD % ('rows', NO_STRING)) for rows in ('null', '7', '["10=7"]', '[[10,7]]', '{"10":7}')),
    ('{"actor":"A","do":"take","rows":"10=7","rows":"10=7"}', FIELD % ('rows', 'comes twice')),
    *(('{"actor":"A","do":"take","rows":"%s"}' % rows, FIELD % ('rows', SIGNS)) for rows in ('10=7;', '10=7\\n', '10=>7', '! page')),
    ('{"actor":"A","do":"take","rows":7,"value":7}', FIELD % ('value', ALONE)),
    ('{"actor":"A","do":"take","rows":7,"sent":"!"}', FIELD % ('sent', SIGNS)),
)

# Objects, and the lines that they tell: escapes, surrogates, spaces, other fields, and such that nest as deep as may be.
TOLD = (
    ('{"actor":"A","do":"run 0","came":"did"}', 'A run 0 -> did'),
    ('{"actor":"A","do":"run 0","came":"did","value":7}', 'A run 0 -> did 7'),
    ('{"value": 4294967295 ,"c\\u0061me":"\\u0064id","actor":"A","do":"run 0","sent":"pull"}', 'A run 0 -> did 4294967295 ! pull'),
    ('{"actor":"A","do":"run 0","came":"did 7"}', 'A run 0 -> did 7'),
    ('{"actor":"A","do":"run 0","came":"did","value":0,"Value":"7"}', 'A run 0 -> did 0'),
    ('{"actor":"A","do":"take","came":"did","value":7}', 'A take -> did 7'),
    ('{"actor":"A","do":"take","rows":"10=7 20=2"}', 'A take rows 10=7 20=2'),
    ('{"rows": "" ,"sent":"done","came":"got page 0","actor":"B","do":"take"}', 'B take -> got page 0 ! done rows'),
    ('{"r\\u006fws":" 10\\u003d7\\t0000000020=2 ","actor":"A","do":"push","came":"?"}', 'A push -> ? rows  10=7 0000000020=2'),
    ('{"actor":"A","do":"take","came":"got pull","Rows":7,"rows":"10=7 10=7"}', 'A take -> got pull rows 10=7 10=7'),
    ('{"actor":"A","do":"run 0","came":"did","value":7,"rows":"10=7"}', 'A run 0 -> did 7 rows 10=7'),
    ('{"actor":"A","do":"...","rows":""}', 'A ... rows'),
    (' {\t"sent" : "pull","came":"pulls 0" ,"do":"run 0","actor":"B"}\r', 'B run 0 -> pulls 0 ! pull'),
    ('{"\\u0061ctor":"\\u0043","do":"st\\u0061rt"}', 'C start'),
    ('{"time":[-1e400,{"actor":null}],"time":2,"actor":"A","do":"take"}', 'A take'),
    ('{"actor":"A","do":"\\ud83d\\ude00\\/\\b\\t"}', 'A \U0001f600/\b\t'),
    ('{"actor":"A","do":"","sent":"\U0001f600"}', 'A  ! \U0001f600'),
    ('{"time":%s%s,"actor":"A","do":"take"}' % ('[' * 127, ']' * 127), 'A take'),
)

# Lines that are no JSON, and at which byte, if that is clear: what nests too deep is not read.
NO_JSON = (
    (b'\xef\xbb\xbf{"actor":"A","do":"take"}', 0),
    (b'{"actor":"A","do":"run 0"', 25),
    (b'{"actor":"A","do":take}', 18),
    (b'{"actor":"A","do":"\\ud83d"}', 18),
    (b'{"actor":"A","do":"\xff"}', 19),
    (b'{"actor":"A","do":"take"}{}', 25),
    (b'{"time":%s%s,"actor":"A","do":"take"}' % (b'[' * 128, b']' * 128), None),
)

"""What each outcome means, in the words of docs/formats.md."""

import os
import re
from functools import lru_cache

import bench

FORMATS = os.path.join(bench.TOP, 'docs', 'formats.md')
TABLE = os.path.join(bench.TOP, 'docs', 'step-table.md')

# What a letter in place of a number is called: P is the number of a page, and so on.
NOUNS = {'P': 'page', 'T': 'transaction'}


def rows_of(text, head):
    """The rows of the table below a head line, each as its two cells."""
    for line in text[text.index(head):].split('\n')[2:]:
        if not line.startswith('|'):
            return
        yield [cell.strip() for cell in line.strip('|').split('|', 1)]


@lru_cache(1)
def patterns():
    """(pattern, meaning) of each outcome: `pulls P` and what it says of P."""
    with open(FORMATS, encoding='utf-8') as file:
        text = file.read()
    outcomes = [(name, meaning) for names, meaning in rows_of(text, '| Outcome | Meaning |') for name in re.findall('`([^`]+)`', names)]
    return outcomes + [('aborted ' + name.strip('`'), 'it aborted: ' + why) for name, why in rows_of(text, '| WHY | Meaning |')]


def is_letter(word):
    return len(word) == 1 and word.isupper()


def matched(pattern, outcome):
    """What the letters of a pattern are in an outcome; None where it is another outcome."""
    want, have = pattern.split(), outcome.split()
    if len(want) != len(have) or any(w != h and not is_letter(w) for w, h in zip(want, have)):
        return None
    return {w: h for w, h in zip(want, have) if is_letter(w)}


def put_in(pattern, words, text):
    """A text with some words, which may be any, in the place of a pattern."""
    return re.sub(pattern, lambda _: words, text)


def filled(meaning, letters):
    """A meaning with its letters as they are in an outcome, as a sentence."""
    for letter, value in letters.items():
        noun = NOUNS.get(letter)
        if noun:
            meaning = put_in(r'\b%s %s\b' % (noun, letter), '%s %s' % (noun, value), meaning)
        meaning = put_in(r'\b%s\b' % letter, '%s %s' % (noun, value) if noun else value, meaning)
    return meaning[0].upper() + meaning[1:] + '.'


def meanings(outcomes):
    """A sentence on what each of the outcomes says; '' for one that docs/formats.md does not have."""
    return {outcome: meaning_of(outcome) for outcome in outcomes}


@lru_cache(1 << 12)
def meaning_of(outcome):
    """The sentence on an outcome. It is kept, since zplay asks again at each click."""
    return next((filled(meaning, letters) for pattern, meaning in patterns() for letters in [matched(pattern, outcome)] if letters is not None), '')


def table_rows():
    """(choice and condition, change, outcomes) of each row of the step table that has an outcome."""
    with open(TABLE, encoding='utf-8') as file:
        lines = file.read().split('\n')
    head, above = None, {}
    for line in lines:
        cells = [cell.strip() for cell in line.strip('|').split('|')] if line.startswith('|') else None
        if not cells or 'Outcome' in cells:
            head, above = cells, {}
        elif head and not line.startswith('|---'):
            row = dict(zip(head, cells))
            above = {name: row[name] or above.get(name, '') for name in head[:head.index('Change')]}
            yield ', '.join(filter(None, above.values())), row['Change'], re.findall('`([^`]+)`', row['Outcome'])


def words_in(outcome):
    """The words of an outcome without its numbers and the letters in their place."""
    return [word for word in outcome.split(' ! ')[0].split() if len(word) > 1 and not word.isdigit()]


def explained(words):
    """What an outcome, the reason of an abort or a mode means; nothing for what is none of them."""
    return explained_outcome(words) or explained_outcome('aborted ' + words) or explained_mode(words)


def modes():
    """What docs/formats.md says of each mode."""
    with open(FORMATS, encoding='utf-8') as file:
        return {plain(mode): plain(meaning) for mode, meaning in rows_of(file.read(), '| Mode | Meaning |')}


def explained_mode(mode):
    """What a mode is, as a line; none for what is no mode."""
    known = modes()
    return ['%s: %s' % (mode, known[mode])] if mode in known else []


def explained_outcome(outcome):
    """What an outcome means, and each line of the step table that gives it."""
    wanted = words_in(outcome)
    if not wanted:
        return []
    meant = [meaning for meaning in [meanings({outcome})[outcome]] if meaning] or [
        '%s: %s' % (pattern, meaning) for pattern, meaning in patterns() if words_in(pattern) == wanted]
    rows = ['  where %s: %s' % (where, change or 'nothing changes') for where, change, given in table_rows()
            if any(words_in(word) == wanted for word in given)]
    return [plain(line) for line in meant + rows]


def plain(line):
    """A line of the docs without its marks and links."""
    return re.sub(r'\[([^]]*)\]\([^)]*\)', r'\1', line).replace('`', '')

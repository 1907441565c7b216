"""What would come of a choice: the sentences of docs/formats.md on what came of one, in the present tense."""

import re

PRESENT = [(re.compile(past), present) for past, present in (
    (r'\bwas\b', 'is'), (r'\bhad\b', 'has'), (r'\bbegan\b', 'begins'), (r'\bstarted\b', 'starts'), (r'\btook\b', 'takes'), (r'\bcame\b', 'comes'),
    (r'\bhanded\b', 'hands'), (r'\bkilled\b', 'kills'), (r'(?<!has )\bleft\b', 'leaves'), (r'^It committed\b', 'It commits'), (r'^It aborted\b', 'It aborts'))]


def would(sentence):
    """A sentence on an outcome as one on what is still to come."""
    for past, present in PRESENT:
        sentence = past.sub(present, sentence)
    return sentence

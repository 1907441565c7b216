"""What the store needs of a scenario: a canonical text of version 1 without choices, as `zy_bench dis` prints it."""

import re

HEADER = ('zephyr', 'cap', 'pages', 'rule')
INSTRUCTION = r'(set r\d \d+|(read|write|insert|add) r\d r\d|beq r\d r\d @\d+|commit|abort)'


class Unfit(Exception):
    """A text that the store does not take."""


class Scenario:
    def __init__(self, text):
        self.rows, self.programs = [], []
        for line in text.splitlines():
            word, *rest = line.split(';')[0].split() or ['']
            if word == 'zephyr' and rest != ['1']:
                raise Unfit('the store takes a scenario of version 1: %s' % line)
            if word in ('cap', 'pages'):
                setattr(self, word, int(rest[0]))
            elif word == 'rule':
                self.is_held = rest[0] == 'held'
            elif word == 'row':
                self.rows.append((int(rest[0]), int(rest[1])))
            elif word == 'txn':
                self.programs.append([])
            elif word in ('C', 'A', 'B'):
                raise Unfit('the store makes its own choices: %s' % line)
            elif word not in ('', 'zephyr', 'end'):
                self.programs[-1].append(instruction(' '.join([word, *rest])))
        if [line.split()[0] for line in text.splitlines() if line.startswith(HEADER)] != list(HEADER):
            raise Unfit('a scenario begins with the lines %s, %s, %s and %s' % HEADER)

    def opening(self):
        """The low keys of the pages at A, and the rows of each by its number."""
        room = (self.cap + 1) // 2
        pages = [dict(self.rows[i:i + room]) for i in range(0, len(self.rows), room)] or [{}]
        return [0] + [min(rows) for rows in pages[1:]], dict(enumerate(pages))


def instruction(line):
    """An instruction: its word and its numbers."""
    if not re.fullmatch(INSTRUCTION, line):
        raise Unfit('the store takes a canonical text, as zy_bench dis prints it: %s' % line)
    word, *rest = line.split()
    return (word, *(int(operand.lstrip('r@')) for operand in rest))

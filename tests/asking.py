"""What `zy_bench search` is asked, and of what, and what it says of its answer on standard error."""

import os
import pty
import subprocess

from case import EXAMPLES, PROGRAM, TOP, content

ASKED = os.path.join(TOP, 'tests', 'asked')

# What is said of an answer: whether it is to a goal that every state is to meet, and the verdict.
REPORTS = {
    (False, 'found'): r'zy_bench: found after {0}: {1} {2} there{4}\n',
    (False, 'none'): r'zy_bench: none of {0} shows it{3}, and there are no others: each takes at most {1}\n',
    (False, 'spent'): r'zy_bench: gave up after {0}: no schedule of fewer than {1} shows it{3}{5}\n',
    (True, 'found'): r'zy_bench: it does not always hold: found after {0}: {1} {2} there{4}\n',
    (True, 'none'): r'zy_bench: it holds in each of {0}{3}, and there are no others: each takes at most {1}\n',
    (True, 'spent'): r'zy_bench: gave up after {0}: it holds after every schedule of fewer than {1}{3}{5}\n',
}
PLURALS = {'start': 'starts', 'begin': 'begins', 'kill': 'kills', 'run': 'runs', 'take': 'takes', 'finish': 'finishes', 'push': 'pushes'}
# What a search adds that has begun behind 4096 choices, where its goal is not judged.
UNJUDGED = '; stuck, deadlock and then are judged after at most 4095 choices'

STATUS = {'found': 0, 'none': 4, 'spent': 6, 'other end': 7}

# What a terminal gets while a search goes on: lines that are written over, the last of which is taken away.
PROGRESS = r'(\r\d+ states, \d+ choices deep, \d+ states a second\x1b\[K)+\r\x1b\[K'

# How the line begins that names the order of a run whose rows are not those of the commit order (tests/orders has which order it is).
EXPLAINED = 'zy_bench: the rows are those of '


# The most choices of a scenario.
MOST_CHOICES = 4096


def no_dead_end(made, kills, steps):
    """What is said of a run of some choices that a goal with `stuck` or `deadlock` found: how many kills, and how many steps of the nodes, end its migration."""
    added = ['%d %s%s%s' % (count, word, 's' * (count != 1), of) for count, word, of in ((kills, 'kill', ''), (steps, 'step', ' of the nodes')) if count]
    has_room = made + kills + steps <= MOST_CHOICES
    return 'zy_bench: no dead end: zy_bench end adds %s\n' % ' and '.join(added) if added and has_room else ''


def warning(word, number, count):
    """What precedes the report where a goal names a transaction, or a page, that the scenario does not have."""
    return 'zy_bench: the goal names %s %d, and the scenario has %s\n' % (word, number, 'only those below %d' % count if count else 'none')


def counted(number, word):
    """A number of things, as a pattern; the number may be one itself."""
    return '%s %s%s' % (number, word, '' if str(number) == '1' else 's' if str(number).isdecimal() else 's?')


def left_out(words):
    """The kinds of choices that some words leave out."""
    return [kind for kind in PLURALS if '--without=' + kind in words or kind == 'kill' and '--kill' not in words]


def not_considered(kinds):
    """What is said of the kinds of choices that are left out."""
    words = [PLURALS[kind] for kind in kinds]
    return ', %s not considered' % ' and '.join(filter(None, [', '.join(words[:-1]), words[-1]])) if words else ''


def report(verdict, states, length, words, always=False):
    """The line in which a search with some words says what came of it, as a pattern."""
    out = left_out(words)
    return REPORTS[always, verdict].format(counted(states, 'state'), counted(length, 'choice'), 'leads' if str(length) == '1' else 'lead',
                                           not_considered(out), not_considered(out) if set(out) - {'kill'} else '', UNJUDGED if str(length) == '0' else '')


def bench(words, given):
    done = subprocess.run([PROGRAM] + words, input=given, stdout=subprocess.PIPE, stderr=subprocess.PIPE, timeout=300)
    return done.returncode, done.stdout, done.stderr.decode()


def shown_on_a_terminal(words, given):
    """What goes to standard error where that is a terminal."""
    master, slave = pty.openpty()
    with subprocess.Popen([PROGRAM] + words, stdin=subprocess.PIPE, stdout=subprocess.DEVNULL, stderr=slave) as search:
        os.close(slave)
        search.stdin.write(given)
        search.stdin.close()
        shown = b''
        try:
            while piece := os.read(master, 4096):
                shown += piece
        except OSError:
            pass  # the other end is closed
    os.close(master)
    return shown.decode()


def without_choices(text):
    return b''.join(line + b'\n' for line in text.split(b'\n') if line and line[:2] not in (b'C ', b'A ', b'B '))


def scenario_of(name):
    """The scenario that a line of tests/searched or of tests/goals names: an example without its choices, or one of tests/asked with those that it has."""
    return content(os.path.join(ASKED, name + '.zephyr')) or without_choices(content(os.path.join(EXAMPLES, name + '.zephyr')))

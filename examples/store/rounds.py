"""Rounds of the store: a scenario, a run of it, and what `zy_bench order` says of the logs."""

import argparse
import errno
import os
import random
import re
import shlex
import signal
import subprocess
import sys
import time
from collections import namedtuple
from contextlib import suppress
from itertools import zip_longest

HERE = os.path.dirname(os.path.realpath(__file__))
TOP = os.path.dirname(os.path.dirname(HERE))
sys.path.append(os.path.join(TOP, 'tools'))

from faults import FAULTS
from files import status_of
from lines import form_of

# ZY_BENCH names another program than the one of this checkout.
PROGRAM = os.environ.get('ZY_BENCH') or os.path.join(TOP, 'zy_bench')

# Bytes that are no UTF-8 go through unchanged, so that zy_bench says where they are.
TEXT = {'encoding': 'utf-8', 'errors': 'surrogateescape'}

# How long the store may take, in seconds: where one of its processes has died, the others wait for it.
LIMIT = 120

# What is said of a round, by the status of `zy_bench order`.
VERDICTS = {0: 'explained', 1: 'rejected', 4: 'no order', 6: 'gave up', 7: 'unsettled'}

# What is said of a round, in one word or two and in lines; the logs; how often a fault made a difference; the seconds of the store and of the answer.
Round = namedtuple('Round', 'verdict lines logs slips ran asked')


def random_scenario(rule, seed):
    """Few rows and pages, so that transactions meet."""
    chance = random.Random(seed)
    keys = [10 * k for k in range(1, chance.randint(3, 5))]
    lines = ['zephyr 1', 'cap %d' % chance.randint(2, 4), 'pages %d' % chance.randint(4, 8), 'rule ' + rule]
    lines += ['row %d %d' % (key, chance.randint(1, 99)) for key in keys]
    for number in range(chance.randint(2, 6)):
        lines.append('txn %d' % number)
        for _ in range(chance.randint(1, 3)):
            lines += chance.choice([transfer, copy, scan, inserts])(chance, keys)
        lines.append('abort' if chance.random() < 0.1 else 'commit')
    return '\n'.join(lines + ['end', ''])


def transfer(chance, keys):
    return ['set r7 %d' % chance.randint(1, 9), 'set r0 %d' % chance.choice(keys), 'read r1 r0', 'add r1 r7', 'write r0 r1']


def copy(chance, keys):
    return ['set r0 %d' % chance.choice(keys), 'set r2 %d' % chance.choice(keys), 'read r3 r0', 'write r2 r3']


def scan(chance, keys):
    return [line for place, key in enumerate(sorted(chance.sample(keys, 2))) for line in ('set r0 %d' % key, 'read r%d r0' % (place + 4))]


def inserts(chance, keys):
    free = 10 * len(keys) + 15
    return [line for _ in range(chance.randint(1, 3)) for line in ('set r0 %d' % chance.randint(0, free), 'insert r0 r7')]


class Failed(Exception):
    """The store did not run, for this reason."""


# What a store writes into its folder: a log of each actor, and perhaps its end.
LOGS = ('client', 'a', 'b')
END = 'end'


def log_path(folder, name):
    return os.path.join(folder, name + '.log')


def log_of(folder, name, is_json):
    """The text of a log; none where a crash came before it was made. Where a crash cut off the end of its last line, that is ended behind its choice."""
    path = log_path(folder, name)
    text = content(path) if os.path.exists(path) else ''
    lines, end, last = text.rpartition('\n')
    form = form_of(is_json)
    return lines + end + (form.TAIL.sub('', last, 1) + form.NO_TAIL if last else '')


def content(*path):
    """The text of a file."""
    with open(os.path.join(*path), **TEXT) as file:
        return file.read()


def put(text, *path):
    with open(os.path.join(*path), 'w', **TEXT) as file:
        file.write(text)


def use_program():
    """Where the program is not built, this builds it, and shows how far that is."""
    is_own = PROGRAM == os.path.join(TOP, 'zy_bench') and os.path.isdir(os.path.join(TOP, 'crates'))
    if subprocess.run([PROGRAM, '--build' if is_own else '--version'], stdout=subprocess.DEVNULL, check=False).returncode:
        raise OSError(errno.ENOEXEC, 'it does not run', PROGRAM)


def ask(words, given):
    return subprocess.run([PROGRAM, *words], input=given, capture_output=True, check=False, **TEXT)


# The store of this folder. Another one takes the same words, and writes the same files.
STORE = (sys.executable, os.path.join(HERE, 'store.py'))


def run_store(folder, flags, is_to_crash=False, limit=LIMIT, store=STORE):
    """Runs a store over the scenario in a folder, and returns how often its fault made a difference: the last word that it prints, if that is a number, else 0."""
    command = [*store, os.path.join(folder, 'scenario'), folder, *flags]
    with subprocess.Popen(command, stdout=subprocess.PIPE, stderr=subprocess.PIPE, start_new_session=True, encoding='utf-8', errors='replace') as process:
        try:
            output, errors = process.communicate(timeout=limit)
        except BaseException as reason:
            with suppress(ProcessLookupError):
                os.killpg(process.pid, signal.SIGKILL)
            if isinstance(reason, subprocess.TimeoutExpired):
                raise Failed('the store did not end within %g s' % limit) from None
            raise
    if not has_run(process.returncode, folder, is_to_crash):
        raise Failed(errors.strip() or 'the store ended with status %d' % process.returncode)
    last = output.split()[-1:]
    return int(last[0]) if last and last[0].isdecimal() else 0


def has_run(status, folder, is_to_crash):
    """Whether a store has done what it was run for: it ended well; or it was to crash, and was killed or left a log."""
    has_log = any(os.path.exists(log_path(folder, name)) for name in LOGS)
    return status == 0 or is_to_crash and (status < 0 or has_log)


def clear(folder):
    """Removes what an earlier run of a store has left in a folder."""
    for path in (*(log_path(folder, name) for name in LOGS), os.path.join(folder, END)):
        if os.path.exists(path):
            os.remove(path)


def whole(word):
    """A number of rounds."""
    if not word.isdecimal() or int(word) == 0:
        raise argparse.ArgumentTypeError('%s is no number from 1 on' % word)
    return int(word)


def add_store(parser):
    """The flags that say how a round is made."""
    parser.add_argument('--seed', metavar='N', type=int, default=1, help='the number of the first round, 1 if not given')
    parser.add_argument('--fault', choices=FAULTS, help='; '.join('%s: %s' % pair for pair in FAULTS.items()))
    parser.add_argument('--keep', metavar='FOLDER', help='where the files of each round stay')
    parser.add_argument('--store', metavar='COMMAND', type=shlex.split, default=STORE, help='another store, in place of store.py')
    parser.add_argument('--gap', metavar='N', type=whole, help='how many steps a gap of a log may stand for, as zy_bench order takes it')
    parser.add_argument('--settled', action='store_true', help='ask for an order that ends with no migration, message or active transaction')
    parser.add_argument('--states', metavar='N', type=whole, help='after how many states zy_bench order gives up')


def question(options):
    """The words that ask for an order, with the flags that are given."""
    flags = (('--gap', options.gap), ('--states', options.states))
    return ['order', *['--settled'] * options.settled, *(word for flag, value in flags if value for word in (flag, str(value)))]


def tested(text):
    """A scenario's text, if `zy_bench` takes it, with a line feed at its end."""
    answer = ask(['asm'], text)
    if answer.returncode:
        raise Failed(answer.stderr.strip())
    return text if text.endswith('\n') else text + '\n'


def play(text, folder, seed, fault=None, crash=None, store=STORE, is_json=False, words=('order',)):
    """A round: a store runs a scenario, with a fault or until it crashes, and the logs that it writes into a folder are judged."""
    clear(folder)
    put(text, folder, 'scenario')
    given = ['--seed', str(seed)] + (['--fault', fault] if fault else []) + (['--crash', '%.4f' % crash] if crash else []) + ['--json'] * is_json
    begun = time.monotonic()
    slips = run_store(folder, given, bool(crash), store=store)
    ran = time.monotonic() - begun
    logs = ''.join(log_of(folder, name, is_json) for name in LOGS)
    put(text + logs, folder, 'input')
    has_end = not crash and os.path.exists(os.path.join(folder, END))
    verdict, lines = judged([*words, *['--json'] * is_json], text + logs, content(folder, END) if has_end else None)
    return Round(verdict, lines, logs, slips, ran, time.monotonic() - begun - ran)


def judged(words, text, end):
    """What is said of a scenario with logs, and of the store's end if there is one: no line of a log tells what a commit installs."""
    answer = ask(words, text)
    if answer.returncode or end is None:
        return VERDICTS.get(answer.returncode, 'status %d' % answer.returncode), answer.stderr.splitlines()
    ends = zip_longest(end.splitlines(), end_of(ask(['run'], answer.stdout).stdout), fillvalue='')
    differences = ["the store has '%s', and the order ends with '%s'" % pair for pair in ends if pair[0] != pair[1]]
    return 'another end' if differences else 'explained', differences


def end_of(listing):
    """The lines of a listing's final state that the store writes, without the numbers of commits."""
    lines = listing[listing.index('\nfinal\n'):].splitlines()
    return [re.sub(r'^(txn \d+ committed [AB]) \d+', r'\1', line) for line in lines if re.match('mode|page|txn', line)]

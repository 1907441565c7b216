"""Searches from where the page is, for whatever `search` can be asked."""

import os
import pty
import re
import resource
import select
from contextlib import ExitStack, contextmanager

import bench
from picture.goals import met
from play.desk import STOPPED

# Goals that the page offers, and what each of them means; any other can be written.
GOALS = {
    'differs': 'the rows are not those of the commit order', 'deadlock': 'transactions wait in a cycle, each for a page that another one has locked',
    'stuck': 'a transaction is active, and no considered choice changes anything',
    'over': 'no migration goes on, and no transaction is active',
    'committed': 'all transactions are committed', 'aborted': 'a transaction is aborted', 'gone': 'one is aborted, since its page has gone',
    'then waits': 'one waits for a lock', 'then pulls': 'one asks for a page', 'then held': 'a request is held, since its page is locked',
    'then got page': 'a page comes', 'txn any active and mode A sfinish': 'one is active while A pushes its pages', 'key 10 = 0': 'a value of a row',
    'commits = 1': 'as many transactions are committed'}

# The most letters of a goal, and the most states of a search.
LONGEST, MOST = 4000, 4294967295

# What a search may take: seconds of a processor, and bytes of memory.
LIMITS = {resource.RLIMIT_CPU: 600, resource.RLIMIT_AS: 4 << 30}

# What an answer begins with, by whether a state is sought or an invariant is tested, and by the status of the program.
BEGINNINGS = {('for', 0): '', ('for', 4): 'Never: ', ('for', 6): 'Not known: ',
              ('always', 0): 'Not always: ', ('always', 4): 'Always: ', ('always', 6): 'Not known: '}

# A goal that is not understood: what is wrong, and the column and the word of the fault.
FAULT = re.compile(r"--(?:for|always): (.*) \(column (\d+): '[^<>]*>([^<>]*)<[^<>]*'\)", re.DOTALL)

UNDER_WAY = set()  # the processes of searches


def words_of(asked):
    """The words of the command; an error where a question is none."""
    way, goal, states = asked['way'], goal_of(asked), asked['states']
    if way not in ('for', 'always') or not 1 <= int(states) <= MOST:
        raise ValueError
    return ['search', '--%s=%s' % (way, goal), '--states', '%d' % states, '--canon'] + (['--kill'] if asked['kill'] else [])


def goal_of(asked):
    """The goal of a question; an error where it is none."""
    if not isinstance(asked['goal'], str) or len(asked['goal']) > LONGEST:
        raise ValueError
    return asked['goal']


def found(asked):
    """The stretches of states of a run that meet a goal, and what is to be said of the goal; or what is wrong with it, and where."""
    goal = goal_of(asked)
    try:
        stretches, said = met(goal, asked['text'].encode(**bench.BYTES), quiet=True)
    except bench.Refused as refused:
        fault = fault_in(refused.status, refused.words)
        if not fault:
            raise
        return fault
    return {'stretches': stretches, 'words': words_in(said.split('\n'))}


def fault_in(status, said):
    """What is wrong with a goal, and where; None where that is not what is said."""
    fault = FAULT.search(said)
    return {'goal': {'column': int(fault.group(2)), 'length': len(fault.group(3))}, 'words': fault.group(1)} if status == 2 and fault else None


def words_in(lines):
    """What the program says of a goal or of a search, but for how far a search is."""
    return '; '.join(line.partition('zy_bench: ')[2] for line in lines if line.startswith('zy_bench: '))


def searched(asked):
    """What a search reports: how far it is, twice a second; at last its answer. Whoever closes this ends the search."""
    words, position = words_of(asked), int(asked['position'])
    with under_way(words, asked['text'].encode(**bench.BYTES)) as (process, found, terminal):
        said = ''
        for piece in pieces(terminal):
            said += piece
            yield {'progress': (lines_of(said) or [''])[-1]}
        status = process.wait()
        os.lseek(found, 0, os.SEEK_SET)
        with open(found, encoding='utf-8', closefd=False) as file:
            yield answer(asked, position, status, lines_of(said), file.read())


@contextmanager
def under_way(words, text):
    """A search that runs: its process, the file that it writes, and the terminal to which it says how far it is."""
    given, found, (reader, terminal) = memory(text), memory(b''), pty.openpty()
    with ExitStack() as closing:
        for descriptor in (given, found, reader):
            closing.callback(os.close, descriptor)
        try:
            process = bench.start(words, LIMITS, stdin=given, stdout=found, stderr=terminal)
        finally:
            os.close(terminal)
        UNDER_WAY.add(process)
        try:
            yield process, found, reader
        finally:
            process.kill()
            process.wait()
            UNDER_WAY.discard(process)


def stop():
    """Ends the searches that are under way."""
    for process in list(UNDER_WAY):
        process.kill()


def memory(content):
    """A file without a name, which has some bytes."""
    file = os.memfd_create('zplay')
    os.write(file, content)
    os.lseek(file, 0, os.SEEK_SET)
    return file


def pieces(terminal):
    """What comes to a terminal until it is closed; nothing each half second."""
    while True:
        piece = ''
        if select.select([terminal], [], [], 0.5)[0]:
            try:
                piece = os.read(terminal, 4096).decode(errors='replace')
            except OSError:
                return
        yield piece


def lines_of(said):
    """The lines that came to a terminal, also those that were taken away."""
    return [line for line in re.split(r'[\r\n]+|\x1b\[K', said) if line]


def answer(asked, position, status, lines, text):
    """The answer of a search in words, and the choices that it found behind a position; or what is wrong with its goal, and where."""
    way, said = asked['way'], '\n'.join(lines)
    fault = fault_in(status, said)
    if fault:
        return fault
    if (way, status) not in BEGINNINGS:
        return {'found': None, 'words': words_in(lines) if status > 0 and 'zy_bench: ' in said else 'Not known: the search ' + STOPPED}
    words = words_in(lines).replace('it does not always hold: ', '')
    return {'found': None if status else choices_in(text)[position:], 'words': BEGINNINGS[way, status] + words}


def choices_in(text):
    """The choices of a canonical text."""
    return [line for line in text.split('\n') if line.split(' ')[0] in ('A', 'B', 'C')]

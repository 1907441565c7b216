"""What the page asks for. Each answer is the program's; a question is a JSON object with the text of a scenario, which ends where the page
is: its choices are those up to the cursor, except where the whole run is asked for."""

import os
import re
import resource
from concurrent.futures import ThreadPoolExecutor

import bench
import outcomes
import runs
from picture.looks import look_of
from picture.page import CHUNK
from picture.svg import svg
from play.keeping import changes, kept, known
from play.would import would
from prompt.session import LIMIT, Fault, Session, choices_of
from waiting import page_of, said, wait_at

# What one call of the program may take: seconds of a processor, and bytes of memory.
LIMITS = {resource.RLIMIT_CPU: 20, resource.RLIMIT_AS: 2 << 30}
PATIENCE = 60  # seconds of the clock

STOPPED = 'was stopped: it took more time or memory than it may, or somebody ended it'

# The choices of a round that lets a migration go on; the transactions of its source are added.
ROUND = ['A take', 'B take', 'A finish', 'B finish', 'A push', 'B push']

# As many rounds are tried at a time.
ROUNDS = 64

# The most choices of a question: those of 64 transactions are fewer; and the most pieces of a drawing.
MOST, MOST_PIECES = 512, 16

POOL = ThreadPoolExecutor(len(os.sched_getaffinity(0)))


def whole_run(asked):
    """The run as the page of `zview` has it: what is another than in the run that the page shows, and the pieces of the drawing near a position."""
    base, old = known(asked.get('base', ''))
    name, run = kept(asked['text'], title_of(asked), old)
    row = run.shown['rowOf'][max(0, min(asked.get('at', 0), run.shown['last']))]
    near = row // CHUNK
    return {'name': name, 'base': base, **changes(old.shown if old else {}, run.shown), 'pieces': run.pieces([near - 1, near, near + 1])}


def drawn(asked):
    """Pieces of the drawing of a run, by number."""
    _, run = kept(asked['text'], title_of(asked))
    return {'pieces': run.pieces([int(number) for number in asked['numbers'][:MOST_PIECES]])}


def title_of(asked):
    return str(asked.get('title', ''))


def fault_of(refused):
    """A fault of a text: the line of the word at fault, 0 where there is none, and what is wrong."""
    if refused.status < 0:
        return {'line': 0, 'words': 'zy_bench ' + STOPPED}
    words = refused.words.partition(': ')[2] or 'zy_bench ended with status %d' % refused.status
    found = re.match(r'Input\(line (\d+), \w+\): (.*)', words, re.DOTALL)
    place = re.search(r'\(line (\d+), column \d+: ', words)
    return {'line': int((place or found).group(1)), 'words': found.group(2)} if found else {'line': 0, 'words': words}


# ---- choices

def tried(above, choice):
    """The last step of a text, whose lines above its end are given, with one more choice; and the lines of the state then."""
    listing, _ = bench.texts(['run'], '\n'.join([above, choice, 'end', '']).encode(**bench.BYTES))
    steps, _, final = listing.rpartition('\nfinal\n')
    return steps[steps.rindex('\n') + 1:], final.split('\n')[:-3]


def outcomes_of(asked):
    """For each of some choices what would come of it, whether it would change anything, what that is, and whom it waits for."""
    above = bench.cut(asked['text'])[0].rstrip('\n').rpartition('\n')[0]
    (_, before), *after = POOL.map(lambda choice: tried(above, choice), [''] + asked['choices'][:MOST])
    steps = [runs.step_of(line) for line, _ in after]
    meaning, waits = outcomes.meanings({step.outcome for step in steps}), waits_of(asked['text'], steps)
    return [{'outcome': step.line.split(' -> ')[1], 'look': look_of(step), 'acts': state != before, 'waits': wait,
             'says': '\n'.join([would(meaning[step.outcome])] + [line for line in state if line not in before])}
            for step, (_, state), wait in zip(steps, after, waits)]


def waits_of(text, steps):
    """Whom each of some steps waits for that are made behind a text; '' where it waits for no page. The debugger has the lines of the pages there: none
    of these steps changes one."""
    pages = sorted({page_of(step) for step in steps} - {None})
    if not pages:
        return [''] * len(steps)
    lines, names = dict(zip(pages, replied(text, ['page %d' % page for page in pages]))), bench.names_of(text)
    return [said(wait_at(step, lines[page_of(step)]), names) if page_of(step) in lines else '' for step in steps]


def replied(text, commands):
    """What the debugger replies to some commands at the end of a text, one line each."""
    given = '\n'.join([bench.cut(text)[0].rstrip('\n'), 'cont', *commands, ''])
    return bench.ask(['debug'], given.encode(**bench.BYTES), quiet=True)[1:]


def nodes_of(asked):
    """What the nodes have at the end of a text that is in no line of a trace."""
    return {node: node_words(line) for node, line in zip(runs.NODES, replied(asked['text'], ['node ' + node for node in runs.NODES]))}


def node_words(line):
    """The low keys of a node's wireframe, by page number, and the pages that it has asked for; by what the debugger replies."""
    words = line.split()
    lows, requests = words.index('lows'), words.index('asked')
    return {'lows': [int(low) for low in words[lows + 1:requests]], 'asked': [int(page) for page in words[requests + 1:]]}


def until(asked):
    """A choice as often as it takes until it waits, ends or can do nothing."""
    session = Session(asked['text'], quiet=True)
    return {'added': [asked['choice']] * session.times_until(session.choices, asked['choice'], 'wait')}


def migrated(asked):
    """The choices that let a migration end, or begin one and let it end: rounds of choices, of which those that do nothing are left out. The
    transactions at its source run too, since it has to wait for them; where it does not come to its end so, they are killed."""
    session = Session(asked['text'], quiet=True)
    made, first = session.choices, ['C start'] if is_settled(session.run, session.last()) else []
    more, is_ended = acting(session, made, first)
    if more[:1] != first and first:
        return {'added': [], 'words': 'no migration can begin here'}
    while not is_ended and any(' run ' not in choice for choice in more):
        made = made + more
        more, is_ended = acting(session, made, [])
    return {'added': (made + more)[len(session.choices):], 'words': ''} if is_ended else killing(session, first)


def killing(session, first):
    """Some choices, and those behind them that end a migration by killing who is active; and whom they kill."""
    try:
        added = choices_of(session.ended(session.choices + first))[len(session.choices):]
    except Fault as fault:
        return {'added': [], 'words': str(fault)}
    killed = ', '.join(session.by_name(choice).split()[-1] for choice in added if ' kill ' in choice)
    return {'added': added, 'words': 'the migration does not end while they are active, so these are killed: ' + killed if killed else ''}


def acting(session, made, first):
    """Of some choices and then rounds behind those that are made: which of them do something, until no migration is on its way; and whether it
    comes to that."""
    turn = ROUND + source_runs(session.make(made))
    run = session.make((made + first + ROUNDS * turn)[:LIMIT])
    last, acts = len(run.steps), run.acting()
    end = next((n for n in range(len(made) + 1, last) if is_settled(run, n)), last)
    more = [choice for n, choice in enumerate(choices_of(run)[:end], 1) if n > len(made) and n in acts]
    return more, is_settled(run, end)


def source_runs(run):
    """A run of each transaction that is active at the source of the migration, or, where there is none, at the node that is normal."""
    last = len(run.steps)
    modes = {node: run.modes[node].at(last) for node in runs.NODES}
    source = next((node for node in runs.NODES if modes[node][0] == 's'), 'A' if modes['A'] == 'normal' else 'B')
    there = [line.at(last).split() for line in run.txns]
    return ['%s run %s' % (source, words[1]) for words in there if words[2:4] == ['active', source]]


def is_settled(run, position):
    """Whether no migration is on its way."""
    return sorted(run.modes[node].at(position) for node in runs.NODES) == ['empty', 'normal']


# ---- files

def saved(asked):
    """A file of the run: the listing, or the picture."""
    if asked['as'] == 'listing':
        return {'file': '\n'.join(bench.ask(['run'], asked['text'].encode(**bench.BYTES), quiet=True) + [''])}
    picture = kept(asked['text'], title_of(asked))[1].picture
    return {'file': svg(picture, (0, len(picture.run.steps)))}

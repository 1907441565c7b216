"""What is tested of the server of zplay: who is answered, what is answered, how it begins and ends."""

import importlib.machinery
import json
import os
import re
import shlex
import shutil
import signal
import socket
import subprocess
import sys
import tempfile
import threading
import time
from contextlib import contextmanager

from case import EXAMPLES, PROGRAM, TOP, content
from playing import (ANOMALY, DEADLOCK, GONE, HELD, KILLED, MIGRATION, NOTED, SEARCH, SMALLEST, SPINNING, TEXT, VERDICTS, ZPLAY, Play, bare, first_choices, is_program,
                     loops, steps_of, zviewed, zy_bench)
from processes import comes
from waits import SCENARIOS


def answered(play):
    """What is wrong with who is answered, and who is not."""
    strangers = {'Origin': None, 'Cookie': None}
    wanted = [
        ('the page', 200, play.request('GET', '/', Origin=None)),
        ('the script', 200, play.request('GET', '/script.js', Origin=None)),
        ('a question', 200, play.request('POST', '/run', TEXT)),
        ('the cookie among others', 200, play.request('GET', '/', Origin=None, Cookie='a/b=1; zplay_%s=%s; c=2' % (play.port, play.token))),
        ('the token in the address', 303, play.request('GET', '/?token=' + play.token, **strangers)),
        ('another token in the address', 403, play.request('GET', '/?token=x' + play.token[1:], **strangers)),
        ('no token', 403, play.request('GET', '/', **strangers)),
        ('another token', 403, play.request('POST', '/run', TEXT, Cookie='zplay_%s=x' % play.port)),
        ('another host', 403, play.request('GET', '/', Origin=None, Host='evil.example:' + play.port)),
        ('another host with the token', 403, play.request('GET', '/?token=' + play.token, Host='evil.example', **strangers)),
        ('another page', 403, play.request('POST', '/run', TEXT, Origin='http://127.0.0.1:1')),
        ('another site', 403, play.request('GET', '/', Origin='https://evil.example')),
        ('a question of no page', 403, play.request('POST', '/run', TEXT, Origin=None)),
        ('a file of the machine', 404, play.request('GET', '/../../etc/passwd', Origin=None)),
        ('another question', 400, play.request('POST', '/other', TEXT)),
        ('no JSON', 400, play.request('POST', '/run', 'text')),
        ('no object', 400, play.request('POST', '/run', '[]')),
        ('a text that is no text', 400, play.request('POST', '/run', '{"text": 7}')),
        ('half a letter', 400, play.request('POST', '/run', '{"text": "\\udfff\\ud800"}')),
        ('a search in another way', 400, play.request('POST', '/search', json.dumps({**SEARCH, 'way': 'help'}))),
        ('a search for no text', 400, play.request('POST', '/search', json.dumps({**SEARCH, 'goal': 7}))),
        ('a search for a zero byte', 400, play.request('POST', '/search', json.dumps({**SEARCH, 'goal': 'a\0b'}))),
        ('a search of no state', 400, play.request('POST', '/search', json.dumps({**SEARCH, 'states': 0}))),
        ('a goal that is no text', 400, play.request('POST', '/find', json.dumps({'text': SMALLEST, 'goal': 7}))),
        ('one text to lay beside none', 400, play.request('POST', '/beside', json.dumps({'texts': [SMALLEST]}))),
        ('a position that is none', 400, play.request('POST', '/run', json.dumps({'text': SMALLEST, 'at': 'x'}))),
        ('a run that is no name', 400, play.request('POST', '/run', json.dumps({'text': SMALLEST, 'base': [1]}))),
        ('deep JSON', 400, play.request('POST', '/run', '[' * 200000)),
        ('a long question', 413, play.request('POST', '/run', None, **{'Content-Length': '99999999'})),
        *(('a long text', 413, play.request('POST', '/run', 'x' * (7 << 20))) for _ in range(3)),
        ('a long text of no page', 403, play.request('POST', '/run', 'x' * (7 << 20), Origin=None))]
    found = ['%s: status %d, wanted %d' % (name, answer[0], status) for name, status, answer in wanted if answer[0] != status]
    page = wanted[0][2]
    elsewhere = re.search(rb'(?:src|href)="(?!style.css|script.js|data:,)', page[2])
    if elsewhere or "default-src 'none'" not in page[1].get('Content-Security-Policy', ''):
        found.append('the page takes something from elsewhere')
    stranger = play.request('GET', '/', **strangers)[2].decode()
    if "./zplay 'LINK'" not in stranger or 'a whole run' not in stranger or 'behind the address that your own zplay printed' not in stranger:
        found.append('who opens a link without a token reads %r' % stranger)
    if is_open(own_address(), play.port):
        found.append('another address of this machine is served')
    return found


# What some choices behind NOTED come to, by the step table, and whether they change anything.
NEXT = [('A run 0', 'committed 1', True), ('B take', 'got wire ! ready', True), ('C kill 0', 'aborted killed', True),
        ('A take', 'nomessage', False), ('C start', 'badmode', False), ('B push', 'badmode', False)]


def questions(play):
    """What is wrong with the answers to some questions."""
    begun = NOTED.replace('A run reader x 2 ; it reads\nC start\n', '')
    run = play.ask('/run', NOTED)
    fault = play.ask('/run', NOTED.replace('read r1', 'reed r1'))['fault']
    no_end = play.ask('/run', NOTED.replace('commit\n', 'set r1 1\n'))['fault']
    after = play.ask('/outcomes', NOTED, choices=[choice for choice, _, _ in NEXT])
    return [words for words, is_right in (
        ('the run: %r' % run, run['whole']['last'] == 4 and run['lists']['lines'][1][-1] == '4 C start -> started ! wire'),
        ('a fault: %r' % fault, fault['line'] == 8 and fault['words'].startswith("the word 'reed' is not known here")),
        ('a fault that is shown above its line: %r' % no_end, no_end['line'] == 9),
        ('outcomes: %r' % after, [(one['outcome'], one['acts']) for one in after] == [(outcome, acts) for _, outcome, acts in NEXT]),
        ('until it ends', play.ask('/until', begun, choice='A run 0') == {'added': ['A run 0'] * 3}),
        ('a transaction that is not there', 'fault' in play.ask('/until', SMALLEST, choice='A run 7')),
        ('the nodes', play.ask('/nodes', NOTED) == {'A': {'lows': [0], 'asked': []}, 'B': {'lows': [], 'asked': []}}),
        ('the nodes of no scenario', 'fault' in play.ask('/nodes', NOTED[1:])),
        ('a migration', play.ask('/migrate', SMALLEST) == {'added': MIGRATION, 'words': ''}),
        ('a second migration', play.ask('/migrate', SMALLEST.replace('end\n', '\n'.join(MIGRATION + ['end', '']))) == {
            'added': [], 'words': 'no migration can begin here'}),
        *(('a migration that does not end by itself: %r' % text, play.ask('/migrate', text) == {
            'added': added, 'words': 'the migration does not end while they are active, so these are killed: ' + who}) for text, added, who in KILLED),
        ('a migration without room', 'more than 4096' in play.ask('/migrate', SPINNING.replace('C start', 'C start\nA run spin x 4094'))['words']),
        ('a listing', play.ask('/save', NOTED, **{'as': 'listing'})['file'] == zy_bench(['run'], NOTED.encode()))) if not is_right]


def judged(play):
    """What is wrong with the verdicts on the first choices of a run."""
    for count, *wanted in VERDICTS:
        answer = play.ask('/verdict', first_choices(ANOMALY, count))
        if [answer[name] for name in ('same', 'order', 'explained', 'rows')] != wanted or not answer['known']:
            yield 'after %d choices: %r' % (count, answer)


def waited(play):
    """What is wrong with whom a choice waits for, before it is made; the rows that it tries are not said."""
    for scenario, waits in SCENARIOS:
        choices = [choice for choice, _ in steps_of(zy_bench(['run'], scenario.encode()))]
        for number, (words, _) in waits.items():
            answer, = play.ask('/outcomes', first_choices(scenario, number - 1), choices=[choices[number - 1]])
            if answer['waits'] != re.sub(r' \(rows? [^)]*\)', '', words):
                yield '%s: %r' % (choices[number - 1], answer)


# Some searches, most of them as docs/search.md has them: the text, its number of choices, what is asked, how many choices are found, and the words.
SOUGHT = [(NOTED, 4, {'goal': 'committed'}, 1, 'found after '),
          (bare(NOTED), 0, {'goal': 'killed', 'kill': True}, 2, 'found after '),
          (bare(NOTED), 0, {'goal': 'killed'}, None, 'Never: none of '),
          (GONE, 0, {'goal': 'gone'}, 11, 'found after 292 states: 11 choices lead there'),
          (DEADLOCK, 0, {'goal': 'stuck then waits'}, 15, 'found after '),
          (DEADLOCK, 0, {'way': 'always', 'goal': 'commits = 0 or key 10 = key 30'}, None, 'Always: it holds in each of 1678 states, kills not considered'),
          (DEADLOCK, 0, {'way': 'always', 'goal': 'commits = 0'}, 7, 'Not always: found after '),
          (HELD, 0, {'goal': 'differs'}, None, 'Never: none of 1067 states shows it, kills not considered, and there are no others'),
          (HELD, 0, {'goal': 'differs', 'states': 100}, None, 'Not known: gave up after 100 states: no schedule of fewer than '),
          (HELD, 0, {'goal': 'txn 9 active'}, None, 'Never: the goal names transaction 9, and the scenario has only those below 2; none of '),
          (HELD, 0, {'goal': 'page 9 at B or txn 1 locks 1 and not page 1 locked'}, None, 'Never: the goal names page 9, and the scenario has only those below 2; none of ')]

# Goals that are not understood, with the column and the length of the word at fault.
MISTAKEN = [('page 3 on B', 8, 2), ('commits > 1 and sdf', 17, 3), ('then wait', 6, 4), ('not', 4, 0)]


def searched(play, text, position, asked):
    """The answer to a search."""
    return play.ask('/search', text, **{'position': position, 'way': 'for', 'kill': False, 'states': 1000000, **asked})


def answers_of_searches(play):
    """What is wrong with the answers of some searches."""
    for text, position, asked, count, words in SOUGHT:
        answer = searched(play, text, position, asked)
        if (answer['found'] and len(answer['found'])) != count or not answer['words'].startswith(words):
            yield '%s: %r' % (asked, answer)
    if searched(play, *SOUGHT[1][:3])['found'] != ['C begin 0', 'C kill 0']:
        yield 'other choices are found'
    for goal, column, length in MISTAKEN:
        answer = searched(play, HELD, 0, {'goal': goal})
        if answer.get('goal') != {'column': column, 'length': length} or '--' in answer['words'] or len(answer['words']) < 20:
            yield '%s: %r' % (goal, answer)


# The anomaly and the same choices under held part so, as docs/loose.md has it: the choice and the outcome of each, and whether the run is serial.
PARTED = [('A take', 'got pull 0 ! page', 'held 0'), ('B take', 'got page 0', 'nomessage'), ('B run writer', 'did', 'awaits 0'),
          ('B run writer', 'committed 1', 'awaits 0'), ('A run reader', 'did', 'did'), ('A run reader', 'did', 'did'),
          ('A run reader', 'committed 2', 'committed 1')]

PARTED_STATES = [['page 0 B low 0 rows 10=9 20=2 locks', 'page 0 A low 0 rows 10=1 20=2 locks'], ['link BA', 'link BA pull:0']]


def laid_beside(play):
    """What is wrong with two runs that are laid side by side."""
    held = content(os.path.join(EXAMPLES, 'anomaly_under_held.zephyr')).decode()
    answer = play.ask('/beside', '', texts=[ANOMALY, held])
    other = play.ask('/beside', '', texts=[NOTED, NOTED.replace('row 10 1', 'row 10 7\nrow 11 5').replace('read r1 r0\n', '')])
    steps = [[(step[0], step[2]) for step in steps] for steps in answer['steps']]
    return [words for words, is_right in (
        ('the scenarios: %r' % answer['scenarios'], answer['scenarios'] == [['rule', 'loose', 'held']]),
        ('other rows and programs: %r' % other['scenarios'], other['scenarios'] == [
            ['row 10', '1', '7'], ['program 0', 'set r0 10; read r1 r0; commit', 'set r0 10; commit'], ['row 11', '', '5']]),
        ('they part at %d' % answer['both'], answer['both'] == 11),
        ('the steps: %r' % steps, steps == [[(choice, one) for choice, one, _ in PARTED], [(choice, other) for choice, _, other in PARTED]]),
        ('the verdicts: %r' % answer['verdicts'], answer['verdicts'] == ['serial differs', 'serial same']),
        ('the states: %r' % answer['states'], all(lines in answer['states'] for lines in PARTED_STATES)
         and all(one != other for one, other in answer['states']) and 'page 1' not in str(answer['states'])),
        ('a fault', 'fault' in play.ask('/beside', '', texts=[ANOMALY, 'zephyr 3']))) if not is_right]


# Programs that are wrong, by what they do instead of a trace.
WRONG = {'hangs': 'exec sleep 1000', 'is killed': 'kill -KILL $$', 'loops': 'while :; do :; done', 'takes all memory': 'exec python3 -c "bytes(1 << 40)"'}


def stopped():
    """What is wrong where a program hangs, is killed, loops, takes all memory or is not there: each question is answered by a fault."""
    with tempfile.TemporaryDirectory() as work, changed_bench(1) as bench:
        with in_process() as play:
            yield from untraced(bench, play, work)
            for name, command in WRONG.items():
                bench.PROGRAM = os.path.join(work, name.split()[-1])
                with open(bench.PROGRAM, 'w', encoding='utf-8') as file:
                    file.write('#!/bin/sh\n%s\n' % command)
                os.chmod(bench.PROGRAM, 0o700)
                start = time.monotonic()
                words = play.ask('/run', NOTED)['fault']['words']
                if not words.startswith('zy_bench ') or time.monotonic() - start > 15 or name != 'takes all memory' and ' was stopped: ' not in words:
                    yield 'a program that %s: %r' % (name, words)
            bench.PROGRAM = os.path.join(work, 'none')
            for question, more in (('/run', {}), ('/search', {name: value for name, value in SEARCH.items() if name != 'text'})):
                if 'none' not in play.ask(question, NOTED, **more)['fault']['words']:
                    yield 'a program that is not there: %s' % question


def untraced(bench, play, work):
    """What is wrong where a run goes on and the program makes no trace: the new steps are asked for without one."""
    text, own = NOTED.replace('row 10 1', 'row 10 2'), bench.PROGRAM  # the run of NOTED would be kept
    base = play.ask('/run', text)['name']
    bench.PROGRAM = os.path.join(work, 'untraced')
    with open(bench.PROGRAM, 'w', encoding='utf-8') as file:
        file.write('#!/bin/sh\n[ "$1" = trace ] && exit 9\nexec "%s" "$@"\n' % PROGRAM)
    os.chmod(bench.PROGRAM, 0o700)
    answer = play.ask('/run', text.replace('end\n', 'B take\nend\n'), base=base)
    bench.PROGRAM = own
    if answer.get('lists', {}).get('lines') != [5, ['5 B take -> got wire ! ready']]:
        yield 'a run that goes on is traced as a whole: %r' % answer


@contextmanager
def changed_bench(patience):
    """What the scripts know of the program, with the limits of zplay, but as many seconds of patience; all is put back."""
    tools = os.path.join(TOP, 'tools')
    sys.path.insert(0, tools)
    bench = importlib.import_module('bench')
    program, limits = bench.PROGRAM, dict(bench.LIMITS)
    importlib.machinery.SourceFileLoader('zplay', ZPLAY).load_module().use_program()
    assert bench.PATIENCE and bench.LIMITS
    bench.PATIENCE = patience
    try:
        yield bench
    finally:
        bench.PROGRAM, bench.LIMITS, bench.PATIENCE = program, limits, None
        sys.path.remove(tools)


@contextmanager
def in_process():
    """A server in this process, to be asked like a zplay."""
    server = importlib.import_module('play.server').Server(0, {})
    thread = threading.Thread(target=server.serve_forever)
    thread.start()
    play = Play.__new__(Play)
    play.port, play.token = str(server.port), server.token
    try:
        yield play
    finally:
        server.shutdown()
        thread.join()
        server.server_close()


def broken_off():
    """What is wrong where a search is killed, and where who asked for it goes away."""
    with Play() as play:
        line, answer, process = begun_search(play)
        os.kill(process, signal.SIGKILL)
        last = json.loads(answer.read().splitlines()[-1])
        if last['found'] is not None or not last['words'].startswith('Not known: the search was stopped'):
            yield 'a search that is killed: %r' % last
        line, answer, process = begun_search(play)
        answer.close()
        line.close()
        if not comes(lambda: not is_program(process)):
            yield 'a search goes on whose page has gone'


def begun_search(play):
    """A search that does not end: the connection, the answer of which a line has come, and the process."""
    line = play.line('POST', '/search', json.dumps({**SEARCH, 'text': loops(), 'states': 50000000}))
    answer = line.getresponse()
    answer.readline()
    return line, answer, int(children(play.process.pid)[0])


def children(process):
    """The processes below a process."""
    return subprocess.run(['ps', '-o', 'pid=', '--ppid', str(process)], stdout=subprocess.PIPE, text=True).stdout.split()


def opened():
    """What is wrong with the address that zplay opens: it lets a browser in once, and it is not the printed one; with
    --no-open none is opened."""
    with tempfile.TemporaryDirectory() as work:
        script, path = os.path.join(work, 'browser'), os.path.join(work, 'address')
        with open(script, 'w', encoding='utf-8') as file:
            # Some browsers stay in the foreground.
            file.write('#!/bin/sh\nprintf %%s "$1" > %s.part; mv %s.part %s; exec sleep 50\n' % (path, path, path))
        os.chmod(script, 0o700)
        with Play(opens=script) as play:
            comes(lambda: os.path.exists(path))
            query = '/?' + content(path).decode().partition('?')[2]
            begun = time.monotonic()
            first, second = (play.request('GET', query, Origin=None, Cookie=None) for _ in range(2))
            took = time.monotonic() - begun
        os.remove(path)
        with Play('--no-open', opens=script):
            time.sleep(2)
        is_opened = os.path.exists(path)
    cookie = 'zplay_%s=%s; HttpOnly; SameSite=Lax; Path=/' % (play.port, play.token)
    return [words for words, is_right in (
        ('statuses %d, %d' % (first[0], second[0]), (first[0], second[0]) == (303, 403)), ('the cookie', first[1]['Set-Cookie'] == cookie),
        ('it answers once the browser has ended', took < 30), ('--no-open opens it', not is_opened),
        ('it has the token of the printed address', play.token not in query)) if not is_right]


def unbuilt():
    """What is wrong with what is said first in a tree where the program is not built, and that nothing is said where it is."""
    with tempfile.TemporaryDirectory() as work:
        for name in ('tools', 'examples', 'docs'):
            shutil.copytree(os.path.join(TOP, name), os.path.join(work, name), ignore=shutil.ignore_patterns('__pycache__'))
        shutil.copy(ZPLAY, work)
        os.makedirs(os.path.join(work, 'crates', 'zy_bench', 'out'))
        launcher = os.path.join(work, 'zy_bench')
        with open(launcher, 'w', encoding='utf-8') as file:
            file.write('#!/bin/sh\n[ "$1" = --build ] || exec %s "$@"\n' % shlex.quote(PROGRAM))
        os.chmod(launcher, 0o755)
        first = said_first(os.path.join(work, 'zplay'))
        os.symlink(PROGRAM, os.path.join(work, 'crates', 'zy_bench', 'out', 'zy_bench'))
        later = said_first(os.path.join(work, 'zplay'))
    return [words for words, is_right in (
        ('it says %r' % first, re.fullmatch(r'zplay: zy_bench is not built here: it is proved and built now, .*\n', first)),
        ('where it is built it says %r' % later, not later)) if not is_right]


def said_first(zplay):
    """What a zplay says on standard error before it prints its address."""
    own = {name: value for name, value in os.environ.items() if name != 'ZY_BENCH'}
    process = subprocess.Popen([zplay, '--port', '0', '--no-open'], stdout=subprocess.PIPE, stderr=subprocess.PIPE, text=True, env=own)
    address = process.stdout.readline()
    process.kill()
    return process.communicate()[1] if address.startswith('http') else 'no address'


def ports():
    """What is wrong with a port that is taken, with one that is none, and with the usual one where it is free."""
    with socket.create_server(('127.0.0.1', 0)) as other:
        taken = str(other.getsockname()[1])
        with Play(port=taken) as play:
            found = [] if play.port != taken and play.request('POST', '/run', TEXT)[0] == 200 else ['a port that is taken']
    status = subprocess.run([ZPLAY, '--port', '65536'], stderr=subprocess.DEVNULL, timeout=60).returncode
    found += [] if status == 2 else ['port 65536: status %d' % status]
    # Another zplay may take it meanwhile.
    return found + ([] if any(is_usual() for _ in range(5)) else ['without --port it is not at 8017, which is free'])


def misnamed():
    """What is wrong where a file is not there that has a `#` in its name: it is no link."""
    process = subprocess.Popen([ZPLAY, '--port', '0', '--no-open', 'bug#12.zephyr'], stdout=subprocess.PIPE, stderr=subprocess.PIPE, text=True)
    address = process.stdout.readline()
    process.kill()
    said = process.communicate()[1]
    return [] if (address, said) == ('', 'zplay: bug#12.zephyr: No such file or directory\n') else ['it says %r' % (address + said)]


def is_usual():
    """Whether a server without --port is at 8017, where nobody is there."""
    if is_open('127.0.0.1', 8017):
        return True
    with Play(port='') as play:
        return play.port == '8017'


def own_address():
    """An address of this machine beside that of the loopback; '' where it has none."""
    with socket.socket(socket.AF_INET, socket.SOCK_DGRAM) as line:
        try:
            line.connect(('192.0.2.1', 9))
            return line.getsockname()[0]
        except OSError:
            return ''


def is_open(address, port):
    with socket.socket() as line:
        line.settimeout(1)
        return bool(address) and line.connect_ex((address, int(port))) == 0


def ends(number):
    """What is wrong where a signal ends zplay while a search is under way."""
    play = Play()
    line, _, below = begun_search(play)
    play.process.send_signal(number)
    status = play.process.wait(20)
    time.sleep(0.5)
    return [words for words, is_so in (
        ('status %d' % status, status), ('the search goes on', is_program(below)),
        ('the port is open', is_open('127.0.0.1', play.port))) if is_so]


def line_sent(play, text, base, kind):
    """What the first timeline of a kind has grown by in a run, from that of another one."""
    answer = play.ask('/run', text, base=play.ask('/run', base)['name'])
    return answer.get('timelines', {}).get(kind, {}).get('grown', {}).get('0', [0, [None]])


def sent_parts(play):
    """What is wrong with a run of which only what is new is sent, and with the pieces of its drawing."""
    long = bare(NOTED).replace('end\n', 'C begin 0\n' + 'A take\nB take\n' * 2000 + 'C start\nend\n')
    more = long.replace('end\n', 'B take\nend\n')
    base = play.ask('/run', long)
    answers = [play.request('POST', '/run', json.dumps({'text': more, 'base': name}))[2] for name in (base['name'], '', 'x')]
    drawn = play.ask('/pieces', more, numbers=[0, 1, 2, 7000, -1])['pieces']
    whole, pieces = json.loads(answers[1]), zviewed(more)['pieces']
    other, many = NOTED.replace('row 10 1', 'row 10 7'), NOTED.replace('row 10 1', 'row 10 8')
    page, reader = line_sent(play, other, NOTED, 'pages'), line_sent(play, many, bare(many), 'txns')
    return [words for words, is_right in (
        ('the answers have %s bytes' % list(map(len, answers)), len(answers[0]) < 12000 < 60000 < len(answers[1])),
        ('of another run something is kept', json.loads(answers[2])['lists'] == whole['lists'] and not json.loads(answers[2])['base']),
        ('the same choices in another scenario: %r' % page, page[0] == 0 and page[1][0] == [0, 'page 0 A low 0 rows 10=7 locks']),
        ('some steps at once: %r' % reader, reader == [1, zviewed(many)['txns'][0][1:]]),
        ('the lines', base['lists']['lines'][1] + json.loads(answers[0])['lists']['lines'][1] == whole['lists']['lines'][1]),
        ('the pieces', drawn == {str(number): pieces[number] for number in range(min(3, len(pieces)))})) if not is_right]

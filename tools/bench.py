"""What the program gives: its subcommands over a text, and what only the text has, the names of transactions."""

import fcntl
import os
import resource
import signal
import subprocess
import sys
import threading
from contextlib import suppress

TOP = os.path.dirname(os.path.dirname(os.path.realpath(__file__)))

# ZY_BENCH names another program than the one of this checkout.
PROGRAM = os.environ.get('ZY_BENCH') or os.path.join(TOP, 'zy_bench')

# Where ./zy_bench puts the program of this checkout.
BUILT = os.path.join(TOP, 'crates', 'zy_bench', 'out', 'zy_bench')

# Lone bytes that are no UTF-8 go through a text unchanged.
BYTES = {'encoding': 'utf-8', 'errors': 'surrogateescape'}

# The most that one call of the program may take, by the kind of the resource; all that the system allows of a kind that is not here.
LIMITS = {}

# The bytes that a pipe has room for: most answers go in whole, so that nobody waits for the other.
PIPE = 1 << 20

# Linux's number for that request, which Python names from 3.10 on.
SET_PIPE_SIZE = 1031

# The most seconds that one call may take, whatever it does; None for any.
PATIENCE = None

# The calls that have begun, but for those that are known to have ended; who begins one, or ends all, has the lock.
BEGUN, BEGINNING = set(), threading.Lock()


class Refused(Exception):
    """The program ended with another status than those that were expected; its words are on standard error, or here."""

    def __init__(self, status, words):
        super().__init__(words)
        self.status, self.words = status, words

    def line(self):
        """What is to be said: its words, or that it was killed, of which it could say nothing itself."""
        return self.words or ('zy_bench was ended by signal %d' % -self.status if self.status < 0 else '')

    def reported(self, name):
        """Says so for a script, if there is something to be said, and returns the status with which that ends."""
        if self.line():
            print('%s: %s' % (name, self.line()), file=sys.stderr)
        return self.status if self.status >= 0 else 128 - self.status


def is_own():
    """Whether the program is that of this checkout, which ./zy_bench builds."""
    return PROGRAM == os.path.join(TOP, 'zy_bench') and os.path.isdir(os.path.join(TOP, 'crates'))


def settle():
    """From here on the program itself is asked, which ./zy_bench has built by then, and not each time whether it is that of the sources."""
    global PROGRAM
    if is_own():
        ask(['--build'], b'')
        PROGRAM = BUILT


def ask(words, given, good=(0,), quiet=False):
    """The lines that the program writes. What it says on standard error goes to standard error, or with `quiet` into the fault."""
    return answer(words, given, good, quiet)[0]


def answer(words, given, good=(0,), quiet=True):
    """The lines that the program writes, and with `quiet` what it says on standard error."""
    written, said = texts(words, given, good, quiet)
    return written.splitlines(), said


def texts(words, given, good=(0,), quiet=True):
    """The same with what the program writes in one text."""
    with start(words, stdin=subprocess.PIPE, stdout=subprocess.PIPE, stderr=subprocess.PIPE if quiet else None) as process:
        widen(process.stdin, process.stdout)
        try:
            written, said = process.communicate(given, PATIENCE)
        except subprocess.TimeoutExpired:
            process.kill()
            raise Refused(-signal.SIGKILL, '') from None
    said = (said or b'').decode(**BYTES).strip()
    if process.returncode not in good:
        raise Refused(process.returncode, said)
    return written.decode(**BYTES), said


def widen(*pipes):
    """Gives pipes more room, where the system lets a user have it."""
    for pipe in pipes:
        with suppress(OSError):
            fcntl.fcntl(pipe, SET_PIPE_SIZE, PIPE)


def start(words, limits=None, **pipes):
    """The program as it begins, within some limits, or else LIMITS."""
    with BEGINNING:
        try:
            process = subprocess.Popen([PROGRAM] + words, **pipes)
        except OSError as error:
            sys.exit('%s: %s' % (os.path.basename(sys.argv[0]), error))
        BEGUN.difference_update([call for call in BEGUN if call.returncode is not None])
        BEGUN.add(process)
    for kind, most in (limits or LIMITS).items():
        allowed = resource.prlimit(process.pid, kind)[1]
        most = most if allowed == resource.RLIM_INFINITY else min(most, allowed)
        resource.prlimit(process.pid, kind, (most, most))
    return process


def end_with_calls():
    """From here on a signal that ends a script, and is not ignored, ends the calls that are under way, too. A thread does that which waits for nothing else:
    the first one hears of a signal only once it goes on."""
    reader, writer = os.pipe()
    os.set_blocking(writer, False)
    signal.set_wakeup_fd(writer)
    for number in (signal.SIGTERM, signal.SIGHUP):
        if signal.getsignal(number) != signal.SIG_IGN:
            signal.signal(number, lambda *_: None)
    threading.Thread(target=kill_calls, args=(reader,), daemon=True).start()


def kill_calls(reader):
    """Ends everything once the number of a signal comes."""
    number = os.read(reader, 1)[0]
    with BEGINNING:
        for process in BEGUN:
            process.kill()
        os._exit(128 + number)


def words_of(line):
    """The words of a line, without its comment."""
    return line.split(';')[0].split()


def cut(text):
    """The scenario part of a text, and what is below it."""
    lines = text.split('\n')
    for number, line in enumerate(lines):
        if 'end' in line and words_of(line) == ['end']:
            return '\n'.join(lines[:number + 1]) + '\n', '\n'.join(lines[number + 1:])
    return text, ''


def names_of(text):
    """The name that the text gives each of its transactions; '' for one that has its number alone."""
    heads = [words_of(line) for line in text.split('\n') if 'txn' in line]
    names = [head[1] for head in heads if head[:1] == ['txn'] and len(head) == 2]
    return ['' if name[0].isdigit() else name for name in names]

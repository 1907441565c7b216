"""Proves and builds a program: each crate once those that it uses are proved, with others side by side.

    build.py [zy_bench | zy_first | --takes]

The program is zy_bench, if none is named; zy_first uses fewer crates. What is proved and how long it takes is said first. A line on standard error for
each crate as it is proved: its time, how many are left, and how long they take by estimate. Behind zy_first comes how the other commands are had. What
rt writes goes to crates/build.log. With --takes it says only what a build of zy_bench takes."""

import math
import os
import re
import shutil
import signal
import subprocess
import sys
import time

sys.path.insert(0, os.path.dirname(os.path.realpath(__file__)))

from machine import free_memory, processors

TOP = os.path.dirname(os.path.dirname(os.path.realpath(__file__)))
CRATES = os.path.join(TOP, 'crates')
LOG = os.path.join(CRATES, 'build.log')
PROGRAM = sys.argv[1] if sys.argv[1:] and sys.argv[1] != '--takes' else 'zy_bench'
ROOMS = os.path.join(CRATES, PROGRAM, 'out', 'rooms')

# What one proof takes of memory, in bytes, at most.
MEMORY = 3 << 30

PROCESSORS = processors()

RT = (sys.executable, os.path.join(TOP, 'tools', 'rt_once.py'))

FAILED = 70

# A proof that takes less than this part of its minutes was kept, and tells nothing of the pace.
KEPT = 1 / 20

# Who asked for the program: once that process is gone, nobody waits for it.
ASKED_BY = os.getppid()


def listed():
    """The lines of crates.txt, by the crates' names."""
    with open(os.path.join(TOP, 'crates.txt'), encoding='utf-8') as file:
        return {re.match(r'\w+', line)[0]: line for line in file if line.strip() and not line.startswith('#')}


def needs(program):
    """The crates that each crate uses, of those that a program needs."""
    all_of = {name: set(line.partition(':')[2].split()) for name, line in listed().items()}
    found, todo = {}, [program]
    while todo:
        name = todo.pop()
        if name not in found:
            found[name] = all_of[name] & all_of.keys()
            todo += found[name]
    return found


def minutes():
    """What each crate's proof took when the gate was measured, from docs/gate.md."""
    with open(os.path.join(TOP, 'docs', 'gate.md'), encoding='utf-8') as file:
        rows = re.findall(r'^\| `(\w+)` \|[^|]*\| ([0-9.]+) min', file.read(), re.MULTILINE)
    return {name: float(took) for name, took in rows}


def side_by_side():
    """How many proofs there is room for: one more than processors, where these are more than two, since a proof by several jobs leaves some of them idle."""
    return max(1, min(PROCESSORS + (PROCESSORS > 2), free_memory() // MEMORY))


def link(source, to):
    """A second name for a file, or a copy where the file system has no links."""
    try:
        os.link(source, to)
    except OSError:
        shutil.copy2(source, to)


def own_test():
    """The words and the path of the input with which rt tests the program, from the files args and stdin of its crate."""
    args, stdin = (os.path.join(CRATES, PROGRAM, name) for name in ('args', 'stdin'))
    words = []
    if os.path.exists(args):
        with open(args, encoding='utf-8') as file:
            words = file.read().split()
    return words, stdin if os.path.exists(stdin) else os.devnull


class Room:
    """A folder in which a crate is proved: its files and those of the crates that it uses, by links.

    rt locks each crate that a proof reads, so that in one folder hardly two proofs are at work at a time."""

    def __init__(self, name, below):
        self.top, self.home = os.path.join(ROOMS, name), os.path.join(CRATES, name)
        self.folder = os.path.join(self.top, 'crates', name)
        os.makedirs(os.path.join(self.top, 'crates'))
        with open(os.path.join(self.top, 'crates.txt'), 'w', encoding='utf-8') as file:
            file.writelines(line for crate, line in listed().items() if crate in below or crate == name)
        for used in below:
            self.share(used)
            self.share(os.path.join(used, 'out', 'rlib'))
        self.share(name)
        os.makedirs(os.path.join(self.home, 'out'), exist_ok=True)
        os.rename(os.path.join(self.home, 'out'), os.path.join(self.folder, 'out'))

    def share(self, path):
        shutil.copytree(os.path.join(CRATES, path), os.path.join(self.top, 'crates', path), copy_function=link, ignore=shutil.ignore_patterns('out'))

    def leave(self):
        """Brings home what the proof has made."""
        os.rename(os.path.join(self.folder, 'out'), os.path.join(self.home, 'out'))
        shutil.rmtree(self.top)


class Proof:
    """The proof of a crate that is under way."""

    def __init__(self, name, below, jobs, is_first):
        self.name, self.begun = name, time.monotonic()
        self.room = None if name == PROGRAM else Room(name, below)
        self.path = os.path.join(CRATES, name, 'build.log')
        before = () if is_first else ('nice',)
        args, given = ([], os.devnull) if self.room else own_test()
        words = ['lib', '--jobs', str(jobs)] if self.room else ['run', '--jobs', str(jobs), '--', *args]
        folder = self.room.folder if self.room else os.path.join(CRATES, name)
        with open(self.path, 'wb') as log, open(given, 'rb') as stdin:
            self.process = subprocess.Popen([*before, *RT, *words], cwd=folder, stdin=stdin, stdout=log, stderr=log)

    def finish(self):
        """Whether it is proved, and what rt said, once that has gone to the log."""
        if self.room:
            self.room.leave()
        with open(self.path, 'rb') as log:
            words = log.read()
        os.remove(self.path)
        with open(LOG, 'ab') as log:
            log.write(b'== %s\n%s' % (self.name.encode(), words))
        return self.process.returncode == 0, words.decode(errors='replace')


class Build:
    """Which crates are proved, and which are under way."""

    def __init__(self):
        self.needs, self.minutes = needs(PROGRAM), minutes()
        self.behind = {}
        for name in self.needs:
            self.weigh(name)
        self.left, self.under_way, self.done, self.anew = set(self.needs), [], set(), set()
        self.begun, self.room = time.monotonic(), side_by_side()
        self.jobs = min(PROCESSORS, self.room)

    def begin(self):
        """Begins proofs while there is room, first those on which most of the work waits. The one of all on which most waits goes before the others, with
        as many jobs as there are; each of the others has those that are left if each proof that is under way or waits for room has one: by more jobs a proof
        takes a fifth more of the processors."""
        ready = sorted((name for name in self.left if self.needs[name] <= self.done), key=self.behind.get, reverse=True)
        first = max(self.needs.keys() - self.done, key=self.behind.get)
        while ready and len(self.under_way) < self.room:
            name = ready.pop(0)
            self.left.remove(name)
            idle = self.jobs - len(self.under_way) - len(ready)
            jobs = self.jobs if name == first else max(1, idle)
            self.under_way.append(Proof(name, self.below(name), jobs, name == first))

    def below(self, name):
        """All crates that a crate uses, by way of others too."""
        return set().union(*({other} | self.below(other) for other in self.needs[name]))

    def weigh(self, name):
        """Notes and returns the longest way of proofs from a crate to the program, in minutes."""
        if name not in self.behind:
            above = [self.weigh(other) for other, below in self.needs.items() if name in below]
            self.behind[name] = self.cost(name) + max(above, default=0)
        return self.behind[name]

    def cost(self, name):
        return self.minutes.get(name, 1)

    def step(self):
        """Takes what has finished; False where a proof has failed."""
        for proof in [proof for proof in self.under_way if proof.process.poll() is not None]:
            self.under_way.remove(proof)
            is_proved, words = proof.finish()
            took = time.monotonic() - proof.begun
            if not is_proved:
                say('%s: failed after %d s; the last lines of %s:\n%s' % (proof.name, took, LOG, '\n'.join(words.splitlines()[-20:])))
                return False
            self.done.add(proof.name)
            if took > self.cost(proof.name) * 60 * KEPT:
                self.anew.add(proof.name)
            say('%s: proved in %d s%s' % (proof.name, took, self.outlook()))
        return True

    def estimate(self):
        """How many minutes the proofs take on one processor, and by estimate on those that are here."""
        total = self.cost_of(self.needs)
        return math.ceil(total), math.ceil(self.here(total))

    def here(self, total):
        """How long minutes of one processor take here, by estimate: about a fifth goes one after the other, however many processors there are."""
        return total / 5 + total * 4 / 5 / self.jobs

    def cost_of(self, names):
        return sum(map(self.cost, names))

    def outlook(self):
        """How many crates are left, and how long they take at the pace so far, or by estimate where nothing was proved anew."""
        left = self.needs.keys() - self.done
        if not left:
            return ''
        total, anew = self.cost_of(left), self.cost_of(self.anew)
        minutes = total * (time.monotonic() - self.begun) / 60 / anew if anew else self.here(total)
        return '; %d left, about %d min' % (len(left), math.ceil(minutes))

    def stop(self):
        """Ends the proofs that are under way, all of them before one is tidied up."""
        for proof in self.under_way:
            proof.process.terminate()
        for proof in self.under_way:
            proof.process.wait()
        for proof in self.under_way:
            proof.finish()


def say(line):
    print(line, file=sys.stderr, flush=True)


# The signals that have come.
SIGNALS = []


def obey():
    """Notes each signal that is to end the build, but one that is ignored, as that of a closed terminal is under nohup. The build ends between two steps,
    where no crate's kept work is on its way from one folder to another."""
    for number in (signal.SIGINT, signal.SIGTERM, signal.SIGHUP):
        if signal.getsignal(number) != signal.SIG_IGN:
            signal.signal(number, lambda number, _: SIGNALS.append(number))


def main():
    if sys.argv[1:] == ['--takes']:
        say('zy_bench: the program is not built of these sources; ./zy_bench --build proves and builds it: by docs/gate.md %d minutes of one processor, and '
            'about %d here' % Build().estimate())
        return 0
    obey()
    open(LOG, 'wb').close()
    shutil.rmtree(ROOMS, ignore_errors=True)
    build = Build()
    say('%s is not built of these sources: its %d crates are proved now, at most %d side by side; the log is %s' % (
        PROGRAM, len(build.needs), build.room, LOG))
    say('by docs/gate.md that takes %d minutes of one processor, and about %d here; a look without proofs takes about a minute: '
        './zy_bench --unproved run < FILE, or another command of zy_bench' % build.estimate())
    try:
        while build.left or build.under_way:
            build.begin()
            if SIGNALS or not build.step() or os.getppid() != ASKED_BY:
                return FAILED
            time.sleep(0.5)
    finally:
        build.stop()
    if PROGRAM != 'zy_bench':
        say('the other commands need %d crates more: ./zy_bench --build & proves them in the background' % len(needs('zy_bench').keys() - build.done))
    return 0


if __name__ == '__main__':
    sys.exit(main())

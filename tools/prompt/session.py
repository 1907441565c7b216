"""A session: a scenario, the run of it, a position, and stops. What is shown is a trace's, and what is replied is the debugger's."""

import os
import re
from itertools import groupby

import bench
import outcomes
import runs
import waiting
from files import put
from picture.looks import STUCK
from picture.serial import differences, verdict_line
from picture.text import summary
from prompt.goals import Goals, NoGoal, met
from prompt.words import FORMS

# The most lines of the state that a move shows.
MOST = 20

# The most choices of a scenario.
LIMIT = 4096

# After these outcomes the same choice made again changes nothing, or waits for a page.
STILL = STUCK + ('idle', 'elsewhere', 'badmode', 'nomessage', 'held', 'stray', 'active', 'nopush')

ENDED = ('committed', 'aborted')


class Fault(Exception):
    """Why a command is not carried out."""


class Session:
    """The text is kept in three parts: the head with its names, the choices, and what they were before each `do` and `end`."""

    def __init__(self, text, quiet=False, path=None):
        part, _ = bench.cut(text)
        self.head = head_of(part)
        self.run = runs.read(part, quiet)
        self.choices = choices_of(self.run)
        self.position, self.stops, self.goals, self.before = 0, [], Goals(), []
        self.shown = self.run.state(0)
        self.path, self.stored, self.saved = path, self.last(), self.choices

    def text(self, choices):
        """The scenario with these choices."""
        return '\n'.join(self.head + choices + ['end', ''])

    def last(self):
        return len(self.run.steps)

    # ---- what the debugger replies

    def ask(self, command):
        """The debugger's reply to a command at the position, with the stops that are set."""
        commands = [stop for stop, _ in self.stops] + ['goto %d' % self.position, command, '']
        given = (self.text(self.choices) + '\n'.join(commands)).encode(**bench.BYTES)
        replies = bench.ask(['debug'], given, quiet=True)[len(self.stops) + 1:]
        if replies == ['bad command']:
            raise Fault(FORMS[command.split()[0]])
        return replies

    def move(self, command):
        """Moves as the debugger does, and shows what is new."""
        reply = self.ask(command)[-1]
        found = re.fullmatch(r'(?:stop \d+ )?at (\d+)', reply)
        if not found:
            raise Fault('%s: the positions are 0 to %d' % (reply, self.last()))
        place, is_stop = int(found.group(1)), reply.startswith('stop')
        if command in ('cont', 'rcont'):
            goal = self.about(self.goals.firing, self.passed(place, is_stop))
            if goal:
                return self.go(goal[0]) + ['goal %d at %d' % goal[::-1]] + self.here()
        fired = [reply] if is_stop else ['no stop fires'] if 'cont' in command else []
        return self.go(place) + fired + self.here()

    def passed(self, place, is_stop):
        """The positions on the way to a place, and the place itself if no stop fires there."""
        ahead = place > self.position
        end = place if is_stop else place + (1 if ahead else -1)
        return range(self.position + 1, end) if ahead else range(self.position - 1, end, -1)

    def stop(self, command):
        """Sets or deletes a stop."""
        reply = self.ask(command)[-1]
        if not re.fullmatch(r'stop \d+ set|deleted \d+', reply):
            raise Fault(reply)
        self.stops.append((command, reply))
        return [reply]

    def break_if(self, goal):
        """Sets a stop where a goal turns true."""
        return ['goal %d set' % self.about(self.goals.add, goal)]

    def delete_goal(self, number):
        """Takes a goal away."""
        if not number.isdecimal() or self.goals.set.pop(int(number), None) is None:
            raise Fault('no such goal')
        return ['deleted goal %s' % number]

    def about(self, ask, what):
        """What is answered about a goal, or the goals at some positions, and the scenario."""
        try:
            return ask(what, self.text(self.choices))
        except NoGoal as fault:
            raise Fault(str(fault)) from None

    def shown_stops(self):
        """The stops that are set, each by its number and the command that set it, and the goals."""
        there = {}
        for command, reply in self.stops:
            number = int(re.search(r'\d+', reply).group())
            if command.startswith('delete'):
                del there[number]
            else:
                there[number] = command
        return ['%d %s' % stop for stop in sorted(there.items())] + self.goals.shown() or ['no stops']

    # ---- what the trace shows

    def go(self, position):
        """Goes to a position, and gives the lines of the state that are other ones there."""
        old, self.position, self.shown = set(self.shown), position, self.run.state(position)
        changed = [self.named(line) for line in self.shown if line not in old]
        more = len(changed) - MOST
        return changed[:MOST] + (['and %d more lines; state shows all' % more] if more > 0 else [])

    def here(self):
        """The last choice that is done, and below it whom it waits for."""
        return self.around(0) + self.waits() or ['at 0 of %d' % self.last()]

    def waits(self):
        """Whom the last choice that is done waits for, as a line; none where it waits for no page."""
        words = self.position and waiting.sentence(self.run, self.run.steps[self.position - 1])
        return ['  ' + words] if words else []

    def around(self, reach):
        """The choices around the position with what came of each; the last one that is done is marked."""
        near = range(max(self.position - reach, 1), min(self.position + reach, self.last()) + 1)
        return [('> ' if number == self.position else '  ') + self.named(self.run.steps[number - 1].line) for number in near]

    def named(self, line):
        """A line with the name of its transaction behind the number, where it has one."""
        return re.sub(r'\b(txn|begin|run|kill) (\d+)', lambda found: ' '.join(filter(None, [
            found.group(), self.run.names[int(found.group(2))]])), line, count=1)

    def find(self, words):
        """Goes to the next step whose line has these words, or else their letters; from the first one on where there is none above."""
        lines = [' %s ' % self.named(step.line) for step in self.run.steps]
        hits = [number for number, line in enumerate(lines, 1) if ' %s ' % words in line]
        hits = hits or [number for number, line in enumerate(lines, 1) if words in line]
        return self.to_next(hits, 'step has %s' % words, 'no later step has it; the first that has:')

    def find_if(self, goal):
        """Goes to the next position at which a goal is met; from the start on where there is none above."""
        return self.to_next(self.about(met, goal), 'state meets %s' % goal, 'no later state meets it; the first that does:')

    def to_next(self, hits, what, wrapped):
        """Goes to the next of some positions, or else to the first of them."""
        if not hits:
            raise Fault('no ' + what)
        above = [number for number in hits if number > self.position]
        return ([] if above else [wrapped]) + self.go((above or hits)[0]) + self.here()

    def explain(self, words):
        """What an outcome means, and the lines of the step table that give it; or a reason of an abort, or a mode."""
        outcome = words or (self.run.steps[self.position - 1].outcome if self.position else '')
        found = outcomes.explained(outcome)
        if not found:
            raise Fault('%s: no outcome, reason or mode; docs/formats.md has them all' % outcome if outcome else 'no step is done; explain OUTCOME')
        return found

    def number_of(self, word):
        """The number of a transaction that is named by its number or its name."""
        return str(self.run.names.index(word)) if word in self.run.names and word else word

    def summary(self):
        return list(summary(self.run, verdict_line(self.run, differences(self.run))))

    # ---- the schedule

    def make(self, choices):
        """The run with other choices; a fault says why they are none."""
        try:
            return runs.read(self.text(choices), quiet=True)
        except bench.Refused as refused:
            raise Fault(refused.line().split(': ', 2)[-1]) from None

    def one_more(self, done, choice):
        """The run with one choice more; a fault where the words are not one choice."""
        run = self.make(done + [choice])
        if len(run.steps) != len(done) + 1:
            raise Fault('%s: not one choice; %s' % (choice, FORMS['do']))
        return run

    def put(self, choices, run, position):
        self.choices, self.run = choices, run
        return self.go(position) + self.here()

    def do(self, choice, times=1, until=None):
        """Makes a choice behind the position, some times or until something comes of it."""
        done = self.choices[:self.position]
        run = self.one_more(done, choice)
        if until or times > 1:
            run = self.make(done + [choice] * (self.times_until(done, choice, until) if until else times))
        return self.go_on(run)

    def go_on(self, run, *words):
        """Takes a run that goes on from the position in place of the one that is there; some words come before what is new."""
        aside = len(self.choices) - self.position
        self.before.append((self.choices, self.run, self.position))
        choices = choices_of(run)
        lost = ['%d choices behind the position are set aside; undo brings them back' % aside] if aside else []
        return lost + list(words) + self.put(choices, run, len(choices))

    def ended(self, done):
        """The run with the choices behind some that end its migration; a fault where there is no room for them."""
        try:
            text, _ = bench.texts(['end'], self.text(done).encode(**bench.BYTES))
        except bench.Refused as refused:
            raise Fault(refused.line().split(': ', 1)[-1]) from None
        return runs.read(text, quiet=True)

    def end(self):
        """Makes the choices behind the position that end the migration, and says which these are."""
        run = self.ended(self.choices[:self.position])
        added = [self.by_name(choice) for choice in choices_of(run)[self.position:]]
        if not added:
            raise Fault('no migration goes on, and no transaction is active')
        more = len(added) - MOST
        return self.go_on(run, 'it ends by %s' % ', '.join(added[:MOST]) + (' and %d more' % more if more > 0 else ''))

    def times_until(self, done, choice, until):
        """How often a choice is made until a step of it is enough; at most as often as a scenario has room for."""
        room = LIMIT - len(done)
        for times in (16, 256, room):
            steps = self.make(done + [choice] * min(times, room)).steps[len(done):]
            enough = next((made for made, step in enumerate(steps, 1) if is_enough(step, until)), None)
            if enough:
                return enough
        return max(1, room)

    def undo(self):
        """The choices and the position as they were before the last `do` or `end`."""
        if not self.before:
            raise Fault('nothing was done')
        choices, run, position = self.before.pop()
        return self.put(choices, run, position)

    def save(self, path):
        """Writes the scenario with the choices up to the position."""
        try:
            put(path, self.text(self.written()).encode('utf-8', 'surrogateescape'))
        except OSError as error:
            raise Fault(str(error)) from None
        self.saved = self.choices[:self.position]
        if self.is_own(path):
            self.stored = self.position
        return ['%s: %d choices' % (path, self.position)]

    def is_own(self, path):
        """Whether a path is that of the file which the session was opened from."""
        return self.path is not None and os.path.realpath(path) == os.path.realpath(self.path)

    def loses(self, path):
        """What a save to a path would lose: choices of the session's own file; '' for nothing."""
        if not self.is_own(path) or self.position >= self.stored:
            return ''
        return '%s has %d choices, and the position is %d' % (path, self.stored, self.position)

    def unsaved(self):
        """Whether there are other choices than those that were read or saved last."""
        return self.choices != self.saved

    def written(self):
        """The choices up to the position as an author writes them: with names, and like ones in a row as one."""
        rows = [(choice, len(list(like))) for choice, like in groupby(self.choices[:self.position])]
        return [self.by_name(choice) + (' x %d' % times if times > 1 else '') for choice, times in rows]

    def by_name(self, choice):
        """A choice with the name of its transaction, where it has one."""
        actor, action, *txn = choice.split()
        return ' '.join([actor, action] + [self.run.names[int(number)] or number for number in txn])


def choices_of(run):
    """The choices of a run, each once, as the canonical text has them."""
    return [step.line.split(' -> ')[0].split(' ', 1)[1] for step in run.steps]


def head_of(part):
    """The lines of a scenario part before its choices and its `end`."""
    lines = part.split('\n')
    end = next((n for n, line in enumerate(lines) if bench.words_of(line)[:1] in (['A'], ['B'], ['C'], ['end'])), len(lines))
    return lines[:end]


def is_enough(step, until):
    """Whether a step is one that `until` goes on to: the end of its transaction, or one that changes nothing when it is made again. A page that
    is asked for is a wait, and not yet the last change on the way to an end."""
    word = step.outcome.split()[0]
    return word in ENDED or word in STILL and (until == 'wait' or word != 'pulls')

"""The laws that docs/needed.md names, as plain predicates over runs of a table: each says whether a run keeps to it.

A law has the name of the function whose contract it is, in `zy_laws::laws` and `zy_outcomes::laws`, but for three (docs/needed.md says which). A law about every
choice in a state is judged by the choices that the run makes."""

from collections import Counter, namedtuple
from functools import cached_property

from alone import Aborted, instruction
from plain_goals import place_of
from plain_search import onward
from plain_table import LAST_KEY, NOBODY, NODES, database, is_locked, is_missing_some, node_of, opening, other, rows_of

# A choice that was made: the states before it and after it, and the node whose side it is made from.
Step = namedtuple('Step', 'before choice outcome after side')

SOURCES = ('sinit', 'sdual', 'sfinish')
SENDING = ('sdual', 'sfinish')
PULLING = ('ddual', 'dfinish')
IDLE = ('empty', 'sfinish')
STILL = ('badmode', 'idle', 'elsewhere', 'notyet', 'waits', 'awaits', 'nomessage', 'held', 'stray', 'active', 'nopush')
BY_PROGRAM = ('aborted own', 'aborted badkey', 'aborted missing', 'aborted duplicate')


def answer(step, scenario, state, choice):
    """What a table gives for a choice: the outcome and the state after it, or nothing where a wrong line has no answer."""
    try:
        return step(scenario, state, choice)
    except (TypeError, ValueError, IndexError, KeyError):
        return None


class Run:
    """The run of a scenario by a table, as far as the table has answers."""

    def __init__(self, step, scenario):
        self.step, self.scenario, self.points = step, scenario, {}
        self.states, self.steps = [opening(scenario)], []
        for choice in scenario.choices:
            came = self.answer(self.states[-1], choice)
            if came is None:
                break
            self.steps.append(Step(self.states[-1], choice, *came, side_of(scenario, self.states[-1], choice)))
            self.states.append(came[1])

    def answer(self, state, choice):
        return answer(self.step, self.scenario, state, choice)

    def after(self, state, choice):
        """The state after a choice; where there is no answer, the same state."""
        return (self.answer(state, choice) or (None, state))[1]

    def alone(self, t, rows, done):
        """A lone run from some rows after a number of instructions: whether it is over, its registers, its pc and its rows."""
        points = self.points.setdefault((t, rows), [((False, (0,) * 8, 0, rows), {})])
        while len(points) <= done and not points[-1][0][0]:
            points.append(alone_step(self.scenario.programs[t], rows, *points[-1]))
        return points[min(done, len(points) - 1)][0]

    def fronts(self, order):
        """The rows that each front of an order of commits leaves, run one by one."""
        rows = [tuple(self.scenario.rows)]
        for t, done in order:
            rows.append(self.alone(t, rows[-1], done)[3])
        return rows

    def is_on_lone_run(self, t, rows, txn):
        return self.alone(t, rows, txn.done) == (False, txn.regs, txn.pc, laid(txn.private, rows))

    def is_serial_in(self, order, state):
        """Whether an order of the commits gives the database, and the registers of each."""
        fronts = self.fronts(order)
        return (fronts[-1] == rows_in(state) and sorted(order) == sorted(state.commits)
                and all(state.txns[t].status == 'committed' and state.txns[t].regs == self.alone(t, rows, done)[1] for (t, done), rows in zip(order, fronts)))

    @cached_property
    def sorted(self):
        """After each number of choices the commits in two lists: those before the migration and at its source, and the others."""
        found = [((), ())]
        for step in self.steps:
            (first, later), new = found[-1], step.after.commits[len(step.before.commits):]
            if node_of(step.before, step.side).mode in SOURCES:
                first += new
            elif node_of(step.after, step.side).mode in SOURCES:
                first, later = first + later, ()
            else:
                later += new
            found.append((first, later))
        return found

    @cached_property
    def orders(self):
        """After each number of choices the migration order."""
        return [first + later for first, later in self.sorted]


def alone_step(program, rows, point, private):
    """The next point of a lone run."""
    _, regs, pc, _ = point
    registers, private = list(regs), dict(private)
    try:
        at = instruction(program[pc], registers, dict(rows), private, pc)
    except Aborted:
        return (True, regs, pc, rows), {}
    return (at is None, tuple(registers), pc if at is None else at, laid(private, rows)), private


def laid(private, rows):
    """Rows laid over others."""
    return tuple(sorted({**dict(rows), **dict(private)}.items()))


def rows_in(state):
    return tuple(sorted(database(state).items()))


def side_of(scenario, state, choice):
    """The node whose side a choice is made from."""
    actor, action, t = choice
    if action == 'kill':
        return state.txns[t].node or 'A'
    if action == 'start':
        return 'B' if may_start(scenario, state, 'B') and not may_start(scenario, state, 'A') else 'A'
    return 'A' if actor == 'C' else actor


def may_start(scenario, state, name):
    """Whether a migration may start from a node."""
    return node_of(state, name).mode == 'normal' and node_of(state, other(name)).mode == 'empty' and (name == 'A' or scenario.version == 2)


def outbox(state, name):
    return state.links[NODES.index(name)]


def inbox(state, name):
    return state.links[NODES.index(other(name))]


def in_link(link, kind):
    """The pages that the messages of a kind in a link are of."""
    return [message[1] for message in link if message[0] == kind]


def pages_in(state):
    """All pages with their rows, at the nodes and in the links."""
    return [page for node in state.nodes for page in node.pages] + [message[1:] for link in state.links for message in link if message[0] == 'page']


def newest(state):
    """The longer wireframe."""
    return max((node.lows for node in state.nodes), key=len)


def active_at(state, name):
    return [t for t, txn in enumerate(state.txns) if txn.status == 'active' and txn.node == name]


def rises(numbers):
    return all(low < high for low, high in zip(numbers, numbers[1:]))


# Laws of states

def one_owner(run):
    """Each page is in one place, and the numbers are those below the number of pages."""
    return all(sorted(page for page, _ in pages_in(state)) == list(range(len(newest(state)))) for state in run.states)


def one_source(run):
    """At most one node is a source."""
    return all(not all(node.mode in SOURCES for node in state.nodes) for state in run.states)


def b_never_sends(run):
    """In version 1 B is never a source."""
    return run.scenario.version == 2 or all(state.nodes[1].mode not in SOURCES for state in run.states)


def lists_in_order(run):
    """Pages rise by number and rows by key, and there are as many low keys as pages."""
    return all(all(rises([page for page, _ in node.pages]) for node in state.nodes) and len(pages_in(state)) == len(newest(state))
               and all(rises([key for key, _ in rows]) for rows in [rows for _, rows in pages_in(state)] + [txn.private for txn in state.txns])
               for state in run.states)


def rows_match(run):
    """Each row lies on the page of its key, by the longer wireframe."""
    return all(page_in(newest(state), key) == page for state in run.states for page, rows in pages_in(state) for key, _ in rows)


def page_in(lows, key):
    """The page of a key by a wireframe: the first one with the greatest low key that is not above it."""
    return lows.index(max(low for low in lows if low <= key)) if lows else None


def one_wireframe(run):
    """If both nodes have a wireframe, one node is the source, and its wireframe is a prefix of the other's; they are the same until the destination is
    normal. A node that has a wireframe on its way is the source, and the wireframe is its own."""
    return all(has_one_wireframe(state, name) for state in run.states for name in NODES)


def has_one_wireframe(state, name):
    me, them = node_of(state, name), node_of(state, other(name))
    is_alone = not me.lows or not them.lows or me.mode in SOURCES or them.mode in SOURCES
    is_front = me.mode not in SOURCES or not them.lows or (them.lows == me.lows or them.mode == 'normal' and them.lows[:len(me.lows)] == me.lows)
    return is_alone and is_front and all(me.mode in SOURCES and lows == me.lows for lows in in_link(outbox(state, name), 'wire'))


def nothing_left(run):
    """Where one node is normal and the other empty, nothing is left of a migration."""
    return all(is_nothing_left(state, name) for state in run.states for name in NODES
               if node_of(state, name).mode == 'empty' and node_of(state, other(name)).mode == 'normal')


def is_nothing_left(state, empty):
    me, them = node_of(state, empty), node_of(state, other(empty))
    return not (any(state.links) or me.asked or them.asked or me.pages or me.lows or me.locks or active_at(state, empty))


def exclusive_alone(run):
    """An exclusive lock is alone on its page, at its node."""
    return all(not is_locked(node, page, t, True) for state in run.states for node in state.nodes for page, t, exclusive in node.locks if exclusive)


def holders_active(run):
    """Whoever has a lock is active at that node."""
    return all(t in active_at(state, name) for state in run.states for name in NODES for _, t, _ in node_of(state, name).locks)


def private_active(run):
    """Only who is active has private rows."""
    return all(txn.status == 'active' or not txn.private for state in run.states for txn in state.txns)


def room_at_commit(run):
    """The rows of a page, and the new ones of a transaction that runs at its node, are at most `cap`."""
    return all(len(rows) + len(new_rows(node_of(state, name), page, state.txns[t])) <= run.scenario.cap
               for state in run.states for name in NODES for t in active_at(state, name) for page, rows in node_of(state, name).pages)


def new_rows(node, page, txn):
    """The keys of a transaction's private inserts on a page."""
    return [key for key, _ in txn.private if page_in(node.lows, key) == page and key not in dict(rows_of(node, page))]


def locked_here(run):
    """Under `held` a locked page is at its node."""
    return run.scenario.rule == 'loose' or all(rows_of(node, page) is not None for state in run.states for node in state.nodes for page, _, _ in node.locks)


def page_limit(run):
    """There are never more low keys than the scenario's `pages`."""
    return all(len(node.lows) <= run.scenario.pages for state in run.states for node in state.nodes)


def commits_listed(run):
    """A transaction is in the commit list once if it is committed, and else not."""
    return all(Counter(t for t, _ in state.commits) == Counter(t for t, txn in enumerate(state.txns) if txn.status == 'committed') for state in run.states)


def on_its_way(run):
    """Each page that a node asked for is on its way: its pull to the other node, or the page itself back. The node is a destination that lacks the page. At
    most one pull of it is on the link at a time, and each pull is of a page that the node asked for or has."""
    return all(is_on_its_way(state, name) for state in run.states for name in NODES)


def is_on_its_way(state, name):
    me, pulled, coming = node_of(state, name), in_link(outbox(state, name), 'pull'), in_link(inbox(state, name), 'page')
    return (all(me.mode in PULLING and page < len(me.lows) and rows_of(me, page) is None and (page in pulled or page in coming) for page in me.asked)
            and len(set(pulled)) == len(pulled) and all(page in me.asked or rows_of(me, page) is not None for page in pulled))


# Laws of steps

def never_stray(run):
    """No message comes to a node whose mode does not know it."""
    return all(step.outcome != 'stray' for step in run.steps)


def still_stays(run):
    """Where an outcome says that nothing came of a choice the state is as it was."""
    return all(step.after == step.before for step in run.steps if step.outcome.split()[0] in STILL)


def on_message(run):
    """A node turns normal only where no page is missing, and says `done` then and only then."""
    return all(hands_over(step) for step in run.steps if step.choice[1] == 'take')


def hands_over(step):
    node = node_of(step.after, step.side)
    has_turned = node.mode == 'normal' != node_of(step.before, step.side).mode
    return has_turned == (('done',) in outbox(step.after, step.side)[len(outbox(step.before, step.side)):]) and not (has_turned and is_missing_some(node))


def a_step_leaves_the_rest(run):
    """A step changes nothing of the other node, takes at most the first message, sends at most one, and adds at most one commit; it changes one transaction."""
    return all(leaves_the_rest(*step) for step in run.steps)


def leaves_the_rest(before, _choice, _outcome, after, side):
    return (node_of(after, other(side)) == node_of(before, other(side))
            and inbox(after, side) in (inbox(before, side), inbox(before, side)[1:])
            and is_one_more(outbox(before, side), outbox(after, side)) and is_one_more(before.commits, after.commits)
            and sum(old != new for old, new in zip(before.txns, after.txns)) <= 1)


def is_one_more(old, new):
    return new[:len(old)] == old and len(new) <= len(old) + 1


def sent_is_said(run):
    """Where a step sends a message, it is put at the end of the acting node's outbound link, and else nothing is."""
    return all(is_one_more(outbox(step.before, step.side), outbox(step.after, step.side)) for step in run.steps)


def pages_travel(run):
    """A page appears where a normal node splits it off, leaves a source in a message, arrives at a destination, and moves in no other way."""
    return all(has_travelled(step, page) for step in run.steps for page in range(len(newest(step.after)) + 1))


def has_travelled(step, page):
    me, before, after = node_of(step.before, step.side), place_of(step.before, page), place_of(step.after, page)
    there = other(step.side)
    return (after == before
            or not before and after == step.side and step.outcome.startswith('split') and step.outcome.split()[2] == str(page) and me.mode == 'normal'
            or before == step.side and after == step.side + there and me.mode in SOURCES
            or before == there + step.side and after == step.side and me.mode in PULLING)


def commits_alone(run):
    """A step that commits nothing leaves the database as it was."""
    return all(step.after.commits != step.before.commits or database(step.after) == database(step.before) for step in run.steps)


def gone_in_dual(run):
    """A transaction aborts as `gone` only at a source in the dual mode."""
    return all(node_of(step.before, step.side).mode == 'sdual' for step in run.steps if step.outcome.startswith('aborted gone'))


def commit_number(run):
    """The number of a commit is how many commits there are after the step."""
    return all(step.outcome == 'committed %d' % len(step.after.commits) for step in run.steps if step.outcome.startswith('committed'))


def done_counts(run):
    """A transaction did one instruction more where a run of it gives `did` or a commit, and none elsewhere; its registers change at `did` alone."""
    return all(is_counted(step, t) for step in run.steps for t in range(len(step.before.txns)))


def is_counted(step, t):
    old, new, is_run = step.before.txns[t], step.after.txns[t], step.choice[1:] == ('run', t)
    counts = is_run and step.outcome.split()[0] in ('did', 'committed')
    return new.done == old.done + counts and (new.regs == old.regs or is_run and step.outcome == 'did')


def what_is_awaited_was_asked_for(run):
    """A page of `pulls` or `awaits` is one that the node asked for."""
    return all(int(step.outcome.split()[1]) in node_of(step.after, step.side).asked for step in run.steps if step.outcome.split()[0] in ('pulls', 'awaits'))


def a_begin_acts(run):
    """A `begin` of a new transaction acts, at a node that is not idle and hands over no page."""
    return all(has_begun(step, step.choice[2]) for step in run.steps if step.choice[1] == 'begin' and step.before.txns[step.choice[2]].status == 'new')


def has_begun(step, t):
    home = step.outcome.split()[-1]
    return (step.outcome in ('began A', 'began B') and step.after.txns[t] == NOBODY._replace(status='active', node=home)
            and node_of(step.before, home).mode not in IDLE + SENDING)


def a_start_acts(run):
    """A `start` acts exactly where a migration may start from a node."""
    return all((step.outcome == 'started') == any(may_start(run.scenario, step.before, name) for name in NODES)
               for step in run.steps if step.choice[1] == 'start')


# The reasons of refusals

def a_refusal_has_its_reason(run):
    """`waits`, `pulls`, `awaits`, `notyet`, `active`, `held`, `stale` and each abort come only where their reason holds."""
    parts = [(step, *parted(step.outcome)) for step in run.steps]
    return all(REASONS[word](Asked(run.scenario, step), *map(int, numbers)) for step, word, numbers in parts if word in REASONS)


def parted(outcome):
    """An outcome as its words and its numbers."""
    words = outcome.split()
    return ' '.join(word for word in words if not word.isdigit()), [word for word in words if word.isdigit()]


class Asked:
    """What a choice asks of the node that acts: where it runs a transaction, the word, the keys and the pages of its next instruction."""

    def __init__(self, scenario, step):
        self.scenario, self.choice, self.node = scenario, step.choice, node_of(step.before, step.side)
        self.front = (inbox(step.before, step.side) + (None,))[0]
        self.active, self.t, self.is_run = active_at(step.before, step.side), step.choice[2], step.choice[1] == 'run'
        self.txn, self.word, self.keys = None, None, []
        if self.is_run:
            self.txn = step.before.txns[self.t]
            self.word, *operands = scenario.programs[self.t][self.txn.pc]
            keys = {'read': operands[1:2], 'write': operands[:1], 'insert': operands[:1], 'sum': operands}.get(self.word, [])
            self.keys = [self.txn.regs[int(operand[1:])] for operand in keys]

    def owns(self, page):
        return rows_of(self.node, page) is not None

    def runs(self):
        """Whether the choice runs a transaction that is active here."""
        return self.is_run and self.t in self.active

    def needs(self, page):
        """Whether the next instruction needs a page."""
        if self.word == 'sum':
            low, high = self.keys
            return page_in(self.node.lows, low) == page or page < len(self.node.lows) and low < self.node.lows[page] <= high
        return page in [page_in(self.node.lows, key) for key in self.keys]

    def has_row(self):
        """Whether there is a row at the key."""
        return self.keys[0] in {**dict(rows_of(self.node, page_in(self.node.lows, self.keys[0])) or ()), **dict(self.txn.private)}

    def is_full(self, page):
        """Whether the instruction inserts a new key on this page, which is full."""
        return (self.runs() and self.word == 'insert' and self.needs(page) and self.owns(page) and not self.has_row()
                and len(rows_of(self.node, page)) + len(new_rows(self.node, page, self.txn)) >= self.scenario.cap)

    def commits_on(self, page):
        """Whether the transaction commits with a private row on this page."""
        return self.word == 'commit' and any(page_in(self.node.lows, key) == page for key, _ in self.txn.private)

    def is_locked(self, page):
        return any(lock[0] == page for lock in self.node.locks)


REASONS = {
    'waits': lambda asked, page: asked.needs(page) and asked.owns(page) and is_locked(asked.node, page, asked.t, asked.word in ('write', 'insert')),
    'pulls': lambda asked, page: asked.needs(page) and not asked.owns(page) and asked.node.mode in PULLING and page not in asked.node.asked,
    'awaits': lambda asked, page: asked.needs(page) and not asked.owns(page) and asked.node.mode in PULLING and page in asked.node.asked,
    'notyet': lambda asked: asked.runs() and asked.node.mode == 'dinit',
    'active': lambda asked, t: asked.choice[1] == 'finish' and asked.active[:1] == [t],
    'held': lambda asked, page: asked.front == ('pull', page) and asked.scenario.rule == 'held' and asked.owns(page) and asked.is_locked(page),
    'stale': lambda asked, page: asked.front == ('pull', page) and not asked.owns(page),
    'aborted killed': lambda asked: asked.choice[1] == 'kill' and asked.t in asked.active,
    'aborted own': lambda asked: asked.runs() and asked.word == 'abort',
    'aborted badkey': lambda asked: asked.runs() and bool(asked.keys) and asked.keys[-1] > LAST_KEY and asked.keys[0] <= asked.keys[-1],
    'aborted missing': lambda asked: asked.runs() and asked.word == 'write' and not asked.has_row(),
    'aborted duplicate': lambda asked: asked.runs() and asked.word == 'insert' and asked.has_row(),
    'aborted frozen': lambda asked, page: asked.is_full(page) and asked.node.mode != 'normal',
    'aborted nopage': lambda asked: (any(asked.is_full(page) for page, _ in asked.node.pages) and asked.node.mode == 'normal'
                                     and len(asked.node.lows) >= asked.scenario.pages),
    'aborted gone': lambda asked, page: (asked.runs() and not asked.owns(page)
                                         and (asked.needs(page) and asked.node.mode not in PULLING or asked.commits_on(page))),
}


# What can be done from each state

def no_dead_end(run):
    """The migration can be ended: by a kill of each active transaction, and then by takes, or where no message is left by a `finish` or a `push`."""
    return all(is_ended(state, ended(run, state)) for state in run.states)


def ended(run, state):
    """The state after the way out."""
    for t, txn in enumerate(state.txns):
        if txn.status == 'active':
            state = run.after(state, ('C', 'kill', t))
    for _ in range(enough(state)):
        choice = onward(state)
        if not choice:
            break
        state = run.after(state, choice)
    return state


def enough(state):
    """As many choices as there can be: two for each page, one for each message, and ten."""
    return 2 * sum(len(node.pages) for node in state.nodes) + sum(len(link) for link in state.links) + 10


def is_ended(state, later):
    """Whether a migration has ended in a later state: the source is empty, and commits and database are as they were."""
    empty = next((name for name in NODES if node_of(later, name).mode == 'empty' and node_of(later, other(name)).mode == 'normal'), None)
    return (empty is not None and is_nothing_left(later, empty) and not active_at(later, other(empty))
            and all(name == empty for name in NODES if node_of(state, name).mode in SOURCES)
            and later.commits == state.commits and database(later) == database(state))


def gets_on(run):
    """Once the others are killed an active transaction gets on in at most `pages` + 2 rounds: in one it runs once, and then messages are taken."""
    return all(goes_on(run, state, t) for state in run.states for t, txn in enumerate(state.txns) if txn.status == 'active')


def goes_on(run, state, t):
    old = state.txns[t]
    for u, txn in enumerate(state.txns):
        if txn.status == 'active' and u != t:
            state = run.after(state, ('C', 'kill', u))
    for _ in range(run.scenario.pages + 2):
        state = run.after(state, (old.node, 'run', t))
        if state.txns[t].done > old.done or state.txns[t].status == 'aborted' and state.txns[t].why != 'killed':
            return True
        state = with_all_taken(run, state)
    return False


def with_all_taken(run, state):
    """The state after takes, while there is a message and at most as many as the way out has."""
    for _ in range(enough(state)):
        if not any(state.links):
            break
        state = run.after(state, onward(state))
    return state


# What the transactions have seen

def serializable(run):
    """Under `held` the commit order gives the database, and the registers of each committed transaction."""
    return run.scenario.rule == 'loose' or commits_listed(run) and all(run.is_serial_in(state.commits, state) for state in turns(run))


def a_first(run):
    """In version 1 the commits at A, and then those at B, give the database and the registers."""
    return run.scenario.version == 2 or all(run.is_serial_in(tuple(sorted(state.commits, key=lambda commit: state.txns[commit[0]].node)), state)
                                            for state in turns(run))


def turns(run):
    """The states in which commits, database or how transactions stand are not as in the one before."""
    seen = None
    for state in run.states:
        now = state.commits, rows_in(state), [txn.status for txn in state.txns]
        if now != seen:
            yield state
        seen = now


def strictly_serializable(run):
    """The migration order gives database and registers, and what each transaction has seen; it keeps to real time and is stable."""
    return all(run.is_serial_in(order, state) for state, order in zip(run.states, run.orders)) and all(is_strict(run, *part) for part in parts(run))


def parts(run):
    """Each migration order of a run, and after how many choices it is the order at last."""
    orders = run.orders
    return [(order, n) for n, order in enumerate(orders) if n + 1 == len(orders) or orders[n + 1] != order]


def is_strict(run, order, last):
    fronts, views = run.fronts(order), views_of(run, last)
    return (all(ends_by_commit(run, t, rows, done) and all(run.is_on_lone_run(t, rows, txn) for _, txn in views[t]) for (t, done), rows in zip(order, fronts))
            and all(has_places(run, order, fronts, t, views[t]) for t in range(len(views)))
            and all(keeps_order(run, order, n) for n in range(last + 1)))


def views_of(run, last):
    """Of each transaction what it is where it is active after at most so many choices, and after how many."""
    states = list(enumerate(run.states[:last + 1]))
    return [[(n, state.txns[t]) for n, state in states if state.txns[t].status == 'active'] for t in range(len(run.scenario.programs))]


def ends_by_commit(run, t, rows, done):
    """Whether a lone run of so many instructions ends by its commit, as the last of them."""
    over, _, pc, _ = run.alone(t, rows, done - 1)
    return done > 0 and not over and run.scenario.programs[t][pc][0] == 'commit'


def has_places(run, order, fronts, t, views):
    """Whether a transaction has a place in an order by what it has seen after each number of choices."""
    fit, least = set(range(len(fronts))), 0
    for n, txn in views:
        fit = {ahead for ahead in fit if run.is_on_lone_run(t, fronts[ahead], txn)}
        if n == views[0][0]:
            least = max([0] + [place(u, order) + 1 for u, had in enumerate(run.states[max(n - 1, 0)].txns) if had.status == 'committed'])
        if not any(is_place(run, order, fronts, t, n, ahead) for ahead in fit if least <= ahead):
            return False
    return True


def is_place(run, order, fronts, t, n, ahead):
    """Whether a place is before all that have not begun, the last commit before it has been made, and an abort by the program comes there, too."""
    state = run.states[n]
    txn = state.txns[t]
    if ahead > min([len(order)] + [place(u, order) for u, had in enumerate(state.txns) if had.status == 'new']):
        return False
    if ahead and state.txns[order[ahead - 1][0]].status != 'committed':
        return False
    came = run.answer(state, (txn.node, 'run', t))
    _, regs, pc, _ = run.alone(t, fronts[ahead], txn.done)
    return came is None or came[0] not in BY_PROGRAM or run.alone(t, fronts[ahead], txn.done + 1) == (True, regs, pc, fronts[ahead])


def place(t, order):
    """How many commits stand before that of a transaction; where it has none, all."""
    return next((at for at, (u, _) in enumerate(order) if u == t), len(order))


def keeps_order(run, order, n):
    """Whether an order has those that had committed after n choices in the order that they had then, and before those that had not begun."""
    txns = run.states[n].txns
    had = [commit for commit in order if txns[commit[0]].status == 'committed']
    least = min([len(order)] + [place(u, order) for u, txn in enumerate(txns) if txn.status == 'new'])
    return tuple(had) == run.orders[n] and all(place(t, order) < least for t, _ in had)


def active_views(run):
    """An active transaction is on its lone run, and was so before: at a source from the commits before the migration and at the source, elsewhere from all."""
    return all(is_in_view(run, t, views) for t, views in enumerate(views_of(run, len(run.states))))


def is_in_view(run, t, views):
    had = []
    for n, txn in views:
        first, later = run.sorted[n]
        rows = run.fronts(first if node_of(run.states[n], txn.node).mode in SOURCES else first + later)[-1]
        had += [txn] * (had[-1:] != [txn])
        if not all(run.is_on_lone_run(t, rows, was) for was in had):
            return False
    return True


LAWS = {law.__name__: law for law in (
    one_owner, one_source, b_never_sends, lists_in_order, rows_match, one_wireframe, nothing_left, exclusive_alone, holders_active, private_active,
    room_at_commit, locked_here, page_limit, commits_listed, on_its_way, never_stray, still_stays, on_message, a_step_leaves_the_rest, sent_is_said,
    pages_travel, commits_alone, gone_in_dual, commit_number, done_counts, what_is_awaited_was_asked_for, a_begin_acts, a_start_acts, a_refusal_has_its_reason,
    no_dead_end, gets_on, serializable, a_first, strictly_serializable, active_views)}

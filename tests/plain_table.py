"""A plain model of the step table (docs/step-table.md): what a text means, how a scenario opens, and what each choice does in a state.

States are values: two are the same state if and only if they are equal. A choice is an actor, an action and a transaction (none where it takes none)."""

from collections import namedtuple

Scenario = namedtuple('Scenario', 'version cap pages rule rows programs names choices')
State = namedtuple('State', 'nodes links txns commits')
Node = namedtuple('Node', 'mode lows pages asked locks')      # pages: (number, rows); locks: (page, transaction, is it exclusive)
Txn = namedtuple('Txn', 'status node pc regs private done why')

NOBODY = Txn('new', '', 0, (0,) * 8, (), 0, '')    # a transaction that has not begun

NODES = 'AB'
SOURCES = ('normal', 'sinit')
DESTINATIONS = ('dinit', 'ddual', 'dfinish')
LAST_KEY = 65535
MODULUS = 2 ** 32


# What a text means

def read(text):
    """The scenario of a text that is accepted."""
    head, rows, bodies, choices = {}, [], [], []
    for line in text.splitlines():
        words = line.split(';')[0].split()
        if not words or words == ['end']:
            continue
        if words[0] in ('zephyr', 'cap', 'pages', 'rule') and not bodies:
            head[words[0]] = words[1]
        elif words[0] == 'row' and not bodies:
            rows.append((int(words[1]), int(words[2])))
        elif words[0] == 'txn':
            bodies.append((words[1], []))
        elif words[0] in ('A', 'B', 'C'):
            choices.append(words)
        else:
            bodies[-1][1].append(words)
    names = {name: t for t, body in enumerate(bodies) for name in (body[0], str(t))}
    return Scenario(int(head['zephyr']), int(head['cap']), int(head['pages']), head['rule'], tuple(rows),
                    tuple(resolved(lines) for _, lines in bodies), names, [choice for words in choices for choice in choices_of(words, names)])


def choices_of(words, names):
    """The choices of a line."""
    words, times = (words[:-2], int(words[-1])) if words[-2] == 'x' else (words, 1)
    return [(words[0], words[1], names[words[2]] if len(words) > 2 else None)] * times


def resolved(lines):
    """The instructions of a program, its labels replaced."""
    labels, program = {}, []
    for words in lines:
        if words[0].endswith(':'):
            labels[words[0][:-1]] = len(program)
            words = words[1:]
        if words:
            program.append(words)
    return tuple((words[0], *('@%d' % labels[word] if words[0] == 'beq' and word in labels else word for word in words[1:])) for words in program)


def opening(scenario):
    """The state before the first choice."""
    size = (scenario.cap + 1) // 2
    parts = [scenario.rows[i:i + size] for i in range(0, len(scenario.rows), size)] or [()]
    lows = (0,) + tuple(part[0][0] for part in parts[1:])
    here = Node('normal', lows, tuple(enumerate(parts)), frozenset(), frozenset())
    return State((here, Node('empty', (), (), frozenset(), frozenset())), ((), ()), (NOBODY,) * len(scenario.programs), ())


# Parts of a state

def other(node):
    return 'B' if node == 'A' else 'A'


def rows_of(node, page):
    """The rows of a page that a node owns, else none."""
    return next((rows for number, rows in node.pages if number == page), None)


def page_of(node, key):
    """The page of a key, by the wireframe of a node."""
    return max((low, page) for page, low in enumerate(node.lows) if low <= key)[1]


def with_node(state, name, node):
    return state._replace(nodes=(node, state.nodes[1]) if name == 'A' else (state.nodes[0], node))


def with_page(node, page, rows):
    kept = [pair for pair in node.pages if pair[0] != page]
    return node._replace(pages=tuple(sorted(kept + [(page, rows)])))


def without_page(node, page):
    return node._replace(pages=tuple(pair for pair in node.pages if pair[0] != page))


def with_txn(state, t, **changes):
    return state._replace(txns=state.txns[:t] + (state.txns[t]._replace(**changes),) + state.txns[t + 1:])


def sent(state, name, *message):
    """The state with a message at the end of a node's outbound link."""
    at = NODES.index(name)
    links = list(state.links)
    links[at] = links[at] + (message,)
    return state._replace(links=tuple(links))


def taken(state, name):
    """The state without the front of a node's inbound link."""
    at = NODES.index(other(name))
    links = list(state.links)
    links[at] = links[at][1:]
    return state._replace(links=tuple(links))


def node_of(state, name):
    return state.nodes[NODES.index(name)]


def is_missing_some(node):
    return len(node.pages) < len(node.lows)


def database(state):
    """All committed rows, by key."""
    found = {}
    for node in state.nodes:
        for _, rows in node.pages:
            found.update(rows)
    for link in state.links:
        for message in link:
            if message[0] == 'page':
                found.update(message[2])
    return found


# The steps

def step(scenario, state, choice):
    """The outcome of a choice, as the listing has it, and the state after it."""
    actor, action, t = choice
    if actor == 'C':
        return {'start': start, 'begin': begin, 'kill': kill}[action](scenario, state, t)
    if action == 'run':
        return run(scenario, state, actor, t)
    return {'take': take, 'finish': finish, 'push': push}[action](scenario, state, actor)


def start(scenario, state, _):
    modes = [node.mode for node in state.nodes]
    if modes == ['normal', 'empty']:
        source = 'A'
    elif modes == ['empty', 'normal'] and scenario.version == 2:
        source = 'B'
    else:
        return 'badmode', state
    node = node_of(state, source)
    return 'started', sent(with_node(state, source, node._replace(mode='sinit')), source, 'wire', node.lows)


def begin(_, state, t):
    if state.txns[t].status != 'new':
        return 'idle', state
    for modes in SOURCES, DESTINATIONS:
        for name in NODES:
            if node_of(state, name).mode in modes:
                return 'began %s' % name, with_txn(state, t, status='active', node=name)
    return 'idle', state


def kill(_, state, t):
    return aborted(state, t, 'killed') if state.txns[t].status == 'active' else ('idle', state)


def aborted(state, t, why):
    return 'aborted %s' % why, ended(state, t, status='aborted', why=why, private=())


def ended(state, t, **changes):
    """The state in which a transaction has changed so and has no lock any more."""
    name = state.txns[t].node
    node = node_of(state, name)
    state = with_node(state, name, node._replace(locks=frozenset(lock for lock in node.locks if lock[1] != t)))
    return with_txn(state, t, **changes)


def run(scenario, state, name, t):
    txn = state.txns[t]
    if txn.status != 'active':
        return 'idle', state
    if txn.node != name:
        return 'elsewhere', state
    if node_of(state, name).mode == 'dinit':
        return 'notyet', state
    word, *operands = scenario.programs[t][txn.pc]
    values = [int(operand.lstrip('r@')) for operand in operands]
    if word == 'commit':
        return commit(state, t)
    if word == 'abort':
        return aborted(state, t, 'own')
    if word == 'sum':
        return add_up(state, t, *values)
    if word in ('read', 'write', 'insert'):
        return access(scenario, state, t, word, *values)
    return compute(state, t, word, values)


def did(state, t, pc=None, **changes):
    txn = state.txns[t]
    return 'did', with_txn(state, t, pc=txn.pc + 1 if pc is None else pc, done=txn.done + 1, **changes)


def with_register(txn, register, value):
    return txn.regs[:register] + (value % MODULUS,) + txn.regs[register + 1:]


def compute(state, t, word, values):
    """`set`, `add` and `beq`."""
    txn = state.txns[t]
    if word == 'set':
        return did(state, t, regs=with_register(txn, *values))
    first, second = txn.regs[values[0]], txn.regs[values[1]]
    if word == 'add':
        return did(state, t, regs=with_register(txn, values[0], first + second))
    return did(state, t, pc=values[2] if first == second else None)


def commit(state, t):
    txn = state.txns[t]
    node = node_of(state, txn.node)
    pages = sorted({page_of(node, key) for key, _ in txn.private})
    for page in pages:
        if rows_of(node, page) is None:
            return aborted(state, t, 'gone %d' % page)
    for page in pages:
        mine = [(key, value) for key, value in txn.private if page_of(node, key) == page]
        node = with_page(node, page, tuple(sorted({**dict(rows_of(node, page)), **dict(mine)}.items())))
    state = with_node(state, txn.node, node)._replace(commits=state.commits + ((t, txn.done + 1),))
    return 'committed %d' % len(state.commits), ended(state, t, status='committed', done=txn.done + 1, private=())


def absent(state, t, page):
    """The step of a transaction that needs a page which its node does not own."""
    name = state.txns[t].node
    node = node_of(state, name)
    if node.mode not in ('ddual', 'dfinish'):
        return aborted(state, t, 'gone %d' % page)
    if page in node.asked:
        return 'awaits %d' % page, state
    return 'pulls %d' % page, sent(with_node(state, name, node._replace(asked=node.asked | {page})), name, 'pull', page)


def is_locked(node, page, t, exclusively):
    """Whether a lock of another transaction is in the way of a lock on a page."""
    return any(lock[0] == page and lock[1] != t and (exclusively or lock[2]) for lock in node.locks)


def locked(node, page, t, exclusively):
    """A node once a transaction has a lock on a page, which may be one that it had."""
    had = (page, t, True) in node.locks
    return node._replace(locks=node.locks - {(page, t, False)} | {(page, t, exclusively or had)})


def add_up(state, t, first, second):
    """`sum`."""
    txn = state.txns[t]
    low, high = txn.regs[first], txn.regs[second]
    if low > high:
        return did(state, t, regs=with_register(txn, first, 0))
    if high > LAST_KEY:
        return aborted(state, t, 'badkey')
    node = node_of(state, txn.node)
    pages = [page_of(node, low)] + [page for start, page in sorted((start, page) for page, start in enumerate(node.lows)) if low < start <= high]
    for page in pages:
        if rows_of(node, page) is None:
            return absent(state, t, page)
    for page in pages:
        if is_locked(node, page, t, False):
            return 'waits %d' % page, state
    values = dict(txn.private)
    for page in pages:
        node = locked(node, page, t, False)
        values = {**dict(rows_of(node, page)), **values}
    total = sum(value for key, value in values.items() if low <= key <= high)
    return did(with_node(state, txn.node, node), t, regs=with_register(txn, first, total))


def access(scenario, state, t, word, first, second):
    """`read`, `write` and `insert`."""
    txn = state.txns[t]
    key = txn.regs[second if word == 'read' else first]
    if key > LAST_KEY:
        return aborted(state, t, 'badkey')
    node = node_of(state, txn.node)
    page = page_of(node, key)
    rows = rows_of(node, page)
    if rows is None:
        return absent(state, t, page)
    if is_locked(node, page, t, word != 'read'):
        return 'waits %d' % page, state
    state = with_node(state, txn.node, locked(node, page, t, word != 'read'))
    values = {**dict(rows), **dict(txn.private)}
    if word == 'read':
        return did(state, t, regs=with_register(txn, first, values.get(key, 0)))
    if word == 'write' and key not in values:
        return aborted(state, t, 'missing')
    if word == 'insert' and key in values:
        return aborted(state, t, 'duplicate')
    inserted = [mine for mine, _ in txn.private if page_of(node, mine) == page and mine not in dict(rows)]
    if word == 'insert' and len(rows) + len(inserted) >= scenario.cap:
        return full(scenario, state, t, page, [mine for mine, _ in rows] + inserted + [key])
    return did(state, t, private=tuple(sorted({**dict(txn.private), key: txn.regs[second]}.items())))


def full(scenario, state, t, page, keys):
    """The step of an insert into a full page; the transaction has its lock."""
    name = state.txns[t].node
    node = node_of(state, name)
    if node.mode != 'normal':
        return aborted(state, t, 'frozen %d' % page)
    new = len(node.lows)
    if new >= scenario.pages:
        return aborted(state, t, 'nopage')
    boundary = sorted(keys)[(scenario.cap + 1) // 2]
    rows = rows_of(node, page)
    node = with_page(node, page, tuple(row for row in rows if row[0] < boundary))
    node = with_page(node, new, tuple(row for row in rows if row[0] >= boundary))
    node = locked(node._replace(lows=node.lows + (boundary,)), new, t, True)
    return 'split %d %d %d' % (page, new, boundary), with_node(state, name, node)


def take(scenario, state, name):
    link = state.links[NODES.index(other(name))]
    if not link:
        return 'nomessage', state
    node = node_of(state, name)
    kind = link[0][0]
    if kind == 'pull':
        return take_pull(scenario, state, name, link[0][1])
    if kind == 'page':
        return take_page(state, name, *link[0][1:])
    mode = {('wire', 'empty'): 'dinit', ('ready', 'sinit'): 'sdual', ('dual', 'dinit'): 'ddual', ('done', 'sfinish'): 'empty',
            ('finish', 'ddual'): 'dfinish' if is_missing_some(node) else 'normal'}.get((kind, node.mode))
    if not mode:
        return 'stray', state
    lows = {'wire': link[0][-1], 'done': ()}.get(kind, node.lows)
    state = with_node(taken(state, name), name, node._replace(mode=mode, lows=lows))
    answer = {'wire': 'ready', 'ready': 'dual', 'finish': 'done' if mode == 'normal' else None}.get(kind)
    return 'got %s' % kind, sent(state, name, answer) if answer else state


def take_pull(scenario, state, name, page):
    node = node_of(state, name)
    if node.mode not in ('sdual', 'sfinish'):
        return 'stray', state
    rows = rows_of(node, page)
    if rows is None:
        return 'stale %d' % page, taken(state, name)
    if scenario.rule == 'held' and any(lock[0] == page for lock in node.locks):
        return 'held %d' % page, state
    return 'got pull %d' % page, sent(with_node(taken(state, name), name, without_page(node, page)), name, 'page', page, rows)


def take_page(state, name, page, rows):
    node = node_of(state, name)
    if node.mode not in ('ddual', 'dfinish'):
        return 'stray', state
    node = with_page(node, page, rows)._replace(asked=node.asked - {page})
    is_last = node.mode == 'dfinish' and not is_missing_some(node)
    state = with_node(taken(state, name), name, node._replace(mode='normal' if is_last else node.mode))
    return 'got page %d' % page, sent(state, name, 'done') if is_last else state


def finish(_, state, name):
    node = node_of(state, name)
    if node.mode != 'sdual':
        return 'badmode', state
    for t, txn in enumerate(state.txns):
        if txn.status == 'active' and txn.node == name:
            return 'active %d' % t, state
    return 'finishing', sent(with_node(state, name, node._replace(mode='sfinish')), name, 'finish')


def push(_, state, name):
    node = node_of(state, name)
    if node.mode != 'sfinish':
        return 'badmode', state
    if not node.pages:
        return 'nopush', state
    page, rows = node.pages[0]
    return 'pushed %d' % page, sent(with_node(state, name, without_page(node, page)), name, 'page', page, rows)

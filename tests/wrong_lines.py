"""Wrong lines of the step table, as docs/needed.md lists them: of each line what is wrong, and texts of tests/plain_table.py, each with the one that is put in
its place."""

# What a wrong line may call.
HELPERS = '''

def sent_first(state, name, *message):
    """The state with a message at the front of a node's outbound link."""
    at = NODES.index(name)
    links = list(state.links)
    links[at] = (message,) + links[at]
    return state._replace(links=tuple(links))


def installed(state, t):
    """The state with the private rows of a transaction on their pages."""
    txn = state.txns[t]
    node = node_of(state, txn.node)
    for key, value in txn.private:
        page = page_of(node, key)
        if rows_of(node, page) is not None:
            node = with_page(node, page, tuple(sorted({**dict(rows_of(node, page)), key: value}.items())))
    return with_node(state, txn.node, node)


def without_locks(state, t):
    """The state in which nobody has a lock at the node of a transaction."""
    name = state.txns[t].node
    return with_node(state, name, node_of(state, name)._replace(locks=frozenset()))


def is_active_at(state, name):
    """Whether a transaction is active at a node."""
    return any(txn.status == 'active' and txn.node == name for txn in state.txns)
'''

FIRST_START = "if modes == ['normal', 'empty']:"
STARTED = "sent(with_node(state, source, node._replace(mode='sinit')), source, 'wire', node.lows)"
BEGUN = "with_txn(state, t, status='active', node=name)"
SOURCES = "SOURCES = ('normal', 'sinit')"
DESTINATIONS = "DESTINATIONS = ('dinit', 'ddual', 'dfinish')"
CAN_BE_KILLED = "if state.txns[t].status == 'active' else ('idle', state)"
ABORTED = "ended(state, t, status='aborted', why=why, private=())"
IS_OVER = "if txn.status != 'active':\n        return 'idle'"
CANNOT_RUN = "if node_of(state, name).mode == 'dinit':"
SET = 'return did(state, t, regs=with_register(txn, *values))'
OWN = "return aborted(state, t, 'own')"
COMMIT_GONE = "    for page in pages:\n        if rows_of(node, page) is None:\n            return aborted(state, t, 'gone %d' % page)\n"
INSTALLED = 'node = with_page(node, page, tuple(sorted({**dict(rows_of(node, page)), **dict(mine)}.items())))'
COMMITTED = "ended(state, t, status='committed', done=txn.done + 1, private=())"
LISTED = 'commits=state.commits + ((t, txn.done + 1),)'
BAD_KEY = "    if key > LAST_KEY:\n        return aborted(state, t, 'badkey')\n"
GONE = "    if node.mode not in ('ddual', 'dfinish'):\n        return aborted(state, t, 'gone %d' % page)\n"
AWAITED = "    if page in node.asked:\n        return 'awaits %d' % page, state\n"
PULLED = "sent(with_node(state, name, node._replace(asked=node.asked | {page})), name, 'pull', page)"
ABSENT = "    if rows is None:\n        return absent(state, t, page)\n    if is_locked(node, page, t, word"
IS_LOCKED = "is_locked(node, page, t, word != 'read')"
WAITED = "    if is_locked(node, page, t, word != 'read'):\n        return 'waits %d' % page, state\n"
LOCKED = "    state = with_node(state, txn.node, locked(node, page, t, word != 'read'))\n"
KINDS = "state, txn.node, locked(node, page, t, word != 'read')"
ADDED = '    had = (page, t, True) in node.locks\n'
LOCKS = "return node._replace(locks=node.locks - {(page, t, False)} | {(page, t, exclusively or had)})"
READ = 'values.get(key, 0)'
MISSING = "    if word == 'write' and key not in values:\n        return aborted(state, t, 'missing')\n"
WRITTEN = 'return did(state, t, private=tuple(sorted('
DUPLICATE = "    if word == 'insert' and key in values:\n        return aborted(state, t, 'duplicate')\n"
ROOM = "    if word == 'insert' and len(rows) + len(inserted) >= scenario.cap:\n"
INSERTED = 'if page_of(node, mine) == page and mine not in dict(rows)]'
FROZEN = "    if node.mode != 'normal':\n        return aborted(state, t, 'frozen %d' % page)\n"
NO_PAGE = "    if new >= scenario.pages:\n        return aborted(state, t, 'nopage')\n"
BOUNDARY = 'boundary = sorted(keys)[(scenario.cap + 1) // 2]'
NEW_LOCK = 'node = locked(node._replace(lows=node.lows + (boundary,)), new, t, True)'
SPLIT = '(page, new, boundary), with_node(state, name, node)'
RANGE_ABSENT = '    for page in pages:\n        if rows_of(node, page) is None:\n            return absent'
RANGE_WAITS = "    for page in pages:\n        if is_locked(node, page, t, False):\n            return 'waits %d' % page, state\n"
RANGE_LOCKED = '        node = locked(node, page, t, False)\n'
TAKEN = 'with_node(taken(state, name), name, node._replace(mode=mode, lows=lows))'
ANSWERED = '    state = ' + TAKEN
ANSWERS = "'finish': 'done' if mode == 'normal' else None}"
AT_FINISH = "'dfinish' if is_missing_some(node) else 'normal'"
LOWS = "{'wire': link[0][-1], 'done': ()}"
STALE = "    if rows is None:\n        return 'stale %d' % page, taken(state, name)\n"
STALE_TAKEN = "return 'stale %d' % page, taken(state, name)"
HELD = "scenario.rule == 'held' and any(lock[0] == page for lock in node.locks)"
HELD_STAYS = "return 'held %d' % page, state"
HANDED = "return 'got pull %d' % page, sent(with_node(taken(state, name), name, without_page(node, page)), name, 'page', page, rows)"
ARRIVED = 'with_page(node, page, rows)._replace(asked=node.asked - {page})'
IS_LAST = "is_last = node.mode == 'dfinish' and not is_missing_some(node)"
LAST_MODE = "node._replace(mode='normal' if is_last else node.mode)"
IS_ACTIVE = "if txn.status == 'active' and txn.node == name:\n            return 'active %d' % t, state\n"
FINISHING = "sent(with_node(state, name, node._replace(mode='sfinish')), name, 'finish')"
PUSHED = "sent(with_node(state, name, without_page(node, page)), name, 'page', page, rows)\n"
IS_PUSHING = "if node.mode != 'sfinish':"

# The wrong lines that a law refuses: of each line of the table what is wrong, and old and new texts by turns.
WRONG = {
    'C start': {
        'A need not be `normal`': (FIRST_START, "if modes[1] == 'empty':"),
        'B need not be `empty`': (FIRST_START, "if modes[0] == 'normal':"),
        'From B in version 1, too': (' and scenario.version == 2', ''),
        'From B never': ('and scenario.version == 2', 'and False'),
        'Only while nothing is active': (FIRST_START, "if is_active_at(state, 'A') or is_active_at(state, 'B'):\n        return 'badmode', state\n    " + FIRST_START),
        'Mode stays `normal`': ("node._replace(mode='sinit')", 'node'),
        'Mode `sdual` at once': ("node._replace(mode='sinit')", "node._replace(mode='sdual')"),
        '`wire` is not sent': (STARTED, "with_node(state, source, node._replace(mode='sinit'))"),
        'Wire lacks the last low key': ("'wire', node.lows)", "'wire', node.lows[:-1])"),
    },
    'C begin': {
        'Begins again after its end': ("if state.txns[t].status != 'new':", "if state.txns[t].status == 'active':",
                                       BEGUN, "with_txn(state, t, **NOBODY._replace(status='active', node=name)._asdict())"),
        '`sdual` is a home, too': (SOURCES, "SOURCES = ('normal', 'sinit', 'sdual')"),
        '`sinit` is no home': (SOURCES, "SOURCES = ('normal',)"),
        '`normal` is no home': (SOURCES, "SOURCES = ('sinit',)"),
        '`dinit` is no home': (DESTINATIONS, "DESTINATIONS = ('ddual', 'dfinish')"),
        '`ddual` is no home': (DESTINATIONS, "DESTINATIONS = ('dinit', 'dfinish')"),
        '`dfinish` is no home': (DESTINATIONS, "DESTINATIONS = ('dinit', 'ddual')"),
        'At the other node': (BEGUN, "with_txn(state, t, status='active', node=other(name))"),
        'The registers are 1': (BEGUN, "with_txn(state, t, status='active', node=name, regs=(1,) * 8)"),
    },
    'C kill': {
        'Never': (CAN_BE_KILLED, "if False else ('idle', state)"),
        'Not where it has locks': (CAN_BE_KILLED, "if state.txns[t].status == 'active' and not any(lock[1] == t for node in state.nodes for lock in node.locks)"
                                   " else ('idle', state)"),
        'A committed one, too': (CAN_BE_KILLED, "if state.txns[t].status in ('active', 'committed') else ('idle', state)"),
        'Its reason is `own`': ("aborted(state, t, 'killed')", "aborted(state, t, 'own')"),
    },
    'an abort': {
        'Locks kept': (ABORTED, "with_txn(state, t, status='aborted', why=why, private=())"),
        'Locks of all dropped': (ABORTED, "ended(without_locks(state, t), t, status='aborted', why=why, private=())"),
        'Private rows kept': (ABORTED, "ended(state, t, status='aborted', why=why)"),
        'Stays active': (ABORTED, "ended(state, t, why=why, private=())"),
        'Private rows installed': (ABORTED, "ended(installed(state, t), t, status='aborted', why=why, private=())"),
        'Counts as done': (ABORTED, "ended(state, t, status='aborted', why=why, private=(), done=state.txns[t].done + 1)"),
        'Registers cleared': (ABORTED, "ended(state, t, status='aborted', why=why, private=(), regs=(0,) * 8)"),
    },
    'run: `idle`': {
        'Runs after its end': (IS_OVER, "if txn.status not in ('active', 'committed'):\n        return 'idle'"),
        'Runs after its abort': (IS_OVER, "if txn.status not in ('active', 'aborted'):\n        return 'idle'"),
    },
    'run: `elsewhere`': {
        'Dropped': ("    if txn.node != name:\n        return 'elsewhere', state\n", '    state = with_txn(state, t, node=name)\n    txn = state.txns[t]\n'),
    },
    'run: `notyet`': {
        'Dropped': (CANNOT_RUN, 'if False:'),
        '`ddual`, too': (CANNOT_RUN, "if node_of(state, name).mode in ('dinit', 'ddual'):"),
        '`dfinish`, too': (CANNOT_RUN, "if node_of(state, name).mode in ('dinit', 'dfinish'):"),
        '`sinit`, too': (CANNOT_RUN, "if node_of(state, name).mode in ('dinit', 'sinit'):"),
        '`sdual`, too': (CANNOT_RUN, "if node_of(state, name).mode in ('dinit', 'sdual'):"),
    },
    'run: `set`': {
        'The program counter stays': (SET, 'return did(state, t, pc=txn.pc, regs=with_register(txn, *values))'),
        'Not counted as done': (SET, "return 'did', with_txn(state, t, pc=txn.pc + 1, regs=with_register(txn, *values))"),
    },
    'run: `beq`': {
        'Negated': ('values[2] if first == second else None', 'values[2] if first != second else None'),
    },
    'run: `abort`': {
        'Its outcome is `killed`': (OWN, "return aborted(state, t, 'killed')"),
        'Goes on': (OWN, 'return did(state, t, pc=0)'),
    },
    'run: commit, gone': {
        'Dropped, and what is gone is lost': (COMMIT_GONE, '    pages = [page for page in pages if rows_of(node, page) is not None]\n'),
        'Waits instead': (COMMIT_GONE, COMMIT_GONE.replace("aborted(state, t, 'gone %d' % page)", "'waits %d' % page, state")),
        'A locked page that is gone counts, too': (COMMIT_GONE, '    pages = sorted({*pages, *(lock[0] for lock in node.locks if lock[1] == t)})\n' + COMMIT_GONE),
        'Commits nothing instead': (COMMIT_GONE, '    if any(rows_of(node, page) is None for page in pages):\n        pages = []\n'),
    },
    'run: `commit`': {
        'Rows not installed': (INSTALLED, 'pass'),
        'New rows not installed': (INSTALLED, 'node = with_page(node, page, tuple((key, dict(mine).get(key, value)) for key, value in rows_of(node, page)))'),
        'Old row kept beside': (INSTALLED, 'node = with_page(node, page, tuple(sorted(rows_of(node, page) + tuple(mine))))'),
        'Private rows not cleared': (COMMITTED, "ended(state, t, status='committed', done=txn.done + 1)"),
        'Locks kept': (COMMITTED, "with_txn(state, t, status='committed', done=txn.done + 1, private=())"),
        'Locks of all dropped': (COMMITTED, "ended(without_locks(state, t), t, status='committed', done=txn.done + 1, private=())"),
        'Shared locks kept': (COMMITTED, "with_txn(with_node(state, txn.node, node._replace(locks=frozenset(lock for lock in node.locks if lock[1:] != (t, True)))),"
                                         " t, status='committed', done=txn.done + 1, private=())"),
        'Stays active': (COMMITTED, 'ended(state, t, done=txn.done + 1, private=())'),
        'Not counted as done': (COMMITTED, "ended(state, t, status='committed', private=())"),
        'Commits are numbered from 0': ("'committed %d' % len(state.commits)", "'committed %d' % (len(state.commits) - 1)"),
        'Put in front of the commit list': (LISTED, 'commits=((t, txn.done + 1),) + state.commits'),
        'Not in the commit list where it wrote nothing': (LISTED, 'commits=state.commits + ((t, txn.done + 1),) * bool(txn.private)'),
    },
    'run: `badkey`': {
        'Dropped': (BAD_KEY, ''),
        '65535, too': (BAD_KEY, BAD_KEY.replace('>', '>=')),
        'Its reason is `missing`': (BAD_KEY, BAD_KEY.replace('badkey', 'missing')),
    },
    'run: `pulls`': {
        'Not in `dfinish` (`gone`)': (GONE, GONE.replace(", 'dfinish'", ',')),
        'Not in `dfinish` (`awaits`)': (AWAITED, AWAITED.replace('asked:', "asked or node.mode == 'dfinish':")),
        'Not in `ddual` (`gone`)': (GONE, GONE.replace("'ddual', 'dfinish'", "'dfinish',")),
        'Not in `ddual` (`awaits`)': (AWAITED, AWAITED.replace('asked:', "asked or node.mode == 'ddual':")),
        '`sdual` pulls, too': (GONE, GONE.replace("'ddual'", "'sdual', 'ddual'")),
        'The page is not noted as asked for': (PULLED, "sent(state, name, 'pull', page)"),
        'Pull not sent': (PULLED, 'with_node(state, name, node._replace(asked=node.asked | {page}))'),
        'Pull names the next page': (PULLED, PULLED.replace("'pull', page", "'pull', page + 1")),
        'Pull put in front of the link': (PULLED, PULLED.replace('sent(', 'sent_first(')),
        'One at a time: where any page is asked for it awaits': (AWAITED, AWAITED.replace('page in node', 'node')),
    },
    'run: `awaits`': {
        'Asks again each time': (AWAITED, ''),
        'Aborts as `gone`': (AWAITED, AWAITED.replace("'awaits %d' % page, state", "aborted(state, t, 'gone %d' % page)")),
    },
    'run: `gone`': {
        'Waits instead': (GONE, GONE.replace("aborted(state, t, 'gone %d' % page)", "'waits %d' % page, state")),
        'Awaits instead': (GONE, GONE.replace("aborted(state, t, 'gone %d' % page)", "'awaits %d' % page, state")),
        'Names page 0': (GONE, GONE.replace("'gone %d' % page", "'gone 0'")),
        'The page counts as empty': (ABSENT, "    if rows is None and node.mode in ('ddual', 'dfinish'):\n        return absent(state, t, page)\n"
                                             '    rows = rows or ()\n    if is_locked(node, page, t, word'),
    },
    'run: `waits`': {
        'Dropped': (WAITED, ''),
        'Both shared wait, too': (WAITED, WAITED.replace(IS_LOCKED, 'is_locked(node, page, t, True)')),
        'One shared is enough': (WAITED, WAITED.replace(IS_LOCKED, "word != 'read' and is_locked(node, page, t, False)")),
        'Read does not wait': (WAITED, WAITED.replace(IS_LOCKED, "word != 'read' and is_locked(node, page, t, True)")),
        'For its own lock, too': (WAITED, WAITED.replace(IS_LOCKED, "is_locked(node, page, None, word != 'read')")),
        'For its own exclusive lock, too': (WAITED, WAITED.replace(IS_LOCKED, IS_LOCKED + ' or (page, t, True) in node.locks')),
        'For locks on any page': (WAITED, WAITED.replace(IS_LOCKED, "any(is_locked(node, any_page, t, word != 'read') for any_page in range(len(node.lows)))")),
        'Aborts instead': (WAITED, WAITED.replace("'waits %d' % page, state", "aborted(state, t, 'gone %d' % page)")),
        'Above `pulls`: the lock is taken before the page is here': ("    if rows is None:\n        return absent(state, t, page)\n" + WAITED + LOCKED,
                                                                      WAITED + LOCKED + '    if rows is None:\n        return absent(state, t, page)\n'),
    },
    'run: the lock is taken': {
        'Not taken': (LOCKED, ''),
        'Read takes none': (LOCKED, "    if word != 'read':\n    " + LOCKED),
        'Insert takes none': (LOCKED, "    if word != 'insert':\n    " + LOCKED),
        'Read takes exclusive': (WAITED + LOCKED, (WAITED + LOCKED).replace("word != 'read'", 'True')),
        'Write takes shared': (KINDS, "state, txn.node, locked(node, page, t, word == 'insert')"),
        'Insert takes shared': (KINDS, "state, txn.node, locked(node, page, t, word == 'write')"),
        'Own shared is not raised': (ADDED, '    if (page, t, False) in node.locks:\n        return node\n' + ADDED),
        'Own exclusive is lowered by a read': (LOCKS, 'return node._replace(locks=node.locks - {(page, t, False), (page, t, had)} | {(page, t, exclusively)})'),
        'Taken in `normal` alone': (LOCKED, "    if node.mode == 'normal':\n    " + LOCKED),
        'An absent key is not locked by a read': (LOCKED, "    if word != 'read' or key in dict(rows):\n    " + LOCKED),
        'Dropped after a read': ('return did(state, t, regs=with_register(txn, first, values.get(key, 0)))',
                                 'return did(with_node(state, txn.node, node), t, regs=with_register(txn, first, values.get(key, 0)))'),
    },
    'run: `read`': {
        'Committed before private': (READ, '{**values, **dict(rows)}.get(key, 0)'),
        'Register stays where there is no row': (READ, 'values.get(key, txn.regs[first])'),
        "Sees another's private row": (READ, 'next((row[1] for one in state.txns for row in one.private if row[0] == key), values.get(key, 0))'),
    },
    'run: `missing`': {
        'Dropped': (MISSING, ''),
        'Private does not count': (MISSING, MISSING.replace('values', 'dict(rows)')),
        'Its reason is `duplicate`': (MISSING, MISSING.replace("'missing'", "'duplicate'")),
    },
    'run: `write`': {
        'Row written at once': (WRITTEN, "if word == 'write' and key in dict(rows):\n        rows = tuple(sorted({**dict(rows), key: txn.regs[second]}.items()))\n"
                                         '        state = with_node(state, txn.node, with_page(node_of(state, txn.node), page, rows))\n    ' + WRITTEN),
        'The program counter stays': (WRITTEN, WRITTEN.replace('t, ', "t, pc=txn.pc if word == 'write' else None, ")),
    },
    'run: `duplicate`': {
        'Dropped': (DUPLICATE, ''),
        'Private does not count': (DUPLICATE, DUPLICATE.replace('values', 'dict(rows)')),
        'Committed does not count': (DUPLICATE, DUPLICATE.replace('values', 'dict(txn.private)')),
    },
    'run: insert, room': {
        'One row too many': (ROOM, ROOM.replace('>=', '>')),
        'Private inserts not counted': (ROOM, ROOM.replace(' + len(inserted)', '')),
        'Private inserts of other pages counted, too': (INSERTED, 'if not any(mine in dict(others) for _, others in node.pages)]'),
        'Private updates counted, too': (INSERTED, 'if page_of(node, mine) == page]'),
        'One row too few': (ROOM, ROOM.replace('cap', 'cap - 1')),
    },
    'run: `frozen`': {
        'Dropped': (FROZEN, ''),
        'Not in `sinit`': (FROZEN, FROZEN.replace("!= 'normal'", "not in ('normal', 'sinit')")),
        'Not in `sdual`': (FROZEN, FROZEN.replace("!= 'normal'", "not in ('normal', 'sdual')")),
        'Not in `ddual`': (FROZEN, FROZEN.replace("!= 'normal'", "not in ('normal', 'ddual')")),
        'Not in `dfinish`': (FROZEN, FROZEN.replace("!= 'normal'", "not in ('normal', 'dfinish')")),
        'In `normal`, too (never a split)': (FROZEN, FROZEN.replace("node.mode != 'normal'", 'True')),
        '`normal` while a message is on its way, too': (FROZEN, FROZEN.replace("!= 'normal'", "!= 'normal' or any(state.links)")),
        'Waits instead': (FROZEN, FROZEN.replace("aborted(state, t, 'frozen %d' % page)", "'waits %d' % page, state")),
        'Above the room: any insert during a migration': (ROOM, FROZEN.replace('if', "if word == 'insert' and") + ROOM),
        'Below `nopage`': (FROZEN + '    new = len(node.lows)\n' + NO_PAGE, '    new = len(node.lows)\n' + NO_PAGE + FROZEN),
    },
    'run: `nopage`': {
        'Dropped': (NO_PAGE, ''),
        'One page too early': (NO_PAGE, NO_PAGE.replace('new >=', 'new + 1 >=')),
    },
    'run: `split`': {
        'Boundary is the least key': (BOUNDARY, 'boundary = min(keys)'),
        'Row at the boundary stays': ('if row[0] < boundary', 'if row[0] <= boundary', 'if row[0] >= boundary', 'if row[0] > boundary'),
        'Rows copied': ('tuple(row for row in rows if row[0] < boundary)', 'rows'),
        'The new page is not locked': (NEW_LOCK, 'node = node._replace(lows=node.lows + (boundary,))'),
        'The new page is locked shared': (NEW_LOCK, NEW_LOCK.replace('True', 'False')),
        'The new page is locked only where rows moved': (NEW_LOCK, 'node = node._replace(lows=node.lows + (boundary,))\n'
                                                                   '    node = locked(node, new, t, True) if rows_of(node, new) else node'),
        'The lock on the old page is dropped': (NEW_LOCK, NEW_LOCK + '\n    node = node._replace(locks=node.locks - {(page, t, True)})'),
        'The insert is not made again': (SPLIT, '(page, new, boundary), with_txn(with_node(state, name, node), t, pc=state.txns[t].pc + 1)'),
        'Counts as done': (SPLIT, '(page, new, boundary), with_txn(with_node(state, name, node), t, done=state.txns[t].done + 1)'),
    },
    'run: `sum`': {
        'Takes no locks': (RANGE_LOCKED, ''),
        'A page without rows is not locked': (RANGE_LOCKED, '        node = locked(node, page, t, False) if rows_of(node, page) else node\n'),
        'Waits for the first page alone': (RANGE_WAITS, RANGE_WAITS.replace('in pages', 'in pages[:1]')),
        'Own private rows not seen': ('values = dict(txn.private)', 'values = {}'),
        'Private updates counted twice': ('    total =', '    rows = {row[0] for page in pages for row in rows_of(node, page)}\n    total =',
                                          'sum(value for', 'sum(value * (1 + (key in rows and key in dict(txn.private))) for'),
        'A page that is gone counts as empty': (RANGE_ABSENT, "    if node.mode not in ('ddual', 'dfinish'):\n"
                                                              '        pages = [page for page in pages if rows_of(node, page) is not None]\n' + RANGE_ABSENT),
        'The first page is left out': ('pages = [page_of(node, low)] + [page', 'pages = [page'),
        'Locks as it goes, and keeps the locks where it waits': (RANGE_WAITS, RANGE_WAITS.replace(', state', ', with_node(state, txn.node, node)') + RANGE_LOCKED),
    },
    'take: `wire`': {
        'Mode stays `empty`': ("('wire', 'empty'): 'dinit'", "('wire', 'empty'): 'empty'"),
        '`ddual` at once': ("('wire', 'empty'): 'dinit'", "('wire', 'empty'): 'ddual'"),
        'Wireframe not kept': (LOWS, "{'done': ()}"),
        '`ready` is not sent': ("'wire': 'ready', ", ''),
        'Message stays': (TAKEN, TAKEN.replace('taken(state, name)', "state if kind == 'wire' else taken(state, name)")),
    },
    'take: `ready`': {
        'Mode stays `sinit`': ("('ready', 'sinit'): 'sdual'", "('ready', 'sinit'): 'sinit'"),
        '`sfinish` at once': ("('ready', 'sinit'): 'sdual'", "('ready', 'sinit'): 'sfinish'"),
        '`dual` is not sent': ("'ready': 'dual', ", ''),
        'Only while nothing is active at the node': ("('ready', 'sinit'): 'sdual'", "('ready', 'sinit'): None if is_active_at(state, name) else 'sdual'"),
    },
    'take: `dual`': {
        'Mode stays `dinit`': ("('dual', 'dinit'): 'ddual'", "('dual', 'dinit'): 'dinit'"),
        '`dfinish` at once': ("('dual', 'dinit'): 'ddual'", "('dual', 'dinit'): 'dfinish'"),
        '`normal` at once': ("('dual', 'dinit'): 'ddual'", "('dual', 'dinit'): 'normal'"),
    },
    'take: `stale`': {
        'An empty page is sent': (STALE_TAKEN, "return 'stale %d' % page, sent(taken(state, name), name, 'page', page, ())"),
        'Message stays': (STALE_TAKEN, "return 'stale %d' % page, state"),
        'In `sfinish` always': (STALE, STALE.replace('None:', "None or node.mode == 'sfinish':")),
        'A locked page, too': (STALE, STALE.replace('None:', 'None or any(lock[0] == page for lock in node.locks):')),
        'Always: no page is pulled': (STALE, STALE.replace('rows is None', 'True')),
        '`stray` instead': (STALE_TAKEN, "return 'stray', taken(state, name)"),
    },
    'take: `held`': {
        'Never': (HELD, 'False'),
        'Under `loose`, too': (HELD, 'any(lock[0] == page for lock in node.locks)'),
        'Under `loose` instead': (HELD, HELD.replace("'held'", "'loose'")),
        'Message taken': (HELD_STAYS, "return 'held %d' % page, taken(state, name)"),
        'Exclusive locks alone': (HELD, HELD.replace('lock[0] == page', 'lock[0] == page and lock[2]')),
        'Shared locks alone': (HELD, HELD.replace('lock[0] == page', 'lock[0] == page and not lock[2]')),
        'Locks on any page': (HELD, "scenario.rule == 'held' and node.locks"),
        'While anyone is active at the node, even without a lock': (HELD, "scenario.rule == 'held' and is_active_at(state, name)"),
        'Always under `held`: pages leave by push alone': (HELD, "scenario.rule == 'held'"),
        'Message put behind the others': (HELD_STAYS, "return 'held %d' % page, sent(taken(state, name), other(name), 'pull', page)"),
    },
    'take: `pull`': {
        'Not known in `sfinish`': ("if node.mode not in ('sdual', 'sfinish'):", "if node.mode != 'sdual':"),
        'Page stays, too': (HANDED, "return 'got pull %d' % page, sent(taken(state, name), name, 'page', page, rows)"),
        'Page is lost': (HANDED, "return 'got pull %d' % page, with_node(taken(state, name), name, without_page(node, page))"),
        'Rows are lost': (HANDED, HANDED.replace('rows', '()')),
        'Page put in front of the link': (HANDED, HANDED.replace('sent(', 'sent_first(')),
        'The lowest page leaves instead': (HANDED, 'page, rows = node.pages[0]\n    ' + HANDED),
        'Who has a lock on the page is aborted': (HANDED, 'for t in sorted({lock[1] for lock in node.locks if lock[0] == page}):\n'
                                                          "        state = aborted(state, t, 'killed')[1]\n    node = node_of(state, name)\n    " + HANDED),
    },
    'take: `page`': {
        'Page not kept': (ARRIVED, 'node._replace(asked=node.asked - {page})'),
        'The page is still asked for': (ARRIVED, 'with_page(node, page, rows)'),
        'All pages are no longer asked for': (ARRIVED, 'with_page(node, page, rows)._replace(asked=frozenset())'),
        'Message stays': ('with_node(taken(state, name), name, node._replace(mode=\'normal\'', "with_node(state, name, node._replace(mode='normal'"),
        'Not known in `ddual`': ("if node.mode not in ('ddual', 'dfinish'):\n        return 'stray'", "if node.mode != 'dfinish':\n        return 'stray'"),
        'In `ddual` with all pages there: `normal`, `done`': (IS_LAST, 'is_last = not is_missing_some(node)'),
    },
    'take: page (last)': {
        '`normal` with pages missing': (IS_LAST, "is_last = node.mode == 'dfinish'"),
        'Never `normal`': (IS_LAST, 'is_last = False'),
        'Mode stays': (LAST_MODE, 'node'),
        '`done` is not sent': ("sent(state, name, 'done') if is_last else state", 'state'),
    },
    'take: `finish`': {
        'All there: `dfinish`': (AT_FINISH, "'dfinish'"),
        '`normal` with pages missing': (AT_FINISH, "'normal'"),
        'All there: `done` is not sent': (', ' + ANSWERS, '}'),
        'All there: mode stays': (AT_FINISH, "'dfinish' if is_missing_some(node) else 'ddual'", ANSWERS, ANSWERS.replace('normal', 'ddual')),
        'Missing: mode stays `ddual`': (AT_FINISH, "'ddual' if is_missing_some(node) else 'normal'"),
        'Missing: all missing pages are asked for': (ANSWERED, "    if mode == 'dfinish':\n"
                                                     '        node = node._replace(asked=frozenset(range(len(lows))) - {page for page, _ in node.pages})\n' + ANSWERED),
    },
    'take: `done`': {
        'Mode stays `sfinish`': ("('done', 'sfinish'): 'empty'", "('done', 'sfinish'): 'sfinish'"),
        'Wireframe kept': (LOWS, "{'wire': link[0][-1]}"),
        '`normal` instead': ("('done', 'sfinish'): 'empty'", "('done', 'sfinish'): 'normal'"),
    },
    '`n finish`': {
        'Active is not asked': (IS_ACTIVE, IS_ACTIVE.replace("txn.status == 'active' and txn.node == name", 'False')),
        'Who is at the other node counts, too': (IS_ACTIVE, IS_ACTIVE.replace(' and txn.node == name', '')),
        'Who has no lock does not count': (IS_ACTIVE, IS_ACTIVE.replace('== name', '== name and any(lock[1] == t for lock in node.locks)')),
        'The highest active is named': ('for t, txn in enumerate(state.txns):\n        ' + IS_ACTIVE,
                                        'for t, txn in reversed(list(enumerate(state.txns))):\n        ' + IS_ACTIVE),
        'In `sinit`, too': ("if node.mode != 'sdual':", "if node.mode not in ('sinit', 'sdual'):"),
        'Mode stays': (FINISHING, "sent(state, name, 'finish')"),
        '`finish` is not sent': (FINISHING, "with_node(state, name, node._replace(mode='sfinish'))"),
        'Only when all pages have left': ("    return 'finishing', ", "    if node.pages:\n        return 'badmode', state\n    return 'finishing', "),
        'Who is active is killed': (IS_ACTIVE, "if txn.status == 'active' and txn.node == name:\n            state = aborted(state, t, 'killed')[1]\n"
                                                '    node = node_of(state, name)\n'),
    },
    '`n push`': {
        'In `sdual`, too': (IS_PUSHING, "if node.mode not in ('sdual', 'sfinish'):"),
        'Never': ('if not node.pages:', 'if True:'),
        'Page stays, too': (PUSHED, "sent(state, name, 'page', page, rows)\n"),
        'Page is lost': (PUSHED, 'with_node(state, name, without_page(node, page))\n'),
        'Rows are lost': (PUSHED, PUSHED.replace('rows', '()')),
        'The last page is kept': ('if not node.pages:', 'if len(node.pages) < 2:'),
        'The last one empties the node': ('page, rows = node.pages[0]\n', 'page, rows = node.pages[0]\n'
                                                                            "    node = node if node.pages[1:] else node._replace(mode='empty')\n"),
    },
}

# Those that no law refuses.
HARMLESS = {
    'C begin': {
        'The two lines exchanged': ('for modes in SOURCES, DESTINATIONS:', 'for modes in DESTINATIONS, SOURCES:'),
        'B before A': ('for name in NODES:\n            if node_of(state, name).mode in', 'for name in NODES[::-1]:\n            if node_of(state, name).mode in'),
    },
    'run: `notyet`': {
        'Below set, add, beq, abort, commit': (CANNOT_RUN, "if node_of(state, name).mode == 'dinit'"
                                                            " and scenario.programs[t][txn.pc][0] in ('sum', 'read', 'write', 'insert'):"),
    },
    'run: commit, gone': {
        'The highest page': (COMMIT_GONE, COMMIT_GONE.replace('in pages', 'in pages[::-1]')),
    },
    'run: `split`': {
        'Boundary at cap / 2': (BOUNDARY, 'boundary = sorted(keys)[scenario.cap // 2]'),
        'Boundary is the greatest key': (BOUNDARY, 'boundary = max(keys)'),
        'Boundary without the new key': (BOUNDARY, BOUNDARY.replace('keys', 'keys[:-1]')),
    },
    'run: `sum`': {
        'Highest page first': (RANGE_ABSENT, RANGE_ABSENT.replace('in pages', 'in pages[::-1]')),
    },
    'take: `pull`': {
        'Locks on the page are dropped': (HANDED, 'node = node._replace(locks=frozenset(lock for lock in node.locks if lock[0] != page))\n    ' + HANDED),
    },
    'take: other': {
        'Message taken': ("if not mode:\n        return 'stray', state", "if not mode:\n        return 'stray', taken(state, name)"),
    },
    '`n push`': {
        'The highest page': ('page, rows = node.pages[0]', 'page, rows = node.pages[-1]'),
    },
}

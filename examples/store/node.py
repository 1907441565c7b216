"""A node of the store. All of its state is behind one latch. A thread that has the latch makes a step and writes it into the log before it lets go, and before
a message of the step is on its way: so the log has the order in which the steps were made here."""

import queue
import random
import threading
import time

import frames
from faults import Slips

# The modes in which a transaction may begin at each node. The client asks A first.
BEGINS = {'A': ('normal', 'sinit'), 'B': ('dinit', 'ddual', 'dfinish', 'normal')}

# Which operand of an instruction names the register that has its value once it is done.
VALUED = {'set': 0, 'add': 0, 'read': 0, 'write': 1, 'insert': 1}


class Abort(Exception):
    """The transaction cannot go on, for this reason."""


class NotNow(Exception):
    """The instruction cannot be done yet: its session waits and tries again."""


class Transaction:
    def __init__(self, number, program):
        self.number, self.program = number, program
        self.pc, self.done, self.registers, self.private, self.status = 0, 0, [0] * 8, {}, 'active'


class Node:
    def __init__(self, name, scenario, link, fault, log, form, seed):
        self.name, self.scenario, self.link, self.slips, self.form = name, scenario, link, Slips(fault), form
        self.random = random.Random('%s %s' % (seed, name))
        self.log_file = open(log, 'w', buffering=1, encoding='utf-8')
        self.latch, self.outbox, self.message = threading.Condition(), queue.Queue(), None
        self.lows, self.pages = scenario.opening() if name == 'A' else ([], {})
        self.mode = 'normal' if name == 'A' else 'empty'
        self.asked, self.locks, self.transactions = set(), {}, {}

    def serve(self, listener):
        """Serves sessions, each with a thread of its own, until the process is killed."""
        for work in (self.send_messages, self.take_messages):
            threading.Thread(target=work, daemon=True).start()
        while True:
            connection, _ = listener.accept()
            threading.Thread(target=self.session, args=(connection,), daemon=True).start()

    def session(self, connection):
        """Answers the requests of a connection."""
        try:
            while True:
                what, *rest = frames.receive(connection)
                frames.send(connection, getattr(self, 'on_' + what)(*rest))
        except (EOFError, OSError):
            connection.close()

    def log(self, action, outcome, value=None, rows=None):
        """Writes down a step of this node, or one of the client that took place here, and lets its message go. Where that is a page, the line has the rows which
        it takes along."""
        kind, *rest = self.message or [None]
        self.log_file.write(self.form.head(self.name, action) + self.form.tail(outcome, kind, value, rest[1] if kind == 'page' else rows))
        self.post()

    def post(self):
        if self.message:
            if not self.slips.into('lost', self.message == ['finish']):
                self.outbox.put(self.message)
            self.message = None

    # What the client asks for. `step` alone is a step of this node; the others are the client's, which writes them into its own log, too.

    def on_start(self):
        with self.latch:
            if self.name != 'A' or self.mode != 'normal':
                return 'badmode'
            self.mode = 'sinit'
            self.slips.snapshot = {page: dict(rows) for page, rows in self.pages.items()}
            self.message = ['wire', list(self.lows)]
            self.log('start', 'started')
            return 'started ! wire'

    def on_begin(self, number):
        """Begins a transaction here, if it may; else there is no answer."""
        with self.latch:
            if self.mode not in BEGINS[self.name] and not self.slips.into('route', self.mode == 'sdual'):
                return None
            self.transactions[number] = Transaction(number, self.scenario.programs[number])
            self.log('begin %d' % number, 'began ' + self.name)
            return 'began ' + self.name

    def on_kill(self, number):
        with self.latch:
            transaction = self.transactions[number]
            if transaction.status != 'active':
                return 'idle'
            self.end(transaction, 'aborted killed')
            self.log('kill %d' % number, transaction.status)
            return transaction.status

    def on_step(self, number):
        """The next instruction of a transaction. The answer comes when it is done, or the transaction has ended. Each try is a `run`; one that has to wait
        lets go of the latch, and the next one is made when something has changed."""
        with self.latch:
            transaction = self.transactions[number]
            while transaction.status == 'active':
                outcome = self.attempt(transaction)
                if outcome == 'did':
                    return outcome
                if transaction.status == 'active' and not outcome.startswith('split'):
                    self.latch.wait()
            return transaction.status

    def on_state(self):
        """All that is compared at the end, and how often the node's fault made a difference."""
        with self.latch:
            return {'mode': self.mode, 'slips': self.slips.count,
                    'pages': [(page, low, sorted(self.pages[page].items())) for page, low in enumerate(self.lows) if page in self.pages],
                    'transactions': [(t.number, t.status, t.done, t.registers) for t in self.transactions.values()]}

    # The instructions

    def attempt(self, transaction):
        """One try at the next instruction."""
        value = None
        try:
            if self.mode == 'dinit':
                raise NotNow('notyet')
            operation, *operands = transaction.program[transaction.pc]
            outcome = getattr(self, 'do_' + operation)(transaction, *operands)
            if not outcome.startswith('split'):
                transaction.done += 1
            if outcome == 'did' and operation in VALUED:
                value = transaction.registers[operands[VALUED[operation]]]
        except NotNow as reason:
            outcome = str(reason)
        except Abort as reason:
            outcome = 'aborted %s' % reason
            self.end(transaction, outcome)
        self.log('run %d' % transaction.number, outcome, value)
        return outcome

    def did(self, transaction, register=None, value=0):
        """The instruction is done, and has perhaps set a register."""
        if register is not None:
            transaction.registers[register] = value % 2 ** 32
        transaction.pc += 1
        if self.slips.into('unlock', transaction.program[transaction.pc][0] == 'commit'):
            self.unlock(transaction)
        return 'did'

    def do_set(self, transaction, register, value):
        return self.did(transaction, register, value)

    def do_add(self, transaction, register, other):
        return self.did(transaction, register, transaction.registers[register] + transaction.registers[other])

    def do_beq(self, transaction, register, other, target):
        transaction.pc = target if transaction.registers[register] == transaction.registers[other] else transaction.pc + 1
        return 'did'

    def do_read(self, transaction, register, at):
        key = transaction.registers[at]
        _, rows = self.page_for(transaction, key, 'shared')
        value = transaction.private.get(key, rows.get(key, 0))
        return self.did(transaction, register, value + 1000 * self.slips.into('more', self.name == 'B'))

    def do_write(self, transaction, at, register):
        key = transaction.registers[at]
        _, rows = self.page_for(transaction, key, 'exclusive')
        if key not in transaction.private and key not in rows:
            raise Abort('missing')
        transaction.private[key] = transaction.registers[register]
        return self.did(transaction)

    def do_insert(self, transaction, at, register):
        key = transaction.registers[at]
        page, rows = self.page_for(transaction, key, 'exclusive')
        if key in transaction.private or key in rows:
            raise Abort('duplicate')
        inserted = [mine for mine in transaction.private if mine not in rows and self.page_of(mine) == page]
        if len(rows) + len(inserted) >= self.scenario.cap:
            return self.split(transaction, page, sorted([*rows, *inserted, key]))
        transaction.private[key] = transaction.registers[register]
        return self.did(transaction)

    def do_abort(self, _):
        raise Abort('own')

    def do_commit(self, transaction):
        gone = sorted({self.page_of(key) for key in transaction.private} - set(self.pages))
        if gone and not self.slips.into('install', True):
            raise Abort('gone %d' % gone[0])
        for key, value in transaction.private.items():
            page = self.page_of(key)
            (self.slips.left if page in gone else self.pages)[page][key] = value
        self.end(transaction, 'committed')
        return transaction.status

    def end(self, transaction, status):
        transaction.status, transaction.private = status, {}
        self.unlock(transaction)

    # Pages and locks

    def page_of(self, key):
        return max((low, page) for page, low in enumerate(self.lows) if low <= key)[1]

    def page_for(self, transaction, key, how):
        """The page of a key and its rows, once it is here and the transaction has its lock."""
        if key > 65535:
            raise Abort('badkey')
        page = self.page_of(key)
        rows = self.pages.get(page)
        if rows is None and self.slips.into('ghost', page in self.slips.left):
            rows = self.slips.left[page]
        if rows is None:
            self.ask_for(page)
        if not self.slips.into('nolock', how == 'shared'):
            self.lock(transaction, page, how)
        return page, rows

    def ask_for(self, page):
        """What comes of an instruction whose page is not here: a destination asks for the page, unless it has."""
        if self.mode not in ('ddual', 'dfinish'):
            raise Abort('gone %d' % page)
        if page in self.asked:
            raise NotNow('awaits %d' % page)
        self.asked.add(page)
        self.message = ['pull', page]
        raise NotNow('pulls %d' % page)

    def lock(self, transaction, page, how):
        holders = self.locks.setdefault(page, {})
        others = [held for number, held in holders.items() if number != transaction.number]
        if 'exclusive' in others or others and how == 'exclusive':
            raise NotNow('waits %d' % page)
        if holders.get(transaction.number) != 'exclusive':
            holders[transaction.number] = how

    def unlock(self, transaction):
        for holders in self.locks.values():
            holders.pop(transaction.number, None)
        self.latch.notify_all()

    def split(self, transaction, page, keys):
        """Cuts a full page in two. The session tries its insert again at once: that is another `run`."""
        if self.mode != 'normal' and not self.slips.into('late', self.name == 'A'):
            raise Abort('frozen %d' % page)
        if len(self.lows) >= self.scenario.pages:
            raise Abort('nopage')
        boundary, new, rows = keys[(self.scenario.cap + 1) // 2], len(self.lows), self.pages[page]
        self.lows.append(boundary)
        self.pages[new] = {key: rows.pop(key) for key in list(rows) if key >= boundary}
        self.locks[new] = {transaction.number: 'exclusive'}
        return 'split %d %d %d' % (page, new, boundary)

    # The links

    def send_messages(self):
        while True:
            message = self.outbox.get()
            time.sleep(self.random.random() * 0.002)
            frames.send(self.link, message)

    def take_messages(self):
        """Takes the messages in their order. Each try at the front one is a `take`; one that is held stays, and those behind it wait in the socket."""
        try:
            while True:
                kind, *rest = frames.receive(self.link)
                with self.latch:
                    while self.take(kind, rest).startswith('held'):
                        self.latch.wait()
        except (EOFError, OSError):
            pass

    def take(self, kind, rest):
        outcome = getattr(self, 'take_' + kind)(*rest) or 'got ' + kind
        self.log('take', outcome, rows=rest[1] if kind == 'page' else None)
        self.latch.notify_all()
        return outcome

    def take_wire(self, lows):
        self.lows, self.mode, self.message = lows, 'dinit', ['ready']

    def take_ready(self):
        self.mode, self.message = 'sdual', ['dual']
        threading.Thread(target=self.finish, daemon=True).start()

    def take_dual(self):
        self.mode = 'ddual'

    def take_pull(self, page):
        if page not in self.pages:
            return 'stale %d' % page
        if self.scenario.is_held and self.locks.get(page) and not self.slips.into('unheld', True):
            return 'held %d' % page
        self.hand_over(page)
        return 'got pull %d' % page

    def take_page(self, page, rows):
        self.pages[page] = dict(rows)
        self.asked.discard(page)
        if self.mode == 'dfinish':
            self.end_migration()
        return 'got page %d' % page

    def take_finish(self):
        self.mode = 'dfinish'
        self.end_migration()

    def take_done(self):
        self.mode, self.lows, self.pages = 'empty', [], {}

    def end_migration(self):
        """The destination is normal once each page is here."""
        missing = set(range(len(self.lows))) - set(self.pages)
        if not missing or self.slips.into('early', len(missing) == 1):
            self.mode, self.message = 'normal', ['done']

    def hand_over(self, page):
        rows = self.slips.left[page] = self.pages.pop(page) if page in self.pages else self.slips.left[page]
        if self.slips.into('old', rows != self.slips.snapshot.get(page)):
            rows = self.slips.snapshot[page]
        self.message = ['page', page, sorted(rows.items())]

    # The source's own thread

    def finish(self):
        """Waits until no transaction is active here, says so, and hands over what is left."""
        with self.latch:
            while self.mode == 'sdual':
                active = [number for number, transaction in self.transactions.items() if transaction.status == 'active']
                if active:
                    self.log('finish', 'active %d' % min(active))
                    self.latch.wait()
                else:
                    self.mode, self.message = 'sfinish', ['finish']
                    self.log('finish', 'finishing')
        pushed = set()
        while self.push(pushed):
            time.sleep(self.random.random() * 0.004)

    def push(self, pushed):
        """Hands over a page that nobody asked for. Whether there was one."""
        with self.latch:
            left = set(self.pages) | (set(self.slips.left) - pushed if self.slips.fault == 'resend' else set())
            if not left or self.mode != 'sfinish':
                return False
            page = min(left)
            pushed.add(page)
            self.slips.into('resend', page not in self.pages)
            self.hand_over(page)
            self.log('push', 'pushed %d' % page)
            return True

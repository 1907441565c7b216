"""The client of the store. Its sessions run at once, but `begin`, `kill` and `start` are made one at a time, each answered before the next is asked: they are
the client's steps, and its log has their order."""

import queue
import random
import select
import socket
import threading
import time
from contextlib import suppress

import frames

# How long a session waits for an instruction before it kills its transaction, in one run and in another.
PATIENCE = (0.04, 0.1)


class Client:
    def __init__(self, scenario, ports, log, form, seed):
        self.scenario, self.ports, self.form, self.random = scenario, ports, form, random.Random('%s C' % seed)
        self.log_file = open(log, 'w', encoding='utf-8')
        self.turn = threading.Lock()
        self.control = {name: self.connect(name) for name in ports}
        self.states()   # both nodes are up once they answer
        self.patience = self.random.choice(PATIENCE)

    def connect(self, name):
        return socket.create_connection(('127.0.0.1', self.ports[name]), timeout=20)

    def step(self, names, *request):
        """A step of the client, made by the first of some nodes that answers. Its line is there before it is asked, and what came of it is added: if a node
        crashes, the line stays without."""
        with self.turn:
            self.log_file.write(self.form.head('C', ' '.join(map(str, request))))
            self.log_file.flush()
            try:
                answer = next(filter(None, (frames.ask(self.control[name], *request) for name in names)))
            except (EOFError, OSError):
                threading.Event().wait()   # a node has crashed, and this process is soon killed, too
            outcome, _, sent = answer.partition(' ! ')
            self.log_file.write(self.form.tail(outcome, sent))
            self.log_file.flush()
            return answer

    def session(self, left, chance):
        """One transaction after another, until none is left."""
        with suppress(queue.Empty):
            while True:
                number = left.get_nowait()
                time.sleep(chance.random() * 0.03)
                self.transact(number, chance)

    def transact(self, number, chance):
        """A transaction, instruction by instruction. It is killed where one takes too long."""
        pace = chance.random() * 0.016
        node = self.step('AB', 'begin', number)[-1]
        connection = self.connect(node)
        answer = 'did'
        while answer == 'did':
            time.sleep(chance.random() * pace)
            frames.send(connection, ['step', number])
            if not select.select([connection], [], [], self.patience)[0]:
                self.step(node, 'kill', number)
            answer = frames.receive(connection)
        connection.close()

    def run(self):
        """Runs each transaction in one of some sessions, and a migration, and gives the state of the nodes at the end."""
        count, left = len(self.scenario.programs), queue.SimpleQueue()
        for number in range(count):
            left.put(number)
        sessions = [threading.Thread(target=self.session, args=(left, random.Random(self.random.random())), daemon=True) for _ in range(count // 2 + 1)]
        for session in sessions:
            session.start()
        time.sleep(self.random.random() * 0.02)
        self.step('A', 'start')
        for session in sessions:
            session.join()
        return self.states_once_moved(time.monotonic() + 10)

    def states(self):
        """The state of each node. To look is no step."""
        return {name: frames.ask(self.control[name], 'state') for name in 'AB'}

    def states_once_moved(self, limit):
        """The state of each node once the migration has ended; or at a time, if a fault keeps it from that."""
        while True:
            states = self.states()
            if (states['A']['mode'], states['B']['mode']) == ('empty', 'normal') or time.monotonic() > limit:
                return states
            time.sleep(0.005)

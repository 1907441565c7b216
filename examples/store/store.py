#!/usr/bin/env python3
"""A small store of two nodes that moves its database from A to B by Zephyr while transactions run, and writes down what it does.

    python3 store.py SCENARIO FOLDER [--json] [--fault FAULT] [--seed N] [--crash SECONDS]

SCENARIO is a scenario of version 1 without choices, as `zy_bench dis` prints it; its programs are the transactions. The folder gets client.log, a.log and
b.log: what each of the three processes did, in its own order and in the words of a listing, or with --json as objects. docs/your-store.md says what such logs
claim. In `end` is what the store has at the end, in the words of a listing's final state, but for the numbers of the commits. With a fault (faults.py) the
last line of standard output is how often the store did what it would not have done without. SECONDS after both nodes are up all processes are killed, and
there is no end.

There are three processes: node A, node B and the client. Each has a thread for each thing that can wait: a node for each session of the client, for each
direction of the link, and, if it is the source, for the end of the migration; the client for each transaction and for the migration. Nobody decides
in which order their steps come."""

import argparse
import multiprocessing
import os
import random
import socket
import sys
import threading
import time

from client import Client
from faults import FAULTS
from lines import form_of
from node import Node
from scenario import Scenario, Unfit


def end_of(states):
    """The end of the store, as a text."""
    lines = ['mode %s %s' % (name, states[name]['mode']) for name in 'AB']
    for page, low, rows, name in sorted((*page, name) for name in 'AB' for page in states[name]['pages']):
        lines.append(' '.join(['page %d %s low %d rows' % (page, name, low)] + ['%d=%d' % tuple(row) for row in rows]))
    for number, status, done, registers, name in sorted((*txn, name) for name in 'AB' for txn in states[name]['transactions']):
        word, *why = status.split()
        lines.append(' '.join(['txn %d %s %s' % (number, word, name), *why, 'done %d regs' % done, *map(str, registers)]))
    return '\n'.join(lines) + '\n'


def crash(seconds, nodes):
    """Kills all processes, this one last."""
    time.sleep(seconds)
    for node in random.sample(nodes, len(nodes)):
        node.kill()
        time.sleep(random.choice([0, 0.005]))
    os._exit(0)


def started(options, scenario):
    """The processes of the nodes, and the port of each."""
    fork = multiprocessing.get_context('fork')
    links, listeners = dict(zip('AB', socket.socketpair())), {name: socket.create_server(('127.0.0.1', 0)) for name in 'AB'}

    def serve(name):
        log = os.path.join(options.folder, name.lower() + '.log')
        Node(name, scenario, links[name], options.fault, log, form_of(options.json), options.seed).serve(listeners[name])

    nodes = [fork.Process(target=serve, args=(name,), daemon=True) for name in 'AB']
    for node in nodes:
        node.start()
    return nodes, {name: listener.getsockname()[1] for name, listener in listeners.items()}


def arguments():
    parser = argparse.ArgumentParser(description=__doc__, formatter_class=argparse.RawDescriptionHelpFormatter, usage=argparse.SUPPRESS)
    parser.add_argument('scenario', metavar='SCENARIO')
    parser.add_argument('folder', metavar='FOLDER')
    parser.add_argument('--json', action='store_true')
    parser.add_argument('--fault', choices=FAULTS)
    parser.add_argument('--seed', default='0')
    parser.add_argument('--crash', metavar='SECONDS', type=float)
    return parser.parse_args()


def main():
    options = arguments()
    try:
        with open(options.scenario, encoding='utf-8') as file:
            scenario = Scenario(file.read())
    except (OSError, Unfit) as fault:
        return 'store: %s' % fault
    nodes, ports = started(options, scenario)
    client = Client(scenario, ports, os.path.join(options.folder, 'client.log'), form_of(options.json), options.seed)
    if options.crash:
        threading.Thread(target=crash, args=(options.crash, nodes), daemon=True).start()
    states = client.run()
    for node in nodes:
        node.kill()
    with open(os.path.join(options.folder, 'end'), 'w', encoding='utf-8') as file:
        file.write(end_of(states))
    if options.fault:
        print(sum(states[name]['slips'] for name in 'AB'))
    return 0


if __name__ == '__main__':
    sys.exit(main())

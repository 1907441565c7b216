"""The verdict on a run up to the cursor: the database, that of the committed transactions run one by one, and the order that explains the rows."""

import re

import bench
import runs
from picture.serial import differences, rows_of

# What the program says on standard error where the order of the commits does not leave the rows.
EXPLAINED = re.compile(r'the rows are those of ([\d, ]+) in this order')


def verdict_of(asked):
    """The verdict; each row as its key, its value here, and its value where the committed transactions run one by one in the order of their commits.
    Where those values are not known there are none."""
    lines, said = bench.answer(['run'], asked['text'].encode(**bench.BYTES))
    final = lines[lines.index('final') + 1:]
    is_same, here = final[-2] == 'serial same', rows_of(final)
    differing = {} if is_same else {key: there for key, _, there in differences(runs.read(asked['text'], quiet=True))}
    keys = sorted(here.keys() | differing.keys(), key=int)
    return {'same': is_same, 'order': commit_order(final), 'explained': explained(said), 'known': is_same or bool(differing),
            'rows': [[key, here.get(key, 'no row'), differing.get(key, here.get(key, ''))] for key in keys]}


def commit_order(final):
    """The committed transactions in the order of their commits, by the lines of a last state."""
    words = [line.split() for line in final if line.startswith('txn ')]
    committed = [(int(line[4]), int(line[1])) for line in words if line[2] == 'committed']
    return [txn for _, txn in sorted(committed)]


def explained(said):
    """The order of the committed transactions that leaves the rows, where the program names one."""
    found = EXPLAINED.search(said)
    return [int(txn) for txn in found.group(1).split(',')] if found else []

"""Which rows the serial run leaves otherwise, where there are such rows."""

import bench


def rows_of(lines):
    """The rows of all pages of a listing."""
    pages = [line.split(' rows')[1].split() for line in lines if line.startswith('page ')]
    return dict(row.split('=') for page in pages for row in page)


def ended_alike(words, done):
    """Whether a transaction that ran alone ended as in the serial run: it committed after the same number of instructions, or gave up before."""
    alone = int(words[words.index('done') + 1])
    return words[2] == 'committed' and alone == done or words[2] == 'aborted' and alone < done


def alone(run, order, done):
    """The listing of the committed transactions, which begin and run one by one on pages that no insert finds full."""
    first = next(n for n, line in enumerate(run.scenario) if line.split()[0] in ('A', 'B', 'C', 'end'))
    head = ['zephyr ' + run.version, 'cap 16', 'pages 512', 'rule held']
    choices = ['C begin %d\nA run %d x %d' % (txn, txn, done[txn] + 8) for txn in order]
    return bench.ask(['run'], '\n'.join(head + run.scenario[4:first] + choices + ['end', '']).encode())


def done_of(run, txn):
    return int(run.txns[txn].at(len(run.steps)).split(' done ')[1].split()[0])


def commit_order(run):
    """The committed transactions in the order of their commits."""
    committed = [life for life in run.lives if life and life.outcome.startswith('committed')]
    return [life.txn for life in sorted(committed, key=lambda life: int(life.outcome.split()[1]))]


def migration_order(run):
    """The committed transactions in the order that explains the rows: of each migration first those that committed at its source."""
    source, first, later = None, [], []
    for step in run.steps:
        if step.outcome == 'started':
            source = 'B' if source == 'A' else 'A'
            first, later = first + later, []
        elif step.outcome.startswith('committed'):
            (first if step.actor == source else later).append(step.txn)
    return first + later


def differences(run):
    """(key, value here, value in the serial run) of each row that differs. The program itself runs the committed transactions one by one; where
    one of them does not end there as in the serial run, or they are too long for a scenario, nothing is said."""
    if run.verdict != 'serial differs':
        return []
    order = commit_order(run)
    done = {txn: done_of(run, txn) for txn in order}
    if sum(done.values()) + 9 * len(order) > 4096:
        return []
    listing = alone(run, order, done)
    final = listing[listing.index('final'):]
    ends = {int(line.split()[1]): line.split() for line in final if line.startswith('txn ')}
    if not all(ended_alike(ends[txn], done[txn]) for txn in done):
        return []
    here, there = rows_of(run.final), rows_of(final)
    return [(key, here.get(key, 'no row'), there.get(key, 'no row')) for key in sorted(here.keys() | there.keys(), key=int)
            if here.get(key) != there.get(key)]


def verdict_line(run, differing):
    """The verdict, and where the serial run leaves other rows, the first of these and the order that leaves the rows of this run."""
    if run.verdict != 'serial differs':
        return run.verdict
    rows = ['row %s is %s, in the serial run %s' % row for row in differing[:3]]
    more = ['and %d more' % (len(differing) - 3)] if len(differing) > 3 else []
    order = ['the rows are those of %s' % ', '.join(map(run.name, migration_order(run)))]
    return run.verdict + ': ' + '; '.join(rows + more + order)

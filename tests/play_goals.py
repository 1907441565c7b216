"""What is tested of goals in the page of zplay: where the states of a run meet one, and pages that the scenario cannot have."""

import json

from playing import ANOMALY, NOTED

# Where the states of the anomaly meet some goals, as docs/search.md and docs/loose.md have it: page 0 leaves in step 12 and comes in step 13, where the
# reader is still active; the last commit is the second one.
FOUND = [('txn reader active and page 0 at B', [[13, 17]], ''), ('page 0 at A or page 0 at B', [[0, 11], [13, 18]], ''), ('commits = 2', [[18, 18]], ''),
         ('page 2 at B', [], 'the goal names page 2, and the scenario has only those below 2'),
         ('txn 9 active', [], 'the goal names transaction 9, and the scenario has only those below 2')]

# The ways that are gone from the opening, and by how many stretches there are, to which of them `find` goes then.
WAYS, MOVES = (1, 1, -1, -1), {0: (), 1: (0, 0, 0, 0), 2: (1, 0, 1, 0)}

MET = '[...document.querySelectorAll("#met path")].map(path => path.getAttribute("d")).join()'


def edge(stretches):
    """The edge beside the rows of some stretches, where each step has a row of 22."""
    return ''.join('M7 %dV%d' % (22 * first + 1, 22 * (last + 1) - 1) for first, last in stretches)


def goals_found(play):
    """What is wrong with what the server answers of goals."""
    for goal, stretches, words in FOUND:
        answer = play.ask('/find', ANOMALY, goal=goal)
        if answer != {'stretches': stretches, 'words': words}:
            yield '%s: %r' % (goal, answer)
    answer = play.ask('/find', ANOMALY, goal='page 3 on B')
    if answer.get('goal') != {'column': 8, 'length': 2} or not answer['words'].startswith('a page is at A'):
        yield 'a goal that is not understood: %r' % answer
    if 'fault' not in play.ask('/find', NOTED[1:], goal='stuck'):
        yield 'a goal of no scenario'


def sought(page, words, way=1):
    """What `find` says of some words, once it says it."""
    page.value('$("found").textContent = ""; $("find").value = %s; find(%d)' % (json.dumps(words), way))
    page.wait('$("found").textContent')
    return page.value('$("found").textContent')


def goals(page):
    """What is wrong with goals in `find`."""
    page.begin(ANOMALY)
    for goal, stretches, words in FOUND:
        page.value('note("");show(0)')
        if not stretches and (sought(page, 'if ' + goal), page.value('now')) != ('none', 0):
            yield '%s goes to %d' % (goal, page.value('now'))
        for way, number in zip(WAYS, MOVES[len(stretches)]):
            said = sought(page, 'if ' + goal, way)
            if (said, page.value('now')) != ('%d of %d' % (number + 1, len(stretches)), stretches[number][0]):
                yield '%s, %d: %r at %d' % (goal, way, said, page.value('now'))
        shown = page.value('[%s, $("note").textContent]' % MET)
        if shown != [edge(stretches), words]:
            yield '%s: %r' % (goal, shown)
    said = sought(page, 'if  page 3 on B')
    marked = page.value('(find => [document.activeElement === find, find.value.slice(find.selectionStart, find.selectionEnd), find.getAttribute("aria-invalid")])($("find"))')
    if not said.startswith('a page is at A') or marked != [True, 'on', 'true']:
        yield 'a goal that is not understood: %r, %r' % (said, marked)
    sought(page, 'if commits = 2')
    page.value('$("find").dispatchEvent(new Event("input"))')
    if page.value('[%s, $("found").textContent, $("find").getAttribute("aria-invalid")]' % MET) != ['', '', None]:
        yield 'what was found stays where other words are typed'
    sought(page, 'if commits = 2')
    page.choice('C kill 0')
    page.type(ANOMALY.replace('C start\n', ''))
    if page.value(MET):
        yield 'what was found in another run stays'

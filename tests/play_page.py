"""What is tested of the page of zplay in Chromium."""

import json
import os
import re
import subprocess
import time

from case import CASES, EXAMPLES, PROGRAM, content
from playing import ANOMALY, DEADLOCK, HELD, MIGRATION, NOTED, SMALLEST, VERDICTS, ZVIEW, bare, head, loops, part_of, steps_of, zviewed, zy_bench


# Clicks choices, one after the other: for each what its button showed, and whether it was grey; null where there was none.
CLICKED = '''(async choices => {
  const ready = async () => {
    for (const end = Date.now() + 30000; !D || busy || !known.has(textHere());) {
      if (Date.now() > end) throw new Error(`no outcomes come at ${now}: ${busy} ${$('note').textContent}`);
      await new Promise(done => setTimeout(done, 4));
    }
  };
  const shown = [];
  for (const choice of choices) {
    await ready();
    const button = document.querySelector(`[data-choice="${choice}"]`);
    shown.push(button && [button.querySelector('span').textContent, button.matches('.still')]);
    if (button) button.click(); else make([choice]);
  }
  await ready();
  return shown;
})(%s)'''


def example(page, path):
    """What is wrong with a schedule that is clicked together."""
    text = content(path).decode()
    listing, changes = zy_bench(['run'], text.encode()), changes_of(text)
    page.begin(bare(text))
    steps = steps_of(listing)
    shown = page.value(CLICKED % json.dumps([choice for choice, _ in steps]))
    # What can do nothing has no button: another node's transaction, one that has ended.
    found = ['step %d: the button showed %r, wanted %r' % (number, seen, outcome) for number, (seen, (_, outcome)) in enumerate(zip(shown, steps), 1)
             if (seen or [outcome, True]) != [outcome, not changes[number]]]
    found += [] if zy_bench(['run'], page.text().encode()) == listing else ['the text has another listing']
    found += ['of the run, which each click has sent a part of, %s is another one than in the file of zview' % name for name in others(page, text)]
    return found + undone(page, bare(text), len(steps)) + files(page, text, listing)


def others(page, text):
    """What of the run in the page is another one than in the file that zview makes of a scenario as a whole."""
    whole, grown = zviewed(text), page.value('D')
    return [name for name in whole if name not in ('pieces', 'goals') and whole[name] != grown[name]]


def changes_of(text):
    """How many lines of the state each step changes; those of the opening first."""
    trace = zy_bench(['trace'], text.encode()).split('\ntrace\n')[1].split('\nfinal\n')[0]
    return [len(step.split('\n')) - 1 for step in re.split(r'\n(?=\d)', trace)]


def undone(page, text, times):
    """What is wrong with undo, which is to lead back to a text, and redo."""
    whole = page.text()
    ends = [page.value('(async () => { for (let k = 0; k < %d; k++) await undo(%s); return doc.text; })()' % (times, lists))
            for lists in ('past, future', 'future, past')]
    return [words for words, is_right in (('undo ends at another text', ends[0] == text), ('redo ends at another text', ends[1] == whole)) if not is_right]


# The name and the content of a file that is saved, in the place of a download.
SAVED = '''(async as => {
  const create = URL.createObjectURL, click = HTMLAnchorElement.prototype.click;
  let file, title;
  URL.createObjectURL = blob => { file = blob; return create.call(URL, blob); };
  HTMLAnchorElement.prototype.click = function () { title = this.download; };
  await save(as);
  URL.createObjectURL = create;
  HTMLAnchorElement.prototype.click = click;
  return [title, await file.text()];
})("%s")'''


def files(page, text, listing):
    """What is wrong with the files that are saved, and with the address."""
    page.begin(text, 'x')
    saved = {kind: page.value(SAVED % kind) for kind in ('scenario', 'listing', 'svg')}
    drawn = subprocess.run([ZVIEW, '--svg', '--title', 'x'], input=text.encode(), stdout=subprocess.PIPE, stderr=subprocess.DEVNULL,
                           env={**os.environ, 'ZY_BENCH': PROGRAM}).stdout.decode()
    page.value('show(D.last >> 1)')
    page.value('store()')
    half, address = page.value('now'), page.value('location.hash')
    page.begin(SMALLEST)
    page.value('store()')
    page.value('location.hash = %s' % json.dumps(address))
    page.wait('doc.text === %s && !busy' % json.dumps(text))
    return [word for word, is_right in (
        ('the saved scenario is another one', saved['scenario'] == ['x.zephyr', text]),
        ('the saved listing is another one', saved['listing'] == ['x.listing', listing]),
        ('the saved picture is another one', saved['svg'] == ['x.svg', drawn]),
        ('the address brings another position', page.value('now') == half)) if not is_right]


# What some searches report: the text, what is asked, the words, and how many choices are added.
REPORTED = [(bare(ANOMALY), 'for', 'differs', 'found after 944 states: 18 choices lead there; the rows are those of 0, 1 in this order: ', 18),
            (bare(ANOMALY), 'for', 'txn writer committed before reader', 'found after 427 states: 11 choices lead there', 11),
            (DEADLOCK, 'for', 'deadlock', 'found after 380 states: 10 choices lead there', 10), (HELD, 'for', '', 'Never: none of 1067 states shows it', 0),
            (DEADLOCK, 'always', 'not stuck', 'Not always: found after 704 states: 14 choices lead there', 14)]


def search(page, way, goal, states=1000000):
    """Begins a search in the page."""
    page.value('$("way").value = %s; $("goal").value = %s; $("states").value = %d; $("search").requestSubmit()' % (json.dumps(way), json.dumps(goal), states))


def searches(page):
    """What is wrong with searches."""
    for text, way, goal, words, added in REPORTED:
        page.begin(text)
        search(page, way, goal)
        page.wait('!searching && !busy')
        report, last = page.value('$("report").textContent'), page.value('D.last')
        is_said = report.startswith('from the opening: ' + words[0].lower() + words[1:])
        if not is_said or last != added or page.value('(found => found && found[1] - found[0] + 1 || 0)(branchOf(current).found)') != added:
            yield '%s: %r, %d choices' % (goal, report, last)
        if page.value('branches.map(branch => scheduleOf(branch.text).choices.length)') != [0] + ([added] if added else []):
            yield '%s: the branches are %r' % (goal, page.value('branches'))
    if page.value('$("added").offsetHeight') < 14 * 10:
        yield 'the added steps are not marked'
    for origin, words in (('here', 'from step 14 on: never: '), ('opening', 'from the opening: found after '), ('here', 'from step 14 on: ')):
        page.value('$("origin").value = "%s"' % origin)
        search(page, 'for', 'committed' if origin == 'here' else 'stuck')
        page.wait('!searching && !busy')
        if not page.value('$("report").textContent').startswith(words):
            yield 'the origin of an answer, wanted %r: %r' % (words, page.value('$("report").textContent'))
    page.key('[', '[')
    page.wait()
    if page.value('$("added").offsetHeight'):
        yield 'steps are marked in the branch from which was searched'
    search(page, 'for', 'page 3 on B')
    page.wait('!searching')
    marked = page.value('(goal => [document.activeElement === goal, goal.value.slice(goal.selectionStart, goal.selectionEnd), goal.ariaInvalid])($("goal"))')
    if marked[:2] != [True, 'on'] or page.value('$("goal").getAttribute("aria-invalid")') != 'true':
        yield 'a goal that is not understood: %r' % marked
    told = page.value('$("language").textContent')
    missing = [goal for goal in page.value('Object.keys(given.goals)') if re.fullmatch('[a-z]+', goal) and goal not in told]
    if missing or 'numbers or names' not in told:
        yield 'the goals text lacks %r: %r' % (missing, told)
    fields = page.value('[...$("search").querySelectorAll("input, select, button, summary")].map(field => field.id)')
    for number, field in enumerate(fields):
        page.value('$("search").querySelectorAll("input, select, button, summary")[%d].focus()' % number)
        page.key('Escape')
        if page.value('document.activeElement.id') != 'view':
            yield 'Esc does not leave the field %d %s of the search' % (number, field)
    page.begin(loops())
    search(page, 'for', 'stuck', 50000000)
    page.wait('/\\d+ states, \\d+ choices deep/.test($("report").textContent)')
    page.value('$("go").click()')
    page.wait('$("report").textContent === "cancelled"')


def messages(page):
    """What is wrong with messages that do not hold any more, and with the answer of a search, which stays in its branch."""
    found = []

    def right(words, name, wanted):
        shown = page.value('$("%s").textContent' % name)
        found.extend([] if re.match(wanted + '$', shown) else ['%s: %r' % (words, shown)])
    page.begin(bare(HELD))
    page.choice('C begin 0')
    search(page, 'for', 'differs')
    page.wait('!searching')
    right('an answer', 'report', '.*[Nn]ever: none of .*')
    page.value('$("find").value = "zzz"; find(1)')
    right('words that are not found', 'found', 'none')
    page.value('show(0)')
    page.wait()
    page.choice('C begin 1')
    right('a branch begins', 'note', r'branch 2 begins after step \d+; branch 1 stays as it is')
    right('the answer of another branch', 'report', '')
    right('what was sought in another text', 'found', '')
    page.value('$("view").focus()')
    page.key('[', '[')
    page.wait()
    right('the answer in its branch', 'report', '.*[Nn]ever: none of .*')
    right('that a branch begins, in another one', 'note', '')
    page.value('$("goal").value = "stuckk"; $("goal").dispatchEvent(new Event("input", {bubbles: true}))')
    right('the answer for another goal', 'report', '')
    page.value('$("search").requestSubmit()')
    page.wait('!searching && $("goal").hasAttribute("aria-invalid")')
    page.value('note("x")')
    page.type(HELD)
    right('the fault of a goal, once the text is another one', 'report', '')
    right('a note, once the text is another one', 'note', '')
    page.value('$("goal").value = ""; $("link").onclick()')
    page.wait('$("note").textContent')
    right('what is said of a link', 'note', ".*whole run.*[.]/zplay 'LINK'")
    page.begin(NOTED)
    right('a note, once the example is another one', 'note', 'your own text with its 2 branches is put aside; undo brings it back')
    return found + (['the goal is still marked'] if page.value('$("goal").hasAttribute("aria-invalid")') else [])


def edits(page):
    """What is wrong with a text that is changed by clicks and by hand."""
    found = []

    def right(words, is_right):
        found.extend([] if is_right else ['%s: %s' % (words, page.text().split('\n')[9:])])
    page.begin(NOTED.replace('C start\n', ''))
    page.choice('A run 0')
    right('a choice below a comment', page.text() == NOTED.replace('C start\n', 'A run reader\n'))
    page.begin(NOTED)
    page.choice('B take')
    right('a choice at the end', page.text() == NOTED.replace('C start\n', 'C start\nB take\n'))
    page.value('show(3)')
    page.wait()
    page.key('x', 'x')
    page.wait()
    right('a cut', page.text() == NOTED.replace('C start\n', ''))
    page.value('show(2)')
    page.wait()
    page.key('x', 'x')
    page.wait()
    right('a cut in the middle of a line', page.text() == NOTED.replace('A run reader x 2 ; it reads\nC start\n', 'A run reader\n'))
    page.choice('A run 0')
    right('a choice again', page.text().endswith('A run reader x 2\nend\n'))
    page.press('.until')
    page.wait('/x 3/.test(doc.text) && !busy')
    right('until it ends', page.text().endswith('A run reader x 3\nend\n') and page.value('D.lines[D.last]').endswith('committed 1'))
    page.key('m', 'm')
    page.wait('D.last > 4 && !busy')
    right('a whole migration', (page.value('at(D.modes.A, now)[1]'), page.value('at(D.modes.B, now)[1]')) == ('empty', 'normal'))
    return found


def faults(page):
    """What is wrong with a fault, once it is typed and once it is mended."""
    page.begin(NOTED)
    page.type(NOTED.replace('read r1', 'reed r1'))
    words, line = page.value('[$("fault").textContent, [...$("paint").querySelectorAll(".line")].findIndex(line => line.matches(".wrong"))]')
    page.type(NOTED)
    mended, last = page.value('[$("fault").textContent, D.last]')
    return [words for words, is_right in (
        ('a fault: %r' % words, words.startswith("line 8: the word 'reed' is not known here")), ('the line of a fault: %d' % line, line == 7),
        ('a fault that is mended: %r' % mended, (mended, last) == ('', 4))) if not is_right]


def migration(page):
    """What is wrong with a migration that waits for a transaction."""
    page.begin(NOTED)
    page.key('m', 'm')
    page.wait('D.last > 4 && !busy')
    found = [] if page.value('D.lines.some(line => line.endsWith("A run 0 -> committed 1"))') else ['the migration does not wait']
    note, mode = page.value('[$("note").textContent, at(D.modes.B, now)[1]]')
    for position, wanted in ((0, False), (4, False), (page.value('D.last'), True)):
        page.value('show(%d)' % position)
        page.wait()
        if page.value('$("migrate").disabled') != wanted:
            found.append('at %d a migration is %s' % (position, 'offered' if wanted else 'grey'))
    found += [] if (note, mode) == ('', 'normal') else ['the migration does not end: %r, B is %s' % (note, mode)]
    return found


def verdicts(page):
    """What is wrong with the verdict that is shown at some positions of a run."""
    page.begin(ANOMALY)
    for count, is_same, order, explained, rows in VERDICTS:
        page.value('show(%d)' % count)
        page.wait('known.has(textHere()) && !document.querySelector(".pending")')
        here, words, header, *shown = page.value('[$("here").textContent, $("serial").textContent, ...[...document.querySelectorAll("#serial tr")].map('
                                                 'row => [...[...row.children].map(cell => cell.textContent), row.matches(".wrong")])]')
        names = [', then '.join(['t0 reader', 't1 writer'][txn] for txn in txns) for txns in (order, explained)]
        said = 'in commit order: %s.' % names[0] if order else 'Nothing is committed.'
        why = 'The rows are those of %s: in each migration' % names[1]
        if here != ('serial same' if is_same else 'serial differs') or said not in words or (why in words) != bool(explained):
            yield 'at %d: %r, %r' % (count, here, words)
        if [header] + shown != [['key', 'here', 'one by one', False]] + [row + [row[1] != row[2]] for row in rows]:
            yield 'the rows at %d: %r, %r' % (count, header, shown)


def keys(page):
    """What is wrong with a schedule that is made by keys alone."""
    page.begin(NOTED.split('C begin')[0] + 'end\n')
    page.value('$("view").focus()')
    for key in ('c', 'ArrowDown', 'Enter', 'a', 'Enter', 'Enter', 'ArrowLeft', 'Enter', 'Escape', 'ArrowLeft', 'ArrowRight', 'ArrowLeft'):
        page.key(key, {'Enter': '\r'}.get(key, key if len(key) == 1 else None))
        page.wait()
    made, position = page.text(), page.value('now')
    return [] if made.endswith('C begin reader\nA run reader x 2\nC start\nend\n') and position == 3 else ['%r at %d' % (made, position)]


# Lets the next click come a while after the last one, or at once, however long the page has taken.
AFTER_A_WHILE, AT_ONCE = 'clicked.time = changedAt = -SOON', 'clicked.time = performance.now()'


def twice(page):
    """What is wrong where a choice is clicked twice at the same place, or Enter is pressed twice at it."""
    found, wanted = [], ['C begin reader', 'A run reader']
    for act in ('const x = it.getBoundingClientRect(); return [x.left + 12, x.top + 8]', 'it.focus()'):
        page.begin(bare(ANOMALY))
        place = page.value('(it => { %s })(document.querySelector("[data-choice=\'C begin 0\']"))' % act)
        for when in (AFTER_A_WHILE, AT_ONCE):
            page.value(when)
            page.click(*place) if place else page.key('Enter', '\r')
            page.wait()
        made = page.text().split('\n')[len(head(ANOMALY)):-2]
        found += [] if made == wanted[:1 if place else 2] else ['%s: %r' % ('clicks' if place else 'keys', made)]
    return found + many_twice(page) + killed(page)


def many_twice(page):
    """What is wrong where what makes many choices is clicked twice at the same place."""
    found = []
    pulls = bare(NOTED).replace('end\n', 'C start\nB take\nA take\nB take\nC begin reader\nend\n')
    for text, selector, wanted in ((SMALLEST.replace('zephyr 1', 'zephyr 2'), '#migrate', len(MIGRATION)), (pulls, '.until', 7)):
        page.begin(text)
        place = page.value('(it => { %s })(document.querySelector("%s"))' % ('const x = it.getBoundingClientRect(); return [x.left + 9, x.top + 8]', selector))
        for when in (AFTER_A_WHILE, AT_ONCE):
            page.value(when)
            page.click(*place)
            page.wait('D.last >= %d && !busy && known.has(textHere())' % wanted)
        time.sleep(0.3)
        page.wait()
        made = page.value('D.last')
        found += [] if made == wanted else ['%s: %d choices' % (selector, made)]
    return found


def killed(page):
    """What is wrong with the focus behind a kill."""
    page.begin(bare(ANOMALY).replace('end\n', 'C begin reader\nA run reader x 3\nend\n'))
    page.value('document.querySelector("[data-choice=\'C kill 0\']").focus()')
    page.key('Enter', '\r')
    page.wait()
    is_right = page.value('document.activeElement.id') == 'view' and page.value('scheduleOf(doc.text).choices.length') == 5
    return [] if is_right else ['behind a kill the focus is at %r' % page.value('document.activeElement.outerHTML.slice(0, 90)')]


# Page 0 is split before a migration, so that the key of page 2 is below that of page 1. Pages 1 and 0 are asked for; page 1 comes, and pages 0 and 2 are
# pushed.
MOVED = part_of(content(os.path.join(CASES, 'debug-node', 'stdin')).decode())

# What the nodes have after some of its steps, by docs/step-table.md: of A and of B the low keys, and the pages that were asked for.
NODES = [(0, '0 page 0 30 page 1', 'no page', 'no wireframe', 'no page'),
         (5, '0 page 0 15 page 2 30 page 1', 'no page', 'no wireframe', 'no page'),
         (9, '0 page 0 15 page 2 30 page 1', 'no page', '0 page 0 15 page 2 30 page 1', 'no page'),
         (15, '0 page 0 15 page 2 30 page 1', 'no page', '0 page 0 15 page 2 30 page 1', 'page 1'),
         (18, '0 page 0 15 page 2 30 page 1', 'no page', '0 page 0 15 page 2 30 page 1', 'page 0 page 1'),
         (20, '0 page 0 15 page 2 30 page 1', 'no page', '0 page 0 15 page 2 30 page 1', 'page 0'),
         (26, '0 page 0 15 page 2 30 page 1', 'no page', '0 page 0 15 page 2 30 page 1', 'no page'),
         (28, 'no wireframe', 'no page', '0 page 0 15 page 2 30 page 1', 'no page')]

SHOWN_NODES = '[...$("nodes").querySelectorAll("dt, dd")].map(part => part.textContent.trim())'


# Types, undoes that, types again and undoes that: the text then, and how much redo had before. Then types, makes a choice, types again and undoes twice:
# whether that leads to the text with the choice, and to what was typed first.
TYPED = '''(async () => {
  const enter = remark => { $("text").value = doc.text + remark; $("text").dispatchEvent(new Event("input")); };
  enter("; one");
  undo(past, future);
  enter("; two");
  const redo = future.length;
  undo(past, future);
  const text = doc.text;
  enter("; three");
  const first = doc.text;
  make(["C start"]);
  const second = doc.text;
  enter("; four");
  undo(past, future);
  const isSecond = doc.text === second;
  undo(past, future);
  const isFirst = doc.text === first;
  await new Promise(done => setTimeout(done, 500));  // until what was typed last is asked about
  return [text, redo, isSecond, isFirst];
})()'''

# Types, and chooses an example at once: whether that is still there when what was typed would be asked about.
CHOSEN = '''(async () => {
  $("text").value = doc.text + "; one";
  $("text").dispatchEvent(new Event("input"));
  $("example").value = "held";
  $("example").onchange({target: $("example")});
  await new Promise(done => setTimeout(done, 400));
  return [name, doc.text === given.examples.held];
})()'''


def scenarios(page):
    """What is wrong with the names of scenarios, and with what is put aside."""
    found = []

    def right(words, code, wanted):
        shown = page.value(code)
        found.extend([] if shown == wanted else ['%s: %r, wanted %r' % (words, shown, wanted)])
    page.begin(SMALLEST)
    choose(page, 'held')
    page.wait()
    choose(page, 'splits')
    page.wait()
    right('an example as it comes', NAMED, ['splits · zplay', 'splits', ''])
    page.type(NOTED)
    right('a text that is typed', NAMED, ['your own text · zplay', 'own your own text', ''])
    page.value('$("view").focus()')
    for key, title in (('u', 'splits'), ('r', 'your own text')):
        page.key(key, key)
        page.wait()
        right('after ' + key, 'document.title', title + ' · zplay')
        right('the entries after ' + key, '[...document.querySelectorAll("#example .own")].map(entry => entry.text).join()', '' if key == 'u' else title)
    right('the name of a file', '%s.then(file => file[0])' % (SAVED % 'scenario'), 'your own text.zephyr')
    page.value('show(2)')
    page.wait()
    page.choice('C kill 0')
    choose(page, 'held')
    page.wait('document.title === "held · zplay" && !busy')
    right('another example', NAMED, ['held · zplay', 'held', 'your own text with its 2 branches is put aside; undo brings it back'])
    page.value('$("view").focus()')
    page.key('u', 'u')
    page.wait()
    right('what is brought back', '[document.title, branches.length]', ['your own text · zplay', 2])
    choose(page, '/new')
    page.wait('document.title.startsWith("your own text 2") && !busy')
    right('a new one', '[D.last, $("fault").textContent, scheduleOf(doc.text).choices.length]', [0, '', 0])
    page.wait()
    right('its first choice', '!!document.querySelector("[data-choice=\'C begin 0\']")', True)
    choose(page, 'own your own text')
    page.wait('document.title === "your own text · zplay" && !busy')
    right('the text of one\'s own', 'doc.text.includes("C kill") && doc.text.startsWith("zephyr 1")', True)
    page.value('beginOwn(%s, "held")' % json.dumps(SMALLEST))
    page.wait('document.title === "held (yours) · zplay" && !busy')
    choose(page, 'held')
    page.wait('document.title === "held · zplay" && !busy')
    right('an example with the name of a file', 'doc.text === given.examples.held', True)
    page.begin(SMALLEST)
    right('what is typed at once behind an undo, and behind a choice', TYPED, [SMALLEST, 0, True, True])
    page.wait('!busy')
    right('an example that is chosen at once behind what is typed', CHOSEN, ['held', True])
    page.wait('!busy')
    return found


NAMED = '[document.title, $("example").value, $("note").textContent]'


def nodes(page):
    """What is wrong with the wireframes and the pages that were asked for, and with whom the next choices would wait for."""
    page.begin(MOVED)
    for position, *wanted in NODES:
        page.value('show(%d)' % position)
        page.wait('wireframes.has(textHere())')
        shown = page.value(SHOWN_NODES)
        if shown != ['node A', 'low keys ' + wanted[0], 'has asked for ' + wanted[1], 'node B', 'low keys ' + wanted[2], 'has asked for ' + wanted[3]]:
            yield 'at %d: %r' % (position, shown)
    # Of 30 rows each has a page; the first page begins at 0.
    page.begin('zephyr 1\ncap 2\npages 30\nrule held\n' + ''.join('row %d 1\n' % (10 * row) for row in range(1, 31)) + 'end\n')
    page.wait('wireframes.has(textHere())')
    shown = page.value(SHOWN_NODES)
    if not re.fullmatch(r'low keys 0 page 0 20 page 1 .* 240 page 23 and 6 more', shown[1]):
        yield 'of 30 pages: %r' % shown[1]
    page.begin(DEADLOCK.replace('end\n', 'C begin 0\nC begin 1\nA run 0 x 4\nA run 1 x 4\nend\n'))
    shown = page.value('[...$("waits").querySelectorAll("li")].map(part => part.textContent)')
    if shown != ['A run up waits for page 1, locked at A by transaction 1 down (exclusive)',
                 'A run down waits for page 0, locked at A by transaction 0 up (exclusive)']:
        yield 'what waits: %r' % shown


def branches(page):
    """What is wrong where another choice is made than the one that comes next."""
    found = []

    def right(words, code, wanted):
        shown = page.value(code)
        found.extend([] if shown == wanted else ['%s: %r, wanted %r' % (words, shown, wanted)])

    page.begin(NOTED)
    right('one branch', '$("tree").hidden', True)
    page.value('show(2)')
    page.wait()
    page.choice('C kill 0')
    right('another choice', '[current, D.last, branches.map(branch => branch.text).includes(%s)]' % json.dumps(NOTED), [2, 3, True])
    right('the map', LABELS, ['branch 1: 4 steps, serial same', 'branch 2: 3 steps, from branch 1 after step 2, serial same'])
    right('the cursor on the map', '+$("spot").getAttribute("cx") - acrossMap(3)', 0)
    page.choice('C start')
    right('a branch that grows', '[current, branches.length, D.last]', [2, 2, 4])
    page.value('show(2)')
    page.wait()
    page.choice('A run 0')
    right('the choice that another branch has', '[current, branches.length, now, doc.text === %s]' % json.dumps(NOTED), [1, 2, 3, True])
    page.key('u', 'u')
    page.wait()
    right('undo', '[current, branches.length, D.last, now]', [2, 2, 4, 2])
    page.key('[', '[')
    page.wait()
    right('the branch before', '[current, D.last, now]', [1, 4, 2])
    page.value('show(1)')
    for key in '][':
        page.key(key, key)
        page.wait()
    right('the branch before, where it was left', '[current, D.last, now]', [1, 4, 1])
    page.press('[data-branch="2"]')
    right('a click on the map', '[current, D.last, now]', [2, 4, 2])
    page.key('d', 'd')
    page.wait('!$("beside").hidden')
    right('side by side', BESIDE, ['branches 2 and 1 part after step 2', '3 C kill reader aborted killed A run reader did',
                                   '4 C start started ! wire C start started ! wire'])
    page.key('Escape')
    right('side by side is closed', '$("beside").hidden', True)
    page.key('t')
    page.key('ArrowUp')
    page.key('Delete')
    page.wait()
    right('a branch that is removed', '[current, branches.map(branch => branch.id).join()]', [2, '2'])
    page.key('Escape')
    page.key('u', 'u')
    page.wait()
    right('a branch that is brought back', 'branches.map(branch => branch.id).join()', '1,2')
    page.value('$("text").focus(); $("text").value += "; a remark"; $("text").dispatchEvent(new Event("input")); visit(1)')
    page.wait('current === 1 && !busy')
    page.value('visit(2)')
    page.wait('current === 2 && !busy')
    right('a branch that is left while it is typed into', 'doc.text.endsWith("; a remark")', True)
    page.type(page.text().replace('rule held', 'rule loose'))
    page.value('$("view").focus()')
    page.key('d', 'd')
    page.wait('!$("beside").hidden')
    right('other scenarios side by side', BESIDE.replace('1, 3', '1, 2'), ['branches 2 and 1 are of different scenarios, and part after step 2', 'rule'])
    page.key('Escape')
    page.begin(SMALLEST, 'another')
    page.value('undo(past, future)')
    page.wait()
    right('undo of another scenario', '[document.title, branches.length]', ['your own text · zplay', 2])
    return found


# What the map of the branches says of each, and what two of them show side by side.
LABELS = '[...document.querySelectorAll(".branch")].map(button => button.ariaLabel)'

BESIDE = ('[$("beside").querySelector("h2").textContent, ...[...$("beside").querySelectorAll("tr")].slice(1, 3).map(row => '
          '[row.cells[0], ...row.querySelectorAll("b, span")].map(part => part.textContent).join(" "))]')


def full(page):
    """What is wrong with as many choices as there may be, and with one more."""
    page.begin(NOTED.replace('C start\nend', 'A take x 4093\nend'))
    page.wait('document.querySelectorAll(".choice.still").length > 4 && wireframes.has(textHere())')
    steps, rows = page.value('[D.last, D.overview.rows]')
    found = [] if steps == 4096 and rows < 20 else ['4096 choices: %d in %d rows' % (steps, rows)]
    page.type(NOTED.replace('C start\nend', 'A take x 4094\nend'))
    fault = page.value('$("fault").textContent')
    return found + ([] if '4096' in fault else ['4097 choices: %r' % fault])


# Windows: their width, their height, and how large a pixel of the page is on them. The fourth is one of 1680 to 950 at a zoom of 200 %.
WINDOWS = [(1680, 950, 1), (1100, 900, 1), (1000, 700, 1), (840, 475, 2), (700, 900, 1), (380, 900, 1)]


# Whether the last letter of the goals text can be brought into sight, and nothing else is over it or below it.
READABLE = '''(language => {
  language.open = true;
  const text = language.querySelector('p'), letters = document.createRange();
  text.scrollIntoView({block: 'end'});
  letters.selectNodeContents(text);
  const {right, bottom} = [...letters.getClientRects()].pop(), part = $('next').getBoundingClientRect();
  const isThere = language.contains(document.elementFromPoint(right - 3, bottom - 3)) && bottom <= part.bottom;
  language.open = false;
  scrollTo(0, 0);
  return isThere;
})($('language'))'''


def narrow(page):
    """What is wrong with windows of some sizes: something is wider than the window, or a part has no room."""
    page.begin(content(os.path.join(EXAMPLES, 'migration.zephyr')).decode())
    page.value('show(2)')
    page.wait()
    page.choice('C kill 0')
    for width, height, scale in WINDOWS:
        page.resize(width=width, height=height, deviceScaleFactor=scale)
        page.wait('innerWidth === %d' % width)
        if page.value('document.documentElement.scrollWidth > innerWidth'):
            yield '%d wide: the page is %d' % (width, page.value('document.documentElement.scrollWidth'))
        for part in ('view', 'lanes', 'edit', 'tree', 'state'):
            room = page.value('(box => [box.width, box.height])($("%s").getBoundingClientRect())' % part)
            if room[0] < 150 or room[1] < 48:
                yield '%d to %d: %s has %d to %d' % (width, height, part, *room)
        if not page.value(READABLE):
            yield '%d to %d: the goals text cannot be read' % (width, height)
    page.resize(width=480, height=900)
    page.begin(NOTED)
    empty = page.value('$("view").getBoundingClientRect().bottom - $("below").getBoundingClientRect().bottom')
    if not 0 <= empty < 40:
        yield '480 wide: below a short picture are %d pixels' % empty
    page.resize()


def choose(page, value):
    """Chooses a scenario."""
    page.value('{ $("example").value = "%s"; $("example").onchange({target: $("example")}); }' % value)

"""What is tested of what stays in the page of zplay: buttons where they are, branches when the page is loaded again, lines with their numbers."""

from playing import ANOMALY, NOTED, SMALLEST, WAITING, bare

# Where each choice can be clicked.
PLACES = ('Object.fromEntries([...document.querySelectorAll(".choice")].map(it => '
          '[it.dataset.choice, (box => [box.left, box.top])(it.getBoundingClientRect())]))')

ROWS = '[...document.querySelectorAll(".lane:first-child .row")].map(row => row.textContent)'


def places(page):
    """What is wrong with the buttons when transactions begin, also in another order than that of their numbers, and end."""
    page.begin(bare(ANOMALY))
    before = page.value(PLACES)
    for choice in ('C begin 1', 'C begin 0'):
        page.choice(choice)
        after = page.value(PLACES)
        moved = [name for name in before if name in after and before[name] != after[name]]
        if moved or choice.replace('begin', 'kill') not in after:
            yield 'after %s these have moved: %s' % (choice, moved)
        before = after
    if [name for name in before if name.startswith('A')] != ['A take', 'A finish', 'A push', 'A run 1', 'A run 0']:
        yield 'the choices of A: %s' % list(before)
    page.choice('C kill 1')
    if page.value(ROWS) != ['reader active A', 'writer aborted A killed']:
        yield 'the rows of the client: %r' % page.value(ROWS)


def pictured(page):
    """What is wrong with the picture where a run takes the place of one that is as long."""
    for choice in ('A take', 'B take', 'A take'):
        page.type(SMALLEST.replace('end', choice + '\nend'))
        shown = page.value('[...document.querySelectorAll("#rows .c")].map(cell => cell.textContent)')
        if shown != ['opening', choice]:
            yield 'of %s the picture shows %r' % (choice, shown)


def reloaded(page):
    """What is wrong where the page is loaded again: the branches stay, and in an address with another run there are none of them."""
    page.begin(NOTED)
    page.value('show(2)')
    page.wait()
    page.choice('C kill 0')
    shown = '[current, previous, branches.map(branch => branch.text), doc.text, now]'
    page.value('store()')
    before, address = page.value(shown), page.value('location.hash')
    page.reload()
    page.wait()
    if page.value(shown) != before or before[:2] != [2, 1]:
        yield 'loaded again: %r' % page.value(shown)
    page.value('visit(1)')
    page.wait('current === 1 && !busy')
    page.value('removeBranch(2); store()')
    page.value('location.hash = %r' % address)
    page.wait('doc.text.includes("kill") && !busy')
    page.begin(SMALLEST)
    # From there on the page itself keeps none, which it would do a while after the last move.
    page.value('store().then(() => { keepBranches = () => {}; sessionStorage.setItem("branches", JSON.stringify('
               '{branches: [{id: 1, text: "x"}, {id: 2, text: "y"}], current: 1, previous: 2, own: []})); })')
    page.reload()
    page.wait()
    if page.value('branches.length') != 1:
        yield 'branches of another run come back'


# The number that each list of lines begins after, how many lines are above it, and how high it is said to be.
LISTS = ('(above => [...$("paint").querySelectorAll(".list")].map(list => { const old = above; above += list.childElementCount; '
         'return [list.style.counterReset, list.parentElement.style.containIntrinsicHeight, old, list.childElementCount]; }))(0)')

PAINTED = '[...$("paint").querySelectorAll(".line")].map(line => line.textContent).join("\\n") === doc.text'


def lines(page):
    """What is wrong with the lines of a long text: what is painted, and the numbers of the lines."""
    long = NOTED.replace('C start\n', 'C start\n' + 'B take\nA take\n' * 150)
    for text in (long, long.replace('row 10 1\n', 'row 10 1\n; more\n'), long.replace('B take\nA take\n', '', 60), NOTED, long):
        page.type(text)
        if not page.value(PAINTED):
            yield 'other lines are painted than there are'
        found = page.value(LISTS)
        if any([number, tall] != ['line %d' % above, '%dpx' % (18 * count)] for number, tall, above, count in found) or any(count > 200 for *_, count in found):
            yield 'the lists of lines: %r' % found
    page.value('show(D.last)')
    page.wait('$("text").value === doc.text')
    here = page.value('(line => [[...$("paint").querySelectorAll(".line")].indexOf(line), line.textContent])(document.querySelector(".here"))')
    inside = page.value('((line, box) => line.top >= box.top && line.bottom <= box.bottom)(document.querySelector(".here").getBoundingClientRect(), $("edit").getBoundingClientRect())')
    typed = page.value('(box => document.elementFromPoint(box.left + 60, box.top + 9).id)(document.querySelector(".here").getBoundingClientRect())')
    if typed != 'text':
        yield 'the line of the step cannot be typed into: a click there hits %r' % typed
    if here != [long.split('\n').index('end') - 1, 'A take'] or not inside:
        yield 'the line of the step: %r, %s' % (here, inside)
    page.begin(NOTED)
    if not page.value(WAITING % (5000, '$("text").value === doc.text')):
        yield 'what is typed in is the text from before'


def header(page):
    """What is wrong with the header in a window of 1400 pixels: words that are cut, or that lie over others."""
    page.begin(ANOMALY)
    page.resize(width=1400, height=900)
    page.wait('innerWidth === 1400')
    cut = page.value('[...document.querySelectorAll("header .chip")].filter(chip => chip.scrollWidth > chip.clientWidth + 1).map(chip => chip.textContent)')
    boxes = page.value('["chips", "here", "verdict", "link"].map(id => (box => [box.left, box.right])($(id).getBoundingClientRect()))')
    shown = page.value('[...document.querySelectorAll("#chips .chip, #verdict .chip")].every(chip => { const box = chip.getBoundingClientRect(); '
                       'return chip.contains(document.elementFromPoint(box.left + 4, box.top + box.height / 2)) && chip.contains(document.elementFromPoint(box.right - 4, box.top + box.height / 2)); })')
    page.resize()
    if cut or not shown or any(left[1] > right[0] + 1 for left, right in zip(boxes, boxes[1:])) or boxes[-1][1] > 1400:
        yield 'in a window of 1400 pixels: %r are cut, the boxes are at %r, all is in sight: %s' % (cut, boxes, shown)


def uncut(page):
    """What is wrong with words in a window of 1440 pixels: the names of those that can be killed, or the low keys of pages, are cut."""
    page.begin(ANOMALY)
    page.resize(width=1440, height=810)
    page.wait('innerWidth === 1440')
    page.value('show(12)')
    page.wait()
    shown = page.value('[...document.querySelectorAll(".kill b, .card small")].filter(it => it.scrollWidth <= it.clientWidth).map(it => it.textContent)')
    page.resize()
    if shown != ['kill reader', 'kill writer', '≥ 30', '≥ 0']:
        yield 'what is not cut is %r' % shown

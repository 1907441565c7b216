"""What is tested of links to the page of zplay and of what the command line names, and the page in Firefox."""

import json
import os
import tempfile

import firefox
from case import EXAMPLES
from play_page import choose
from playing import NOTED, SMALLEST, Play


def named(page):
    """What is wrong with a file, and with the address of another page, on the command line."""
    with tempfile.TemporaryDirectory() as work:
        path = os.path.join(work, 'my run.zephyr')
        with open(path, 'w', encoding='utf-8') as file:
            file.write(NOTED)
        with Play(path) as play:
            page.open(play.address)
            found = [] if (page.text(), page.value('document.title')) == (NOTED, 'my run · zplay') else ['a file: %r' % page.text()]
            choose(page, 'held')
            page.wait('$("example").value === "held" && D.lines.length > 17 && !busy')
            choose(page, 'own my run')
            page.wait('document.title === "my run · zplay" && D.last === 4 && !busy')
            page.value('show(1)')
            page.value('store()')
            link = page.value('location.href')
    with Play(link) as play:
        page.open(play.address)
        found += [] if (page.text(), page.value('now')) == (NOTED, 1) else ['a link: %r' % page.text()]
    return found + faulty(page)


def faulty(page):
    """What is wrong with a file that has a fault: it has a link, which leads to it, and nothing is done with the run that is not there; what is typed into it is
    there when the page is loaded again, and comes back once another text has taken its place."""
    typed = 'zephyr 1\ncap 2\npages'
    with tempfile.TemporaryDirectory() as work:
        path = os.path.join(work, 'faulty.zephyr')
        with open(path, 'w', encoding='utf-8') as file:
            file.write('zephyr 1\ncap\n')
        with Play(path) as play:
            page.go('about:blank')
            page.go(play.address)
            page.wait('$("fault").textContent')
            able = page.value('["cut", "migrate"].filter(id => !$(id).disabled)')
            page.value('store()')
            linked = page.value('linked(location.hash)')
            if able or linked != {'text': 'zephyr 1\ncap\n', 'at': 0}:
                return ['a faulty file: %r can be clicked, the link has %r' % (able, linked)]
            page.type(typed)
            page.value('new Promise(done => setTimeout(done, 400))')
            page.reload()
            page.wait('$("fault").textContent')
            if page.text() != typed:
                return ['what was typed into a faulty file, loaded again: %r' % page.text()]
            choose(page, 'held')
            page.wait('document.title === "held · zplay" && D && !busy')
            page.value('guarded(undo)(past, future)')
            page.wait('!busy')
            found = [] if page.text() == typed else ['what was typed into a faulty file: %r' % page.text()]
            page.begin(SMALLEST)
            page.value('fork(doc.text)')
            page.type(typed)
            page.value('new Promise(done => setTimeout(done, 400))')
            page.reload()
            page.wait('$("fault").textContent')
            page.value('guarded(cut)()')
            shown = page.value('[branches.length, $("tree").hidden, $("note").textContent]')
            return found + ([] if shown == [2, False, ''] else ['branches of a faulty text, loaded again: %r' % shown])


# What a page shows of a link: its fault, its text, its title, and whether there is a run.
DAMAGED = '[$("fault").textContent.startsWith("the link is damaged"), $("text").value, document.title, !!D]'


def sum_of(letters):
    """The checksum of a link: FNV-1a of 32 bits, in 7 digits and letters."""
    value = 0x811c9dc5
    for letter in letters.encode():
        value = (value ^ letter) * 0x01000193 % (1 << 32)
    digits = ''
    while value or len(digits) < 7:
        value, digit = divmod(value, 36)
        digits = '0123456789abcdefghijklmnopqrstuvwxyz'[digit] + digits
    return digits


def damages(run, checksum):
    """What follows the # of links that are damaged: cut short, or with a letter changed, put in or left out."""
    word, many = '%s.%s' % (run, checksum), len(run) + 8
    yield from (word[:-9], word[:-3], '7', '7.x', run + '.', '1' + word)
    for place in (*range(0, len(run), max(1, len(run) // 12)), *range(len(run) + 1, many)):
        yield word[:place] + ('1' if word[place] != '1' else '2') + word[place + 1:]
        yield word[:place] + word[place + 1:]


def links(page):
    """What is wrong with links: damaged ones, where no run is shown yet and where one is; one without a checksum; and names of what comes by one."""
    found = []
    with Play() as play:
        page.open(play.address)
        page.value('store()')
        address, text, title = page.value('[location.href, doc.text, document.title]')
        start, _, word = address.partition('#')
        run, _, checksum = word.rpartition('.')
        found += [] if checksum == sum_of(run) else ['the checksum is %s' % checksum]
        unread = [damaged for damaged in damages(run, checksum) if page.value('linked(%s)' % json.dumps('#' + damaged))]
        found += ['a damaged link is read: %s' % damaged for damaged in unread]
        for damaged in (word[:-9], '7'):
            page.go('about:blank')
            page.go(start + '#' + damaged)
            page.wait('$("fault").textContent')
            shown = page.value(DAMAGED)
            found += [] if shown == [True, '', 'zplay', False] else ['%s: %r' % (damaged[-12:], shown)]
            able = page.value('["link", "cut", "migrate"].filter(id => !$(id).disabled)')
            found += ['%s: with no run there is %s' % (damaged[-12:], able)] if able else []
        page.type('zephyr 1')
        found += ['a faulty text has no link'] if page.value('$("link").disabled') else []
        page.type(SMALLEST)
        page.wait()
        shown = page.value('[D.last, $("fault").textContent, document.title, $("link").disabled]')
        found += [] if shown == [0, '', 'your own text · zplay', False] else ['a text that is typed instead: %r' % shown]
        page.go('about:blank')
        page.go(start + '#' + run)
        page.wait()
        shown = page.value('[doc.text, document.title, location.hash]')
        found += [] if shown[:2] == [text, title] else ['without a checksum: %r' % shown]
        page.value('location.hash = location.hash.slice(0, -9)')
        page.wait('$("fault").textContent && $("text").value && location.href === %s' % json.dumps(address))
        shown = page.value(DAMAGED)
        found += [] if shown == [True, text, title, True] else ['behind a run: %r' % shown]
        return found + arrived(page)


def arrived(page):
    """What is wrong with the name of a run that comes by a link where another one is shown, with undo there, and where the page is loaded again."""
    page.type(NOTED)
    page.value('store()')
    link = page.value('location.hash')
    page.begin(SMALLEST, 'x')
    page.value('store()')
    page.value('location.hash = %s' % json.dumps(link))
    page.wait('doc.text === %s && !busy' % json.dumps(NOTED))
    names = [page.value('document.title + $("note").textContent')]
    page.value('$("view").focus()')
    page.key('u', 'u')
    page.wait('doc.text === %s && !busy' % json.dumps(SMALLEST))
    page.value('location.hash = ""')
    page.wait('doc.text === given.text && !busy')
    page.value('$("view").focus()')
    page.key('u', 'u')
    page.wait('doc.text === %s && !busy' % json.dumps(SMALLEST))
    page.type(SMALLEST.replace('cap 2', 'cap 3'))
    page.value('store()')
    page.reload()
    page.wait('D && document.title !== "anomaly · zplay"')
    names.append(page.value('document.title'))
    return [] if names == ['from a link · zplayx is put aside; undo brings it back', 'your own text · zplay'] else ['names: %r' % names]


# Whether the verdict and the outcomes of the next choices are shown, and the words in some places of the page, without the names of its script.
SHOWN = '!document.querySelector(".pending") && document.querySelectorAll(".choice span").length > 0 && [...document.querySelectorAll(".choice span")].every(it => it.textContent !== "…")'

WORDS = '["where", "line", "here", "report"].map(id => document.getElementById(id).textContent)'


def in_firefox():
    """What is wrong with a click, a branch, a search and the address in Firefox."""
    with Play(os.path.join(EXAMPLES, 'anomaly.zephyr')) as play:
        page = firefox.Firefox(play.address)
        try:
            page.wait(SHOWN)
            found = [page.value(WORDS)]
            page.click('#first')
            page.wait('document.getElementById("where").textContent === "0 of 18"')
            page.wait(SHOWN)
            page.click('[data-choice="C start"]')
            page.wait('document.getElementById("where").textContent === "1 of 1"')
            page.type('#goal', 'then got page')
            page.click('#go')
            page.wait('document.querySelectorAll(".branch").length === 3')
            page.wait('/^#8[.]/.test(location.hash)')
            page.wait(SHOWN)
            found.append(page.value(WORDS))
        finally:
            page.close()
    wanted = [['18 of 18', '18 A run 0 → committed 2', 'serial differs', ''], ['8 of 8', '8 B take → got page 0', 'serial same', found[-1][3]]]
    return [] if found == wanted and ' 7 choices lead there' in found[1][3] else ['shown: %r' % found]

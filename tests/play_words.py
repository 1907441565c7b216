"""What is tested of the words of the page of zplay: what they mean, and what a screen reader reads."""

import re

from playing import NOTED


def words(page):
    """What is wrong with what words mean, where the pointer or the focus rests on them, for a screen reader, and in the list of them."""
    page.begin(NOTED)
    page.wait('wireframes.has(textHere())')
    for selector, wanted in TIPS.items():
        shown = page.rest(selector)
        if shown != wanted:
            yield 'at %s: %r' % (selector, shown)
    page.value('$("view").focus()')
    page.rest('#lanes h3 i')
    page.key('Escape')
    if not page.value('$("tip").hidden'):
        yield 'Esc does not take it away'
    page.key('a')
    page.key('ArrowUp')
    shown = page.tip()
    page.key('Escape')
    if shown != 'A node is in a mode in which this is not done.' or not page.value('$("tip").hidden'):
        yield 'by keys: %r' % shown
    page.key('e')
    page.value('document.querySelector("#lanes h3 i").focus()')
    if page.tip() != 'a source that has sent its wireframe':
        yield 'at a mode that has the focus: %r' % page.tip()
    page.call('Accessibility.enable')
    told = [(node['name']['value'], node.get('description', {}).get('value')) for node in page.call('Accessibility.getFullAXTree')['nodes']
            if node.get('name') and not node.get('ignored')]
    page.call('Accessibility.disable')
    for name, meaning in TOLD:
        if (name, meaning) not in told:
            yield 'a screen reader does not say of %s: %s' % (name, meaning)
    listed = page.value('[...$("legend").querySelectorAll("dt")].map(word => word.textContent)')
    missing = {'cap', 'pages', 'rule held', 'rule loose', '!', 'badmode', 'normal', 'empty', *('sinit sdual sfinish dinit ddual dfinish'.split())} - set(listed)
    if missing or page.value('[...$("legend").querySelectorAll("dd")].some(meaning => meaning.textContent.length < 10)'):
        yield 'the list of words lacks %r' % missing
    page.begin(NOTED.replace('held', 'loose'))
    shown = page.rest('#chips .chip:nth-child(2)')
    if not shown.startswith('a page that is asked for is handed over'):
        yield 'of loose: %r' % shown


# What some words mean behind NOTED, by docs/glossary.md, docs/formats.md and what its next choices come to.
TIPS = {'#chips .chip:nth-child(3)': 'the most rows of a page',
        '#chips .chip:nth-child(2)': 'a page that a transaction at the source has locked is not handed over before the lock is dropped',
        '.choice[data-choice="B push"]': 'A node is in a mode in which this is not done.',
        '.choice[data-choice="B take"]': 'That message is taken. It sends the message ready.\nmode B dinit\nlink AB\nlink BA ready',
        '#rows .band.sinit': 'a source that has sent its wireframe',
        '.queue span': 'the message: this is the wireframe', '#rows .word': 'the message: this is the wireframe',
        '#nodes dd small': 'the wireframe: the least key of each page, and the number of the page; a page has the keys from there up to the low key of the next one',
        '#nodes .wire': 'page 0 has the keys from 0 on', '.card small': 'the low key of this page: it has the keys from 0 on',
        '.card code': 'the row at key 10 has the value 1', '.card .lockt': 'a lock of this transaction on the page: shared with others that read, or exclusive',
        '.regs span': 'register r0 of this transaction has the value 10',
        '#search label': 'lets the client kill transactions in the schedules that are looked at'}

TOLD = [('cap 4', 'the most rows of a page'), ('take, nomessage, changes nothing', 'The link is empty.'),
        ('sinit', 'a source that has sent its wireframe'), ('take, wire, got wire ! ready', 'That message is taken. It sends the message ready.')]


# The roles of what a user moves to, or hears of.
ROLES = ('button', 'link', 'textbox', 'combobox', 'slider', 'checkbox', 'spinbutton', 'DisclosureTriangle', 'complementary', 'navigation', 'region', 'heading')


def read_aloud(page):
    """What is wrong with the tree of a screen reader: names, and what is said after a click."""
    page.begin(NOTED)
    page.value('show(1)')
    page.wait()
    page.choice('C start')
    page.call('Accessibility.enable')
    nodes = page.call('Accessibility.getFullAXTree')['nodes']
    page.call('Accessibility.disable')
    named = [(node['role']['value'], node.get('name', {}).get('value', '')) for node in nodes if not node.get('ignored')]
    for role, name in named:
        if role in ROLES and not re.search('[a-z]{2}', name):
            yield 'a %s is named %r' % (role, name)
    for wanted in (('button', 'kill reader, aborted killed'), ('button', 'branch 1: 4 steps, serial same'), ('button', 'take, nomessage, changes nothing'),
                   ('textbox', 'the scenario'), ('combobox', 'the goal'),
                   ('button', 'one step back'), ('button', 'run reader until it waits, asks for a page, ends or can do nothing')):
        if wanted not in named:
            yield 'there is no %s named %r' % wanted
    page.choice('C kill 0')
    said = page.value('[...document.querySelectorAll("[role=status]")].map(box => box.textContent).join(" ")')
    if not re.search(r'3 C kill 0 → aborted killed.*the client killed it', said):
        yield 'after a click is said %r' % said

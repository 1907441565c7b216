#!/usr/bin/env python3
"""Finds the definitions that a reader must believe: those of which a contract of a command speaks, or a law, by itself or by way of others.

    tools/believe.py            prints docs/believe.md
    tools/believe.py --check    compares it with that file; the status is 0 where they are the same, and 1 where they are not

It reads the names in contracts and definitions as the imports of their files have them. A definition that nothing here reaches is there for proofs
alone, or for contracts between crates."""

import collections
import glob
import itertools
import os
import re
import sys

TOP = os.path.dirname(os.path.dirname(os.path.realpath(__file__)))
CRATES = os.path.join(TOP, 'crates')
PAGE = os.path.join(TOP, 'docs', 'believe.md')

# What a reader goes through, in this order: a title, what it says, definitions to begin with, and the files whose public functions' contracts do.
PARTS = [
    ('The step table', 'One step, and the run of a schedule from the opening.', ['zy_table.specs.Play.step', 'zy_table.specs.Play.play',
                                                                               'zy_table.specs.Play.opening', 'zy_table.specs.Play.entries'], []),
    ('Serializability and ownership', 'What holds of every schedule.', [],
     ['zy_laws/src/laws.rt', 'zy_machine/src/machine.rt', 'zy_serial/src/laws.rt', 'zy_serial/src/order.rt', 'zy_serial/src/explaining.rt']),
    ('What an outcome says', 'Where some outcomes come, what each tells of its step, what is on its way, and how a transaction gets on.', [], ['zy_outcomes/src/laws.rt']),
    ('Which steps commute, and which states are alike', 'What the searches rely on.', [],
     ['zy_steps/src/laws.rt', 'zy_state_ids/src/laws.rt', 'zy_step_cache/src/laws.rt']),
    ('Texts, images and listings', 'What `run`, `trace`, `asm`, `dis` and `check` read and write.', [],
     ['zy_engine/src/engine.rt', 'zy_engine/src/checking.rt', 'zy_first/src/run.rt', 'zy_asm/src/names.rt', 'zy_check/src/laws.rt',
      'zy_trace/src/laws.rt']),
    ('Threads and the debugger', 'What `threads` and `debug` do.', [],
     ['zy_engine/src/threading.rt', 'zy_engine/src/debugging.rt', 'zy_engine/src/laws.rt', 'zy_threads/src/laws.rt', 'zy_debug_text/src/laws.rt']),
    ('Goals and the search', 'What `search`, `find` and `end` answer, and what the words of a goal mean.', [],
     ['zy_engine/src/searching.rt', 'zy_engine/src/finding.rt', 'zy_engine/src/ending.rt', 'zy_queries/src/reading.rt', 'zy_search/src/search.rt', 'zy_search/src/laws.rt']),
    ('Logs', 'What lines of logs say, which order fits them, what the logs of a run tell of its migration order, that they read a listing, and what `order` does.',
     [],
     ['zy_logs/src/logs.rt', 'zy_logs/src/log_line.rt', 'zy_logs/src/laws.rt', 'zy_order/src/order.rt', 'zy_order_laws/src/laws.rt',
      'zy_log_laws/src/laws.rt', 'zy_patterns/src/laws.rt',
      'zy_order_engine/src/ordering.rt', 'zy_order_engine/src/behind.rt', 'zy_order_engine/src/laws.rt', 'zy_json/src/laws.rt']),
]

HEAD = '''# What must be believed

The prover checks that the code meets its contracts. Whether a contract says what you want is for you to judge. Contracts use the definitions in `specs/` and
the types of the code. This page lists those that the contracts of the commands and the laws use, directly or through others, each file after those that it
uses; a file has a row in each part that adds definitions of it, and *New* counts their lines. What is in `specs/` and not listed here is there for proofs, or
for contracts between crates, of which the promises name some. Of the standard library's definitions they use those of numbers, lists, options, results, maps,
strings, memory and streams, and for `order --json` those of JSON in the library `json`.

For the first theorem of the README read the first two parts: it is the contract of `run_all` in
[`zy_machine`](../crates/zy_machine/src/machine.rt), and the laws `strictly_serializable`, `one_owner`, `serializable` and `no_dead_end` in
[`zy_laws`](../crates/zy_laws/src/laws.rt). [The promises](promises.md) name the function of each theorem, and [the step table](step-table.md) the definition,
function and proof of each of its lines.

`tools/believe.py` makes this page from the imports of the files, and a test compares it.
'''

IMPORT = re.compile(r'^[ ]*(pub )?(?:ghost )?use (Rattle\.zy_[\w.\']+?)(?:\.\{([^}]*)\}| as (\S+?))?;?[ ]*$', re.MULTILINE)
BEGIN = re.compile(r'^(?:  )?(?:abbrev pub|pub record|pub data|unfoldable pub) (?:\{[^}]*\} )?([^\s:(]+)')
CASE = re.compile(r'^\s+([^\s:(]+)\s*:')
CONTRACT = re.compile(r'^( *)pub fn .*?^\1\{', re.MULTILINE | re.DOTALL)
TOKEN = re.compile(r'[^\s(){}\[\],;|λ]+')

Definition = collections.namedtuple('Definition', 'module name number lines')
Type = collections.namedtuple('Type', 'path name')


def content(path):
    with open(path, encoding='utf-8') as file:
        return file.read()


def without_comments(text):
    return '\n'.join(line for line in text.split('\n') if not line.lstrip().startswith(('--', '//')))


def type_at(path):
    """The type of the code that a path of the logic is of, or is a variant of."""
    crate, _, rest = path.partition('.specs.declared.')
    words = rest.split('.')
    folders = list(itertools.takewhile(lambda word: word[0].islower(), words))
    source = os.path.join(CRATES, crate.partition('.')[2], 'src', *folders) + '.rt'
    return Type(source, words[len(folders)])


class Imports:
    """The names that a file has from others: by themselves, or behind the name of a module. Those that it passes on are noted, too."""

    def __init__(self, text):
        self.names, self.modules, self.passed = {}, {}, {}
        for passed, path, names, alias in IMPORT.findall(text):
            if alias:
                self.modules[alias] = path
            for name in filter(None, map(str.strip, names.split(','))):
                of, _, here = name.partition(' as ')
                self.names[here or of] = path + '.' + of
                if passed:
                    self.passed[here or of] = path + '.' + of


class Module:
    """A file of definitions."""

    def __init__(self, path):
        self.path = path
        self.name = 'Rattle.' + os.path.relpath(path, CRATES)[:-len('.antt')].replace('/', '.')
        text = content(path)
        self.imports = Imports(text)
        self.definitions, self.cases = {}, {}
        lines = text.split('\n')
        begins = [number for number, line in enumerate(lines) if BEGIN.match(line)]
        for number, end in zip(begins, [*begins[1:], len(lines)]):
            self.add(number, lines[number:end])

    def add(self, number, lines):
        while len(lines) > 1 and (not lines[-1].strip() or lines[-1].lstrip().startswith(('--', 'module ', 'infix'))):
            lines = lines[:-1]
        name = BEGIN.match(lines[0])[1]
        self.definitions[name] = Definition(self, name, number, tuple(lines))
        if lines[0].lstrip().startswith('pub data'):
            self.cases.update((case[1], name) for case in map(CASE.match, lines[1:]) if case)


class Library:
    """All definitions, and what each of them uses."""

    def __init__(self):
        paths = sorted(glob.glob(os.path.join(glob.escape(CRATES), '*', 'specs', '**', '*.antt'), recursive=True))
        self.modules = {module.name: module for module in map(Module, paths)}

    def find(self, path):
        """The definition with this path, or the file of code with this type; none where it is neither."""
        module, _, name = path.rpartition('.')
        if '.specs.declared.' in path:
            return type_at(path)
        found = self.modules.get(module)
        if not found:
            return None
        name = found.cases.get(name, name)
        if name in found.definitions:
            return found.definitions[name]
        return self.find(found.imports.passed[name]) if name in found.imports.passed else None

    def used_by(self, text, imports, module=None):
        """What the words of a text name, as the imports of its file have them."""
        words = set(TOKEN.findall(without_comments(text)))
        if 'do' in words or '←' in words:
            words.add('>>=')
        for word in words:
            path = self.path_of(word.strip('.'), imports, module)
            found = path and self.find(path)
            if found:
                yield found

    def path_of(self, word, imports, module):
        """The path of what a word names; none where it is no import and no definition of its module."""
        first, _, rest = word.partition('.')
        for name in (word, '◌%s◌' % word):
            if module and (name in module.definitions or name in module.cases):
                return '%s.%s' % (module.name, name)
            if name in imports.names:
                return imports.names[name]
        if rest and first in imports.modules:
            return '%s.%s' % (imports.modules[first], rest)
        return '%s.%s' % (imports.names[first], rest) if rest and first in imports.names else None

    def uses(self, item):
        """What a definition uses. What the type of a field is stands in the code, where a reader sees it."""
        return [] if isinstance(item, Type) else self.used_by('\n'.join(item.lines), item.module.imports, item.module)

    def reached(self, items):
        """The items, and all that they use by way of others."""
        found, todo = set(), list(items)
        while todo:
            item = todo.pop()
            if item not in found:
                found.add(item)
                todo += self.uses(item)
        return found

    def roots(self, names, files):
        """What a part begins with."""
        yield from filter(None, (self.find('Rattle.' + name) for name in names))
        for file in files:
            text = content(os.path.join(CRATES, file))
            for contract in CONTRACT.finditer(text):
                yield from self.used_by(contract[0], Imports(text))


def path_of(item):
    return item.path if isinstance(item, Type) else item.module.path


def in_order(library, items):
    """The files of items, each behind those that it uses, with its items in order."""
    files, done = collections.defaultdict(list), []
    for item in items:
        files[path_of(item)].append(item)

    def visit(path, above):
        if path in done or path in above:
            return
        for used in sorted({path_of(used) for item in files[path] for used in library.uses(item)} & files.keys()):
            visit(used, above | {path})
        done.append(path)

    for path in sorted(files):
        visit(path, frozenset())
    return [(path, sorted(files[path], key=lambda item: item.name if isinstance(item, Type) else item.number)) for path in done]


def counted(number, word):
    return '%d %s%s' % (number, word, '' if number == 1 else 's')


def row(path, items):
    """A line of a part's table: a file, and what of it is to be believed."""
    name = os.path.relpath(path, CRATES)
    types = isinstance(items[0], Type)
    said = counted(len(items), 'type') if types else counted(sum(len(item.lines) for item in items), 'line')
    return '| [`%s`](../crates/%s) | %s | %s |' % (name, name, said, ' '.join('`%s`' % item.name.replace('|', '\\|') for item in items))


def part(library, title, about, items):
    """A part of the page."""
    definitions = [item for item in items if isinstance(item, Definition)]
    lines = sum(len(item.lines) for item in definitions)
    types = len(items) - len(definitions)
    yield '\n## %s\n\n%s %s of %s, and %s of the code.\n' % (
        title, about, counted(len(definitions), 'definition'), counted(lines, 'line'), counted(types, 'type'))
    yield '| File | New | What it defines |\n|---|---|---|'
    yield from (row(*file) for file in in_order(library, items))


def page():
    """The page, line by line."""
    library, seen = Library(), set()
    yield HEAD.rstrip()
    for title, about, names, files in PARTS:
        reached = library.reached(library.roots(names, files))
        yield from part(library, title, about, reached - seen)
        seen |= reached


def main(words):
    text = '\n'.join(page()) + '\n'
    if not words:
        sys.stdout.write(text)
        return 0
    if words != ['--check']:
        print('believe.py: the only word that it takes is --check', file=sys.stderr)
        return 2
    if content(PAGE) == text:
        return 0
    print('docs/believe.md is not what tools/believe.py makes', file=sys.stderr)
    return 1


if __name__ == '__main__':
    sys.exit(main(sys.argv[1:]))

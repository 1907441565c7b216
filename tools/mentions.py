#!/usr/bin/env python3
"""Finds the files that name an instruction, a choice, an outcome, a fact of goals or the like: those that a new one touches, too.

    tools/mentions.py KIND EXAMPLE    prints the files that name the example, by group
    tools/mentions.py --write         puts the lists of CONTRIBUTING.md there again, each below a line `<!--mentions KIND EXAMPLE-->`
    tools/mentions.py --check         compares them with those there; the status is 0 where they are the same, and 1 where they are not

Such a line may go on with `beyond KIND EXAMPLE`, which takes out the files of another example, and with `in GROUP`.

A file of a crate names an example by a variant or a constructor, as its imports have it, or by a text that is its word. Any other file names it by such a
text, or by a text that lists words of the kind. Left out are files that use examples or quote other files: scenarios, cases, mutants, pages of scripts."""

import collections
import functools
import glob
import io
import itertools
import os
import re
import sys
import tokenize

import believe

TOP = believe.TOP
CONTRIBUTING = 'CONTRIBUTING.md'

# The names of a kind are the variants or constructors of some types in one file, or, where there is no such file, these words. `form` is how a text names one
# by itself, and `count` how many names a text has that lists them; what has no form has no words.
Kind = collections.namedtuple('Kind', 'file types form count')
ALONE = r'\s?%s|%s\s?'
NUMBERED = ALONE + r'|(?s:.*)\b%s %d(?s:.*)'
KINDS = {
    'instruction': Kind('crates/zy_isa/src/instr.rt', ['Instr'], ALONE, 3),
    'effect': Kind('crates/zy_table/src/effect.rt', ['Effect'], None, 0),
    'event': Kind('crates/zy_laws/proofs/walk/Events.antt', ['Event'], None, 0),
    'choice': Kind('crates/zy_isa/src/choice.rt', ['Choice'], ALONE, 4),
    'outcome': Kind('crates/zy_table/src/outcome.rt', ['Outcome'], NUMBERED, 4),
    'reason': Kind('crates/zy_table/src/outcome.rt', ['Why'], NUMBERED, 3),
    'fact': Kind('crates/zy_goals/src/goal.rt', ['Fact', 'StateFact'], r'%s|\w+ [0-9PT] %s', 5),
    'column': Kind(None, ['low', 'rows', 'locks', 'pc', 'done', 'regs', 'private'], ALONE, 3),
    'command': Kind('crates/zy_diagnostics/src/command.rt', ['CommandName'], r'(?s:.*)zy_bench %s(?![.\w])(?s:.*)', 6),
    'flag': Kind('crates/zy_cli/src/arguments.rt', ['Argument'], r'(?s:.*)(?<![\w-])(--|-l )%s(?![\w-])(?s:.*)', 99),
    'definition': Kind(None, [], None, 0),
}

GROUPS = ('definitions', 'code', 'proofs', 'scripts', 'tests', 'docs', 'editors')
FOLDERS = {'specs': 'definitions', 'src': 'code', 'proofs': 'proofs', 'tests': 'tests', 'docs': 'docs', 'README.md': 'docs', 'editors': 'editors',
           'completions': 'editors'}
LOOKED_AT = ('crates', 'tools', 'zy_bench', 'zdb', 'zlogs', 'zplay', 'zsuite', 'zview', 'examples/store', 'tests', 'docs', 'README.md', 'editors', 'completions')
LEFT_OUT = re.compile(r'tests/(cases/(?!help-of)|mutants/|asked/|needed-runs|faults\.py|mentions)|docs/(believe\.md|logs/|pictures/)|tools/mentions\.py|.*\.zephyr$')

ENUM = re.compile(r'^(?:pub(?:\(crate\))? )?enum (\w+)[^{]*\{\n(.*?)^\}', re.MULTILINE | re.DOTALL)
VARIANT = re.compile(r'^    (\w+)', re.MULTILINE)
DEFINITION = r'^(?:  )?(?:abbrev pub|pub record|pub data|unfoldable pub) (?:\{[^}]*\} )?%s[\s:(]'
DATA = re.compile(r'^pub data (\w+).*? where\n((?:  .*\n)+)', re.MULTILINE)
CONSTRUCTOR = re.compile(r'^  (\w+) :', re.MULTILINE)
LITERAL = re.compile(r'"((?:[^"\\]|\\.)*)"', re.DOTALL)
WORD = re.compile(r'\w+')
LIST = re.compile(r'^(<!--mentions (\w+) (\w+)(?: beyond (\w+) (\w+))?(?: in (\w+))?-->\n)(?:- .*\n)*', re.MULTILINE)

Type = collections.namedtuple('Type', 'file name names')


@functools.lru_cache(None)
def content(path):
    """A file of the repository, '' for what is no text."""
    try:
        return believe.content(os.path.join(TOP, path))
    except UnicodeDecodeError:
        return ''


@functools.lru_cache(None)
def files_in(name):
    """The files of a folder, or a file by itself, by their paths in the repository."""
    top = os.path.join(TOP, name)
    found = [top] if os.path.isfile(top) else glob.glob(os.path.join(glob.escape(top), '**', '*'), recursive=True)
    return sorted(os.path.relpath(path, TOP) for path in found if '/out/' not in path and '__pycache__' not in path and os.path.isfile(path))


def group_of(path):
    """The group of a file; none for what is left out."""
    first, *rest = path.split('/')
    if LEFT_OUT.match(path) or path == CONTRIBUTING:
        return None
    if first == 'crates':
        crate, *inner = rest
        return 'tests' if crate in ('zy_tests', 'zy_alloc_failures') else FOLDERS.get(inner[0]) if inner else None
    return FOLDERS.get(first, 'scripts')


# Names

def spelled(name):
    """A name as a word of texts: that of `BadMode` is `badmode`."""
    return name.replace('_', '').lower()


@functools.lru_cache(None)
def types_in(path):
    """The enums of a file of code, or the data of one of the logic."""
    pattern, names = (ENUM, VARIANT) if path.endswith('.rt') else (DATA, CONSTRUCTOR)
    return [Type(path, name, tuple(names.findall(body))) for name, body in pattern.findall(content(path))]


def own_types(kind):
    return [one for one in types_in(kind.file) if one.name in kind.types] if kind.file else []


def words_of(kind):
    """The words of a kind. A reason of an abort is a fact, too."""
    kinds = (kind, KINDS['reason']) if kind is KINDS['fact'] else (kind,)
    return {spelled(name) for each in kinds for one in own_types(each) for name in one.names} if kind.file else set(kind.types)


def types_of(kind):
    """The types of a kind: its own, and each other one most of whose names are words of the kind."""
    words = words_of(kind)
    every = itertools.chain.from_iterable(map(types_in, files_in('crates')))
    return own_types(kind) + [one for one in every if 2 * sum(spelled(name) in words for name in one.names) > len(one.names)]


def logic_name(file, of, name):
    """A variant or a constructor as the logic names it."""
    _, crate, folder, rest = os.path.splitext(file)[0].split('/', 3)
    rest = rest.replace('/', '.')
    if folder == 'src':
        return 'Rattle.%s.specs.declared.%s.%s.TheVariants.%s' % (crate, rest, of, name)
    return 'Rattle.%s.%s.%s.%s' % (crate, folder, rest, name)


@functools.lru_cache(None)
def names_in(path):
    """What a file of a crate names: variants as the code has them, and whatever its imports give."""
    text = believe.without_comments(content(path))
    imports = believe.Imports(text)
    found = set(re.findall(r'\b\w+::\w+\b', text))
    for token in believe.TOKEN.findall(believe.IMPORT.sub('', text)):
        first, _, rest = token.partition('.')
        found.add(imports.names.get(token) or '%s.%s' % (imports.modules.get(first), rest))
    return found


# Texts

def script_texts(path, text):
    """The strings of a script in Python but for its documentation, the lines of another file but for its comments."""
    if not path.endswith('.py') and 'python' not in text.split('\n')[0]:
        yield from (line for line in text.split('\n') if not line.lstrip().startswith(('#', '//', '/*')))
        return
    before = None
    for token in tokenize.generate_tokens(io.StringIO(text).readline):
        if token.type == tokenize.STRING and before not in (None, tokenize.INDENT, tokenize.NEWLINE):
            yield token.string.strip('frb').strip('\'"')
        if token.type not in (tokenize.NL, tokenize.COMMENT):
            before = token.type


def page_texts(text):
    """The code spans of a page, those of a paragraph or a table together, what the first cell of a row lists, and the lines of code."""
    for block in re.findall(r'^```\n(.*?)^```', text, re.MULTILINE | re.DOTALL):
        yield from block.split('\n')
    for block in re.sub(r'^```.*?^```', '', text, flags=re.MULTILINE | re.DOTALL).split('\n\n'):
        spans = re.findall('`([^`]+)`', block)
        yield from (*spans, ' '.join(spans))
        for cell in re.findall(r'^\| ([^|]*) \|', block, re.MULTILINE):
            yield from re.split('[,;] ', cell)


def texts_in(path):
    """The texts by which a file may name an example."""
    text = content(path)
    if path.startswith('crates/'):
        return LITERAL.findall(believe.without_comments(text).replace("'\"'", ''))
    if path.endswith('.md'):
        return page_texts(text)
    if path.startswith('docs/man/'):
        return text.replace('\\-', '-').split('\n.TP')
    if path.endswith('.html'):
        return re.findall('>([^<>]+)<', text)
    if path == 'tests/searched' or path.endswith('goals'):
        return WORD.findall(text)
    return script_texts(path, text)


def is_named(kind, word, path):
    """Whether a text of a file names an example, by itself or in a list. In the crate of goals each text with the word of a fact does."""
    count = 1 if kind is KINDS['fact'] and path.startswith(('crates/zy_goals/', 'crates/zy_queries/')) else kind.count
    for text in texts_in(path) if kind.form and word in content(path) else ():
        found = set(WORD.findall(text)) if word in text else ()
        if found and re.fullmatch(kind.form.replace('%s', word), text) or word in found and len(words_of(kind) & found) >= count:
            return True
    return False


# Lists

def variants(kind, example):
    """The file, the type and the name of each variant that an example is; of a definition the file and the name."""
    if kind == 'definition':
        pattern = re.compile(DEFINITION % re.escape(example), re.MULTILINE)
        return [(path, '', example) for path in files_in('crates') if '/specs/' in path and pattern.search(content(path))]
    return [(one.file, one.name, name) for one in types_of(KINDS[kind]) for name in one.names if spelled(name) == spelled(example)]


def mentions(kind, example):
    """The files that name an example, by group."""
    found, known = {group: [] for group in GROUPS}, variants(kind, example)
    homes = {file for file, _, _ in known}
    names = {'%s::%s' % (of, name) for _, of, name in known} | {logic_name(*variant) for variant in known}
    for path in itertools.chain.from_iterable(map(files_in, LOOKED_AT)):
        by_name = path in homes or path.startswith('crates/') and names_in(path) & names
        if group_of(path) and (by_name or is_named(KINDS[kind], spelled(example), path)):
            found[group_of(path)].append(path)
    return found


def folded(paths):
    """Paths with those of one folder together, as a shell takes them: `tests/{goals,searched}`."""
    together = collections.defaultdict(list)
    for path in paths:
        parts = path.removeprefix('crates/').split('/')
        folder = '/'.join(parts[:2 if path.startswith('crates/') else 1][:len(parts) - 1])
        name, end = os.path.splitext('/'.join(parts)[len(folder):].lstrip('/'))
        together[folder + '/' if folder else '', end].append(name)
    return ['%s%s%s' % (folder, names[0] if len(names) == 1 else '{%s}' % ','.join(names), end) for (folder, end), names in together.items()]


def listed(kind, example, other_kind=None, other=None, only=None):
    """The list of an example, without the files of another one, line by line."""
    found, less = mentions(kind, example), mentions(other_kind, other) if other else {}
    for group in [only] if only else GROUPS:
        paths = [path for path in found[group] if path not in less.get(group, ())]
        if paths:
            yield '- %s: %s\n' % (group, ' '.join('`%s`' % path for path in folded(paths)))


def guide():
    """CONTRIBUTING.md with its lists as they are to be."""
    return LIST.sub(lambda found: found[1] + ''.join(listed(*found.groups()[1:])), content(CONTRIBUTING))


def main(words):
    if words == ['--write']:
        with open(os.path.join(TOP, CONTRIBUTING), 'r+', encoding='utf-8') as file:
            text = guide()
            file.truncate(0)
            file.write(text)
        return 0
    if words == ['--check']:
        if guide() == content(CONTRIBUTING):
            return 0
        print('a list of CONTRIBUTING.md is not what tools/mentions.py finds: tools/mentions.py --write puts it right', file=sys.stderr)
        return 1
    if len(words) != 2 or words[0] not in KINDS:
        print('mentions.py: takes --write, --check, or a kind and an example: %s' % ' '.join(KINDS), file=sys.stderr)
        return 2
    sys.stdout.writelines(listed(*words))
    return 0


if __name__ == '__main__':
    sys.exit(main(sys.argv[1:]))

"""A copy of the repository for tests/planted and tests/unproved, with programs that are built without proofs."""

import hashlib
import os
import shutil
import subprocess
import sys

import compiling
from case import PROGRAM, TOP

# The programs as they are proved.
PROGRAMS = {'zy_bench': PROGRAM, 'zy_first': os.path.join(TOP, 'crates', 'zy_first', 'out', 'zy_first')}

# Where the programs that are built without proofs are kept.
KEPT = os.path.join(TOP, 'crates', 'zy_bench', 'out', 'planted')

# The tests that need ./zy_bench itself; none of them lets it prove anything.
OF_THE_SCRIPT = ('build', 'releases', 'inputs')

STUB = '#!/bin/sh\n[ "$1" = --build ] && exit\nexec "$(dirname "$(readlink -f "$0")")/crates/zy_bench/out/zy_bench" "$@"\n'


def link(source, to):
    """A second name for a file, or a copy where the file system has no links."""
    try:
        os.link(source, to)
    except OSError:
        shutil.copy2(source, to)


class Copy:
    """A copy of the repository, whose ./zy_bench runs the program as it is and builds none, but for the tests of ./zy_bench itself."""

    def __init__(self, folder, faults):
        self.top, self.ran = os.path.join(folder, 'copy'), {}
        os.chmod(folder, 0o755)  # a test runs the program as nobody
        left_out = shutil.ignore_patterns('.git', 'out', '__pycache__', 'must-fail', 'proofs')
        shutil.copytree(TOP, self.top, copy_function=link, ignore=left_out, symlinks=True)
        for name, program in PROGRAMS.items():
            os.makedirs(os.path.dirname(self.path_of(name)))
            if os.path.exists(program):
                shutil.copy2(program, self.path_of(name))
        for fault in faults:
            for name, old, new in fault.edits:
                self.edit(name, old, new)
        with open(os.path.join(self.top, 'zy_bench'), encoding='utf-8') as file:
            self.script = file.read()

    def path_of(self, name):
        """Where one of the programs stands."""
        return os.path.join(self.top, 'crates', name, 'out', name)

    def write(self, name, text):
        """Puts a file in the place of one that may have another name elsewhere."""
        path = os.path.join(self.top, name)
        mode = os.stat(path).st_mode
        os.remove(path)
        with open(path, 'w', encoding='utf-8') as file:
            file.write(text)
        os.chmod(path, mode)

    def edit(self, name, old, new):
        """Changes a text that is there exactly once."""
        with open(os.path.join(self.top, name), encoding='utf-8') as file:
            text = file.read()
        if text.count(old) != 1:
            sys.exit('%s has this %d times, and not once: %s' % (name, text.count(old), old))
        self.write(name, text.replace(old, new))

    def sources(self):
        """The sum of the sources of the programs."""
        found = sorted(os.path.join(folder, name) for folder, _, names in os.walk(os.path.join(self.top, 'crates')) for name in names if name.endswith('.rt'))
        total = hashlib.sha256()
        for path in found:
            with open(path, 'rb') as file:
                total.update(b'%s %s\n' % (os.path.relpath(path, self.top).encode(), hashlib.sha256(file.read()).hexdigest().encode()))
        return total.hexdigest()

    def build(self, name):
        """Builds one of the programs without proofs, if it is not kept."""
        path = os.path.join(KEPT, '%s-%s' % (name, self.sources()))
        if not os.path.exists(path):
            os.makedirs(KEPT, exist_ok=True)
            compiling.build(self.top, name, path + '.part')
            os.rename(path + '.part', path)
        shutil.copy2(path, self.path_of(name))

    def take(self, environment):
        """Has ./zy_bench take the program that is there for that of its sources."""
        script = os.path.join(self.top, 'zy_bench')
        total = subprocess.run([script, '--sum'], env=environment, stdout=subprocess.PIPE, check=True).stdout.strip()
        subprocess.run([script, '--take', total], env=environment, check=True)

    def test(self, words):
        """Whether a test passes, and what it prints."""
        if words not in self.ran:
            name, *rest = words.split()
            self.write('zy_bench', self.script if name in OF_THE_SCRIPT else STUB)
            environment = {name: value for name, value in os.environ.items() if name != 'ZY_BENCH'}
            if name == 'inputs':
                self.take(environment)
            done = subprocess.run([os.path.join(self.top, 'tests', name), *rest], cwd=self.top, env=environment, stdin=subprocess.DEVNULL,
                                  stdout=subprocess.PIPE, stderr=subprocess.STDOUT, timeout=3600)
            self.ran[words] = done.returncode == 0, done.stdout.decode(errors='replace')
        return self.ran[words]

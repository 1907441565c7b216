"""Copies of the checkout whose program counts as current, tarballs that are written by other means than those of tools/packing, and the commands of this
machine without some of them."""

import gzip
import hashlib
import io
import os
import shutil
import stat
import subprocess
import tarfile

from case import PROGRAM, TOP, content, lines_of

TOOLCHAIN = 'rattle-kit-0 logic 0123456789abcdef'

FOLDER = 'zy_bench-release'

# Says which toolchain it is; all else is noted, and fails.
RT = '#!/bin/sh\n[ "$*" = version ] && { echo "%s"; exit; }\necho "$*" >> "%s"\nexit 99\n'


def digest(given):
    return hashlib.sha256(given).hexdigest()


def write(path, text, mode=0o644):
    os.makedirs(os.path.dirname(path), exist_ok=True)
    with open(path, 'wb') as file:
        file.write(text.encode() if isinstance(text, str) else text)
    os.chmod(path, mode)


def needed():
    """The crates that count for zy_bench: all but those that are there for the tests, and the other program."""
    crates = {line.split()[0].rstrip(':') for line in lines_of(os.path.join(TOP, 'crates.txt'))}
    return crates - {'zy_tests', 'zy_alloc_failures', 'zy_first'}


def bare(folder, *without):
    """A folder with all commands of this machine but some; the first of a name on the path is taken."""
    os.mkdir(folder)
    for place in os.environ['PATH'].split(os.pathsep):
        for name in os.listdir(place) if os.path.isdir(place) else ():
            if not any(name.startswith(word) for word in without) and not os.path.lexists(os.path.join(folder, name)):
                os.symlink(os.path.join(place, name), os.path.join(folder, name))
    return folder


class Tree:
    """A copy of the checkout; the program of this one counts as built of its sources."""

    def __init__(self, top, commands):
        self.top, self.notes = top, os.path.join(os.path.dirname(top), os.path.basename(top) + '.notes')
        left_out = shutil.ignore_patterns('.git', 'out', '__pycache__', 'must-fail')
        shutil.copytree(TOP, top, ignore=left_out, symlinks=True)
        write(self.path('bin/rt'), RT % (TOOLCHAIN, self.notes), stat.S_IRWXU)
        self.commands = commands
        write(self.path('crates/zy_bench/out/zy_bench'), content(PROGRAM), 0o755)
        write(self.path('crates/zy_bench/out/zy_bench.toolchain'), TOOLCHAIN + '\n')
        self.settle()

    def path(self, name):
        return os.path.join(self.top, name)

    def sources(self):
        """The checksums of the sources of the program, by their names."""
        found = {name: digest(content(self.path(name))) for name in ('crates.txt', 'tools/build.py', 'tools/rt_once.py')}
        paths = [os.path.join(folder, name) for crate in needed() for folder, _, names in os.walk(self.path('crates/' + crate)) for name in names]
        for path in paths:
            if path.endswith(('.rt', '.antt')):
                found[os.path.relpath(path, self.top)] = digest(content(path))
        return found

    def settle(self):
        """Notes that the program that is there is that of the sources that are there."""
        sums = self.sources()
        lines = ''.join('%s  %s\n' % (sums[name], name) for name in sorted(sums))
        given = lines.encode(), content(self.path('crates/zy_bench/out/zy_bench'))
        write(self.path('crates/zy_bench/out/zy_bench.times'), '')
        write(self.path('crates/zy_bench/out/zy_bench.sum'), ''.join('%s  -\n' % digest(each) for each in given))

    def environment(self, path=None):
        """Nothing but what a script needs, and that Python looks for no modules beside a script by itself; `path` is there in place of rt and the commands."""
        home = os.path.join(os.path.dirname(self.top), 'home')
        return {'PATH': path or self.path('bin') + os.pathsep + self.commands, 'HOME': home, 'LC_ALL': 'C.UTF-8', 'TMPDIR': os.path.dirname(self.top),
                'PYTHONSAFEPATH': '1'}

    def run(self, *words, path=None, given='', where=None, umask=-1, **more):
        """The status of a script of this tree, what it writes and what it says; `more` goes into the environment."""
        done = subprocess.run([self.path(words[0]), *words[1:]], env={**self.environment(path), **more}, input=given, cwd=where or self.top, umask=umask,
                              capture_output=True, text=True, timeout=120, check=False)
        return done.returncode, done.stdout, done.stderr

    def proved(self):
        """What rt was asked for but its version."""
        return content(self.notes).decode().splitlines()


def members(release):
    """The files of a tarball, as tarfile reads them: what it says of each, and its bytes."""
    with tarfile.open(fileobj=io.BytesIO(release), mode='r:gz') as archive:
        return [(entry, archive.extractfile(entry).read()) for entry in archive]


def tarball(entries):
    """A tarball of entries, each what is said of it and its bytes, as a release is written."""
    made = io.BytesIO()
    with tarfile.open(fileobj=made, mode='w', format=tarfile.USTAR_FORMAT) as archive:
        for entry, given in entries:
            archive.addfile(entry, io.BytesIO(given))
    return squeezed(made.getvalue())


def squeezed(archive):
    """A gzip without a time; the byte for the system, which is another in Python's, is that of a release."""
    made = bytearray(gzip.compress(archive, mtime=0))
    made[9] = 255
    return bytes(made)


def entry_of(name, given=b'', mode=0o644, **more):
    """What a tarball says of a file."""
    entry = tarfile.TarInfo(name)
    entry.size, entry.mode = len(given), mode
    for key, value in more.items():
        setattr(entry, key, value)
    return entry, given


def summed(files):
    """The entries of some files, by name and each a mode and bytes, with SHA256SUMS."""
    sums = ''.join('%s  %s\n' % (digest(files[name][1]), name) for name in sorted(files))
    files = {**files, 'SHA256SUMS': (0o644, sums.encode())}
    return [entry_of('%s/%s' % (FOLDER, name), files[name][1], files[name][0]) for name in sorted(files)]

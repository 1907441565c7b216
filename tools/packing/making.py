"""The release of a checkout: its program, which is proved and built first where it is not current, and the files that go along."""

import os
import subprocess
from functools import lru_cache
from glob import escape, glob

from packing.archive import PROGRAM, Fault
from packing.record import Release, content, file_at

TOP = os.path.dirname(os.path.dirname(os.path.dirname(os.path.realpath(__file__))))
SCRIPT = os.path.join(TOP, 'zy_bench')
BUILT = os.path.join(TOP, 'crates', 'zy_bench', 'out', 'zy_bench')

# What goes along, below the top.
ALONG = ('zview', 'zdb', 'zplay', 'zsuite', 'zlogs', 'install', 'README.md', 'CONTRIBUTING.md', 'LICENSE-APACHE', 'LICENSE-MIT', 'completions/_zy_bench',
         'completions/zy_bench.bash', 'completions/zy_bench.fish', 'docs/*.md', 'docs/logs/*.logs', 'docs/man/*.1', 'docs/pictures/*.svg',
         'docs/pictures/*.png', 'editors/**/*.vim', 'editors/**/*.json', 'examples/*.zephyr', 'examples/store/*.py', 'examples/store/try',
         'examples/store/suite', 'tools/*.py', 'tools/*/*.py', 'tools/*/*.js', 'tools/*/*.css', 'tools/*/*.html', 'tools/suite/programs/*.zephyr')

# What only a checkout needs.
LEFT_OUT = ('tools/believe.py', 'tools/build.py', 'tools/machine.py', 'tools/mentions.py', 'tools/rt_once.py', 'tools/verify.py')


class Unbuilt(Exception):
    """The program was not built; what is wrong has been said, and this is the status."""


def ask(*words):
    """What ./zy_bench writes to these words."""
    done = subprocess.run([SCRIPT, *words], stdin=subprocess.DEVNULL, stdout=subprocess.PIPE, check=False)
    if done.returncode:
        raise Unbuilt(done.returncode if done.returncode > 0 else 128 - done.returncode)
    return done.stdout


def made():
    """The release of this checkout."""
    if not os.path.isdir(os.path.join(TOP, 'crates')):
        raise Fault('NoSources', 'this is no checkout: there is no folder %s' % os.path.join(TOP, 'crates'))
    sources = ask('--sources')
    ask('--build')
    program = content(BUILT)
    if ask('--sources') != sources:
        raise Fault('Changed', 'a source was changed meanwhile')
    return Release(toolchain(), dict(line.split('  ', 1)[::-1] for line in sources.decode().splitlines()), {'zy_bench': (PROGRAM, program), **along()})


def toolchain():
    """The toolchain's line, which was noted when the program was built; '' where it was not."""
    path = BUILT + '.toolchain'
    return content(path).decode().strip() if os.path.exists(path) else ''


def along():
    """The files that go along with the program, each a mode and bytes by its name."""
    files = {}
    for path in (path for pattern in ALONG for path in found(pattern)):
        files[os.path.relpath(path, TOP)] = file_at(path)
    return files


def found(pattern):
    """The paths of the files with such a name, below the top; in a checkout of git those that it tracks."""
    paths = (os.path.relpath(path, TOP) for path in glob(os.path.join(escape(TOP), pattern), recursive=True))
    known = tracked()
    return [os.path.join(TOP, name) for name in paths if name not in LEFT_OUT and (known is None or name in known)]


@lru_cache(maxsize=None)
def tracked():
    """The names of the files that git tracks, below the top; None where this is no checkout of git."""
    if not os.path.exists(os.path.join(TOP, '.git')):
        return None
    try:
        listed = subprocess.run(['git', '-c', 'safe.directory=*', 'ls-files', '-z'], cwd=TOP, stdin=subprocess.DEVNULL, capture_output=True, check=False)
    except OSError as error:
        raise Fault('Untold', 'git does not say which files are tracked here: %s' % error.strerror) from None
    if listed.returncode:
        raise Fault('Untold', 'git does not say which files are tracked here: %s' % listed.stderr.decode(errors='replace').strip())
    return frozenset(map(os.fsdecode, listed.stdout.split(b'\0')))


def check_along():
    """A Fault where something is missing that goes along."""
    for pattern in ALONG:
        if not found(pattern):
            raise Fault('Missing', 'there is no %s here' % pattern)


def installable():
    """The files of the release of this checkout, without what that says of itself."""
    check_along()
    ask('--build')
    return {'zy_bench': (PROGRAM, content(BUILT)), **along()}


def whole(release):
    """The release, where nothing is missing that goes along, and where its toolchain is known."""
    check_along()
    if not release.toolchain:
        raise Fault('NoToolchain', 'it is not noted with which toolchain the program was built: remove %s.sum, and it is built again' % (
            os.path.relpath(BUILT, TOP)))
    return release

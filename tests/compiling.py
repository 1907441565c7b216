"""Builds a program of a copy of the repository without its proofs. Nothing is proved of it, and it is slower than the proved one.

`rt try` compiles the program with a test of each access, runs it and keeps nothing. The code that it hands to its compiler lies in its temporary
folder meanwhile, from where it is taken and compiled without these tests."""

import os
import shutil
import subprocess
import tempfile
import time

RT = os.path.realpath(shutil.which('rt') or '/nowhere/bin/rt')
KIT = os.path.dirname(os.path.dirname(RT))
LIBRARIES = [os.path.join(KIT, 'c', name) for name in ('libos_c.a', 'liblibc_c.a')]
CLANG = [os.path.join(KIT, 'toolchain', 'bin', 'clang'), '--target=x86_64-unknown-linux-gnu', '-O2', '-x', 'ir', '-c', '-Wno-override-module']


# What a program reads that does not know --version.
EXAMPLE = os.path.join('examples', 'first_run.zephyr')


class Unbuilt(Exception):
    """Why there is no program."""


def keep_code(folder, kept):
    """Gives each file of code below a folder a second name, since it is removed later."""
    for path, _, names in os.walk(folder):
        if 'module.bc' in names:
            try:
                code = os.path.join(path, 'module.bc')
                os.link(code, os.path.join(kept, '%d.bc' % os.stat(code).st_ino))
            except OSError:
                pass  # it has a second name, or is removed already


def code_of(top, crate, folder):
    """The code of the program of a crate, in a folder that is to be empty. The program is run once: it prints its version, or the listing of an example."""
    tried, kept = os.path.join(folder, 'tried'), os.path.join(folder, 'kept')
    os.mkdir(tried)
    os.mkdir(kept)
    with open(os.path.join(folder, 'log'), 'w+', encoding='utf-8', errors='replace') as log, open(os.path.join(top, EXAMPLE), 'rb') as example:
        process = subprocess.Popen(['rt', 'try', '--', '--version'], cwd=os.path.join(top, 'crates', crate), env={**os.environ, 'TMPDIR': tried},
                                   stdin=example, stdout=log, stderr=log)
        while process.poll() is None:
            keep_code(tried, kept)
            time.sleep(0.01)
        log.seek(0)
        words = log.read()
    found = sorted((os.path.join(kept, name) for name in os.listdir(kept)), key=os.path.getsize)
    if process.returncode or not found:
        raise Unbuilt('rt try in %s: status %d, %d files of code: %s' % (crate, process.returncode, len(found), words[-2000:]))
    return found[-1]


def build(top, crate, program):
    """Builds the program of a crate of a copy, which is at `top`, into a file."""
    with tempfile.TemporaryDirectory() as folder:
        made = os.path.join(folder, 'program.o')
        code = code_of(top, crate, folder)
        subprocess.run([*CLANG, '-o', made, code], check=True)
        subprocess.run([os.environ.get('CC', 'cc'), '-o', program, made, *LIBRARIES, '-lpthread', '-lm'], check=True)

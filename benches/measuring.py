"""What the measurements here have in common."""

import os
import subprocess
import sys
import tempfile

TOP = os.path.dirname(os.path.dirname(os.path.realpath(__file__)))
PROGRAM = os.path.join(TOP, 'crates', 'zy_bench', 'out', 'zy_bench')

sys.path.append(os.path.join(TOP, 'tests'))

from helping import answer_help

# The scenarios that benches/make writes.
NAMES = ('loops', 'locks', 'pages', 'migrate')


def build():
    """Builds the program where it is not that of the sources."""
    subprocess.run([os.path.join(TOP, 'zy_bench'), '--build'], check=True)


def each_scenario(paths, measure):
    """Builds the program, and measures these scenarios, or else those of benches/make."""
    build()
    with tempfile.TemporaryDirectory() as folder:
        if not paths:
            subprocess.run([os.path.join(TOP, 'benches', 'make'), folder], check=True)
        for path in paths or [os.path.join(folder, name + '.zephyr') for name in NAMES]:
            measure(path)

"""zview as a test uses it: its `main` in this process, which spares each call the start of an interpreter, or the command by itself."""

import importlib.machinery
import importlib.util
import io
import os
import subprocess
import sys
import threading
from contextlib import redirect_stdout
from unittest.mock import patch

from case import PROGRAM, TOP

ZVIEW = os.path.join(TOP, 'zview')

ONE_AT_A_TIME = threading.Lock()  # since each takes the place of the standard streams


def loaded():
    """The script as a module, which asks the program that is built."""
    loader = importlib.machinery.SourceFileLoader('zview', ZVIEW)
    module = importlib.util.module_from_spec(importlib.util.spec_from_loader('zview', loader))
    loader.exec_module(module)
    module.bench.PROGRAM = PROGRAM
    return module


MAIN = loaded().main


def zview(words, given):
    """The file that zview makes, and its exit status."""
    made = io.TextIOWrapper(io.BytesIO(), encoding='utf-8')
    with ONE_AT_A_TIME, redirect_stdout(made), patch.object(sys, 'argv', [ZVIEW, *words]), patch.object(sys, 'stdin', io.TextIOWrapper(io.BytesIO(given))):
        try:
            status = MAIN()
        except SystemExit as ended:
            status = ended.code
    return made.buffer.getvalue().decode(), status


def zview_by_itself(words, given, program=PROGRAM):
    """The same of the command, which asks a program."""
    done = subprocess.run([ZVIEW, *words], input=given, stdout=subprocess.PIPE, env={**os.environ, 'ZY_BENCH': program}, timeout=300)
    return done.stdout.decode(), done.returncode

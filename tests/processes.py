"""Processes that a test starts: which signals end them, and waiting for what they do."""

import signal
import time


def by_default():
    """For preexec_fn: signals end the process, which the caller of the test may have ignored."""
    for number in (signal.SIGHUP, signal.SIGINT):
        signal.signal(number, signal.SIG_DFL)


def comes(is_so, seconds=20):
    """Whether something comes within some seconds."""
    end = time.monotonic() + seconds
    while not is_so() and time.monotonic() < end:
        time.sleep(0.05)
    return is_so()

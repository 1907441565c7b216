"""What a script of tests answers to `--help`."""

import sys


def answer_help(about):
    """Where the words of the command line have --help or -h, prints what the script is and ends with 0: nothing is built or run."""
    if {'--help', '-h'} & set(sys.argv[1:]):
        print(about)
        sys.exit(0)

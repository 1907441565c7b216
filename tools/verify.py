"""Says whether a release is that of this checkout, whose program is proved and built first where it is not current.

    verify.py FILE

A line each says of the program, its sources, the files that go along and the toolchain whether they are the same; below it is what differs. The status is
0 where program, sources and files are the same, else 1. A fault is one line on standard error, `FILE: FAULT: words`."""

import os
import sys

sys.path.insert(0, os.path.dirname(os.path.realpath(__file__)))

from files import status_of
from packing.archive import Fault
from packing.making import Unbuilt, made
from packing.record import read


def differences(there, here):
    """What differs between the parts of a release and those of this checkout, by name."""
    for name in sorted(there.keys() | here.keys()):
        if name not in there:
            yield '%s: only here' % name
        elif name not in here:
            yield '%s: only in the release' % name
        elif there[name] != here[name]:
            yield '%s: another one' % name


def told(kind, there, here):
    """The lines on one kind of parts."""
    found = list(differences(there, here))
    return ['%s: %s' % (kind, 'the same, %d' % len(here) if not found else '%d differ' % len(found)), *('  ' + line for line in found)]


def compared(there, here):
    """Whether a release is that of this checkout, and the lines that say so."""
    programs = [release.files.pop('zy_bench') for release in (there, here)]
    lines = ['program: %s' % ('the same' if programs[0] == programs[1] else 'another one')]
    lines += told('sources', there.sources, here.sources) + told('files', there.files, here.files)
    is_same = (programs[0], there.sources, there.files) == (programs[1], here.sources, here.files)
    lines.append('toolchain: the same, %s' % here.toolchain if there.toolchain == here.toolchain else
                 'toolchain: %s in the release, %s here' % (there.toolchain, here.toolchain or 'not noted'))
    return is_same, lines


def main(path):
    place = path
    try:
        with open(path, 'rb') as file:
            there = read(file.read())
        place = 'zy_bench'
        is_same, lines = compared(there, made())
    except Unbuilt as unbuilt:
        return unbuilt.args[0]
    except Fault as fault:
        print('%s: %s' % (place, fault), file=sys.stderr)
        return 1
    except OSError as error:
        print('%s: Read: %s' % (error.filename or path, error.strerror), file=sys.stderr)
        return 5
    print('\n'.join(lines))
    return 0 if is_same else 1


if __name__ == '__main__':
    sys.exit(status_of(lambda: main(*sys.argv[1:]), 'zy_bench'))

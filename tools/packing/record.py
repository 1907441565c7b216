"""What a release says of itself, in three of its files: RELEASE has the form and the toolchain's line, SOURCES the checksum of each source that the program
was proved from, and SHA256SUMS that of each other file of the release. The latter two are as `sha256sum` writes them and checks them."""

import hashlib
import os
import re
from collections import namedtuple

from packing.archive import PROGRAM, PLAIN, Fault, packed, unpacked

FORM = 'zy_bench release 1'

RELEASE, SOURCES, SUMS = 'RELEASE', 'SOURCES', 'SHA256SUMS'

# The line of `rt version`, the checksums of the sources by their names, and the other files, each a mode and bytes.
Release = namedtuple('Release', 'toolchain sources files')


def sum_of(given):
    return hashlib.sha256(given).hexdigest()


def content(path):
    """The bytes of a file."""
    with open(path, 'rb') as file:
        return file.read()


def listed(sums):
    """Checksums by name as `sha256sum` writes them."""
    return ''.join('%s  %s\n' % (sums[name], name) for name in sorted(sums)).encode()


def written(release):
    """The bytes of a release."""
    files = {**release.files,
             RELEASE: (PLAIN, ('%s\ntoolchain %s\n' % (FORM, release.toolchain)).encode()),
             SOURCES: (PLAIN, listed(release.sources))}
    sums = listed({name: sum_of(given) for name, (_, given) in files.items()})
    return packed({**files, SUMS: (PLAIN, sums)})


def read(given):
    """The release in the bytes of a file."""
    files = files_in(given)
    return Release(toolchain_in(files), sums_in(files, SOURCES), {name: file for name, file in files.items() if name not in (RELEASE, SOURCES, SUMS)})


def files_in(given):
    """All files of the release in the bytes of a file; a Fault where they are none."""
    files = unpacked(given)
    toolchain_in(files)
    check_sums(files)
    sums_in(files, SOURCES)
    if 'zy_bench' not in files or files['zy_bench'][0] != PROGRAM:
        raise Fault('Damaged', "there is no program 'zy_bench' in it")
    return files


def laid_out(folder):
    """The files of a release that is unpacked in a folder, as its SHA256SUMS lists them; a Fault where one is another."""
    files = {SUMS: file_at(os.path.join(folder, SUMS))}
    files.update({name: file_at(os.path.join(folder, name)) for name in sums_in(files, SUMS)})
    check_sums(files)
    return files


def file_at(path):
    """The mode that a file has in a release, and its bytes."""
    with open(path, 'rb') as file:
        return PROGRAM if os.fstat(file.fileno()).st_mode & 0o100 else PLAIN, file.read()


def toolchain_in(files):
    """The toolchain's line in RELEASE."""
    if RELEASE not in files:
        raise Fault('NoRelease', 'it has no file RELEASE')
    first, _, rest = files[RELEASE][1].partition(b'\n')
    if first != FORM.encode():
        raise Fault('NoRelease', 'its RELEASE begins with %r and not with %r' % (first.decode(errors='replace'), FORM))
    found = re.fullmatch(rb'toolchain ([ -~]+)\n', rest)
    if not found:
        raise Fault('Damaged', 'RELEASE has no line of the toolchain')
    return found.group(1).decode()


def summed(line):
    """A line with a checksum and a name that can be printed, as a match; None where it is none."""
    found = re.fullmatch('([0-9a-f]{64})  (.+)', line)
    return found if found and found.group(2).isprintable() else None


def sums_in(files, name):
    """The checksums by name in a file of a release."""
    if name not in files:
        raise Fault('Damaged', '%r is missing' % name)
    found = [summed(line) for line in files[name][1].decode(errors='replace').removesuffix('\n').split('\n')]
    if not all(found):
        raise Fault('Damaged', 'line %d of %s is no checksum with a name' % (found.index(None) + 1, name))
    sums = {match.group(2): match.group(1) for match in found}
    if listed(sums) != files[name][1]:
        raise Fault('Damaged', 'the lines of %s are not in order' % name)
    return sums


def check_sums(files):
    """Whether the files are those of SHA256SUMS; a Fault where they are not."""
    sums = sums_in(files, SUMS)
    for name in sorted(sums.keys() | files.keys() - {SUMS}):
        if name not in files:
            raise Fault('Damaged', '%r is missing' % name)
        if name not in sums:
            raise Fault('Damaged', '%r is not in SHA256SUMS' % name)
        if sum_of(files[name][1]) != sums[name]:
            raise Fault('Damaged', '%r has another checksum than SHA256SUMS says' % name)

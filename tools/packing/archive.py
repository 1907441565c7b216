"""A release as one file: a gzip of a tar archive of plain files in one folder, in the order of their names. Times, owners and the rest of each head are the
same in all, so that the bytes depend on nothing but the names, the modes and the bytes of the files, and on the compressor."""

import io
import struct
import tarfile
import zlib

FOLDER = 'zy_bench-release'

# The modes that a file may have.
PLAIN, PROGRAM = 0o644, 0o755

# How the gzip begins: deflate, no name, no time, no system.
HEAD = bytes.fromhex('1f8b0800' '00000000' '02ff')

# The most bytes that an archive may have.
MOST = 64 << 20

BLOCK = tarfile.BLOCKSIZE


class Fault(Exception):
    """Why a file is no release, or why none can be made: the fault's name, and words."""

    def __init__(self, name, words):
        super().__init__('%s: %s' % (name, words))


def tar_of(files):
    """The archive of some files, each a mode and bytes by its name."""
    made = io.BytesIO()
    with tarfile.open(fileobj=made, mode='w', format=tarfile.USTAR_FORMAT) as archive:
        for name in sorted(files):
            entry = tarfile.TarInfo('%s/%s' % (FOLDER, name))
            entry.mode, entry.size = files[name][0], len(files[name][1])
            archive.addfile(entry, io.BytesIO(files[name][1]))
    return made.getvalue()


def end_of(tar):
    """How a gzip ends: the checksum and the length of what is in it."""
    return struct.pack('<2L', zlib.crc32(tar), len(tar) & 0xffffffff)


def packed(files):
    """The bytes of a release."""
    tar = tar_of(files)
    press = zlib.compressobj(9, zlib.DEFLATED, -zlib.MAX_WBITS)
    return HEAD + press.compress(tar) + press.flush() + end_of(tar)


def unpacked(release):
    """The files of a release."""
    return files_of(tar_in(release))


def tar_in(release):
    """The archive in the bytes of a release."""
    if release[:len(HEAD)] != HEAD[:len(release)]:
        raise Fault('NoRelease', 'the file does not begin as those do that tools/release makes')
    press = zlib.decompressobj(-zlib.MAX_WBITS)
    try:
        tar = press.decompress(release[len(HEAD):], MOST + 1)
    except zlib.error:
        raise Fault('Damaged', 'the archive cannot be decompressed') from None
    if len(tar) > MOST:
        raise Fault('TooLong', 'the archive has more than %d bytes' % MOST)
    if not press.eof or len(press.unused_data) < len(end_of(tar)):
        raise Fault('Cut', 'the file ends after %d bytes, before the release does' % len(release))
    if press.unused_data[:8] != end_of(tar):
        raise Fault('Damaged', 'the archive has another checksum than the file says')
    if len(press.unused_data) > 8:
        raise Fault('Damaged', 'the file goes on behind the release')
    return tar


def files_of(tar):
    """The files of an archive, which is laid out as `tar_of` does it."""
    found, place = {}, 0
    while tar[place:place + BLOCK].strip(b'\0'):
        entry = head_at(tar, place)
        name, first = name_of(entry), place + BLOCK
        if not 0 <= entry.size <= len(tar) - first:
            raise Fault('Cut', 'the archive ends inside %r' % name)
        if name in found:
            raise Fault('Damaged', '%r is there twice' % name)
        found[name] = entry.mode, tar[first:first + entry.size]
        place = first + -(-entry.size // BLOCK) * BLOCK
    if tar_of(found) != tar:
        raise Fault('Damaged', 'the archive is not laid out as tools/release does it')
    return found


def head_at(tar, place):
    """What the archive says of the file whose head is at a place."""
    try:
        return tarfile.TarInfo.frombuf(tar[place:place + BLOCK], 'utf-8', 'surrogateescape')
    except tarfile.TruncatedHeaderError:
        raise Fault('Cut', 'the archive ends inside the head of a file, at byte %d' % len(tar)) from None
    except tarfile.HeaderError:
        raise Fault('Damaged', 'the head of a file at byte %d of the archive cannot be read' % place) from None


def name_of(entry):
    """The name of a file below the folder of the release; a Fault where it is anything but a plain file there."""
    if entry.islnk() or entry.issym():
        raise Fault('Unsafe', '%r is a link to %r' % (entry.name, entry.linkname))
    if entry.type != tarfile.REGTYPE:
        raise Fault('Unsafe', '%r is no plain file' % entry.name)
    if entry.name.startswith('/'):
        raise Fault('Unsafe', '%r is an absolute path' % entry.name)
    top, *parts = entry.name.split('/')
    if '..' in (top, *parts):
        raise Fault('Unsafe', '%r leads out of its folder' % entry.name)
    if top != FOLDER or not parts or not all(parts) or '.' in parts:
        raise Fault('Unsafe', '%r is not in the folder %s' % (entry.name, FOLDER))
    if entry.mode not in (PLAIN, PROGRAM):
        raise Fault('Unsafe', '%r has the mode %o' % (entry.name, entry.mode))
    if not entry.name.isprintable():
        raise Fault('Unsafe', '%r cannot be printed' % entry.name)
    return '/'.join(parts)

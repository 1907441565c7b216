"""What scripts write: files, which are there whole or not at all, and their own output."""

import errno
import os
import re
import shutil
import sys

# Why output cannot be written; a fault of something else names its file, or has words of its own.
OF_OUTPUT = (errno.EBADF, errno.EDQUOT, errno.EFBIG, errno.EIO, errno.ENOSPC)

# Streams that are open here, by names without a number.
STREAMS = {'/dev/stdout': '/dev/fd/1', '/dev/stderr': '/dev/fd/2'}


def put(path, given):
    """Writes a file; where that fails, what was there before is still there. A device or a pipe is written to as it is, and a stream that is open here, such as
    /dev/stdout, goes on where it stands."""
    stream = re.fullmatch(r'/dev/fd/(\d{1,9})', STREAMS.get(path, path))
    try:
        if stream:
            write(os.dup(int(stream[1])), given)
        elif os.path.exists(path) and not os.path.isfile(path) and not os.path.isdir(path):
            write(path, given)
        else:
            replace(os.path.realpath(path), given)
    except OSError as error:
        raise OSError(error.errno, error.strerror, path) from None


def write(file, given):
    """Writes to a file, which is named by a path or by the number under which it is open."""
    with open(file, 'wb') as opened:
        opened.write(given)


def replace(place, given):
    """Makes a file, which takes its place once it is whole."""
    part = '%s.%d.part' % (place, os.getpid())
    with open(part, 'xb') as file:
        try:
            file.write(given)
            file.flush()
            if os.path.isfile(place):
                shutil.copymode(place, part)
            os.replace(part, place)
        except BaseException:
            os.remove(part)
            raise


def open_streams():
    """Opens each standard stream that is closed: input is empty, output cannot be written, and what is said is lost."""
    for number, name, how in ((0, 'stdin', os.O_RDONLY), (1, 'stdout', os.O_RDONLY), (2, 'stderr', os.O_WRONLY)):
        if getattr(sys, name) is None:
            os.dup2(os.open(os.devnull, how), number)
            os.set_inheritable(number, True)
            setattr(sys, name, open(number, 'w' if number else 'r', errors='backslashreplace', closefd=False))


def drop_output():
    """What is still to be written to standard output goes nowhere, so that nothing more is said of it at the end."""
    os.dup2(os.open(os.devnull, os.O_WRONLY), sys.stdout.fileno())


def status_of(main, name):
    """The status with which a script ends: that of its main, or 5 where its output, or a file that the fault names, cannot be written or read. It says so,
    unless nobody reads its output any more."""
    open_streams()
    try:
        try:
            return main()
        finally:
            sys.stdout.flush()
    except KeyboardInterrupt:
        return 130
    except BrokenPipeError:
        drop_output()
    except OSError as error:
        drop_output()
        place = error.filename if error.filename is not None else 'standard output' if error.errno in OF_OUTPUT else ''
        print(': '.join(filter(None, (name, place, error.strerror or str(error)))), file=sys.stderr)
    return 5

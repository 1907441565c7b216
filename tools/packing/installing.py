"""An installation: files below a prefix, and the record of them in share/zy_bench/installed. What the record has not, or what has other bytes than it says,
is somebody else's: it is neither replaced nor removed."""

import fcntl
import os
import signal
import stat
import sys
from collections import namedtuple
from contextlib import contextmanager, suppress

from packing.archive import PLAIN, Fault
from packing.places import LINKS, SHARE, places_of
from packing.record import content, sum_of

FIRST = b'zy_bench installed 1\n'

# What is to be at a path: a file with a sum, or a link to somewhere; of a file its mode and bytes, too.
Piece = namedtuple('Piece', 'kind value mode content')

# What is installed: the kinds and values that each name may have, which are two while one takes the place of another; the folders that were not there before,
# each after the one that it is in.
Record = namedtuple('Record', 'names folders')


class Foreign(Exception):
    """Something that belongs to no installation is in the place of what would be installed."""


def found_at(path):
    """The kind and the value of what is at a path; None where nothing is."""
    try:
        mode = os.lstat(path).st_mode
    except (FileNotFoundError, NotADirectoryError):
        return None
    if stat.S_ISLNK(mode):
        return 'link', os.readlink(path)
    return ('file', sum_of(content(path))) if stat.S_ISREG(mode) else ('other', '')


def aside(path, word):
    """The name beside a path of what takes its place, `new`, or of what was there before, `old`."""
    folder, name = os.path.split(path)
    return os.path.join(folder, '.%s.zy_bench-%s' % (name, word))


def say(line):
    print('install: ' + line, file=sys.stderr)


class Installation:
    """What is installed below a folder."""

    def __init__(self, root):
        self.root, self.made = root, []

    def path(self, name):
        return os.path.join(self.root, name)

    def make(self, folder):
        """Makes a folder and those that it is in, where they are not there."""
        if os.path.isdir(folder):
            return
        self.make(os.path.dirname(folder))
        try:
            os.mkdir(folder)
        except FileExistsError:
            if not os.path.isdir(folder):
                raise
        else:
            self.made.append(os.path.relpath(folder, self.root))

    def remove_empty(self, folders):
        """Removes folders that are empty, each before the one that it is in."""
        for folder in reversed(folders):
            with suppress(OSError):
                os.rmdir(os.path.normpath(self.path(folder)))

    @contextmanager
    def locked(self):
        """Waits until no other install is at work in the folder, which is made where it is not there; the folders that were made go again if nothing is
        installed in the end."""
        while True:
            self.make(self.root)
            handle = os.open(self.root, os.O_RDONLY | os.O_DIRECTORY)
            try:
                lock(handle, self.root)
                if not self.is_held(handle):
                    continue
                yield
                return
            finally:
                if not self.is_installed():
                    self.remove_empty(self.made)
                os.close(handle)

    def is_held(self, handle):
        """Whether the folder is still the one that is open."""
        try:
            return os.path.samestat(os.fstat(handle), os.stat(self.root))
        except FileNotFoundError:
            return False

    def record(self):
        """What is noted; an empty record where nothing is installed."""
        path = self.path(SHARE + '/installed')
        given = content(path) if os.path.isfile(path) else FIRST
        names, folders = {}, []
        for line in given[len(FIRST):].decode(errors='surrogateescape').splitlines():
            kind, _, rest = line.partition(' ')
            value, _, name = rest.partition(' ')
            if kind == 'folder':
                folders.append(rest)
            elif kind in ('file', 'link') and name and not name.startswith('/') and '..' not in name.split('/'):
                names.setdefault(name, []).append((kind, value))
            else:
                raise Fault('Damaged', '%s has the line %r' % (path, line))
        if not given.startswith(FIRST):
            raise Fault('Damaged', '%s is no record of what is installed' % path)
        return Record(names, folders)

    def is_installed(self):
        return os.path.isfile(self.path(SHARE + '/installed'))

    def note(self, record):
        """Writes the record, which is there whole or not at all."""
        path = self.path(SHARE + '/installed')
        put(aside(path, 'new'), PLAIN, written(record))
        os.replace(aside(path, 'new'), path)

    def mend(self, record):
        """Clears away what an install left that was killed."""
        for path in map(self.path, record.names):
            old, new = aside(path, 'old'), aside(path, 'new')
            if os.path.lexists(old) and not os.path.lexists(path):
                os.rename(old, path)
            discard(old)
            discard(new)

    def pieces(self, files):
        """What is to be at each name: the files of a release, each a mode and bytes by its name, and the links."""
        found = {}
        for name, (mode, given) in files.items():
            found.update({place: Piece('file', sum_of(given), mode, given) for place in places_of(name)})
        for name, to in LINKS.items():
            found[name] = Piece('link', os.path.relpath(os.path.realpath(self.path(to)), os.path.realpath(os.path.dirname(self.path(name)))), 0, b'')
        return found

    def check_free(self, names, record):
        """Foreign where something is in the place of a name that is not as the record has it."""
        for name in sorted(names):
            found = found_at(self.path(name))
            if found and name not in record.names:
                raise Foreign('%s is there already and belongs to no installation, so nothing is installed' % self.path(name))
            if found and found not in record.names[name]:
                raise Foreign('%s was changed since it was installed, so nothing is installed' % self.path(name))

    def put(self, files, check):
        """Installs the files of a release, once `check` finds the program well that is to be installed; where that fails, all is as it was."""
        with self.locked():
            before = self.record()
            self.mend(before)
            pieces = self.pieces(files)
            self.check_free(pieces, before)
            there = {name for name in (*before.names, *pieces) if os.path.lexists(self.path(name))}
            try:
                after = self.prepared(pieces, before)
                check(aside(self.path('bin/zy_bench'), 'new'))
                self.swap(pieces, before)
            except BaseException:
                ignore_signals()
                self.put_back(before, {*before.names, *pieces}, there)
                raise
            ignore_signals()
            self.finish(before, after)

    def prepared(self, pieces, before):
        """Writes all pieces beside their places, and notes that each place may have what is there or what comes. The record that is to be is returned."""
        for name in sorted(pieces):
            self.make(os.path.dirname(self.path(name)))
        after = Record({name: [(piece.kind, piece.value)] for name, piece in pieces.items()}, before.folders + self.made)
        both = {name: before.names.get(name, []) + after.names.get(name, []) for name in {**before.names, **after.names}}
        self.note(Record(both, after.folders))
        for name, piece in pieces.items():
            new = aside(self.path(name), 'new')
            if piece.kind == 'link':
                os.symlink(piece.value, new)
            else:
                put(new, piece.mode, piece.content)
        return after

    def swap(self, pieces, before):
        """Puts each piece in its place, and away what is there, also what the new installation lacks; that which was changed stays."""
        for name in sorted({*before.names, *pieces}):
            path = self.path(name)
            found = found_at(path)
            if found and found not in before.names.get(name, ()):
                say('%s stays: it was changed since it was installed' % path)
                continue
            if found:
                os.rename(path, aside(path, 'old'))
            if name in pieces:
                os.rename(aside(path, 'new'), path)

    def put_back(self, before, names, there):
        """Brings back what was there before."""
        for path, was_there in ((self.path(name), name in there) for name in names):
            old, new = aside(path, 'old'), aside(path, 'new')
            if os.path.lexists(old):
                os.replace(old, path)
            elif not was_there and not os.path.lexists(new):
                discard(path)
            discard(new)
        discard(aside(self.path(SHARE + '/installed'), 'new'))
        if before.names:
            self.note(before)
        else:
            discard(self.path(SHARE + '/installed'))

    def finish(self, before, after):
        """Removes what was there before, and notes what is there now."""
        for name in {**before.names, **after.names}:
            discard(aside(self.path(name), 'old'))
            discard(aside(self.path(name), 'new'))
        self.remove_compiled(before)
        gone = [folder for folder in after.folders if not any(name.startswith(folder + '/') for name in after.names) and not folder.startswith('.')]
        self.remove_empty(gone)
        self.note(Record(after.names, [folder for folder in after.folders if folder not in gone or os.path.isdir(self.path(folder))]))

    def remove_compiled(self, record):
        """Removes what Python has compiled of the modules that were installed."""
        for path in (self.path(name) for name in record.names if name.endswith('.py')):
            folder, name = os.path.split(path)
            kept = os.path.join(folder, '__pycache__')
            for compiled in os.listdir(kept) if os.path.isdir(kept) else ():
                if compiled.startswith(name[:-2]) and compiled.endswith('.pyc'):
                    os.remove(os.path.join(kept, compiled))
            with suppress(OSError):
                os.rmdir(kept)

    def remove(self):
        """Removes what is installed, and says what stays."""
        if not self.is_installed():
            say('nothing is installed in ' + self.root)
            return
        with self.locked():
            record = self.record()
            self.mend(record)
            self.remove_compiled(record)
            changed = [name for name in sorted(record.names) if not self.take_away(name, record)]
            discard(self.path(SHARE + '/installed'))
            self.remove_empty(record.folders)
            self.tell_what_stays(changed)

    def tell_what_stays(self, changed):
        """Says which files stay: some names that were changed, and what else lies in the folder of the installation."""
        for name in changed:
            say('%s stays: it was changed since it was installed' % self.path(name))
        for path in sorted(os.path.join(folder, name) for folder, _, names in os.walk(self.path(SHARE)) for name in names):
            if os.path.relpath(path, self.root) not in changed:
                say('%s stays: it was not installed' % path)

    def take_away(self, name, record):
        """Removes what is at a name if it is as the record has it; False where something else is there."""
        found = found_at(self.path(name))
        if found in record.names[name]:
            os.remove(self.path(name))
        return found is None or found in record.names[name]


# The signals that end an install.
SIGNALS = (signal.SIGINT, signal.SIGTERM, signal.SIGHUP)


class Ended(BaseException):
    """A signal has come, with this number."""


def obey_signals():
    """Lets a signal end the install, but one that is ignored, as that of a closed terminal is under nohup."""
    def end(number, _):
        raise Ended(number)

    for number in SIGNALS:
        if signal.getsignal(number) != signal.SIG_IGN:
            signal.signal(number, end)


def ignore_signals():
    """No signal comes between what belongs together."""
    for number in SIGNALS:
        signal.signal(number, signal.SIG_IGN)


def lock(handle, folder):
    """Locks a folder that is open, and says so where another install has it."""
    try:
        fcntl.flock(handle, fcntl.LOCK_EX | fcntl.LOCK_NB)
    except BlockingIOError:
        say('another install is at work in %s; this one waits for it' % folder)
        fcntl.flock(handle, fcntl.LOCK_EX)


def put(path, mode, given):
    """Writes a file, with its mode."""
    with open(path, 'wb') as file:
        file.write(given)
    os.chmod(path, mode)


def discard(path):
    """Removes a file that need not be there."""
    with suppress(FileNotFoundError, NotADirectoryError):
        os.remove(path)


def written(record):
    """The bytes of a record."""
    lines = ['folder %s' % folder for folder in record.folders]
    lines += ['%s %s %s' % (*found, name) for name in sorted(record.names) for found in record.names[name]]
    return FIRST + ''.join(line + '\n' for line in lines).encode(errors='surrogateescape')

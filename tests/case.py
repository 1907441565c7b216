"""The cases in tests/cases. Each is a folder with these files:

  cmd      the words after the program's name, quoted as in a shell
  stdin    the input; or
  example  the file of examples/ that is the input; or
  like     the case whose input it has too; or
  listing  the case whose expected output is the input; with none of the four the input is empty
  pad      a number: the input goes on with empty lines up to this many bytes
  to       where standard output goes, in place of being read: `closed`, `unread` (a pipe whose reader has gone), or a path such as /dev/full
  stdout   the expected output; none: nothing
  status   the expected exit status
  fault    where the run is refused, the fault's name on standard error: one line `zy_bench: FAULT: words`
  words    the words of that line; none: any
  told     all of standard error, where that is no fault; none: anything

Each line of tests/refused is a text that `zy_bench run` refuses, with its fault and words; each line of tests/refused-images an
image that `zy_bench dis` refuses; and each line of tests/mistakes a typical mistake, with what standard error says of it."""

import os
import re
import shlex
import subprocess

TOP = os.path.dirname(os.path.dirname(os.path.abspath(__file__)))
CASES = os.path.join(TOP, 'tests', 'cases')
REFUSED = os.path.join(TOP, 'tests', 'refused')
MISTAKES = os.path.join(TOP, 'tests', 'mistakes')
REFUSED_IMAGES = os.path.join(TOP, 'tests', 'refused-images')
EXAMPLES = os.path.join(TOP, 'examples')
PROGRAM = os.path.join(TOP, 'crates', 'zy_bench', 'out', 'zy_bench')

# The worked image of docs/formats.md. zephyr 1, cap 4, pages 1, rule held; txn 0: beq r0 r1 @2, abort, commit; C begin 0,
# A run 0, A run 0; end
WORKED = bytes.fromhex('5a5048310400010000000103' '0500010000000002' '0700000000000000' '0600000000000000' '0003' '000100' '010300' '010300')

# The smallest image: zephyr 1, cap 2, pages 1, rule held; no row, no transaction, no choice.
SMALLEST = bytes.fromhex('5a504831' '02' '0001' '00' '0000' '00' '0000')


def content(path):
    """The bytes of a file; none where there is no such file."""
    if not os.path.exists(path):
        return b''
    with open(path, 'rb') as file:
        return file.read()


class Case:
    def __init__(self, name):
        self.name = name
        self.words = shlex.split(self.text('cmd'))
        self.example = self.text('example')
        self.like = self.text('like')
        listing = self.text('listing')
        given = content(os.path.join(CASES, listing, 'stdout') if listing else os.path.join(CASES, self.like or name, 'stdin'))
        self.text_given = content(os.path.join(EXAMPLES, self.example)) if self.example else given
        self.pad = int(self.text('pad') or 0)
        self.to = self.text('to')
        self.output = self.part('stdout')
        self.status = int(self.text('status'))
        self.fault = self.text('fault')
        self.said = self.text('words')
        self.told = self.part('told')
        self.last = b''

    def part(self, name):
        return content(os.path.join(CASES, self.name, name))

    def text(self, name):
        return self.part(name).decode().strip()

    def input(self):
        return self.text_given + b'\n' * (self.pad - len(self.text_given))

    def run(self, more=None, command=None, **how):
        """The status, the output (None where it went elsewhere) and standard error of the case's run, or of a run of another command.
        What `more` has goes into the environment; the rest is for subprocess.run, the input too."""
        command = command or [PROGRAM] + self.words
        how.update(stderr=subprocess.PIPE, timeout=60, env={**os.environ, **(more or {})})
        if self.to == 'closed':
            done = subprocess.run(command, preexec_fn=lambda: os.close(1), **how)
        elif self.to == 'unread':
            unread, place = os.pipe()
            os.close(unread)
            done = subprocess.run(command, stdout=place, **how)
            os.close(place)
        elif self.to:
            with open(self.to, 'wb') as place:
                done = subprocess.run(command, stdout=place, **how)
        else:
            done = subprocess.run(command, stdout=subprocess.PIPE, **how)
        return done.returncode, done.stdout, done.stderr


class Refused(Case):
    """A text that is refused."""

    HEAD = 'zephyr 1\\ncap 4\\npages 1\\nrule held\\n'

    def __init__(self, line):
        fault, self.said, text = (part.strip() for part in line.split('|'))
        kind, number = fault.rstrip(')').split('(')
        self.name, self.told, self.last, self.like = 'refused: %s' % text, b'', b'', ''
        self.words, self.example, self.pad, self.to, self.output, self.status = ['run'], '', 0, '', b'', 1
        self.fault = 'Input(line %s, %s)' % (number, kind)
        self.text_given = text.replace('HEAD ', self.HEAD).encode().decode('unicode_escape').encode()


class RefusedImage(Case):
    """An image that is refused."""

    def __init__(self, line):
        self.fault, self.said, image = (part.strip() for part in line.split('|'))
        self.name, self.told, self.last, self.like = 'refused image: %s' % image, b'', b'', ''
        self.words, self.example, self.pad, self.to, self.output, self.status = ['dis'], '', 0, '', b'', 1
        self.text_given = bytes_of(image)


class Mistake(Case):
    """A typical mistake. What is above the last line of standard error is about the command line alone."""

    PARTS = {
        'HEAD': 'zephyr 1\\ncap 4\\npages 2\\nrule held\\n',
        'HEAD2': 'zephyr 2\\ncap 4\\npages 2\\nrule held\\n',
        'CLOSE': 'C begin 0\\nend\\n',
    }

    def __init__(self, line):
        command, status, words, given = (part.strip().replace('\\|', '|') for part in re.split(r'(?<!\\)\|', line))
        self.name, self.words, self.status = 'mistake: %s: %s' % (command, given), command.split(), int(status)
        self.example, self.like, self.pad, self.to, self.fault, self.said = '', '', 0, '', '', ''
        said = b'zy_bench: %s\n' % words.encode()
        self.told, self.last = (b'', b'\n' + said) if self.status == 2 else (said, b'')
        self.output = b'not table %s\n' % re.search(r'line (\d+)', words).group(1).encode() if self.status == 4 else b''
        text = re.sub(r'^(HEAD2?) |(CLOSE)$', lambda part: self.PARTS[part.group(1) or part.group(2)], given)
        self.text_given = WORKED if given == 'WORKED' else text.encode().decode('unicode_escape').encode('latin-1')


def bytes_of(image):
    """An image as a line of tests/refused-images has it."""
    if '=' in image:
        changed = bytearray(WORKED)
        for change in image.split():
            at, byte = change.split('=')
            changed[int(at)] = int(byte, 16)
        return bytes(changed)
    if image.startswith('front '):
        return WORKED[:int(image.split()[1])]
    return bytes.fromhex(image)


def tells(errors, fault, words=''):
    """Whether standard error is one line with this fault, in these words if there are any."""
    line = r'zy_bench: %s: %s\n' % (re.escape(fault), re.escape(words) if words else '.+')
    return re.fullmatch(line, errors.decode(errors='replace')) is not None


def all_cases():
    return [Case(name) for name in sorted(os.listdir(CASES))]


def lines_of(path):
    with open(path, encoding='utf-8') as file:
        return [line for line in file if line.strip() and not line.startswith('#')]


def all_refused():
    return [Refused(line) for line in lines_of(REFUSED)] + [RefusedImage(line) for line in lines_of(REFUSED_IMAGES)]


def all_mistakes():
    return [Mistake(line) for line in lines_of(MISTAKES)]


def refuser(folder):
    """tests/refuse.c, which is preloaded, compiled into a folder."""
    source, made = os.path.join(TOP, 'tests', 'refuse.c'), os.path.join(folder, 'refuse.so')
    subprocess.run([os.environ.get('CC', 'cc'), '-O2', '-shared', '-fPIC', '-o', made, source], check=True)
    return made


def example_names():
    """The scenarios in examples/."""
    return sorted(name for name in os.listdir(EXAMPLES) if name.endswith('.zephyr'))


def is_built():
    """Whether the program is there, once ./zy_bench has built it where it was not."""
    words = [os.path.join(TOP, 'zy_bench'), '--build']
    return os.path.exists(words[0]) and subprocess.run(words, stdout=subprocess.DEVNULL).returncode == 0

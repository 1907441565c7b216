"""A plain interpreter of one program that runs alone (docs/step-table.md, The serial run)."""


def number(word):
    return int(word.lstrip('r@'))


class Aborted(Exception):
    """A lone run came to an abort."""


def instruction(words, registers, rows, private, at):
    """Does an instruction of a lone run, and gives the place of the next one; none at its commit."""
    name, values = words[0], [number(word) for word in words[1:]]
    if name == 'commit':
        return None
    if name == 'abort':
        raise Aborted
    if name == 'set':
        registers[values[0]] = values[1]
    elif name == 'add':
        registers[values[0]] = (registers[values[0]] + registers[values[1]]) % 2 ** 32
    elif name == 'beq':
        return values[2] if registers[values[0]] == registers[values[1]] else at + 1
    elif name == 'sum':
        low, high = registers[values[0]], registers[values[1]]
        if low <= high and high > 65535:
            raise Aborted
        whole = {**rows, **private}
        registers[values[0]] = sum(value for key, value in whole.items() if low <= key <= high) % 2 ** 32
    else:
        access(name, values, registers, rows, private)
    return at + 1


def access(name, values, registers, rows, private):
    key = registers[values[1] if name == 'read' else values[0]]
    there = key in rows or key in private
    if key > 65535 or (name == 'write' and not there) or (name == 'insert' and there):
        raise Aborted
    if name == 'read':
        registers[values[0]] = private.get(key, rows.get(key, 0))
    else:
        private[key] = registers[values[1]]


def alone(rows, program, done):
    """The rows after a program has run alone, for as many instructions as its transaction did."""
    registers, private, at = [0] * 8, {}, 0
    try:
        for _ in range(done):
            at = instruction(program[at], registers, rows, private, at)
            if at is None:
                break
    except Aborted:
        return rows
    return {**rows, **private}

"""Where the states of a run meet a goal: the program's `find` says it."""

import bench

NONE = 4  # the status of `find` where no state meets a goal


def met(goal, given, image=False, quiet=False):
    """The first and the last position of each stretch of states that meet a goal; and with `quiet` what the program says of the goal."""
    words = ['find', '--for=' + goal] + (['--image'] if image else [])
    lines, said = bench.answer(words, given, (0, NONE), quiet)
    return stretches(map(int, lines)), said


def stretches(positions):
    """Positions in their order as stretches, each from its first to its last one."""
    found = []
    for position in positions:
        follows = found and found[-1][1] == position - 1
        found[-1 if follows else len(found):] = [[found[-1][0] if follows else position, position]]
    return found

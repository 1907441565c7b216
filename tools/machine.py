"""What this process may use of the machine: the memory that is free and the processors, within the limits of its control groups, as those of a container."""

import math
import os
import re

# The files of a control group by the version of the groups: the limit of memory, and what is in use; and the name in memory.stat of what of that can be taken
# back at once.
MEMORY = {1: ('memory.limit_in_bytes', 'memory.usage_in_bytes', 'total_inactive_file'), 2: ('memory.max', 'memory.current', 'inactive_file')}


def content(*path):
    """The text of a file; '' where it cannot be read."""
    try:
        with open(os.path.join(*path), encoding='ascii', errors='replace') as file:
            return file.read()
    except OSError:
        return ''


def number(text, name=''):
    """The number behind a name, or that with which a text begins; None where there is none."""
    found = re.search(r'^%s(\d+)\b' % (name + r':?\s+' if name else ''), text, re.MULTILINE)
    return int(found[1]) if found else None


def folders(controller, proc, groups):
    """The version and the folder of each control group that this process is in, with those that it is in itself."""
    for line in content(proc, 'self', 'cgroup').splitlines():
        _, names, path = line.split(':', 2)
        if names and controller not in names.split(','):
            continue
        version, top, parts = (1, os.path.join(groups, controller), path.split('/')) if names else (2, groups, path.split('/'))
        for count in range(len(parts), 0, -1):
            yield version, os.path.join(top, *filter(None, parts[:count]))


def free_memory(proc='/proc', groups='/sys/fs/cgroup'):
    """The bytes of memory that are free."""
    free = [number(content(proc, 'meminfo'), 'MemAvailable') << 10]
    for version, folder in folders('memory', proc, groups):
        limit, usage, cache = MEMORY[version]
        most, used = number(content(folder, limit)), number(content(folder, usage)) or 0
        if most is not None:
            free.append(most - used + (number(content(folder, 'memory.stat'), cache) or 0))
    return max(0, min(free))


def processors(proc='/proc', groups='/sys/fs/cgroup'):
    """How many processors there are for this process, a part of one counted as one."""
    count = [len(os.sched_getaffinity(0))]
    for version, folder in folders('cpu', proc, groups):
        words = content(folder, 'cpu.max').split() if version == 2 else [content(folder, 'cpu.cfs_quota_us'), content(folder, 'cpu.cfs_period_us')]
        quota, period = ([number(word) for word in words] + [None, None])[:2]
        if quota and period:
            count.append(math.ceil(quota / period))
    return min(count)

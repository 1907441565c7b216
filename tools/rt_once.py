"""rt, with three things done otherwise. It takes the sum of each crate's files once before a proof and once after it, which tells whether a file was changed
meanwhile: rt takes it again for each crate above, and some kits' rt for each way down the crates. `rt lib` leaves a library's statements in place of its
whole proof, as the gate does, so that the crates above it load less. And where no check has kept work on a program in its folder out, `rt run` keeps none,
which is faster and takes some 5 GiB of memory for `zy_bench` by four jobs; by one job it keeps some.

    rt_once.py WORD ..

The words are those of rt. Where rt is not what this expects of it, rt runs as it is."""

import importlib.util
import os
import shutil
import sys
from importlib.machinery import SourceFileLoader


def once(method, found):
    """A method without arguments, whose value for each crate is found once as long as the values that were found are kept."""

    def value(crate):
        key = crate.folder, method
        if key not in found:
            found[key] = method(crate)
        return found[key]

    return value


def forgetting(call, found):
    """A call of rattle, during which files may change: nothing that was found before counts after it."""

    def called(crate, *words):
        try:
            return call(crate, *words)
        finally:
            found.clear()

    return called


def with_statements(build, rattle):
    """A build of a library that leaves its statements, and the stamp by which other commands of rt know it."""

    def build_rlib(crate, flags, anew):
        stamp, folder = crate.stamp(), os.path.dirname(crate.rlib)
        if anew or crate.is_built():
            return build(crate, flags, anew)
        shutil.rmtree(folder, ignore_errors=True)
        os.makedirs(folder)
        status = crate.call(rattle, 'build', *crate.words(flags, keeps=False), '--statements', '-o', crate.rlib)
        if status == 0 and crate.stamp() == stamp:
            with open(os.path.join(folder, 'stamp'), 'w', encoding='utf-8') as file:
                file.write(stamp)
        return status

    return build_rlib


def without_keeping(call, kept):
    """A call of rattle by several jobs, for which there is more memory, without the flag by which it keeps its work, where the crate has none kept."""

    def called(crate, *words):
        if kept[0] in words and not crate.has_kept() and '--jobs' in words and words[words.index('--jobs') + 1] != '1':
            at = words.index(kept[0])
            words = words[:at] + words[at + len(kept):]
        return call(crate, *words)

    return called


def main(words):
    path = os.path.realpath(shutil.which('rt'))
    try:
        loader = SourceFileLoader('rt', path)
        rt = importlib.util.module_from_spec(importlib.util.spec_from_loader('rt', loader))
        loader.exec_module(rt)
        crate, found = rt.rtlib.Crate, {}
        crate.stamp, crate.below = once(crate.stamp, found), once(crate.below, found)
        crate.call, crate.prove = forgetting(crate.call, found), forgetting(crate.prove, found)
        if hasattr(rt.rtlib, 'KEPT'):
            crate.call = without_keeping(crate.call, rt.rtlib.KEPT)
        if '--statements' in rt.rtlib.help_of('build'):
            crate.build_rlib = with_statements(crate.build_rlib, rt.rtlib.RATTLE)
    except (AttributeError, OSError, SyntaxError):
        os.execv(path, ['rt', *words])
    return rt.main(words)


if __name__ == '__main__':
    sys.exit(main(sys.argv[1:]))

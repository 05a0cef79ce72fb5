#!/usr/bin/env python3
"""Times `zi select` on feeds of growing size and of several shapes, and against `0install select` where that is installed.

Prints the best of some runs for each size, the ratio of the time per implementation to that of the smallest feed, the
peak memory of the largest run in feed sizes, and for flat feeds the ratio to 0install on the same feed in the same run.
"""
import os
import shutil
import sys
import tempfile

from measure import timed_with_peak

TOP = os.path.dirname(os.path.dirname(os.path.abspath(__file__)))
PROGRAM = os.path.join(TOP, "crates", "zi", "out", "zi")
NS = "http://zero-install.sourceforge.net/2004/injector/interface"
RUNS = 5


def tag(n, more=""):
    # versions in no order, ids all distinct; about a hundred bytes each
    version = f"{(n * 7919) % 9973}.{(n * 104729) % 99991}-pre{n % 7}"
    return f'  <implementation id="implementation.number-{n:06d}" version="{version}"{more}/>\n'


def flat(count):
    return "".join(tag(n, ' local-path="here"') for n in range(count))


def grouped(count):
    tags = [tag(n) for n in range(count)]
    tens = (f'<group local-path="here">\n{"".join(tags[n : n + 10])}</group>\n' for n in range(0, count, 10))
    return f'<group main="run">\n{"".join(tens)}</group>\n'


def needing(count):
    needs = "".join(f'<requires interface="/needed-{n:03d}.xml"><version not-before="1"/></requires>\n' for n in range(100))
    return f'<group local-path="here">\n{needs}{"".join(tag(n) for n in range(count))}</group>\n'


# the shapes, with the sizes that are tried and the status that is wanted (73: what is needed isn't there, so nothing fits)
SHAPES = (
    ("flat", flat, (1000, 4000, 16000, 40000), 0),
    ("in groups of ten", grouped, (1000, 4000, 16000, 40000), 0),
    ("in one group with 100 dependencies", needing, (1000, 4000, 16000, 40000), 73),
)


def make(folder, name, inside, head=""):
    path = os.path.join(folder, f"{name}.xml")
    with open(path, "w") as file:
        file.write(f'<interface xmlns="{NS}">\n{head}{inside}</interface>\n')
    return path


def main():
    if not os.path.exists(PROGRAM):
        sys.exit("crates/zi/out/zi isn't there: run the gate first")
    other = shutil.which("0install")
    folder = tempfile.mkdtemp(prefix="zi-bench-")
    os.mkdir(os.path.join(folder, "here"))  # 0install wants the path of an implementation to be there
    for shape, inside, sizes, wanted in SHAPES:
        print(shape)
        first = None
        for count in sizes:
            content = inside(count)
            path = make(folder, f"f{count}", content)
            size = os.path.getsize(path)
            taken, peak = timed_with_peak([PROGRAM, "select", "--no-command", path], RUNS, wanted)
            each = taken / count
            first = first or each
            line = f"{count:6d} implementations, {size:8d} bytes: {taken * 1000:8.1f} ms, {each / first:5.2f} of the first per implementation, peak {peak / size:5.1f} times the bytes"
            if other and inside is flat:
                env = dict(os.environ, HOME=folder, XDG_CONFIG_HOME=folder, XDG_CACHE_HOME=folder)
                # the same feed, with the name and summary that 0install asks for
                named = make(folder, f"named{count}", content, "  <name>n</name>\n  <summary>s</summary>\n")
                theirs, _ = timed_with_peak([other, "select", "--offline", "--command=", "--xml", named], RUNS, env=env)
                line += f", {taken / theirs:.3f} of 0install's time"
            print(line, flush=True)
    if not other:
        print("0install isn't installed: no ratio to it")
    shutil.rmtree(folder)


if __name__ == "__main__":
    main()

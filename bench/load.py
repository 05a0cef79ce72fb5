#!/usr/bin/env python3
"""Times the loading of many candidates, interfaces and feeds up to their limits, and against `0install select` where that is installed.

Prints the best of some runs for each size, the ratio of the time per item to that of the smallest size, the peak memory, and the
ratio to 0install on the same feeds in the same run, where that ends within a minute. The variable ZI_BESIDE may name another program, whose
processor time is then compared with (as one from before a change).
"""
import os
import shutil
import subprocess
import sys
import tempfile
import time

from measure import beside, processor_time, timed_with_peak

TOP = os.path.dirname(os.path.dirname(os.path.abspath(__file__)))
PROGRAM = os.environ.get("ZI_PROGRAM", os.path.join(TOP, "crates", "zi", "out", "zi"))
NS = "http://zero-install.sourceforge.net/2004/injector/interface"
RUNS = 3
SECONDS = 60


def write(folder, name, inside):
    path = os.path.join(folder, name)
    with open(path, "w") as file:
        file.write(f'<interface xmlns="{NS}">\n<name>n</name>\n<summary>s</summary>\n{inside}</interface>\n')
    return path


def impl(n, inside=""):
    return f'<implementation id="implementation.number-{n:06d}" version="{(n * 7919) % 9973}.{n}" local-path="here">{inside}</implementation>\n'


def candidates(folder, count):
    """One interface: its own feed imports eight others, which share the candidates."""
    for feed in range(8):
        write(folder, f"part{feed}.xml", "".join(impl(n) for n in range(feed, count, 8)))
    return write(folder, "root.xml", "".join(f'<feed src="./part{feed}.xml"/>\n' for feed in range(8)))


def chain(folder, count):
    """So many interfaces, each of which needs the next."""
    for n in range(count):
        needs = f'<requires interface="./i{n + 1}.xml"/>' if n + 1 < count else ""
        write(folder, f"i{n}.xml", impl(n, needs))
    return os.path.join(folder, "i0.xml")


def star(folder, count):
    """So many interfaces, all of which the root needs."""
    for n in range(1, count):
        write(folder, f"i{n}.xml", impl(n))
    return write(folder, "i0.xml", impl(0, "".join(f'<requires interface="./i{n}.xml"/>' for n in range(1, count))))


def imports(folder, count):
    """One interface of so many feeds, each of which imports the next."""
    for n in range(count):
        more = f'<feed src="./f{n + 1}.xml"/>\n' if n + 1 < count else ""
        write(folder, f"f{n}.xml", more + impl(n))
    return os.path.join(folder, "f0.xml")


# The shapes, with the sizes that are tried, the status that is wanted and
# whether 0install does the same work: it follows the imports of an interface's own feed, and not those of imported ones.
SHAPES = (
    ("candidates of one interface, over nine feeds", candidates, (8192, 16384, 32768, 65536), 0, True),
    ("interfaces in a chain", chain, (512, 1024, 2048, 4096), 0, True),
    ("interfaces around the root", star, (512, 1024, 2048, 4096), 0, True),
    ("feeds in a chain", imports, (1024, 2048, 4096, 8192), 0, False),
)


def theirs(other, folder, root):
    """The time of one run of 0install, or None where it fails or takes too long."""
    env = dict(os.environ, HOME=folder, XDG_CONFIG_HOME=folder, XDG_CACHE_HOME=folder)
    start = time.perf_counter()
    try:
        done = subprocess.run(
            [other, "select", "--offline", "--command=", "--xml", root],
            env=env, stdout=subprocess.DEVNULL, stderr=subprocess.DEVNULL, timeout=SECONDS,
        )
    except subprocess.TimeoutExpired:
        return None
    return time.perf_counter() - start if done.returncode == 0 else None


def main():
    if not os.path.exists(PROGRAM):
        sys.exit("crates/zi/out/zi isn't there: run the gate first")
    other = shutil.which("0install")
    for shape, make, sizes, wanted, is_same in SHAPES:
        print(shape)
        first = None
        given_up = False
        for count in sizes:
            folder = tempfile.mkdtemp(prefix="zi-bench-")
            os.mkdir(os.path.join(folder, "here"))  # 0install wants the path of an implementation to be there
            root = make(folder, count)
            taken, peak = timed_with_peak([PROGRAM, "select", "--no-command", root], RUNS, wanted)
            each = taken / count
            first = first or each
            line = f"{count:6d}: {taken * 1000:9.1f} ms, {each / first:5.2f} of the first for each, peak {peak / 2**20:7.1f} MiB"
            if other and is_same and not given_up:
                other_time = theirs(other, folder, root)
                given_up = other_time is None
                line += f", 0install fails or takes more than {SECONDS} s" if given_up else f", {taken / other_time:.3f} of 0install's time"
            line += beside(PROGRAM, lambda one: processor_time([one, "select", "--no-command", root], wanted))
            print(line, flush=True)
            shutil.rmtree(folder)
    if not other:
        print("0install isn't installed: no ratio to it")


if __name__ == "__main__":
    main()

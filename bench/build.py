#!/usr/bin/env python3
"""The time and memory that building the constraints of a universe takes, by its literals.

Run it after `rt ci` (or `rt run` in crates/speed), which builds the program: it loads feeds, and builds their constraints as often
as it is told. What it takes more than where it only loads is the building's. Prints for each size the time of one building and its
memory, and the ratio to a known tool in the same run, where one is installed: for chains and webs of the whole run, loading included, to
`0install select` on the same feeds, which also chooses; for many versions of the building to the time in which minisat reads the same
literals as a file, and of the memory to that of its whole run.
"""
import os
import pathlib
import re
import shutil
import subprocess
import sys
import tempfile

from measure import timed_with_peak
from shapes import chain, impl, impls, requires, theirs_on, web, write_feeds

TOP = pathlib.Path(__file__).resolve().parent.parent
PROGRAM = os.environ.get("SPEED_PROGRAM", str(TOP / "crates/speed/out/speed"))
RUNS = 3


def versions(root, lib, rest):
    """Three interfaces of so many versions: each of the first needs the second, and one of the second needs the third."""
    return [f"<group>{requires(1)}{impls(root)}</group>", impls(lib - 1) + impl(lib, requires(2)), impls(rest)]


def clauses(root, lib, rest):
    """The lists of literals of that shape's constraints, a group as one too; in place of the one version's number any other's stands."""
    roots, libs = range(1, root + 1), range(root + 1, root + lib + 1)
    rests = range(root + lib + 1, root + lib + rest + 1)
    libs_text, rests_text = " ".join(map(str, libs)), " ".join(map(str, rests))
    roots_text = " ".join(map(str, roots))
    return [roots_text, roots_text, libs_text, rests_text, *(f"-{y} {libs_text}" for y in roots), f"-{libs[0]} {rests_text}"]


# the shapes, with the sizes that are tried and how often each is built; the last size of all has 8,000,000 literals
SHAPES = (
    ("interfaces in a chain", chain, ((125,), (250,), (500,)), 400),
    ("interfaces of ten versions in a web", web, ((125,), (250,), (500,)), 20),
    ("versions of two interfaces and a third", versions, ((999, 997, 2), (1998, 1997, 2), (2827, 2825, 1209)), 1),
)


def chosen(folder, root, ours):
    """Our whole run beside 0install's."""
    theirs = theirs_on(folder, root, RUNS)
    if theirs is None:
        return "0install isn't installed: no ratio to it"
    return f"with the loading {ours / theirs:.3f} of the time in which 0install chooses ({theirs:.2f} s)"


def read(folder, sizes, ours, memory):
    """One building beside minisat's reading of the same literals, and its memory beside that of minisat's run."""
    other = shutil.which("minisat")
    if not other:
        return "minisat isn't installed: no ratio to it"
    path = os.path.join(folder, "cnf")
    lists = clauses(*sizes)
    with open(path, "w") as file:
        file.write(f"p cnf {sum(sizes)} {len(lists)}\n")
        file.writelines(f"{literals} 0\n" for literals in lists)
    said = subprocess.run([other, path], capture_output=True, text=True).stdout
    theirs = float(re.search(r"Parse time: *([0-9.]+)", said)[1])
    _, peak = timed_with_peak([other, path], 1, 10)
    return f"{ours / theirs:.2f} of the time in which minisat reads them ({theirs:.2f} s), {memory / peak:.2f} of its memory"


def main():
    if not os.path.exists(PROGRAM):
        sys.exit(f"{PROGRAM} isn't built: run `rt ci` first")
    for shape, feeds_of, tried, times in SHAPES:
        print(shape)
        for sizes in tried:
            with tempfile.TemporaryDirectory(prefix="zi-bench-") as folder:
                root, lines = write_feeds(folder, feeds_of(*sizes))
                given = os.path.join(folder, "given")
                pathlib.Path(given).write_text(lines)
                with open(given) as source:
                    line = subprocess.run([PROGRAM, "build", "1"], stdin=source, capture_output=True, text=True).stdout.strip()
                literals = int(re.search(r"(\d+) literals", line)[1])
                loading, before = timed_with_peak([PROGRAM, "build", "0"], RUNS, given=given)
                once, peak = timed_with_peak([PROGRAM, "build", "1"], RUNS, given=given)
                whole, _ = timed_with_peak([PROGRAM, "build", str(times)], RUNS, given=given)
                each, memory = (whole - loading) / times, peak - before
                print(f"{'/'.join(map(str, sizes))}: {line}")
                print(f"  {each * 1000:.3f} ms, {each / literals * 1e9:.1f} ns and {memory / literals:.1f} bytes a literal, peak {peak / 1e6:.0f} MB")
                print(f"  {read(folder, sizes, each, memory) if feeds_of is versions else chosen(folder, root, once)}", flush=True)


if __name__ == "__main__":
    main()

#!/usr/bin/env python3
"""Times `zi select` on programs with dependencies, beside `0install select` on the same feeds in the same run, where that is installed.

Run it after `rt ci`, which builds the program. Interfaces in a chain and in a web have a choice, and so has the last shape, where only
the oldest of many versions fits: its certificate is written too, and its size printed. At the end of the third chain no version
fits, so there is no choice, and there is none for pigeons in too few holes and in the web near the edge of what can be solved. Where there is
one, `zi why` is timed beside `zi select --proof`, which it may take 1.3 times as long as. Where there is none, `zi conflict` is timed beside
`zi select`: it may take twice as long where no lemma was needed, and three times as long where the choice was searched for. A size is printed
with the ratio of its time to that of the one before it, and of their interfaces or versions. The variable ZI_BESIDE may name another
program, whose processor time `zi select` is then compared with (as one from before a change).
"""
import os
import pathlib
import subprocess
import sys
import tempfile

from measure import beside, processor_time, timed_with_peak
from shapes import chain, hard_web, impl, impls, knot, pigeons, requires, stumbling, theirs_on, web, write_feeds

TOP = pathlib.Path(__file__).resolve().parent.parent
PROGRAM = os.environ.get("ZI_PROGRAM", str(TOP / "crates/zi/out/zi"))
RUNS = 3


def ending(count):
    """So many interfaces in a chain, the last of which needs versions that nobody has."""
    return [*chain(count)[:-1], impl(1, requires(count, ' version="5.."')), impl(1)]


def oldest(count):
    """One program, and another of so many versions, of which it can use the oldest alone: each newer one needs a version of a third that isn't there."""
    needs = requires(2, ' version="5.."')
    others = "".join(f'<implementation id="{n}" version="{n}"/>' for n in range(1, count))
    return [impl(1, requires(1)), impl(0) + f'<group local-path="here">{needs}{others}</group>', impl(1)]


def wide(count):
    """So many interfaces of sixteen versions each around one program."""
    return [impl(1, "".join(map(requires, range(1, count)))), *([impls(16)] * (count - 1))]


# the shapes, the sizes that are tried, the status that is wanted here and there, whether a certificate is measured, and whether 0install is asked
SHAPES = (
    ("interfaces in a chain", chain, (125, 250, 500), (0, 0), False, True),
    ("interfaces of ten versions in a web", web, (125, 250, 500), (0, 0), False, True),
    ("interfaces in a chain that ends without a solution", ending, (25, 50, 100), (73, 1), False, True),
    ("versions of which the oldest alone fits", oldest, (15_000, 30_000, 60_000), (0, 0), True, False),
    ("interfaces of sixteen versions around one", wide, (1024, 2048, 4096), (0, 0), False, False),
    ("interfaces in a chain with 500 conflicts in 4,096", stumbling, (1024, 2048, 4096), (0, 0), False, False),
    ("choices beside three pigeons in two holes", knot, (10, 20, 40), (73, 1), False, False),
    ("pigeons in one hole fewer", pigeons, (7, 8, 9), (73, 1), False, False),
    ("interfaces of six versions in a web near the edge", lambda count: hard_web(count, 6, 3, 0.5, "req", 0), (70,), (73, 1), False, False),
)


def certificate(root):
    """The size of the certificate."""
    return len(subprocess.run([PROGRAM, "select", "--no-command", "--proof", root], capture_output=True, check=True).stdout)


def reasons(root):
    """The time of the reasons, as a ratio to that of the same choice with its certificate."""
    why, proof = (timed_with_peak([PROGRAM, *words, "--no-command", root], RUNS)[0] for words in (["why"], ["select", "--proof"]))
    return why / proof


def conflicts(root):
    """The time of the facts that leave no choice, as a ratio to that of finding that there is none, and how many lemmas that needs."""
    conflict, select = (timed_with_peak([PROGRAM, word, "--no-command", root], RUNS, 73)[0] for word in ("conflict", "select"))
    proof = subprocess.run([PROGRAM, "select", "--no-command", "--proof", root], stdout=subprocess.PIPE, stderr=subprocess.DEVNULL).stdout
    return conflict / select, proof.count(b"\nl ")


def main():
    if not os.path.exists(PROGRAM):
        sys.exit(f"{PROGRAM} isn't built: run `rt ci` first")
    for shape, feeds_of, sizes, (here, there), is_certified, is_compared in SHAPES:
        print(shape)
        last = None
        for size in sizes:
            with tempfile.TemporaryDirectory(prefix="zi-bench-") as folder:
                root, _ = write_feeds(folder, feeds_of(size))
                ours, peak = timed_with_peak([PROGRAM, "select", "--no-command", root], RUNS, here)
                line = f"{size:6d}: {ours * 1000:8.1f} ms, peak {peak / 1e6:.0f} MB"
                if last:
                    line += f", {ours / last[1]:.2f} times the time for {size / last[0]:.0f} times as many"
                last = size, ours
                if is_certified:
                    line += f", certificate {certificate(root)} bytes"
                if here == 0:
                    line += f", why {reasons(root):.2f} times select --proof"
                else:
                    ratio, lemmas = conflicts(root)
                    line += f", {lemmas} lemmas, conflict {ratio:.2f} times select"
                if is_compared:
                    theirs = theirs_on(folder, root, RUNS, there)
                    line += "; 0install isn't installed: no ratio to it" if theirs is None else f"; {ours / theirs:.3f} of 0install's time ({theirs:.2f} s)"
                line += beside(PROGRAM, lambda one: processor_time([one, "select", "--no-command", root], here))
                print(line, flush=True)


if __name__ == "__main__":
    main()

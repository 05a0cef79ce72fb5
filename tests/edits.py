#!/usr/bin/env python3
"""Tries the edits that the gate doesn't try: those of crates/NAME/edits/.

    tests/edits.py [NAME..]    those of these crates; of every crate that has some, where none is named

A copy of the crates as they stand is made in a folder of its own, each crate's edits are laid into its must-fail/ in place of what
stands there, and `rt must-fail NAME` tries them, crate by crate. For each edit there is one line: `refused`; `only by name`, where
nothing but a proof file that names what the edit took away refuses it, so that it tells nothing of the contract; `only by a limit`
of the prover; `NOT REFUSED`; `bad`, where it can't be applied or read; `not tried`. The last line counts them, and the status is 0 only
where each was refused by more than a name.

The first try of a crate proves it and all below it, unless an earlier `rt check` of the same text did in this checkout: from minutes
to an hour.
"""
import os
import re
import shutil
import subprocess
import sys
import tempfile

TOP = os.path.dirname(os.path.dirname(os.path.abspath(__file__)))
LINE = re.compile(r"(?:rt: )?must-fail (\w+)/([\w.-]+)\.edit: (.*)")
VERDICTS = (
    ("refused, as it must be (only because a proof file names", "only by name"),
    ("refused, as it must be (only by a limit", "only by a limit"),
    ("refused, as it must be", "refused"),
    ("NOT REFUSED", "NOT REFUSED"),
    ("BAD EDIT", "bad"),
    ("NOT TRIED", "not tried"),
)


def edits_of(crate):
    folder = os.path.join(TOP, "crates", crate, "edits")
    if not os.path.isdir(folder):
        return []
    return sorted(name[: -len(".edit")] for name in os.listdir(folder) if name.endswith(".edit"))


def copied(one, other):
    """Copies a file; what `rt` made is given a second name, where that can be: `rt` never writes into such a file."""
    try:
        if f"{os.sep}out{os.sep}" in one:
            return os.link(one, other)
    except OSError:
        pass
    return shutil.copy2(one, other)


def laid_out(room):
    """A copy of what `rt` reads and made, with each crate's edits in must-fail/ and nothing else there."""
    for name in ("crates.txt", "HANDLES"):
        shutil.copy2(os.path.join(TOP, name), room)
    shutil.copytree(
        os.path.join(TOP, "crates"), os.path.join(room, "crates"), symlinks=True, ignore=shutil.ignore_patterns("must-fail"), copy_function=copied
    )
    for crate in os.listdir(os.path.join(room, "crates")):
        edits = os.path.join(room, "crates", crate, "edits")
        if os.path.isdir(edits):
            os.rename(edits, os.path.join(room, "crates", crate, "must-fail"))


def verdict(said):
    return next((word for start, word in VERDICTS if said.startswith(start)), "not tried")


def tried(room, crate):
    """What each of the crate's edits came to, by its name; each is told as soon as `rt` tells it."""
    found = {}
    with subprocess.Popen(
        ["rt", "must-fail", crate], cwd=room, stdout=subprocess.PIPE, stderr=subprocess.STDOUT, errors="replace", stdin=subprocess.DEVNULL
    ) as run:
        for line in run.stdout:
            told = LINE.match(line)
            if told and told[1] == crate:
                found[told[2]] = verdict(told[3])
                behind = "" if found[told[2]] == "refused" else f" ({told[3].strip()})"
                print(f"{crate}/{told[2]}: {found[told[2]]}{behind}", flush=True)
            elif re.match(r"rt: |\S+: error|error", line):
                print(f"    {line.rstrip()}", flush=True)
    for edit in edits_of(crate):
        if edit not in found:
            found[edit] = "not tried"
            print(f"{crate}/{edit}: not tried", flush=True)
    return found


def main(names):
    every = sorted(os.listdir(os.path.join(TOP, "crates")))
    unknown = [name for name in names if name not in every]
    if unknown:
        sys.exit(f"edits.py: there is no crate {unknown[0]}")
    if not shutil.which("rt"):
        sys.exit("edits.py: the command rt of the kit isn't on the PATH")
    crates = [name for name in (names or every) if edits_of(name)]
    counts = {}
    with tempfile.TemporaryDirectory(prefix="zi-edits-") as room:
        laid_out(room)
        for crate in crates:
            for word in tried(room, crate).values():
                counts[word] = counts.get(word, 0) + 1
    number = sum(counts.values())
    refused = counts.get("refused", 0) + counts.get("only by a limit", 0)
    others = "".join(f", {counts[word]} {word}" for _, word in VERDICTS if word != "refused" and counts.get(word))
    print(f"{refused} of {number} edits of {len(crates)} crates are refused{others}")
    return 0 if refused == number else 1


if __name__ == "__main__":
    sys.exit(main(sys.argv[1:]))

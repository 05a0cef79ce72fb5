#!/usr/bin/env python3
"""The time to hash 256 MB, as a ratio to sha256sum and sha1sum in the same run.

Run it after `rt ci` (or `rt run` in crates/speed), which builds the program.
The ratio wanted is at most 1.5. Each figure is the best of five, over one file that lies in memory.
"""
import pathlib
import subprocess
import sys
import tempfile
import time

SIZE = 256_000_000
RUNS = 5
TOP = pathlib.Path(__file__).resolve().parent.parent
PROGRAM = TOP / "crates/speed/out/speed"


def timed(words, path):
    """The least time of some runs, and the first word that the last one printed."""
    best = float("inf")
    for _ in range(RUNS):
        with open(path, "rb") as source:
            start = time.perf_counter()
            done = subprocess.run(words, stdin=source, capture_output=True, check=True)
            best = min(best, time.perf_counter() - start)
    return best, done.stdout.decode().split()[0]


def main():
    if not PROGRAM.exists():
        sys.exit(f"{PROGRAM} isn't built: run `rt ci` first")
    with tempfile.NamedTemporaryFile() as file:
        piece = bytes(range(256)) * 3906
        for _ in range(SIZE // len(piece)):
            file.write(piece)
        file.write(bytes(SIZE % len(piece)))
        file.flush()
        for front, ours, theirs in [("sha256=", "sha256", "sha256sum"), ("sha1new=", "sha1new", "sha1sum")]:
            time_ours, name = timed([str(PROGRAM), "hash", ours], file.name)
            time_theirs, digest = timed([theirs], file.name)
            if name != front + digest:
                sys.exit(f"{ours}: {name} isn't {digest}")
            ratio = time_ours / time_theirs
            print(f"{ours}: {time_ours:.3f} s, {theirs} {time_theirs:.3f} s, ratio {ratio:.2f}")


if __name__ == "__main__":
    main()

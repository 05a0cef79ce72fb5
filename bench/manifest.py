#!/usr/bin/env python3
"""The time to digest two trees, as a ratio to `0install digest` on the same trees in folders, in the same run.

Run it after `rt ci` (or `rt run` in crates/speed), which builds the program. One tree is a file of 100 MB, the
other 20,000 files of 1,000 bytes in 200 folders. The goal is 1.0; more than 2 is a defect. Where 0install isn't
installed, `sha256sum` over the same files stands for it. Each figure is the best of five; the program makes its tree in
memory first, which counts as its time, and 0install reads files that the system holds in memory.
"""
import pathlib
import shutil
import subprocess
import sys
import tempfile
import time

from measure import fill

RUNS = 5
TOP = pathlib.Path(__file__).resolve().parent.parent
PROGRAM = TOP / "crates/speed/out/speed"
SHAPES = {"one": (1, 1, 100_000_000), "many": (200, 100, 1_000)}


def timed(words):
    """The least time of some runs, and the last word that the last one printed first."""
    best = float("inf")
    for _ in range(RUNS):
        start = time.perf_counter()
        done = subprocess.run(words, capture_output=True, check=True)
        best = min(best, time.perf_counter() - start)
    return best, done.stdout.decode().split()[0]


def main():
    if not PROGRAM.exists():
        sys.exit(f"{PROGRAM} isn't built: run `rt ci` first")
    for shape, sizes in SHAPES.items():
        with tempfile.TemporaryDirectory() as folder:
            fill(pathlib.Path(folder), *sizes)
            time_ours, name = timed([str(PROGRAM), "manifest", shape])
            if shutil.which("0install"):
                other = "0install digest"
                time_theirs, digest = timed(["0install", "digest", folder, "--algorithm=sha256new"])
                if name != digest:
                    sys.exit(f"{shape}: {name} isn't {digest}")
            else:
                other = "sha256sum"
                time_theirs, _ = timed(["sh", "-c", f"find '{folder}' -type f -exec sha256sum {{}} +"])
            print(f"{shape}: {time_ours:.3f} s, {other} {time_theirs:.3f} s, ratio {time_ours / time_theirs:.2f}")


if __name__ == "__main__":
    main()

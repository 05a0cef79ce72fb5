#!/usr/bin/env python3
"""The time to download 100 MB by a helper that is `cat`, as a ratio to `cat` and `zi store add` of the same bytes, in the same run.

Run it after `rt ci`, which builds the program. The tree has two files of 50 MB each, fetched by a recipe; both ways store it under
the same digest, made to last. The goal is at most 2. Each figure is the best of some runs, each over a fresh store.
"""
import base64
import hashlib
import os
import pathlib
import shutil
import sys
import tempfile

from measure import put, timed_with_peak

RUNS = 5
SIZE = 50_000_000
TOP = pathlib.Path(__file__).resolve().parent.parent
PROGRAM = os.environ.get("ZI_PROGRAM") or str(TOP / "crates/zi/out/zi")
FEED = """<interface xmlns="http://zero-install.sourceforge.net/2004/injector/interface"><name>a</name><summary>a</summary>
<implementation id="x" version="1"><manifest-digest sha256new="{digest}"/><recipe>{steps}</recipe></implementation></interface>"""


def digest_of(files):
    """The digest of a tree of these files."""
    lines = [f"F {hashlib.sha256(data).hexdigest()} 0 {len(data)} {name}\n" for name, data in sorted(files.items())]
    return base64.b32encode(hashlib.sha256("".join(lines).encode()).digest()).decode().rstrip("=")


def fresh(words, env, store):
    """The least time of some runs and the most memory, each run over a store of its own."""
    best, most = float("inf"), 0
    for _ in range(RUNS):
        shutil.rmtree(store, ignore_errors=True)
        took, peak = timed_with_peak(words, 1, env=env)
        best, most = min(best, took), max(most, peak)
    return best, most


def measure(work):
    files = {name: os.urandom(SIZE) for name in ("a", "b")}
    digest = digest_of(files)
    for name, data in files.items():
        put(work / name, data)
    # the bytes aren't held while programs run
    files, data = tuple(files), None
    steps = "".join(f'<file href="http://example.com/{name}" size="{SIZE}" dest="{name}"/>' for name in files)
    (work / "app.xml").write_text(FEED.format(digest=digest, steps=steps))
    helper = work / "helper"
    helper.write_text(f'#!/bin/sh\nexec cat "{work}/${{1##*/}}"\n')
    helper.chmod(0o755)
    store = work / "store"
    env = dict(os.environ, ZI_STORE=str(store), ZI_FETCH=str(helper))
    paths = [str(work / name) for name in files]
    ours, peak = fresh([PROGRAM, "download", "--no-command", str(work / "app.xml")], env, store)
    adding, _ = fresh([PROGRAM, "store", "add", f"sha256new_{digest}"] + paths, env, store)
    copying, _ = fresh(["sh", "-c", f"cat '{paths[0]}' '{paths[1]}' | cat > '{work}/copy'"], env, store)
    theirs = adding + copying
    print(f"download of 100 MB: {ours:.2f} s, {peak >> 20} MiB; cat {copying:.2f} s and store add {adding:.2f} s; ratio {ours / theirs:.2f}")


def main():
    if not os.path.exists(PROGRAM):
        sys.exit(f"{PROGRAM} isn't built: run `rt ci` first")
    with tempfile.TemporaryDirectory() as work:
        measure(pathlib.Path(work))


if __name__ == "__main__":
    main()

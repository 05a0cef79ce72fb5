#!/usr/bin/env python3
"""The time from the start of `zi run` to the end of a program that ends at once, beside `0install run` of the same feed in the same run.

Run it after `rt ci`, which builds the program. The program is a local shell script; the goal is at most 0.2 of 0install's time. A second
feed has a stored tree with a file of 100 MB: what `run` takes there beside `store verify` of the same tree, since each start reads the
tree anew. Each of these figures is the best of some runs.

Last come five commands of a dependency that are made available, three by PATH and two by variables: `launch` of such selections,
whose shims are stored already, beside that of the same selections without those bindings, and beside that of the latter with the
five trees among them, which are read and verified as the shims are. The goal is at most 1.3 times the time of the last. The three
take turns, and the figures are the middle of the rounds.
"""
import base64
import hashlib
import os
import pathlib
import shutil
import subprocess
import sys
import tempfile

from measure import in_turns, put, timed_with_peak

RUNS = 10
ROUNDS = 201
SHIMS = ["path"] * 3 + ["var"] * 2
SIZE = 100_000_000
TOP = pathlib.Path(__file__).resolve().parent.parent
PROGRAM = os.environ.get("ZI_PROGRAM") or str(TOP / "crates/zi/out/zi")
FEED = """<interface xmlns="http://zero-install.sourceforge.net/2004/injector/interface"><name>{name}</name><summary>{name}</summary>
{implementation}</interface>"""


def script(path):
    path.write_text("#!/bin/sh\n")
    path.chmod(0o755)
    os.utime(path, (0, 0))


def local(work):
    """A feed of a program in its own folder."""
    script(work / "main")
    feed = work / "app.xml"
    feed.write_text(FEED.format(name="app", implementation='<implementation id="." version="1" local-path="."><command name="run" path="main"/></implementation>'))
    return str(feed)


def hash_of(path):
    """The hash of a file, which isn't held whole: a program that is started counts what this one held."""
    hasher = hashlib.sha256()
    with open(path, "rb") as source:
        while piece := source.read(65536):
            hasher.update(piece)
    return hasher.hexdigest()


def stored(work):
    """A feed of a program in a stored tree with a large file beside it, and the name of that tree."""
    tree = work / "store" / "t"
    tree.mkdir(parents=True)
    put(tree / "large", b"a" * SIZE)
    script(tree / "main")
    lines = [f"{kind} {hash_of(tree / name)} 0 {(tree / name).stat().st_size} {name}\n" for kind, name in (("F", "large"), ("X", "main"))]
    digest = base64.b32encode(hashlib.sha256("".join(lines).encode()).digest()).decode().rstrip("=")
    (tree / ".manifest").write_text("".join(lines))
    tree.rename(tree.parent / f"sha256new_{digest}")
    feed = work / "stored.xml"
    inside = f'<implementation id="x" version="1"><manifest-digest sha256new="{digest}"/><command name="run" path="main"/></implementation>'
    feed.write_text(FEED.format(name="stored", implementation=inside))
    return str(feed), f"sha256new_{digest}"


def documents(work, env):
    """Selections of a program and of a dependency: as they are, with five shims, and with the trees of the shims as more selections."""
    script(work / "tool")
    commands = "".join(f'<command name="c{number}" path="tool"><arg>--number</arg><arg>{number}</arg></command>' for number in range(len(SHIMS)))
    library = work / "library.xml"
    library.write_text(FEED.format(name="library", implementation=f'<implementation id="." version="1" local-path=".">{commands}</implementation>'))
    bindings = "".join(f'<executable-in-{kind} name="T{number}" command="c{number}"/>' for number, kind in enumerate(SHIMS))
    made = []
    for name, inside in (("plain", ""), ("shims", bindings)):
        needs = f'<requires interface="{library}">{inside}</requires><command name="run" path="main"/>'
        feed = work / f"{name}.xml"
        feed.write_text(FEED.format(name="app", implementation=f'<implementation id="." version="1" local-path=".">{needs}</implementation>'))
        made.append(work / name)
        made[-1].write_bytes(subprocess.run([PROGRAM, "select", str(feed)], env=env, capture_output=True, check=True).stdout)
    plain, shims = made
    subprocess.run([PROGRAM, "launch", str(shims)], env=env, check=True)
    names = subprocess.run([PROGRAM, "store", "list"], env=env, capture_output=True, check=True).stdout.decode().split()
    if len(names) != len(SHIMS):
        sys.exit(f"shims: {len(names)} trees are stored")
    more = "".join(f'<selection interface="/{name}" id="x" version="1"><manifest-digest sha256new="{name[10:]}"/></selection>' for name in names)
    trees = work / "trees"
    trees.write_bytes(plain.read_bytes().replace(b"</selections>", more.encode() + b"</selections>"))
    return plain, trees, shims


def shimmed(work):
    env = dict(os.environ, ZI_STORE=str(work / "shims-store"))
    plain, trees, shims = in_turns([[PROGRAM, "launch", str(document)] for document in documents(work, env)], ROUNDS, env)
    for place, word in enumerate(("by the clock", "processor time")):
        with_shims, verified, without = shims[place], trees[place], plain[place]
        print(f"launch with {len(SHIMS)} shims, {word}: {with_shims * 1000:.2f} ms; {with_shims / verified:.2f} of the same without them and their", end="")
        print(f" trees verified ({verified * 1000:.2f} ms), {with_shims / without:.2f} of the same without them ({without * 1000:.2f} ms)", flush=True)


def theirs(work, feed):
    """0install's time, in a home of its own; None where it isn't installed."""
    if not shutil.which("0install"):
        return None
    env = {name: value for name, value in os.environ.items() if not name.startswith("XDG_")}
    home = work / "home"
    home.mkdir()
    return timed_with_peak(["0install", "run", "--offline", feed], RUNS, env=dict(env, HOME=str(home)))[0]


def measure(work):
    feed = local(work)
    env = dict(os.environ, ZI_STORE=str(work / "store"))
    ours, _ = timed_with_peak([PROGRAM, "run", feed], RUNS, env=env)
    other = theirs(work, feed)
    ratio = "0install isn't installed: no ratio to it" if other is None else f"{ours / other:.3f} of 0install's time ({other * 1000:.0f} ms)"
    print(f"a local program: {ours * 1000:.1f} ms; {ratio}", flush=True)
    feed, name = stored(work)
    ours, peak = timed_with_peak([PROGRAM, "run", feed], RUNS, env=env)
    verifying, _ = timed_with_peak([PROGRAM, "store", "verify", name], RUNS, env=env)
    print(f"a stored program beside 100 MB: {ours * 1000:.0f} ms, {peak / 1e6:.0f} MB; {ours / verifying:.2f} of the time of store verify", flush=True)
    shimmed(work)


def main():
    if not os.path.exists(PROGRAM):
        sys.exit(f"{PROGRAM} isn't built: run `rt ci` first")
    with tempfile.TemporaryDirectory(prefix="zi-bench-") as work:
        measure(pathlib.Path(work))


if __name__ == "__main__":
    main()

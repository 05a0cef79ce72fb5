#!/usr/bin/env python3
"""The time to verify and to add trees in a store, as ratios to `0install store` on the same trees, in the same run; and what stores cost a choice.

Run it after `rt ci`, which builds the program; the variable ZI_PROGRAM names another. The trees: one file of 256 MB, 20,000 files
of 1,000 bytes in 200 folders, one folder of 100,000 files, and 396, 793 and 1,587 chains of 63 folders one in another (25,000, 50,000
and 100,000 nodes), for `verify`; 1,000 files of 1,000 bytes for `add`. The goals of `verify`: one file in 1.1 times the time of
`sha256sum` and 20 MB; many files in 0.8 times that of 0install, chains in 1.5 times, and each node in the same time however many
there are; a folder is listed once. How often is counted by strace, where that is installed. `add` may take twice the time of
0install, which doesn't make what it stored last through a crash: what that costs is shown by the time of `sync -f` alone. Each
figure is the best of some runs. Where 0install isn't installed, `sha256sum` and `cp -r` over the same files stand for it.
A purge of 1,000 trees of 100 files may take 1.5 times the time of `rm -r` of the same folders: the two take turns, and the figures are
the middle of the rounds. Last come five stores of 10,000 trees, over which programs of 10, 100 and 1,000 interfaces are chosen: the
smallest in at most 5.5 times the time that it takes over one of them, and what the stores add is the same however much is selected.
The words `verify`, `add`, `purge` and `choose` measure that alone.
"""
import base64
import hashlib
import os
import pathlib
import shutil
import subprocess
import sys
import tempfile
import time

from measure import IS_BUSY, fill, in_turns, processor_time_of_children, put

RUNS = 5
TOP = pathlib.Path(__file__).resolve().parent.parent
PROGRAM = pathlib.Path(os.environ.get("ZI_PROGRAM") or TOP / "crates/zi/out/zi").absolute()
ONE_FILE = "one file of 256 MB"
WIDE = "one folder of 100,000 files"
DEEP = 63
STORES = 5
NAMES = 10_000
TREES = 1_000
NS = "http://zero-install.sourceforge.net/2004/injector/interface"


def timed(words, env=None, between=None):
    """The least time of some runs, by processor time where the variable ZI_BUSY is set."""
    best = float("inf")
    for _ in range(RUNS):
        if between:
            between()
        start, used = time.perf_counter(), processor_time_of_children()
        done = subprocess.run(words, env=env, capture_output=True)
        best = min(best, processor_time_of_children() - used if IS_BUSY else time.perf_counter() - start)
        if done.returncode:
            sys.exit(f"{words}: {done.stdout.decode()}{done.stderr.decode()}")
    return best


def peak(words, env):
    """The most memory of a run, in KiB, where /usr/bin/time is there."""
    if not shutil.which("/usr/bin/time"):
        return None
    done = subprocess.run(["/usr/bin/time", "-f", "%M"] + words, env=env, capture_output=True)
    return int(done.stderr.split()[-1])


def name_of(program, store, tree):
    """The digest name of the tree that stands in the store under a plain name."""
    env = dict(os.environ, ZI_STORE=str(store))
    done = subprocess.run([program, "manifest", "sha256new", tree], env=env, capture_output=True, check=True)
    return done.stdout.split(b"\n")[-2].decode(), done.stdout[: done.stdout[:-1].rfind(b"\n") + 1]


def spelled(data):
    """The digest name of what has these bytes as its manifest."""
    return "sha256new_" + base64.b32encode(hashlib.sha256(data).digest()).decode().rstrip("=")


def chains(tree, count):
    """Makes chains of folders, each in the one before it."""
    for number in range(count):
        os.makedirs(tree / f"c{number}" / "/".join(["d"] * (DEEP - 1)))


def shapes():
    """The trees to verify, each with how it is made and how many nodes it has."""
    yield ONE_FILE, lambda tree: fill(tree, 1, 1, 256_000_000), 2
    yield "20,000 files", lambda tree: fill(tree, 200, 100, 1_000), 20_200
    yield WIDE, lambda tree: fill(tree, 1, 99_999, 10), 100_000
    for count in (396, 793, 1_587):
        yield f"{count:,} chains of {DEEP} folders", lambda tree: chains(tree, count), count * DEEP


def endings(words, env):
    """How often a run came to the end of a folder's listing, where strace is there and may be used."""
    if not shutil.which("strace"):
        return None
    with tempfile.NamedTemporaryFile("r") as record:
        done = subprocess.run(["strace", "-f", "-e", "trace=getdents64", "-o", record.name] + words, env=env, capture_output=True)
        return None if done.returncode else sum(line.rstrip().endswith(" = 0") for line in record)


def verify(shape, make, nodes, work):
    store = work / "store"
    store.mkdir()
    tree = store / "t"
    tree.mkdir()
    make(tree)
    name, manifest = name_of(PROGRAM, store, "t")
    (tree / ".manifest").write_bytes(manifest)
    os.utime(tree / ".manifest", (0, 0))
    tree.rename(store / name)
    env = dict(os.environ, ZI_STORE=str(store))
    words = [str(PROGRAM), "store", "verify", name]
    ours = timed(words, env)
    if shutil.which("0install") and shape != ONE_FILE:
        other, theirs = "0install store verify", timed(["0install", "store", "verify", str(store / name)])
    else:
        other, theirs = "sha256sum", timed(["sh", "-c", f"find '{store}' -type f -exec sha256sum {{}} +"])
    print(f"verify, {shape}: {ours:.3f} s, {peak(words, env)} KiB; {other} {theirs:.3f} s; ratio {ours / theirs:.2f}", end="")
    print("" if shape == ONE_FILE else f"; {ours / nodes * 1e6:.1f} us a node, the other {theirs / nodes * 1e6:.1f}", end="")
    print(f"; {endings(words, env)} listings of 2 folders" if shape == WIDE else "", flush=True)


def add(work):
    files = {f"f{i}": b"b" * 1_000 + str(i).encode() for i in range(1_000)}
    source = work / "source"
    source.mkdir()
    for name, data in files.items():
        put(source / name, data)
    lines = [f"F {hashlib.sha256(data).hexdigest()} 0 {len(data)} {name}\n" for name, data in sorted(files.items())]
    name = spelled("".join(lines).encode())
    store = work / "store"
    env = dict(os.environ, ZI_STORE=str(store))
    clean = lambda: shutil.rmtree(store, ignore_errors=True)
    words = [str(PROGRAM), "store", "add", name] + [str(source / file) for file in sorted(files)]
    ours = timed(words, env, clean)
    sync = timed(["sync", "-f", str(work)], env, lambda: (clean(), shutil.copytree(source, store)))
    if shutil.which("0install"):
        home = work / "home"
        home.mkdir()
        theirs_env = dict(os.environ, HOME=str(home), XDG_CACHE_HOME=str(home / "cache"))

        def fresh():
            subprocess.run(["chmod", "-R", "u+w", str(home)], check=False)
            shutil.rmtree(home, ignore_errors=True)
            home.mkdir()

        other, theirs = "0install store add", timed(["0install", "store", "add", name, str(source)], theirs_env, fresh)
        fresh()
    else:
        other, theirs = "cp -r", timed(["cp", "-r", str(source), str(store)], env, clean)
    print(f"add, 1,000 files: {ours:.3f} s; {other} {theirs:.3f} s; ratio {ours / theirs:.2f}; sync -f alone {sync:.3f} s")


def program(folder, count):
    """A program of so many interfaces, all of which the first needs."""
    for number in range(count):
        needs = "".join(f'<requires interface="./i{other}.xml"/>' for other in range(1, count)) if number == 0 else ""
        inside = f'<implementation id="i" version="1" local-path=".">{needs}</implementation>'
        (folder / f"i{number}.xml").write_text(f'<interface xmlns="{NS}"><name>n</name><summary>s</summary>{inside}</interface>\n')
    return str(folder / "i0.xml")


def choose(work):
    stores = [work / f"store{number}" for number in range(STORES)]
    for store in stores:
        for number in range(NAMES):
            (store / spelled(f"{store.name} {number}".encode())).mkdir(parents=True)
    for count in (10, 100, 1_000):
        folder = work / str(count)
        folder.mkdir()
        words = [str(PROGRAM), "select", "--no-command", program(folder, count)]
        times = []
        for some in ([work / "none"], stores[:1], stores):
            env = dict(os.environ, ZI_STORE=str(some[0]), ZI_STORES=":".join(str(store) for store in some[1:]))
            times.append(timed(words, env))
        none, one, all_of = times
        print(f"select, {count:,} interfaces: {none * 1e3:.1f} ms without a store, {one * 1e3:.1f} over one, {all_of * 1e3:.1f} over {STORES}", end="")
        print(f"; ratio to one {all_of / one:.2f}; what they add {(all_of - none) * 1e3:.1f} ms", flush=True)


def purge(work):
    """All trees but one are taken away, which costs a rename and two syncs of the store beside what `rm -r` does."""
    store, made = work / "store", work / "made"
    made.mkdir()
    kept = spelled(b"0")
    for number in range(TREES):
        inside = made / spelled(b"%d" % number)
        inside.mkdir()
        for file in range(100):
            put(inside / str(file), b"a" * 100)
    selection = f'<selection interface="/p" id="x" version="1"><manifest-digest sha256new="{kept[10:]}"/></selection>'
    document = work / "kept"
    document.write_text(f'<selections xmlns="{NS}" interface="/p">{selection}</selections>')
    env = dict(os.environ, ZI_STORE=str(store))

    def laid():
        shutil.rmtree(store, ignore_errors=True)
        subprocess.run(["cp", "-r", str(made), str(store)], check=True)
        os.sync()

    words = [str(PROGRAM), "store", "purge", str(document)]
    laid()
    subprocess.run(words, env=env, stdout=subprocess.DEVNULL, check=True)
    if sorted(os.listdir(store)) != [kept]:
        sys.exit("purge: other trees are left")
    ours, theirs = in_turns([words, ["sh", "-c", f"cd '{store}' && ls | grep -v {kept} | xargs rm -r"]], RUNS, env, laid)
    for place, word in enumerate(("by the clock", "processor time")):
        print(f"purge, {TREES:,} trees of 100 files, {word}: {ours[place]:.3f} s; rm -r {theirs[place]:.3f} s; ratio {ours[place] / theirs[place]:.2f}", flush=True)


def verify_all(work):
    for number, (shape, make, nodes) in enumerate(shapes()):
        inside = work / str(number)
        inside.mkdir()
        verify(shape, make, nodes, inside)
        shutil.rmtree(inside)


def main(words):
    if not PROGRAM.exists():
        sys.exit(f"{PROGRAM} isn't built: run `rt ci` first")
    parts = {"verify": verify_all, "add": add, "purge": purge, "choose": choose}
    if not set(words) <= set(parts):
        sys.exit(__doc__)
    for name in words or parts:
        with tempfile.TemporaryDirectory() as work:
            parts[name](pathlib.Path(work))


if __name__ == "__main__":
    main(sys.argv[1:])

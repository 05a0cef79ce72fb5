#!/usr/bin/env python3
"""Runs the proved program's `download` over real folders, with helpers that are shell scripts over files, and compares all that it
prints, keeps and asks for.

The program is found, and each row is run, as in store.py. A helper notes each address that it is asked for. Digests are computed here.
"""
import os
import random
import shutil
import signal
import subprocess
import time

from store import EMPTY, OTHER, Wrong, begin, expect, holds, main, manifest, name_of, residues, run, store, whole, write

SPACE = "http://zero-install.sourceforge.net/2004/injector/interface"
ROOT = "http://example.com/app.xml"
DATA = os.urandom(3_000)
GIVES = 'f="web/${1##*/}"; [ -e "$f" ] || exit 44; exec cat "$f"'


def helper(folder, does=GIVES):
    """A program that notes what it is asked for, and does this."""
    path = write(folder, "helper", f'#!/bin/sh\ncd "{folder}"\necho "$1" >> asked\n{does}\n'.encode())
    os.chmod(path, 0o755)
    return path


def held(folder, files):
    """These files are in the web."""
    os.makedirs(os.path.join(folder, "web"), exist_ok=True)
    for name, data in files.items():
        write(folder, os.path.join("web", name), data)


def asked(folder):
    """What the helper was asked for since this was asked last."""
    path = os.path.join(folder, "asked")
    if not os.path.exists(path):
        return []
    names = [line.rsplit("/", 1)[1] for line in open(path).read().split()]
    os.remove(path)
    return names


def file(name, size, dest=None):
    return f'<file href="http://example.com/{name}" size="{size}" dest="{dest or name}"/>'


def implementation(digest, steps, name="x", inside=""):
    return f'<implementation id="{name}" version="1"><manifest-digest sha256new="{digest[10:]}"/><recipe>{steps}</recipe>{inside}</implementation>'


def feed(folder, content, address=ROOT):
    os.makedirs(os.path.join(folder, "feeds"), exist_ok=True)
    text = f'<interface xmlns="{SPACE}" uri="{address}"><name>a</name><summary>a</summary>{content}</interface>'
    write(folder, os.path.join("feeds", address.replace(":", "%3A").replace("/", "%2F")), text.encode())


WORDS = ["download", "--no-command", ROOT]


def download(folder, does=GIVES):
    return run(WORDS, folder, ZI_FETCH=helper(folder, does))


def refuses(folder, status, line, does=GIVES):
    """What refuses writes its line alone and stores nothing."""
    expect(download(folder, does), status, b"", f"zi: {line}\n".encode())
    holds("nothing is stored", not os.path.exists(store(folder)) or os.listdir(store(folder)) == [])


FILES = {"a": DATA, "b": b"", "c": b"x"}


def app(folder, files=None):
    files = files or FILES
    feed(folder, implementation(name_of(files), "".join(file(name, len(data)) for name, data in files.items())))
    held(folder, files)


def fetched_once(folder):
    app(folder)
    got = download(folder)
    holds(f"first {got}", got[0] == 0 and name_of(FILES)[10:].encode() in got[1] and got[2] == b"")
    holds("asked", asked(folder) == list(FILES))
    whole(folder, FILES)
    expect(download(folder), 0, got[1], b"")
    holds("asked again", asked(folder) == [])
    expect(run(["select"] + WORDS[1:], folder), 0, got[1], b"")
    expect(run(["store", "verify", name_of(FILES)], folder), 0, b"sound\n", b"")
    holds("residues", residues(folder) == [])


def renamed_and_removed(folder):
    """The steps are taken in their order, and folders are made on the way."""
    held(folder, FILES)
    steps = file("a", len(DATA), "d/e/f") + file("c", 1, "g") + '<remove path="g"/><rename source="d/e/f" dest="h"/><remove path="d"/>'
    feed(folder, implementation(name_of({"h": DATA}), steps))
    holds("status", download(folder)[0] == 0)
    whole(folder, {"h": DATA})


def one_digest_is_fetched_once(folder):
    """Of two selections with one digest the second finds the tree that the first has fetched."""
    library = "http://example.com/library.xml"
    needs = f'<requires interface="{library}"/>'
    steps = file("c", 1)
    held(folder, FILES)
    feed(folder, implementation(name_of({"c": b"x"}), steps, inside=needs))
    feed(folder, implementation(name_of({"c": b"x"}), steps, "y"), library)
    holds("status", download(folder)[0] == 0)
    holds("asked", asked(folder) == ["c"])
    whole(folder, {"c": b"x"})


def helpers_that_fail(folder):
    feed(folder, implementation(name_of({"a": DATA}), file("a", len(DATA))))
    at = "http://example.com/a"
    refuses(folder, 81, f"nothing at {at}")
    held(folder, {"a": DATA[:-1]})
    refuses(folder, 82, f"{at} has {len(DATA) - 1} bytes, not {len(DATA)}")
    held(folder, {"a": DATA + b"more"})
    refuses(folder, 82, f"{at} has {len(DATA) + 1} bytes, not {len(DATA)}")
    held(folder, {"a": DATA[::-1]})
    found = name_of({"a": DATA[::-1]})
    refuses(folder, 85, f"expected {name_of({'a': DATA})}, found {found}")
    held(folder, {"a": DATA})
    refuses(folder, 81, f"nothing at {at}", f"cat web/a; exit 44")
    for does in ("cat web/a; exit 1", "cat web/a; kill -9 $$", "kill -15 $$", "exit 255"):
        refuses(folder, 80, f"cannot fetch {at}", does)
    refuses(folder, 82, f"{at} has {len(DATA) + 1} bytes, not {len(DATA)}", "exec yes")
    expect(run(WORDS, folder), 80, b"", f"zi: cannot fetch {at}\n".encode())
    for name in ("no", os.path.join(folder, "web", "a")):
        expect(run(WORDS, folder, ZI_FETCH=name), 80, b"", f"zi: cannot fetch {at}\n".encode())
    holds("status", download(folder)[0] == 0)


def none_is_left_running(folder):
    """A helper that writes for ever is ended, and nothing of it reaches the terminal but its errors."""
    feed(folder, implementation(name_of({"a": DATA}), file("a", len(DATA))))
    got = download(folder, "echo note >&2; echo $$ > pid; exec yes")
    line = f"note\nzi: http://example.com/a has {len(DATA) + 1} bytes, not {len(DATA)}\n"
    expect(got, 82, b"", line.encode())
    holds("ended", not os.path.exists(f"/proc/{int(open(os.path.join(folder, 'pid')).read())}"))


def helpers_that_take_too_long(folder):
    """One that may take only so long is ended then, whether it writes, keeps silent, or has written all; a quick one isn't touched."""
    app(folder)
    line = b"zi: cannot fetch http://example.com/a\n"
    program = os.path.join(folder, "helper")
    told = f"{program} http://example.com/a: "
    for does in ("exec sleep 60", 'cat "web/${1##*/}"; exec >&-; exec sleep 60', "while :; do echo x; sleep 0.1; done"):
        start = time.perf_counter()
        got = run(WORDS, folder, ZI_FETCH=helper(folder, f"echo $$ > pid; {does}"), ZI_FETCH_SECONDS="1", ZI_LOG="-")
        took = time.perf_counter() - start
        holds(f"{does}: {got}", got[:2] == (80, b"") and got[2].startswith(line + told.encode()) and got[2].count(b"\n") == 2)
        holds(f"{does}: {took} s", 1 <= took < 20)
        holds("ended", not os.path.exists(f"/proc/{int(open(os.path.join(folder, 'pid')).read())}"))
        holds("asked once", asked(folder) == ["a"])
    holds("nothing is stored", not os.path.exists(store(folder)))
    for seconds in ("0", "1000001", "x", "1s", "-1", "+1", " 1", "1.5"):
        reason = "is not fetched, since ZI_FETCH_SECONDS is no number from 1 to 1000000"
        expect(run(WORDS, folder, ZI_FETCH=helper(folder), ZI_FETCH_SECONDS=seconds, ZI_LOG="-"), 80, b"", line + f"{told}{reason}\n".encode())
    holds("not asked", asked(folder) == [])
    for seconds in ("", "30", "1000000"):
        holds(f"{seconds!r}", run(WORDS, folder, ZI_FETCH=helper(folder), ZI_FETCH_SECONDS=seconds)[0] == 0)
        whole(folder, FILES)
        subprocess.run(["chmod", "-R", "u+w", store(folder)], check=True)
        shutil.rmtree(store(folder))


def strange_recipes(folder):
    held(folder, {"a": b"abc"})
    most = 2**64 - 1
    rows = [
        (file("a", most) + file("a", most, "b"), 89, "tree too large: size past 268435456", []),
        (file("a", 3) + file("a", 3), 83, "a is already there", ["a", "a"]),
        (file("a", 3) + '<remove path="b"/>', 84, "no b", ["a"]),
        (file("a", 3) + file("a", 3, "a/b"), 83, "a/b is already there", ["a", "a"]),
        (file("a", 3, "d/" * 65 + "e"), 89, "tree too large: depth past 64", ["a"]),
    ]
    for steps, status, line, names in rows:
        feed(folder, implementation(OTHER, steps))
        refuses(folder, status, line)
        holds(f"asked for {names}", asked(folder) == names)
    feed(folder, implementation(EMPTY, (file("a", 3) + '<remove path="a"/>') * 2_000))
    holds("steps that undo one another", download(folder)[0] == 0)
    whole(folder, {})


def a_path_of_many_parts(folder):
    held(folder, {"a": b"abc"})
    feed(folder, implementation(OTHER, file("a", 3, "d/" * 2_000_000 + "e")))
    refuses(folder, 89, "tree too large: nodes past 100000")


def two_at_once(folder):
    app(folder)
    program = helper(folder)
    for _ in range(20):
        both = [begin(WORDS, folder, ZI_FETCH=program) for _ in range(2)]
        ends = [(process.communicate()[0], process.returncode) for process in both]
        holds(f"ends {ends}", ends[0] == ends[1] and ends[0][1] == 0)
        whole(folder, FILES)
        holds("residues", residues(folder) == [])
        shutil.rmtree(store(folder))


def killed(folder):
    files = {f"n{i}": b"%d" % i * 100 for i in range(20)}
    app(folder, files)
    start = time.perf_counter()
    holds("status", download(folder)[0] == 0)
    took = time.perf_counter() - start
    program, chance = helper(folder), random.Random(1)
    for _ in range(50):
        shutil.rmtree(store(folder), ignore_errors=True)
        process = begin(WORDS, folder, ZI_FETCH=program)
        time.sleep(chance.uniform(0, took * 1.1))
        process.send_signal(signal.SIGKILL)
        process.communicate()
        if os.path.exists(os.path.join(store(folder), name_of(files))):
            whole(folder, files)
        holds("after a kill", run(WORDS, folder, ZI_FETCH=program)[0] == 0)
        whole(folder, files)
        expect(run(["store", "verify", name_of(files)], folder), 0, b"sound\n", b"")


def nothing_is_fetched_for_nothing(folder):
    """Where no choice is valid, or nothing can be loaded, nothing is asked for."""
    expect(download(folder), 66, b"", b"zi: no feed for the root\n")
    feed(folder, implementation(OTHER, '<archive href="z" size="1"/>'))
    expect(download(folder), 73, b"", b"zi: no solution\n")
    app(folder)
    write(folder, "store", b"")
    expect(download(folder), 90, b"", b"zi: store fault at \n")
    holds("asked", asked(folder) == [])


ROWS = [
    fetched_once,
    renamed_and_removed,
    one_digest_is_fetched_once,
    helpers_that_fail,
    none_is_left_running,
    helpers_that_take_too_long,
    strange_recipes,
    a_path_of_many_parts,
    nothing_is_fetched_for_nothing,
    two_at_once,
    killed,
]


if __name__ == "__main__":
    main(ROWS)

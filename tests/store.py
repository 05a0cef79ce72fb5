#!/usr/bin/env python3
"""Runs the proved program's commands on the store over real folders, and compares all that it prints to the byte.

The program is crates/zi/out/zi; the gate leaves it there. The variable ZI_PROGRAM names another. Each row is a function with a
folder of its own; one that fails is named, and the status is then 1. Digests are computed here, by Python's own hashes. Crashes of the
machine are tried where strace is installed and may be used (replay.py says how, and what is assumed of the file system).
"""
import base64
import hashlib
import os
import random
import resource
import shlex
import shutil
import signal
import stat
import subprocess
import sys
import tempfile
import time

import replay

TOP = os.path.dirname(os.path.dirname(os.path.abspath(__file__)))
PROGRAM = os.path.abspath(os.environ.get("ZI_PROGRAM") or os.path.join(TOP, "crates", "zi", "out", "zi"))
EMPTY = "sha256new_4OYMIQUY7QOBJGX36TEJS35ZEQT24QPEMSNZGTFESWMRW6CSXBKQ"
OTHER = "sha256new_" + "A" * 52
SECONDS = 120
NOBODY = 65_534


class Wrong(Exception):
    pass


def begin(words, folder, prepare=None, through=(), **variables):
    env = dict(os.environ, ZI_STORE=os.path.join(folder, "store"), **variables)
    return subprocess.Popen([*through, PROGRAM] + words, cwd=folder, env=env, stdout=subprocess.PIPE, stderr=subprocess.PIPE, preexec_fn=prepare)


def run(words, folder, prepare=None, through=(), **variables):
    process = begin(words, folder, prepare, through, **variables)
    try:
        out, err = process.communicate(timeout=SECONDS)
    except subprocess.TimeoutExpired:
        process.kill()
        process.communicate()
        raise Wrong(f"{words}: no end within {SECONDS} s") from None
    return process.returncode, out, err


def expect(got, status, out, err):
    for what, is_, wanted in (("status", got[0], status), ("output", got[1], out), ("errors", got[2], err)):
        if is_ != wanted:
            raise Wrong(f"{what}: {is_!r}, not {wanted!r}")


def holds(what, is_):
    if not is_:
        raise Wrong(what)


def write(folder, name, data):
    path = os.path.join(folder, name)
    with open(path, "wb") as file:
        file.write(data)
    return path


def manifest(files, kind="F"):
    """The text of a flat tree of files that have the time 0 and are of one kind: `F`, or `X` for those that are executable."""
    lines = [f"{kind} {hashlib.sha256(data).hexdigest()} 0 {len(data)} ".encode() + name.encode() + b"\n" for name, data in files.items()]
    return b"".join(sorted(lines, key=lambda line: line.split(b" ", 4)[4][:-1]))


def name_of(files, kind="F"):
    digest = hashlib.sha256(manifest(files, kind)).digest()
    return "sha256new_" + base64.b32encode(digest).decode().rstrip("=")


def tree(folder, files):
    """These files in the folder, and the words that add them."""
    paths = [write(folder, name, data) for name, data in files.items()]
    return ["store", "add", name_of(files)] + paths


def store(folder):
    return os.path.join(folder, "store")


def whole(folder, files):
    """The stored tree is there, whole."""
    top = os.path.join(store(folder), name_of(files))
    names = sorted(os.listdir(top))
    holds(f"names {names}", names == sorted(list(files) + [".manifest"]))
    for name, data in files.items():
        holds(name, open(os.path.join(top, name), "rb").read() == data)
    holds("manifest", open(os.path.join(top, ".manifest"), "rb").read() == manifest(files))


def residues(folder):
    return [name for name in os.listdir(store(folder)) if name.startswith("tmp-")]


def laid(top, files, kind="F"):
    """A stored tree of these files in a store's folder, made by hand, and its name; those of the kind `X` are executable."""
    name = name_of(files, kind)
    inside = os.path.join(top, name)
    os.makedirs(inside)
    for file, data in files.items():
        path = write(inside, file, data)
        os.chmod(path, 0o755 if kind == "X" else 0o644)
        os.utime(path, (0, 0))
    write(inside, ".manifest", manifest(files, kind))
    return name


def document(folder, file, names):
    """A document of selections, one for each of these stored trees; the root's command is the file `main`."""
    chosen = "".join(
        f'<selection interface="/p{number or ""}" id="x" version="1"><manifest-digest sha256new="{name[10:]}"/><command name="run" path="main"/></selection>'
        for number, name in enumerate(names)
    )
    text = f'<selections xmlns="http://zero-install.sourceforge.net/2004/injector/interface" interface="/p" command="run">{chosen}</selections>'
    return write(folder, file, text.encode())


def selections(folder, name):
    """The words that launch the file `main` of a stored tree."""
    return ["launch", document(folder, "sels", [name])]


FILES = {"b": b"abc", "a": b"", "c.d": b"x" * 200_000}


def added_listed_verified(folder):
    words = tree(folder, FILES)
    expect(run(["store", "list"], folder), 0, b"", b"")
    expect(run(words, folder), 0, b"stored\n", b"")
    whole(folder, FILES)
    expect(run(words, folder), 0, b"present\n", b"")
    whole(folder, FILES)
    holds("residues", residues(folder) == [])
    name = name_of(FILES).encode()
    expect(run(["store", "list"], folder), 0, name + b"\n", b"")
    expect(run(["store", "verify", name_of(FILES)], folder), 0, b"sound\n", b"")
    expect(run(["manifest", "sha256new", name_of(FILES)], folder), 0, manifest(FILES) + name + b"\n", b"")


def no_files_are_the_empty_tree(folder):
    expect(run(["store", "add", EMPTY], folder), 0, b"stored\n", b"")
    holds("manifest", os.listdir(os.path.join(store(folder), EMPTY)) == [".manifest"])
    expect(run(["store", "verify", EMPTY], folder), 0, b"sound\n", b"")


def the_worked_tree(folder):
    top = os.path.join(store(folder), "t")
    os.makedirs(os.path.join(top, "0"))
    write(top, "a", b"abc")
    write(top, "b", b"")
    os.chmod(os.path.join(top, "b"), 0o755)
    os.symlink("abc", os.path.join(top, "l"))
    write(os.path.join(top, "0"), "z", b"")
    for name in ("a", "b", "0/z"):
        os.utime(os.path.join(top, name), (0, 0))
    abc, nothing = hashlib.sha256(b"abc").hexdigest(), hashlib.sha256(b"").hexdigest()
    text = f"F {abc} 0 3 a\nX {nothing} 0 0 b\nS {abc} 3 l\nD /0\nF {nothing} 0 0 z\n".encode()
    digest = b"sha256=" + hashlib.sha256(text).hexdigest().encode()
    expect(run(["manifest", "sha256", "t"], folder), 0, text + digest + b"\n", b"")
    os.mkdir(os.path.join(store(folder), "e"))
    for algorithm, name in (
        ("sha1new", b"sha1new=da39a3ee5e6b4b0d3255bfef95601890afd80709"),
        ("sha256", b"sha256=e3b0c44298fc1c149afbf4c8996fb92427ae41e4649b934ca495991b7852b855"),
        ("sha256new", EMPTY.encode()),
    ):
        expect(run(["manifest", algorithm, "e"], folder), 0, name + b"\n", b"")
    expect(run(["manifest", "sha256", "u"], folder), 86, b"", b"zi: u is not stored\n")


def damaged(folder):
    top = os.path.join(store(folder), OTHER)
    os.makedirs(top)
    line = f"zi: {OTHER} is damaged: {EMPTY}\n".encode()
    expect(run(["store", "verify", OTHER], folder), 87, b"no manifest\n", line)
    write(top, ".manifest", b"")
    expect(run(["store", "verify", OTHER], folder), 87, b"manifest agrees\n", line)
    write(top, ".manifest", b"F " + b"0" * 64 + b" 0 0 a\n")
    expect(run(["store", "verify", OTHER], folder), 87, b"manifest line 1\n", line)
    write(top, ".manifest", b"no manifest")
    expect(run(["store", "verify", OTHER], folder), 87, b"no manifest\n", line)
    holds("listing", sorted(os.listdir(top)) == [".manifest"])
    expect(run(["store", "verify", EMPTY], folder), 86, b"", f"zi: {EMPTY} is not stored\n".encode())


def refused(folder):
    words = tree(folder, FILES)
    expect(run(words[:2] + [OTHER] + words[3:], folder), 85, b"", f"zi: expected {OTHER}, found {name_of(FILES)}\n".encode())
    expect(run(words + ["no"], folder), 75, b"", b"zi: no file no\n")
    expect(run(words + ["./b"], folder), 83, b"", b"zi: b is already there\n")
    expect(run(words + [folder], folder), 65, b"", f"zi: cannot read {folder}\n".encode())
    expect(run(["store", "add", name_of(FILES), "a/.."], folder), 64, b"", b"zi: usage at word 3\n")
    expect(run(["store", "verify", EMPTY[:-1] + "R"], folder), 64, b"", b"zi: usage at word 2\n")
    manifest_file = write(folder, ".manifest", b"")
    expect(run(["store", "add", EMPTY, manifest_file], folder), 88, b"", b"zi: bad name .manifest\n")
    holds("store", not os.path.exists(store(folder)))


def deep_and_strange(folder):
    top = os.path.join(store(folder), "t")
    os.makedirs(os.path.join(top, *["d"] * 64))
    holds("64", run(["manifest", "sha256", "t"], folder)[0] == 0)
    os.mkdir(os.path.join(top, *["d"] * 64, "d"))
    expect(run(["manifest", "sha256", "t"], folder), 89, b"", b"zi: tree too large: depth past 64\n")
    os.makedirs(os.path.join(store(folder), "u"))
    os.mkfifo(os.path.join(store(folder), "u", "pipe"))
    expect(run(["manifest", "sha256", "u"], folder), 90, b"", b"zi: store fault at u\n")
    os.mkdir(os.path.join(store(folder), "v"))
    os.mkdir(os.path.join(os.fsencode(store(folder)), b"v", b"\xff"))
    expect(run(["manifest", "sha256", "v"], folder), 90, b"", b"zi: store fault at v\n")
    os.symlink("t", os.path.join(store(folder), "w"))
    expect(run(["manifest", "sha256", "w"], folder), 90, b"", b"zi: store fault at w\n")
    with open(os.path.join(store(folder), "x"), "wb"):
        pass
    expect(run(["manifest", "sha256", "x"], folder), 90, b"", b"zi: store fault at x\n")
    os.mkdir(os.path.join(store(folder), "y"))
    os.mkdir(os.path.join(store(folder), "y", "n"))
    write(os.path.join(store(folder), "y", "n"), ".manifest", b"")
    expect(run(["manifest", "sha256", "y"], folder), 88, b"", b"zi: bad name n/.manifest\n")


def where_proc_is_not_mounted(folder):
    """Trees are read as well where the system doesn't show what is open."""
    hidden = ["unshare", "--map-root-user", "--mount", "sh", "-c", 'mount -t tmpfs none /proc && exec "$@"', "sh"]
    try:
        usable = subprocess.run(hidden + ["true"], capture_output=True, timeout=SECONDS).returncode == 0
    except FileNotFoundError:
        usable = False
    if not usable:
        print("skipped: unshare isn't installed, or may not be used")
        return
    deep_and_strange(folder)
    top = os.path.join(store(folder), "z")
    os.makedirs(os.path.join(top, "d", "e", "f"))
    os.makedirs(os.path.join(top, "g"))
    for name in ("a", "d/b", "d/e/b", "d/e/f/c", "g/b"):
        write(top, name, name.encode() * 30_000)
    os.symlink("a", os.path.join(top, "d", "l"))
    os.symlink("d", os.path.join(top, "k"))
    holds("a tree that is read", run(["manifest", "sha256", "z"], folder)[1].count(b"\n") == 12)
    for name in ("t", "u", "v", "w", "x", "y", "z"):
        words = ["manifest", "sha256", name]
        expect(run(words, folder, through=hidden), *run(words, folder))


def large(folder):
    top = os.path.join(store(folder), "t")
    os.makedirs(top)
    with open(os.path.join(top, "a"), "wb") as file:
        file.truncate(268_435_457)
    expect(run(["manifest", "sha256", "t"], folder), 89, b"", b"zi: tree too large: size past 268435456\n")
    files = [write(folder, name, b"") for name in ("l", "m", "n", "o", "p")]
    for path in files:
        os.truncate(path, 67_108_864)
    expect(run(["store", "add", OTHER] + files, folder), 89, b"", b"zi: tree too large: size past 268435456\n")
    os.truncate(files[0], 67_108_865)
    expect(run(["store", "add", OTHER] + files, folder), 68, b"", f"zi: {files[0]} is longer than 67108864 bytes\n".encode())


def what_is_stored_counts_in_rank(folder):
    """A tree that only the store has may be used where the network is off."""
    feed = f"""<interface xmlns="http://zero-install.sourceforge.net/2004/injector/interface"><name>a</name><summary>a</summary>
<implementation id="a" version="1" local-path="."/><implementation id="b" version="2"><manifest-digest sha256new="{OTHER[10:]}"/></implementation>
</interface>""".encode()
    words = ["select", "--no-command", "--level", "testing", "--network", "off", write(folder, "feed.xml", feed)]
    got = run(words, folder)
    holds(f"not stored: {got}", got[0] == 0 and b'id="a"' in got[1])
    os.makedirs(os.path.join(store(folder), OTHER))
    got = run(words, folder)
    holds(f"stored: {got}", got[0] == 0 and b'id="b"' in got[1] and f'<manifest-digest sha256new="{OTHER[10:]}"/>'.encode() in got[1])


def an_empty_folder_under_the_name_is_present(folder):
    words = tree(folder, FILES)
    os.makedirs(os.path.join(store(folder), name_of(FILES)))
    expect(run(words, folder), 0, b"present\n", b"")
    holds("untouched", os.listdir(os.path.join(store(folder), name_of(FILES))) == [])
    holds("residues", residues(folder) == [])


def stored_folders_are_closed(folder):
    """Whatever the mask of new files; and a folder that nobody may write can still be taken away, here what a failed rename leaves."""
    for mask in (0, 0o022, 0o077):
        files = {"a": str(mask).encode(), "b": b""}
        expect(run(tree(folder, files), folder, lambda mask=mask: os.umask(mask)), 0, b"stored\n", b"")
        modes = {oct(stat.S_IMODE(os.stat(top).st_mode)) for top, _, _ in os.walk(os.path.join(store(folder), name_of(files)))}
        holds(f"folders {modes}", modes == {"0o555"})
        whole(folder, files)


def what_a_failed_write_leaves(folder):
    """A file that may not grow past 1,000 bytes, as on a full disk: the entry that was being filled doesn't stay."""

    def bounded():
        signal.signal(signal.SIGXFSZ, signal.SIG_IGN)
        resource.setrlimit(resource.RLIMIT_FSIZE, (1_000, 1_000))

    files = {"a": b"abc", "b": b"y" * 5_000}
    expect(run(tree(folder, files), folder, bounded), 90, b"", b"zi: store fault at tmp-0\n")
    holds("nothing stays", os.listdir(store(folder)) == [])
    expect(run(tree(folder, files), folder), 0, b"stored\n", b"")
    whole(folder, files)


def a_full_disk(folder):
    """What an adding that fails put onto it doesn't stay, so that what is smaller finds room then."""
    large, small = {"a": b"abc", "b": b"y" * 3_000_000}, {"a": b"abc"}
    lines = ['mount -t tmpfs -o size=1m none "$1"', *(shlex.join([PROGRAM, *tree(folder, files)]) for files in (large, small)), 'ls -A "$1"']
    script = " || exit 99\n".join(lines[:1]) + " || exit 99\n" + "\n".join(lines[1:])
    os.mkdir(store(folder))
    command = ["unshare", "--map-root-user", "--mount", "sh", "-c", script, "sh", store(folder)]
    try:
        done = subprocess.run(command, cwd=folder, env=dict(os.environ, ZI_STORE=store(folder)), capture_output=True, timeout=SECONDS)
    except FileNotFoundError:
        done = None
    if done is None or done.returncode == 99 or done.stderr.startswith(b"unshare"):
        print("skipped: unshare isn't installed, or may not be used")
        return
    expect((done.returncode, done.stdout, done.stderr), 0, f"stored\n{name_of(small)}\n".encode(), b"zi: store fault at tmp-0\n")


def a_store_that_is_no_folder(folder):
    """A pipe that nobody writes to, and a file: told at once by each command, and nothing is made."""
    words, purge = tree(folder, FILES), ["store", "purge", document(folder, "kept", [OTHER])]
    listed = [(["store", "list"], ""), (["store", "verify", OTHER], OTHER), (["manifest", "sha256", "t"], "t"), (selections(folder, OTHER), "")]
    for make in (os.mkfifo, lambda path: write(folder, os.path.basename(path), b"abc")):
        make(store(folder))
        for asked, name in [(words, "tmp-0"), (purge, ""), *listed]:
            expect(run(asked, folder), 90, b"", f"zi: store fault at {name}\n".encode())
        os.remove(store(folder))
        make(os.path.join(folder, "other"))
        for asked, name in listed:
            expect(run(asked, folder, ZI_STORES=os.path.join(folder, "other")), 90, b"", f"zi: store fault at {name}\n".encode())
        holds("nothing is made", not os.path.exists(store(folder)))
        os.remove(os.path.join(folder, "other"))


def as_a_user(folder):
    """What makes a process that of an ordinary user, who has the folder then; None where this one is of such a user already."""
    if os.getuid() != 0:
        return None
    for top, _, names in os.walk(folder):
        for name in [top, *(os.path.join(top, name) for name in names)]:
            os.chown(name, NOBODY, NOBODY)

    def become():
        os.setgroups([])
        os.setgid(NOBODY)
        os.setuid(NOBODY)

    return become


def closed_folders_are_taken_out(folder):
    """By a purge, of whoever may not write into them as they are: the folders of a stored tree are closed to their owner too."""
    steps = [tree(folder, files) for files in ({"a": b"abc"}, {"b": b"x", "c": b""})]
    sels = selections(folder, OTHER)[1]
    become = as_a_user(folder)
    for words in steps:
        expect(run(words, folder, become), 0, b"stored\n", b"")
    names = sorted(words[2] for words in steps)
    holds("closed", all(stat.S_IMODE(os.stat(os.path.join(store(folder), name)).st_mode) == 0o555 for name in names))
    expect(run(["store", "purge", sels], folder, become), 0, "".join(name + "\n" for name in names).encode(), b"")
    holds("nothing stays", os.listdir(store(folder)) == [])


def taken_temporary_names(folder):
    words = tree(folder, FILES)
    for number in range(3):
        os.makedirs(os.path.join(store(folder), f"tmp-{number}"))
    expect(run(words, folder), 0, b"stored\n", b"")
    holds("residues", sorted(residues(folder)) == ["tmp-0", "tmp-1", "tmp-2"])


def two_at_once(folder):
    words = tree(folder, FILES)
    for _ in range(100):
        both = [begin(words, folder) for _ in range(2)]
        ends = sorted((process.communicate()[0], process.returncode) for process in both)
        holds(f"answers {ends}", ends in ([(b"present\n", 0), (b"stored\n", 0)],))
        whole(folder, FILES)
        holds("residues", residues(folder) == [])
        subprocess.run(["chmod", "-R", "u+w", store(folder)], check=True)
        shutil.rmtree(store(folder))


def killed(folder):
    files = dict(FILES, **{f"n{i}": b"y" * 3_000 for i in range(200)})
    words = tree(folder, files)
    start = time.perf_counter()
    expect(run(words, folder), 0, b"stored\n", b"")
    took = time.perf_counter() - start
    chance = random.Random(1)
    for _ in range(50):
        subprocess.run(["chmod", "-R", "u+w", store(folder)], check=True)
        shutil.rmtree(store(folder))
        process = begin(words, folder)
        time.sleep(chance.uniform(0, took * 1.1))
        process.send_signal(signal.SIGKILL)
        process.communicate()
        if os.path.exists(os.path.join(store(folder), name_of(files))):
            whole(folder, files)
        got = run(words, folder)
        holds(f"after a kill: {got}", got[0] == 0 and got[1] in (b"stored\n", b"present\n"))
        whole(folder, files)


def recorded(words, folder):
    """The calls of the program, and how the folder stood before; None where they can't be recorded."""
    os.makedirs(store(folder), exist_ok=True)
    disk = replay.Disk(store(folder))
    record = os.path.join(folder, "record")
    command = ["strace", "-f", "-y", "-s", "1000000", "-e", "trace=%file,%desc", "-o", record, PROGRAM] + words
    try:
        done = subprocess.run(command, cwd=folder, env=dict(os.environ, ZI_STORE=store(folder)), capture_output=True, timeout=SECONDS)
    except FileNotFoundError:
        return None
    if done.returncode != 0 or not done.stdout:
        return None
    return disk, list(replay.calls(record)), done.stdout


def is_sound(name, folder, number):
    """The stored tree is whole, and so is its manifest."""
    holds(f"call {number}: {name}", run(["store", "verify", name], folder)[:2] == (0, b"sound\n"))
    with open(os.path.join(store(folder), name, ".manifest"), "rb") as file:
        expect(run(["manifest", name.split("_")[0], name], folder), 0, file.read() + name.encode() + b"\n", b"")


def outlives(words, name, left, answered, number):
    """In a folder with what a crash left each name that is listed is sound, and who adds then finds the tree or stores it."""
    with tempfile.TemporaryDirectory() as folder:
        replay.build(store(folder), left)
        listed = run(["store", "list"], folder)
        names = listed[1].decode().split()
        holds(f"call {number}: listing {listed}", listed[0] == 0 and (name in names or not answered))
        for each in names:
            is_sound(each, folder, number)
        got = run(words, folder)
        holds(f"call {number}: {got}", got[:2] == (0, b"present\n" if name in names else b"stored\n"))
        is_sound(name, folder, number)
        subprocess.run(["chmod", "-R", "u+w", folder], check=False)


def survives(words, record, from_first_sync=False):
    """After each call a crash leaves what outlives it. Where there are many files this is tried from the first sync on."""
    disk, made, answer = record
    synced, seen, answered = False, set(), False
    for number, (call, arguments, result) in enumerate(made):
        changed = disk.change(call, arguments, result)
        synced = synced or "sync" in call
        ends = call == "write" and replay.texts(arguments)[0] == answer
        answered = answered or ends
        if (changed or ends) and (synced or not from_first_sync):
            for left in disk.outcomes():
                if (left, answered) not in seen:
                    seen.add((left, answered))
                    outlives(words, words[2], left, answered, number)
    holds("an answer", answered)


def a_crash_after_each_call(folder):
    words = tree(folder, {"b": b"abc", "a": b"", "c": b"x" * 70_000})
    record = recorded(words, folder)
    if record is None:
        print("skipped: strace isn't installed, or may not be used")
        return
    survives(words, record)
    # one that finds the name there, and a temporary name taken
    os.makedirs(os.path.join(store(folder), "tmp-0", "f"))
    survives(words, recorded(words, folder))


def a_crash_with_many_files(folder):
    words = tree(folder, {f"n{i}": b"%d" % i for i in range(150)})
    record = recorded(words, folder)
    if record is None:
        print("skipped: strace isn't installed, or may not be used")
        return
    holds("all at once", any(call == "syncfs" for call, _, _ in record[1]))
    survives(words, record, from_first_sync=True)


def a_sync_left_out(folder):
    """The rows on crashes find each sync that is left out."""
    words = tree(folder, {"b": b"abc", "a": b""})
    record = recorded(words, folder)
    if record is None:
        print("skipped: strace isn't installed, or may not be used")
        return
    made, answer = record[1:]
    for number, (call, _, _) in enumerate(made):
        if call == "fsync":
            shutil.rmtree(store(folder), ignore_errors=True)
            os.mkdir(store(folder))
            try:
                survives(words, (replay.Disk(store(folder)), made[:number] + made[number + 1 :], answer))
            except Wrong:
                continue
            raise Wrong(f"call {number} was left out unseen")


def lines(names):
    return "".join(name + "\n" for name in sorted(names)).encode()


def purged(folder):
    """What the documents name stays, and with it what isn't a digest name; the others are told in byte order."""
    trees = [dict(FILES, a=b"%d" % number) for number in range(6)]
    names = [name_of(files) for files in trees]
    one, two = document(folder, "one", [names[0]]), document(folder, "two", [names[1], names[2], OTHER])
    expect(run(["store", "purge", one], folder), 0, b"", b"")
    holds("no store is made", not os.path.exists(store(folder)))
    for files in trees:
        expect(run(tree(folder, files), folder), 0, b"stored\n", b"")
    beside = ["plain", "tmp-0", "tmp-2"]
    for name in beside:
        os.makedirs(os.path.join(store(folder), name, "d"))
    bad = write(folder, "bad", b"<selections/>")
    for words, status in (([one, "none"], 75), ([one, bad], 76), (["none", bad], 75), ([folder], 65)):
        got = run(["store", "purge", *words], folder)
        holds(f"{words}: {got}", got[:2] == (status, b""))
    expect(run(["store", "purge"], folder), 64, b"", b"zi: usage at word 2\n")
    expect(run(["store", "list"], folder), 0, lines(names), b"")
    expect(run(["store", "purge", one, two, one], folder), 0, lines(names[3:]), b"")
    expect(run(["store", "list"], folder), 0, lines(names[:3]), b"")
    for files in trees[:3]:
        whole(folder, files)
        expect(run(["store", "verify", name_of(files)], folder), 0, b"sound\n", b"")
    holds("beside", sorted(os.listdir(store(folder))) == sorted(names[:3] + beside))
    expect(run(["store", "purge", two], folder), 0, lines(names[:1]), b"")
    expect(run(["store", "purge", two], folder), 0, b"", b"")
    expect(run(tree(folder, trees[0]), folder), 0, b"stored\n", b"")
    whole(folder, trees[0])


def purged_stores(folder):
    """Trees are taken away in the first store alone, and kept there by a name that only another one has beside it."""
    far = os.path.join(folder, "far")
    kept, gone, other = laid(store(folder), FILES), laid(store(folder), {"g": b""}), laid(far, {"o": b""})
    words = ["store", "purge", document(folder, "kept", [kept])]
    expect(run(words, folder, ZI_STORES=far), 0, lines([gone]), b"")
    holds("near", os.listdir(store(folder)) == [kept])
    holds("far", os.listdir(far) == [other])


def sound_or_gone(folder, kept, number):
    """Each name that is listed is sound, and those that are kept are there."""
    listed = run(["store", "list"], folder)
    names = listed[1].decode().split()
    holds(f"call {number}: listing {listed}", listed[0] == 0 and kept in names)
    for each in names:
        is_sound(each, folder, number)
    return names


def a_crash_in_a_purge(folder):
    """After each call of a purge a crash leaves what is kept whole, and each other tree whole or gone; the next purge takes away what is left."""
    kept, *others = (laid(store(folder), {"main": b"%d" % number, "c": b"x" * 3_000}) for number in range(3))
    words = ["store", "purge", document(folder, "kept", [kept])]
    record = recorded(words, folder)
    if record is None:
        print("skipped: strace isn't installed, or may not be used")
        return
    disk, made, answer = record
    holds(f"answer {answer}", answer == lines(others))
    seen, removed = set(), set()
    for number, (call, arguments, result) in enumerate(made):
        if not disk.change(call, arguments, result):
            continue
        for left in disk.outcomes() - seen:
            seen.add(left)
            with tempfile.TemporaryDirectory() as again:
                replay.build(store(again), left)
                names = sound_or_gone(again, kept, number)
                removed.add(len(names))
                expect(run(["store", "purge", document(again, "kept", [kept])], again), 0, lines(set(names) - {kept}), b"")
                holds(f"call {number}: {names}", sound_or_gone(again, kept, number) == [kept])
                subprocess.run(["chmod", "-R", "u+w", again], check=False)
    holds(f"moments {removed}", removed == {1, 2, 3})


def purged_beside_adders(folder):
    """A purger beside four adders and launchers of one store, each killed now and then: what is kept is whole at each moment, all else whole or gone."""
    script = {"main": b"#!/bin/sh\necho here\n"}
    kept = laid(store(folder), script, "X")
    trees = [dict(FILES, a=b"%d" % number) for number in range(4)]
    adding = []
    for number, files in enumerate(trees):
        os.makedirs(os.path.join(folder, str(number)))
        adding.append(tree(os.path.join(folder, str(number)), files))
    launching, purging = selections(folder, kept), ["store", "purge", document(folder, "kept", [kept])]
    started_each = [(words, (b"stored\n", b"present\n")) for words in adding] + [(launching, (b"here\n",))] * 2 + [(purging, None)]
    chance = random.Random(7)
    for _ in range(40):
        started = [(begin(words, folder), answers) for words, answers in started_each]
        time.sleep(chance.uniform(0, 0.05))
        for process, _ in chance.sample(started, 3):
            process.send_signal(signal.SIGKILL)
        for process, answers in started:
            out, err = process.communicate(timeout=SECONDS)
            is_right = process.returncode == 0 and (answers is None or out in answers)
            holds(f"{process.args}: {process.returncode} {out} {err}", is_right or process.returncode == -signal.SIGKILL)
        sound_or_gone(folder, kept, 0)
    holds("the last", run(purging, folder)[0] == 0)
    expect(run(["store", "list"], folder), 0, lines([kept]), b"")


def wherever_it_is_started(folder):
    """Without programs in PATH, and under a parent that ignores how its children end, more files than are made to last one by one."""
    files = {f"n{i}": b"y" * i for i in range(200)}
    words = tree(folder, files)

    def ignore_children():
        signal.signal(signal.SIGCHLD, signal.SIG_IGN)

    for prepare, variables in ((None, {"PATH": ""}), (ignore_children, {}), (ignore_children, {"PATH": ""})):
        expect(run(words, folder, prepare, **variables), 0, b"stored\n", b"")
        whole(folder, files)
        holds("residues", residues(folder) == [])
        subprocess.run(["chmod", "-R", "u+w", store(folder)], check=True)
        shutil.rmtree(store(folder))


def pipes_and_devices_are_no_files(folder):
    pipe = os.path.join(folder, "pipe")
    os.mkfifo(pipe)
    for file in (pipe, "/dev/zero", "/dev/tty"):
        expect(run(["store", "add", OTHER, file], folder), 65, b"", f"zi: cannot read {file}\n".encode())
        expect(run(["select", file], folder), 65, b"", f"zi: cannot read {file}\n".encode())


def failures_are_told(folder):
    """Where the variable names a file, the path and the system's reason stand there; at `-`, behind the line."""
    line = b"zi: store fault at \n"
    told = f"{store(folder)}: Not a directory (os error 20)\n".encode()
    write(folder, "store", b"")
    expect(run(["store", "list"], folder), 90, b"", line)
    expect(run(["store", "list"], folder, ZI_LOG="-"), 90, b"", line + told)
    expect(run(["store", "list"], folder, ZI_LOG=""), 90, b"", line)
    log = os.path.join(folder, "log")
    for times in (1, 2):
        expect(run(["store", "list"], folder, ZI_LOG=log), 90, b"", line)
        holds("log", open(log, "rb").read() == told * times)
    expect(run(["store", "list"], folder, ZI_LOG=folder), 90, b"", line)
    os.remove(store(folder))
    expect(run(["store", "list"], folder, ZI_LOG=os.path.join(folder, "none")), 0, b"", b"")
    holds("no failure, no file", not os.path.exists(os.path.join(folder, "none")))
    pipe = os.path.join(folder, "pipe")
    os.mkfifo(pipe)
    expect(run(["select", pipe], folder, ZI_LOG="-"), 65, b"", f"zi: cannot read {pipe}\n{pipe}: is not a file\n".encode())
    os.makedirs(os.path.join(store(folder), "t"))
    os.mkfifo(os.path.join(store(folder), "t", "pipe"))
    expect(
        run(["manifest", "sha256", "t"], folder, ZI_LOG="-"), 90, b"", f"zi: store fault at t\n{store(folder)}/t: is not a file, a folder or a link\n".encode()
    )


def names_that_are_no_text(folder):
    """They are a fault, and what is told shows them, with the bytes that are no ASCII and those that print nothing as escapes."""
    os.makedirs(os.path.join(store(folder), "t", "d"))
    strange = os.path.join(os.fsencode(store(folder)), b"t", b"d", b"a\xe9\n\x1b[2J")
    os.mkdir(strange)
    told = f"{store(folder)}/t/d/a\\xe9\\x0a\\x1b[2J: ".encode()
    got = run(["manifest", "sha256", "t"], folder, ZI_LOG="-")
    holds(f"{got}", got[:2] == (90, b"") and got[2].startswith(b"zi: store fault at t\n" + told) and got[2].count(b"\n") == 2)
    os.rename(strange, os.path.join(os.fsencode(store(folder)), b"\xff"))
    got = run(["store", "list"], folder, ZI_LOG="-")
    holds(f"{got}", got[:2] == (90, b"") and got[2].startswith(f"zi: store fault at \n{store(folder)}/\\xff: ".encode()) and got[2].count(b"\n") == 2)


def nothing_raw_is_told(folder):
    """What is told of a path with characters that a terminal would obey is one line, which shows them."""
    name = "a\n\x1b[31m\x7f\x9b\u2028\u202e\u2066\u00e4\u4e2d\U0001f600"
    shown = "a\\u{a}\\u{1b}[31m\\u{7f}\\u{9b}\\u{2028}\\u{202e}\\u{2066}\u00e4\u4e2d\U0001f600"
    os.mkdir(os.path.join(folder, name))
    line = f"zi: cannot read {folder}/{shown}\n{folder}/{shown}: is not a file\n".encode()
    expect(run(["store", "add", OTHER, os.path.join(folder, name)], folder, ZI_LOG="-"), 65, b"", line)
    write(os.path.join(folder, name), "store", b"")
    told = f"zi: store fault at \n{folder}/{shown}/store: Not a directory (os error 20)\n".encode()
    expect(run(["store", "list"], os.path.join(folder, name), ZI_LOG="-"), 90, b"", told)


def digests_are_completed(folder):
    """By bash, which takes a word apart at each `=`."""
    top = store(folder)
    names = [name_of({"a": b"abc"}), "sha1new=" + "a" * 40, "sha256=" + "ab" * 32, "sha256=" + "cd" * 32]
    for name in names:
        os.makedirs(os.path.join(top, name))
    rows = [
        (["store", "verify", ""], sorted(names)),
        (["store", "verify", "sha256new"], [names[0]]),
        (["store", "verify", "sha256", "=", "c"], ["cd" * 32]),
        (["manifest", "sha256", "sha1"], [names[1]]),
        (["store", "add", "sha"], [""]),
        (["manifest", "sha256n"], ["sha256new"]),
    ]
    script = 'source "$1"; shift; COMP_WORDS=("$@"); COMP_CWORD=$(($# - 1)); _zi; printf "%s\\n" "${COMPREPLY[@]}"'
    for words, offered in rows:
        command = ["bash", "-c", script, "bash", os.path.join(TOP, "completion", "zi.bash"), PROGRAM, *words]
        try:
            done = subprocess.run(command, cwd=folder, env=dict(os.environ, ZI_STORE=top), capture_output=True, timeout=SECONDS)
        except FileNotFoundError:
            print("skipped: bash isn't installed")
            return
        holds(f"{words}: {done}", sorted(done.stdout.decode().splitlines()) == offered and done.stderr == b"")


def several_stores(folder):
    """A tree is used from the first store that has it: that of the variable ZI_STORE, then the others in their order, which stay as they are."""
    folder = os.path.realpath(folder)
    near, far = os.path.join(folder, "near"), os.path.join(folder, "far")
    stores = {"ZI_STORES": f":near::{far}:"}
    script = {"main": b"#!/bin/sh\nprintf '[%s]' \"$0\" \"$@\"\n"}
    name = laid(far, script, "X")
    words = selections(folder, name) + ["a b"]
    expect(run(words, folder), 86, b"", f"zi: {name} is not stored\n".encode())
    expect(run(words, folder, **stores), 0, f"[{far}/{name}/main][a b]".encode(), b"")
    other = laid(near, FILES)
    listed = "".join(line + "\n" for line in sorted([name, other])).encode()
    expect(run(["store", "list"], folder, **stores), 0, listed, b"")
    for stored in (name, other):
        expect(run(["store", "verify", stored], folder, **stores), 0, b"sound\n", b"")
    expect(run(["manifest", "sha256new", other], folder, **stores), 0, manifest(FILES) + other.encode() + b"\n", b"")
    os.makedirs(os.path.join(far, "plain"))
    expect(run(["manifest", "sha256new", "plain"], folder, **stores), 0, EMPTY.encode() + b"\n", b"")
    holds("nothing is made", not os.path.exists(store(folder)))
    for top in (near, store(folder)):
        laid(top, script, "X")
        expect(run(words, folder, **stores), 0, f"[{top}/{name}/main][a b]".encode(), b"")
    expect(run(tree(folder, FILES), folder, **stores), 0, b"stored\n", b"")
    whole(folder, FILES)
    expect(run(["store", "list"], folder, **stores), 0, listed, b"")
    write(os.path.join(store(folder), name), "main", b"")
    os.utime(os.path.join(store(folder), name, "main"), (0, 0))
    damaged = f"zi: {name} is damaged: {name_of({'main': b''}, 'X')}\n".encode()
    expect(run(words, folder, **stores), 87, b"", damaged)
    expect(run(["store", "verify", name], folder, **stores), 87, b"manifest line 1\n", damaged)
    holds("near", sorted(os.listdir(near)) == sorted([name, other]))
    holds("far", sorted(os.listdir(far)) == sorted([name, "plain"]))


def further_stores_that_are_none(folder):
    """One that isn't there has no trees, and isn't made. One that can't be read is a fault for all that ask it, and is named where that is asked for."""
    folder = os.path.realpath(folder)
    none, file, loop = (os.path.join(folder, name) for name in ("none", "file", "loop"))
    write(folder, "file", b"")
    os.symlink("loop", loop)
    name = laid(store(folder), {"main": b"#!/bin/sh\n"}, "X")
    words = selections(folder, name)
    for stores in ("", ":", none, f"{none}:none/more"):
        expect(run(["store", "list"], folder, ZI_STORES=stores), 0, name.encode() + b"\n", b"")
        expect(run(words, folder, ZI_STORES=stores), 0, b"", b"")
        expect(run(["store", "verify", OTHER], folder, ZI_STORES=stores), 86, b"", f"zi: {OTHER} is not stored\n".encode())
    expect(run(tree(folder, FILES), folder, ZI_STORES=none), 0, b"stored\n", b"")
    holds("isn't made", not os.path.exists(none))
    for bad, reason in ((file, "Not a directory (os error 20)"), (loop, "Too many levels of symbolic links (os error 40)")):
        stores = {"ZI_STORES": f"{none}:{bad}:{store(folder)}", "ZI_LOG": "-"}
        for asked in (["store", "list"], words):
            expect(run(asked, folder, **stores), 90, b"", f"zi: store fault at \n{bad}: {reason}\n".encode())
        expect(run(["store", "verify", name], folder, **stores), 0, b"sound\n", b"")
        expect(run(["manifest", "sha256", "plain"], folder, **stores), 90, b"", f"zi: store fault at plain\n{bad}/plain: {reason}\n".encode())
        expect(run(tree(folder, FILES), folder, **stores), 0, b"present\n", b"")


ROWS = [
    added_listed_verified,
    no_files_are_the_empty_tree,
    the_worked_tree,
    damaged,
    refused,
    deep_and_strange,
    where_proc_is_not_mounted,
    large,
    what_is_stored_counts_in_rank,
    several_stores,
    further_stores_that_are_none,
    an_empty_folder_under_the_name_is_present,
    stored_folders_are_closed,
    closed_folders_are_taken_out,
    what_a_failed_write_leaves,
    a_full_disk,
    a_store_that_is_no_folder,
    taken_temporary_names,
    wherever_it_is_started,
    pipes_and_devices_are_no_files,
    failures_are_told,
    names_that_are_no_text,
    nothing_raw_is_told,
    digests_are_completed,
    a_crash_after_each_call,
    a_crash_with_many_files,
    a_sync_left_out,
    purged,
    purged_stores,
    a_crash_in_a_purge,
    purged_beside_adders,
    two_at_once,
    killed,
]


def main(rows):
    if not os.path.exists(PROGRAM):
        sys.exit(f"{PROGRAM} isn't built: run `rt ci` first")
    failed = 0
    for number, row in enumerate(rows, 1):
        print(f"{number} of {len(rows)}: {row.__name__}", flush=True)
        with tempfile.TemporaryDirectory() as folder:
            try:
                row(folder)
            except Wrong as wrong:
                failed += 1
                print(f"{row.__name__}: {wrong}")
            subprocess.run(["chmod", "-R", "u+w", folder], check=False)
    print(f"{len(rows) - failed} passed, {failed} failed")
    sys.exit(failed > 0)


if __name__ == "__main__":
    main(ROWS)

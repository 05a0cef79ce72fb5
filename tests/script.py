#!/usr/bin/env python3
"""Evaluates scripts that the proved program writes in real shells, and compares the words and the variables that the program gets.

The program is found as in store.py. Launches are documents of selections with hostile words and hostile values of variables, for shells in which
some variables are set: quotes, newlines, dollars, backslashes, empty ones, UTF-8, control characters, and texts drawn at random from such
characters. For each the text of the script is built here too, from what a script is, and compared to the byte; then dash, bash, bash as POSIX has
it and busybox's sh evaluate what the program writes, and the program that they become writes down its words, its variables and its process number,
which is that of the shell. A shell that isn't there is skipped. A number on the command line asks for as many random launches.

Then a program is started so in a terminal and in a pipeline: it has the terminal, Ctrl-C and Ctrl-Z reach it alone, it takes in what the shell hands
on by `<(..)` and by a descriptor, and its status is its own, 130 too. The status is 1 where something is wrong.
"""
import os
import pty
import random
import select
import shutil
import signal
import subprocess
import sys
import time
from xml.sax.saxutils import quoteattr

from download import SPACE
from shims import CHARACTERS, HOSTILE, quoted, random_words
from store import PROGRAM, begin, expect, holds, main, run, store, write

SHELLS = (["dash"], ["bash"], ["bash", "--posix"], ["busybox", "sh"])
LOCALES = ("C", "C.UTF-8")
NAMES = ["A", "B2", "_", "_a", "PATH", "IFS", "HOME", "LD_LIBRARY_PATH", "PS1", "ENV", "x", "LANG_x", "CDPATH", "exec", "export"]
# what a shell gives a value itself: it may differ, whatever the script says
OWN = {"_", "PWD", "OLDPWD", "SHLVL"}
SECONDS = 60
SEED = 1
# a program that writes its process number, its words and its variables
SEES = """#!PYTHON -I
import os, sys
fields = [str(os.getpid()).encode()] + [os.fsencode(word) for word in sys.argv[1:]] + [b""] + [name + b"=" + value for name, value in os.environb.items()]
with open(os.environ["SEEN"], "wb") as file:
    file.write(len(sys.argv[1:]).to_bytes(8, "big"))
    for field in fields:
        file.write(len(field).to_bytes(8, "big") + field)
"""


def text_in(document):
    """Whether a document of selections can hold this text."""
    return all(c in "\t\n\r" or " " <= c and c not in "\ufffe\uffff" for c in document)


def attribute(text):
    return quoteattr(text, {"\n": "&#10;", "\t": "&#9;", "\r": "&#13;"})


def selections(folder, name, bindings, words):
    inside = "".join(f'<environment name="{key}" mode="replace" value={attribute(value)}/>' for key, value in bindings)
    args = "".join("<arg>" + attribute(word.replace("$", "$$"))[1:-1] + "</arg>" for word in words)
    text = f'<selections xmlns="{SPACE}" interface="/a" command="run"><selection interface="/a" id="x" version="1" local-path="{folder}">{inside}<command name="run" path="sees">{args}</command></selection></selections>'
    return write(folder, name, text.encode())


def script_of(program, words, before, after):
    """The text of the script, from what a script is: the variables that are changed, by the bytes of their names, and the words."""
    changed = sorted((key, value) for key, value in after.items() if before.get(key) != value)
    lines = [f"export {key}={quoted(value)}\n" for key, value in changed]
    return "".join(lines) + "exec" + "".join(" " + quoted(word) for word in [program] + words) + "\n"


def seen_by(path):
    with open(path, "rb") as file:
        data = file.read()
    os.remove(path)
    count, rest, fields = int.from_bytes(data[:8], "big"), data[8:], []
    while rest:
        end = 8 + int.from_bytes(rest[:8], "big")
        fields.append(rest[8:end])
        rest = rest[end:]
    words = [word.decode() for word in fields[1 : 1 + count]]
    variables = dict(entry.split(b"=", 1) for entry in fields[2 + count :])
    return int(fields[0]), words, variables


def random_launch(chance):
    """Words of the document and of the user, and the variables that are set before, with those that bindings set."""
    words = [word for word in random_words(chance) if text_in(word)]
    before = {name: "".join(random_words(chance)) for name in chance.sample(NAMES, chance.randrange(6)) if name != "PATH"}
    bound = {name: "".join(word for word in random_words(chance) if text_in(word)) for name in chance.sample(NAMES, chance.randrange(6))}
    same = {name: before[name] for name in chance.sample(sorted(before), len(before) // 2) if text_in(before[name])}
    return words, random_words(chance), before, {**bound, **same}


def by_hand():
    hostile = [word for word in HOSTILE if text_in(word)]
    yield hostile, HOSTILE, {}, {}
    yield [], [], {}, {}
    for word in HOSTILE:
        if text_in(word):
            yield [word], [word], {"A": word, "B2": "x"}, {"A": word, "B2": word, "_": word}


def shells():
    for shell in SHELLS:
        found = shutil.which(shell[0])
        if found is None:
            print(f"skipped: {shell[0]} isn't installed")
        else:
            yield [found] + shell[1:]


def scripts_in_shells(folder):
    count = int(sys.argv[1]) if len(sys.argv) > 1 else 200
    chance = random.Random(SEED)
    launches = list(by_hand()) + [random_launch(chance) for _ in range(count)]
    write(folder, "sees", SEES.replace("PYTHON", sys.executable).encode())
    os.chmod(os.path.join(folder, "sees"), 0o755)
    all_shells = list(shells())
    for number, (words, user, before, bound) in enumerate(launches):
        shell = all_shells[number % len(all_shells)]
        file = selections(folder, "s", bound.items(), words)
        seen = os.path.join(folder, "seen")
        env = {"PATH": "/usr/bin:/bin", "SEEN": seen, "LC_ALL": LOCALES[number // len(all_shells) % 2], "ZI_STORE": store(folder), **before}
        # what the shell hands on is what its child, the program, sees: `env` tells it
        told = subprocess.run(shell + ["-c", "env -0"], env=env, cwd=folder, capture_output=True, timeout=SECONDS)
        holds(f"{shell} {told}", told.returncode == 0)
        given = {key.decode(): value.decode() for key, value in (entry.split(b"=", 1) for entry in told.stdout.split(b"\0") if entry)}
        process = subprocess.Popen(shell + ["-c", 'text=$("$0" script --launch "$@" && echo .) && eval "${text%.}"', PROGRAM, file] + user, env=env, cwd=folder, stdout=subprocess.PIPE, stderr=subprocess.PIPE)
        out, err = process.communicate(timeout=SECONDS)
        holds(f"{shell} {words} {user} {bound}: {process.returncode} {out} {err}", (process.returncode, out, err) == (0, b"", b""))
        pid, got, variables = seen_by(seen)
        holds(f"{shell}: another process", pid == process.pid)
        holds(f"{shell}: {got}, not {words + user}", got == words + user)
        wanted = {**given, **bound}
        seen_as = {key.decode(): value.decode() for key, value in variables.items() if key.decode() not in OWN}
        holds(f"{shell} {bound}: {seen_as}, not {wanted}", seen_as == {key: value for key, value in wanted.items() if key not in OWN})
        done = subprocess.run([PROGRAM, "script", "--launch", file] + user, env=env, cwd=folder, capture_output=True, timeout=SECONDS)
        text = script_of(os.path.join(folder, "sees"), words + user, env, {**env, **bound})
        holds(f"{done}, not {text!r}", (done.returncode, done.stdout, done.stderr) == (0, text.encode(), b""))
    print(f"{len(launches)} scripts in {len(all_shells)} shells")


def a_feed(folder, text):
    write(folder, "main", text.encode())
    os.chmod(os.path.join(folder, "main"), 0o755)
    feed = f'<interface xmlns="{SPACE}"><name>a</name><summary>a</summary><implementation id="a" version="1" local-path="."><command name="run" path="main"/></implementation></interface>'
    return write(folder, "app.xml", feed.encode())


def names_that_no_shell_can_set(folder):
    write(folder, "sees", b"")
    for name in ("A-B", "1A", "A B", "A;id", "\u00e4"):
        file = selections(folder, "s", [(name.replace("&", "&amp;"), "v")], [])
        expect(run(["script", "--launch", file], folder), 79, b"", b"zi: cannot launch: fault 6\n")


def nothing_is_started_and_what_is_refused_is_not_evaluated(folder):
    root = a_feed(folder, "#!/bin/sh\necho started\n")
    got = run(["script", root, "a b"], folder)
    expect(got, 0, f"exec '{folder}/main' 'a b'\n".encode(), b"")
    expect(run(["script", os.path.join(folder, "none.xml")], folder), 66, b"", b"zi: no feed for the root\n")
    for shell in shells():
        done = subprocess.run(shell + ["-c", 's=$("$0" script "$@") && eval "$s"', PROGRAM, os.path.join(folder, "none.xml")], cwd=folder, capture_output=True, timeout=SECONDS)
        holds(f"{shell} {done}", (done.returncode, done.stdout) == (66, b""))


def statuses_and_descriptors(folder):
    root = a_feed(folder, '#!/bin/sh\nif [ "$1" = kill ]; then kill -"$2" $$; fi\nif [ "$1" = exit ]; then exit "$2"; fi\ncat "$@" <&3\n')
    line = 's=$("$0" script "$@") && eval "$s"'
    for shell in shells():
        for words, status in ((["exit", "130"], 130), (["exit", "0"], 0), (["exit", "7"], 7), (["kill", "TERM"], -15), (["kill", "INT"], -2)):
            done = subprocess.run(shell + ["-c", line, PROGRAM, root] + words, cwd=folder, capture_output=True, timeout=SECONDS)
            holds(f"{shell} {words} {done}", done.returncode == status)
    bash = shutil.which("bash")
    if bash is None:
        print("skipped: bash isn't installed")
        return
    text = 'exec 3< <(echo three); app() { (s=$("$ZI" script "$ROOT" "$@") && eval "$s"); }; app <(echo one) - <(echo two)'
    done = subprocess.run([bash, "-c", text], cwd=folder, env=dict(os.environ, ZI=PROGRAM, ROOT=root), capture_output=True, timeout=SECONDS)
    holds(f"{done}", (done.returncode, done.stdout) == (0, b"one\nthree\ntwo\n"))


class Terminal:
    """An interactive bash in a terminal of its own, with a function `app` that starts the program by its script."""

    def __init__(self, folder, root):
        self.pid, self.fd = pty.fork()
        if self.pid == 0:
            os.chdir(folder)
            os.environ.update(PS1="ready> ", ZI=PROGRAM, ROOT=root, HISTFILE="", TERM="dumb", INPUTRC="/dev/null", ZI_STORE=store(folder))
            os.execvp("bash", ["bash", "--norc", "--noprofile", "--noediting", "-i"])
        self.text = ""
        self.until("ready> ")
        self.says('app() { (s=$("$ZI" script "$ROOT" "$@") && eval "$s"); }', "ready> ")

    def until(self, end):
        """What comes up to this text."""
        limit = time.monotonic() + SECONDS
        while end not in self.text:
            if time.monotonic() > limit or not select.select([self.fd], [], [], 1)[0] and time.monotonic() > limit:
                holds(f"no {end!r} in {self.text!r}", False)
            if select.select([self.fd], [], [], 0.1)[0]:
                self.text += os.read(self.fd, 4096).decode(errors="replace")
        front, _, self.text = self.text.partition(end)
        return front

    def says(self, line, end):
        os.write(self.fd, line.encode() + b"\n")
        return self.until(end)

    def presses(self, key, end):
        os.write(self.fd, key)
        return self.until(end)

    def close(self):
        os.write(self.fd, b"\x15kill %1 2>/dev/null\nexit\nexit\n")
        os.close(self.fd)
        os.waitpid(self.pid, 0)


def keys_in_a_terminal(folder):
    """Ctrl-C and Ctrl-Z do with a program that a script started what they do with the program itself."""
    if shutil.which("bash") is None:
        print("skipped: bash isn't installed")
        return
    root = a_feed(folder, '#!/bin/sh\ntest -t 0 && test -t 1 && echo "on a terminal"\ntrap "echo told; exit 130" INT\necho "started $$"\nwhile :; do sleep 0.1; done\n')
    shell = Terminal(folder, root)
    try:
        front = shell.says("app", "started ")
        holds(f"terminal {front!r}", "on a terminal" in front)
        shell.presses(b"\x03", "told")
        shell.until("ready> ")
        holds("status of Ctrl-C", "130" in shell.says("echo status $?", "ready> "))
        shell.says("app", "started ")
        shell.presses(b"\x1a", "ready> ")
        holds("stopped", "Stopped" in shell.says("jobs", "ready> "))
        shell.says("fg", "eval")
        time.sleep(0.5)
        shell.presses(b"\x03", "told")
        shell.until("ready> ")
        holds("status behind fg", "130" in shell.says("echo status $?", "ready> "))
    finally:
        shell.close()


ROWS = [scripts_in_shells, names_that_no_shell_can_set, nothing_is_started_and_what_is_refused_is_not_evaluated, statuses_and_descriptors, keys_in_a_terminal]

# What started this may ignore Ctrl-C, as a shell does for what it puts into the background: programs are started without that.
for number in (signal.SIGINT, signal.SIGQUIT):
    if signal.getsignal(number) == signal.SIG_IGN:
        signal.signal(number, signal.SIG_DFL)

if __name__ == "__main__":
    main(ROWS)

#!/usr/bin/env python3
"""Runs shims by real shells, and compares the words that each program gets.

The texts are built here from what a shim is, not by the program: two lines, `#!/bin/sh`, and `exec`, each word between single quotes, in which a
quote is written `'\\''`, and `"$@"`. Each is run by dash, bash, bash as POSIX has it, sh, and as a file by itself, with arguments of its own
behind its words, in two locales, from a path with a quote, a dollar and a newline in it. The words are hostile: quotes, newlines, dollars,
backslashes, empty words, UTF-8, control characters, long ones, and words drawn at random from such characters. A word has no NUL, and the first,
which is the program, is a path.

A reader of such texts, written from the shell's rules for quotes, is held to the same words, and to texts that are no shim's or that quote
otherwise. Then come statuses and signals: those of a program are those of its shim. A shell that isn't there is skipped. A number on the command
line asks for as many lists of random words. The status is 1 where something is wrong.
"""
import os
import random
import shutil
import subprocess
import sys
import tempfile

HEAD, TAIL = "#!/bin/sh\nexec", ' "$@"\n'
SECONDS = 60
SEED = 1
# how a shim is run, by the words before its path
SHELLS = (["dash"], ["bash"], ["bash", "--posix"], ["sh"], [])
LOCALES = ("C", "C.UTF-8")
# what stands behind the words of a shim when it is run
ARGUMENTS = ([], ["x"], ["", "a b", "$1", "'", "\n"])
CHARACTERS = "'\\\n$\" `*aé🙂\t!#~=-;&|(){}<>\x01\r"
HOSTILE = (
    ["", "'", "''", "'''", "it's", "\\", "\\\\", "\\'", "'\\''", "\n", "\n\n", "a\nb", "$", "$$", "$HOME", "${HOME}", "$(date)", "`date`", '"', '"$@"']
    + ["\"'\"", " ", "  a  ", "\t", "\r", "\x01", "\x1b[0m", "\x7f", "*", "?", "[a-z]", "~", "~root", "#", "#c", "!", "!!", "a!b", "a=b", "=", "-", "--"]
    + ["-n", "-e", "&", "&&", "|", ";", ";;", "<", ">", ">f", "(", ")", "{", "}", "{a,b}", "if", "done", "exec", "é", "日本語", "🙂", "\u00a0", "\u2028"]
    + ["\ufeff", "\u0301", "%s", "%", "^", "\\n", "\\0", "\\$", "$'a'", "a'b'c'd", ' exec \'/p\' "$@"\n', "#!/bin/sh\nexec", "'" * 100, "\\" * 101]
    + ["'\\" * 50, "\n" * 50]
)
LONG = ["x" * 100_000, "'" * 30_000, "é'" * 20_000]
GOOD = b"#!/bin/sh\nexec '/p' 'it'\\''s' '' \"$@\"\n"
# texts that are no shim's
REFUSED = (
    [b"", b"\n", GOOD[:-1], GOOD + b"\n", GOOD[1:], b" " + GOOD, b"\xef\xbb\xbf" + GOOD, GOOD.replace(b"\n", b"\r\n"), GOOD.replace(b"sh", b"bash")]
    + [b"#!/bin/sh\nexec /p \"$@\"\n", b"#!/bin/sh\nexec '/p\" \"$@\"\n", b"#!/bin/sh\nexec  '/p' \"$@\"\n", b"#!/bin/sh\nexec '/p'  \"$@\"\n"]
    + [b"#!/bin/sh\nexec\t'/p' \"$@\"\n", b"#!/bin/sh\nexec '/p' $@\n", b"#!/bin/sh\nexec '/p'\n", b"#!/bin/sh\nexec '/p'\\ \"$@\"\n"]
    + [b"#!/bin/sh\nexec '/p'x \"$@\"\n", b"#!/bin/sh\nexec \\p \"$@\"\n", b"#!/bin/sh\nexec '\xff' \"$@\"\n", b"#!/bin/sh\nexec '/p' '\"$@\"\n"]
    + [b"#!/bin/sh\nexec \"$@\"\n\n", b"#!/bin/sh\nexec'/p' \"$@\"\n", b"#!/bin/sh\nexec '/p' \"$@\" \"$@\"\n", b"#!/bin/sh\nexec '/p' \\\" \"$@\"\n"]
)
# texts that quote otherwise, or in which a word looks like the end, with their words
OTHERS = (
    (GOOD, ["/p", "it's", ""]),
    (b"#!/bin/sh\nexec \"$@\"\n", []),
    (b"#!/bin/sh\nexec '' \"$@\"\n", [""]),
    (b"#!/bin/sh\nexec \\' \"$@\"\n", ["'"]),
    (b"#!/bin/sh\nexec 'a''b' \"$@\"\n", ["ab"]),
    (b"#!/bin/sh\nexec \\'\\' ''\\''' \"$@\"\n", ["''", "'"]),
    (b"#!/bin/sh\nexec ' \"$@\"\n' \"$@\"\n", [' "$@"\n']),
)
# what a program is that ends so, and the status of its shim
ENDS = ((["/bin/sh", "-c", "exit 7"], 7), (["/bin/sh", "-c", "kill -9 $$"], -9), (["/no/such/program"], 127))
# a program that writes the length and the bytes of each of its words
PROGRAM = """import os, sys
with open(os.environ["SEEN"], "wb") as file:
    for word in sys.argv[1:]:
        bytes = os.fsencode(word)
        file.write(len(bytes).to_bytes(8, "big") + bytes)
"""


def quoted(word):
    return "'" + word.replace("'", "'\\''") + "'"


def shim(words):
    return HEAD + "".join(" " + quoted(word) for word in words) + TAIL


def part(text):
    """What the part of a word at the front of a text stands for, and what is behind it: characters between single quotes, or a quote behind a
    backslash. None where no part stands there."""
    if text.startswith("\\'"):
        return "'", text[2:]
    if text.startswith("'"):
        inside, quote, behind = text[1:].partition("'")
        return (inside, behind) if quote else None
    return None


def read(data):
    """The words that bytes say, each one or more parts behind a space; None where they are no shim's text."""
    try:
        text = data.decode("utf-8")
    except UnicodeDecodeError:
        return None
    if not text.startswith(HEAD) or not text[len(HEAD) :].endswith(TAIL):
        return None
    rest, words = text[len(HEAD) : -len(TAIL)], []
    while rest:
        found = part(rest[1:]) if rest[0] == " " else None
        if found is None:
            return None
        words.append("")
        while found is not None:
            value, rest = found
            words[-1] += value
            found = part(rest)
    return words


def random_words(chance):
    return ["".join(chance.choice(CHARACTERS) for _ in range(chance.randrange(12))) for _ in range(chance.randrange(6))]


def seen_words(path):
    with open(path, "rb") as file:
        data = file.read()
    words = []
    while data:
        end = 8 + int.from_bytes(data[:8], "big")
        words.append(data[8:end].decode("utf-8"))
        data = data[end:]
    return words


def write(path, text):
    with open(path, "w", encoding="utf-8", newline="") as file:
        file.write(text)
    os.chmod(path, 0o755)


def wrong_in_reading(lists):
    for words in lists:
        if read(shim(words).encode()) != words:
            yield f"read otherwise: {words}"
    for data in REFUSED:
        if read(data) is not None:
            yield f"not refused: {data}"
    for data, words in OTHERS:
        if read(data) != words:
            yield f"read as {read(data)}: {data}"


def wrong_in_running(folder, shell, number, words):
    """What is wrong where a shell runs a shim of these words behind those that start the program; else None."""
    behind = ARGUMENTS[number % len(ARGUMENTS)]
    path = os.path.join(folder, f"it's a $HOME\nshim {number % 7}")
    seen = os.path.join(folder, "seen")
    write(path, shim([sys.executable, "-I", os.path.join(folder, "program.py")] + words))
    env = {"PATH": "/usr/bin:/bin", "HOME": "/root", "SEEN": seen, "LC_ALL": LOCALES[number % len(LOCALES)]}
    done = subprocess.run(shell + [path] + behind, env=env, cwd=folder, capture_output=True, timeout=SECONDS)
    if done.returncode != 0 or done.stdout or done.stderr:
        return f"{shell}: {done} {words}"
    got = seen_words(seen)
    os.remove(seen)
    return None if got == words + behind else f"{shell}: {got} for {words} and {behind}"


def wrong_ends(folder):
    path = os.path.join(folder, "ends")
    for words, status in ENDS:
        write(path, shim(words))
        done = subprocess.run([path], capture_output=True, timeout=SECONDS)
        if done.returncode != status:
            yield f"{done} for {words}"


def wrong_in_shells(folder, lists):
    for shell in SHELLS:
        found = [shutil.which(word) for word in shell[:1]]
        if None in found:
            print(f"skipped: {shell[0]} isn't installed")
            continue
        wrong = [what for number, words in enumerate(lists) if (what := wrong_in_running(folder, found + shell[1:], number, words))]
        print(f"{' '.join(shell) or 'by itself'}: {len(lists)} shims, {len(wrong)} wrong")
        yield from wrong


def main():
    chance = random.Random(SEED)
    lists = [[], [""], ["", ""], HOSTILE] + [[word] for word in HOSTILE + LONG]
    lists += [random_words(chance) for _ in range(int(sys.argv[1]) if len(sys.argv) > 1 else 60)]
    wrong = list(wrong_in_reading(lists))
    print(f"{len(lists)} texts of shims, {len(REFUSED)} that are none, {len(OTHERS)} by hand: {len(wrong)} read wrongly")
    with tempfile.TemporaryDirectory() as folder:
        write(os.path.join(folder, "program.py"), PROGRAM)
        wrong += wrong_in_shells(folder, lists)
        wrong += wrong_ends(folder)
    for what in wrong:
        print(what[:2000])
    sys.exit(1 if wrong else 0)


if __name__ == "__main__":
    main()

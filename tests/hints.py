#!/usr/bin/env python3
"""Reads the hints that the program gives on a terminal.

The program crates/zi/out/zi is called with words that can't work, as a user of 0install would write them, and with feeds, documents,
stores and helpers that stop it. With ZI_HINTS=1 each call is to write its line and then at most three lines that begin with `hint: `,
among which stands what is to be told; the same comes on a terminal, and nothing but the line where standard error is a file, or where
ZI_HINTS is 0. Each row of the table 'From 0install' in docs/USE.md is tried, or works as it stands there. The status is 1 where something
is wrong.
"""
import os
import pty
import re
import subprocess
import sys
import tempfile

TOP = os.path.dirname(os.path.dirname(os.path.abspath(__file__)))
PROGRAM = os.environ.get("ZI_PROGRAM", os.path.join(TOP, "crates", "zi", "out", "zi"))
SECONDS = 60
URI = "http://example.com/hello.xml"
DIGEST = "sha256new_" + "A" * 52
FEEDS = 'xmlns="http://zero-install.sourceforge.net/2004/injector/interface"'
HELLO = f'<interface {FEEDS}><implementation id="a" version="1" local-path="."/></interface>\n'
FAR = f'<interface {FEEDS}><implementation id="a" version="1"><manifest-digest sha256new="{"A" * 52}"/><file href="http://example.com/a" size="1" dest="a"/></implementation></interface>\n'
SELS = f'<selections {FEEDS} interface="/hello.xml" command="run"><selection interface="/hello.xml" id="a" version="1" local-path="/nowhere"/></selections>\n'
STARTED = SELS.replace("/></selections>", '><command name="run" path="none"/></selection></selections>')

# The first cell of each row of the table that says another word than 0install's, with words that are tried, the status, and what the
# hints say.
FORMER = [
    ("`0install select --xml URI`", ["select", "--xml", URI], 64, ["it is '--xml'", "without --xml"]),
    ("`0install select --xml --command= URI`", ["select", "--command=", URI], 64, ["two words", "--no-command"]),
    ("`0install download --xml URI`", ["download", "--xml", URI], 64, ["without --xml"]),
    ("`0install select URI`, which shows what it rejected where nothing fits", ["select", "--no-command", "--version", "9", "HELLO"], 73, ["zi conflict"]),
    ("`0install run URI WORDS..`", ["run", "./hello.xml", "word"], 64, ["it is './hello.xml'", '"$PWD"/\'./hello.xml\'']),
    ("`0install run SELECTIONS WORDS..`", ["run", "SELS", "word"], 67, ["the root isn't interface", "zi launch FILE"]),
    ("`0install run SELECTIONS WORDS..`", ["run", "sels.xml", "word"], 64, ["zi launch FILE"]),
    ("`--version`, `--version-for`, `--os`, `--cpu`", ["select", "--version=1", URI], 64, ["two words"]),
    ("`--version`, `--version-for`, `--os`, `--cpu`", ["select", URI, "--os", "Linux"], 64, ["nothing more", "before ROOT"]),
    ("`--command NAME`, `--command=`", ["run", "--command=", URI], 64, ["--no-command"]),
    ("`--offline`, `--refresh`", ["select", "--offline", URI], 64, ["--network off"]),
    ("`--offline`, `--refresh`", ["download", "--refresh", URI], 64, ["ZI_FEEDS"]),
    ("`--with-store DIR`", ["select", "--with-store", "/store", URI], 64, ["ZI_STORES"]),
    ("`0install config`, `help_with_testing`", ["config", "help_with_testing", "True"], 64, ["--level testing"]),
    ("`--not-before V`, `--before V`", ["select", "--not-before", "1", URI], 64, ["--version V.."]),
    ("`--not-before V`, `--before V`", ["select", "--before", "2", URI], 64, ["--version ..!V"]),
    ("`0install store add DIGEST DIR`", ["store", "add", DIGEST, "folder"], 65, ["folder: is not a file", "has to be a file"]),
    ("`0install store add DIGEST DIR`", ["store", "add", DIGEST, "folder/"], 64, ["a folder isn't added"]),
    ("`0install store verify DIR`", ["store", "verify", "folder"], 64, ["a digest", "zi manifest"]),
    ("`0install store manage`, `0install store purge`", ["store", "manage"], 64, ["zi store purge FILE.."]),
    ("`0install store manage`, `0install store purge`", ["store", "purge"], 64, ["a document of selections"]),
    ("`0install store manifest DIR ALGORITHM`", ["store", "manifest", "folder", "sha256new"], 64, ["zi manifest ALGORITHM NAME"]),
    ("`0install digest DIR`", ["digest", "folder"], 64, ["zi manifest ALGORITHM NAME"]),
    ("`0install add NAME URI`", ["add", "hello", URI], 64, ["zi run ROOT"]),
    ("`0install update`, `import`, `list`", ["update", URI], 64, ["zi download ROOT"]),
    ("`0install update`, `import`, `list`", ["import", "hello.xml"], 64, ["ZI_FEEDS"]),
    ("`0install update`, `import`, `list`", ["list"], 64, ["zi store list"]),
]
# Rows whose words of 0install are zi's, or that name no words.
SAME = ["`0install store list`", "a user's rating of a version"]

# Other calls: words, the status, and what the hints say.
OTHERS = [
    ([], 64, ["a word is missing: a command"]),
    (["-h"], 64, ["zi --help"]),
    (["select", "-h"], 64, ["zi --help"]),
    (["run", "-v", URI], 64, ["ZI_LOG"]),
    (["--no-command", "select", URI], 64, ["behind the command"]),
    (["select", "--os", "Linux", "--os", "Linux", URI], 64, ["stands once"]),
    (["download", "--proof", URI], 64, ["behind select alone"]),
    (["select", "--version"], 64, ["missing: versions"]),
    (["select", "--rate", URI, "a", "good", URI], 64, ["it is 'good'", "preferred"]),
    (["select", "--level", "tested", URI], 64, ["developer, testing or stable"]),
    (["check", URI, "sels"], 64, ["missing: a file with a proof"]),
    (["manifest", "md5", "x"], 64, ["sha1new, sha256 or sha256new"]),
    (["store"], 64, ["add, verify, list or purge"]),
    (["demo", "0"], 64, ["from 1 to 1000"]),
    (["select", "a\x1b[2J\nb"], 64, ["a\\u{1b}[2J\\u{a}b"]),
    (["select", URI], 66, ["nothing is at FEEDS/http%3A%2F%2Fexample.com%2Fhello.xml", "ZI_FEEDS"]),
    (["select", "/none/none.xml"], 66, ["nothing is at /none/none.xml"]),
    (["select", "FOLDER"], 65, ["FOLDER: is not a file"]),
    (["select", "BAD"], 67, ["no well-formed XML: line 2, column 5"]),
    (["select", "TWICE"], 67, ["an id stands twice: line 4, column 3"]),
    (["select", "--no-command", "--search", "0", "HELLO", "more"], 64, ["nothing more"]),
    (["launch", "none"], 75, ["where zi is started"]),
    (["launch", "HELLO"], 76, ["the root isn't selections"]),
    (["launch", "BAD"], 76, ["line 2, column 5"]),
    (["refute", "HELLO", "HELLO"], 77, ["zi select --proof ROOT"]),
    (["launch", "SELS"], 79, ["what is selected for /hello.xml has no command 'run'"]),
    (["download", "--no-command", "FAR"], 80, ["ZI_FETCH names no program", "ZI_FETCH names"]),
    (["store", "verify", DIGEST], 86, ["zi store list"]),
    (["launch", "STARTED"], 92, ["/nowhere/none: ", "executable"]),
]


def prepared(place):
    def write(name, text):
        path = os.path.join(place, name)
        with open(path, "w", encoding="utf-8") as file:
            file.write(text)
        return path

    os.mkdir(os.path.join(place, "folder"))
    os.mkdir(os.path.join(place, "feeds"))
    twice = HELLO.replace("<implementation", "\n<!-- -->\n  <implementation").replace("</interface>", '\n  <implementation id="a" version="2" local-path="."/></interface>')
    return {
        "HELLO": write("hello.xml", HELLO),
        "FAR": write("far.xml", FAR),
        "SELS": write("sels.xml", SELS),
        "STARTED": write("started.xml", STARTED),
        "BAD": write("bad.xml", "<a>\n<b a/></a>"),
        "TWICE": write("twice.xml", twice),
        "FOLDER": os.path.join(place, "folder"),
        "FEEDS": os.path.join(place, "feeds"),
    }


def surroundings(place, hints):
    kept = {name: value for name, value in os.environ.items() if not name.startswith("ZI_")}
    kept.update(ZI_FEEDS=os.path.join(place, "feeds"), ZI_STORE=os.path.join(place, "store"))
    if hints is not None:
        kept["ZI_HINTS"] = hints
    return kept


def on_a_file(words, place, hints):
    done = subprocess.run([PROGRAM, *words], cwd=place, env=surroundings(place, hints), stdin=subprocess.DEVNULL, capture_output=True, timeout=SECONDS)
    return done.returncode, done.stderr.decode()


def on_a_terminal(words, place, hints):
    mine, its = pty.openpty()
    child = subprocess.Popen([PROGRAM, *words], cwd=place, env=surroundings(place, hints), stdin=subprocess.DEVNULL, stdout=subprocess.DEVNULL, stderr=its)
    os.close(its)
    told = b""
    while True:
        try:
            piece = os.read(mine, 4096)
        except OSError:
            break
        if not piece:
            break
        told += piece
    os.close(mine)
    return child.wait(timeout=SECONDS), told.decode().replace("\r\n", "\n")


def faults_of(words, status, said, place):
    found = []
    code, told = on_a_file(words, place, "1")
    line, *hints = told.splitlines() or [""]
    if code != status:
        found.append(f"status {code}, not {status}")
    if not line.startswith("zi: "):
        found.append(f"the first line is {line!r}")
    if len(hints) > 3 or not all(hint.startswith("hint: ") for hint in hints):
        found.append(f"hints {hints}")
    found += [f"no hint says {text!r}: {hints}" for text in said if not any(text in hint for hint in hints)]
    if on_a_terminal(words, place, None) != (code, told):
        found.append("a terminal shows something else")
    for hints, on in ((None, on_a_file), ("0", on_a_file), ("0", on_a_terminal)):
        if on(words, place, hints) != (code, line + "\n"):
            found.append(f"more than the line comes by {on.__name__} with {hints}")
    return found


def rows_of_the_page():
    with open(os.path.join(TOP, "docs", "USE.md"), encoding="utf-8") as file:
        table = file.read().split("| 0install | zi |\n", 1)[1].split("\n\n", 1)[0]
    return re.findall(r"^\| (.*?) \| ", table, re.MULTILINE)


def main():
    if not os.access(PROGRAM, os.X_OK):
        print("tests/hints.py: skipped, the program isn't built")
        return 0
    wrong = 0
    tried = [cell for cell, *_ in FORMER] + SAME
    for row in rows_of_the_page():
        if not any(row.startswith(cell) for cell in tried):
            wrong += 1
            print(f"tests/hints.py: no try of the row {row}")
    calls = [call[1:] for call in FORMER] + OTHERS
    with tempfile.TemporaryDirectory() as place:
        names = prepared(place)
        for words, status, said in calls:
            words = [names.get(word, word) for word in words]
            said = [re.sub("FEEDS|FOLDER", lambda at: names[at.group()], text) if text.startswith(("FOLDER", "nothing is at FEEDS")) else text for text in said]
            for fault in faults_of(words, status, said, place):
                wrong += 1
                print(f"tests/hints.py: {words}: {fault}")
    print(f"tests/hints.py: {wrong} wrong" if wrong else f"tests/hints.py: {len(calls)} calls are told what does work")
    return 1 if wrong else 0


if __name__ == "__main__":
    sys.exit(main())

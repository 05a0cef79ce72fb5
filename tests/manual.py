#!/usr/bin/env python3
"""Compares what the program says of itself with its manual, its page for users and its completions.

The program is crates/zi/out/zi; the gate leaves it there. Each command, option, status, kind of fault and variable that `zi --help` names
stands in man/zi.1 and docs/USE.md, each command and option in both completions, and none of these names another. A difference is named,
and the status is then 1.
"""
import os
import re
import subprocess
import sys

TOP = os.path.dirname(os.path.dirname(os.path.abspath(__file__)))
PROGRAM = os.path.join(TOP, "crates", "zi", "out", "zi")
OPTION = re.compile(r"(?<![\w-])--[a-z][a-z-]*(?![\w=-])")
VARIABLE = re.compile(r"\bZI_[A-Z]+\b")
COMMANDS = re.compile(r"^zi (--help|--version|store [a-z]+|[a-z]+)(?=$| \[| [A-Z](?:[A-Z]|$))", re.MULTILINE)


def read(*path):
    with open(os.path.join(TOP, *path), encoding="utf-8") as file:
        return file.read()


def between(text, start, end):
    """What stands behind a line and before another; all that is behind it where `end` is nothing."""
    behind = text.split(start, 1)[1]
    return behind.split(end, 1)[0] if end else behind


def numbers(text):
    """The numbers from 1 on that stand in two columns, each before its words."""
    return set(int(n) for n in re.findall(r"(?:^|\s{2,})(\d+)  \S", text, re.MULTILINE))


def of_help(text):
    return {
        "commands": set(COMMANDS.findall(text)),
        "options": set(OPTION.findall(text)),
        "statuses": set(int(n) for n in re.findall(r"^ +(\d+)  ", between(text, "Status, and", "Kinds of faults of documents"), re.MULTILINE)),
        "documents": numbers(between(text, "Kinds of faults of documents:", "Kinds of faults of feeds:")),
        "feeds": numbers(between(text, "Kinds of faults of feeds:", None)),
        "variables": set(VARIABLE.findall(text)),
    }


def of_manual(source):
    text = re.sub(r"\\f[A-Z]", "", source.replace("\\-", "-"))
    synopsis = between(text, ".SH SYNOPSIS", ".SH DESCRIPTION")
    statuses = between(text, ".SH EXIT STATUS", ".SH FAULTS OF DOCUMENTS")
    listed = re.compile(r"(?:^|; )(\d+) ", re.MULTILINE)
    documents = between(text, ".SH FAULTS OF DOCUMENTS", ".SH FAULTS OF FEEDS").replace("\n", " ").strip()
    feeds = between(text, ".SH FAULTS OF FEEDS", ".SH ENVIRONMENT").replace("\n", " ").strip()
    return {
        "commands": set(re.findall(r"^\.B zi (--help|--version|store [a-z]+|[a-z]+)", synopsis, re.MULTILINE)),
        "options": set(OPTION.findall(between(text, ".SH COMMANDS", ".SH EXIT STATUS"))),
        "statuses": set(int(n) for n in re.findall(r"^\.B (\d+)$", statuses, re.MULTILINE)),
        "documents": set(int(n) for n in listed.findall(documents)),
        "feeds": set(int(n) for n in listed.findall(feeds)),
        "variables": set(VARIABLE.findall(text)),
    }


def of_page(text):
    """Of docs/USE.md: its tables' first cells, and the two sentences on faults."""
    commands = between(text, "## Commands", "## Exit status")
    statuses = between(text, "## Exit status", "Faults of documents:")
    listed = re.compile(r"(?:^|, )(\d+) ")
    documents = between(text, "Faults of documents:", "\n\n").replace("\n", " ").strip()
    feeds = between(text, "Faults of feeds:", "\n\n").replace("\n", " ").strip()
    cells = re.findall(r"^\| ([\d, ]+) \|", statuses, re.MULTILINE)
    return {
        "commands": set(re.findall(r"`zi (--help|--version|store [a-z]+|[a-z]+)", "\n".join(re.findall(r"^\| `zi .*?\| ", commands, re.MULTILINE)))),
        "options": set(re.findall(r"^\| `(--[a-z-]+)", commands, re.MULTILINE)) | {"--help"},
        "statuses": set(int(n) for cell in cells for n in cell.split(",")),
        "documents": set(int(n) for n in listed.findall(documents)),
        "feeds": set(int(n) for n in listed.findall(feeds)),
        "variables": set(VARIABLE.findall(text)),
    }


def of_bash(text):
    first = re.search(r'-eq 1 \].*?-W "([^"]*)"', text, re.DOTALL).group(1).split()
    store = re.search(r'store\).*?-W "([^"]*)"', text, re.DOTALL).group(1).split()
    commands = set(word for word in first if word != "store") | set(f"store {word}" for word in store)
    return {"commands": commands, "options": set(OPTION.findall(text))}


def of_zsh(text):
    first = re.search(r"CURRENT == 2 \)\); then\s+compadd -- (.*)", text).group(1).split()
    store = re.search(r"2\) compadd (.*?) ;;", text).group(1).split()
    commands = set(word for word in first if word != "store") | set(f"store {word}" for word in store)
    return {"commands": commands, "options": set(OPTION.findall(text))}


def differences(told, where, says):
    found = []
    for what, words in says.items():
        for word in sorted(told[what] - words, key=str):
            found.append(f"{where} lacks {what}: {word}")
        for word in sorted(words - told[what], key=str):
            found.append(f"{where} has {what} that --help hasn't: {word}")
    return found


def main():
    if not os.access(PROGRAM, os.X_OK):
        print("tests/manual.py: skipped, the program isn't built")
        return 0
    told = of_help(subprocess.run([PROGRAM, "--help"], stdout=subprocess.PIPE, check=True, timeout=60).stdout.decode())
    empty = [what for what, words in told.items() if not words]
    found = [f"--help names no {what}" for what in empty]
    found += differences(told, "man/zi.1", of_manual(read("man", "zi.1")))
    found += differences(told, "docs/USE.md", of_page(read("docs", "USE.md")))
    found += differences(told, "completion/zi.bash", of_bash(read("completion", "zi.bash")))
    found += differences(told, "completion/_zi", of_zsh(read("completion", "_zi")))
    for line in found:
        print(line)
    print(f"tests/manual.py: {len(found)} differences" if found else "tests/manual.py: the manual, the page and the completions say what --help says")
    return 1 if found else 0


if __name__ == "__main__":
    sys.exit(main())

#!/usr/bin/env python3
"""Runs the rows of crates/command_rows with one allocation refused, and looks at what became of it: the answer is that memory was refused, or
the ordinary one, and it is the ordinary one only where all that is seen behind it is as ever; else nothing was launched, a front of the
ordinary text was written, and each tree that was stored is there as before, but those that a purge takes away.

It isn't part of the gate, since there are many runs and each is a process of its own: each call of each row, over what its paragraph told
before it, once for each allocation between its words and its end, or for so many of them, evenly apart, as `--runs` says. The program is
built by `rt try`, so it isn't proved for this; the build takes minutes, once for each slice. The status is 1 where a run is wrong.

    tests/memory.py                      each call of each row, 20 allocations of each
    tests/memory.py --runs 0             each allocation
    tests/memory.py --first 7 --every 40 the calls number 7, 47, 87 and so on
"""
import argparse
import os
import re
import subprocess
import sys
import tempfile
import time

TOP = os.path.dirname(os.path.dirname(os.path.abspath(__file__)))
CRATE = os.path.join(TOP, "crates", "command_rows")
# The number of the allocation that fails: what a row makes less is spent before it. A row that makes more is left out.
AT = 10_000
# More allocations than any row needs.
NEVER = 4_000_000_000
CALLS = ("zi", "quiet")
ASKS = tuple("# each cuts cut words bare address last variable folders shims launched asked called reads made stored first times".split(" "))


class Row:
    """A call, what is told before it, and what is asked behind it."""

    def __init__(self, title, told, words):
        self.title = title
        self.told = told
        self.call = f"zi {words}".rstrip()
        self.questions = ["launched", *questions_of(told)]
        if not any(line.startswith("fails ") for line in told):
            self.questions += [f"zi store verify {name}" for name in sorted(set(names_in([*told, words])))]

    def text(self, *parts):
        return "\n".join(["# a row", *self.told, *(line for part in parts for line in part)]) + "\n"

    def __str__(self):
        return f"{self.title}: {self.call}"


def names_in(lines):
    """The names of trees that stand in lines, as names or as attributes."""
    for line in lines:
        yield from re.findall(r"sha1new=[0-9a-f]{40}|sha256=[0-9a-f]{64}|sha256new_[A-Z2-7]{52}", line)
        for algorithm, digest in re.findall(r"(sha1new|sha256|sha256new)=['\"]([0-9a-fA-Z2-7]{40,64})['\"]", line):
            yield f"{algorithm}{'_' if algorithm == 'sha256new' else '='}{digest}"


def questions_of(told):
    """What is asked of the first store and of the last: each tree that is placed, and each node in it."""
    nodes, where = [], "first"
    tells = [line.split(" ") for line in told]
    last = max((at for at, line in enumerate(tells) if line[0] == "store"), default=-1)
    for at, line in enumerate(tells):
        if line[0] == "store":
            where = "stored" if at == last else None
        elif line[0] in ("node", "zeros"):
            nodes.append(line[1])
        elif line[0] == "place":
            if where:
                yield f"{where} {line[1]}"
                yield from (f"{where} {line[1]} {node}" for node in nodes)
            nodes = []


def rows():
    with open(os.path.join(CRATE, "stdin")) as file:
        paragraphs = file.read().split("\n\n")
    for paragraph in paragraphs:
        title, told = "", []
        for line in paragraph.rstrip("\n").split("\n"):
            word, _, rest = line.partition(" ")
            if word == "#":
                title = rest
            elif word in CALLS:
                yield Row(title, list(told), rest)
            elif word not in ASKS:
                told.append(line)


def answers(text):
    """The lines of a text with their answers."""
    found = []
    for line in text.split("\n"):
        if line.startswith("= "):
            found[-1][1].append(line[2:])
        elif line == "=":
            found[-1][1].append("")
        elif line:
            question, equals, answer = line.partition(" = ")
            found.append((question, [answer] if equals else []))
    return found


def tried(at, cases):
    """What the program writes for each of these texts, its status and how many allocations it made, where the one of this number fails."""
    with tempfile.TemporaryDirectory(prefix="zi-memory-") as folder:
        for name, text in cases.items():
            with open(os.path.join(folder, name), "w") as file:
                file.write(text)
        steps = [] if at == NEVER else ["--steps", "1"]
        done = subprocess.run(
            ["rt", "try", *steps, "--fail-alloc", str(at), "--cases", folder], cwd=CRATE, stdin=subprocess.DEVNULL, capture_output=True, text=True
        )
    texts = {}
    for part in re.split(r"^== ", done.stdout, flags=re.M)[1:]:
        name, _, text = part.partition("\n")
        texts[name] = text
    results, count = {}, None
    for line in done.stderr.split("\n"):
        made = re.match(r"allocations: (?:at least )?(\d+)", line)
        ended = re.match(r"case=(\S+) run=(\S+)(?: status=(\d+))?", line)
        if made:
            count = int(made[1])
        elif ended:
            status = int(ended[3]) if ended[2] == "ended" and ended[3] else ended[2]
            results[ended[1]] = (texts.get(ended[1], ""), status, count)
            count = None
    missing = [name for name in cases if name not in results]
    if missing:
        print(done.stdout[-2000:] + done.stderr[-2000:], file=sys.stderr)
        sys.exit(f"no answer for {len(missing)} cases, {missing[0]} first")
    return results


def call_of(text, row):
    """The answer of the call of a row, and what is seen behind it."""
    found = answers(text)
    at = next((i for i, (question, _) in enumerate(found) if question == row.call), None)
    if at is None:
        return None, None
    return found[at][1], {question: answer for question, answer in found[at + 1 :]}


def written(lines):
    """What a call wrote, of the lines behind its status."""
    if not lines:
        return ""
    text = "\n".join(lines)
    return text[:-1] if text.endswith("~") else text + "\n"


def judged(row, ordinary, before, text):
    """Why the answers in a text are wrong, or nothing."""
    call, seen = call_of(text, row)
    normal, after = call_of(ordinary, row)
    if call == normal:
        return None if seen == after else f"the ordinary answer, and behind it {seen}, not {after}"
    if not call or not re.match(r"94( zi|$)", call[0]):
        return f"{call}"
    if seen["launched"] != ["0"]:
        return "memory was refused, and a program started"
    if normal[1:] != ["the help"] and not written(normal[1:]).startswith(written(call[1:])):
        return f"memory was refused, and this was written: {call[1:]}"
    for question, answer in seen.items():
        if answer != before.get(question) and answer != after[question]:
            return f"memory was refused, and behind it {question} is {answer}"
    return None


def points(low, high, runs):
    """The numbers of the allocations that are to fail."""
    many = high - low + 1
    if runs == 0 or many <= runs:
        return list(range(low, high + 1))
    return sorted({low + (2 * i + 1) * many // (2 * runs) for i in range(runs)})


def measured(chosen):
    """Of each row its ordinary text, what is seen before the call, and the numbers of the first and the last allocation of the call."""
    cases = {}
    for number, row in enumerate(chosen):
        cases[f"r{number}-told"] = row.text(row.questions)
        cases[f"r{number}-start"] = row.text([])
        cases[f"r{number}-end"] = row.text([row.call])
        cases[f"r{number}-all"] = row.text([row.call], row.questions)
    got = tried(NEVER, cases)
    for number, row in enumerate(chosen):
        before = {question: answer for question, answer in answers(got[f"r{number}-told"][0]) if question in row.questions}
        low, high = got[f"r{number}-start"][2], got[f"r{number}-end"][2]
        yield row, got[f"r{number}-all"][0], before, max(low - 8, 1), high + 8


def main():
    words = argparse.ArgumentParser(description=__doc__.split("\n\n")[0])
    words.add_argument("--first", type=int, default=0)
    words.add_argument("--every", type=int, default=1)
    words.add_argument("--runs", type=int, default=20)
    words.add_argument("--slice", type=int, default=2_000, help="runs for each build")
    given = words.parse_args()
    every = list(rows())
    chosen = every[given.first :: given.every]
    began = time.time()
    counts = {"ordinary": 0, "refused": 0, "elsewhere": 0, "wrong": 0}
    waiting, long = [], 0
    for row, ordinary, before, low, high in measured(chosen):
        if high >= AT:
            long += 1
            print(f"left out, since it makes {high} allocations: {row}", flush=True)
            continue
        waiting += [(row, ordinary, before, point) for point in points(low, high, given.runs)]
    print(f"{len(chosen)} of {len(every)} rows, {len(waiting)} runs, measured in {time.time() - began:.0f} s", flush=True)
    for start in range(0, len(waiting), given.slice):
        part = waiting[start : start + given.slice]
        got = tried(AT, {f"c{i}": f"spend {AT - point}\n" + row.text([row.call], row.questions) for i, (row, _, _, point) in enumerate(part)})
        for i, (row, ordinary, before, point) in enumerate(part):
            text, status, _ = got[f"c{i}"]
            if status == 1:
                counts["elsewhere"] += 1
                continue
            why = judged(row, ordinary, before, text) if status == 0 else f"it ended with {status}"
            if why:
                counts["wrong"] += 1
                print(f"WRONG at allocation {point}: {row}: {why}", flush=True)
            else:
                call, _ = call_of(text, row)
                counts["ordinary" if call == call_of(ordinary, row)[0] else "refused"] += 1
        print(f"{start + len(part)} runs after {time.time() - began:.0f} s: {counts}", flush=True)
    print(f"{len(chosen) - long} rows, {len(waiting)} runs, {time.time() - began:.0f} s: {counts}")
    return 1 if counts["wrong"] else 0


if __name__ == "__main__":
    sys.exit(main())

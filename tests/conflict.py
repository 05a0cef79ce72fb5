#!/usr/bin/env python3
"""Checks what the program tells where nothing fits.

The program crates/zi/out/zi is asked for the conflicts of random programs and of the demonstration (programs.py). Where a choice is there
it is to write nothing. Where none is, each line is to be one that the feeds say, with the versions of which they say it, as it is
worked out here by the rules of docs/ over feeds as universes.py reads them; the lines come in the order of the interfaces. And these lines
alone leave no choice: going through all choices of the interfaces that they speak of finds none that meets them. A number on the command
line asks for as many programs. The status is 1 where something is wrong.
"""
import itertools
import os
import subprocess
import sys
import tempfile
from typing import NamedTuple

import universes
from programs import Demonstration, Program
from universes import Asked

TOP = os.path.dirname(os.path.dirname(os.path.abspath(__file__)))
PROGRAM = os.environ.get("ZI_PROGRAM", os.path.join(TOP, "crates", "zi", "out", "zi"))
DONE, NO_SOLUTION = 0, 73
DEMONSTRATIONS = (1, 10)
SECONDS = 300


class Fact(NamedTuple):
    """What the feeds say of a candidate, or of a command of it: the words of its line, and what it means."""

    interface: str
    candidate: object
    command: object  # of the candidate, or None
    kind: str  # needs, allows, named, wanted, lacks or bits
    need: object
    words: str


def version(candidates, candidate):
    same = [other for other in candidates if other.text == candidate.text]
    return candidate.text + (f" ({candidate.id})" if len(same) > 1 else "")


def versions(candidates, some):
    return ", ".join(version(candidates, candidate) for candidate in some)


class Feeds:
    """The lines that there may be."""

    def __init__(self, universe, asked):
        self.candidates = dict(universe)
        self.asked = asked
        self.facts = [*self.wanted(), *(fact for interface, _ in universe for fact in self.of_interface(interface))]

    def wanted(self):
        name = self.asked.command
        for candidate in self.candidates[self.asked.root] if name is not None else ():
            kind, words = ("wanted", f" is run by its command {name}") if candidate.command(name) else ("lacks", f" has no command {name}")
            yield Fact(self.asked.root, candidate, None, kind, None, words)

    def of_interface(self, interface):
        for candidate in self.candidates[interface]:
            if candidate.bits():
                yield Fact(interface, candidate, None, "bits", None, f" is for {candidate.bits()} bits")
            for need in candidate.needs:
                yield from self.of_need(interface, candidate, None, need)
            for command in candidate.commands:
                for need in command.all_needs():
                    yield from self.of_need(interface, candidate, command, need)

    def of_need(self, interface, candidate, command, need):
        there = self.candidates.get(need.interface, [])
        admitted = [other for other in there if need.admits(other)]
        front = f", as {command.name}," if command else ""
        if need.kind == "essential":
            where = f" in {versions(there, admitted)}" if admitted else " in a version that isn't there"
            where = " in any version" if there and len(admitted) == len(there) else where
            where = where if there else ", which has no version that may be used"
            yield Fact(interface, candidate, command, "needs", need, f"{front} needs {need.interface}{where}")
        elif len(admitted) < len(there):
            only = f"{versions(there, admitted)} only" if admitted else "no version"
            yield Fact(interface, candidate, command, "allows", need, f"{front} allows {need.interface} in {only}")
        for name in need.commands if need.kind != "restricts" and admitted else ():
            lacking = [other for other in admitted if not other.command(name)]
            where = f", which isn't there in {versions(there, lacking)}" if lacking else ""
            yield Fact(interface, candidate, command, f"named {name}", need, f"{front} needs the command {name} of {need.interface}{where}")

    def root_line(self):
        there = self.candidates[self.asked.root]
        where = f", in one of these: {versions(there, there)}" if there else ", and has no version that may be used"
        return f"{self.asked.root} is needed{where}"

    def line(self, interface, some, words):
        there = self.candidates[interface]
        every = " (every version)" if len(there) > 1 and len(some) == len(there) else ""
        return f"  {interface}{every} {versions(there, some)}{words}"

    def facts_of(self, line):
        """The facts of a line, or none where the feeds don't say it."""
        for interface, words in dict.fromkeys((fact.interface, fact.words) for fact in self.facts):
            facts = [fact for fact in self.facts if (fact.interface, fact.words) == (interface, words)]
            those = []
            for fact in facts:
                if fact.candidate not in those:
                    those.append(fact.candidate)
            if line.startswith(f"  {interface} ") and line.endswith(words):
                some = [c for c in those if version(self.candidates[interface], c) in line[: len(line) - len(words)].removeprefix(f"  {interface} ").removeprefix("(every version) ").split(", ")]
                if some and line == self.line(interface, some, words):
                    return [fact for fact in facts if fact.candidate in some]
        return []


def used_by(facts, choice, asked):
    """The commands that are used by a choice as the facts have it, or None where it doesn't meet them."""
    used = set()
    while True:
        more = set(used)
        for fact in facts:
            if choice[fact.interface] != fact.candidate or (fact.command and (fact.interface, fact.command.name) not in used):
                continue
            chosen = choice.get(fact.need.interface) if fact.need else None
            if fact.kind == "lacks" or (fact.kind == "needs" and not (chosen and fact.need.admits(chosen))) or (fact.kind == "allows" and chosen and not fact.need.admits(chosen)):
                return None
            if fact.kind == "wanted":
                more.add((fact.interface, asked.command))
            if fact.kind.startswith("named ") and chosen and fact.need.admits(chosen):
                name = fact.kind.removeprefix("named ")
                if not chosen.command(name):
                    return None
                more.add((fact.need.interface, name))
        if more == used:
            return used
        used = more


def are_met(facts, choice, asked):
    bits = {fact.candidate.bits() for fact in facts if fact.kind == "bits" and choice[fact.interface] == fact.candidate}
    return len(bits) < 2 and used_by(facts, choice, asked) is not None


def left(feeds, facts):
    """A choice that meets the facts, or None."""
    there = dict.fromkeys([feeds.asked.root, *(fact.interface for fact in facts), *(fact.need.interface for fact in facts if fact.need)])
    ways = [[*feeds.candidates.get(i, []), *([] if i == feeds.asked.root else [None])] for i in there]
    for picks in itertools.product(*ways):
        choice = dict(zip(there, picks))
        if are_met(facts, choice, feeds.asked):
            return choice
    return None


def wrong_of_lines(feeds, lines):
    if not lines or lines[0] != feeds.root_line():
        return "the first line isn't that of the root"
    told = [feeds.facts_of(line) for line in lines[1:]]
    unsaid = [line for line, facts in zip(lines[1:], told) if not facts]
    if unsaid:
        return f"not said by the feeds: {unsaid}"
    order = [list(feeds.candidates).index(facts[0].interface) for facts in told]
    if order != sorted(order):
        return "the lines aren't in the order of the interfaces"
    choice = left(feeds, [fact for facts in told for fact in facts])
    return f"a choice is left: { {i: c and c.id for i, c in choice.items()} }" if choice else None


def run(*words):
    done = subprocess.run([PROGRAM, *words], stdout=subprocess.PIPE, stderr=subprocess.DEVNULL, timeout=SECONDS)
    return done.returncode, done.stdout


def wrong_of(asked, options, is_there, lengths):
    words = [*(["--no-command"] if asked.command is None else ["--command", asked.command]), *options, asked.root]
    status, text = run("conflict", *words)
    if is_there:
        return None if (status, text) == (DONE, b"") else f"status {status} and {text}, where a choice is there"
    if status != NO_SOLUTION:
        return f"status {status}"
    lines = text.decode().splitlines()
    lengths.append(len(lines))
    found = wrong_of_lines(Feeds(universes.load(asked), asked), lines)
    return f"{found}\n{text.decode()}" if found else None


def wrong_of_random(number, folder, lengths):
    options, asked = Program(number).write(folder)
    return wrong_of(asked, options, universes.best(universes.load(asked), asked) is not None, lengths)


def wrong_of_demonstration(number, folder, lengths):
    demonstration = Demonstration(number, folder)
    demonstration.write()
    return wrong_of(Asked(demonstration.address("root")), [], True, lengths)


def check(what, numbers, wrong_of_number, top):
    wrong, lengths = 0, []
    for number in numbers:
        folder = os.path.join(top, f"{what} {number}")
        os.mkdir(folder)
        found = wrong_of_number(number, folder, lengths)
        if found:
            wrong += 1
            print(f"{what} {number}: {found}")
    told = f"; {len(lengths)} conflicts of {min(lengths)} to {max(lengths)} lines, {sorted(lengths)[len(lengths) // 2]} in the median" if lengths else ""
    print(f"{len(numbers)} {what}: {wrong} wrong{told}")
    return wrong


def main():
    if not os.path.exists(PROGRAM):
        sys.exit("crates/zi/out/zi isn't there: run the gate first")
    if b"\nzi conflict " not in run("--help")[1]:
        sys.exit("the program has no command conflict")
    with tempfile.TemporaryDirectory(prefix="zi-conflict-") as top:
        failed = check("random programs", range(int(sys.argv[1]) if len(sys.argv) > 1 else 300), wrong_of_random, top)
        failed += check("demonstrations", DEMONSTRATIONS, wrong_of_demonstration, top)
    sys.exit(1 if failed else 0)


if __name__ == "__main__":
    main()

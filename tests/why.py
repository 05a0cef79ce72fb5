#!/usr/bin/env python3
"""Checks what the program tells of why a candidate isn't chosen.

The program crates/zi/out/zi is asked for the reports on random programs and on the demonstration (programs.py). Each is to have a line
for each place of the best choice's walk, and below it one for each candidate that is passed over there, with the first of the six
reasons that holds, as it is worked out here by the rules of docs/ over feeds as universes.py reads them; the steps are the hints that
the certificate has for it. And no reason is one that a search refutes: going through all choices that have what is chosen at the places
before, and the candidate at its own, finds none that is valid. Where no choice is valid nothing is to be written. A number on the
command line asks for as many programs. The status is 1 where something is wrong.
"""
import os
import subprocess
import sys
import tempfile

import proofs
import universes
from programs import Demonstration, Program
from universes import Asked

TOP = os.path.dirname(os.path.dirname(os.path.abspath(__file__)))
PROGRAM = os.environ.get("ZI_PROGRAM", os.path.join(TOP, "crates", "zi", "out", "zi"))
DONE, NO_SOLUTION = 0, 73
DEMONSTRATIONS = (1, 10, 40)
SECONDS = 300


class Stops:
    """What the walk of a choice comes to, in the order in which it does: an interface with None, or with a command that is used."""

    def __init__(self, choice, asked):
        self.choice = choice
        self.all = []
        self.visit(asked.root)
        if asked.command is not None:
            self.need(asked.root, asked.command)

    def visit(self, interface):
        if (interface, None) not in self.all:
            self.all.append((interface, None))
            if self.choice[interface]:
                self.follow(self.choice[interface].needs)

    def follow(self, needs):
        for need in needs:
            if need.kind != "restricts":
                self.visit(need.interface)
                for name in need.commands:
                    self.need(need.interface, name)

    def need(self, interface, name):
        command = self.choice[interface] and self.choice[interface].command(name)
        if command and (interface, name) not in self.all:
            self.all.append((interface, name))
            self.follow(command.all_needs())


def names(need):
    return () if need.kind == "restricts" else need.commands


def suits(need, candidate):
    return need.admits(candidate) and all(candidate.command(name) for name in names(need))


def is_unmet(need, chosen):
    return not suits(need, chosen) if chosen else need.kind == "essential"


class Place:
    """A place of the walk of a choice: its interface, and the stops before it."""

    def __init__(self, universe, asked, choice, interface, before):
        self.candidates = dict(universe)
        self.asked = asked
        self.choice = choice
        self.interface = interface
        self.before = [other for other, name in before if name is None]
        owned = [(other, need) for other, name in before for need in self.needs_at(other, name)]
        self.bearing = [(other, need) for other, need in owned if need.interface == interface]

    def needs_at(self, interface, name):
        chosen = self.choice[interface]
        if not chosen:
            return []
        return chosen.needs if name is None else chosen.command(name).all_needs()

    def passed(self):
        """The candidates that stand before what is chosen; where nothing is, all."""
        chosen = self.choice[self.interface]
        candidates = self.candidates[self.interface]
        return candidates[: candidates.index(chosen)] if chosen else candidates

    def is_against(self, need, candidate):
        if need.interface == self.interface:
            return is_unmet(need, candidate)
        return need.interface in self.before and is_unmet(need, self.choice[need.interface])

    def commands(self):
        if self.interface == self.asked.root and self.asked.command is not None:
            yield self.asked.command
        for _, need in self.bearing:
            yield from names(need)

    def reasons(self, candidate):
        """Each that speaks of no search, in its order."""
        yield from (f"version refused by {owner}" for owner, need in self.bearing if not need.admits(candidate))
        yield from (f"has no command {name}" for name in self.commands() if not candidate.command(name))
        for other in self.before:
            chosen = self.choice[other]
            if chosen and {chosen.bits(), candidate.bits()} == {32, 64}:
                yield f"other bits than {other}"
        yield from (f"against {need.interface}" for need in candidate.needs if self.is_against(need, candidate))
        for need in candidate.needs:
            if need.kind == "essential" and not any(suits(need, other) for other in self.candidates.get(need.interface, ())):
                yield f"needs {need.interface}"


def places(universe, asked, choice):
    stops = Stops(choice, asked).all
    for number, (interface, name) in enumerate(stops):
        if name is None:
            yield Place(universe, asked, choice, interface, stops[:number])


def report(universe, asked, choice, blocks):
    """The text, with the hints of these blocks."""
    steps = (len(block.hints) for block in blocks)
    for place in places(universe, asked, choice):
        chosen = choice[place.interface]
        yield f"{place.interface} {chosen.id if chosen else 'none'}\n"
        for candidate in place.passed():
            hints = next(steps)
            yield f"  {candidate.id} {next(place.reasons(candidate), f'excluded by {hints} steps')}\n"


def refuted(universe, asked, choice):
    """The candidates that are passed over, and yet chosen by a valid choice that has the same at the places before."""
    for place in places(universe, asked, choice):
        given = {other: choice[other] for other in place.before}
        for candidate in place.passed():
            if universes.best(universe, asked, {**given, place.interface: candidate}):
                yield f"{candidate.id} of {place.interface}"


def run(*words):
    done = subprocess.run([PROGRAM, *words], stdout=subprocess.PIPE, stderr=subprocess.DEVNULL, timeout=SECONDS)
    return done.returncode, done.stdout


class Count:
    """How many reports there are of each reason."""

    def __init__(self):
        self.of = {}

    def add(self, text):
        for line in text.splitlines():
            if line.startswith("  "):
                word = line.split(" ")[3]
                self.of[word] = self.of.get(word, 0) + 1


def wrong_of(universe, asked, options, choice, count):
    words = [*(["--no-command"] if asked.command is None else ["--command", asked.command]), *options, asked.root]
    status, text = run("why", *words)
    if choice is None:
        return None if (status, text) == (NO_SOLUTION, b"") else f"status {status} and {text}, where nothing fits"
    if status != DONE:
        return f"status {status}"
    _, blocks = proofs.read(run("select", "--proof", *words)[1])
    wanted = "".join(report(universe, asked, choice, blocks))
    count.add(wanted)
    return None if text.decode() == wanted else f"written is\n{text.decode()}not\n{wanted}"


def wrong_of_random(number, folder, count):
    options, asked = Program(number).write(folder)
    universe = universes.load(asked)
    choice = universes.best(universe, asked)
    refutes = list(refuted(universe, asked, choice)) if choice else []
    return f"refuted: {refutes}" if refutes else wrong_of(universe, asked, options, choice, count)


def wrong_of_demonstration(number, folder, count):
    demonstration = Demonstration(number, folder)
    demonstration.write()
    asked = Asked(demonstration.address("root"))
    ids = demonstration.chosen()
    universe = universes.load(asked)
    choice = {uri: next(c for c in candidates if c.id == ids[uri]) for uri, candidates in universe}
    return wrong_of(universe, asked, [], choice, count)


def check(what, numbers, wrong_of_number, top):
    wrong, count = 0, Count()
    for number in numbers:
        folder = os.path.join(top, f"{what} {number}")
        os.mkdir(folder)
        found = wrong_of_number(number, folder, count)
        if found:
            wrong += 1
            print(f"{what} {number}: {found}")
    told = ", ".join(f"{n} {word}" for word, n in sorted(count.of.items()))
    print(f"{len(numbers)} {what}: {wrong} wrong; reasons: {told}")
    return wrong


def main():
    if not os.path.exists(PROGRAM):
        sys.exit("crates/zi/out/zi isn't there: run the gate first")
    if b"\nzi why " not in run("--help")[1]:
        sys.exit("the program has no command why")
    with tempfile.TemporaryDirectory(prefix="zi-why-") as top:
        failed = check("random programs", range(int(sys.argv[1]) if len(sys.argv) > 1 else 300), wrong_of_random, top)
        failed += check("demonstrations", DEMONSTRATIONS, wrong_of_demonstration, top)
    sys.exit(1 if failed else 0)


if __name__ == "__main__":
    main()

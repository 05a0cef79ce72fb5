"""Universes of local feeds by docs/FORMATS.md and docs/SEMANTICS.md, with nothing of the program's code: their candidates in rank
order, their constraints, the walk of a choice, which choices are valid and which is the best.

Read is what tests/programs.py writes: groups, platforms, stabilities, dependencies with versions, commands with runners. All
implementations are local, languages and the network play no part, and no condition leaves anything out.
"""
import os
import re
import xml.etree.ElementTree
from typing import NamedTuple

from proofs import Clause, Formula, Group, Place

NS = "{http://zero-install.sourceforge.net/2004/injector/interface}"
MODIFIERS = {"pre": -2, "rc": -1, None: 0, "post": 1}
STABILITIES = ["insecure", "buggy", "developer", "testing", "stable", "packaged", "preferred"]
WIDE = ("x86_64", "aarch64", "ppc64")
X86 = ["x86_64", "i686", "i586", "i486", "i386"]
VERSION = re.compile(r"(\d+(?:\.\d+)*)((?:-(?:pre|rc|post)?(?:\d+(?:\.\d+)*)?)*)")
PART = re.compile(r"-(pre|rc|post)?((?:\d+(?:\.\d+)*)?)")


class Dependency(NamedTuple):
    interface: str
    kind: str  # essential, recommended or restricts
    ranges: tuple
    commands: tuple = ()

    def admits(self, candidate):
        return all(admits(candidate.version) for admits in self.ranges)


class Command(NamedTuple):
    name: str
    needs: tuple
    runner: object = None

    def all_needs(self):
        return [*self.needs, self.runner] if self.runner else self.needs


class Candidate(NamedTuple):
    id: str
    version: list
    os: str
    machine: str
    stability: int
    needs: tuple
    commands: tuple
    text: str = ""  # the version as it is written

    def command(self, name):
        return next((command for command in self.commands if command.name == name), None)

    def bits(self):
        return None if self.machine in ("*", "src") else 64 if self.machine in WIDE else 32


class Asked(NamedTuple):
    """What is wanted: the root, its command or None, the platform, and the ranges of interfaces that are limited. Where the command
    comes first, what it needs is walked before what the root itself needs."""

    root: str
    command: object = None
    os: str = "Linux"
    machine: str = "x86_64"
    limits: tuple = ()
    command_first: bool = False


# Versions.


def dotted(text):
    return [int(number) for number in text.split(".")] if text else []


def version_of(text):
    first, rest = VERSION.fullmatch(text).groups()
    value = [dotted(first)]
    for modifier, numbers in PART.findall(rest):
        value += [MODIFIERS[modifier or None], dotted(numbers)]
    return value[:-1] if value[-1] == [] else [*value, MODIFIERS[None]]


def range_of(text):
    """Whether one range admits a version."""
    if ".." in text:
        low, high = text.split("..")
        low = version_of(low) if low else []
        return (lambda v: low <= v < version_of(high[1:])) if high else (lambda v: low <= v)
    if text.startswith("!"):
        return lambda v: v != version_of(text[1:])
    return lambda v: v == version_of(text)


def expression_of(text):
    ranges = [range_of(part.strip(" ")) for part in text.split("|")]
    return lambda v: any(admits(v) for admits in ranges)


def between(element):
    low, high = element.get("not-before"), element.get("before")
    return lambda v: (not low or version_of(low) <= v) and (not high or v < version_of(high))


# Platforms: what is run, the best first.


def run_systems(os):
    return [os] + (["POSIX"] if os != "Windows" else []) + ["*"]


def run_machines(machine):
    return (X86[X86.index(machine) :] if machine in X86[:4] else [machine]) + ["*"]


# Feeds.


class Around:
    """What an implementation inherits of the groups around it."""

    def __init__(self, attributes=(), needs=(), commands=()):
        self.attributes = dict(attributes)
        self.needs = list(needs)
        self.commands = list(commands)

    def inside(self, element, read_need):
        inner = Around(self.attributes, self.needs, self.commands)
        inner.attributes.update((name, value) for name, value in element.items() if name != "id")
        inner.needs += needs_in(element, read_need)
        for child in element.findall(NS + "command"):
            runner = child.find(NS + "runner")
            command = Command(child.get("name"), tuple(needs_in(child, read_need)), read_need(runner) if runner is not None else None)
            inner.commands = [other for other in inner.commands if other.name != command.name] + [command]
        return inner


def needs_in(element, read_need):
    return [read_need(child) for child in element if child.tag in (NS + "requires", NS + "restricts")]


def need_reader(folder):
    def read_need(element):
        ranges = [expression_of(element.get("version"))] if element.get("version") is not None else []
        ranges += map(between, element.findall(NS + "version"))
        kind = "restricts" if element.tag == NS + "restricts" else element.get("importance", "essential")
        commands = (element.get("command", "run"),) if element.tag == NS + "runner" else ()
        return Dependency(os.path.normpath(os.path.join(folder, element.get("interface"))), kind, tuple(ranges), commands)

    return read_need


def candidate_of(element, inner):
    os_, machine = inner.attributes.get("arch", "*-*").split("-")
    text = inner.attributes["version"] + inner.attributes.get("version-modifier", "")
    commands = list(inner.commands)
    if "main" in inner.attributes and not any(command.name == "run" for command in commands):
        commands.append(Command("run", ()))
    return Candidate(
        element.get("id"),
        version_of(text),
        os_,
        machine,
        STABILITIES.index(inner.attributes.get("stability", "testing")),
        tuple(inner.needs),
        tuple(commands),
        text,
    )


def implementations(element, around, read_need):
    for child in element:
        if child.tag in (NS + "group", NS + "implementation"):
            inner = around.inside(child, read_need)
            if child.tag == NS + "group":
                yield from implementations(child, inner, read_need)
            else:
                yield candidate_of(child, inner)


# Universes: a list of pairs, the address of an interface and its candidates in rank order.


def is_usable(candidate, interface, asked):
    runs = candidate.os in run_systems(asked.os) and candidate.machine in run_machines(asked.machine)
    limits = [admits for limited, admits in asked.limits if limited == interface]
    return STABILITIES[candidate.stability] not in ("buggy", "insecure") and candidate.machine != "src" and runs and all(admits(candidate.version) for admits in limits)


def in_rank_order(candidates, asked):
    """The order of the first component that differs; sorted by the last first."""
    ranked = sorted(candidates, key=lambda c: c.id.encode(), reverse=True)
    ranked.sort(key=lambda c: run_machines(asked.machine).index(c.machine))
    ranked.sort(key=lambda c: run_systems(asked.os).index(c.os))
    ranked.sort(key=lambda c: c.version, reverse=True)
    ranked.sort(key=lambda c: min(c.stability, STABILITIES.index("stable")), reverse=True)
    return ranked


def candidates_of(interface, asked):
    if not os.path.exists(interface):
        return []
    root = xml.etree.ElementTree.parse(interface).getroot()
    found = implementations(root, Around(), need_reader(os.path.dirname(interface)))
    return in_rank_order([c for c in found if is_usable(c, interface, asked)], asked)


def load(asked):
    universe, addresses = [], [asked.root]
    for interface in addresses:  # which grows meanwhile
        universe.append((interface, candidates_of(interface, asked)))
        for candidate in universe[-1][1]:
            needs = [*candidate.needs, *(need for command in candidate.commands for need in command.all_needs())]
            addresses += dict.fromkeys(n.interface for n in needs if n.kind != "restricts" and n.interface not in addresses)
    return universe


# Variables and constraints.


class Numbers:
    """The numbers of variables, by the interface and the place of a candidate in it."""

    def __init__(self, universe):
        self.places = {interface: number for number, (interface, _) in enumerate(universe)}
        self.universe = universe
        self.first = []
        self.count = 0
        for _, candidates in universe:
            self.first.append(self.count + 1)
            self.count += len(candidates)
        self.of_command = {}
        for number, (_, candidates) in enumerate(universe):
            for place, candidate in enumerate(candidates):
                for command in candidate.commands:
                    self.count += 1
                    self.of_command[number, place, command.name] = self.count
        self.count += 1  # the last says 64-bit

    def candidates(self, number):
        """The candidates of an interface with their places and variables."""
        for place, candidate in enumerate(self.universe[number][1]):
            yield place, self.first[number] + place, candidate

    def of_interface(self, interface):
        """The same by the interface's address; nothing where the universe hasn't got it."""
        return self.candidates(self.places[interface]) if interface in self.places else iter(())


def clause(*lits):
    return Clause(tuple(dict.fromkeys(lits)))


def need_constraints(y, need, numbers):
    found = list(numbers.of_interface(need.interface))
    admitted = [(place, e, candidate) for place, e, candidate in found if need.admits(candidate)]
    if need.kind == "essential":
        yield clause(-y, *(e for _, e, _ in admitted))
    else:
        yield from (clause(-y, -e) for _, e, candidate in found if not need.admits(candidate))
    for name in need.commands:
        for place, e, candidate in admitted:
            command = numbers.of_command.get((numbers.places[need.interface], place, name))
            yield clause(-y, -e, command) if command else clause(-y, -e)


def candidate_constraints(number, place, c, candidate, numbers):
    if candidate.bits():
        yield clause(-c, numbers.count if candidate.bits() == 64 else -numbers.count)
    for need in candidate.needs:
        yield from need_constraints(c, need, numbers)
    for command in candidate.commands:
        x = numbers.of_command[number, place, command.name]
        yield clause(-x, c)
        for need in command.all_needs():
            yield from need_constraints(x, need, numbers)


def constraints(universe, asked, numbers):
    yield clause(*(c for _, c, _ in numbers.candidates(0)))
    if asked.command is not None:
        for place, c, _ in numbers.candidates(0):
            command = numbers.of_command.get((0, place, asked.command))
            yield clause(-c, command) if command else clause(-c)
    for number, (_, candidates) in enumerate(universe):
        if len(candidates) >= 2:
            yield Group(tuple(c for _, c, _ in numbers.candidates(number)))
    for number in range(len(universe)):
        for place, c, candidate in numbers.candidates(number):
            yield from candidate_constraints(number, place, c, candidate, numbers)


def formula(universe, asked):
    numbers = Numbers(universe)
    return Formula(numbers.count, tuple(constraints(universe, asked, numbers)))


# Choices: a map from addresses to candidates or None.


class Walk:
    """The places and the used commands of a choice. An interface of which the choice says nothing yet ends it: it is `open`."""

    def __init__(self, choice, asked):
        self.choice = choice
        self.places = []
        self.used = []
        self.open = None
        self.visit(asked.root, follows=not asked.command_first)
        if asked.command is not None:
            self.need(asked.root, asked.command)
        if asked.command_first and choice.get(asked.root):
            self.follow(choice[asked.root].needs)

    def visit(self, interface, follows=True):
        if self.open is not None or interface in self.places:
            return
        if interface not in self.choice:
            self.open = interface
            return
        self.places.append(interface)
        if follows and self.choice[interface]:
            self.follow(self.choice[interface].needs)

    def follow(self, needs):
        for need in needs:
            if need.kind != "restricts":
                self.visit(need.interface)
                for name in need.commands:
                    self.need(need.interface, name)

    def need(self, interface, name):
        if self.open is not None or (interface, name) in self.used or not self.choice[interface]:
            return
        command = self.choice[interface].command(name)
        if command:
            self.used.append((interface, name))
            self.follow(command.all_needs())


def is_met(need, choice):
    chosen = choice.get(need.interface)
    if not chosen:
        return need.kind != "essential"
    return need.admits(chosen) and all(chosen.command(name) for name in need.commands)


def is_valid(choice, asked):
    """Of a choice of candidates for interfaces of the universe."""
    chosen = [candidate for candidate in choice.values() if candidate]
    root = choice[asked.root]
    if not root or (asked.command is not None and not root.command(asked.command)):
        return False
    walk = Walk(choice, asked)
    needs = [need for candidate in chosen for need in candidate.needs]
    needs += [need for interface, name in walk.used for need in choice[interface].command(name).all_needs()]
    is_closed = all(interface in walk.places for interface, candidate in choice.items() if candidate)
    return is_closed and len({c.bits() for c in chosen} - {None}) < 2 and all(is_met(need, choice) for need in needs)


def best(universe, asked, given=()):
    """The best choice, or None where none is valid: at the first place of the walk that is open each candidate in its order, then
    none, so that what is found first ranks earliest. What the walk doesn't come to is chosen by no valid choice. Where choices are
    given for the first places, of those that have them."""
    candidates = dict(universe)

    def decide(choice):
        interface = Walk(choice, asked).open
        if interface is None:
            whole = {other: choice.get(other) for other in candidates}
            return whole if is_valid(whole, asked) else None
        for candidate in [*candidates[interface], None]:
            found = decide({**choice, interface: candidate})
            if found:
                return found
        return None

    return decide(dict(given))


def places(universe, choice, asked):
    """The walk of a choice as a certificate's blocks go by it."""
    numbers = Numbers(universe)
    for interface in Walk(choice, asked).places:
        variables = {candidate.id: c for _, c, candidate in numbers.of_interface(interface)}
        yield Place(tuple(variables.values()), variables[choice[interface].id] if choice[interface] else None)

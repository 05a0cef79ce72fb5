#!/usr/bin/env python3
"""Checks proof texts by docs/FORMATS.md, with nothing of the program's code: do the lemmas follow by their hints, are they fresh and
lean, does the whole refute a formula, or exclude for a choice what a certificate has to exclude?

Run alone it first tries itself on texts by hand, and then checks the lemmas that the program crates/speed learns from
random formulas, where the gate left it. What such a search comes to is held against all assignments of the few variables, and so is
each lemma that is still accepted after one hint of it was changed. A number on the command line asks for as many formulas. The
status is 1 where something is wrong.
"""
import itertools
import os
import random
import re
import subprocess
import sys
from typing import NamedTuple

TOP = os.path.dirname(os.path.dirname(os.path.abspath(__file__)))
PROGRAM = os.path.join(TOP, "crates", "speed", "out", "speed")
GREATEST = 4_294_967_295


class Clause(NamedTuple):
    """At least one of these literals is true; a literal is its variable's number, with a minus where it is negative."""

    lits: tuple


class Group(NamedTuple):
    """At most one of these variables is true."""

    variables: tuple


class Formula(NamedTuple):
    variables: int
    constraints: tuple


class Lemma(NamedTuple):
    lits: tuple
    hints: tuple


class Block(NamedTuple):
    place: int
    variable: int
    hints: tuple


class Place(NamedTuple):
    """A place of a walk: the variables of its interface's candidates in rank order, and which of them is chosen, or None."""

    variables: tuple
    chosen: object


class BadText(Exception):
    """No proof text: the first line, from 1, up to which no right text begins so."""

    def __init__(self, line):
        super().__init__(f"bad at line {line}")
        self.line = line


# The text.

NUMBER = rb"[1-9][0-9]{0,9}"
LEMMA = re.compile(rb"l((?: -?" + NUMBER + rb")*) 0((?: " + NUMBER + rb")*) 0")
BLOCK = re.compile(rb"b (" + NUMBER + rb") (" + NUMBER + rb")((?: " + NUMBER + rb")*) 0")


def numbers_of(words):
    """The numbers of words, or None where one of them is too great."""
    numbers = tuple(int(word) for word in words.split())
    return numbers if all(abs(number) <= GREATEST for number in numbers) else None


def lemma_of(line):
    found = LEMMA.fullmatch(line)
    parts = [numbers_of(words) for words in found.groups()] if found else [None]
    return None if None in parts else Lemma(*parts)


def block_of(line):
    found = BLOCK.fullmatch(line)
    parts = [numbers_of(words) for words in found.groups()] if found else [None]
    return None if None in parts else Block(*parts[0], *parts[1], parts[2])


def read(text):
    """The lemmas and blocks of a proof text; BadText where it is none."""
    lines = text.split(b"\n")
    whole = len(lines) - 1  # what stands behind the last LF is no whole line
    lemmas, blocks = [], []
    for number, line in enumerate(lines[:whole], 1):
        if number == 1:
            if line != b"zi-proof 1":
                raise BadText(number)
        elif line == b"e":
            if text != b"\n".join(lines[:number]) + b"\n":
                raise BadText(number + 1)
            return lemmas, blocks
        elif not blocks and lemma_of(line):
            lemmas.append(lemma_of(line))
        elif block_of(line):
            blocks.append(block_of(line))
        else:
            raise BadText(number)
    raise BadText(whole + 1)


def written(lemmas, blocks=()):
    lines = ["zi-proof 1"]
    lines += [" ".join(["l", *map(str, m.lits), "0", *map(str, m.hints), "0"]) for m in lemmas]
    lines += [" ".join(["b", str(b.place), str(b.variable), *map(str, b.hints), "0"]) for b in blocks]
    return "".join(line + "\n" for line in [*lines, "e"]).encode()


# Walking hints. What is known is a set of literals that are taken as true.


def makes(known, constraint):
    """What a hint makes true: a list, None for the contradiction, or the word `fails`."""
    if isinstance(constraint, Group):
        true = [x for x in constraint.variables if x in known]
        if len(true) == 1:
            return [-x for x in constraint.variables if x not in known and -x not in known]
        return None if true else "fails"
    standing = [l for l in constraint.lits if -l not in known]
    if not standing:
        return None
    return standing if len(standing) == 1 and standing[0] not in known else "fails"


class Citable:
    """What hints may cite, by numbers: the constraints from 1, and after them the lemmas so far."""

    def __init__(self, formula):
        self.formula = formula
        self.all = [None, *formula.constraints]

    def add(self, lemma):
        self.all.append(Clause(lemma.lits))

    def of(self, hint):
        return self.all[hint] if 1 <= hint < len(self.all) else None

    def are_within(self, lits):
        return all(1 <= abs(l) <= self.formula.variables for l in lits)

    def steps(self, assumed, hints):
        """What each hint but the last makes true, where the hints are accepted from the literals assumed; else None."""
        known = set(assumed)
        if not self.are_within(assumed) or any(-l in known for l in assumed):
            return None
        steps = []
        for number, hint in enumerate(hints, 1):
            made = makes(known, self.of(hint)) if self.of(hint) else "fails"
            if made is None:
                return steps if number == len(hints) else None
            if made == "fails":
                return None
            known.update(made)
            steps.append(made)
        return None

    def accepts(self, assumed, hints):
        return self.steps(assumed, hints) is not None

    def uses(self, hint, lit):
        constraint = self.of(hint)
        return lit in constraint.variables if isinstance(constraint, Group) else -lit in constraint.lits

    def is_used(self, hints, lit):
        return any(self.uses(hint, lit) for hint in hints)

    def is_lean(self, lemma):
        """Of a lemma that is accepted."""
        if not all(self.is_used(lemma.hints, -l) for l in lemma.lits):
            return False
        steps = self.steps(opposites(lemma.lits), lemma.hints)
        return all(any(self.is_used(lemma.hints[i + 1 :], l) for l in made) for i, made in enumerate(steps))


def opposites(lits):
    return [-l for l in lits]


def first_wrong(formula, lemmas):
    """The place, from 0, of the first lemma that isn't accepted; None where they follow."""
    citable = Citable(formula)
    for place, lemma in enumerate(lemmas):
        if not citable.accepts(opposites(lemma.lits), lemma.hints):
            return place
        citable.add(lemma)
    return None


def follow(formula, lemmas):
    return first_wrong(formula, lemmas) is None


def are_lean(formula, lemmas):
    """Of lemmas that follow."""
    citable = Citable(formula)
    for lemma in lemmas:
        if not citable.is_lean(lemma):
            return False
        citable.add(lemma)
    return True


class Contained:
    """Sets of literals, and whether one of them is contained in others; each stands under one of its literals."""

    def __init__(self):
        self.under = {}
        self.has_empty = False

    def add(self, lits):
        self.has_empty |= not lits
        if lits:
            self.under.setdefault(lits[0], []).append(frozenset(lits))

    def is_in(self, lits):
        all_lits = set(lits)
        return self.has_empty or any(inner <= all_lits for l in lits for inner in self.under.get(l, ()))


def are_fresh(formula, lemmas):
    clauses, earlier = Contained(), Contained()
    for constraint in formula.constraints:
        if isinstance(constraint, Clause):
            clauses.add(constraint.lits)
    for lemma in lemmas:
        if earlier.is_in(lemma.lits) or (lemma.lits and clauses.is_in(lemma.lits)):
            return False
        earlier.add(lemma.lits)
    return True


def refutes(formula, lemmas, blocks):
    return not blocks and bool(lemmas) and not lemmas[-1].lits and follow(formula, lemmas)


def wanted_blocks(places):
    """For each block that a choice asks for its place, its variable and the literals taken as true."""
    earlier = []
    for number, place in enumerate(places, 1):
        passed_over = place.variables if place.chosen is None else place.variables[: place.variables.index(place.chosen)]
        for variable in passed_over:
            yield number, variable, [*earlier, variable]
        earlier += opposites(place.variables) if place.chosen is None else [place.chosen]


def excludes(formula, places, lemmas, blocks):
    """Whether the lemmas follow and the blocks are exactly those for the walk of a choice; that the choice is valid stands apart."""
    wanted = list(wanted_blocks(places))
    if not follow(formula, lemmas) or [(b.place, b.variable) for b in blocks] != [(place, variable) for place, variable, _ in wanted]:
        return False
    citable = Citable(formula)
    for lemma in lemmas:
        citable.add(lemma)
    return all(citable.accepts(assumed, b.hints) for b, (_, _, assumed) in zip(blocks, wanted))


# Models, by going through all assignments; for a few variables.


def is_true(constraint, true):
    if isinstance(constraint, Group):
        return sum(x in true for x in constraint.variables) < 2
    return any(l in true for l in constraint.lits)


def assignments(variables):
    for signs in itertools.product((1, -1), repeat=variables):
        yield {sign * x for x, sign in enumerate(signs, 1)}


def models(formula):
    return [true for true in assignments(formula.variables) if all(is_true(c, true) for c in formula.constraints)]


# Texts and formulas by hand.

GOOD = b"zi-proof 1\nl 1 -2 0 3 4 0\nl 0 0\nb 1 2 3 0\nb 2 7 0\ne\n"

# each text, and the line at which it is bad
TEXTS = (
    (b"", 1),
    (b"zi-proof 1", 1),
    (b"zi-proof 1\n", 2),
    (b"zi-proof 2\ne\n", 1),
    (b"zi-proof 1\r\ne\n", 1),
    (b"zi-proof 1\ne", 2),
    (b"zi-proof 1\ne\n\n", 3),
    (b"zi-proof 1\ne\ne\n", 3),
    (b"zi-proof 1\ne\nx", 3),
    (b"zi-proof 1\n\ne\n", 2),
    (b"zi-proof 1\nl 1 0 1 0\nl 0 0", 3),
    (b"zi-proof 1\nl 1 0\ne\n", 2),
    (b"zi-proof 1\nl 1 0 0 0\ne\n", 2),
    (b"zi-proof 1\nl 1  0 1 0\ne\n", 2),
    (b"zi-proof 1\nl 1 0 1 0 \ne\n", 2),
    (b"zi-proof 1\nl 01 0 1 0\ne\n", 2),
    (b"zi-proof 1\nl -0 0 1 0\ne\n", 2),
    (b"zi-proof 1\nl +1 0 1 0\ne\n", 2),
    (b"zi-proof 1\nl 1 0 -1 0\ne\n", 2),
    (b"zi-proof 1\nl 4294967296 0 1 0\ne\n", 2),
    (b"zi-proof 1\nl 1 0 4294967296 0\ne\n", 2),
    (b"zi-proof 1\nb 1 1 1 0\nl 1 0 1 0\ne\n", 3),
    (b"zi-proof 1\nb 0 1 1 0\ne\n", 2),
    (b"zi-proof 1\nb 1 0 1 0\ne\n", 2),
    (b"zi-proof 1\nb 1 -1 1 0\ne\n", 2),
    (b"zi-proof 1\nb 1 1 1\ne\n", 2),
    (b"zi-proof 1\nx\ne\n", 2),
)

# a chain: 1, 1 to 2, 2 to 3, not 3; and two groups
CHAIN = Formula(5, (Clause((1,)), Clause((-1, 2)), Clause((-2, 3)), Clause((-3,)), Group((1, 4)), Group((3, 4, 5))))

# for each list of lemmas whether they follow, and then whether they are fresh and whether they are lean
LOGS = (
    ([((), (1, 2, 3, 4))], (True, True, True)),
    # a hint that is left out, one too many, two exchanged, none at all, one behind the contradiction, numbers out of range
    ([((), (1, 3, 4))], (False,)),
    ([((), (1, 1, 2, 3, 4))], (False,)),
    ([((), (2, 1, 3, 4))], (False,)),
    ([((), ())], (False,)),
    ([((), (1, 2, 3))], (False,)),
    ([((), (1, 2, 3, 4, 5))], (False,)),
    ([((), (1, 2, 3, 7))], (False,)),
    ([((), (7,))], (False,)),
    ([((6,), (1, 2, 3, 4))], (False,)),
    ([((2, -2), (1, 2, 3, 4))], (False,)),
    # 2, by 1 and the second clause: lean; and then 3, by that lemma, which has the number 7
    ([((2,), (1, 2))], (True, True, True)),
    ([((2,), (1, 2)), ((3,), (7, 3))], (True, True, True)),
    ([((2,), (1, 2)), ((3,), (3, 7))], (True, True, True)),
    ([((3,), (7, 3)), ((2,), (1, 2))], (False,)),
    ([((2,), (1, 7))], (False,)),
    # the literal 5 has no part in it; the first hint makes nothing that is used
    ([((2, 5), (1, 2))], (True, True, False)),
    ([((-3,), (1, 4))], (True, False, False)),
    ([((-3, -1), (4,))], (True, False, False)),
    # it holds a clause; it holds an earlier lemma; it is one once more
    ([((-1, 2), (2,))], (True, False, True)),
    ([((2,), (1, 2)), ((2, 3), (7,))], (True, False, False)),
    ([((2,), (1, 2)), ((2,), (1, 2))], (True, False, True)),
    ([((), (1, 2, 3, 4)), ((), (1, 2, 3, 4))], (True, False, True)),
    # a group: not 4, since 1; its hint makes two variables false at once; used twice in one walk
    ([((-4,), (1, 5))], (True, True, True)),
    ([((-4, -5), (6,))], (True, True, True)),
    ([((-3, -4), (6,))], (True, False, True)),
    ([((-3,), (6,))], (False,)),
    ([((-4,), (5, 1))], (True, True, True)),
    ([((-4,), (5, 5, 1))], (True, True, False)),
    ([((-5,), (1, 2, 3, 6))], (True, True, True)),
    # a literal that stands twice counts as two that are undecided
    ([((2, 2), (1, 2))], (True, True, True)),
    ([((2, 2), (1, 2)), ((3,), (7, 3))], (False,)),
)

# Three interfaces: the root 1; candidates 2, 3; candidates 4, 5. The root needs both, 2 goes with none of the third, 3 with 5 alone.
NEEDS = Formula(
    6,
    (Clause((1,)), Group((2, 3)), Group((4, 5)), Clause((-1, 2, 3)), Clause((-1, 4, 5)), Clause((-2, -4)), Clause((-2, -5)), Clause((-3, -4))),
)
WALK = (Place((1,), 1), Place((2, 3), 3), Place((4, 5), 5))


def certificate(*blocks):
    return [Block(*block) for block in blocks]


# certificates for that walk, and whether they exclude
CERTIFICATES = (
    # the root is taken as true already, so a hint that makes it true fails
    (WALK, [], certificate((2, 2, (1, 6, 5, 7)), (3, 4, (8,))), False),
    (WALK, [], certificate((2, 2, (6, 5, 7)), (3, 4, (8,))), True),
    (WALK, [], certificate((2, 2, (6, 7, 5)), (3, 4, (8,))), True),
    (WALK, [((-2,), (1, 6, 5, 7))], certificate((2, 2, (9,)), (3, 4, (8,))), True),
    (WALK, [((-2,), (1, 6, 5, 8))], certificate((2, 2, (9,)), (3, 4, (8,))), False),
    (WALK, [], certificate((2, 2, (6, 5, 8)), (3, 4, (8,))), False),
    (WALK, [], certificate((3, 4, (8,)), (2, 2, (6, 5, 7))), False),
    (WALK, [], certificate((2, 2, (6, 5, 7))), False),
    (WALK, [], certificate((2, 2, (6, 5, 7)), (3, 4, (8,)), (3, 4, (8,))), False),
    (WALK, [], certificate((2, 3, (6, 5, 7)), (3, 4, (8,))), False),
    (WALK, [], certificate((1, 2, (6, 5, 7)), (3, 4, (8,))), False),
    # where none is chosen every candidate has its block, and is false for the later places
    ((Place((1,), 1), Place((2, 3), None)), [], certificate((2, 2, (6, 5, 7)), (2, 3, (5, 8))), False),
    ((Place((1,), 1), Place((), None)), [], [], True),
    ((Place((1,), 1), Place((2,), None), Place((3, 4), 3)), [], certificate((2, 2, (6, 5, 7))), True),
    ((Place((1,), 1), Place((2,), None), Place((4, 3), 3)), [], certificate((2, 2, (6, 5, 7)), (3, 4, (4, 8))), True),
    ((Place((1,), 1), Place((2,), None), Place((4, 3), 3)), [], certificate((2, 2, (6, 5, 7)), (3, 4, (4, 2))), False),
    # a block that takes a literal and its opposite as true
    ((Place((1,), 1), Place((2,), None), Place((2, 3), 3)), [], certificate((2, 2, (6, 5, 7)), (3, 2, (6, 5, 7))), False),
)


def bad_line(text):
    try:
        read(text)
    except BadText as bad:
        return bad.line
    return None


def wrong_by_hand():
    """What the checker says otherwise than it should of texts, lemmas and certificates by hand."""
    lemmas, blocks = read(GOOD)
    if written(lemmas, blocks) != GOOD or lemmas != [Lemma((1, -2), (3, 4)), Lemma((), ())] or blocks != [Block(1, 2, (3,)), Block(2, 7, ())]:
        yield "a right text is read otherwise"
    for text, line in TEXTS:
        if bad_line(text) != line:
            yield f"{text!r} is bad at line {bad_line(text)}, not {line}"
    for log, wanted in LOGS:
        log = [Lemma(*lemma) for lemma in log]
        is_ = (follow(CHAIN, log),)
        is_ += (are_fresh(CHAIN, log), are_lean(CHAIN, log)) if is_[0] else ()
        if is_ != wanted:
            yield f"{log}: {is_}, not {wanted}"
    refutation = [Lemma((), (1, 2, 3, 4))]
    if not refutes(CHAIN, refutation, []) or refutes(CHAIN, refutation, [Block(1, 1, (1,))]) or refutes(CHAIN, [], []):
        yield "a refutation is told from others wrongly"
    if refutes(CHAIN, [Lemma((2,), (1, 2))], []) or refutes(CHAIN, [*refutation, Lemma((2,), (1, 2))], []):
        yield "a refutation ends with a lemma that has a literal"
    for places, log, blocks, wanted in CERTIFICATES:
        if excludes(NEEDS, places, [Lemma(*lemma) for lemma in log], blocks) != wanted:
            yield f"{places}, {log}, {blocks}: not {wanted}"


# Random formulas, and what the search makes of them.


def random_formula(chance):
    """Clauses and groups; of clauses about as many as leave half of such formulas with a model, or sums of three by two, which take
    more lemmas."""
    n = chance.randint(1, 12)
    constraints = []
    by_twos = n >= 3 and chance.random() < 0.4
    for _ in range(round(n * (chance.uniform(0.7, 1.3) if by_twos else chance.uniform(2, 6)))):
        if chance.random() < 0.1:
            constraints.append(Group(tuple(chance.sample(range(1, n + 1), min(n, chance.randint(0, 4))))))
        elif by_twos:
            constraints += odd_sum(*chance.sample(range(1, n + 1), 3), chance.choice((1, -1)))
        else:
            size = chance.choice((2, 3, 3, 3, 3, 3, 4)) if chance.random() < 0.99 else chance.randint(0, 1)
            lits = [chance.choice((1, -1)) * chance.randint(1, n) for _ in range(size)]
            constraints.append(Clause(tuple(dict.fromkeys(lits))))
    return Formula(n, tuple(constraints))


def odd_sum(x, y, z, sign):
    """Of three variables an odd number is true, or with the other sign an even one."""
    return [Clause((sign * a * x, a * b * y, b * z)) for a in (1, -1) for b in (1, -1)]


def dimacs(formula):
    lines = [f"p cnf {formula.variables} {len(formula.constraints)}"]
    for constraint in formula.constraints:
        is_group = isinstance(constraint, Group)
        lines.append(" ".join([*(["g"] if is_group else []), *map(str, constraint.variables if is_group else constraint.lits), "0"]))
    return "".join(line + "\n" for line in lines).encode()


def changed(lemmas, chance, greatest):
    """The lemmas with one hint changed, left out or put in."""
    place = chance.randrange(len(lemmas))
    lits, hints = lemmas[place]
    at = chance.randrange(len(hints))
    instead = chance.choice(((), (chance.randint(1, greatest),), (chance.randint(1, greatest),), (hints[at], chance.randint(1, greatest))))
    return [*lemmas[:place], Lemma(lits, (*hints[:at], *instead, *hints[at + 1 :])), *lemmas[place + 1 :]]


def wrong_change(formula, lemmas, true_in, chance):
    """Lemmas that are accepted with one hint changed although one of them isn't so; else how many changes were refused."""
    refused = 0
    for _ in range(4):
        other = changed(lemmas, chance, len(formula.constraints) + len(lemmas) + 1)
        if not follow(formula, other):
            refused += 1
        elif not all(is_true(Clause(m.lits), true) for m in other for true in true_in):
            return other
    for place, lemma in enumerate(lemmas):
        shorter = [*lemmas[:place], Lemma(lemma.lits, lemma.hints[:-1]), *lemmas[place + 1 :]]
        if first_wrong(formula, shorter) != place:
            return shorter
    return refused


def wrong_in(formula, true_in, found, text, budget):
    """What is wrong with the end of a search and its lemmas, or None."""
    try:
        lemmas, blocks = read(text)
    except BadText as bad:
        return str(bad)
    if blocks or not follow(formula, lemmas):
        return f"lemma {first_wrong(formula, lemmas)} doesn't follow"
    if not are_fresh(formula, lemmas) or not are_lean(formula, lemmas):
        return "not fresh" if not are_fresh(formula, lemmas) else "not lean"
    if found == "spent":
        return None if len(lemmas) == budget and all(m.lits for m in lemmas) else "spent with other lemmas"
    if (found, bool(true_in)) not in (("model", True), ("refuted", False)):
        return f"{found} with {len(true_in)} models"
    if refutes(formula, lemmas, blocks) != (found == "refuted"):
        return f"{found}, and the lemmas say otherwise"
    return None


def searched(formula, budget):
    """What the program comes to, and the proof text that it writes."""
    done = subprocess.run([PROGRAM, "search", str(budget)], input=dimacs(formula), stdout=subprocess.PIPE, check=True, timeout=300)
    found, text = done.stdout.split(b"\n", 1)
    return found.decode(), text


def check_search(many):
    """Checks so many searches; how many were wrong."""
    counts = dict.fromkeys(("model", "refuted", "spent", "lemmas", "refused", "tried", "wrong"), 0)
    for number in range(many):
        chance = random.Random(number)
        formula = random_formula(chance)
        budget = chance.randint(0, 3) if chance.random() < 0.25 else 100_000
        true_in = models(formula)
        found, text = searched(formula, budget)
        wrong = wrong_in(formula, true_in, found, text, budget)
        lemmas = [] if wrong else read(text)[0]
        if lemmas:
            refused = wrong_change(formula, lemmas, true_in, chance)
            wrong = None if isinstance(refused, int) else f"accepted with a hint changed: {refused}"
            counts["refused"] += 0 if wrong else refused
            counts["tried"] += 4
        if wrong:
            print(f"formula {number}: {wrong}\n{dimacs(formula).decode()}{found}\n{text.decode()}")
        counts["wrong"] += wrong is not None
        counts["lemmas"] += len(lemmas)
        counts[found] += 1
    print(
        f"{many} formulas: {counts['model']} with a model, {counts['refuted']} refuted, {counts['spent']} spent, {counts['lemmas']} lemmas; "
        f"{counts['refused']} of {counts['tried']} with a hint changed refused; {counts['wrong']} wrong"
    )
    return counts["wrong"]


def main():
    wrong = list(wrong_by_hand())
    for what in wrong:
        print(what)
    print(f"{len(TEXTS)} texts, {len(LOGS)} lists of lemmas and {len(CERTIFICATES)} certificates by hand: {len(wrong)} judged wrongly")
    failed = len(wrong)
    if os.path.exists(PROGRAM):
        failed += check_search(int(sys.argv[1]) if len(sys.argv) > 1 else 500)
    else:
        print("crates/speed/out/speed isn't there: no search is checked")
    sys.exit(1 if failed else 0)


if __name__ == "__main__":
    main()

#!/usr/bin/env python3
"""Checks certificates and refutations of programs by the checker of proofs.py, over feeds as universes.py reads them.

First come certificates by hand, over feeds by hand. Then the program crates/zi/out/zi is asked for those of random programs and of the
demonstration (programs.py), where it writes any yet: each is to exclude for the best choice by the rules, or to refute where no choice is valid,
its lemmas, which are the log of the search, are to be fresh and lean, and with one hint changed the program's own judgement, where it has the command for it, is to be the checker's. A number on the command
line asks for as many. The status is 1 where something is wrong.
"""
import os
import random
import subprocess
import sys
import tempfile

import proofs
import universes
from programs import NS, Demonstration, Program, tag
from universes import Asked

TOP = os.path.dirname(os.path.dirname(os.path.abspath(__file__)))
PROGRAM = os.environ.get("ZI_PROGRAM", os.path.join(TOP, "crates", "zi", "out", "zi"))
DONE, USAGE, NO_SOLUTION, REJECTED, NOT_BUILT = 0, 64, 73, 78, 95
DEMONSTRATIONS = (1, 10, 40)
SECONDS = 300


def impl(id_, version, inside="", **said):
    return tag("implementation", {"id": id_, "version": version, "local-path": ".", **said}, inside)


def requires(name, **said):
    return tag("requires", {"interface": f"{name}.xml", **said})


RUN_BY_PY = tag("command", {"name": "run", "path": "p"}, tag("runner", {"interface": "py.xml"}))

# what stands in each feed, the command, the ids of the best choice, and texts with whether they show it
ROWS = (
    # nothing at all
    ({"root": ""}, None, {}, {"l 0 1 0": True, "l 0 0": False, "l 0 2 0": False}),
    # a 2 needs what isn't there
    ({"root": impl("a", 2, requires("l", version="3..")) + impl("b", 1), "l": impl("c", 2)}, None, {"root": "b"}, {"b 1 1 3 0": True, "b 1 1 2 0": False, "": False}),
    # the library's first version isn't admitted
    ({"root": impl("a", 2, requires("l", version="..!2")), "l": impl("m", 2) + impl("n", "1.9")}, None, {"root": "a", "l": "n"}, {"b 2 2 2 3 0": True, "b 2 2 3 0": False}),
    # 64 bits don't go with 32
    (
        {"root": impl("w", 2, requires("l"), arch="Linux-x86_64") + impl("n", 1, requires("l"), arch="Linux-i686"), "l": impl("l", 1, arch="Linux-i586")},
        None,
        {"root": "n", "l": "l"},
        {"b 1 1 3 4 7 0": True, "b 1 1 4 3 7 0": True, "b 1 1 3 7 0": False},
    ),
    # the runner lacks the command
    ({"root": impl("x", 1, RUN_BY_PY), "py": impl("y", 1)}, "run", {}, {"l 0 1 2 4 5 0": True, "l 0 1 2 5 0": False}),
    # it has it, in its second version
    (
        {"root": impl("x", 1, RUN_BY_PY), "py": impl("y", 2) + impl("z", 1, main="m")},
        "run",
        {"root": "x", "py": "z"},
        {"b 2 2 2 6 0": True, "b 2 2 2 3 0": False},
    ),
    # what is recommended can't be had: none is chosen, and its one candidate has a block
    ({"root": impl("a", 1, requires("l", version="5..", importance="recommended")), "l": impl("l", 2)}, None, {"root": "a"}, {"b 2 2 2 0": True, "": False}),
)


def judge(universe, asked, choice, text):
    """Whether a text is a certificate for a choice, or a refutation where there is none."""
    lemmas, blocks = proofs.read(text)
    formula = universes.formula(universe, asked)
    if choice is None:
        return proofs.refutes(formula, lemmas, blocks)
    return universes.is_valid(choice, asked) and proofs.excludes(formula, list(universes.places(universe, choice, asked)), lemmas, blocks)


def wrong_by_hand(folder):
    for feeds, command, ids, texts in ROWS:
        for name, inside in feeds.items():
            with open(os.path.join(folder, f"{name}.xml"), "w", encoding="utf-8") as file:
                file.write(f'<interface xmlns="{NS}">{inside}</interface>')
        asked = Asked(os.path.join(folder, "root.xml"), command)
        universe = universes.load(asked)
        choice = universes.best(universe, asked)
        chosen = {os.path.basename(uri)[:-4]: c.id for uri, c in (choice or {}).items() if c}
        if chosen != ids:
            yield f"{feeds}: {chosen} is chosen, not {ids}"
        for line, wanted in texts.items():
            text = "".join(f"{part}\n" for part in ["zi-proof 1", *filter(None, [line]), "e"]).encode()
            if judge(universe, asked, choice, text) != wanted:
                yield f"{feeds}: {line!r} isn't {wanted}"


def run(*words):
    done = subprocess.run([PROGRAM, *words], stdout=subprocess.PIPE, stderr=subprocess.DEVNULL, timeout=SECONDS)
    return done.returncode, done.stdout


def changed(text, chance):
    """The text with one hint changed, or None where it has none."""
    lemmas, blocks = proofs.read(text)
    parts = [*lemmas, *blocks]
    with_hints = [i for i, part in enumerate(parts) if part.hints]
    if not with_hints:
        return None
    i = chance.choice(with_hints)
    hints = list(parts[i].hints)
    hints[chance.randrange(len(hints))] = chance.randint(1, 60)
    parts[i] = parts[i]._replace(hints=tuple(hints))
    return proofs.written(parts[: len(lemmas)], parts[len(lemmas) :])


def checks_choices():
    """Whether the program knows the words by which the certificate of a choice is checked."""
    return b"\nzi check " in run("--help")[1]


def judged_here(words, root, choice, text, folder):
    """Whether the program accepts a text: `check` with the document that it selects itself, or `refute`."""
    proof = os.path.join(folder, "proof")
    with open(proof, "wb") as file:
        file.write(text)
    if choice is None:
        status, _ = run("refute", *words, root, proof)
    else:
        selections = os.path.join(folder, "selections")
        with open(selections, "wb") as file:
            file.write(run("select", *words, root)[1])
        status, _ = run("check", *words, root, selections, proof)
    return {DONE: True, REJECTED: False}.get(status, f"status {status}")


def wrong_of(asked, options, choice, folder):
    """What is wrong with what the program writes where a choice is the best, or none is valid; or None."""
    chance = random.Random(os.path.basename(folder))
    words = [*(["--no-command"] if asked.command is None else ["--command", asked.command]), *options]
    universe = universes.load(asked)
    status, text = run("select", "--proof", *words, asked.root)
    if status != (NO_SOLUTION if choice is None else DONE):
        return f"status {status}"
    if not judge(universe, asked, choice, text):
        return f"not accepted: {text}"
    formula, (lemmas, _) = universes.formula(universe, asked), proofs.read(text)
    if not proofs.are_fresh(formula, lemmas):
        return f"not fresh: {text}"
    if not proofs.are_lean(formula, lemmas):
        return f"not lean: {text}"
    if choice is not None and not checks_choices():
        return None
    for other in filter(None, [text, *(changed(text, chance) for _ in range(3))]):
        here = judged_here(words, asked.root, choice, other, folder)
        if here != judge(universe, asked, choice, other):
            return f"{here} here, and otherwise by the checker: {other}"
    return None


def wrong_of_random(number, folder):
    options, asked = Program(number).write(folder)
    return wrong_of(asked, options, universes.best(universes.load(asked), asked), folder)


def wrong_of_demonstration(number, folder):
    demonstration = Demonstration(number, folder)
    demonstration.write()
    asked = Asked(demonstration.address("root"))
    ids = demonstration.chosen()
    choice = {uri: next(c for c in candidates if c.id == ids[uri]) for uri, candidates in universes.load(asked)}
    return wrong_of(asked, [], choice, folder)


def check(what, numbers, wrong_of_number, top):
    wrong = 0
    for done, number in enumerate(numbers):
        folder = os.path.join(top, f"{what} {number}")
        os.mkdir(folder)
        found = wrong_of_number(number, folder)
        if found:
            wrong += 1
            print(f"{what} {number}: {found}")
        if (done + 1) % 100 == 0:
            print(f"{done + 1} of {len(numbers)} {what}", flush=True)
    print(f"{len(numbers)} {what}: {wrong} wrong")
    return wrong


def writes_proofs(folder):
    """Whether the program knows the words for them, and chooses for programs that need others; it says so itself where not yet."""
    root = os.path.join(folder, "root.xml")
    return run("select", "--proof", "--no-command", root)[0] not in (USAGE, NOT_BUILT)


def main():
    with tempfile.TemporaryDirectory(prefix="zi-certificates-") as top:
        wrong = list(wrong_by_hand(top))
        for what in wrong:
            print(what)
        print(f"{sum(len(row[-1]) for row in ROWS)} certificates and refutations by hand: {len(wrong)} judged wrongly")
        failed = len(wrong)
        if not os.path.exists(PROGRAM):
            print("crates/zi/out/zi isn't there: run the gate first")
        elif not writes_proofs(top):
            print("the program writes no certificates yet: none of it is checked")
        else:
            failed += check("random programs", range(int(sys.argv[1]) if len(sys.argv) > 1 else 500), wrong_of_random, top)
            failed += check("demonstrations", DEMONSTRATIONS, wrong_of_demonstration, top)
    sys.exit(1 if failed else 0)


if __name__ == "__main__":
    main()

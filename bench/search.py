#!/usr/bin/env python3
"""The lemmas and the time of the search, beside minisat and cadical on the same formulas and `0install select` on the same feeds in the same run.

Run it after `rt ci`, which builds the programs. The formulas are pigeons in too few holes, and
random clauses of three literals, 4.26 for each variable, where about half of the formulas have a model. Pigeons in one hole are a
group here and a clause for each pair of them for the other solvers, which know no groups; for these a conflict is what a lemma is
here. The program decides the variables in order and never begins anew, so what it needs says how it learns, not how it guesses.
The random formulas are numbered for all of them by how many clauses a variable stands in, the most first: the program takes what order
it is given. All answers are to agree; a run that takes longer than twenty seconds is given up.

Then come feeds: the demonstration, whose formula the other solvers get too, and programs without a solution, pigeons and three of them
behind forty choices that have nothing to do with them. There `select --proof` tells the lemmas. 0install is given up after two minutes.

Last come webs at random, with a solution and without one, near the edge between the two, where they are hard. The other solvers get their formulas: they find any
model, where the program finds the best choice. A web for which the budget of the command line is spent is told as such; the other solvers and
0install are given up after a minute there. With the word `webs` behind its name the script runs these alone.
"""
import collections
import itertools
import os
import pathlib
import random
import re
import shutil
import statistics
import subprocess
import sys
import tempfile
import time
from typing import NamedTuple

from measure import IS_BUSY, is_given_up, limited, processor_time_of_children, timed_with_peak
from shapes import hard_web, knot, pigeons as pigeons_as_feeds, theirs_on, write_feeds

sys.path.append(str(pathlib.Path(__file__).resolve().parent.parent / "tests"))
import proofs
import universes
from programs import Demonstration

SECONDS = 20
BUDGET = 1_000_000
SEEDS = 20
PIGEONS = (8, 9)
VARIABLES = (100, 150)
RATIO = 4.26
TOP = pathlib.Path(__file__).resolve().parent.parent
PROGRAM = pathlib.Path(os.environ.get("SPEED_PROGRAM", TOP / "crates/speed/out/speed"))
ZI = os.environ.get("ZI_PROGRAM", str(TOP / "crates/zi/out/zi"))
DEMONSTRATIONS = (10, 20, 40, 80, 1000)
# what 0install wants of a feed
HEAD = "  <name>n</name>\n  <summary>s</summary>\n"
RUNS = 3
THEIR_SECONDS = 120
DONE, NO_SOLUTION, SPENT = 0, 73, 74
UNSOLVABLE = (("three pigeons in two holes beside 40 choices", knot, 40), ("9 pigeons in 8 holes", pigeons_as_feeds, 9), ("11 pigeons in 10 holes", pigeons_as_feeds, 11))

# interfaces, versions, what each names, the part of the versions that is admitted, the kind, the seed
WEBS = (
    (50, 20, 3, 0.4, "req", 0),
    (50, 20, 3, 0.3, "req", 0),
    (70, 6, 3, 0.5, "req", 0),
    (80, 7, 3, 0.45, "req", 0),
    (100, 6, 3, 0.5, "any", 1),
    (100, 6, 3, 0.5, "req", 0),
    (100, 6, 3, 0.5, "req", 1),
    (100, 8, 3, 0.4, "req", 0),
    (100, 10, 4, 0.5, "any", 0),
    (100, 10, 4, 0.5, "any", 1),
    (200, 6, 2.5, 0.5, "req", 1),
    (300, 6, 2.25, 0.5, "req", 0),
    (100, 20, 3, 0.3, "any", 0),
)
WEB_SECONDS = 120
THEIR_WEB_SECONDS = 60

# the other solvers: what they are called with before the formula, and where they tell their conflicts
OTHERS = {
    "minisat": (["minisat", "-verb=1"], re.compile(r"^conflicts\s*:\s*(\d+)", re.M)),
    "cadical": (["cadical", "-n"], re.compile(r"^c conflicts:\s*(\d+)", re.M)),
}
ANSWERS = {10: "model", 20: "refuted"}
# how they end where their time is over
ENDED = (0, 1)


def dimacs(variables, clauses, groups=()):
    lines = [f"p cnf {variables} {len(clauses) + len(groups)}"]
    lines += [" ".join(map(str, [*clause, 0])) for clause in clauses]
    lines += [" ".join(map(str, ["g", *group, 0])) for group in groups]
    return "\n".join(lines) + "\n"


def pigeons(count):
    """So many pigeons in one hole fewer: the formula for the program, and for the others."""
    holes = count - 1
    clauses = [range(i * holes + 1, (i + 1) * holes + 1) for i in range(count)]
    groups = [range(j + 1, count * holes + 1, holes) for j in range(holes)]
    pairs = [(-x, -y) for group in groups for x, y in itertools.combinations(group, 2)]
    return dimacs(count * holes, clauses, groups), dimacs(count * holes, clauses + pairs)


def threes(variables, seed):
    """Random clauses of three literals, in which the first variables stand most often."""
    chance = random.Random(f"{variables} {seed}")
    drawn = [chance.sample(range(1, variables + 1), 3) for _ in range(round(RATIO * variables))]
    often = collections.Counter(itertools.chain.from_iterable(drawn))
    numbers = {x: number for number, (x, _) in enumerate(often.most_common(), 1)}
    text = dimacs(variables, [[numbers[x] * chance.choice((1, -1)) for x in clause] for clause in drawn])
    return text, text


class Run(NamedTuple):
    out: str
    status: int
    taken: float
    error: str


def timed(words, seconds=SECONDS, **given):
    """What a run wrote, its status and its time (processor time, where the variable ZI_BUSY is set); None where it takes more processor time."""
    start, used = time.perf_counter(), processor_time_of_children()
    done = subprocess.run(words, stdout=subprocess.PIPE, stderr=subprocess.PIPE, text=True, preexec_fn=limited(seconds), **given)
    if is_given_up(done.returncode):
        return None
    taken = processor_time_of_children() - used if IS_BUSY else time.perf_counter() - start
    return Run(done.stdout, done.returncode, taken, done.stderr)


def ours(text):
    """The answer, the number of lemmas and the time of the program, or None."""
    run = timed([PROGRAM, "search", str(BUDGET)], input=text)
    if run is None:
        return None
    out, status, taken, _ = run
    if status != 0 or out.split("\n", 1)[0] not in ("model", "refuted", "spent"):
        sys.exit(f"{PROGRAM}: status {status}, {out[:40]!r}")
    return out.split("\n", 1)[0], out.count("\nl "), taken


def theirs(name, path, seconds=SECONDS):
    words, conflicts = OTHERS[name]
    run = timed([*words, path], seconds)
    if run is None:
        return None
    out, status, taken, _ = run
    if status in ENDED:
        return None
    if status not in ANSWERS:
        sys.exit(f"{name}: status {status}")
    told = conflicts.search(out)
    return ANSWERS[status], int(told.group(1)) if told else 0, taken


def compare(what, formulas, others, folder):
    """Runs all over these formulas, and prints what each solver needed."""
    results = {name: [] for name in ("here", *others)}
    for text, other_text in formulas:
        path = pathlib.Path(folder, "formula.cnf")
        path.write_text(other_text)
        runs = {"here": ours(text), **{name: theirs(name, path) for name in others}}
        answers = {run[0] for run in runs.values() if run and run[0] != "spent"}
        if len(answers) > 1:
            sys.exit(f"{what}: the answers are not the same: {runs}\n{text}")
        for name, run in runs.items():
            results[name].append(run)
    print(what)
    for name, runs in results.items():
        print(f"  {name}: {summary(runs)}", flush=True)


def summary(runs):
    """The sums over the runs that were answered, and the medians where there are several."""
    ended = [run for run in runs if run and run[0] != "spent"]
    spent = sum(bool(run) and run[0] == "spent" for run in runs)
    line = f"{len(ended)} answered, {sum(run[0] == 'refuted' for run in ended)} of them refuted, {spent} spent, {runs.count(None)} given up"
    if ended:
        line += f": {sum(run[1] for run in ended)} lemmas, {sum(run[2] for run in ended):.3f} s"
    if len(ended) > 1:
        line += f"; medians {statistics.median(run[1] for run in ended):.0f}, {statistics.median(run[2] for run in ended):.4f} s"
    return line


def for_others(formula):
    """A formula for solvers that know no groups."""
    clauses = [c.lits for c in formula.constraints if isinstance(c, proofs.Clause)]
    groups = [c.variables for c in formula.constraints if isinstance(c, proofs.Group)]
    return dimacs(formula.variables, clauses + [(-x, -y) for group in groups for x, y in itertools.combinations(group, 2)])


def on_feeds(what, root, folder, status):
    """Prints the lemmas and the time of `select` over these feeds, and how 0install compares."""
    told = subprocess.run([ZI, "select", "--no-command", "--proof", root], stdout=subprocess.PIPE, stderr=subprocess.DEVNULL, text=True)
    taken, _ = timed_with_peak([ZI, "select", "--no-command", root], RUNS, status)
    line = f"{what}\n  here: {told.stdout.count(chr(10) + 'l ')} lemmas, {taken:.4f} s"
    try:
        theirs = theirs_on(folder, root, 1, 1 if status == NO_SOLUTION else 0, THEIR_SECONDS)
    except subprocess.TimeoutExpired:
        print(f"{line}; 0install was given up after {THEIR_SECONDS} s, so it is less than {taken / THEIR_SECONDS:.4f} of its time", flush=True)
        return
    print(line + ("; 0install isn't installed: no ratio to it" if theirs is None else f"; {taken / theirs:.4f} of 0install's time ({theirs:.2f} s)"), flush=True)


def demonstration(count, others):
    """The demonstration as feeds, and its formula for the other solvers."""
    with tempfile.TemporaryDirectory(prefix="zi-bench-") as folder:
        feeds = Demonstration(count, folder, HEAD)
        feeds.write()
        root = feeds.address("root")
        on_feeds(f"the demonstration of {count}", root, folder, DONE)
        asked = universes.Asked(root)
        path = pathlib.Path(folder, "formula.cnf")
        path.write_text(for_others(universes.formula(universes.load(asked), asked)))
        for name in others:
            run = theirs(name, path)
            print(f"  {name}: " + ("given up" if run is None else f"{run[0]}, {run[1]} conflicts, {run[2]:.4f} s"), flush=True)


def unsolvable(what, feeds_of, count):
    """A program without a solution as feeds."""
    with tempfile.TemporaryDirectory(prefix="zi-bench-") as folder:
        root, _ = write_feeds(folder, feeds_of(count))
        on_feeds(f"{what}, as feeds", root, folder, NO_SOLUTION)


def answered(run):
    """Whether a run of another solver found a model."""
    return run and run[0] == "model"


def on_web(others, *numbers):
    """A web as feeds, and its formula for the other solvers. The answers are to agree."""
    count, versions, needs, admitted, kind, seed = numbers
    with tempfile.TemporaryDirectory(prefix="zi-bench-") as folder:
        root, _ = write_feeds(folder, hard_web(*numbers))
        print(f"a web of {count} interfaces by {versions}, {needs} named, {admitted} admitted, {kind}, {seed}")
        told = timed([ZI, "select", "--no-command", "--proof", root], WEB_SECONDS)
        if told is None:
            print(f"  here: given up after {WEB_SECONDS} s", flush=True)
        elif told.status == SPENT:
            print(f"  here: {told.error.strip()}, {told.taken:.3f} s", flush=True)
        elif told.status in (DONE, NO_SOLUTION):
            print(f"  here: {'the best choice' if told.status == DONE else 'no solution'}, {told.out.count(chr(10) + 'l ')} lemmas, {told.taken:.3f} s", flush=True)
        else:
            sys.exit(f"{ZI}: status {told.status}: {told.error.strip()}")
        asked = universes.Asked(root)
        path = pathlib.Path(folder, "formula.cnf")
        path.write_text(for_others(universes.formula(universes.load(asked), asked)))
        for name in others:
            run = theirs(name, path, THEIR_WEB_SECONDS)
            if run and told and told.status != SPENT and answered(run) != (told.status == DONE):
                sys.exit(f"the web {numbers}: the answers are not the same")
            ratio = f", {told.taken / run[2]:.2f} times its time here" if run and told else ""
            print(f"  {name}: " + (f"given up after {THEIR_WEB_SECONDS} s" if run is None else f"{run[0]}, {run[1]} conflicts, {run[2]:.3f} s{ratio}"), flush=True)
        try:
            theirs_taken = theirs_on(folder, root, 1, 1 if told and told.status == NO_SOLUTION else 0, THEIR_WEB_SECONDS)
        except subprocess.TimeoutExpired:
            print(f"  0install: given up after {THEIR_WEB_SECONDS} s", flush=True)
            return
        print("  0install isn't installed: no ratio to it" if theirs_taken is None else f"  0install: {theirs_taken:.2f} s", flush=True)


def main():
    for program in (PROGRAM, pathlib.Path(ZI)):
        if not program.exists():
            sys.exit(f"{program} isn't built: run `rt ci` first")
    others = [name for name in OTHERS if shutil.which(name)]
    missing = [name for name in OTHERS if name not in others]
    if missing:
        print(f"{' and '.join(missing)} not installed: no comparison with {'it' if len(missing) == 1 else 'them'}")
    if sys.argv[1:] != ["webs"]:
        on_known(others)
    for numbers in WEBS:
        on_web(others, *numbers)


def on_known(others):
    """Formulas, the demonstration and programs without a solution."""
    with tempfile.TemporaryDirectory(prefix="zi-bench-") as folder:
        for count in PIGEONS:
            compare(f"{count} pigeons in {count - 1} holes", [pigeons(count)], others, folder)
        for variables in VARIABLES:
            compare(f"{SEEDS} formulas of {variables} variables in threes", [threes(variables, seed) for seed in range(SEEDS)], others, folder)
    for count in DEMONSTRATIONS:
        demonstration(count, others)
    for row in UNSOLVABLE:
        unsolvable(*row)


if __name__ == "__main__":
    main()

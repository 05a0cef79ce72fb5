#!/usr/bin/env python3
"""What the gate costs from nothing: `rt ci` in a fresh clone, by crate and by kind of work.

    bench/gate.py [COMMIT]     HEAD, where no commit is named

Beside the kit `rt ci` keeps what it proved. Where this script may (as root, by `unshare`), it hides that behind an empty folder, so the
run proves all from nothing and leaves no trace; elsewhere it says how many proofs were taken as kept, and the figures are no measure of
the whole. `taskset -c 0,1 bench/gate.py` measures on two processors; RT_JOBS is handed on.

Once a second the processor time of each process below `rt` is read and laid to a crate, and there to its proof, its tests, the check
that its edits begin with, or its edits; what a process did in its last second is missed, and is told as the rest. The total is the
system's own count for `rt` and all that it started. The longest chain is that of libraries each of which waits for the one before it.
The last lines are a table as docs/SPEED.md has it.
"""
import os
import re
import shutil
import subprocess
import sys
import tempfile
import threading
import time

TOP = os.path.dirname(os.path.dirname(os.path.abspath(__file__)))
TICKS = os.sysconf("SC_CLK_TCK")
KINDS = ("proof", "program", "tests", "seed", "edits")
TOLD = 10


def stat_of(pid):
    """A process's parent, start and own processor time in ticks."""
    with open(f"/proc/{pid}/stat", encoding="ascii", errors="replace") as file:
        fields = file.read().rpartition(")")[2].split()
    return int(fields[1]), int(fields[19]), int(fields[11]) + int(fields[12])


def words_of(pid):
    with open(f"/proc/{pid}/cmdline", "rb") as file:
        return file.read().decode(errors="replace").split("\0")


def label_of(words, folder, programs):
    """The crate and the kind of work of a process, by its words and the folder that it runs in; nothing where they don't tell."""
    at = words.index("--crate-name") + 1 if "--crate-name" in words else 0
    crate = words[at] if at else next(iter(re.findall(r"/crates/(\w+)(?:/|$)", folder)), None)
    if crate is None:
        return None
    kept = words[words.index("--incremental") + 1] if "--incremental" in words else ""
    if "/rt-edit-" in folder or "/rt-edits-" in kept or "/rt-edits-" in folder:
        return crate, "seed" if kept.endswith("/seed") else "edits"
    if "--test" in words:
        return crate, "tests"
    return crate, "program" if crate in programs else "proof"


class Sampler(threading.Thread):
    """Reads what the processes below one have used, until it is told to stop."""

    def __init__(self, root, programs):
        super().__init__(daemon=True)
        self.root, self.programs, self.used, self.labels, self.done = root, programs, {}, {}, threading.Event()

    def run(self):
        while not self.done.wait(1):
            self.look()

    def look(self):
        parents, seen = {}, {}
        for name in os.listdir("/proc"):
            if name.isdigit():
                try:
                    parents[int(name)], start, used = stat_of(name)
                    seen[int(name)] = (start, used)
                except (OSError, IndexError, ValueError):
                    pass
        for pid, (start, used) in seen.items():
            chain, at = [], pid
            while at in parents and at != self.root:
                chain.append(at)
                at = parents[at]
            if at == self.root:
                self.used[pid, start] = used
                self.labels[pid, start] = self.labels.get((pid, start)) or next(filter(None, map(self.label, chain)), None)

    def label(self, pid):
        try:
            return label_of(words_of(pid), os.readlink(f"/proc/{pid}/cwd"), self.programs)
        except OSError:
            return None

    def sums(self):
        """Seconds by crate and kind."""
        found = {}
        for key, ticks in self.used.items():
            label = self.labels[key]
            if label:
                found[label] = found.get(label, 0) + ticks / TICKS
        return found


def dependencies(text):
    lines = (line.split("#")[0].strip() for line in text.splitlines())
    parts = (line.partition(":") for line in lines if line)
    return {left.split()[0]: right.split() for left, _, right in parts}


def longest_chain(uses, seconds):
    """The libraries of the dearest chain, and what their proofs take together."""
    best = {}

    def of(crate):
        if crate not in best:
            below = max((of(it) for it in uses[crate] if it in uses), key=lambda it: it[0], default=(0, []))
            best[crate] = below[0] + seconds.get((crate, "proof"), 0), below[1] + [crate]
        return best[crate]

    return max((of(crate) for crate in uses), key=lambda it: it[0])


def kept_folder():
    return os.path.join(os.path.dirname(os.path.dirname(os.path.dirname(os.path.realpath(shutil.which("rt"))))), "rattle-kept")


def command_of(empty):
    """How `rt ci` is called, and whether what was kept is hidden from it."""
    kept = kept_folder()
    os.makedirs(kept, exist_ok=True)
    hidden = ["unshare", "-m", "sh", "-c", 'mount --bind "$1" "$2" && shift 2 && exec "$@"', "sh", empty, kept]
    if shutil.which("unshare") and subprocess.run([*hidden, "true"], stderr=subprocess.DEVNULL, check=False).returncode == 0:
        return [*hidden, "rt", "ci"], True
    return ["rt", "ci"], False


def row(name, pairs):
    dearest = sorted(pairs, key=lambda it: -it[1])[:TOLD]
    print(f"| {name} | {sum(it[1] for it in pairs) / 60:.0f} | " + ", ".join(f"`{crate}` {used:.0f}" for crate, used in dearest) + " |")


def tell(sums, total, clock, uses):
    by_kind = {kind: [(crate, used) for (crate, it), used in sums.items() if it == kind] for kind in KINDS}
    print("\n| | minutes | the dearest, in seconds |\n|---|---|---|")
    for name, kinds in (("proofs of libraries", ["proof"]), ("programs", ["program"]), ("tests", ["tests"]), ("checks that edits begin with", ["seed"]), ("edits", ["edits"])):
        row(name, [pair for kind in kinds for pair in by_kind[kind]])
    print(f"| the rest | {(total - sum(sums.values())) / 60:.0f} | |")
    chain, crates = longest_chain(uses, sums)
    print(f"\n{total / 60:.0f} processor minutes in {clock / 60:.0f} by the clock; the longest chain {chain / 60:.0f}: {', '.join(crates)}")


def main(words):
    if not shutil.which("rt"):
        sys.exit("gate.py: the command rt of the kit isn't on the PATH")
    with tempfile.TemporaryDirectory(prefix="zi-gate-") as room:
        clone, empty = os.path.join(room, "clone"), os.path.join(room, "empty")
        os.mkdir(empty)
        subprocess.run(["git", "clone", "-q", TOP, clone], check=True)
        subprocess.run(["git", "checkout", "-q", words[0] if words else "HEAD"], cwd=clone, check=True)
        with open(os.path.join(clone, "crates.txt"), encoding="utf-8") as file:
            uses = dependencies(file.read())
        programs = {crate for crate in uses if os.path.isfile(os.path.join(clone, "crates", crate, "src", "main.rt"))}
        command, is_hidden = command_of(empty)
        log = os.path.join(room, "log")
        with open(log, "w", encoding="utf-8") as out:
            start = time.monotonic()
            run = subprocess.Popen(command, cwd=clone, stdin=subprocess.DEVNULL, stdout=out, stderr=subprocess.STDOUT)
            sampler = Sampler(run.pid, programs)
            sampler.start()
            _, status, usage = os.wait4(run.pid, 0)
            clock = time.monotonic() - start
        sampler.done.set()
        sampler.join()
        with open(log, encoding="utf-8", errors="replace") as file:
            told = file.read().splitlines()
        kept = sum(" is kept: " in line for line in told)
        print("what earlier runs kept was hidden" if is_hidden else f"{kept} crates were taken as earlier runs kept them: this is no measure of the whole")
        tell(sampler.sums(), usage.ru_utime + usage.ru_stime, clock, uses)
        print(told[-1] if told else "rt ci said nothing")
        return os.waitstatus_to_exitcode(status)


if __name__ == "__main__":
    sys.exit(main(sys.argv[1:]))

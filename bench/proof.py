#!/usr/bin/env python3
"""The time to read and check a proof text of ten megabytes, lemma by lemma.

Run it after `rt ci` (or `rt run` in crates/speed), which builds the program. The lemmas are made here: over a chain
of implications each says the next variable, by the one before it and a clause. Where `drat-trim` is installed, it checks the
same lemmas without their hints; else the time is held against `wc`, which reads the same bytes. Each figure is the best of
three. Two sizes show whether the time is linear.
"""
import pathlib
import shutil
import subprocess
import sys
import tempfile
import time

RUNS = 3
LENGTHS = (95_000, 380_000)
TOP = pathlib.Path(__file__).resolve().parent.parent
PROGRAM = TOP / "crates/speed/out/speed"


def write_proof(path, n):
    with open(path, "w") as file:
        file.write("zi-proof 1\nl 1 0 1 0\n")
        for j in range(2, n + 1):
            file.write(f"l {j} 0 {n + j} {j} 0\n")
        file.write(f"l 0 {2 * n + 1} {n + 1} 0\ne\n")


def write_dimacs(formula, proof, n):
    with open(formula, "w") as file:
        file.write(f"p cnf {n} {n + 1}\n1 0\n")
        for k in range(1, n):
            file.write(f"-{k} {k + 1} 0\n")
        file.write(f"-{n} 0\n")
    with open(proof, "w") as file:
        for j in range(1, n + 1):
            file.write(f"{j} 0\n")
        file.write("0\n")


def timed(words, source=None):
    best, out = float("inf"), ""
    for _ in range(RUNS):
        with open(source or "/dev/null", "rb") as given:
            start = time.perf_counter()
            done = subprocess.run(words, stdin=given, capture_output=True)
            best = min(best, time.perf_counter() - start)
            out = done.stdout.decode()
    return best, out


def main():
    if not PROGRAM.exists():
        sys.exit(f"{PROGRAM} isn't built: run `rt ci` first")
    with tempfile.TemporaryDirectory() as folder:
        for n in LENGTHS:
            text = pathlib.Path(folder, f"proof{n}")
            write_proof(text, n)
            size = text.stat().st_size
            ours, answer = timed([str(PROGRAM), "proof", str(n)], text)
            if answer != "yes\n":
                sys.exit(f"{n} lemmas: the answer is {answer!r}")
            print(f"{n} lemmas, {size / 1e6:.1f} MB: {ours:.3f} s, {ours / size * 1e9:.1f} ns a byte")
            if shutil.which("drat-trim"):
                formula, proof = pathlib.Path(folder, "cnf"), pathlib.Path(folder, "drat")
                write_dimacs(formula, proof, n)
                theirs, _ = timed(["drat-trim", str(formula), str(proof), "-f"])
                print(f"  drat-trim {theirs:.3f} s, ratio {ours / theirs:.2f}")
            else:
                theirs, _ = timed(["wc"], text)
                print(f"  wc over the same bytes {theirs:.3f} s, ratio {ours / theirs:.2f}")


if __name__ == "__main__":
    main()

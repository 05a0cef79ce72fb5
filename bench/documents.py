#!/usr/bin/env python3
"""The time to read documents of 0.25, 1 and 4 MiB of three shapes, as a ratio to Python's expat on the same bytes in the same run.

Run it after `rt ci` (or `rt run` in crates/speed), which builds the program. expat builds a tree too (ElementTree).
The ratio wanted is at most 1.0; more than 3 is a defect. Each figure is the best of five. The time of an empty document is taken off ours.
"""
import pathlib
import subprocess
import sys
import time
import xml.etree.ElementTree as tree

RUNS = 5
TOP = pathlib.Path(__file__).resolve().parent.parent
PROGRAM = TOP / "crates/speed/out/speed"


def small_elements(size):
    row = b'<group arch="Linux-x86_64"><implementation id="a1" version="1.0"/>text</group>\n'
    return b"<interface>" + row * (size // len(row)) + b"</interface>"


def many_attributes(size):
    count = size // 52
    return b"<a" + b"".join(b' attribute-%d="the value of attribute number %d"' % (i, i) for i in range(count)) + b"/>"


def long_text(size):
    row = b"some words &amp; more of them &#233;, then a line\r\n"
    return b"<a>" + row * (size // len(row)) + b"</a>"


def ours(data):
    best = float("inf")
    for _ in range(RUNS):
        start = time.perf_counter()
        done = subprocess.run([str(PROGRAM), "document"], input=data, capture_output=True, check=True)
        best = min(best, time.perf_counter() - start)
    if done.stdout != b"ok\n":
        sys.exit(f"the document has a fault: {done.stdout}")
    return best


def theirs(data):
    best = float("inf")
    for _ in range(RUNS):
        start = time.perf_counter()
        tree.fromstring(data)
        best = min(best, time.perf_counter() - start)
    return best


def main():
    if not PROGRAM.exists():
        sys.exit(f"{PROGRAM} isn't built: run `rt ci` first")
    idle = ours(b"<a/>")
    for shape in [small_elements, many_attributes, long_text]:
        last = None
        for size in [1 << 18, 1 << 20, 1 << 22]:
            data = shape(size)
            a, b = ours(data) - idle, theirs(data)
            growth = "" if last is None else f", {a / last:.1f} times the size before"
            last = a
            print(f"{shape.__name__} {size >> 10} KiB: {a * 1000:.1f} ms, expat {b * 1000:.1f} ms, ratio {a / b:.2f}{growth}")


if __name__ == "__main__":
    main()

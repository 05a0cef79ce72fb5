#!/usr/bin/env python3
"""The time to read selections documents of 0.25, 1 and 4 MiB, as a ratio to Python's expat on the same bytes in the same run.

Run it after `rt ci` (or `rt run` in crates/sels_rows), which builds the program. expat builds a tree (ElementTree), and no selections.
The ratio wanted at 4 MiB is at most 2. Both times are those of the processor, the best of some runs; that of a small document is
taken off ours, and a line tells how the time grows, which is to be with the size.
"""
import os
import pathlib
import resource
import subprocess
import sys
import time
import xml.etree.ElementTree as tree

RUNS = 9
TOP = pathlib.Path(__file__).resolve().parent.parent
PROGRAM = os.environ.get("SELECTIONS_PROGRAM", str(TOP / "crates/sels_rows/out/sels_rows"))
NS = "http://zero-install.sourceforge.net/2004/injector/interface"
ROW = """  <selection arch="Linux-x86_64" from-feed="http://example.com/feed{n}.xml" id="implementation-{n}" interface="http://example.com/interface{n}.xml" released="2020-01-01" stability="stable" version="1.{n}">
    <manifest-digest sha256new="4OYMIQUY7QOBJGX36TEJS35ZEQT24QPEMSNZGTFESWMRW6CSXBKQ"/>
    <environment insert="lib" mode="append" name="LIBRARY_{n}"/>
    <requires interface="http://example.com/interface{next}.xml"><environment insert="bin" name="PATH"/></requires>
    <command name="run" path="bin/run">
      <arg>--now</arg>
      <for-each item-from="WORDS"><arg>${{item}}</arg></for-each>
    </command>
  </selection>
"""


def document(size):
    """Selections in a ring, each of which needs the next, of this many bytes and a few more or less."""
    count = max(1, size // len(ROW.format(n=1000, next=1001)))
    rows = "".join(ROW.format(n=n, next=(n + 1) % count) for n in range(count))
    return f'<?xml version="1.0"?>\n<selections command="run" interface="http://example.com/interface0.xml" xmlns="{NS}">\n{rows}</selections>\n'.encode()


def ended():
    """The processor's time of the programs that have ended."""
    usage = resource.getrusage(resource.RUSAGE_CHILDREN)
    return usage.ru_utime + usage.ru_stime


def ours(data):
    best = float("inf")
    for _ in range(RUNS):
        start = ended()
        done = subprocess.run([PROGRAM, "fault"], input=data, capture_output=True, check=True)
        best = min(best, ended() - start)
    if done.stdout != b"none\n":
        sys.exit(f"the document has a fault: {done.stdout}")
    return best


def theirs(data):
    best = float("inf")
    for _ in range(RUNS):
        start = time.process_time()
        tree.fromstring(data)
        best = min(best, time.process_time() - start)
    return best


def main():
    if not os.path.exists(PROGRAM):
        sys.exit(f"{PROGRAM} isn't built: run `rt ci` first")
    idle = ours(document(0))
    last = None
    for size in (1 << 18, 1 << 20, 1 << 22):
        data = document(size)
        a, b = ours(data) - idle, theirs(data)
        growth = "" if last is None else f", {a / last:.1f} times the size before"
        last = a
        print(f"{len(data) / 1024:.0f} KiB: {a * 1000:.1f} ms, expat {b * 1000:.1f} ms, ratio {a / b:.2f}{growth}")


if __name__ == "__main__":
    main()

#!/usr/bin/env python3
"""The processor time and the peak memory of `zi select` where much is inherited, named or imported by many, at 0.25, 1 and 4 MiB of feed.

In most kinds half of a feed is one thing that is said once, and half are elements that share it. Time and memory are to grow with the bytes
that are read, not with the product of the two halves. Each run has a limit of memory and one of time, so that it harms no one else: where it
needs more the line says so, and larger sizes of that kind aren't tried. ZI_PROGRAM names another program than the built one, ZI_LIMIT the
limit of memory in MiB (default 2048), ZI_SECONDS that of processor time (default 60). Words behind the script's name pick kinds by their
beginnings; numbers pick sizes, in MiB. ZI_BESIDE may name another program, whose processor time is then compared with (as one from before a
change).
"""
import os
import resource
import shutil
import signal
import subprocess
import sys
import tempfile

from measure import beside

TOP = os.path.dirname(os.path.dirname(os.path.abspath(__file__)))
PROGRAM = os.environ.get("ZI_PROGRAM", os.path.join(TOP, "crates", "zi", "out", "zi"))
LIMIT = int(os.environ.get("ZI_LIMIT", "2048")) << 20
SECONDS = int(os.environ.get("ZI_SECONDS", "60"))
NS = "http://zero-install.sourceforge.net/2004/injector/interface"
SIZES = (0.25, 1, 4)
NO_MEMORY = 94


def write(folder, name, inside):
    path = os.path.join(folder, name)
    with open(path, "w") as file:
        file.write(f'<interface xmlns="{NS}">\n{inside}</interface>\n')
    return path


def rows(size, row):
    """Rows up to a size. A row is a function of its number."""
    length = len(row(0))
    return "".join(row(n) for n in range(int(size) // length))


def impl(n):
    return f'<implementation id="{n:011d}"/>'  # 34 bytes: at 4 MiB half of them are fewer than 65536 candidates


def group(said="", inside=lambda size: "", version='version="1"', local='local-path="."'):
    """A feed whose one group says something, by an attribute of this name or by elements in it."""

    def make(folder, size):
        attribute = said and f'{said[0]}="{said[1](size / 2)}"'
        return [write(folder, "root.xml", f"<group {version} {local} {attribute}>{inside(size / 2)}{rows(size / 2, impl)}</group>")]

    return make


def long(size):
    return "a" * int(size)


def address(folder, size):
    return [write(folder, "root.xml", f'<a xmlns="{long(size / 2)}">{rows(size / 2, lambda n: "<a/>")}</a>')]


def levels(folder, size):
    """Groups 60 deep, each with its dependencies, and implementations in the innermost."""
    needs = rows(size / 120, lambda n: f'<requires interface="/{n:04d}.xml"/>')
    outer = f'<group version="1" local-path=".">{needs}' * 60
    return [write(folder, "root.xml", outer + rows(size / 2, impl) + "</group>" * 60)]


def dependencies(folder, size):
    """A hundred dependencies, and implementations that all have them."""
    needs = "".join(f'<requires interface="/{n:04d}.xml"/>' for n in range(100))
    return [write(folder, "root.xml", f'<group version="1" local-path=".">{needs}{rows(size - len(needs), impl)}</group>')]


def packages(folder, size):
    """A hundred dependencies, and what is said of packages of the system, which all have them. No table has a row for one."""
    needs = "".join(f'<requires interface="/{n:04d}.xml"/>' for n in range(100))
    impl = '<implementation id="i" version="1" local-path="."/>'
    row = lambda n: f'<package-implementation package="{n:06d}"/>'
    return [write(folder, "root.xml", f"{impl}<group>{needs}{rows(size - len(needs) - len(impl), row)}</group>")]


def shims(size):
    """A dependency with commands that are made known as programs: about 30,000 of them in 2 MiB."""
    row = lambda n: f'<executable-in-path name="{n:012d}" command="{n:012d}"/>'
    return f'<requires interface="/0.xml" importance="recommended">{rows(size - 80, row)}</requires>'


def ranges(size):
    return f'<requires interface="/0.xml" version="{rows(size - 40, lambda n: f"{n:06d}|").rstrip("|")}"/>'


def arguments(size):
    return f'<command name="c" path="p">{rows(size, lambda n: "<arg>a</arg>")}</command>'


def imported(folder, size):
    """An implementation that 4,095 interfaces import. It is long by what no selection says, or the selections would be as long 4,095 times."""
    steps = rows(size, lambda n: f'<remove path="{n:06d}"/>')
    write(folder, "shared.xml", f'<implementation id="i" version="1" local-path="."><recipe>{steps}</recipe></implementation>')
    for n in range(4095):
        write(folder, f"i{n}.xml", '<feed src="./shared.xml"/>')
    needs = "".join(f'<requires interface="./i{n}.xml"/>' for n in range(4095))
    return [write(folder, "root.xml", f'<implementation id="i" version="1" local-path=".">{needs}</implementation>')]


def languages(folder, size):
    """300 languages that are wanted, and implementations that speak the last of them."""
    tags = [chr(97 + n // 26) + chr(97 + n % 26) for n in range(300)]
    row = lambda n: f'<implementation id="{n:011d}" langs="{tags[-1]}" version="{n % 997:03d}" local-path="."/>'
    return [word for tag in tags for word in ("--lang", tag)] + [write(folder, "root.xml", rows(size, row))]


def admitted(folder, size):
    """An expression of 30,000 ranges, in which each version is looked up."""
    row = lambda n: f'<implementation id="{n:011d}" version="{n % 997 + 1000}" local-path="."/>'
    return ["--version", "|".join(f"{n % 10}" for n in range(30000)) + "|10..", write(folder, "root.xml", rows(size, row))]


def elements(row):
    return lambda folder, size: [write(folder, "root.xml", rows(size, row))]


# The kinds: a name, and what makes the feeds of a size and answers the words for the program.
KINDS = (
    ("namespace", address),
    ("released", group(("released", long))),
    ("main", group(("main", long))),
    ("local path", group(("local-path", long), local="")),
    ("binding", group(inside=lambda size: f'<environment name="A" value="{long(size)}"/>')),
    ("version", group(("version", lambda size: rows(size, lambda n: "1.") + "1"), version="")),
    ("expression", group(inside=ranges)),
    ("languages", group(("langs", lambda size: rows(size, lambda n: "de ")))),
    ("arguments", group(inside=arguments)),
    ("levels", levels),
    ("dependencies", dependencies),
    ("packages", packages),
    ("shims", group(inside=shims)),
    ("imported", imported),
    ("wanted languages", languages),
    ("admitted", admitted),
    ("empty elements", elements(lambda n: "<a/>")),
    ("small elements", elements(lambda n: '<group arch="Linux-x86_64"><a b="a1" c="1.0"/>text</group>\n')),
)


def limited():
    resource.setrlimit(resource.RLIMIT_AS, (LIMIT, LIMIT))
    resource.setrlimit(resource.RLIMIT_CPU, (SECONDS, SECONDS + 1))
    resource.setrlimit(resource.RLIMIT_CORE, (0, 0))


def run(words, program=PROGRAM):
    """One run: its processor time in seconds, its peak memory in MiB, its status and its line."""
    child = subprocess.Popen(
        [program, "select", "--no-command", *words], preexec_fn=limited, stdout=subprocess.DEVNULL, stderr=subprocess.PIPE
    )
    with child.stderr:
        error = child.stderr.read().decode(errors="replace").strip()
    _, status, usage = os.wait4(child.pid, 0)
    child.returncode = os.waitstatus_to_exitcode(status)
    return usage.ru_utime + usage.ru_stime, usage.ru_maxrss / 1024, child.returncode, error


def measured(make, size):
    """One line for a kind at a size, and whether larger ones are worth a try."""
    folder = tempfile.mkdtemp(prefix="zi-bench-")
    try:
        words = make(folder, size * 2**20 - 1024)  # with its root a feed of 4 MiB is within the limit
        taken, peak, status, error = run(words)
        other = beside(PROGRAM, lambda one: run(words, one)[0]) if status >= 0 and status != NO_MEMORY else ""
    finally:
        shutil.rmtree(folder)
    if status in (-signal.SIGXCPU, -signal.SIGKILL):
        return f"more than {SECONDS} s, then at {peak:.1f} MiB", False
    if status == NO_MEMORY:
        return f"more than {LIMIT >> 20} MiB, after {taken:.2f} s", False
    line = f"{taken:8.2f} s, peak {peak:7.1f} MiB, {peak / size:6.1f} times the size{other}"
    return line if status == 0 else f"{line}, status {status}: {error[:100]}", True


def main():
    if not os.path.exists(PROGRAM):
        sys.exit("crates/zi/out/zi isn't there: run the gate first")
    sizes = [float(word) for word in sys.argv[1:] if word[0].isdigit()]
    names = [word for word in sys.argv[1:] if not word[0].isdigit()]
    print(f"load {os.getloadavg()[0]:.1f}", flush=True)
    for name, make in KINDS:
        if names and not any(name.startswith(word) for word in names):
            continue
        for size in sizes or SIZES:
            line, more = measured(make, size)
            print(f"{name:16} {size:4} MiB: {line}", flush=True)
            if not more:
                break


if __name__ == "__main__":
    main()

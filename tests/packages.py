#!/usr/bin/env python3
"""Tries examples/packages, which writes tables of packages, over databases made up here and over that of this system, and runs the proved
program over such tables, beside `0install select`, which asks the system itself.

The program is found, and each row is run, as in store.py. The databases are shell scripts in the place of dpkg-query, rpm and apt-cache. What
needs this system's own dpkg is skipped where there is none, and what is compared with 0install where that isn't installed.
"""
import importlib.machinery
import importlib.util
import os
import platform
import random
import re
import shutil
import subprocess
import sys
import xml.etree.ElementTree

from download import SPACE
from store import TOP, expect, holds, main, run, write

SCRIPT = os.path.join(TOP, "examples", "packages")
# versions as systems have them, and as a table has them
VERSIONS = (
    [("1.2", "1.2"), ("1:1.2", "1.2"), ("1.2-3", "1.2-3"), ("1:2.3~rc1+b1", "2.3-rc1"), ("2.3~rc1-2", "2.3-rc1-2"), ("2.3~beta3-1", "2.3-pre3-1")]
    + [("2.3~-1", "2.3-pre-1"), ("2.3~~1", "2.3-pre"), ("2.3~git.20200101", "2.3-pre20200101"), ("20230710~deb12u1", "20230710-pre12")]
    + [("1.14.10-1~deb12u1", "1.14.10-1-pre12"), ("2.38.1-5+deb12u3", "2.38.1-5"), ("23.0.1+dfsg-1", "23.0.1-1"), ("15+248+deb12u1", "15")]
    + [("1.2.13.dfsg-1", "1.2.13-1"), ("9e-1", "9-1"), ("2025b-0+deb12u2", "2025-0"), ("3.1.9-4.2+b3", "3.1.9-4.2"), ("1.2-3-4", "1.2-3-4")]
    + [("1.2-x-4", "1.2"), ("5.0^20230101-1.fc38", "5.0-1"), ("1.2.", "1.2"), ("1.", "1"), ("007", "007"), ("18446744073709551615", "18446744073709551615")]
    + [("18446744073709551616", None), ("1.18446744073709551616", None), ("1-18446744073709551616", "1"), ("", None), ("v1.2", None), ("1:", None), ("~1", None)]
)
# how many choices are compared with 0install's, and packages of which a system hardly has all
DRAWN = 60
LACKED = ("zsh", "ksh", "mksh", "fish", "tcsh")
LINE = re.compile(r"[A-Za-z0-9+._-]+ \d+(\.\d+)*(-(pre|rc|post)?(\d+(\.\d+)*)?)* ([A-Za-z0-9_]+|\*) (installed|available)")


def script():
    """examples/packages, as a module."""
    loader = importlib.machinery.SourceFileLoader("packages_script", SCRIPT)
    module = importlib.util.module_from_spec(importlib.util.spec_from_loader(loader.name, loader))
    writes, sys.dont_write_bytecode = sys.dont_write_bytecode, True
    loader.exec_module(module)
    sys.dont_write_bytecode = writes
    return module


def database(folder, name, lines):
    """A command that writes these lines."""
    commands = os.path.join(folder, "commands")
    os.makedirs(commands, exist_ok=True)
    path = write(commands, name, ("#!/bin/sh\n" + "".join(f"echo '{line}'\n" for line in lines)).encode())
    os.chmod(path, 0o755)


def written(folder, *words):
    """What examples/packages writes where there are these commands alone."""
    got = subprocess.run([sys.executable, SCRIPT, *words], env={"PATH": os.path.join(folder, "commands")}, capture_output=True, timeout=60)
    return got.returncode, got.stdout.decode(), got.stderr.decode()


def versions_are_cut(folder):
    cut = script().version
    for given, wanted in VERSIONS:
        holds(f"{given}: {cut(given)}, not {wanted}", cut(given) == wanted)


def a_database_of_dpkg(folder):
    """Two machines of one package are two lines; what isn't installed isn't there; what is cut to what was said before is left out."""
    rows = ["installed bash 5.2.15-2+b7 amd64", "installed adduser 3.134 all", "config-files gone 1 all", "installed zlib1g 1:1.2.13.dfsg-1 amd64"]
    rows += ["installed zlib1g 1:1.2.13.dfsg-1 i386", "installed strange unknown all", "installed libstdc++6 12.2.0-14 arm64"]
    rows += ["installed port 1 kfreebsd-amd64", "installed bash 5.2.15-2+b8 amd64"]
    database(folder, "dpkg-query", rows)
    lines = ["zi-packages 1 Debian", "bash 5.2.15-2 x86_64 installed", "adduser 3.134 * installed", "zlib1g 1.2.13-1 x86_64 installed"]
    lines += ["zlib1g 1.2.13-1 i386 installed", "libstdc++6 12.2.0-14 aarch64 installed", ""]
    expect(written(folder), 0, "\n".join(lines), "packages: 3 left out\n")
    expect(written(folder, "adduser", "nothing"), 0, "zi-packages 1 Debian\nadduser 3.134 * installed\n", "")


def what_apt_could_install(folder):
    """It stands behind what is installed; the version that is installed is said once."""
    database(folder, "dpkg-query", ["installed bash 5.2.15-2 amd64"])
    stanzas = ["Package: bash", "Version: 5.2.15-2+b7", "Architecture: amd64", "Description: a shell", " Version: 9", "", "Package: bash", "Architecture: amd64"]
    stanzas += ["Version: 5.2.21-2", "", "Package: ksh", "Version: 1:20230128-1", "Architecture: all", "", "Package: nothing", "", ""]
    database(folder, "apt-cache", stanzas)
    lines = ["zi-packages 1 Debian", "bash 5.2.15-2 x86_64 installed", "bash 5.2.21-2 x86_64 available", "ksh 20230128-1 * available", ""]
    expect(written(folder, "--available"), 0, "\n".join(lines), "packages: 2 left out\n")
    expect(written(folder), 0, "\n".join(lines[:2] + lines[4:]), "")


def a_database_of_rpm(folder):
    rows = ["bash 5.2.15-3.fc38 x86_64", "tzdata 2023c-1.fc38 noarch", "gpg-pubkey 12345678-5f000000 (none)", "kernel-core 6.5.6-200.fc38 x86_64"]
    rows += ["kernel-core 6.5.8-200.fc38 x86_64", "odd name 1-1 noarch", "snap 0~20230101-1.el9 noarch"]
    database(folder, "rpm", rows)
    lines = ["zi-packages 1 RPM", "bash 5.2.15-3 x86_64 installed", "tzdata 2023-1 * installed", "kernel-core 6.5.6-200 x86_64 installed"]
    lines += ["kernel-core 6.5.8-200 x86_64 installed", "snap 0-pre20230101-1 * installed", ""]
    expect(written(folder), 0, "\n".join(lines), "packages: 2 left out\n")


def no_database(folder):
    os.makedirs(os.path.join(folder, "commands"))
    expect(written(folder), 1, "", "packages: neither dpkg-query nor rpm is here\n")


def of_this_system(*words):
    """The table of this system, or None where it has no dpkg."""
    if not shutil.which("dpkg-query"):
        print("skipped, since there is no dpkg-query")
        return None
    return subprocess.run([sys.executable, SCRIPT, *words], capture_output=True, check=True, timeout=300)


def feed(folder, name, inside):
    return write(folder, f"{name}.xml", f'<interface xmlns="{SPACE}"><name>{name}</name><summary>a</summary>{inside}</interface>'.encode())


def shell(folder, inside='<package-implementation package="dash" distributions="Debian" main="/bin/sh"/>'):
    """The feed of a shell that the system may have."""
    return feed(folder, "shell", inside)


def the_packages_of_this_system(folder):
    """Each line is of the form, and with those that are left out there is one for each package that is installed. The program reads them."""
    got = of_this_system()
    if got is None:
        return
    first, *lines = got.stdout.decode().splitlines()
    holds(first, first == "zi-packages 1 Debian")
    for line in lines:
        holds(line, LINE.fullmatch(line))
    states = subprocess.run(["dpkg-query", "--show", "--showformat", "${db:Status-Status}\\n"], capture_output=True, check=True).stdout.split()
    left = int(got.stderr.split()[1]) if got.stderr else 0
    holds(f"{len(lines)} and {left} left out of {states.count(b'installed')}", len(lines) + left == states.count(b"installed"))
    table = write(folder, "packages", got.stdout)
    root = feed(folder, "root", '<implementation id="root" version="1" local-path="."/>')
    holds("the table is read", run(["select", "--no-command", root], folder, ZI_PACKAGES=table)[0] == 0)


def a_shell_of_this_system(folder):
    """It is selected by its package, with the version that the system has, and a script is run through it."""
    got = of_this_system("dash")
    if got is None:
        return
    table = write(folder, "packages", got.stdout)
    _, line = got.stdout.decode().splitlines()
    package, number, machine, _ = line.split(" ")
    root = feed(folder, "root", f'<implementation id="root" version="1" local-path="."><command name="run" path="script"><runner interface="{shell(folder)}"/></command></implementation>')
    write(folder, "script", b'for word; do printf "[%s]" "$word"; done\n')
    selected = run(["select", root], folder, ZI_PACKAGES=table)
    wanted = f'id="package:{package}:{number}:{machine}" version="{number}" package="{package}" arch="*-{machine}" stability="packaged"'
    holds(f"{selected}", selected[0] == 0 and wanted.encode() in selected[1] and b"manifest-digest" not in selected[1])
    expect(run(["run", root, "a b", "c"], folder, ZI_PACKAGES=table), 0, b"[a b][c]", b"")
    expect(run(["download", root], folder, ZI_PACKAGES=table), 0, selected[1], b"")
    # a document with it is launched without a table
    expect(run(["launch", write(folder, "selections", selected[1]), "d"], folder), 0, b"[d]", b"")
    # and without a table it isn't there to be chosen
    holds("without a table", run(["select", root], folder)[0] == 73)


def what_is_not_installed(folder):
    """It is selected, and told before anything is fetched: the first of several, in the order of the document."""
    table = write(folder, "packages", b"zi-packages 1 Debian\nksh 1 * available\nzsh 1 * available\n")
    last = feed(folder, "z", '<package-implementation package="ksh" main="/bin/ksh"/>')
    first = feed(folder, "a", '<package-implementation package="zsh" main="/bin/zsh"/>')
    root = feed(folder, "root", f'<implementation id="root" version="1" local-path="."><requires interface="{last}"/><requires interface="{first}"/></implementation>')
    holds("selected", run(["select", "--no-command", root], folder, ZI_PACKAGES=table)[0] == 0)
    for word in ("download", "run"):
        expect(run([word, "--no-command", root], folder, ZI_PACKAGES=table), 97, b"", b"zi: zsh is not installed\n")


def tables_that_are_none(folder):
    root = feed(folder, "root", '<implementation id="root" version="1" local-path="."/>')
    words = ["select", "--no-command", root]
    right = b"zi-packages 1 Debian\npython 3.1-1 * installed\n"
    for data, line in ((b"", 1), (right[:-1], 2), (right + b"python 1\n", 3), (right + b"python 3.1-1 * available\n", 3), (right.replace(b"\n", b"\r\n"), 1), (right.replace(b" *", b"  *"), 2)):
        table = write(folder, "packages", data)
        expect(run(words, folder, ZI_PACKAGES=table), 96, b"", f"zi: bad package table at line {line}\n".encode())
    expect(run(words, folder, ZI_PACKAGES="/no/packages"), 75, b"", b"zi: no file /no/packages\n")
    expect(run(words, folder, ZI_PACKAGES=folder), 65, b"", f"zi: cannot read {folder}\n".encode())
    table = write(folder, "packages", right + b"x" * 4_194_304)
    expect(run(words, folder, ZI_PACKAGES=table), 68, b"", f"zi: {table} is longer than 4194304 bytes\n".encode())
    holds("no table", run(words, folder, ZI_PACKAGES="")[0] == 0)


def beside(*words):
    """The rows of this system's table, as lists of items, and the table; None where it has no dpkg, or 0install isn't installed."""
    if not shutil.which("0install"):
        print("skipped, since 0install isn't installed")
        return None
    got = of_this_system(*words)
    return got and ([line.split(" ") for line in got.stdout.decode().splitlines()[1:]], got.stdout)


def numbers(version):
    """The numbers with which a version begins."""
    return [int(number) for number in version.split("-")[0].split(".")]


def chosen(document):
    """What a document selects, by interface: an implementation by its id, a package by its name and the numbers with which its version begins."""
    selections = xml.etree.ElementTree.fromstring(document).findall(f"{{{SPACE}}}selection") if document else []
    package = lambda each: (each.get("package"), numbers(each.get("version")))
    return {each.get("interface"): package(each) if each.get("package") else each.get("id") for each in selections}


def by_0install(root, folder, asks_apt=False):
    """The document that it writes; an empty one where nothing fits. Off line it would ask apt too, which takes long."""
    database(folder, "apt-cache", [])
    path = os.environ["PATH"] if asks_apt else f"{folder}/commands:{os.environ['PATH']}"
    env = dict(os.environ, HOME=folder, XDG_CONFIG_HOME=folder, XDG_CACHE_HOME=folder, PATH=path)
    how = "--console" if asks_apt else "--offline"
    words = ["0install", "select", how, "--xml", "--command=", "--os", "Linux", "--cpu", platform.machine(), root]
    got = subprocess.run(words, env=env, stdin=subprocess.DEVNULL, capture_output=True, timeout=300)
    holds(f"0install: {got.stderr.decode()}", got.returncode in (0, 1))
    return got.stdout if got.returncode == 0 else b""


def by_zi(root, folder, table):
    """The same, by the program with that table."""
    status, document, told = run(["select", "--no-command", "--os", "Linux", "--cpu", platform.machine(), root], folder, ZI_PACKAGES=table)
    holds(f"{told}", status in (0, 73))
    return document if status == 0 else b""


def package(name, more=""):
    return f'<package-implementation package="{name}" main="/bin/sh"{more}/>'


def implementation(name, version, more=' stability="stable"'):
    return f'<implementation id="{name}" version="{version}" local-path="."{more}/>'


class Drawn:
    """Feeds at random, which name packages that the system has, and implementations whose versions are near theirs."""

    def __init__(self, seed, rows):
        self.chance = random.Random(f"packages {seed}")
        self.versions = {row[0]: numbers(row[1]) for row in rows}
        # which distribution is named is the same for all, since 0install prefers what suits best
        self.distributions = self.chance.choice(["", ' distributions="Debian"', ' distributions="Gentoo Debian RPM"'])

    def near(self):
        """A version that is that of some package, or lies beside it."""
        found = self.chance.choice(list(self.versions.values()))
        others = [found[:-1] + [found[-1] + 1], found[:-1] + [max(found[-1] - 1, 0)], found + [self.chance.randrange(3)], found[:1]]
        return ".".join(map(str, self.chance.choice([found, found, *others])))

    def offers(self, name):
        for each in self.chance.sample(list(self.versions), self.chance.randint(0, 2)):
            yield package(each, self.distributions)
        for number in range(self.chance.randint(0, 3)):
            stability = self.chance.choice(["stable", "stable", "testing", "developer", "buggy"])
            machine = self.chance.choice(["", "", f' arch="Linux-{platform.machine()}"', ' arch="Linux-*"', ' arch="Windows-*"'])
            version = self.near() + self.chance.choice(["", "", "-1", "-pre", "-post2"])
            yield implementation(f"{name}{number}", version, f' stability="{stability}"{machine}')

    def need(self, path):
        kind = self.chance.choice(["requires", "requires", "requires", "restricts"])
        wanted = self.chance.choice(["", "", f' version="{self.near()}.."', f' version="..!{self.near()}"'])
        return f'<{kind} interface="{path}"{wanted}/>'

    def write(self, folder):
        """The root, which needs some other interfaces."""
        paths = [feed(folder, name, "".join(self.offers(name))) for name in "abc"]
        needs = "".join(self.need(path) for path in self.chance.choices(paths, k=self.chance.randint(1, 4)))
        return feed(folder, "root", f'<implementation id="root" version="1" local-path=".">{needs}</implementation>')


def beside_0install(folder):
    """Where elements name no distribution, or all name this one, both choose alike, over packages that the system has."""
    got = beside("bash", "coreutils", "dash", "grep", "perl-base", "tar")
    if got is None:
        return
    rows, text = got
    distinct = {tuple(numbers(row[1])): row for row in rows}.values()
    table = write(folder, "packages", text)
    some, packages = 0, 0
    for seed in range(DRAWN):
        inside = os.path.join(folder, str(seed))
        os.mkdir(inside)
        root = Drawn(seed, distinct).write(inside)
        here, there = chosen(by_zi(root, folder, table)), chosen(by_0install(root, folder))
        holds(f"{seed}: {here}, by 0install {there}", here == there)
        some += bool(here)
        packages += any(isinstance(each, tuple) for each in here.values())
    print(f"{DRAWN} choices beside 0install: {some} alike, {packages} of them with packages; {DRAWN - some} with nothing that fits for both")


def beside_0install_where_the_system_lacks_one(folder):
    """A package that could be installed stands behind all else, and is chosen where nothing else is there."""
    if not shutil.which("apt-cache"):
        print("skipped, since there is no apt-cache")
        return
    got = beside("--available", *LACKED)
    if got is None:
        return
    rows, text = got
    lacked = next((row[0] for row in rows if row[3] == "available" and not any(other[0] == row[0] and other[3] == "installed" for other in rows)), None)
    if lacked is None:
        print("skipped, since apt knows of none that isn't installed")
        return
    table = write(folder, "packages", text)
    for number, others in enumerate(("", implementation("i", "0.0.1"), implementation("i", "0.0.1", ' stability="testing"'))):
        root = feed(folder, f"root{number}", package(lacked) + others)
        here, there = chosen(by_zi(root, folder, table)), chosen(by_0install(root, folder, asks_apt=True))
        holds(f"{lacked} {others}: {here}, by 0install {there}", here == there and here)


def versions_beside_0install(folder):
    """A version is cut by both, and by 0install less; it begins with the same numbers. The machine is the same."""
    got = beside()
    if got is None:
        return
    rows, _ = got
    some = rows[:: max(1, len(rows) // 60)]
    needs = "".join(f'<requires interface="{feed(folder, f"p{number}", package(row[0]))}"/>' for number, row in enumerate(some))
    root = feed(folder, "root", f'<implementation id="root" version="1" local-path=".">{needs}</implementation>')
    selections = xml.etree.ElementTree.fromstring(by_0install(root, folder)).findall(f"{{{SPACE}}}selection")
    theirs = {each.get("package"): (each.get("version"), each.get("id").rpartition(":")[2]) for each in selections if each.get("package")}
    for name, _, _, _ in some:
        version, machine = theirs[name]
        ours = [(numbers(row[1]), row[2]) for row in rows if row[0] == name]
        holds(f"{name}: {version} {machine}, here {ours}", any(numbers(version)[: len(begins)] == begins and machine == its for begins, its in ours))


def where_0install_chooses_otherwise(folder):
    """It prefers the elements whose distributions suit best, and takes those of another one where none suits better; here each counts or doesn't."""
    got = beside("bash", "dash")
    if got is None:
        return
    rows, text = got
    table = write(folder, "packages", text)
    older, newer = sorted((numbers(row[1]), row[0]) for row in rows)[:: len(rows) - 1]
    cases = (
        (package(older[1], ' distributions="Debian"') + package(newer[1]), newer, older),
        (package(older[1], ' distributions="RPM"'), None, older),
    )
    for number, (inside, ours, theirs) in enumerate(cases):
        root = feed(folder, f"root{number}", inside)
        wanted = tuple({root: (each[1], each[0])} if each else {} for each in (ours, theirs))
        got = chosen(by_zi(root, folder, table)), chosen(by_0install(root, folder))
        holds(f"{inside}: {got}, not {wanted}", got == wanted)


ROWS = [
    versions_are_cut,
    a_database_of_dpkg,
    what_apt_could_install,
    a_database_of_rpm,
    no_database,
    the_packages_of_this_system,
    a_shell_of_this_system,
    what_is_not_installed,
    tables_that_are_none,
    beside_0install,
    beside_0install_where_the_system_lacks_one,
    versions_beside_0install,
    where_0install_chooses_otherwise,
]


if __name__ == "__main__":
    main(ROWS)

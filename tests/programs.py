"""Programs with dependencies, each a folder of local feeds.

Random ones, from a seed, with what is asked of them: interfaces need one another (also in circles), recommend and restrict one
another, with versions in both forms; commands need interfaces and are run by others; platforms are of 32 and 64 bits. They are so
small that a choice can be sought by going through all. And the demonstration of a number, for which that takes too long.
"""
import os
import random

from universes import Asked, expression_of

NS = "http://zero-install.sourceforge.net/2004/injector/interface"
NAMES = ["root", "a", "b", "c", "d", "e"]
RANGES = ["2..", "..!2", "2..!4", "3", "!3", "..!3 | 4..", "1 | 3", "..!4"]
PLATFORMS = ["*-*", "Linux-x86_64", "Linux-x86_64", "Linux-i686", "Linux-i686", "*-i386", "Linux-*", "Windows-*"]
STABILITIES = ["stable", "stable", "testing", "developer", "buggy"]


def tag(name, attributes, inside=""):
    said = "".join(f' {key}="{value}"' for key, value in attributes.items())
    return f"<{name}{said}>{inside}</{name}>" if inside else f"<{name}{said}/>"


class Program:
    """One random program."""

    def __init__(self, seed):
        self.random = random.Random(f"program {seed}")
        self.names = NAMES[: self.random.randint(3, len(NAMES))]
        self.count = 0

    def some(self, chance):
        return self.random.random() < chance

    def versions(self):
        """A restriction on versions: an attribute, children, both or none."""
        attributes, inside = {}, ""
        if self.some(0.35):
            attributes["version"] = self.random.choice(RANGES)
        if self.some(0.15):
            ends = {"not-before": self.random.randint(1, 3), "before": self.random.randint(2, 5)}
            inside = tag("version", dict(self.random.sample(list(ends.items()), self.random.randint(1, 2))))
        return attributes, inside

    def need(self):
        attributes, inside = self.versions()
        attributes = {"interface": f"./{self.random.choice(self.names)}.xml", **attributes}
        if self.some(0.25):
            return tag("restricts", attributes, inside)
        if self.some(0.3):
            attributes["importance"] = self.random.choice(["recommended", "recommended", "recommended", "essential"])
        return tag("requires", attributes, inside)

    def needs(self, chance, least=0):
        needs = "".join(self.need() for _ in range(least))
        while self.some(chance):
            needs += self.need()
        return needs

    def command(self, name):
        inside = self.needs(0.25)
        if self.some(0.4):
            attributes, versions = self.versions()
            attributes = {"interface": f"./{self.random.choice(self.names)}.xml", **attributes}
            if self.some(0.4):
                attributes["command"] = self.random.choice(["run", "test"])
            inside += tag("runner", attributes, versions)
        return tag("command", {"name": name, "path": name}, inside)

    def commands(self, chance):
        return "".join(self.command(name) for name in ("run", "test") if self.some(chance))

    def said(self):
        said = {"arch": self.random.choice(PLATFORMS)} if self.some(0.4) else {}
        return {**said, "stability": self.random.choice(STABILITIES)} if self.some(0.4) else said

    def implementation(self, least, inherits_run):
        self.count += 1
        version = self.random.choice(["1", "2", "3", "4", "2.1", "3-pre", "3-post1"])
        attributes = {"id": f"i{self.count}", "version": version, "local-path": ".", **self.said()}
        # 0install lets it replace a command `run` that is inherited
        if self.some(0.1) and not inherits_run:
            attributes["main"] = "m"
        return tag("implementation", attributes, self.needs(0.4, least) + self.commands(0.5))

    def inside(self, least, depth=0, inherits_run=False):
        for _ in range(self.random.randint(1, 4 - depth)):
            if depth < 2 and self.some(0.3):
                said, needs, commands = self.said(), self.needs(0.3), self.commands(0.2)
                has_run = inherits_run or 'command name="run"' in commands
                yield tag("group", said, needs + commands + "".join(self.inside(least, depth + 1, has_run)))
            else:
                yield self.implementation(least, inherits_run)

    def write(self, folder):
        """Writes the feeds into a folder. What is asked: the options as words, and for the rules."""
        for name in self.names:
            with open(os.path.join(folder, f"{name}.xml"), "w", encoding="utf-8") as file:
                file.write(f'<interface xmlns="{NS}"><name>n</name><summary>s</summary>' + "".join(self.inside(2 if name == "root" else 0)) + "</interface>\n")
        root = os.path.join(folder, "root.xml")
        machine = self.random.choice(["x86_64", "x86_64", "x86_64", "i686"])
        options, limits = ["--os", "Linux", "--cpu", machine], []
        if self.some(0.2):
            limits.append((os.path.join(folder, f"{self.random.choice(self.names)}.xml"), self.random.choice(RANGES)))
            options += ["--version-for", *limits[0]]
        command = self.random.choice([None, None, "run", "test"])
        return options, Asked(root, command, "Linux", machine, tuple((uri, expression_of(text)) for uri, text in limits))


class Demonstration:
    """n + 4 interfaces, each in its canonical text: the root needs a1 to an, then p, q and r. With a1 at its version 2 the last three
    would need three different versions out of 2 and 3. A head stands first in each, for readers that want more of a feed."""

    def __init__(self, n, folder, head=""):
        self.folder = folder
        self.head = head
        names = [*(f"a{i}" for i in range(1, n + 1)), "p", "q", "r"]
        two, three = ([2, "2.."], [1, ""]), ([3, "!3"], [2, "!2"], [1, ""])
        self.feeds = {"root": self.feed([self.version(1, [f'<requires interface="{self.address(name)}"/>' for name in names])])}
        for name in names:
            others = {"a1": "pqr", "p": "qr", "q": "r"}.get(name, "")
            self.feeds[name] = self.feed([self.restricting(*version, others) for version in (three if name in "pqr" else two)])
        self.best = {**dict.fromkeys(names, "v2"), "root": "v1", "a1": "v1", "p": "v3", "r": "v1"}

    def address(self, name):
        return f"{self.folder}/{name}.xml"

    def restricting(self, number, versions, others):
        return self.version(number, [f'<restricts interface="{self.address(other)}" version="{versions}"/>' for other in others if versions])

    def version(self, number, inside):
        start = f'  <implementation id="v{number}" version="{number}" local-path="."'
        return start + (">\n" + "".join(f"    {line}\n" for line in inside) + "  </implementation>\n" if inside else "/>\n")

    def feed(self, versions):
        return f'<?xml version="1.0" encoding="utf-8"?>\n<interface xmlns="{NS}">\n' + self.head + "".join(versions) + "</interface>\n"

    def write(self):
        for name, text in self.feeds.items():
            with open(self.address(name), "w", encoding="utf-8") as file:
                file.write(text)

    def chosen(self):
        """The ids of the best choice, by interface."""
        return {self.address(name): id_ for name, id_ in self.best.items()}

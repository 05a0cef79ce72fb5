#!/usr/bin/env python3
"""Chooses from random feeds with the proved program and with 0install, and counts where the two don't choose the same.

The program is crates/zi/out/zi; the gate leaves it there. Some feeds need nothing else: groups in groups, an import, versions
with modifiers, platforms, stabilities, languages and dates, over the platforms and version ranges that a user may ask for.
Others are programs of several feeds that need one another (tests/programs.py); what is to be chosen for these is also worked out
here by the rules of docs/ (tests/universes.py). All are the same in every run; a number on the command line asks for as many of
each. Last comes the demonstration, whose best choice is known. The status is 1 where one is chosen otherwise.

0install walks what the root's command needs before what the root itself needs, so it is held to the rules with that one change.
English is asked for alone, since the two rank several languages otherwise, and no version ends with a dash, which 0install
refuses (docs/DECISIONS.md). Where 0install is missing nothing is compared with it, and what the program isn't built for yet isn't
asked of it.
"""
import os
import random
import shutil
import subprocess
import sys
import tempfile
import xml.etree.ElementTree

import universes
from programs import Demonstration, Program

TOP = os.path.dirname(os.path.dirname(os.path.abspath(__file__)))
PROGRAM = os.path.join(TOP, "crates", "zi", "out", "zi")
NS = "http://zero-install.sourceforge.net/2004/injector/interface"
SYSTEMS = ["Linux", "Linux", "*", "POSIX", "Windows", "Darwin", "MacOSX"]
MACHINES = ["*", "x86_64", "x86_64", "i686", "i386", "i486", "src", "armv7l"]
STABILITIES = ["stable", "testing", "developer", "buggy", "insecure"]
RANGES = ["2..", "..!2", "1..!10", "1.2", "0..!1 | 2..", "!3"]
NOT_BUILT = 95
DEMONSTRATIONS = (1, 2, 10, 40)
SECONDS = 300


class Feeds:
    """Random feeds, from a seed."""

    def __init__(self, seed):
        self.random = random.Random(seed)
        self.count = 0

    def some(self, chance):
        return self.random.random() < chance

    def version(self):
        parts = [str(self.random.choice([0, 1, 2, 3, 10])) for _ in range(self.random.randint(1, 3))]
        modifiers = self.random.choices(["-pre", "-rc", "-post", "-pre1", "-rc2", "-post1", "-1", "-2.1"], k=self.random.choice([0, 0, 0, 1, 2]))
        return ".".join(parts) + "".join(modifiers)

    def platform(self):
        return f"{self.random.choice(SYSTEMS)}-{self.random.choice(MACHINES)}"

    def said(self):
        """What a group or an implementation may say."""
        if self.some(0.5):
            yield "arch", self.platform()
        if self.some(0.5):
            yield "stability", self.random.choice(STABILITIES)
        if self.some(0.4):
            yield "langs", " ".join(self.random.sample(["en", "en_GB", "en_US", "de", "fr", "fr_FR"], self.random.randint(1, 2)))
        if self.some(0.2):
            yield "version-modifier", self.random.choice(["-pre1", "-post", "-1"])

    def implementation(self):
        self.count += 1
        attributes = dict(self.said(), version=self.version(), id=f"i{self.count}")
        if self.some(0.2):
            attributes["released"] = f"2020-01-0{self.random.randint(1, 9)}"
        return f"<implementation{text_of(attributes)} local-path='.'/>"

    def inside(self, depth=0):
        for _ in range(self.random.randint(1, 4)):
            if depth < 2 and self.some(0.3):
                yield f"<group{text_of(self.said())}>" + "".join(self.inside(depth + 1)) + "</group>"
            else:
                yield self.implementation()

    def feed(self, *imports):
        return f"<interface xmlns='{NS}'><name>n</name><summary>s</summary>" + "".join(imports) + "".join(self.inside()) + "</interface>"

    def importing(self, src):
        asked = f" arch='{self.platform()}'" if self.some(0.3) else ""
        return f"<feed src='{src}'{asked}/>"


def text_of(attributes):
    return "".join(f" {name}='{value}'" for name, value in dict(attributes).items())


def chosen(words, env=None):
    """The ids that are chosen, by interface; none where the words are refused."""
    done = subprocess.run(words, env=env, stdout=subprocess.PIPE, stderr=subprocess.DEVNULL, timeout=SECONDS)
    if done.returncode != 0:
        return {}
    selections = xml.etree.ElementTree.fromstring(done.stdout).findall(f"{{{NS}}}selection")
    return {selection.get("interface"): selection.get("id") for selection in selections}


def chosen_here(command, options, root):
    return chosen([PROGRAM, "select", *(["--no-command"] if command is None else ["--command", command]), *options, root])


def chosen_by_0install(command, options, root):
    folder = os.path.dirname(root)
    env = dict(os.environ, HOME=folder, XDG_CONFIG_HOME=folder, XDG_CACHE_HOME=folder, LC_ALL="en.UTF-8", LANGUAGE="")
    return chosen(["0install", "select", "--offline", "--xml", f"--command={command or ''}", *options, root], env)


def chosen_by_rules(asked):
    best = universes.best(universes.load(asked), asked) or {}
    return {interface: candidate.id for interface, candidate in best.items() if candidate}


def choose(number, folder):
    """What the two choose from one feed, and what was asked."""
    feeds = Feeds(number)
    root = os.path.join(folder, "root.xml")
    imports = []
    if feeds.some(0.4):
        imports.append(feeds.importing("more.xml"))
        write(os.path.join(folder, "more.xml"), feeds.feed())
    write(root, feeds.feed(*imports))
    asked = ["--os", feeds.random.choice(["Linux", "Linux", "Windows", "Darwin"]), "--cpu", feeds.random.choice(["x86_64", "x86_64", "i686"])]
    if feeds.some(0.3):
        asked += ["--version", feeds.random.choice(RANGES)]
    return {"here": chosen_here(None, asked, root), "by 0install": chosen_by_0install(None, asked, root)}, asked


def program_here(number, folder):
    """What is chosen for a program of several feeds, by the rules and here, and what was asked."""
    options, asked = Program(number).write(folder)
    return {"by the rules": chosen_by_rules(asked), "here": chosen_here(asked.command, options, asked.root)}, [*options, f"command {asked.command}"]


def program_by_0install(number, folder):
    """The same by 0install, which walks what the root's command needs before what the root itself needs; else by the same rules."""
    options, asked = Program(number).write(folder)
    rules = chosen_by_rules(asked._replace(command_first=True))
    return {"by the rules": rules, "by 0install": chosen_by_0install(asked.command, options, asked.root)}, [*options, f"command {asked.command}"]


def demonstrated(number, folder, choosing):
    """What is to be chosen for the demonstration of a number, and what is."""
    demonstration = Demonstration(DEMONSTRATIONS[number], folder, "  <name>n</name>\n  <summary>s</summary>\n")
    demonstration.write()
    return {"wanted": demonstration.chosen(), "chosen": choosing(None, [], demonstration.address("root"))}, [str(DEMONSTRATIONS[number])]


def is_built_for_needs(folder):
    """Whether the program chooses for a program that needs another; it says so itself where it isn't built for that yet."""
    implementation = "<implementation id='i' version='1' local-path='.'/>"
    root = os.path.join(folder, "root.xml")
    write(root, f"<interface xmlns='{NS}'><group><requires interface='./lib.xml'/>{implementation}</group></interface>")
    write(os.path.join(folder, "lib.xml"), f"<interface xmlns='{NS}'>{implementation}</interface>")
    return subprocess.run([PROGRAM, "select", "--no-command", root], stdout=subprocess.DEVNULL, stderr=subprocess.DEVNULL, timeout=SECONDS).returncode != NOT_BUILT


def write(path, text):
    with open(path, "w", encoding="utf-8") as file:
        file.write(text)


def compare(what, many, ask, top):
    """Asks for so many choices, each over feeds in a folder of its own; how many aren't alike."""
    both = wrong = 0
    answers = {}
    for number in range(many):
        folder = os.path.join(top, f"{what} {number}")
        os.mkdir(folder)
        answers, asked = ask(number, folder)
        first = next(iter(answers.values()))
        if any(answer != first for answer in answers.values()):
            wrong += 1
            print(f"{what} {number}, {' '.join(asked)}: " + ", ".join(f"{answer} {who}" for who, answer in answers.items()))
        elif first:
            both += 1
        if (number + 1) % 100 == 0:
            print(f"{number + 1} of {many} {what}", flush=True)
    print(f"{many} {what} ({', '.join(answers)}): {both} chosen alike, {many - both - wrong} with nothing to choose for all, {wrong} chosen otherwise")
    return wrong


def main():
    many = int(sys.argv[1]) if len(sys.argv) > 1 else 300
    wrong = 0
    with tempfile.TemporaryDirectory(prefix="zi-agree-") as top:
        is_there = os.path.exists(PROGRAM)
        has_other = shutil.which("0install")
        is_built = is_there and is_built_for_needs(top)
        if not has_other:
            print("0install isn't on the path: nothing is compared with it")
        if not is_there:
            print("crates/zi/out/zi isn't there: run the gate first")
        elif not is_built:
            print("the program isn't built yet for programs that need others: it isn't asked about them")
        if is_there and has_other:
            wrong += compare("feeds", many, choose, top)
        if is_built:
            wrong += compare("programs", many, program_here, top)
            wrong += compare("demonstrations", len(DEMONSTRATIONS), lambda number, folder: demonstrated(number, folder, chosen_here), top)
        if has_other:
            # while the program isn't asked about them, a few show that the rules by which they are judged are 0install's
            wrong += compare("programs for 0install", many if is_built else many // 10, program_by_0install, top)
            wrong += compare("demonstrations for 0install", len(DEMONSTRATIONS), lambda number, folder: demonstrated(number, folder, chosen_by_0install), top)
    sys.exit(1 if wrong else 0)


if __name__ == "__main__":
    main()

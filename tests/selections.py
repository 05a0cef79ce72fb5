#!/usr/bin/env python3
"""Reads selections documents that 0install and zi write with the proved program, and compares with what they say.

The programs are crates/sels_rows/out/sels_rows and crates/zi/out/zi; the gate leaves them there. Random feeds of a program and what it needs, with bindings,
runners, loops of arguments, digests, conditions and elements that the format doesn't have, are given to `0install select --xml`, with
a command and without one. What its document says is worked out here by the rules of docs/FORMATS.md: the canonical document, by each
selection its digests in the order of use, and that this document is read as the same. What `zi select` writes of the same feeds is to be
that canonical document itself. All are the same in every run; a number on the command line asks for as many. Where 0install is missing
what zi writes is read alone. The status is 1 where one is read otherwise.

0install takes the white space off both ends of attributes: a separator of a loop that is a space is empty in its document, and that is
refused (docs/FORMATS.md), so none of these feeds has one.
"""
import hashlib
import os
import random
import re
import shutil
import subprocess
import sys
import tempfile
import xml.etree.ElementTree
from base64 import b32encode
from xml.sax.saxutils import escape, quoteattr

TOP = os.path.dirname(os.path.dirname(os.path.abspath(__file__)))
PROGRAM = os.environ.get("SELECTIONS_PROGRAM", os.path.join(TOP, "crates", "sels_rows", "out", "sels_rows"))
SELECTING = os.environ.get("ZI_PROGRAM", os.path.join(TOP, "crates", "zi", "out", "zi"))
NS = "http://zero-install.sourceforge.net/2004/injector/interface"
OTHER = "http://zero-install.sourceforge.net/2006/namespaces/0compile"
SECONDS = 120
COUNT = 60
SHIMS = ("executable-in-var", "executable-in-path")
UNBUILT = (*SHIMS, "overlay", "binding")
ADMITTED = ("2..", "1..!3", "..!2 | 2.18")
REFUSED = ("..!2", "3..", "!2.18")


def digests(text):
    """The digits of a text's digests, by algorithm."""
    data = text.encode()
    return {
        "sha1new": hashlib.sha1(data).hexdigest(),
        "sha256": hashlib.sha256(data).hexdigest(),
        "sha256new": b32encode(hashlib.sha256(data).digest()).decode().rstrip("="),
    }


def name_of(algorithm, digits):
    return algorithm + ("_" if algorithm == "sha256new" else "=") + digits


class Feeds:
    """Random feeds of one program, from a seed."""

    def __init__(self, seed, folder):
        self.random = random.Random(seed)
        self.folder = folder
        self.libraries = [os.path.join(folder, f"lib{n}.xml") for n in range(self.random.randint(0, 3))]
        self.runners = [os.path.join(folder, f"run{n}.xml") for n in range(self.random.randint(0, 2))]

    def some(self, chance):
        return self.random.random() < chance

    def text(self):
        return self.random.choice(["", "a", "a  b", "${X} $$", "<&>\"'", "tab\tend", "line\nend", "é ∀", "run"])

    def condition(self):
        if self.some(0.8):
            return {}
        return {"if-0install-version": self.random.choice(ADMITTED + REFUSED)}

    def binding(self):
        kind = self.random.choice(["environment"] * 6 + list(UNBUILT))
        if kind != "environment":
            given = {"executable-in-var": {"name": "V"}, "executable-in-path": {"name": "p"}, "overlay": {"src": "x", "mount-point": "/y"}, "binding": {"path": "z"}}
            wanted = {"command": self.random.choice(["run", "other"])} if kind in SHIMS and self.some(0.5) else {}
            return element(kind, {**given[kind], **wanted})
        attributes = {"name": self.random.choice(["PATH", "A b", "É"])}
        attributes["insert" if self.some(0.5) else "value"] = self.text()
        if self.some(0.5):
            attributes["mode"] = self.random.choice(["prepend", "append", "replace"])
        if self.some(0.4):
            attributes["separator"] = self.random.choice([":", ";", "", " "])
        if self.some(0.3):
            attributes["default"] = self.text()
        return element("environment", {**attributes, **self.condition()})

    def bindings(self):
        return [self.binding() for _ in range(self.random.choice([0, 0, 1, 2]))]

    def argument(self):
        if self.some(0.7):
            return element("arg", {}, [escape(self.text())])
        given = {"item-from": self.random.choice(["X", "ÄB"])}
        if self.some(0.5):
            given["separator"] = self.random.choice([":", ",", "; -"])
        return element("for-each", given, [element("arg", {}, [escape(self.text())]) for _ in range(self.random.randint(0, 2))])

    def arguments(self):
        return [self.argument() for _ in range(self.random.choice([0, 1, 3]))]

    def dependency(self):
        if not self.libraries or self.some(0.1):
            return element("requires", {"interface": os.path.join(self.folder, "absent.xml"), "importance": "recommended"})
        given = {"interface": self.random.choice(self.libraries)}
        if self.some(0.3):
            given["importance"] = self.random.choice(["essential", "recommended"])
        if self.some(0.3):
            given["version"] = "1..!9"
        inside = self.bindings() + ([element("version", {"not-before": "1"})] if self.some(0.2) else [])
        return element("requires", {**given, **self.condition()}, inside)

    def restriction(self):
        return element("restricts", {"interface": self.random.choice(self.libraries), "version": "..!9"}) if self.libraries else ""

    def runner(self, level):
        if level >= len(self.runners) or self.some(0.4):
            return ""
        given = {"interface": self.runners[level]}
        if self.some(0.5):
            given["command"] = "run"
        inside = self.arguments() + self.bindings()
        self.random.shuffle(inside)
        return element("runner", given, inside)

    def command(self, name, level):
        given = {"name": name}
        if self.some(0.9):
            given["path"] = self.text() or "p"
        inside = self.arguments() + self.bindings() + [self.dependency() for _ in range(self.random.choice([0, 0, 1]))]
        inside.append(self.runner(level))
        if self.some(0.2):
            inside.append(element("working-dir", {"src": "."}))
        self.random.shuffle(inside)
        return element("command", given, inside)

    def implementation(self, number, level):
        said = digests(f"{number}")
        attributes = {"version": self.random.choice(["1", "0.8-rc1", "2-post"]), "id": f"i{number}"}
        inside = []
        if self.some(0.6):
            attributes["local-path"] = "."
        else:
            kept = self.random.sample(sorted(said), self.random.randint(1, 3))
            if self.some(0.5):
                attributes["id"] = name_of(kept[0], said[kept[0]])
            inside.append(element("manifest-digest", {algorithm: said[algorithm] for algorithm in kept}))
            inside.append(element("file", {"href": "http://localhost/a", "size": "1", "dest": "a"}))
        for name, values in (("arch", ["*-*", "Linux-*"]), ("released", ["2020-01-01"]), ("stability", ["stable", "testing"])):
            if self.some(0.4):
                attributes[name] = self.random.choice(values)
        inside += self.bindings() + [self.command("run", level)] + ([self.command("other", level)] if self.some(0.3) else [])
        if number == 0:
            inside += [self.dependency() for _ in range(self.random.randint(0, 3))] + ([self.restriction()] if self.some(0.3) else [])
        self.random.shuffle(inside)
        return element("implementation", attributes, inside)

    def write(self):
        root = os.path.join(self.folder, "root.xml")
        levels = {root: 0, **{path: 9 for path in self.libraries}, **{path: level + 1 for level, path in enumerate(self.runners)}}
        for number, (path, level) in enumerate(levels.items()):
            with open(path, "w", encoding="utf-8") as file:
                inside = "<name>n</name><summary>s</summary>" + self.implementation(number, level)
                file.write(f'<interface xmlns="{NS}" xmlns:c="{OTHER}">{inside}</interface>')
        return root


def element(name, attributes, inside=()):
    given = "".join(f" {key}={quoteattr(value, {chr(10): '&#10;', chr(9): '&#9;'})}" for key, value in attributes.items())
    return f"<{name}{given}>{''.join(inside)}</{name}>"


def counts(e):
    """Whether its condition doesn't leave an element out."""
    return e.get("if-0install-version") not in REFUSED


def those(e, *names):
    return [child for child in e if child.tag in {f"{{{NS}}}{name}" for name in names} and counts(child)]


def of(attributes):
    """Attributes that have a value."""
    return [(name, value) for name, value in attributes if value is not None]


def other_than(default, value):
    return None if value in (None, default) else value


class Said:
    """What a document says: an element with attributes and what stands in it, which is a text or elements."""

    def __init__(self, name, attributes=(), inside=(), text=""):
        self.name, self.attributes, self.inside, self.text = name, list(attributes), list(inside), text

    def lines(self, depth=0, first=()):
        start = "  " * depth + f"<{self.name}" + "".join(f' {name}="{in_value(value)}"' for name, value in [*first, *self.attributes])
        if self.inside:
            yield start + ">"
            for child in self.inside:
                yield from child.lines(depth + 1)
            yield "  " * depth + f"</{self.name}>"
        elif self.text:
            yield f"{start}>{in_text(self.text)}</{self.name}>"
        else:
            yield start + "/>"


def in_text(text):
    return escape(text, {"\r": "&#13;"})


def in_value(text):
    return escape(text, {'"': "&quot;", "\t": "&#9;", "\n": "&#10;", "\r": "&#13;"})


def bindings(e):
    for child in those(e, "environment", *UNBUILT):
        name = child.tag.rpartition("}")[2]
        if name == "environment":
            given = [("name", child.get("name")), ("insert", child.get("insert")), ("value", child.get("value")), ("mode", other_than("prepend", child.get("mode")))]
            given += [("separator", other_than(":", child.get("separator"))), ("default", child.get("default"))]
            yield Said(name, of(given))
        elif name in SHIMS and e.tag in {f"{{{NS}}}requires", f"{{{NS}}}runner"}:
            yield Said(name, of([("name", child.get("name")), ("command", other_than("run", child.get("command")))]))
        else:
            yield Said(name)


def requires(e):
    for child in those(e, "requires"):
        yield Said("requires", of([("interface", child.get("interface")), ("importance", other_than("essential", child.get("importance")))]), bindings(child))


def arguments(e):
    for child in those(e, "arg", "for-each"):
        if child.tag == f"{{{NS}}}arg":
            yield Said("arg", text="".join([child.text or "", *(inner.tail or "" for inner in child)]))
        else:
            yield Said("for-each", of([("item-from", child.get("item-from")), ("separator", other_than(":", child.get("separator")))]), arguments(child))


def runners(e):
    for child in those(e, "runner"):
        yield Said("runner", [("interface", child.get("interface")), ("command", child.get("command", "run"))], [*bindings(child), *arguments(child)])


def commands(e):
    for child in those(e, "command"):
        folder = [Said("working-dir") for _ in those(child, "working-dir")[:1]]
        yield Said("command", of([("name", child.get("name")), ("path", child.get("path"))]),
                   [*bindings(child), *folder, *requires(child), *arguments(child), *runners(child)])


def digests_of(e):
    """By each algorithm the digits of the first digest, the id's behind those of the elements."""
    found = {}
    for child in those(e, "manifest-digest"):
        for algorithm in ("sha1new", "sha256", "sha256new"):
            if child.get(algorithm) is not None:
                found.setdefault(algorithm, child.get(algorithm))
    spelled = re.fullmatch(r"(sha1new|sha256)=([0-9a-f]+)|(sha256new)_([A-Z2-7]{52})", e.get("id"))
    if spelled:
        found.setdefault(spelled[1] or spelled[3], spelled[2] or spelled[4])
    return found


def selection(e):
    interface, found = e.get("interface"), digests_of(e)
    given = [("interface", interface), ("id", e.get("id")), ("version", e.get("version")), ("from-feed", other_than(interface, e.get("from-feed")))]
    given += [(name, e.get(name)) for name in ("local-path", "arch", "released", "stability")]
    said = [Said("manifest-digest", [(name, found[name]) for name in ("sha1new", "sha256", "sha256new") if name in found])] if found else []
    return Said("selection", of(given), [*said, *bindings(e), *requires(e), *commands(e)])


def answer(document):
    """What the program is to write of a document."""
    root = xml.etree.ElementTree.fromstring(document)
    selected = those(root, "selection")
    said = Said("selections", of([("interface", root.get("interface")), ("command", root.get("command"))]), map(selection, selected))
    lines = ['<?xml version="1.0" encoding="utf-8"?>', *said.lines(first=[("xmlns", NS)])]
    for found in map(digests_of, selected):
        if found:
            lines.append("use " + " ".join(name_of(name, found[name]) for name in ("sha256new", "sha256", "sha1new") if name in found))
    return "".join(line + "\n" for line in [*lines, "the same"]).encode()


def of_0install(folder, root, command):
    """The document that 0install writes, or None where it chooses nothing."""
    if not shutil.which("0install"):
        return None
    env = dict(os.environ, HOME=folder, XDG_CONFIG_HOME=folder, XDG_CACHE_HOME=folder, LC_ALL="C.UTF-8", LANGUAGE="")
    return output(["0install", "select", "--xml", "--console", f"--command={command}", root], env)


def of_zi(folder, root, command):
    """The same of zi."""
    env = dict(os.environ, ZI_STORE=os.path.join(folder, "store"))
    return output([SELECTING, "select", *(["--command", command] if command else ["--no-command"]), root], env)


def output(words, env):
    done = subprocess.run(words, env=env, stdin=subprocess.DEVNULL, stdout=subprocess.PIPE, stderr=subprocess.DEVNULL, timeout=SECONDS)
    return done.stdout if done.returncode == 0 else None


def read(document):
    return subprocess.run([PROGRAM, "document"], input=document, stdout=subprocess.PIPE, timeout=SECONDS, check=True).stdout


def is_right(document, is_canonical):
    """Whether a document is read as what it says, and, where it is to be, is the canonical one; else both are printed."""
    is_, wanted = read(document), answer(document)
    if is_ == wanted and (not is_canonical or is_.startswith(document)):
        return True
    print(f"{document.decode()}\nis read as\n{is_.decode()}\nnot as\n{wanted.decode()}")
    return False


def main():
    count = int(sys.argv[1]) if len(sys.argv) > 1 else COUNT
    documents, wrong = {of_0install: 0, of_zi: 0}, 0
    for number in range(count):
        with tempfile.TemporaryDirectory() as folder:
            root = Feeds(number, folder).write()
            for command in ("run", ""):
                for written in documents:
                    document = written(folder, root, command)
                    if document is None:
                        continue
                    documents[written] += 1
                    if not is_right(document, written is of_zi):
                        wrong += 1
                        print(f"feeds {number}, command {command!r}")
    print(f"of {count} programs {documents[of_0install]} documents of 0install and {documents[of_zi]} of zi were read, {wrong} otherwise")
    if wrong or not documents[of_zi]:
        sys.exit(1)


if __name__ == "__main__":
    main()

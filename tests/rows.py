#!/usr/bin/env python3
"""Runs the proved program on real folders, and compares standard output, standard error and exit status to the byte.

The program is crates/zi/out/zi, and that of its parts crates/speed/out/speed; the gate leaves both there. Each row is a function; one
that fails is named, and the status is then 1.
"""
import os
import re
import shutil
import subprocess
import sys
import tempfile

TOP = os.path.dirname(os.path.dirname(os.path.abspath(__file__)))
PROGRAM = os.path.join(TOP, "crates", "zi", "out", "zi")
PARTS = os.path.join(TOP, "crates", "speed", "out", "speed")
SECONDS = 120
NS = "http://zero-install.sourceforge.net/2004/injector/interface"


class Wrong(Exception):
    pass


def run(words, folder, stdout=subprocess.PIPE, feeds=None):
    env = {name: value for name, value in os.environ.items() if name not in ("ZI_FEEDS", "ZI_STORE")}
    if feeds is not None:
        env["ZI_FEEDS"] = feeds
    try:
        done = subprocess.run([PROGRAM] + words, cwd=folder, env=env, stdout=stdout, stderr=subprocess.PIPE, timeout=SECONDS)
    except subprocess.TimeoutExpired:
        raise Wrong(f"{words}: no end within {SECONDS} s") from None
    return done.returncode, done.stdout, done.stderr


def expect(got, status, out, err):
    for what, is_, wanted in (("status", got[0], status), ("output", got[1], out), ("errors", got[2], err)):
        if is_ != wanted:
            raise Wrong(f"{what}: {is_!r}, not {wanted!r}")


def write(folder, name, text):
    path = os.path.join(folder, name)
    with open(path, "wb") as file:
        file.write(text if isinstance(text, bytes) else text.encode())
    return path


def impl(id_, version):
    return f'<implementation id="{id_}" version="{version}" local-path="{id_}"/>'


def feed(*parts):
    return f'<interface xmlns="{NS}">\n' + "".join(f"  {part}\n" for part in parts) + "</interface>\n"


def document(root, attributes, *children):
    inside = "".join(f"    {child}\n" for child in children)
    end = f">\n{inside}  </selection>" if children else "/>"
    return (
        '<?xml version="1.0" encoding="utf-8"?>\n'
        f'<selections xmlns="{NS}" interface="{root}">\n'
        f'  <selection interface="{root}" {attributes}{end}\n'
        "</selections>\n"
    ).encode()


def selections(root, id_, version):
    folder = root[: root.rindex("/") + 1]
    return document(root, f'id="{id_}" version="{version}" local-path="{folder}{id_}" stability="testing"')


def picks(folder, text, options, id_):
    """The id that is selected of a feed under these options, whatever else is said of it."""
    root = write(folder, "picks.xml", text)
    status, out, err = run(SELECT + options + [root], folder)
    if status != 0 or err or f' id="{id_}" '.encode() not in out:
        raise Wrong(f"{options}: {status}, {out!r}, {err!r}, not {id_}")


def five_versions(folder):
    rows = [("a", "1.2-pre1"), ("b", "1.2"), ("c", "1.2-post"), ("e", "1.2.10"), ("d", "1.2.2")]
    root = write(folder, "hello.xml", feed(*(impl(i, v) for i, v in rows)))
    expect(run(["select", "--no-command", root], folder), 0, selections(root, "e", "1.2.10"), b"")


def one_version_and_ties(folder):
    root = write(folder, "one.xml", feed(impl("only", "0")))
    expect(run(["select", "--no-command", root], folder), 0, selections(root, "only", "0"), b"")
    root = write(folder, "ties.xml", feed(impl("m", "1.2"), impl("z", "01.2-"), impl("k", "1.2")))
    expect(run(["select", "--no-command", root], folder), 0, selections(root, "z", "01.2-"), b"")


def the_examples(folder):
    root = write(folder, "hello.xml", open(os.path.join(TOP, "examples", "hello.xml"), "rb").read())
    expect(run(["select", "--no-command", root], folder), 0, selections(root, "e", "1.2.10"), b"")
    root = write(folder, "groups.xml", open(os.path.join(TOP, "examples", "groups.xml"), "rb").read())
    written = selections(root, "third", "1.3-rc1").replace(b'"third"', b'"third &amp; last"').replace(b"/third", b"/second")
    expect(run(["select", "--no-command", root], folder), 0, written, b"")
    for name in ("editor", "buffer", "regex"):
        write(folder, f"{name}.xml", open(os.path.join(TOP, "examples", f"{name}.xml"), "rb").read())
    root = os.path.join(folder, "editor.xml")
    selects(folder, ["--no-command", root], editor="editor-1", buffer="buffer-1", regex="regex-1")
    expect(run(SELECT + ["--version", "2..", root], folder), 73, b"zi-proof 1\nl 0 1 5 3 0\ne\n", b"zi: no solution\n")


SELECT = ["select", "--no-command"]
START = f'<interface xmlns="{NS}">'
END = "</interface>"


OPEN = f'{START}<implementation id="a" version="1" local-path="a">'


def inside(part):
    """A feed of one implementation that holds this."""
    return f"{OPEN}{part}</implementation>{END}"


def bad_feeds(folder):
    rows = [
        ("", "document 4 at 0"),
        (b"\xff\xfe", "document 1 at 0"),
        (f'<a:interface xmlns="{NS}"/>', "document 6 at 0"),
        (START, f"document 4 at {len(START)}"),
        ("<interface/>", "feed 1 at 0"),
        (f'{START}<group><implementation id="x"/></group>{END}', f"feed 3 at {len(START) + len('<group>')}"),
        (f"{START}{impl('a', '1-foo')}{END}", f"feed 3 at {len(START)}"),
        (f"{START}{impl('a', '1')}{impl('a', '2')}{END}", f"feed 13 at {len(START + impl('a', '1'))}"),
        (inside('<requires interface="/b" version="..3"/>'), f"feed 4 at {len(OPEN)}"),
        (f'{START}<implementation id="a" version="1" arch="Linux"/>{END}', f"feed 5 at {len(START)}"),
        (inside('<manifest-digest sha256="x"/>'), f"feed 6 at {len(OPEN)}"),
        (inside('<environment insert=""/>'), f"feed 7 at {len(OPEN)}"),
        (inside('<file href="/x" dest="x"/>'), f"feed 8 at {len(OPEN)}"),
        (f'{START}<implementation id="a" version="1" stability="best"/>{END}', f"feed 11 at {len(START)}"),
        (f'{START}<feed src="{"../" * 40}x"/>{END}', f"feed 12 at {len(START)}"),
        # the lesser place goes first, and there the lesser kind
        (f'{START}<feed/><implementation version="1"/>{END}', f"feed 9 at {len(START)}"),
        (f'{START}<implementation arch="-"/>{END}', f"feed 2 at {len(START)}"),
    ]
    for text, fault in rows:
        root = write(folder, "f.xml", text)
        expect(run(SELECT + [root], folder), 67, b"", f"zi: bad feed {root}: {fault}\n".encode())
    # a feed of the web that says another address than it was read under
    write(folder, "http%3A%2F%2Fexample.com%2Fu.xml", f'<interface xmlns="{NS}" uri="http://example.com/v.xml"/>')
    root = "http://example.com/u.xml"
    expect(run(SELECT + [root], folder, feeds=folder), 67, b"", f"zi: bad feed {root}: feed 10 at 0\n".encode())


def finds_none(folder, words, feeds=None):
    """Nothing fits together: what is written proves that."""
    status, out, err = run(["select"] + words, folder, feeds=feeds)
    if status != 73 or err != b"zi: no solution\n" or not out.startswith(b"zi-proof 1\n"):
        raise Wrong(f"{words}: {status}, {out!r}, {err!r}, not a refutation")
    proof = write(folder, "found", out)
    expect(run(["refute"] + words + [proof], folder, feeds=feeds), 0, b"yes\n", b"")


def certified(folder, words, document, feeds=None):
    """The document and its certificate: what is written with `--proof` shows that the document selects the best choice."""
    status, out, err = run(["select", "--proof"] + words, folder, feeds=feeds)
    if status != 0 or err:
        raise Wrong(f"{words}: {status}, {out!r}, {err!r}")
    files = [write(folder, "document", document), write(folder, "certificate", out)]
    expect(run(["check"] + words + files, folder, feeds=feeds), *YES)
    return files


CHOSEN = re.compile(r'<selection interface="([^"]*)" id="([^"]*)"')


def chosen(folder, words, feeds=None):
    """The ids of what is selected, by the last part of the interface."""
    status, out, err = run(["select"] + words, folder, feeds=feeds)
    if status != 0 or err:
        raise Wrong(f"{words}: {status}, {out!r}, {err!r}")
    certified(folder, words, out, feeds)
    return {interface.rsplit("/", 1)[1].removesuffix(".xml"): id_ for interface, id_ in CHOSEN.findall(out.decode())}


def selects(folder, words, **wanted):
    got = chosen(folder, words)
    if got != wanted:
        raise Wrong(f"{words}: {got}, not {wanted}")


def needing(id_, version, *parts, attributes=""):
    return f'<implementation id="{id_}" version="{version}" local-path="{id_}"{attributes}>{"".join(parts)}</implementation>'


def requires(interface, attributes="", versions=None):
    inside = f'<version {versions}/>' if versions else ""
    return f'<requires interface="{interface}.xml" {attributes}>{inside}</requires>'


def restricts(interface, versions):
    return f'<restricts interface="{interface}.xml" version="{versions}"/>'


def feeds_of(folder, **feeds):
    """Writes feeds, and gives the path of the first."""
    paths = [write(folder, f"{name}.xml", feed(*parts)) for name, parts in feeds.items()]
    return paths[0]


def nothing_that_fits(folder):
    rows = [
        f'<interface xmlns="{NS}"/>',
        feed('<implementation id="b" version="1"/>'),
        feed(f'<implementation id="b" version="1" local-path="b" stability="buggy"/>'),
        feed(needing("b", "1", requires("lib"))),
        feed("<group>" + requires("lib") + impl("a", "1") + "</group>"),
        feed(needing("b", "1", requires("f", "version='2..'"))),
    ]
    for text in rows:
        finds_none(folder, ["--no-command", write(folder, "f.xml", text)])
    # a command that no implementation has
    finds_none(folder, [write(folder, "f.xml", feed(impl("a", "1")))])
    finds_none(folder, ["--command", "test", write(folder, "f.xml", feed('<group main="x">' + impl("a", "1") + "</group>"))])
    # of an empty feed exactly this is the proof
    root = write(folder, "f.xml", f'<interface xmlns="{NS}"/>')
    expect(run(["select", root], folder), 73, NONE_AT_ALL, b"zi: no solution\n")
    expect(run(["select", "--proof", root], folder), 73, NONE_AT_ALL, b"zi: no solution\n")


def what_need_not_be_there(folder):
    """What isn't active or isn't a candidate isn't looked at, and a recommended interface may be missing."""
    rows = [
        (needing("a", "1", requires("b", "os='Windows'")), "a"),
        (needing("a", "1", requires("b", "use='testing'")), "a"),
        (impl("a", "1") + '<implementation id="b" version="2"><requires interface="b.xml"/></implementation>', "a"),
        (needing("a", "1", '<command name="run"><requires interface="b.xml"/></command>'), "a"),
        (needing("b", "2", requires("b")) + impl("a", "1"), "a"),
        (needing("b", "1", requires("b", "importance='recommended'")), "b"),
        (needing("b", "1", restricts("b", "5..")), "b"),
    ]
    for text, id_ in rows:
        root = write(folder, "f.xml", feed(text))
        expect(run(SELECT + [root], folder), 0, selections(root, id_, "1"), b"")


def dependencies_with_their_document(folder):
    group = '<group stability="stable" version="2">' + requires("lib") + '<group version-modifier="-rc1"><implementation id="x" local-path="x" stability="developer"/></group></group>'
    root = feeds_of(folder, app=[group], lib=[impl("l", "1")])
    lib = os.path.join(folder, "lib.xml")
    wanted = (
        '<?xml version="1.0" encoding="utf-8"?>\n'
        f'<selections xmlns="{NS}" interface="{root}">\n'
        f'  <selection interface="{root}" id="x" version="2-rc1" local-path="{folder}/x" stability="developer">\n'
        f'    <requires interface="{lib}"/>\n'
        "  </selection>\n"
        f'  <selection interface="{lib}" id="l" version="1" local-path="{folder}/l" stability="testing"/>\n'
        "</selections>\n"
    )
    expect(run(SELECT + [root], folder), 0, wanted.encode(), b"")


def the_command_that_is_wanted(folder):
    kept = os.path.join(folder, "feeds")
    os.mkdir(kept)
    write(kept, "http%3A%2F%2Fexample.com%2Fhello.xml", SIGNED)
    root = "http://example.com/hello.xml"
    name = "sha1new=da39a3ee5e6b4b0d3255bfef95601890afd80709"
    wanted = (
        '<?xml version="1.0" encoding="utf-8"?>\n'
        f'<selections xmlns="{NS}" interface="{root}" command="run">\n'
        f'  <selection interface="{root}" id="{name}" version="1" stability="testing">\n'
        f'    <manifest-digest {name.replace("=", chr(61) + chr(34))}"/>\n'
        '    <command name="run" path="bin/hello"/>\n'
        "  </selection>\n"
        "</selections>\n"
    )
    expect(run(["select", root], folder), 0, wanted.encode(), b"")
    expect(run(["select", "--command", "run", root], folder), 0, wanted.encode(), b"")
    # a runner is chosen too, with the command that it names
    root = feeds_of(
        folder,
        app=[needing("a", "1", '<command name="run" path="x"><runner interface="sh.xml" command="go"/></command>')],
        sh=[needing("s", "2"), needing("t", "1", '<command name="go" path="sh"/>')],
    )
    selects(folder, [root], app="a", sh="t")
    selects(folder, ["--no-command", root], app="a")


def the_best_that_fits(folder):
    root = feeds_of(folder, root=[needing("r", "2", requires("lib", "version='..!2'"))], lib=[impl("n", "2"), impl("o", "1.9")])
    selects(folder, SELECT[1:] + [root], root="r", lib="o")
    # the first place where two choices differ decides, not the sum of all
    root = feeds_of(
        folder,
        root=[needing("r", "1", requires("a"), requires("b"))],
        a=[needing("a3", "3", restricts("b", "1")), impl("a2", "2")],
        b=[impl(f"b{n}", str(n)) for n in range(9, 0, -1)],
    )
    selects(folder, SELECT[1:] + [root], root="r", a="a3", b="b1")
    # an implementation whose dependency no version meets is passed over
    root = feeds_of(folder, r=[needing("a", "2", requires("l", versions="not-before='3'")), impl("b", "1")], l=[impl("c", "2")])
    selects(folder, SELECT[1:] + [root], r="b")
    # in a ring each is asked for once
    root = feeds_of(
        folder,
        a=[needing("a", "1", requires("b"))],
        b=[needing("b", "1", requires("c"))],
        c=[needing("c2", "2", requires("a"), restricts("c", "..!2")), needing("c1", "1", requires("a"))],
    )
    selects(folder, SELECT[1:] + [root], a="a", b="b", c="c1")
    # programs of 64 and of 32 bits aren't mixed
    root = feeds_of(
        folder,
        root=[needing("n", "2", requires("lib"), attributes=' arch="Linux-x86_64"'), needing("o", "1", requires("lib"), attributes=' arch="Linux-i686"')],
        lib=[needing("l", "1", attributes=' arch="Linux-i586"')],
    )
    selects(folder, SELECT[1:] + [root], root="o", lib="l")


def what_is_recommended(folder):
    r = [impl("r2", "2"), impl("r1", "1")]
    wanted = "importance='recommended'"
    root = feeds_of(folder, root=[needing("a", "1", requires("r", wanted), requires("e"))], e=[needing("e", "1", requires("r", "version='1'"))], r=r)
    selects(folder, SELECT[1:] + [root], root="a", e="e", r="r1")
    root = feeds_of(folder, root=[needing("a", "1", requires("r", wanted))], r=r)
    selects(folder, SELECT[1:] + [root], root="a", r="r2")
    root = feeds_of(folder, root=[needing("a", "1", requires("r", wanted + " version='5..'"))], r=r)
    selects(folder, SELECT[1:] + [root], root="a")


def certificates(folder):
    """With `--proof` the blocks are written by which what goes before is passed over, and nothing else."""
    root = feeds_of(folder, r=[needing("a", "2", requires("l", "version='3..'")), impl("b", "1")], l=[impl("c", "2")])
    expect(run(SELECT + [root], folder), 0, selections(root, "b", "1"), b"")
    expect(run(SELECT + ["--proof", root], folder), 0, b"zi-proof 1\nb 1 1 3 0\ne\n", b"")
    # it shows a choice to be the best, and that none is valid it doesn't
    proof = write(folder, "proof", b"zi-proof 1\nb 1 1 3 0\ne\n")
    expect(run(["refute", "--no-command", root, proof], folder), *REJECTED)
    root = feeds_of(folder, one=[impl("a", "1")])
    expect(run(SELECT + ["--proof", root], folder), 0, b"zi-proof 1\ne\n", b"")


def selections_checked(folder):
    """Only the document of the best choice is right, by a certificate of the same feeds; its layout and the order of its items say nothing."""
    inside = '<environment name="A" value="1"/>' + requires("l", "version='..!3'")
    root = feeds_of(folder, r=[needing("b", "2", requires("l", "version='4..'")), needing("a", "1", inside)], l=[impl("d", "3"), impl("c", "2"), impl("e", "1")])
    words = ["--no-command", root]
    text = run(["select"] + words, folder)[1]
    document, proof = certified(folder, words, text)
    check = ["check"] + words + [document]
    for what, other in (('id="c"', 'id="e"'), ('version="2"', 'version="3"'), ('value="1"', 'value="2"'), ('stability="testing"', 'stability="stable"'), ('<environment name="A" value="1"/>', "")):
        if what.encode() not in text:
            raise Wrong(f"{what} isn't in {text!r}")
        write(folder, "document", text.replace(what.encode(), other.encode(), 1))
        expect(run(check + [proof], folder), *REJECTED)
    items = re.findall(rb"  <selection .*?(?:/>\n  </selection>|/>)\n(?=  <selection|</selections)", text, re.DOTALL)
    turned = text.replace(b"".join(items), b"".join(reversed(items))).replace(b"\n", b"\n\n").replace(b'"', b"'")
    if len(items) != 2 or turned.count(b"<selection ") != 2:
        raise Wrong(f"{items}")
    write(folder, "document", turned)
    expect(run(check + [proof], folder), *YES)
    write(folder, "document", text)
    expect(run(check + [write(folder, "other", b"zi-proof 1\ne\n")], folder), *REJECTED)
    expect(run(["check", "--no-command", "--version", "..!2"] + words[1:] + [document, proof], folder), *REJECTED)
    expect(run(["check", root, document, proof], folder), *REJECTED)
    expect(run(check + [write(folder, "other", b"zi-proof 1\n")], folder), 77, b"", b"zi: bad proof at line 2\n")
    expect(run(check + ["no"], folder), 75, b"", b"zi: no file no\n")
    expect(run(["check"] + words + ["no", "no"], folder), 75, b"", b"zi: no file no\n")
    write(folder, "document", text.replace(b"selections", b"choices"))
    expect(run(check + ["no"], folder), 76, b"", b"zi: bad selections: fault 2\n")
    other = write(folder, "long", b" " * (4 * 1024 * 1024 + 1))
    expect(run(["check"] + words + [other, proof], folder), 68, b"", f"zi: {other} is longer than 4194304 bytes\n".encode())


def three_that_differ():
    """Three interfaces that must be of different versions."""

    def differs(version, *others):
        return "".join(restricts(other, f"!{version}") for other in others)

    def three(id_, *others):
        return [needing(f"{id_}3", "3", differs("3", *others)), needing(f"{id_}2", "2", differs("2", *others)), impl(f"{id_}1", "1")]

    return {"p": three("p", "q", "r"), "q": three("q", "r"), "r": three("r")}


def searches(folder):
    """A choice that only a search finds, and a search that may learn too little."""
    needs = requires("a") + requires("p") + requires("q") + requires("r")
    root = feeds_of(
        folder,
        root=[needing("root", "1", needs)],
        a=[needing("a2", "2", *(restricts(name, "2..") for name in "pqr")), impl("a1", "1")],
        **three_that_differ(),
    )
    selects(folder, SELECT[1:] + [root], root="root", a="a1", p="p3", q="q2", r="r1")
    expect(run(SELECT + ["--search", "0", root], folder), 74, b"", b"zi: search spent after 0 lemmas\n")
    # where nothing has to be learned no lemma is needed
    selects(folder, SELECT[1:] + ["--search", "0", os.path.join(folder, "r.xml")], r="r3")
    # without the last versions nothing fits, and the lemmas of that search refute
    for name in "pqr":
        path = os.path.join(folder, f"{name}.xml")
        with open(path, encoding="utf-8") as file:
            text = file.read()
        write(folder, f"{name}.xml", text.replace(impl(f"{name}1", "1"), ""))
    finds_none(folder, ["--no-command", root])
    proof = write(folder, "proof", NONE_AT_ALL)
    expect(run(["refute", "--no-command", root, proof], folder), *REJECTED)


def imports(folder):
    root = write(folder, "root.xml", feed('<feed src="more.xml"/>', '<feed src="none.xml"/>', '<feed src="win.xml" arch="Windows-*"/>', impl("a", "1")))
    expect(run(SELECT + [root], folder), 0, selections(root, "a", "1"), b"")
    more = write(folder, "more.xml", feed('<feed src="sub/last.xml"/>', impl("b", "2")))
    write(folder, "win.xml", "<bad/>")
    wanted = f'id="b" version="2" from-feed="{more}" local-path="{folder}/b" stability="testing"'
    expect(run(SELECT + [root], folder), 0, document(root, wanted), b"")
    os.mkdir(os.path.join(folder, "sub"))
    last = write(folder, "sub/last.xml", feed(impl("c", "3")))
    wanted = f'id="c" version="3" from-feed="{last}" local-path="{folder}/sub/c" stability="testing"'
    expect(run(SELECT + [root], folder), 0, document(root, wanted), b"")
    write(folder, "sub/last.xml", f"{START}{impl('c', 'x')}{END}")
    expect(run(SELECT + [root], folder), 67, b"", f"zi: bad feed {last}: feed 3 at {len(START)}\n".encode())
    write(folder, "sub/last.xml", b" " * 4194305)
    expect(run(SELECT + [root], folder), 68, b"", f"zi: {last} is longer than 4194304 bytes\n".encode())
    os.remove(last)
    os.mkdir(last)
    expect(run(SELECT + [root], folder), 65, b"", f"zi: cannot read {last}\n".encode())


def dependencies_are_loaded_first(folder):
    root = write(folder, "root.xml", feed('<implementation id="a" version="1" local-path="a"><requires interface="lib.xml"/></implementation>'))
    finds_none(folder, ["--no-command", root])
    lib = write(folder, "lib.xml", "<interface/>")
    expect(run(SELECT + [root], folder), 67, b"", f"zi: bad feed {lib}: feed 1 at 0\n".encode())


def whole_feeds(folder):
    groups = (
        "\ufeff<?xml version='1.0'?><!-- groups -->\n"
        f"<interface xmlns='{NS}' uri='/elsewhere'><name>n</name><group version='1.2'><group version-modifier='-rc1' local-path='x'>"
        "<implementation id='a'/><implementation id='b' version='1.1'/></group>"
        "<implementation id='c' version='1.0' local-path='c'/></group></interface>"
    )
    root = write(folder, "groups.xml", groups)
    written = selections(root, "a", "1.2-rc1").replace(b'local-path="' + folder.encode() + b"/a", b'local-path="' + folder.encode() + b"/x")
    expect(run(SELECT + [root], folder), 0, written, b"")
    text = feed("<implementation id='&amp;&lt;&gt;&quot;&#9;&#xe9;' version='1' local-path='./p//../&#10;&#13;'/>")
    root = write(folder, "escapes.xml", text)
    written = selections(root, "I", "1").replace(b'id="I"', 'id="&amp;&lt;&gt;&quot;&#9;\u00e9"'.encode()).replace(b'/I"', b'/&#10;&#13;"')
    expect(run(SELECT + [root], folder), 0, written, b"")
    signed = SIGNED.replace(b"sha1new=da39a3ee5e6b4b0d3255bfef95601890afd80709", b"a").replace(b'version="1">', b'version="1" local-path="a">')
    root = write(folder, "signed.xml", signed)
    expect(run(SELECT + [root], folder), 0, selections(root, "a", "1"), b"")


YES = (0, b"yes\n", b"")
REJECTED = (78, b"", b"zi: rejected\n")
NONE_AT_ALL = b"zi-proof 1\nl 0 1 0\ne\n"


def proofs_that_refute(folder):
    """A proof is read behind the loading, and says yes where each lemma follows and the last one has no literal."""
    root = write(folder, "none.xml", f'<interface xmlns="{NS}"/>')
    proof = os.path.join(folder, "proof")
    words = ["refute", root, proof]
    expect(run(words, folder), 75, b"", f"zi: no file {proof}\n".encode())
    rows = [
        (NONE_AT_ALL, YES),
        # the hint is missing, or cites what isn't there, or there is no lemma
        (b"zi-proof 1\nl 0 0\ne\n", REJECTED),
        (b"zi-proof 1\nl 0 2 0\ne\n", REJECTED),
        (b"zi-proof 1\ne\n", REJECTED),
        # a block, which no refutation has
        (b"zi-proof 1\nl 0 1 0\nb 1 1 1 0\ne\n", REJECTED),
        # it is cut, or has an empty line more, or isn't a proof at all
        (b"zi-proof 1\nl 0 1 0\n", (77, b"", b"zi: bad proof at line 3\n")),
        (NONE_AT_ALL + b"\n", (77, b"", b"zi: bad proof at line 4\n")),
        (b"", (77, b"", b"zi: bad proof at line 1\n")),
    ]
    for text, wanted in rows:
        write(folder, "proof", text)
        expect(run(words, folder), *wanted)
    write(folder, "proof", NONE_AT_ALL)
    expect(run(["refute", "--no-command", "--os", "Windows", root, proof], folder), *YES)
    # something fits, or did under other options: the limit takes the one implementation away
    root = write(folder, "one.xml", feed(impl("a", "1")))
    expect(run(["refute", "--no-command", root, proof], folder), *REJECTED)
    expect(run(["refute", "--no-command", "--version", "2..", root, proof], folder), *YES)
    # the feeds are loaded first
    os.remove(proof)
    root = write(folder, "bad.xml", "<interface/>")
    expect(run(["refute", root, proof], folder), 67, b"", f"zi: bad feed {root}: feed 1 at 0\n".encode())
    expect(run(["refute", os.path.join(folder, "no.xml"), proof], folder), 66, b"", b"zi: no feed for the root\n")


def limits(folder):
    def of(count):
        ids = "".join(f"<implementation id='{n}'/>" for n in range(count))
        return write(folder, "most.xml", f"{START}<group version='1' local-path='a'>{ids}</group>{END}")

    root = of(65536)
    written = selections(root, "9999", "1").replace(b"/9999", b"/a")
    expect(run(SELECT + [root], folder), 0, written, b"")
    expect(run(SELECT + [of(65537)], folder), 71, b"", b"zi: more than 65536 candidates\n")

    def asking(count):
        asked = "".join(f"<requires interface='{n}.xml'/>" for n in range(count))
        return write(folder, "asks.xml", f"{START}<implementation id='a' version='1' local-path='a'>{asked}</implementation>{END}")

    finds_none(folder, ["--no-command", asking(4095)])
    expect(run(SELECT + [asking(4096)], folder), 70, b"", b"zi: more than 4096 interfaces\n")

    def importing(count):
        imported = "".join(f"<feed src='{n}.xml'/>" for n in range(count))
        return write(folder, "imports.xml", f"{START}{imported}{impl('a', '1')}{END}")

    root = importing(8191)
    expect(run(SELECT + [root], folder), 0, selections(root, "a", "1"), b"")
    expect(run(SELECT + [importing(8192)], folder), 69, b"", b"zi: more than 8192 feeds\n")


def many_implementations(folder):
    root = write(folder, "many.xml", feed(*(impl(f"i{n}", str(n)) for n in range(20000))))
    expect(run(["select", "--no-command", root], folder), 0, selections(root, "i19999", "19999"), b"")


def feeds_that_cannot_be_read(folder):
    root = os.path.join(folder, "no.xml")
    expect(run(["select", "--no-command", root], folder), 66, b"", b"zi: no feed for the root\n")
    write(folder, "file.xml", "x")
    root = os.path.join(folder, "file.xml", "a")
    expect(run(["select", "--no-command", root], folder), 65, b"", f"zi: cannot read {root}\n".encode())
    line = f"zi: cannot read {folder}\n".encode()
    expect(run(["select", "--no-command", folder], folder), 65, b"", line)


def a_long_feed(folder):
    root = write(folder, "long.xml", b" " * 4194305)
    line = f"zi: {root} is longer than 4194304 bytes\n".encode()
    expect(run(["select", "--no-command", root], folder), 68, b"", line)
    root = write(folder, "full.xml", feed(impl("a", "1")).encode().ljust(4194304))
    expect(run(["select", "--no-command", root], folder), 0, selections(root, "a", "1"), b"")


def an_output_that_fails(folder):
    if not os.path.exists("/dev/full"):
        return
    root = write(folder, "hello.xml", feed(impl("a", "1")))
    with open("/dev/full", "wb") as full:
        got = run(["select", "--no-command", root], folder, full)
    expect(got, 93, None, b"zi: cannot write\n")


def wrong_words(folder):
    rows = [
        ([], 0),
        (["selects"], 0),
        (["--help", "x"], 1),
        (["--version", "--help"], 1),
        (["demo"], 1),
        (["demo", "0"], 1),
        (["demo", "1001"], 1),
        (["demo", "x"], 1),
        (["demo", "40", "40"], 2),
        (["select"], 1),
        (["select", "--"], 2),
        (["select", "/a", "--proof"], 2),
        (["refute", "/a"], 2),
        (["refute", "/a", "b", "c"], 3),
        (["refute", "--proof", "/a", "b"], 1),
        (["select", "--command", "", "/a"], 2),
        (["select", "--command", "a", "--no-command", "/a"], 3),
        (["select", "--no-command"], 2),
        (["select", "--no-command", "a"], 2),
        (["select", "--no-command", "/a", "/b"], 3),
        (["select", "--no-command", "--no-command", "/a"], 2),
        (["select", "--no-command", "--", "--", "/a"], 3),
        (["select", "--no-command", "--proof", "--proof", "/a"], 3),
        (["select", "--no-command", "/a\tb"], 2),
        (["select", "--no-command", "--version=1", "/a"], 2),
        (["select", "--no-command", "--version", "..3", "/a"], 3),
        (["select", "--no-command", "--version", "1.2-foo", "/a"], 3),
        (["select", "--no-command", "--version", "1.2.", "/a"], 3),
        (["select", "--no-command", "--version", "", "/a"], 3),
        (["select", "--no-command", "--version", "1", "--version", "1", "/a"], 4),
        (["select", "--no-command", "--level", "preferred", "/a"], 3),
        (["select", "--no-command", "--network", "none", "/a"], 3),
        (["select", "--no-command", "--os", "", "/a"], 3),
        (["select", "--no-command", "--search", "5"], 4),
        (["select", "--search", "4000000001", "--no-command", "/r"], 2),
        (["select", "--no-command", "--rate", "/a", "x", "stable", "--rate", "/a", "x", "stable", "/a"], 8),
        (["select", b"--no-command\xff"], 1),
        (["select", "--no-command", b"/\xff"], 2),
        (["select", "--no-command", "/a", b"\xff"], 3),
        (["select", "--rate", "/a", b"\xff", "stable", "--no-command", "/a"], 3),
        (["select", "x", b"\xff"], 1),
        ([b"\xff"], 0),
    ]
    for words, index in rows:
        expect(run(words, folder), 64, b"", f"zi: usage at word {index}\n".encode())


def names_on_a_terminal(folder):
    """The line stays one line whatever a name has in it, and nothing in it is an order to a terminal; what prints stands as it is."""
    root = write(folder, "feed.xml", feed(impl("a", "1")))
    rows = [
        ("no\nzi: rejected", "no\\u{a}zi: rejected"),
        ("no\n", "no\\u{a}"),
        ("\n", "\\u{a}"),
        ("\n\n", "\\u{a}\\u{a}"),
        ("\x1b[2J\x1b]0;title\x07\r\t\x7f", "\\u{1b}[2J\\u{1b}]0;title\\u{7}\\u{d}\\u{9}\\u{7f}"),
        ("\x80\x85\x9b31m\xa0", "\\u{80}\\u{85}\\u{9b}31m\xa0"),
        ("\u061c\u200d\u200e\u200f\u2010", "\\u{61c}\u200d\\u{200e}\\u{200f}\u2010"),
        ("\u2027\u2028\u2029\u202a\u202e\u202f", "\u2027\\u{2028}\\u{2029}\\u{202a}\\u{202e}\u202f"),
        ("\u2065\u2066\u2069\u206a", "\u2065\\u{2066}\\u{2069}\u206a"),
        ("\u00e4\u4e2d\U0001f600\\u{a}", "\u00e4\u4e2d\U0001f600\\u{a}"),
    ]
    for name, shown in rows:
        expect(run(["refute", "--no-command", root, name], folder), 75, b"", f"zi: no file {shown}\n".encode())
    os.mkdir(os.path.join(folder, "d\nzi: \x9b31m\u202e"))
    needs = '<requires interface="d&#10;zi: &#x9b;31m&#x202e;"/>'
    forged = write(folder, "forged.xml", feed(f'<implementation id="a" version="1" local-path=".">{needs}</implementation>'))
    line = f"zi: cannot read {folder}/d\\u{{a}}zi: \\u{{9b}}31m\\u{{202e}}\n"
    expect(run(["select", "--no-command", forged], folder), 65, b"", line.encode())


def demonstrations(folder):
    """The best choice of the demonstration, whatever feeds and store are there."""
    for n in (1, 2, 40):
        lines = [f"interfaces {n + 4}", f"candidates {2 * n + 10}", f"selections {n + 4}", f"first {n + 1}", "checked yes"]
        expect(run(["demo", str(n)], folder, feeds=os.path.join(folder, "absent")), 0, "".join(line + "\n" for line in lines).encode(), b"")


def help_and_version(folder):
    status, out, err = run(["--help"], folder)
    options = ["--no-command", "--version", "--version-for", "--os", "--cpu", "--lang", "--level", "--network", "--use", "--rate", "--command", "--search", "--proof"]
    missing = [word for word in ["zi select", "zi why", "zi conflict", "zi refute", "zi demo", "zi --help", "zi --version", "Linux", "x86_64", "ZI_FEEDS"] + options if word.encode() not in out]
    if status != 0 or err or missing or not out.endswith(b"\n"):
        raise Wrong(f"{status}, {missing}, {out!r}, {err!r}")
    expect(run(["--version"], folder), 0, b"zi 0.1\n", b"")


def options(folder):
    versions = feed(impl("a", "2.6"), impl("b", "3-pre"), impl("c", "3"), impl("d", "3.2.2"))
    picks(folder, versions, [], "d")
    picks(folder, versions, ["--version", "..!3.2.2"], "c")
    picks(folder, versions, ["--version", "2.6..!3 | 3.2.2.."], "d")
    picks(folder, versions, ["--version", "2.6..!3"], "b")
    picks(folder, versions, ["--version", "!3.2.2"], "c")
    picks(folder, versions, ["--version-for", os.path.join(folder, "picks.xml"), "..!3"], "b")
    picks(folder, versions, ["--version-for", "/other.xml", "..!3"], "d")
    root = write(folder, "picks.xml", versions)
    finds_none(folder, ["--no-command", "--version", "5..", root])

    def on(id_, version, arch):
        return f'<implementation id="{id_}" version="{version}" local-path="{id_}" arch="{arch}"/>'

    machines = feed(on("x", "1", "Linux-i686"), on("y", "1", "Linux-x86_64"))
    picks(folder, machines, [], "y")
    picks(folder, machines, ["--cpu", "i686"], "x")
    systems = feed(on("l", "1", "Linux-*"), on("w", "1", "Windows-*"), on("p", "0", "POSIX-*"))
    picks(folder, systems, [], "l")
    picks(folder, systems, ["--os", "Windows"], "w")
    picks(folder, systems, ["--os", "Darwin"], "p")

    def speaks(id_, version, langs):
        return f'<implementation id="{id_}" version="{version}" local-path="{id_}" langs="{langs}"/>'

    tongues = feed(speaks("g", "2", "en_GB"), speaks("f", "1", "fr"))
    picks(folder, tongues, ["--lang", "fr", "--lang", "en"], "f")
    picks(folder, tongues, ["--lang", "en", "--lang", "fr"], "g")
    picks(folder, tongues, [], "g")

    levels = feed('<implementation id="s" version="1" local-path="s" stability="stable"/>', '<implementation id="t" version="2" local-path="t" stability="testing"/>')
    root = os.path.join(folder, "picks.xml")
    picks(folder, levels, [], "s")
    picks(folder, levels, ["--level", "stable"], "s")
    picks(folder, levels, ["--level", "testing"], "t")
    picks(folder, levels, ["--rate", root, "s", "preferred", "--level", "testing"], "s")
    picks(folder, levels, ["--rate", root, "s", "buggy"], "t")
    picks(folder, levels, ["--rate", root, "", "preferred", "--rate", root, "t", "packaged"], "t")
    picks(folder, levels, ["--rate", "/other.xml", "t", "preferred"], "s")
    rated = document(root, f'id="t" version="2" local-path="{folder}/t" stability="preferred"')
    expect(run(SELECT + ["--rate", root, "t", "preferred", root], folder), 0, rated, b"")

    fetched = f'<implementation id="r" version="2"><manifest-digest sha256="{"0" * 64}"/><file href="http://example.com/x" size="1" dest="x"/></implementation>'
    root = write(folder, "net.xml", feed(impl("a", "1"), fetched))
    written = document(root, 'id="r" version="2" stability="testing"', f'<manifest-digest sha256="{"0" * 64}"/>')
    expect(run(SELECT + [root], folder), 0, written, b"")
    expect(run(SELECT + ["--network", "minimal", root], folder), 0, selections(root, "a", "1"), b"")
    expect(run(SELECT + ["--network", "off", root], folder), 0, selections(root, "a", "1"), b"")

    used = feed('<implementation id="a" version="1" local-path="a"><requires interface="b.xml" use="testing"/></implementation>')
    root = write(folder, "use.xml", used)
    expect(run(SELECT + ["--use", "other", root], folder), 0, selections(root, "a", "1"), b"")
    finds_none(folder, ["--no-command", "--use", "other", "--use", "testing", root])

    root = write(folder, "--dash.xml", feed(impl("a", "1")))
    expect(run(SELECT + ["--", root], folder), 0, selections(root, "a", "1"), b"")
    root = write(folder, "a b.xml", feed(impl("a", "1")))
    expect(run(SELECT + [root], folder), 0, selections(root, "a", "1"), b"")


def what_is_said_of_the_chosen(folder):
    whole = '<implementation id="&lt;" version="1" version-modifier="-rc1" local-path="/x" arch="POSIX-i586" released="2020-01-01" stability="stable" langs="en"/>'
    root = write(folder, "whole.xml", feed(whole))
    attributes = 'id="&lt;" version="1-rc1" local-path="/x" arch="POSIX-i586" released="2020-01-01" stability="stable"'
    expect(run(SELECT + [root], folder), 0, document(root, attributes), b"")


SHA1 = "da39a3ee5e6b4b0d3255bfef95601890afd80709"
E32 = "4OYMIQUY7QOBJGX36TEJS35ZEQT24QPEMSNZGTFESWMRW6CSXBKQ"


def parts_of_the_chosen(folder):
    """Digests by algorithm, what its groups say before what it says itself, and no command, for none is wanted."""
    own = '<environment value="1" default="d" separator=";" mode="append" name="A"/><overlay src="."/>'
    text = feed(
        '<group main="bin/x" released="2021-02-03"><environment name="PATH" insert="bin"/><command name="test" path="t"><arg>-v</arg></command>'
        f'<group><environment name="Q" value="&lt;&quot;" mode="replace"/><implementation id="sha1new={SHA1}" version="2" local-path="here">'
        f'{own}<manifest-digest sha256new="{E32}"/></implementation></group></group>'
    )
    root = write(folder, "parts.xml", text)
    wanted = document(
        root,
        f'id="sha1new={SHA1}" version="2" local-path="{folder}/here" released="2021-02-03" stability="testing"',
        f'<manifest-digest sha1new="{SHA1}" sha256new="{E32}"/>',
        '<environment name="PATH" insert="bin"/>',
        '<environment name="Q" value="&lt;&quot;" mode="replace"/>',
        '<environment name="A" value="1" mode="append" separator=";" default="d"/>',
        "<overlay/>",
    )
    expect(run(SELECT + [root], folder), 0, wanted, b"")
    # a default that is written all the same isn't told, and neither is what fetches
    text = feed(
        f'<implementation id="x" version="1"><manifest-digest sha256="{"0" * 64}"/><environment name="B" insert="" mode="prepend" separator=":"/>'
        '<file href="/f" size="3" dest="x"/></implementation>'
    )
    root = write(folder, "defaults.xml", text)
    wanted = document(
        root,
        'id="x" version="1" stability="testing"',
        f'<manifest-digest sha256="{"0" * 64}"/>',
        '<environment name="B" insert=""/>',
    )
    expect(run(SELECT + [root], folder), 0, wanted, b"")


def commands_that_are_not_wanted(folder):
    """What commands need is loaded, and neither they nor it is selected."""
    inside = '<command name="run"><runner interface="shell.xml"><arg>-e</arg></runner><requires interface="lib.xml"/></command>'
    root = write(folder, "root.xml", feed(f"<group>{inside}" + impl("a", "1") + "</group>"))
    expect(run(SELECT + [root], folder), 0, selections(root, "a", "1"), b"")
    write(folder, "lib.xml", feed(impl("l", "1")))
    shell = write(folder, "shell.xml", feed('<implementation id="s" version="1" local-path="s"><command name="run" path="sh"/></implementation>'))
    expect(run(SELECT + [root], folder), 0, selections(root, "a", "1"), b"")
    write(folder, "shell.xml", f"{START}{impl('s', 'x')}{END}")
    expect(run(SELECT + [root], folder), 67, b"", f"zi: bad feed {shell}: feed 3 at {len(START)}\n".encode())


TOO_LARGE = (72, b"", b"zi: more than 8000000 literals\n")


def too_many_literals(folder):
    """As many literals as there may be, and one more, after all is loaded."""

    def versions(name, count, inside="", more=""):
        ids = "".join(f"<implementation id='i{n}'/>" for n in range(count))
        return write(folder, name, feed(f"<group version='1' local-path='a'>{inside}{ids}{more}</group>"))

    # each of 3,000 asks for one of 3,000
    root = versions("root.xml", 3000, '<requires interface="lib.xml"/>')
    lib = versions("lib.xml", 3000)
    expect(run(SELECT + [root], folder), *TOO_LARGE)
    versions("lib.xml", 2000)
    selects(folder, SELECT[1:] + [root], root="i999", lib="i999")
    write(folder, "lib.xml", "<interface/>")
    expect(run(SELECT + [root], folder), 67, b"", f"zi: bad feed {lib}: feed 1 at 0\n".encode())
    # R that ask for one of L have 3 R + L + R L literals, and each that asks for what nobody offers has one more
    versions("lib.xml", 2826)
    none = "<requires interface='none.xml'/>"

    def asking(count):
        more = "".join(f"<implementation id='n{n}'>{none}</implementation>" for n in range(count))
        return versions("root.xml", 2826 - count, '<requires interface="lib.xml"/>', more)

    spare = 8000000 - (3 * 2826 + 2826 + 2826 * 2826)
    # those can't be chosen, so the last id of the other 406 is the first that can
    selects(folder, SELECT[1:] + [asking(spare)], root="i99", lib="i999")
    expect(run(SELECT + [asking(spare + 1)], folder), *TOO_LARGE)
    # commands have their constraints too, wanted or not
    command = '<command name="run"><requires interface="lib.xml"/></command>'
    versions("lib.xml", 3000)
    expect(run(SELECT + [versions("root.xml", 3000, command)], folder), *TOO_LARGE)
    versions("lib.xml", 2000)
    root = versions("root.xml", 3000, command)
    written = selections(root, "i999", "1").replace(b"/i999", b"/a")
    expect(run(SELECT + [root], folder), 0, written, b"")


def web_addresses(folder):
    kept = os.path.join(folder, "feeds")
    os.mkdir(kept)
    root = "http://example.com/hello.xml"
    local = write(folder, "local.xml", feed(impl("a", "1")))
    write(kept, "http%3A%2F%2Fexample.com%2Fhello.xml", feed(f'<feed src="{local}"/>', '<feed src="https://example.com/a-b_c.1?x=~%20"/>'))
    # in a feed of the web a path is joined to its address
    joined = "http://example.com" + local
    finds_none(folder, ["--no-command", root])
    write(kept, "http%3A%2F%2Fexample.com" + local.replace("/", "%2F"), "<bad/>")
    expect(run(SELECT + [root], folder), 67, b"", f"zi: bad feed {joined}: feed 1 at 0\n".encode())
    os.rename(kept, os.path.join(folder, "elsewhere"))
    expect(run(SELECT + [root], folder), 66, b"", b"zi: no feed for the root\n")
    line = f"zi: bad feed {joined}: feed 1 at 0\n".encode()
    expect(run(SELECT + [root], folder, feeds=os.path.join(folder, "elsewhere")), 67, b"", line)
    # a local feed may import one of the web, whose implementations aren't local
    write(folder, "elsewhere/https%3A%2F%2Fexample.com%2Fa-b_c.1%3Fx%3D~%20".replace("~", "%7E").replace("%20", "%2520"), feed(impl("w", "9")))
    root = write(folder, "root.xml", feed('<feed src="https://example.com/a-b_c.1?x=~%20"/>', impl("a", "1")))
    expect(run(SELECT + [root], folder, feeds="elsewhere"), 0, selections(root, "a", "1"), b"")


SIGNED = (
    '<?xml version="1.0" encoding="utf-8"?>\n'
    "<?xml-stylesheet type='text/xsl' href='interface.xsl'?>\n"
    f'<interface xmlns="{NS}" uri="http://example.com/hello.xml" xmlns:compile="http://example.com/compile">\n'
    "<name>hello</name>\n"
    '<group compile:command="make" main="bin/hello">'
    '<implementation id="sha1new=da39a3ee5e6b4b0d3255bfef95601890afd80709" version="1">'
    '<file href="x" size="3" dest="x"/></implementation></group>\n'
    "</interface>\n"
    "<!-- Base64 Signature\niQ==\n-->\n"
).encode()


def says(words, text):
    """What the program of parts prints for the words and the text on its standard input; of a document, `ok` or the kind of its fault and the place."""
    return subprocess.run([PARTS] + words, input=text, stdout=subprocess.PIPE, check=True, timeout=SECONDS).stdout.decode().strip()


def documents(folder):
    end = SIGNED.index(b"</interface>") + len("</interface>")
    rows = [(SIGNED, "ok")]
    # each cut before the end of the root's end tag stops at its length
    rows += [(SIGNED[:n], f"4 {n}") for n in range(end)]
    start = f'<interface xmlns="{NS}">'.encode()
    rows.append((start, f"4 {len(start)}"))
    # 64 groups inside the root: the last one stands at depth 65
    rows.append((start + b"<group>" * 64 + b"</group>" * 64 + b"</interface>", f"8 {len(start) + 63 * len('<group>')}"))
    rows.append((start + b"<group>" * 63 + b"</group>" * 63 + b"</interface>", "ok"))
    rows.append((f'<a:interface xmlns="{NS}"/>'.encode(), "6 0"))
    for text, wanted in rows:
        said = says(["document"], text)
        if said != wanted:
            raise Wrong(f"{text!r}: {said}, not {wanted}")


REFUTATION = b"zi-proof 1\nl 1 0 1 0\nl 2 0 5 2 0\nl 3 0 6 3 0\nl 0 7 4 0\ne\n"
RANGED = (
    b"/r <implementation id='/r1' version='1'><requires interface='/a' version='2..'/></implementation>\n"
    b"/a <implementation id='/a1' version='3'/><implementation id='/a2' version='2'/><implementation id='/a3' version='1'/>\n"
)


def parts_by_themselves(folder):
    rows = [
        (["document"], b"<a>&x;</a>", "5 3"),
        (["hash", "sha256new"], b"", "sha256new_4OYMIQUY7QOBJGX36TEJS35ZEQT24QPEMSNZGTFESWMRW6CSXBKQ"),
        (["manifest", "few"], b"", "sha256new_7FE6ES75NR763VWATRQ73Z3JIW2JHR5B5TMURAUCR5T6BZRPLQ5Q"),
        (["proof", "3"], REFUTATION, "yes"),
        (["proof", "4"], REFUTATION, "no"),
        (["build", "2"], RANGED, "5 variables, 3 constraints, 7 literals"),
        (["build", "0"], RANGED, "loaded"),
        (["search", "0"], b"1 2 0\n-1 2 0\n1 -2 0\n-1 -2 0\n", "spent\nzi-proof 1\ne"),
    ]
    for words, text, wanted in rows:
        said = says(words, text)
        if said != wanted:
            raise Wrong(f"{words}: {said}, not {wanted}")
    for words in ([], ["hash"], ["hash", "md5"], ["manifest", "all"], ["proof", "x"], ["run"]):
        status = subprocess.run([PARTS] + words, input=b"", stdout=subprocess.DEVNULL, stderr=subprocess.DEVNULL, timeout=SECONDS).returncode
        if status != 2:
            raise Wrong(f"{words}: status {status}, not 2")


ROWS = [
    five_versions,
    one_version_and_ties,
    the_examples,
    bad_feeds,
    nothing_that_fits,
    what_need_not_be_there,
    dependencies_with_their_document,
    the_command_that_is_wanted,
    the_best_that_fits,
    what_is_recommended,
    certificates,
    selections_checked,
    searches,
    imports,
    dependencies_are_loaded_first,
    whole_feeds,
    what_is_said_of_the_chosen,
    proofs_that_refute,
    limits,
    many_implementations,
    feeds_that_cannot_be_read,
    a_long_feed,
    an_output_that_fails,
    wrong_words,
    names_on_a_terminal,
    demonstrations,
    help_and_version,
    options,
    parts_of_the_chosen,
    commands_that_are_not_wanted,
    too_many_literals,
    web_addresses,
    documents,
    parts_by_themselves,
]


def main():
    for program in (PROGRAM, PARTS):
        if not os.path.exists(program):
            print(f"{os.path.relpath(program, TOP)} isn't there: run the gate first")
            return 1
    failed = 0
    for number, row in enumerate(ROWS, 1):
        print(f"{number} of {len(ROWS)}: {row.__name__}", flush=True)
        folder = tempfile.mkdtemp(prefix="zi-rows-")
        try:
            row(folder)
        except Wrong as wrong:
            failed += 1
            print(f"{row.__name__}: {wrong}")
        finally:
            shutil.rmtree(folder)
    print(f"rows on real files: {len(ROWS) - failed} passed, {failed} failed")
    return 1 if failed else 0


if __name__ == "__main__":
    sys.exit(main())

#!/usr/bin/env python3
"""Runs the proved program's `run` and `launch` over real folders and real programs, and compares what the programs are started with.

The program is found, and each row is run, as in store.py. The programs are shell scripts; `shows` writes its words, each in brackets.
"""
import os
import shutil
import signal
import subprocess
from xml.sax.saxutils import escape

from download import SPACE, feed, file, held, helper
from shims import shim
from store import EMPTY, PROGRAM, TOP, begin, expect, holds, main, name_of, residues, run, store, write

SHOWS = '#!/bin/sh\nfor word; do printf "[%s]" "$word"; done\n'


def program(folder, name, text=SHOWS):
    """A script under this path."""
    path = os.path.join(folder, name)
    os.makedirs(os.path.dirname(path), exist_ok=True)
    write(folder, name, text.encode())
    os.chmod(path, 0o755)
    return path


def app(folder, inside, name="app"):
    """A local feed with one implementation, whose folder is that of the feed."""
    text = f'<interface xmlns="{SPACE}"><name>{name}</name><summary>a</summary><implementation id="{name}" version="1" local-path=".">{inside}</implementation></interface>'
    return write(folder, f"{name}.xml", text.encode())


def command(path="main", inside="", name="run"):
    return f'<command name="{name}" path="{path}">{inside}</command>'


def selections(folder, root, inside, name="selections"):
    """A document of selections."""
    return write(folder, name, f'<selections xmlns="{SPACE}" interface="{root}" command="run">{inside}</selections>'.encode())


def a_program_is_run(folder):
    program(folder, "main")
    root = app(folder, command(inside="<arg>-v</arg>"))
    expect(run(["run", root], folder), 0, b"[-v]", b"")
    expect(run(["run", "--command", "run", root, "--help", "b"], folder), 0, b"[-v][--help][b]", b"")
    got = run(["select", root], folder)
    holds(f"selections {got}", got[0] == 0)
    expect(run(["launch", write(folder, "s", got[1]), "c"], folder), 0, b"[-v][c]", b"")


def the_example(folder):
    root = os.path.join(TOP, "examples", "greeter.xml")
    expect(run(["run", root, "reader"], folder), 0, b"hello reader\n", b"")
    expect(run(["run", root], folder), 0, b"hello world\n", b"")


def words_as_they_are(folder):
    program(folder, "main")
    root = app(folder, command())
    words = ["", " ", "a b", "'", '"', "a\nb", "\n", "$HOME", "${HOME}", "$$", "*", "\\", "\\n", "-", "--", "--proof", "\u00e4\u4e2d\U0001f600"]
    expect(run(["run", root] + words, folder), 0, "".join(f"[{word}]" for word in words).encode(), b"")


def chain_of_runners(folder):
    """The words of a runner, its runner's before it, then the path, then the arguments, then the user's."""
    for name, path in (("sh", "bin/sh"), ("py", "bin/py")):
        os.makedirs(os.path.join(folder, name))
        program(os.path.join(folder, name), path, '#!/bin/sh\necho "$PATH"\nprintf "[%s]" "$0"; for word; do printf "[%s]" "$word"; done\n')
    sh = app(os.path.join(folder, "sh"), command("bin/sh", "<arg>-x</arg>"), "sh")
    py = app(os.path.join(folder, "py"), command("bin/py", f'<arg>-S</arg><runner interface="{sh}"><arg>-e</arg></runner>'), "py")
    os.makedirs(os.path.join(folder, "app"))
    write(os.path.join(folder, "app"), "main.py", b"")
    inside = '<environment name="PATH" insert="bin"/>' + command("main.py", f'<arg>-v</arg><runner interface="{py}"><arg>-u</arg></runner>')
    root = app(os.path.join(folder, "app"), inside)
    words = f"[{folder}/sh/./bin/sh][-x][-e][{folder}/py/./bin/py][-S][-u][{folder}/app/./main.py][-v][--w]".replace("/./", "/")
    for path, wanted in ((None, f"{folder}/app/bin:/bin:/usr/bin"), ("/x", f"{folder}/app/bin:/x"), ("", f"{folder}/app/bin:")):
        got = launched(["run", root, "--w"], folder, PATH=path)
        holds(f"{path}: {got}", got == (0, f"{wanted}\n{words}".encode(), b""))


def launched(words, folder, **variables):
    """As run; a variable that is None isn't set."""
    env = {name: value for name, value in dict(os.environ, ZI_STORE=store(folder), **variables).items() if value is not None}
    done = subprocess.run([PROGRAM] + words, cwd=folder, env=env, capture_output=True, timeout=60)
    return done.returncode, done.stdout, done.stderr


def variables_are_changed(folder):
    """The others pass as they are, those that are no text too."""
    program(folder, "main", "#!/bin/sh\nenv -0\n")
    bindings = [
        '<environment name="XDG_DATA_DIRS" mode="append" value="/v"/>',
        '<environment name="OWN" mode="replace" insert=""/>',
        '<environment name="SET" value="v" default="d"/>',
        '<environment name="UNSET" value="v" default="d" separator=";"/>',
        '<environment name="ALONE" value="v"/>',
    ]
    root = app(folder, "".join(bindings) + command())
    env = {b"PATH": b"/bin:/usr/bin", b"SET": b"x", b"OTHER": b"a\nb", b"STRANGE": b"\xff\xfe", b"EMPTY": b""}
    done = subprocess.run([PROGRAM, "run", root], cwd=folder, env=env, capture_output=True, timeout=60)
    got = dict(entry.split(b"=", 1) for entry in done.stdout.split(b"\0") if entry)
    for name in (b"PWD", b"SHLVL", b"_", b"OLDPWD"):
        got.pop(name, None)
    changed = {b"XDG_DATA_DIRS": b"/usr/local/share:/usr/share:/v", b"OWN": folder.encode(), b"SET": b"v:x", b"UNSET": b"v;d", b"ALONE": b"v"}
    holds(f"variables {got} {done.stderr}", got == {**env, **changed})


def variables_as_0install_sets_them(folder):
    """Of five bindings, each where the variable is set, set to nothing, and not set. `insert` of a dot and an empty one are the folder itself here, which
    0install writes with what stands there behind it, so neither is among them."""
    if not shutil.which("0install"):
        print("skipped: 0install isn't installed")
        return
    program(folder, "main", "#!/bin/sh\nenv -0\n")
    for name in ("bin", "lib"):
        os.mkdir(os.path.join(folder, name))
    bindings = [
        '<environment name="A" insert="bin"/>',
        '<environment name="B" insert="lib" mode="append" separator=";"/>',
        '<environment name="C" value="v" mode="replace"/>',
        '<environment name="D" value="v" default="d"/>',
        '<environment name="XDG_DATA_DIRS" insert="lib" mode="append"/>',
    ]
    root = app(folder, "".join(bindings) + command())
    names = ["A", "B", "C", "D", "XDG_DATA_DIRS"]
    for given in ("x:y", "", None):
        env = {name: value for name, value in os.environ.items() if name not in names and not name.startswith("XDG_")}
        env.update({} if given is None else {name: given for name in names})
        env.update(HOME=folder, ZI_STORE=store(folder))
        seen = []
        for words in ([PROGRAM, "run", root], ["0install", "run", "--offline", root]):
            done = subprocess.run(words, cwd=folder, env=env, capture_output=True, timeout=60)
            holds(f"{words}: {done.stderr}", done.returncode == 0)
            all_of = dict(entry.split("=", 1) for entry in done.stdout.decode().split("\0") if entry)
            seen.append({name: all_of.get(name) for name in names})
        holds(f"{given!r}: {seen[0]}, not {seen[1]}", seen[0] == seen[1])


def each_item(folder):
    program(folder, "main")
    root = app(folder, command(inside='<for-each item-from="ITEMS"><arg>[${item}]</arg></for-each>'))
    expect(run(["run", root], folder, ITEMS="a::b"), 0, b"[[a]][[]][[b]]", b"")
    holds("unset", launched(["run", root], folder, ITEMS=None) == (0, b"", b""))


def plans_that_fail(folder):
    program(folder, "main")
    rows = [
        (command(inside="<arg>$NONE</arg>"), 5),
        (command(inside="<arg>a$</arg>"), 5),
        (command(inside='<runner interface="{root}"/>'), 4),
        ('<command name="run"/>', 3),
        (command("/abs"), 7),
    ]
    for inside, number in rows:
        root = os.path.join(folder, "app.xml")
        app(folder, inside.replace("{root}", root))
        expect(run(["run", root], folder), 79, b"", f"zi: cannot launch: fault {number}\n".encode())


def statuses(folder):
    for does, status in (("exit 0", 0), ("exit 3", 3), ("exit 255", 255), ("kill -9 $$", 255), ("kill -15 $$", 255)):
        program(folder, "main", f"#!/bin/sh\necho out\necho err >&2\n{does}\n")
        root = app(folder, command())
        expect(run(["run", root], folder), status, b"out\n", b"err\n")


def input_is_passed_on(folder):
    program(folder, "main", "#!/bin/sh\nexec cat\n")
    root = app(folder, command())
    done = subprocess.run([PROGRAM, "run", root], cwd=folder, input=b"x" * 1_000_000, capture_output=True, timeout=60)
    holds("input", done.returncode == 0 and done.stdout == b"x" * 1_000_000)


def programs_that_do_not_start(folder):
    line = b"zi: cannot start the program\n"
    root = app(folder, command())
    expect(run(["run", root], folder), 92, b"", line)
    os.mkdir(os.path.join(folder, "main"))
    expect(run(["run", root], folder), 92, b"", line)
    os.rmdir(os.path.join(folder, "main"))
    path = program(folder, "main", "#!/no/interpreter\n")
    expect(run(["run", root], folder), 92, b"", line)
    os.chmod(path, 0o644)
    expect(run(["run", root], folder), 92, b"", line)


FILES = {"main": SHOWS.encode()}


def stored(folder):
    """The words that run a stored program."""
    steps = file("main", len(SHOWS)).replace("<file ", '<file executable="true" ')
    digest = name_of(FILES, "X")
    feed(folder, f'<implementation id="x" version="1"><manifest-digest sha256new="{digest[10:]}"/><recipe>{steps}</recipe>{command()}</implementation>')
    held(folder, FILES)
    return ["run", "http://example.com/app.xml", "a"], digest


def a_stored_program(folder):
    """It is fetched once, and read anew before each start: changed, it isn't started, and changed back it is."""
    words, name = stored(folder)
    program_name = os.path.join(store(folder), name, "main")
    env = {"ZI_FETCH": helper(folder)}
    for _ in range(2):
        expect(run(words, folder, **env), 0, b"[a]", b"")
    got = run(["select"] + words[1:2], folder)
    document = write(folder, "selections", got[1])
    expect(run(["launch", document, "b"], folder), 0, b"[b]", b"")
    top = os.path.dirname(program_name)
    kept = os.stat(program_name)
    os.chmod(top, 0o755)
    os.chmod(program_name, 0o755)
    with open(program_name, "ab") as changed:
        changed.write(b"echo changed\n")
    for each in (words, ["launch", document]):
        got = run(each, folder, **env)
        holds(f"changed: {got}", got[0] == 87 and got[1] == b"" and got[2].startswith(f"zi: {name} is damaged: sha256new_".encode()))
    os.truncate(program_name, kept.st_size)
    os.utime(program_name, (0, 0))
    expect(run(words, folder, **env), 0, b"[a]", b"")
    shutil.rmtree(top)
    expect(run(["launch", document], folder), 86, b"", f"zi: {name} is not stored\n".encode())


def documents_that_are_none(folder):
    expect(run(["launch", "no"], folder), 75, b"", b"zi: no file no\n")
    rows = [
        (b"<a", 1),
        (b"<a/>", 2),
        (f'<selections xmlns="{SPACE}" interface="a"/>'.encode(), 3),
        (f'<selections xmlns="{SPACE}" interface="a"><selection interface="a" id="x" version="v"/></selections>'.encode(), 5),
    ]
    for text, number in rows:
        expect(run(["launch", write(folder, "s", text)], folder), 76, b"", f"zi: bad selections: fault {number}\n".encode())


def wherever_the_program_goes(folder):
    """The folders that are exposed are absolute, also where the store is named by a relative path."""
    program(folder, "main", '#!/bin/sh\ncd /\nls "$TREE"\n')
    expect(run(["store", "add", EMPTY], folder), 0, b"stored\n", b"")
    library = f'<interface xmlns="{SPACE}"><name>l</name><summary>l</summary><implementation id="l" version="1"><manifest-digest sha256new="{EMPTY[10:]}"/></implementation></interface>'
    path = write(folder, "library.xml", library.encode())
    root = app(folder, f'<requires interface="{path}"><environment name="TREE" insert="" mode="replace"/></requires>' + command())
    done = subprocess.run([PROGRAM, "run", root], cwd=folder, env=dict(os.environ, ZI_STORE="store"), capture_output=True, timeout=60)
    holds(f"{done}", done.returncode == 0 and done.stdout == b"")


HOSTILE = ["it's", "'", 'a "b"', "a\nb", "$HOME", "${HOME}", "$(id)", "`id`", "\\", "\\n", "a b", "-x", "--", "*", "~", "\u00e4\u4e2d\U0001f600", "x" * 5_000]


def brackets(words):
    return "".join(f"[{word}]" for word in words)


def arguments(words):
    """As arguments of a command: a dollar that stands for itself is written twice."""
    return "".join(f"<arg>{escape(word.replace('$', '$$'))}</arg>" for word in words)


def calling(folder, bindings, text):
    """A program that calls a command of its dependency, which runs through two runners, with the folder's feed, and the words of that call."""
    paths = {name: os.path.join(folder, name) for name in ("outer", "inner", "library")}
    for name, path in paths.items():
        os.makedirs(path, exist_ok=True)
        program(path, name)
    outer = app(paths["outer"], command("outer", "<arg>-o</arg>"), "outer")
    inner = app(paths["inner"], command("inner", f'<arg>-i</arg><runner interface="{outer}">{arguments(HOSTILE[:3])}</runner>'), "inner")
    library = app(paths["library"], command("library", f'{arguments(HOSTILE)}<runner interface="{inner}"><arg/></runner>', "go"), "library")
    program(folder, "main", text)
    root = app(folder, f'<requires interface="{library}">{bindings}</requires>' + command())
    chain = [paths["outer"] + "/outer", "-o", *HOSTILE[:3], paths["inner"] + "/inner", "-i", "", paths["library"] + "/library", *HOSTILE]
    return root, chain


BOTH = '<executable-in-path name="tool" command="go"/><executable-in-var name="TOOL" command="go"/>'
CALLS = '#!/bin/sh\ntool "a b" "$1" && printf "\\n" && "$TOOL" ""\n'


def shims_of(chain):
    """The digest names of the two programs that `BOTH` makes available."""
    text = shim(chain).encode()
    return [name_of({name: text}, "X") for name in ("tool", "TOOL")]


def stored_names(folder):
    return sorted(run(["store", "list"], folder)[1].decode().split())


def commands_of_a_dependency(folder):
    """By PATH and by a variable, through two runners: each word comes as it is. What makes them available is stored once, and verified at each start."""
    root, chain = calling(folder, BOTH, CALLS)
    wanted = f"{brackets(chain[1:])}[a b][u]\n{brackets(chain[1:])}[]".encode()
    expect(run(["run", root, "u"], folder), 0, wanted, b"")
    names = sorted(shims_of(chain))
    holds(f"stored {stored_names(folder)}, not {names}", stored_names(folder) == names)
    before = {name: os.stat(os.path.join(store(folder), name)).st_mtime_ns for name in os.listdir(store(folder))}
    got = run(["select", root], folder)
    document = write(folder, "selections", got[1])
    for words in (["run", root, "u"], ["launch", document, "u"]):
        expect(run(words, folder), 0, wanted, b"")
    holds("added once", before == {name: os.stat(os.path.join(store(folder), name)).st_mtime_ns for name in os.listdir(store(folder))})
    for name in names:
        expect(run(["store", "verify", name], folder), 0, b"sound\n", b"")


def damaged_shims(folder):
    """One that was changed isn't started; one that was purged is made again."""
    root, chain = calling(folder, BOTH, CALLS)
    path = os.path.join(store(folder), shims_of(chain)[1], "TOOL")
    first = run(["run", root, "u"], folder)
    holds(f"first {first}", first[0] == 0)
    document = write(folder, "selections", run(["select", root], folder)[1])
    os.chmod(os.path.dirname(path), 0o755)
    os.chmod(path, 0o755)
    with open(path, "ab") as changed:
        changed.write(b"echo changed\n")
    for words in (["run", root, "u"], ["launch", document, "u"]):
        got = run(words, folder)
        holds(f"changed: {got}", got[0] == 87 and got[1] == b"" and got[2].startswith(f"zi: {shims_of(chain)[1]} is damaged: sha256new_".encode()))
    got = run(["store", "purge", document], folder)
    holds(f"purged: {got}", got[0] == 0 and sorted(got[1].decode().split()) == sorted(shims_of(chain)))
    for words in (["run", root, "u"], ["launch", document, "u"]):
        expect(run(words, folder), 0, first[1], b"")


def shims_at_once(folder):
    """Launchers that begin at one time, over a store that has none of them: each starts its program, and each shim is there once, whole."""
    root, chain = calling(folder, BOTH, CALLS)
    processes = [begin(["run", root, "u"], folder) for _ in range(8)]
    got = [(*process.communicate(timeout=120), process.returncode) for process in processes]
    wanted = f"{brackets(chain[1:])}[a b][u]\n{brackets(chain[1:])}[]".encode()
    holds(f"{got[0]}", all(one == (wanted, b"", 0) for one in got))
    holds(f"stored {stored_names(folder)}", stored_names(folder) == sorted(shims_of(chain)) and residues(folder) == [])


def shims_that_are_refused(folder):
    """A command that isn't there, and a store that can't be written: nothing is started."""
    root, chain = calling(folder, '<executable-in-path name="tool" command="no"/>', CALLS)
    expect(run(["run", root, "u"], folder), 73, b"", b"zi: no solution\n")
    root, chain = calling(folder, BOTH, CALLS)
    write(folder, "store", b"")
    got = run(["run", root, "u"], folder)
    holds(f"{got}", got[0] == 90 and got[1] == b"")


def an_interrupt_goes_to_the_program(folder):
    """An interrupt of the terminal goes to both: zi ends by it, since the kit has no handling of signals, and the program ends as it sees fit."""
    program(folder, "main", '#!/bin/sh\ntrap "echo told; exit 7" INT\necho ready\nwhile :; do sleep 0.1; done\n')
    root = app(folder, command())
    # a shell that starts this in the background has interrupts ignored, and what is ignored stays so in programs
    heard = lambda: signal.signal(signal.SIGINT, signal.SIG_DFL)
    process = subprocess.Popen([PROGRAM, "run", root], cwd=folder, stdout=subprocess.PIPE, start_new_session=True, preexec_fn=heard)
    holds("ready", process.stdout.readline() == b"ready\n")
    os.killpg(process.pid, signal.SIGINT)
    holds("told", process.stdout.read() == b"told\n")
    holds(f"status {process.wait(60)}", process.returncode in (7, -signal.SIGINT))


ROWS = [
    a_program_is_run,
    the_example,
    words_as_they_are,
    chain_of_runners,
    variables_are_changed,
    variables_as_0install_sets_them,
    each_item,
    plans_that_fail,
    statuses,
    input_is_passed_on,
    programs_that_do_not_start,
    a_stored_program,
    documents_that_are_none,
    wherever_the_program_goes,
    commands_of_a_dependency,
    damaged_shims,
    shims_at_once,
    shims_that_are_refused,
    an_interrupt_goes_to_the_program,
]


if __name__ == "__main__":
    main(ROWS)

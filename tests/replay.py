"""What a crash of the machine may leave of a folder after each call of a program, by a record of its calls made with strace.

Of the file system no more is assumed than this: a file's bytes, mode and time last from the moment that the file is synced; the names
in a folder last from the moment that the folder is synced, whatever they name; a name is made, moved or taken away as a whole or not
at all; a link lasts with its name; `syncfs` makes all last. What stood in the folder before the program began lasts, and so does the
folder itself. What wasn't synced may last or not: the top folder's names, the names further in and what files hold are tried each
as they were at the last sync and as they are at the call. A file that was never synced is then empty, with another mode and time.
"""
import ast
import os
import re

CALL = re.compile(r"^(\d+) +(\w+)\((.*)\) += (-?\d+)")
TEXT = re.compile(r'"(?:[^"\\]|\\.)*"')
# calls that change nothing of a folder
READING = set("access close dup dup2 execve fcntl flock getcwd getdents64 ioctl lseek mmap newfstatat pipe2 pread64 read readlink statx".split())
NEVER_SYNCED = (b"", 0o600, 1)


class Unknown(Exception):
    """A call that isn't known to the replay."""


class File:
    def __init__(self, now, kept):
        self.now, self.kept = now, kept

    def keep(self):
        self.kept = self.now


class Folder:
    def __init__(self, now, kept):
        self.now, self.kept = now, kept

    def keep(self):
        self.kept = dict(self.now)


class Link(File):
    pass


def stood(path):
    """What stands under a path, all of it lasting."""
    if os.path.islink(path):
        return Link(os.readlink(path), os.readlink(path))
    if os.path.isdir(path):
        names = {name: stood(os.path.join(path, name)) for name in os.listdir(path)}
        return Folder(names, dict(names))
    status = os.stat(path)
    with open(path, "rb") as file:
        it = (file.read(), status.st_mode & 0o777, int(status.st_mtime))
    return File(it, it)


def every(node):
    yield node
    if isinstance(node, Folder):
        for inside in list(node.now.values()) + list(node.kept.values()):
            yield from every(inside)


def joined(lines):
    """The lines of a record, each call on one of its own."""
    begun = {}
    for line in lines:
        process = line.split(" ", 1)[0]
        if line.rstrip().endswith("<unfinished ...>"):
            begun[process] = line.rstrip()[: -len("<unfinished ...>")]
        elif "resumed>" in line:
            yield begun.pop(process, "") + line.split("resumed>", 1)[1]
        else:
            yield line


def calls(path):
    """The calls of a record that were done: name, arguments and result."""
    with open(path, encoding="utf-8", errors="surrogateescape") as file:
        for line in joined(file):
            call = CALL.match(line)
            if call and int(call[4]) >= 0:
                yield call[2], call[3], int(call[4])


def texts(words):
    return [ast.literal_eval("b" + text) for text in TEXT.findall(words)]


class Disk:
    def __init__(self, root):
        self.root = os.path.abspath(root)
        self.top = stood(root)

    def parts(self, path):
        """The names on the way from the top folder to a path; None for one outside."""
        path = os.path.normpath(path)
        if path == self.root:
            return []
        return path[len(self.root) + 1 :].split("/") if path.startswith(self.root + "/") else None

    def place(self, path):
        """The folder in which a path has its last name, and that name."""
        parts = self.parts(path)
        if not parts:
            return None
        folder = self.top
        for part in parts[:-1]:
            folder = folder.now[part]
        return folder, parts[-1]

    def node(self, path):
        parts = self.parts(path)
        if parts is None:
            return None
        node = self.top
        for part in parts:
            node = node.now[part]
        return node

    def make(self, path, node):
        place = self.place(path)
        if place:
            place[0].now[place[1]] = node

    def take(self, path):
        place = self.place(path)
        return place[0].now.pop(place[1]) if place else None

    def opened(self, path, words):
        if self.parts(path) is None or "O_RDONLY" in words:
            return
        place = self.place(path)
        if "O_APPEND" not in words or "O_TRUNC" in words:
            raise Unknown(words)
        if place[1] not in place[0].now:
            place[0].now[place[1]] = File((b"", int(words.rsplit(", ", 1)[1], 8), 1), NEVER_SYNCED)

    def at(self, words):
        """The path of a call that names a folder and a name in it."""
        folder = re.match(r"\w+<([^>]*)>", words)[1]
        return os.path.join(folder, os.fsdecode(texts(words)[0]))

    def change(self, name, words, result):
        """Does a call; whether it may have changed what is there or what lasts."""
        if name in READING:
            return False
        if name in ("openat", "unlinkat", "mkdirat"):
            path = self.at(words)
            if name == "openat":
                self.opened(path, words)
                return "O_CREAT" in words
            if name == "unlinkat":
                self.take(path)
            else:
                self.make(path, Folder({}, {}))
        elif name in ("mkdir", "rmdir", "unlink", "rename", "symlink"):
            paths = [os.fsdecode(text) for text in texts(words)]
            if name == "mkdir":
                self.make(paths[0], Folder({}, {}))
            elif name == "rename":
                self.make(paths[1], self.take(paths[0]))
            elif name == "symlink":
                self.make(paths[1], Link(paths[0], paths[0]))
            else:
                self.take(paths[0])
        else:
            self.change_open(name, words, result)
        return True

    def change_open(self, name, words, result):
        """Does a call on what is open."""
        node = self.node(re.match(r"\d+<([^>]*)>", words)[1])
        if name == "syncfs":
            for each in list(every(self.top)):
                each.keep()
        elif node is None:
            return
        elif name in ("fsync", "fdatasync"):
            node.keep()
        elif name == "write":
            node.now = (node.now[0] + texts(words)[0][:result],) + node.now[1:]
        elif name == "fchmod":
            # of a folder's mode nothing is asked for later
            if isinstance(node, File):
                node.now = (node.now[0], int(words.rsplit(", ", 1)[1], 8), node.now[2])
        elif name == "utimensat":
            node.now = node.now[:2] + (int(re.findall(r"tv_sec=(-?\d+)", words)[-1]),)
        else:
            raise Unknown(f"{name}({words})")

    def left(self, node, early, late, inside):
        """What may be left: `early` says of the names in this folder, `late` of those further in, `inside` of files that they are as now."""
        if isinstance(node, Link):
            return node.now
        if isinstance(node, File):
            return node.now if inside else node.kept
        names = node.now if early else node.kept
        return tuple(sorted((name, self.left(each, late, late, inside)) for name, each in names.items()))

    def outcomes(self):
        flags = (False, True)
        return {self.left(self.top, early, late, inside) for early in flags for late in flags for inside in flags}


def build(path, names):
    """Makes a folder with what is left."""
    os.mkdir(path)
    for name, it in names:
        inside = os.path.join(path, name)
        if isinstance(it, str):
            os.symlink(it, inside)
        elif len(it) == 3 and isinstance(it[0], bytes):
            with open(inside, "wb") as file:
                file.write(it[0])
            os.chmod(inside, it[1])
            os.utime(inside, (it[2], it[2]))
        else:
            build(inside, it)

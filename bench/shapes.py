"""Feeds of programs with dependencies, and how long 0install takes to choose from them."""
import os
import pathlib
import random
import shutil

from measure import timed_with_peak

NS = "http://zero-install.sourceforge.net/2004/injector/interface"


def impl(version, inside=""):
    return f'<implementation id="{version}" version="{version}" local-path="here">{inside}</implementation>'


def impls(count):
    return "".join(f'<implementation id="{n}" version="{n}" local-path="here"/>' for n in range(count))


def requires(interface, more=""):
    return f'<requires interface="./{interface}.xml"{more}/>'


def chain(count):
    """So many interfaces, each of which needs the next: what stands in the root of each one's feed."""
    return [impl(1, requires(n + 1) if n + 1 < count else "") for n in range(count)]


def web(count):
    """So many interfaces of ten versions, each of which needs three others, and refuses the oldest versions of them."""
    others = lambda n: ((n * 7 + 1) % count, (n + 1) % count, (n * 3 + 2) % count)
    needs = lambda n, v: "".join(requires(other, f' version="{v // 3}.."') for other in others(n))
    return ["".join(impl(v, needs(n, v)) for v in range(10)) for n in range(count)]


def hard_web(count, versions, needs, admitted, kind, seed):
    """So many interfaces of so many versions, each of which names so many others, drawn at random, and admits that part of their versions, some that follow one
    another. Of the kind `req` each name is needed; of the kind `any` a third of them is only restricted. The numbers say how near such a web is to the edge
    between those that have a solution and those that have none."""
    chance = random.Random(f"{count}{kind}{versions}{float(needs)}{admitted}{seed}")
    width = max(1, round(versions * admitted))

    def named(n):
        number = int(needs) + (chance.random() < needs % 1)
        for other in (chance.randrange(count) for _ in range(number)):
            if other != n:
                first = chance.randrange(1, versions - width + 2)
                element = "requires" if kind == "req" else chance.choice(("requires", "requires", "restricts"))
                yield f'<{element} interface="./{other}.xml" version="{first}..!{first + width}"/>'

    return ["".join(impl(v, "".join(named(n))) for v in range(1, versions + 1)) for n in range(count)]


def differ(versions, others):
    """Versions that refuse the like version of each of these interfaces."""
    return "".join(impl(v, "".join(f'<restricts interface="./{n}.xml" version="!{v}"/>' for n in others)) for v in range(versions))


def pigeons(count):
    """One program that needs so many interfaces, no two of which may have the same of one version fewer: they have no solution."""
    return [impl(0, "".join(map(requires, range(1, count + 1)))), *(differ(count - 1, range(n + 1, count + 1)) for n in range(1, count + 1))]


def knot(count):
    """One program that needs so many interfaces of two versions, and behind them three pigeons, which have no solution."""
    first = count + 1
    three = [differ(2, range(n + 1, first + 3)) for n in range(first, first + 3)]
    return [impl(0, "".join(map(requires, range(1, first + 3)))), *([impls(2)] * count), *three]


def stumbling(count):
    """So many interfaces: a chain of two versions each, and at 500 places in 4,096 the newer one doesn't go with the newer one before it. That shows only once
    both are chosen, by interfaces of their own behind the chain: a conflict with what was chosen last."""
    conflicts = count * 500 // 4096
    length = count - conflicts
    needs = [[requires(n + 1)] if n + 1 < length else [] for n in range(length)]
    newer = [list(need) for need in needs]
    judges = []
    for k in range(conflicts):
        place, judge = 7 * k + 1, f"./{length + k}.xml"
        newer[place - 1].append(f'<restricts interface="{judge}" version="2.."/>')
        newer[place] += [requires(length + k), f'<restricts interface="./{place + 1}.xml" version="1"/>']
        judges.append(impl(1) + impl(2, f'<restricts interface="./{place + 1}.xml" version="2.."/>'))
    return [*(impl(1, "".join(need)) + impl(2, "".join(more)) for need, more in zip(needs, newer)), *judges]


def write_feeds(folder, feeds):
    """The feeds as files, numbered from 0, each with the name and the summary that 0install asks for: the root's path, and a line for each with its path and what
    stands in its root. Beside them stands the folder `here`, since 0install wants the path of an implementation to be there."""
    os.mkdir(os.path.join(folder, "here"))
    lines = []
    for n, inside in enumerate(feeds):
        path = os.path.join(folder, f"{n}.xml")
        lines.append(f"{path} {inside}\n")
        pathlib.Path(path).write_text(f'<interface xmlns="{NS}"><name>n</name><summary>s</summary>{inside}</interface>\n')
    return os.path.join(folder, "0.xml"), "".join(lines)


def theirs_on(folder, root, runs, wanted=0, seconds=None):
    """The least time of some runs of `0install select` on these feeds, which end with this status; None where it isn't installed.
    Where one takes longer than so many seconds it is ended, and subprocess.TimeoutExpired is raised."""
    other = shutil.which("0install")
    if not other:
        return None
    env = dict(os.environ, HOME=folder, XDG_CONFIG_HOME=folder, XDG_CACHE_HOME=folder)
    taken, _ = timed_with_peak([other, "select", "--offline", "--command=", "--xml", root], runs, wanted, env=env, seconds=seconds)
    return taken

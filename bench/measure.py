"""What several of these scripts do: they fill folders with trees, and time programs."""
import os
import resource
import signal
import statistics
import subprocess
import sys
import time

BESIDE = os.environ.get("ZI_BESIDE")
IS_BUSY = bool(os.environ.get("ZI_BUSY"))
ROUNDS = 8


def put(path, data):
    """A file with these bytes that isn't executable and has the time 0."""
    path.write_bytes(data)
    path.chmod(0o644)
    os.utime(path, (0, 0))


def fill(top, folders, files, size):
    """So many folders in a folder, each with so many files of one size."""
    for folder in range(folders):
        inside = top / str(folder)
        inside.mkdir()
        for file in range(files):
            put(inside / str(file), b"a" * size)


def forget_peak():
    """What a program holds at its peak is counted from what this one held at its own, so that is forgotten first (some 15 MB are left)."""
    try:
        with open("/proc/self/clear_refs", "w") as refs:
            refs.write("5")
    except OSError:
        pass


def processor_time_of_children():
    """What all that have ended took so far."""
    used = resource.getrusage(resource.RUSAGE_CHILDREN)
    return used.ru_utime + used.ru_stime


def limited(seconds):
    """What limits a program's processor time before it begins. One that takes longer is ended by a signal."""
    return lambda: resource.setrlimit(resource.RLIMIT_CPU, (seconds, seconds + 1))


def is_given_up(status):
    """Whether a program was ended since it took too long, by its status as subprocess has it."""
    return status in (-signal.SIGXCPU, -signal.SIGKILL)


def timed_with_peak(command, runs, wanted=0, env=None, given=os.devnull, seconds=None):
    """The least time and the most memory of some runs, in seconds and bytes; each is to end with the status that is wanted.

    What they read from standard input is the file `given`. One that takes more processor time than so many seconds is ended, and
    subprocess.TimeoutExpired is raised. Where the variable ZI_BUSY is set it is the least processor time, which tells more on a busy machine.
    """
    best, peak = float("inf"), 0
    for _ in range(runs):
        forget_peak()
        with open(given, "rb") as source:
            start = time.perf_counter()
            child = subprocess.Popen(
                command, stdin=source, stdout=subprocess.DEVNULL, stderr=subprocess.PIPE, env=env, preexec_fn=limited(seconds) if seconds else None
            )
        with child.stderr:
            error = child.stderr.read()
        _, status, usage = os.wait4(child.pid, 0)
        child.returncode = os.waitstatus_to_exitcode(status)
        if seconds and is_given_up(child.returncode):
            raise subprocess.TimeoutExpired(command, seconds)
        best = min(best, usage.ru_utime + usage.ru_stime if IS_BUSY else time.perf_counter() - start)
        if child.returncode != wanted:
            sys.exit(f"{command[0]}: status {child.returncode}: {error.decode(errors='replace').strip()}")
        peak = max(peak, usage.ru_maxrss * 1024)
    return best, peak


def in_turns(commands, rounds, env=None, between=None):
    """The middle time by the clock and the middle processor time of each command, in seconds, over some rounds in which they take turns.

    Each run is to end with status 0, and what they start counts with them. `between` is called before each run, which counts nothing.
    """
    clock, used = [[[] for _ in commands] for _ in range(2)]
    for number in range(rounds):
        for place in sorted(range(len(commands)), reverse=number % 2 == 1):
            if between:
                between()
            start = time.perf_counter()
            child = subprocess.Popen(commands[place], stdin=subprocess.DEVNULL, stdout=subprocess.DEVNULL, stderr=subprocess.PIPE, env=env)
            with child.stderr:
                error = child.stderr.read()
            _, status, usage = os.wait4(child.pid, 0)
            clock[place].append(time.perf_counter() - start)
            used[place].append(usage.ru_utime + usage.ru_stime)
            child.returncode = os.waitstatus_to_exitcode(status)
            if child.returncode:
                sys.exit(f"{commands[place][0]}: status {child.returncode}: {error.decode(errors='replace').strip()}")
    return [(statistics.median(one), statistics.median(other)) for one, other in zip(clock, used)]


def processor_time(command, wanted=0):
    """The processor time of one run, which is to end with the status that is wanted, in seconds."""
    child = subprocess.Popen(command, stdin=subprocess.DEVNULL, stdout=subprocess.DEVNULL, stderr=subprocess.PIPE)
    with child.stderr:
        error = child.stderr.read()
    _, status, usage = os.wait4(child.pid, 0)
    child.returncode = os.waitstatus_to_exitcode(status)
    if child.returncode != wanted:
        sys.exit(f"{command[0]}: status {child.returncode}: {error.decode(errors='replace').strip()}")
    return usage.ru_utime + usage.ru_stime


def beside(program, time_of):
    """How a program's time compares with that of the one that the variable ZI_BESIDE names, by the least and by the middle of some rounds, in which
    the two take turns; nothing where it names none. `time_of` runs the one that it is told, and answers its processor time."""
    if not BESIDE:
        return ""
    times = {program: [], BESIDE: []}
    for number in range(ROUNDS):
        for one in sorted(times, reverse=number % 2 == 0):
            times[one].append(time_of(one))
    least, middle = (of(times[program]) / max(of(times[BESIDE]), 1e-6) for of in (min, statistics.median))
    return f"; {least:.3f} of the time of {BESIDE}, {middle:.3f} by the middle"

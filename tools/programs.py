"""The programs that are built here, and of which sources: the proved one, and the trial program, which isn't proved.

The proved program is crates/fedx/out/fedx. The file `proved` beside it has a sum of the sources that it was proved of, and a sum of itself. `rt ci`
and `rt run` put a program there too, without such a file: it counts where it is newer than all sources and says of itself that it is proved, and gets
the file then. The trial program's name has the sum of its sources, so one of others is never taken for it. Each gets its name once it is whole."""
import contextlib
import glob
import hashlib
import os
import subprocess
import sys
import time

from sources import OUT, PROGRAM, TOP, crates, files_of, folders_of, needed, sum_of_program

PROVED = f"{OUT}/{PROGRAM}"
# What is known of the proved program.
STAMP = f"{OUT}/proved"
TRIALS = f"{OUT}/trial"
# What the launcher ran last, with what `tools/listing` printed then.
READY = f"{OUT}/ready"
# What the compiler writes into a program that it proved, and not into one that it tries.
MARK = b"rattle logic="
# A file that was written to so many seconds ago may be written to again without another time.
TICK = 2


def put(made, name):
    """Gives a file that is whole its name."""
    with open(made, "rb") as handle:
        os.fsync(handle.fileno())
    os.replace(made, name)


def write(name, text):
    """Writes a file that others find as it was or whole."""
    part = f"{name}.part-{os.getpid()}"
    with open(part, "w", encoding="utf-8") as handle:
        handle.write(text)
    put(part, name)


def sum_of_file(name):
    with open(name, "rb") as handle:
        return hashlib.sha256(handle.read()).hexdigest()


def keep_proved(total):
    """Notes that the program that lies here was proved of the sources with this sum."""
    write(STAMP, f"{total}\n{sum_of_file(PROVED)}\n")


def is_newest(name):
    """Whether a file is newer than all that the program is made of, with the folders, so that files that were taken away count too."""
    below, _ = crates()
    found = [it for crate in needed(below, PROGRAM) for it in [*files_of(crate), *folders_of(crate)]]
    return max(os.stat(it).st_mtime_ns for it in [f"{TOP}/crates.txt", *found]) < os.stat(name).st_mtime_ns


def has_mark(name):
    with open(name, "rb") as handle:
        return MARK in handle.read()


def is_proved(total):
    """Whether the proved program is there, of the sources with this sum, which are those that lie here."""
    if not os.access(PROVED, os.X_OK):
        return False
    known = []
    with contextlib.suppress(OSError), open(STAMP, encoding="utf-8") as handle:
        known = handle.read().split()
    if len(known) == 2 and known[1] == sum_of_file(PROVED):
        return known[0] == total
    # (one that isn't known is of `rt ci` or `rt run`)
    if not is_newest(PROVED) or not has_mark(PROVED):
        return False
    with contextlib.suppress(OSError):
        keep_proved(total)
    return True


def need_proved():
    """Where the proved program of the sources as they are lies; ends the run where it isn't there."""
    if not is_proved(settled()[1]):
        sys.exit("no proved program of these sources is built; tools/build proves it")
    return PROVED


def trial_of(total):
    """Where the trial program of the sources with this sum lies."""
    return f"{TRIALS}/{PROGRAM}-{total}"


def drop_trials(but):
    for file in glob.glob(f"{TRIALS}/{PROGRAM}-*"):
        if file != but:
            os.remove(file)


def listing():
    how = {"stdin": subprocess.DEVNULL, "stdout": subprocess.PIPE, "check": False}
    return subprocess.run([f"{TOP}/tools/listing"], **how).stdout.decode("utf-8", "surrogateescape")


def settled():
    """The sum of the sources, and what tools/listing printed while they had it."""
    while True:
        before, total = listing(), sum_of_program()
        if before == listing():
            return before, total


def is_old(listed):
    """Whether no source was written to just now."""
    times = [float(line.split(" ", 1)[0]) for line in listed.splitlines() if f"/{PROGRAM}/out/" not in line]
    return bool(times) and max(times) < time.time() - TICK


def chosen(total, is_only_proved):
    """The kind of the program to run and where it lies, or nothing."""
    if is_proved(total):
        return "proved", PROVED
    trial = trial_of(total)
    return ("trial", trial) if not is_only_proved and os.access(trial, os.X_OK) else None


def keep_ready(kind, program, listed):
    """Notes what the launcher runs as long as tools/listing prints the same."""
    if is_old(listed):
        # (where nothing can be written here, each run looks anew)
        with contextlib.suppress(OSError):
            write(READY, f"{kind} {os.path.relpath(program, TOP)}\n{listed}")

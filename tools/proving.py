"""How crates are proved side by side, each as soon as those below it are done: what tools/build, tools/seconds and tools/plant share.

What is proved of a library lies in crates/fedx/out/libraries, with a sum of all that its proof read. What the proof of a crate printed is in
crates/NAME/out/build.log."""
import contextlib
import fcntl
import hashlib
import os
import shutil
import subprocess
import sys
import time

import programs
from sources import OUT, PROGRAM, TOP, add_files, crates, needed, root_of, states_of, sum_of_program

LIBRARIES = f"{OUT}/libraries"
# How long the last whole run took, in minutes.
TOOK = f"{OUT}/took"
# The minutes that the proof of a crate takes, where they aren't one: what has the longest way to the program begins first.
MINUTES = {
    "fx_rules": 0.1, "fx_terms": 1.1, "fx_words": 1.4, "fx_tokens": 1.6, "fx_outside": 1.9, "fx_algebra": 2.5, "fx_ntriples": 1.5,
    "fx_grammar": 0.4, "fx_turtle": 2, "fx_spelling": 0.3, "fx_depths": 0.1, "fx_trees": 1.3, "fx_expressions": 2.2, "fx_groups": 1.2, "fx_heads": 0.7,
    "fx_syntax": 1.3, "fx_print": 1.4, "fx_results": 2.1, "fx_expr": 2.6, "fx_solutions": 2.1, "fx_store": 1.8, "fx_evaluation": 3, "fx_member": 1,
    "fx_keys": 0.6, "fx_sources": 2.3, "fx_plan": 2.1, "fx_steps": 0.1, "fx_renaming": 0.2, "fx_founds": 0.6, "fx_bound": 2.3, "fx_values": 2, "fx_traffic": 0.1, "fx_pool": 2.2,
    "fx_flows": 2.4, "fx_side_by_side": 0.9, "fx_walks": 0.8, "fx_services": 1.1, "fx_outcomes": 1.2, "fx_rounds": 0.6,
    "fx_engine": 2.2, "fx_local": 2, "fx_commands": 2.7, "fx_program": 0.9, "fedx": 3,
}


def way(below, name, seen):
    """The minutes from the begin of this crate's proof to the program."""
    if name not in seen:
        above = [way(below, it, seen) for it, under in below.items() if name in under]
        seen[name] = MINUTES.get(name, 1) + max(above, default=0)
    return seen[name]


class Workshop:
    """The crates to prove, and the toolchain that proves them.

    A crate is proved over the statements of the libraries below it, and not over their proofs, which were checked when these were built: to load them
    takes longer than most crates take themselves."""

    def __init__(self, below, of_kit, of_gate=False):
        self.below, self.of_kit, self.of_gate, self.sums, self.states = below, of_kit, of_gate, {}, {}
        self.kit = os.path.dirname(os.path.dirname(os.path.realpath(shutil.which("rt"))))
        self.version = subprocess.run(["rt", "version"], stdout=subprocess.PIPE, check=True).stdout

    def sum(self, name):
        """A sum of all that the proof of a crate reads."""
        if name not in self.sums:
            self.states[name] = states_of(name)
            total = hashlib.sha256(self.version + repr([self.of_kit[name], [self.sum(it) for it in self.below[name]]]).encode())
            add_files(total, name)
            self.sums[name] = total.hexdigest()
        return self.sums[name]

    def is_done(self, name):
        """Whether a library is proved as it stands."""
        with contextlib.suppress(OSError), open(f"{LIBRARIES}/{name}.sum", encoding="utf-8") as kept:
            return kept.read() == self.sum(name) and os.path.isdir(f"{LIBRARIES}/{name}.rlib")
        return False

    def library(self, name):
        """Where what is proved of a library lies: by the launcher, or by `rt ci`."""
        return f"{TOP}/crates/{name}/out/rlib/{name}.rlib" if self.of_gate else f"{LIBRARIES}/{name}.rlib"

    def words(self, name):
        """The words of the compiler for a crate, but for what it is to make."""
        words = [f"{self.kit}/bin/rattle", "build", "--crate-name", name, root_of(name), "--jobs", "1", "--links", f"{name}="]
        for it in self.of_kit[name]:
            words += ["--extern", f"{it}={self.kit}/rlibs/{it}.rlib"]
        for it in self.below[name]:
            words += ["--extern", f"{it}={self.library(it)}"]
        folders = sorted({os.path.dirname(self.library(it)) for it in needed(self.below, name) - {name}})
        words += [word for folder in [f"{self.kit}/rlibs", *folders] for word in ("-L", f"dependency={folder}")]
        return [*words, "--antt-project", f"{self.kit}/rattle/logic/antt-project.json", "--logic-built", f"{self.kit}/logic_built"]

    def checking(self, name, folder):
        """The words that check a crate and make nothing of it, going on from the modules that an earlier check left in a folder."""
        words = self.words(name)
        return [words[0], "check", *words[2:], "--incremental", folder]


class Proof:
    """The proof of one crate, as it runs, on one processor: with more it ends no sooner."""

    def __init__(self, shop, name):
        self.shop, self.name, self.out, self.sum = shop, name, f"{TOP}/crates/{name}/out", shop.sum(name)
        self.is_program, self.log = root_of(name) == "src/main.rt", f"{self.out}/build.log"
        made = ["--statements", "-o", f"{LIBRARIES}/{name}.rlib"]
        if self.is_program:
            made = ["--toolchain", f"{shop.kit}/toolchain", "--backend", "llvm", "-o", f"out/{name}.o"]
        os.makedirs(self.out, exist_ok=True)
        with open(self.log, "wb") as log:
            words = [*shop.words(name), *made]
            self.process = subprocess.Popen(words, cwd=f"{TOP}/crates/{name}", stdin=subprocess.DEVNULL, stdout=log, stderr=subprocess.STDOUT)

    def end(self):
        """Links a program, and keeps the sum of a library. Returns whether the proof came to a good end, over files that are as they were."""
        if self.process.returncode:
            return False
        if states_of(self.name) != self.shop.states[self.name]:
            with open(self.log, "a", encoding="utf-8") as log:
                log.write("a file of this crate was written to while it was proved\n")
            return False
        if self.is_program:
            return self.link()
        with open(f"{LIBRARIES}/{self.name}.sum", "w", encoding="utf-8") as kept:
            kept.write(self.sum)
        return True

    def link(self):
        """Makes the program under another name first, so that nobody finds half of it."""
        program = f"{self.out}/{self.name}"
        with open(self.log, "ab") as log:
            how = {"stdin": subprocess.DEVNULL, "stdout": log, "stderr": subprocess.STDOUT, "check": False}
            if subprocess.run(linking(self.shop.kit, f"{program}.o", f"{program}.part"), **how).returncode:
                return False
        programs.put(f"{program}.part", program)
        return True

    def text(self):
        with open(self.log, encoding="utf-8", errors="replace") as log:
            return log.read()


def linking(kit, made, program):
    """The words that make a program of what the compiler made."""
    words = [f"{kit}/bin/rattle-link", "--target", "x86_64-unknown-linux-gnu", "--toolchain", f"{kit}/toolchain", "-o", program, made]
    return [*words, f"{kit}/c/libos_c.a", f"{kit}/c/liblibc_c.a"]


def is_looked_at():
    """Whether standard error is a terminal at which this run is in front, and not in the background."""
    with contextlib.suppress(OSError):
        return sys.stderr.isatty() and os.tcgetpgrp(2) == os.getpgrp()
    return False


class Progress:
    """One line that is written over where somebody looks on, and else a line a minute."""

    def __init__(self):
        self.last = time.monotonic()

    def say(self, text):
        sys.stderr.write(f"\r\x1b[Kfedx: {text}\n" if is_looked_at() else f"fedx: {text}\n")
        sys.stderr.flush()

    def show(self, text):
        if is_looked_at():
            sys.stderr.write(f"\r\x1b[Kfedx: {text}")
        elif time.monotonic() - self.last >= 60:
            self.last = time.monotonic()
            sys.stderr.write(f"fedx: {text}\n")
        sys.stderr.flush()


def took_last():
    """What is said of the time that it takes."""
    try:
        with open(TOOK, encoding="utf-8") as handle:
            return f"it took {int(handle.read())} minutes here last"
    except (OSError, ValueError):
        return "it takes 20 to 50 minutes the first time on four processors, and longer on fewer"


def begin(shop, order, done, running):
    """Begins the proofs that wait for none, while there are processors."""
    processors = len(os.sched_getaffinity(0))
    known = done.union(it.name for it in running)
    ready = [name for name in order if name not in known and done.issuperset(shop.below[name])]
    for name in ready[: max(0, processors - len(running))]:
        running.append(Proof(shop, name))


def fail(progress, proof):
    progress.say(f"the proof of {proof.name} failed; {proof.log} ends with")
    sys.stderr.write("".join(f"  {line}\n" for line in proof.text().splitlines()[-20:]))
    return 1


@contextlib.contextmanager
def in_turn():
    """Waits while another run is at work in this checkout."""
    os.makedirs(LIBRARIES, exist_ok=True)
    with open(f"{OUT}/lock", "w", encoding="utf-8") as lock:
        try:
            fcntl.flock(lock, fcntl.LOCK_EX | fcntl.LOCK_NB)
        except BlockingIOError:
            sys.stderr.write("fedx: another run is building; waiting for it\n")
            fcntl.flock(lock, fcntl.LOCK_EX)
        yield


def prove(shop, order, done, progress):
    """Proves the crates that aren't done, and returns a status, as `build` does."""
    begun, running = time.monotonic(), []
    try:
        while len(done) < len(order):
            begin(shop, order, done, running)
            time.sleep(0.5)
            for proof in [it for it in running if it.process.poll() is not None]:
                running.remove(proof)
                if not proof.end():
                    return fail(progress, proof)
                done.add(proof.name)
            minutes = (time.monotonic() - begun) / 60
            progress.show(", ".join([*(it.name for it in running), f"{len(done)} of {len(order)} crates", f"{minutes:.0f} minutes"]))
    finally:
        for it in running:
            it.process.terminate()
    return 0


def settled(names):
    """The crates with all that they stand on, the longest way first, those of them that are done, and the sum of the program's sources, which
    all go together."""
    while True:
        all_below, of_kit = crates()
        below = {name: all_below[name] for name in set().union(*(needed(all_below, it) for it in names))}
        shop, ways = Workshop(below, of_kit), {}
        order = sorted(below, key=lambda name: -way(below, name, ways))
        for name in order:
            shop.sum(name)
        done, total = {name for name in order if shop.is_done(name)}, sum_of_program()
        if crates() == (all_below, of_kit) and all(states_of(name) == shop.states[name] for name in order):
            return shop, order, done, total


def build(names):
    if names == [PROGRAM] and programs.is_proved(sum_of_program()):
        return tell_program(Progress(), "proved and built already")
    if shutil.which("rt") is None:
        sys.stderr.write("fedx: the command rt, which proves, isn't on the path\n")
        return 127
    shop, order, done, total = settled(names)
    if PROGRAM in names:
        with contextlib.suppress(FileNotFoundError):
            os.remove(programs.PROVED)
    progress, begun = Progress(), time.monotonic()
    progress.say(f"proving and building {' and '.join(names)}" + (f"; {took_last()}" if names == [PROGRAM] else ""))
    # (a run that goes on from an earlier one says nothing of the time that the whole takes)
    is_whole = names == [PROGRAM] and not done
    if status := prove(shop, order, done, progress):
        return status
    minutes = round((time.monotonic() - begun) / 60)
    if is_whole:
        with open(TOOK, "w", encoding="utf-8") as handle:
            handle.write(f"{minutes}\n")
    if PROGRAM not in names:
        progress.say(f"proved and built in {minutes} minutes")
        return 0
    programs.keep_proved(total)
    return tell_program(progress, f"proved and built in {minutes} minutes")


def tell_program(progress, text):
    size = os.path.getsize(programs.PROVED) / 1e6
    progress.say(f"{text}: {programs.PROVED}, one file of {size:.1f} MB that needs the C library alone")
    return 0


def build_below(name):
    """Proves all that a crate stands on, and says nothing where that is done. Returns a status, as `build` does."""
    below, of_kit = crates()
    if name not in below:
        sys.exit(f"{name} is no crate of crates.txt")
    under = sorted(needed(below, name) - {name})
    if all(map(Workshop(below, of_kit).is_done, under)):
        return 0
    with in_turn():
        return build(under)

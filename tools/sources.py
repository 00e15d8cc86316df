"""What the crates stand on, by crates.txt, and the files that they are made of."""
import hashlib
import os

TOP = os.path.dirname(os.path.dirname(os.path.abspath(__file__)))
PROGRAM = "fedx"
OUT = f"{TOP}/crates/{PROGRAM}/out"
# The folders of a crate that its proof reads.
PARTS = ("src", "specs", "proofs")


def crates():
    """What each crate uses, by the lines of crates.txt: the libraries of this repository, and those of the toolchain."""
    lines = {}
    with open(f"{TOP}/crates.txt", encoding="utf-8") as text:
        for line in text:
            name, colon, uses = line.split("#")[0].partition(":")
            if colon:
                lines[name.split()[0]] = uses.split()
    below = {name: [it for it in uses if it in lines] for name, uses in lines.items()}
    return below, {name: ["std", *(it for it in uses if it not in lines)] for name, uses in lines.items()}


def needed(below, name):
    """The crate and all that it stands on."""
    return {name}.union(*(needed(below, it) for it in below[name]))


def root_of(name):
    """The file with which the compiler begins to read a crate."""
    return "src/main.rt" if os.path.isfile(f"{TOP}/crates/{name}/src/main.rt") else "src/lib.rt"


def files_of(name):
    folders = [f"{TOP}/crates/{name}/{part}" for part in PARTS]
    return sorted(f"{at}/{it}" for folder in folders for at, _, files in os.walk(folder) for it in files)


def folders_of(name):
    return [at for part in PARTS for at, _, _ in os.walk(f"{TOP}/crates/{name}/{part}")]


def states_of(name):
    """What the system says of each file of a crate. Where none of it is another, nobody wrote to the files: the time of a file's last change
    can't be set."""
    return [state_of(it) for it in files_of(name)]


def state_of(file):
    state = os.stat(file)
    return file, state.st_ino, state.st_size, state.st_mtime_ns, state.st_ctime_ns


def states_of_program():
    """What the system says of all that the program is made of in this repository."""
    below, _ = crates()
    return [state_of(f"{TOP}/crates.txt"), *(states_of(name) for name in sorted(needed(below, PROGRAM)))]


def add_files(total, name):
    """Adds the names and the contents of a crate's files to a sum."""
    for file in files_of(name):
        with open(file, "rb") as text:
            total.update(repr([os.path.relpath(file, TOP), text.read()]).encode())


def sum_of_program():
    """A sum of all that the program is made of in this repository."""
    below, of_kit = crates()
    total = hashlib.sha256()
    for name in sorted(needed(below, PROGRAM)):
        total.update(repr([name, below[name], of_kit[name]]).encode())
        add_files(total, name)
    return total.hexdigest()

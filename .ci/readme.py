"""Runs the commands that README.md, docs/TUTORIAL.md and docs/COMPARING.md show and compares what they print and how they end.

A block that begins with ```console has lines "$ COMMAND", each with what the command prints on standard output and standard
error below it, and perhaps "[status N]" as its last line; without that the status is 0. A command that ends with "&" goes on
beside those below it, up to "kill %1" with all others, or the end of its page. One of a program that isn't on every machine is passed over where
that isn't there, and so are those below it in its block."""
import itertools
import os
import re
import shutil
import subprocess
import sys
import time

top = os.path.join(os.path.dirname(os.path.abspath(__file__)), "..")
# The programs that aren't on every machine, by the first word of a command that calls them.
OPTIONAL = {"examples/ask.sh": "curl", "jq": "jq", "examples/import": "rapper"}


def steps(block):
    """The commands of a block, each with its lines and its status."""
    command, lines = None, []
    for line in block.splitlines():
        if line.startswith("$ "):
            if command is not None:
                yield command, lines
            command, lines = line[2:], []
        else:
            lines.append(line)
    if command is not None:
        yield command, lines


def is_there(page, command):
    """Whether what the command calls is there, or a line that it isn't."""
    lacking = OPTIONAL.get(command.split()[0])
    if lacking is None or shutil.which(lacking):
        return True
    print(f"{page}: {command} isn't run, since {lacking} isn't there")
    return False


def stop(beside):
    """Ends what goes on beside the commands."""
    while beside:
        one = beside.pop()
        one.terminate()
        one.wait()


def is_as_shown(page, command, lines, beside):
    """Whether a command prints and ends as it is shown."""
    if command.endswith(" &"):
        beside.append(subprocess.Popen("exec " + command[:-2], shell=True, cwd=top, stdout=subprocess.DEVNULL, stdin=subprocess.DEVNULL))
        time.sleep(2)
        return not lines
    if command.startswith("kill %"):
        stop(beside)
        return not lines
    status = 0
    if lines and (ended := re.fullmatch(r"\[status (\d+)\]", lines[-1])):
        status, lines = int(ended[1]), lines[:-1]
    done = subprocess.run(command, shell=True, cwd=top, stdout=subprocess.PIPE, stderr=subprocess.STDOUT, stdin=subprocess.DEVNULL)
    printed = done.stdout.decode("utf-8", "replace").splitlines()
    if printed == lines and done.returncode == status:
        return True
    print(f"{page}: {command}\n  wanted {lines} and {status}\n  got    {printed} and {done.returncode}")
    return False


def is_right(page):
    """Whether all commands of a page are as shown."""
    with open(os.path.join(top, page), encoding="utf-8") as text:
        blocks = re.findall(r"^```console\n(.*?)^```", text.read(), re.S | re.M)
    wanted = [it for block in blocks for it in itertools.takewhile(lambda it: is_there(page, it[0]), steps(block))]
    beside = []
    try:
        right = sum(is_as_shown(page, command, lines, beside) for command, lines in wanted)
    finally:
        stop(beside)
    print(f"{page}: {right} commands as shown, {len(wanted) - right} not")
    return 0 < right == len(wanted)


def main():
    # The program is proved first, so that no command prints that it isn't, and nothing unproved is run.
    if subprocess.run(["tools/build"], cwd=top).returncode:
        return 1
    os.environ["FEDX_PROVED"] = "1"
    return 0 if all([is_right(page) for page in ("README.md", "docs/TUTORIAL.md", "docs/COMPARING.md")]) else 1


sys.exit(main())

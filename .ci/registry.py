"""Runs the outside cases of registries: .ci/registry.py RUN

RUN is the program of the outside cases. Two of them are from before the flag `optional`, and want that a line with this flag is refused. They have to fail, and all others to pass. Ends with 1
where that isn't so."""
import re
import subprocess
import sys

BEFORE_FLAGS = {"registry-9003-00006", "registry-9003-00104"}

printed = subprocess.run([sys.argv[1], "./fedx", "registry"], stdout=subprocess.PIPE, text=True, check=False).stdout
failed = set(re.findall(r"^registry/([^:\s]+):", printed, re.M))
passed = re.search(r"^(\d+) passed, (\d+) failed$", printed, re.M)
if passed is None or failed != BEFORE_FLAGS or int(passed[2]) != len(failed):
    print(printed)
    sys.exit(1)
print(f"registries: {passed[1]} passed, and the {len(failed)} from before the flag `optional` failed")

"""Compares each block that docs/THEOREM.md quotes with the file that is named above it, but for spaces and line breaks, and the counts in it with what tools/reach prints. Ends with 1 where one
isn't so."""
import os
import re
import subprocess
import sys

TOP = os.path.dirname(os.path.dirname(os.path.abspath(__file__)))
PAGE = f"{TOP}/docs/THEOREM.md"
CLAIMS = f"{TOP}/docs/CLAIMS.md"
# What CLAIMS says of the counts.
SAID = "from it {} definitions of this repository can be reached, from what an answer rests on {}, as `tools/reach` counts them"
BLOCK = re.compile(r"^`(crates/[^`]+)`\n```antt\n(.*?)^```$", re.M | re.S)


def flat(text):
    return " ".join(text.split())


def main():
    with open(PAGE, encoding="utf-8") as page:
        text = page.read()
    blocks, bad = BLOCK.findall(text), 0
    for file, block in blocks:
        with open(f"{TOP}/{file}", encoding="utf-8") as specs:
            if flat(block) not in flat(specs.read()):
                bad += 1
                print(f"docs/THEOREM.md: {file} hasn't this:\n{block}")
    if len(blocks) != text.count("```antt"):
        bad += 1
        print("docs/THEOREM.md: a block has no file above it")
    counts = subprocess.run([f"{TOP}/tools/reach"], stdout=subprocess.PIPE, text=True, check=True).stdout
    for line in counts.splitlines():
        if line not in text:
            bad += 1
            print(f"docs/THEOREM.md hasn't this count: {line}")
    with open(CLAIMS, encoding="utf-8") as page:
        said = SAID.format(*re.findall(r": (\d+) definitions", counts))
        if said not in flat(page.read()):
            bad += 1
            print(f"docs/CLAIMS.md hasn't this: {said}")
    if bad:
        sys.exit(1)
    print(f"docs/THEOREM.md: {len(blocks)} blocks are as their files have them, and the counts as tools/reach has them")


if __name__ == "__main__":
    main()

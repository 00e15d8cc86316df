"""Looks up the functions that docs/A-QUERY.md follows, and those of the table "Where is ..?" of docs/ARCHITECTURE.md, in the files that stand beside them. Ends with 1 where one isn't there."""
import os
import re
import sys

TOP = os.path.dirname(os.path.dirname(os.path.abspath(__file__)))
# A line of a tree of calls: functions, and behind two blanks their file.
CALL = re.compile(r"^ *((?:[\w:]+, )*[\w:]+) {2,}(fx?\w+/src/\w+\.rt)\b")
ROW = re.compile(r"^\| ([^|]+) \| ([^|]+) \| ([^|]+) \|$")
QUOTED = re.compile(r"`([^`]+)`")


def text_of(file):
    path = f"{TOP}/crates/{file}"
    if not os.path.exists(path):
        return None
    with open(path, encoding="utf-8") as text:
        return text.read()


def is_in(name, text):
    """Whether a text has the function, the type or the constant of a name, of which the last part counts: `Registry::read` is `fn read`."""
    own = re.escape(name.split("::")[-1])
    return re.search(rf"\b(?:fn|struct|enum|trait|const|type|mod) {own}\b|^ *{own}\(", text, re.M) is not None


def calls():
    with open(f"{TOP}/docs/A-QUERY.md", encoding="utf-8") as page:
        for line in page:
            found = CALL.match(line)
            if found:
                for name in found[1].split(", "):
                    yield name, [found[2]]


def rooms():
    with open(f"{TOP}/docs/ARCHITECTURE.md", encoding="utf-8") as page:
        text = page.read()
    table = text[text.index("## Where is"):]
    table = table[:table.index("\n## ", 3)]
    for line in table.splitlines():
        found = ROW.match(line)
        files, folder = [], ""
        for file in QUOTED.findall(found[3]) if found else []:
            # (a file without a folder stands in that of the one before it)
            folder = file.rpartition("/")[0] or folder
            files.append(file if "/" in file else f"{folder}/{file}")
        files = [file for file in files if file.endswith(".rt")]
        for name in QUOTED.findall(found[2]) if files else []:
            if re.fullmatch(r"[\w:]+", name) and name != "clap":
                yield name, files


def main():
    bad, looked_up = 0, 0
    for page, entries in (("A-QUERY.md", calls()), ("ARCHITECTURE.md", rooms())):
        for name, files in entries:
            texts = [text_of(file) for file in files]
            looked_up += 1
            if None in texts or not any(is_in(name, text) for text in texts):
                bad += 1
                print(f"docs/{page}: {name} isn't in {', '.join(files)}")
    if bad or looked_up < 100:
        print(f"{bad} of {looked_up} functions aren't where the pages say")
        sys.exit(1)
    print(f"docs/A-QUERY.md and docs/ARCHITECTURE.md: {looked_up} functions are where the pages say")


if __name__ == "__main__":
    main()

"""Holds what the page of examples/real says that `hux` prints to its rows.

Behind a line that begins with the name of a file stand lines of `hux show` and of `hux core`, those
with a number: each a whole line of what the row of that command and file prints, in order. A long
line of `core` goes on in the next one, further in.
"""

import re
import sys
from pathlib import Path

TOP = Path(__file__).resolve().parent.parent
PAGE = TOP / "examples" / "real" / "README.md"
ROWS = TOP / "rows" / "hux" / "real.rows"
HEAD = "## What `hux` says"
NAMED = re.compile(r"`(\S+\.wasm)`,")
ROW = re.compile(r"hux run (show|core) (\S+) => status 0, out (.*), err -")


def printed_lines():
    """The lines that each command prints of each file, with two blanks for a tab."""
    rows = ROW.findall(ROWS.read_text(encoding="utf-8"))
    return {(name, call): text.replace("\\t", "  ").split("\\n") for call, name, text in rows}


def said_lines():
    """The lines that the page has of each command and file."""
    said, name, is_core = {}, None, False
    for line in PAGE.read_text(encoding="utf-8").partition(HEAD)[2].splitlines():
        named = NAMED.match(line)
        name = named[1] if named else name
        if not line.startswith("    "):
            is_core = False
        elif is_core and line.startswith("        "):
            said[name, "core"][-1] += " " + line.strip()
        else:
            is_core = line[4].isdigit()
            said.setdefault((name, "core" if is_core else "show"), []).append(line[4:])
    return said


def main():
    printed, said = printed_lines(), said_lines()
    wrong = 0
    for at, lines in said.items():
        rest = iter(printed.get(at, ()))
        for line in lines:
            if line not in rest:
                print(f"checks/said.py: {' '.join(at)}: the rows have no line: {line}")
                wrong += 1
                break
    if not said:
        print("checks/said.py: the page says nothing of hux")
    return 1 if wrong or not said else 0


if __name__ == "__main__":
    sys.exit(main())

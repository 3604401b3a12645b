"""Blocks of rows of proved programs, under a library that counts allocations and refuses one."""

import os
import re
import shutil
import subprocess
import tempfile
from dataclasses import dataclass
from pathlib import Path

TOP = Path(__file__).resolve().parent.parent
LIBRARY = TOP / "out" / "liballocations.so"
MARK = " => "
# The families of each program whose rows act on what the rows before them left: the words that
# begin a block of them. No row begins with `#`, so such a family is one block.
BLOCKS = {
    "packages": ("#",),
    "links": ("link", "by"),
    "runs": ("link",),
    "drives": ("link",),
    "states": ("link",),
    "tables": ("table new",),
    "moves": ("set",),
    "texts": ("text",),
}


def build_library():
    """Compiles the library that is loaded before a program."""
    LIBRARY.parent.mkdir(exist_ok=True)
    rustc = shutil.which("rustc") or Path.home() / ".cargo" / "bin" / "rustc"
    command = [rustc, "--edition", "2024", "-O", "--crate-type", "cdylib", "-o", LIBRARY]
    subprocess.run([*command, TOP / "checks" / "allocations.rs"], check=True)


def program_of(name):
    """A proved program, which `rt ci` or `rt run` has built."""
    binary = TOP / "crates" / name / "out" / name
    if not binary.is_file():
        raise SystemExit(f"{name} is not built: run `rt ci` first")
    return binary


def families_of(program):
    return sorted(it.stem for it in (TOP / "crates" / program / "data").glob("*.rows"))


def spelled(text):
    """How many bytes the words of a row spell: `N*xx` and `\\N(x)` stand for N of it."""
    times = re.findall(r"(?<!\d)(\d+)\*([^ .,]*)", text) + re.findall(r"\\(\d+)\(([^)]*)\)", text)
    return len(text) + sum(int(number) * len(part) for number, part in times)


@dataclass
class Block:
    """Rows that are run together, behind the rows that name what they cite; each with the answer
    that is wanted."""

    family: str
    cited: list
    rows: list

    def all(self):
        return [*self.cited, *self.rows]

    def verb(self):
        """What kind of call the block makes: the words of its last row before any data."""
        words = self.rows[-1][0].split(" ")
        return " ".join([self.family, *[it for it in words[:2] if re.fullmatch(r"[a-z_]+", it)]])

    def bytes(self):
        return sum(spelled(row) + spelled(wanted) for row, wanted in self.all())


def name_of(row):
    """The name that a row gives to what it spells."""
    words = row.split(" ")
    if words[0] in ("file", "component"):
        return words[1]
    return words[2] if len(words) > 2 and words[1] == "name" else None


def blocks_of(program, family):
    """The blocks of a family, in order."""
    named, blocks, heads = {}, [], BLOCKS.get(family)
    text = (TOP / "crates" / program / "data" / f"{family}.rows").read_text(encoding="utf-8")
    for line in text.splitlines():
        if not line or line.startswith("#") or MARK not in line:
            continue
        row, _, wanted = line.partition(MARK)
        words = [it.removeprefix("@") for it in re.split("[ ,]", row)]
        cited = [named[it] for it in dict.fromkeys(words) if it in named and it != name_of(row)]
        if name_of(row):
            named[name_of(row)] = (row, wanted)
        if not heads or row.startswith(heads) or not blocks or name_of(row):
            blocks.append(Block(family, cited, [(row, wanted)]))
        else:
            block = blocks[-1]
            block.cited += [it for it in cited if it not in block.cited]
            block.rows.append((row, wanted))
    return blocks


@dataclass
class Run:
    """What a run printed, and what it asked for: allocations in all, the most bytes at one time,
    and how many allocations there were at each mark."""

    status: int
    lines: list
    asked: int
    peak: int
    marks: list


def run(program, folder, family, refused=0):
    """Runs a program on a family in a folder, with one allocation refused, or none for 0."""
    with tempfile.NamedTemporaryFile("r") as report:
        own = {"LD_PRELOAD": str(LIBRARY), "REFUSED": str(refused)}
        own["ALLOCATIONS_REPORT"] = report.name
        words = [program_of(program), family]
        done = subprocess.run(words, cwd=folder, text=True, capture_output=True,
                              env={**os.environ, **own}, check=False, timeout=600)
        told = [it.split(" ") for it in report.read().splitlines()]
    ends = [it for it in told if it[0] == "end"]
    if not ends:
        raise SystemExit(f"{program} did not end by itself: status {done.returncode}")
    marks = [(it[1], int(it[2])) for it in told if it[0] == "mark"]
    return Run(done.returncode, done.stdout.splitlines(), int(ends[-1][1]), int(ends[-1][2]), marks)


def write_block(folder, block):
    """Puts the rows of a block into the file of its family in a folder."""
    text = "".join(f"{row}{MARK}{wanted}\n" for row, wanted in block.all())
    (Path(folder) / f"{block.family}.rows").write_text(text, encoding="utf-8")

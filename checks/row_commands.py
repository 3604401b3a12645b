"""Commands of rows: what they print, what they write beside, and how they end for want of room."""

import json
import tempfile
from dataclasses import dataclass

from blocks import LIBRARY
from row_refusals import shows_refusal
from row_runs import Folder, leave_out_sanitized
from row_texts import difference, shown

# The files whose bytes are held to what a row says of them, where `hux` writes them.
COMPARED = ("written", "parts/0.wasm", "parts/1.wasm")


def named_in(words, files):
    """The files that words name, by themselves, behind `=` or by their folder; of the input apart."""
    def is_named(name):
        return any(name in word or name.startswith(f"{word}/") for word in words)

    return {name: held for name, held in files.items()
            if name not in ("-", *COMPARED) and is_named(name)}


def are_objects(out):
    """Whether each line is a JSON object; one without a line feed was cut off."""
    lines = out.rpartition(b"\n")[0].split(b"\n") if b"\n" in out else []
    try:
        return all(isinstance(json.loads(it.decode("utf-8")), dict) for it in lines)
    except ValueError:
        return False


@dataclass
class Command:
    """A command on files, which answers a row by what it prints."""

    program: str
    words: list
    files: dict

    def folder(self):
        held = named_in(self.words, self.files)
        return Folder(held | ({"forbidden": "forbidden"} if "forbidden" in self.words else {}))

    def has_little(self):
        return "memory" in named_in(self.words, self.files).values()

    def run(self, folder, **others):
        held = self.files.get("-", b"")
        given = held if isinstance(held, bytes) else b""
        return folder.run(self.program, *self.words, given=given, **others)

    def __call__(self):
        """What is printed, as a row has it, and what is wrong with what was written beside."""
        with self.folder() as folder:
            ran = self.run(folder)
            line = ran.line()
            if self.program == "hux" and "--json" in self.words and "live" not in self.words:
                line += "" if are_objects(ran.out) else ", no objects"
            for name in COMPARED if self.program == "hux" else ():
                line += self.compare(name, folder.read(name), ran.status)
            return line

    def compare(self, name, written, status):
        """What is wrong with a file that was written, or was not and is to be."""
        is_to_be = status == 0 and name.split("/")[0] in self.words and name in self.files
        is_there = written is not None or is_to_be
        is_other = is_there and written != self.files.get(name, written)
        return f", other bytes in {name}" if is_other else ""

    def told(self):
        """The status and what is said on standard error, where too much is printed for a row."""
        leave_out_sanitized(self.program, "a play of a million moves")
        with self.folder() as folder:
            ran = self.run(folder)
        return f"status {ran.status}, err {shown(ran.err)}"

    def cut(self):
        """What becomes of the command where its output takes fewer bytes than it prints."""
        with self.folder() as folder:
            whole = self.run(folder)
            line, last = f"below {len(whole.out)} bytes:", (0, b"")
            for room in range(len(whole.out)):
                ran = self.run(folder, room=room)
                if ran.out != whole.out[:room]:
                    line += f" other output with room for {room}"
                if (ran.status, ran.err) != last:
                    line += f" from {room} status {ran.status}, err {shown(ran.err)}"
                last = (ran.status, ran.err)
        return line

    def refuse(self, most):
        """Refuses each allocation, or so many at equal distances: how many, and what is wrong."""
        wrong = []
        with self.folder() as folder, tempfile.NamedTemporaryFile("r") as report:
            folder.variables = {"LD_PRELOAD": str(LIBRARY), "ALLOCATIONS_REPORT": report.name}
            whole = self.run(folder)
            asked = int(report.read().split()[-2])
            numbers = range(1, asked + 1, max(-(-asked // most), 1))
            for number in numbers:
                folder.variables["REFUSED"] = str(number)
                ran = self.run(folder)
                if ran != whole and not shows_refusal(ran, whole, self.words):
                    wrong.append(f"allocation {number}: {difference(whole.line(), ran.line())}")
        return len(numbers), wrong

"""Rows of the folder rows/: each with what answers it. rows/README.md says what a row is."""

from dataclasses import dataclass
from typing import Any

from blocks import MARK, TOP
from row_hux import answer_core, answer_hux, answer_plan, answer_stub
from row_live import answer_live
from row_texts import bytes_of, text_of
from row_tool import answer_play, answer_script, answer_set, answer_tool

ROWS = TOP / "rows"


@dataclass
class Row:
    """A row: its family, its place, what is asked and wanted, and what answers it: a text, or a
    function."""

    family: str
    place: str
    asked: str
    wanted: str
    answer: Any

    def name(self):
        """What KNOWN calls the row."""
        return f"{self.family}: {self.asked}"


class Family:
    """A file of rows, and what its rows leave for later ones."""

    def __init__(self, path):
        self.path, self.folder = path, path.parent.name
        self.files, self.named, self.played = {}, {}, None

    def name(self):
        return f"{self.folder}/{self.path.stem}"

    def bytes_of(self, source):
        return self.named[source[1:]] if source.startswith("@") else bytes_of(source)

    def rows(self):
        """The rows, each with what answers it."""
        text = self.path.read_text(encoding="utf-8")
        for number, line in enumerate(text.split("\n"), 1):
            if line and not line.startswith("#"):
                asked, mark, wanted = line.partition(MARK)
                answer = self.answer(asked.split(" ")) if mark else "no row"
                place = f"{self.path.relative_to(TOP)}:{number}"
                yield Row(self.name(), place, asked, wanted, answer)

    def answer(self, words):
        call = CALLS.get(self.folder, {}).get(words[0])
        return call(self, words) if call else "no call"


def answer_file(family, words):
    """`file NAME bytes BYTES`, `file NAME text TEXT`, or `file NAME KIND`."""
    name, kind, *rest = words[1:]
    if kind not in ("bytes", "text"):
        family.files[name] = kind
        return "Memory" if kind == "memory" else "Read"
    family.files[name] = bytes_of(rest[0]) if kind == "bytes" else text_of(rest).encode()
    return f"{len(family.files[name])} bytes"


def answer_name(family, words):
    """`CALL NAME BYTES`: the bytes of a component, which later rows cite as `@NAME`."""
    family.named[words[1]] = bytes_of(words[2])
    return f"{len(family.named[words[1]])} bytes"


LIVE = ("live", "recorded", "limit", "cut", "full", "pieces", "broken", "junk", "random")
STUBS = ("provider", "caller", "hosted", "bytes", "others")
CALLS = {
    "tool": {"file": answer_file, "tool": answer_tool, "play": answer_play, "set": answer_set,
             "script": answer_script},
    "hux": {"file": answer_file, "hux": answer_hux, "component": answer_name, "plan": answer_plan,
            "core": answer_core, **dict.fromkeys(LIVE, answer_live)},
    "stubs": {"file": answer_name, **dict.fromkeys(STUBS, answer_stub)},
}


def read_rows(wanted):
    """The rows of the folders, or of the families `FOLDER/FAMILY`, that are wanted, or all."""
    families = (Family(path) for path in sorted(ROWS.glob("*/*.rows")))
    for family in families:
        if not wanted or {family.folder, family.name()} & set(wanted):
            yield from family.rows()

"""How rows spell bytes, texts and memories; crates/cm_rows reads and writes them alike."""

import re
from itertools import groupby

SIGNS = {"n": "\n", "r": "\r", "t": "\t"}
# What else words of a command spell: a blank, and a byte that no UTF-8 has.
IN_WORDS = SIGNS | {"s": " ", "b": "\udcff"}
SHOWN = {it: chr(it) if 0x20 <= it < 0x7F else "?" for it in range(256)}
SHOWN |= {ord(sign): f"\\{letter}" for letter, sign in SIGNS.items()}


def bytes_of(word):
    """The bytes that a word spells: `-`, or parts with dots between, each digits or `N*DIGITS`."""
    parts = [] if word == "-" else word.split(".")
    split = [it.split("*") if "*" in it else ("1", it) for it in parts]
    return b"".join(int(times) * bytes.fromhex(digits) for times, digits in split)


def text_of(words):
    """The text that words spell: `\\n`, `\\r`, `\\t` and the signs of words, and `\\N(PART)` for N
    times the part."""
    def sign(found):
        return IN_WORDS[found[1]] if found[1] else int(found[2]) * found[3]

    return re.sub(r"\\(?:([nrtsb])|(\d+)\(([^)]*)\))", sign, " ".join(words))


def shown(printed):
    """What was printed, as rows have it: a byte that is no ASCII is `?`."""
    return "".join(map(SHOWN.get, printed)) or "-"


def shown_memory(memory):
    """A memory, as rows have it: four and more equal bytes are written once, with their number."""
    parts, is_open = [], False
    for byte, run in groupby(memory):
        count = len(list(run))
        if count >= 4:
            parts.append(f"{count}*{byte:02x}")
        elif is_open:
            parts[-1] += count * f"{byte:02x}"
        else:
            parts.append(count * f"{byte:02x}")
        is_open = count < 4
    return f"{len(memory)} bytes: " + (".".join(parts) or "-")


def difference(wanted, got):
    """Where two answers differ."""
    shorter, longer = sorted(map(len, (wanted, got)))
    at = next((i for i in range(shorter) if wanted[i] != got[i]), shorter)
    begin = max(at - 60, 0) if longer > 400 else 0
    before = ".." if begin else ""
    return f"wanted {before}{wanted[begin:begin + 400]}, got {before}{got[begin:begin + 400]}"

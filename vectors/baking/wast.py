"""Spells a component and what its exports do as a `.wast`, the form of WebAssembly's own tests, and
reads what it has spelled.
"""

import re

WIDEST = 96
# A few words of each trap, as wasmtime's texts have them: a runtime may say it otherwise.
TRAPS = {2: "integer divide by zero", 3: "out of bounds memory access", 4: "of memory",
         5: "aligned", 6: "char", 7: "discriminant", 8: "utf", 10: "unknown handle index",
         11: "handle", 12: "cannot remove owned resource", 13: "from a borrow",
         15: "borrow handles still remain", 16: "cannot leave component instance",
         21: "cannot enter component instance"}
CLOSED = 21
COMPONENT = re.compile(r'\(component binary((?:\s*"[^"]*")*)\s*\)')
PIECE = re.compile(r'"([^"]*)"')
BYTE = re.compile(r"\\([0-9a-f]{2})|(.)")
RETURNS = r'\(assert_return \(invoke "([^"]*)"\)\)'
TRAPS_WITH = r'\(assert_trap \(invoke "([^"]*)"\) "([^"]*)"\) ;; trap (\d+) of Huxarte'
ASSERTED = re.compile(f"{RETURNS}|{TRAPS_WITH}")


def escaped(byte):
    plain = 32 <= byte <= 126 and byte not in b'"\\'
    return chr(byte) if plain else f"\\{byte:02x}"


def pieces(data):
    """A file's bytes as strings of the text format, each on a line."""
    line = ""
    for byte in data:
        if len(line) + 3 > WIDEST - 2:
            yield line
            line = ""
        line += escaped(byte)
    yield line


def asserted(exports, ends):
    """What holds of each export, up to what another trap leaves open."""
    trapped = False
    for name, end in zip(exports, ends):
        if trapped and end != CLOSED:
            return
        trapped = trapped or end is not None
        if end is None:
            yield f'(assert_return (invoke "{name}"))'
        else:
            yield f'(assert_trap (invoke "{name}") "{TRAPS[end]}") ;; trap {end} of Huxarte'


def spelled(comments, data, exports, ends):
    lines = [*(f";; {it}" for it in comments), "(component binary"]
    lines += [f'"{piece}"' for piece in pieces(data)] + [")", *asserted(exports, ends)]
    return "\n".join(lines) + "\n"


def taken_apart(text):
    """The bytes of a file's component, and what is asserted of its exports: {"call", "ends"}, of a
    trap also its "text" and its number, "trap".
    """
    spelling = "".join(PIECE.findall(COMPONENT.search(text)[1]))
    signs = BYTE.findall(spelling)
    data = bytes(int(digits, 16) if digits else ord(sign) for digits, sign in signs)
    return data, [end_of(*it) for it in ASSERTED.findall(text)]


def end_of(returning, trapping, words, trap):
    if returning:
        return {"call": returning, "ends": "returns"}
    return {"call": trapping, "ends": "traps", "text": words, "trap": int(trap)}

"""Writes a middleware that passes on the first interface that a component imports:
through.py FILE OUT. It has the sections of the file up to that import, and an export of it."""

import sys
from pathlib import Path


def read_number(data, at):
    """A number in LEB128, and where it ends."""
    number = shift = 0
    while data[at] & 0x80:
        number |= (data[at] & 0x7F) << shift
        at, shift = at + 1, shift + 7
    return number | data[at] << shift, at + 1


def main():
    data = Path(sys.argv[1]).read_bytes()
    at, section = 8, None
    while section != 10:
        section = data[at]
        size, begin = read_number(data, at + 1)
        at = begin + size
    # The count 1, a name as 00 and its bytes, and behind it that it is an instance.
    length, name = read_number(data, begin + 2)
    export = b"\1\0" + data[begin + 2 : name + length] + b"\5\0\0"
    Path(sys.argv[2]).write_bytes(data[:at] + b"\x0b" + bytes([len(export)]) + export)


main()

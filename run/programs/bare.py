"""bare.py COMPONENT OUT writes a component without its custom sections, and without those of its core
modules: names and the like, which nothing that runs it reads."""

import sys
from pathlib import Path

PREAMBLE, CUSTOM, CORE_MODULE = 8, 0, 1


def number(data, at):
    """A number in LEB128, and where it ends."""
    value = shift = 0
    while data[at] >= 128:
        value, shift, at = value | (data[at] & 127) << shift, shift + 7, at + 1
    return value | data[at] << shift, at + 1


def spelled(value):
    return bytes([value]) if value < 128 else bytes([value & 127 | 128]) + spelled(value >> 7)


def sections(data):
    """The sections behind the preamble: their ids and contents."""
    at = PREAMBLE
    while at < len(data):
        size, begin = number(data, at + 1)
        yield data[at], data[begin:begin + size]
        at = begin + size


def bare(data, is_component):
    parts = [data[:PREAMBLE]]
    for kind, content in sections(data):
        if is_component and kind == CORE_MODULE:
            content = bare(content, False)
        if kind != CUSTOM:
            parts += [bytes([kind]), spelled(len(content)), content]
    return b"".join(parts)


def main():
    source, out = map(Path, sys.argv[1:])
    out.write_bytes(bare(source.read_bytes(), True))


if __name__ == "__main__":
    main()

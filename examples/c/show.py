#!/usr/bin/env python3
"""Shows what components import and export, by the library as a shared object: show.py LIBRARY FILE..
"""

import ctypes
import sys
from pathlib import Path


class Verdict(ctypes.Structure):
    _fields_ = [
        ("kind", ctypes.c_uint32),
        ("reason", ctypes.c_uint32),
        ("file", ctypes.c_size_t),
        ("place", ctypes.c_size_t),
        ("item", ctypes.c_size_t),
    ]


def call_of(path):
    """`hux_show` of the shared object at a path."""
    call = ctypes.CDLL(path).hux_show
    call.restype = Verdict
    call.argtypes = [
        ctypes.c_char_p,
        ctypes.c_size_t,
        ctypes.POINTER(ctypes.c_char),
        ctypes.c_size_t,
        ctypes.POINTER(ctypes.c_size_t),
    ]
    return call


def show(call, data):
    """What is wrong with the bytes of a file, or None, and the text."""
    room, wanted = 16, ctypes.c_size_t()
    while True:
        text = ctypes.create_string_buffer(room)
        verdict = call(data, len(data), text, room, ctypes.byref(wanted))
        if wanted.value <= room:
            return verdict.kind, text.raw[: wanted.value].decode()
        room = wanted.value


def main(words):
    call, worst = call_of(words[0]), 0
    for name in words[1:]:
        kind, text = show(call, Path(name).read_bytes())
        print(text, end="" if kind == 0 else "\n")
        worst = max(worst, kind != 0)
    return worst


if __name__ == "__main__":
    sys.exit(main(sys.argv[1:]))

"""Runs of `component_tool` and `hux` in fresh folders, with the files that a row names.

Files of a kind stand for what a disk does: `forbidden` has no rights, `broken` is opened and cannot
be read, and `memory` is larger than what the program may ask for. An output that takes so many
bytes is a file of a limited size.
"""

import ctypes
import os
import resource
import subprocess
import tempfile
from dataclasses import dataclass
from functools import lru_cache
from pathlib import Path

from row_texts import shown

# The paths of the programs, by their names.
PROGRAMS = {}
SECONDS = 300
# A file of so many bytes finds no memory in a program that may have so few.
LARGE, LITTLE = 16 << 20, 8 << 20
# What has the rights of all files, and is taken from what is run here (`man capabilities`).
OVERRIDES, PR_CAPBSET_DROP = (1, 2), 24


class LeftOut(Exception):
    """Why a row is not asked of a program that is compiled with no proof."""


def drop_rights():
    """Takes from what is run the right to files that may not be read, which root has."""
    if os.geteuid() == 0:
        for right in OVERRIDES:
            ctypes.CDLL(None).prctl(PR_CAPBSET_DROP, right, 0, 0, 0)


@lru_cache
def is_sanitized(program):
    """Whether `rt try` made the program, which then has a sanitizer."""
    return b"__asan_init" in Path(PROGRAMS[program]).read_bytes()


def leave_out_sanitized(program, what):
    """Leaves out what takes a program with a sanitizer too much memory or time."""
    if is_sanitized(program):
        raise LeftOut(f"{what}, by a program with a sanitizer")


@dataclass
class Ran:
    """What came of a run."""

    status: int
    out: bytes
    err: bytes

    def line(self):
        return f"status {self.status}, out {shown(self.out)}, err {shown(self.err)}"


def limit_data():
    resource.setrlimit(resource.RLIMIT_DATA, (LITTLE, LITTLE))


class Folder:
    """A fresh folder, with files by their names: bytes, or a kind."""

    def __init__(self, files):
        self.made = tempfile.TemporaryDirectory(prefix="rows-")
        self.path = Path(self.made.name)
        self.has_little, self.variables = False, {}
        for name, held in files.items():
            self.put(name, held)

    def __enter__(self):
        return self

    def __exit__(self, *_):
        self.made.cleanup()

    def put(self, name, held):
        """Makes a file of these bytes, or of this kind."""
        path = self.path / name
        path.parent.mkdir(parents=True, exist_ok=True)
        if isinstance(held, bytes):
            path.write_bytes(held)
        elif held == "folder":
            path.mkdir()
        elif held == "forbidden":
            path.touch(0)
        elif held == "broken":
            path.symlink_to("/proc/self/mem")
        elif held == "memory":
            path.touch()
            os.truncate(path, LARGE)
            self.has_little = True

    def read(self, name):
        return (self.path / name).read_bytes() if (self.path / name).is_file() else None

    def start(self, program, words, out, **others):
        """Starts a program here, which takes over the limits of this process."""
        env = {name: held for name, held in os.environ.items() if name != "CLICOLOR_FORCE"}
        return subprocess.Popen(
            [PROGRAMS[program], *words], cwd=self.path, stdout=out, env=env | self.variables,
            stderr=subprocess.PIPE, preexec_fn=limit_data if self.has_little else None, **others)

    def run(self, program, *words, given=b"", room=None):
        """Runs a program here: what it reads, and how many bytes its standard output takes."""
        if self.has_little:
            leave_out_sanitized(program, "no memory for a file")
        with tempfile.TemporaryFile() as out:
            others = {"stdin": subprocess.PIPE}
            if room is None:
                made = self.start(program, words, out, **others)
            else:
                made = self.start_with_room(program, words, out, room, others)
            return ended(made, out, given)

    def start_with_room(self, program, words, out, room, others):
        """A file that takes no more bytes fails by an error alone where its signal is ignored, as
        Python does, which what it starts takes over."""
        limits = resource.getrlimit(resource.RLIMIT_FSIZE)
        resource.setrlimit(resource.RLIMIT_FSIZE, (room, limits[1]))
        try:
            return self.start(program, words, out, restore_signals=False, **others)
        finally:
            resource.setrlimit(resource.RLIMIT_FSIZE, limits)


def ended(made, out, given=None):
    """What comes of a program that was started, which is ended where it takes too long."""
    try:
        _, err = made.communicate(given, timeout=SECONDS)
    except subprocess.TimeoutExpired:
        made.kill()
        made.communicate()
        raise
    out.seek(0)
    return Ran(made.returncode, out.read(), err)

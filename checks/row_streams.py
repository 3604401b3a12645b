"""Answers to rows on what `hux live` reads and writes, whole and in pieces, to an end or a failure.

A reader that fails is a terminal whose other end is closed, and a piece of lines is given once the
piece before it was read.
"""

import fcntl
import os
import struct
import subprocess
import tempfile
import termios
import time
import tty

from row_runs import ended


def whole_lines(lines):
    return lines[:lines.rfind(b"\n") + 1]


def fronts(played, folder):
    """For each beginning of the lines what its whole lines are answered."""
    kept = {}
    for length in range(len(played.lines)):
        whole = whole_lines(played.lines[:length])
        if whole not in kept:
            kept[whole] = played.serve(folder, whole)[0]
        yield length, kept[whole]


def cuts_line(played):
    wrong = ""
    with played.folder() as folder:
        for length, wanted in fronts(played, folder):
            front = played.lines[:length]
            is_cut = front != whole_lines(front)
            answers, _ = played.serve(folder, front)
            if answers != wanted + is_cut * b"error: the input ends within a line\n":
                wrong += f"not at {length}, "
    return f"{wrong}{len(played.lines)} lengths"


def full_line(played):
    wrong = ""
    with played.folder() as folder:
        whole, ran = played.serve(folder, played.lines)
        plan = len(ran.out) - len(whole)
        for room in range(len(whole)):
            _, cut = played.serve(folder, played.lines, room=plan + room)
            if cut.status != 4 or cut.out != ran.out[:plan + room]:
                wrong += f"not at {room}, "
    return f"{wrong}{len(whole)} rooms"


def pieces_line(played):
    wrong = ""
    with played.folder() as folder:
        _, whole = played.serve(folder, played.lines)
        for size in range(1, 9):
            if served_in_pieces(played, folder, size) != whole:
                wrong += f"not at {size}, "
    return f"{wrong}8 sizes"


def served_in_pieces(played, folder, size):
    """What comes of lines of which each piece is given once the one before it was read."""
    with tempfile.TemporaryFile() as out:
        made = played.start(folder, out, stdin=subprocess.PIPE)
        for at in range(0, len(played.lines), size):
            os.write(made.stdin.fileno(), played.lines[at:at + size])
            wait_until_read(made)
        return ended(made, out)


def wait_until_read(made):
    while made.poll() is None and unread(made.stdin.fileno()):
        time.sleep(0.000_05)


def unread(pipe):
    """How many bytes of a pipe are not read yet."""
    return struct.unpack("i", fcntl.ioctl(pipe, termios.FIONREAD, bytes(4)))[0]


def broken_line(played):
    wrong = ""
    with played.folder() as folder:
        for length, wanted in fronts(played, folder):
            ran = served_to_failure(played, folder, played.lines[:length])
            _, ready, answers = ran.out.partition(b"ready\n")
            if ran.status != 4 or ready + answers != wanted:
                wrong += f"not at {length}, "
    return f"{wrong}{len(played.lines)} lengths"


def served_to_failure(played, folder, lines):
    """What comes of lines of a terminal whose other end is closed behind them: reading fails."""
    ours, theirs = os.openpty()
    tty.setraw(theirs)
    os.write(theirs, lines)
    os.close(theirs)
    with tempfile.TemporaryFile() as out:
        made = played.start(folder, out, stdin=ours)
        os.close(ours)
        return ended(made, out)

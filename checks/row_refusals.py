"""What a command may print where one of its allocations is refused.

It does what it does with all memory, up to a line or a trap that tells of the refusal. What is said
of a fault or a trap may lack what stands behind a colon, and a line values.
"""

import json
import re

from refusals import WANTING

TOLD = ("Memory", "no memory", "misuse 6", "trapped 20", "Write")


def tells_of_memory(line):
    return any(it in line for it in TOLD)


def tells_of_added(err, all_err):
    return err != all_err and tells_of_memory(err)


def is_short(ours, whole):
    """Whether a line is the wanted one, up to a colon or with values left out. Of the object of a
    fault its line is looked at."""
    if ours.startswith('{"fault"') and whole.startswith('{"fault"'):
        ours, whole = (json.loads(it)["fault"]["text"] for it in (ours, whole))
    front = re.sub(r"\.\.\)?$", "", ours)
    is_cut = front != ours and whole.startswith(front)
    return is_cut or ours == whole or whole.startswith((f"{ours}: ", f"{ours} ("))


def ends_in_trap(ran, lines, all_lines):
    """Whether a play ends in trap 20, where the event that would come may want memory."""
    at = lines.index("trapped 20")
    is_beginning = at < len(all_lines) and lines[:at] == all_lines[:at]
    return is_beginning and ran.status == 3 and bool(WANTING.match(all_lines[at]))


def ends_early(ran, whole):
    """Whether a run ends for want of memory: in trap 20, in a fault of memory, or with its fault
    cut. What stands behind the last line feed is none of its lines."""
    lines, all_lines = (it.out.decode().split("\n")[:-1] for it in (ran, whole))
    if lines and lines[-1].startswith('{"fault":') and lines[-1] not in all_lines:
        lines.pop()
    if "trapped 20" in lines:
        return ends_in_trap(ran, lines, all_lines)
    if ran.status == whole.status and lines == all_lines and len(ran.err) < len(whole.err):
        return True
    is_told = tells_of_memory(ran.err.decode())
    return is_told and lines == all_lines[:len(lines)] and ran.status in (1, 3, 4)


def is_err_right(ran, whole):
    """Whether standard error tells of the refusal, or says the same in fewer words."""
    err, all_err = ran.err.decode(), whole.err.decode()
    return tells_of_added(err, all_err) or is_short(err.rstrip("\n"), all_err.rstrip("\n"))


def is_end_right(ran, whole, words):
    """Whether the status may be, and lines that are printed more or less than with all memory."""
    ours, others = (it.out.decode().splitlines() for it in (ran, whole))
    added, lost = ours[len(others):], others[len(ours):]
    is_quiet = bool({"-q", "--quiet"} & set(words))
    is_object_lost = len(lost) == 1 and lost[0].startswith('{"fault"')
    is_told = tells_of_added(ran.err.decode(), whole.err.decode())
    is_lost_right = not lost or is_object_lost or is_told
    is_added_right = not added or is_quiet and all(map(tells_of_memory, added))
    return is_lost_right and is_added_right and ran.status in (whole.status, 1, 3, 4)


def shows_refusal(ran, whole, words):
    """Whether a run of a command with these words is as with all memory but for the refusal."""
    if ends_early(ran, whole):
        return True
    for line, other in zip(ran.out.decode().splitlines(), whole.out.decode().splitlines()):
        if tells_of_memory(line) and line != other:
            return ran.status in (1, 3, 4)
        if not is_short(line, other):
            return False
    return is_end_right(ran, whole, words) and is_err_right(ran, whole)

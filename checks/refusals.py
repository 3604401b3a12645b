"""What rows answer where one allocation is refused.

A row that finds no memory is answered once more, so a refusal changes no answer: the call that was
refused left all as it was. Two kinds of answers show the refusal themselves: a move of a set ends
in trap 20 (and what comes behind it in the block is not judged), and a list of answers has
`Memory@PLACE`, or `fault Memory` in the place of the first answer that differs (those behind it may
cite it). A program that cannot read or print a row ends with status 1, and what it printed is a
beginning; a row of which it cannot read a part is `no row` or `no memory` to it.
"""

import re

from blocks import run, write_block

# The events of moves that may want memory: a growth, what a call or a return hands over or asks
# for, and a handle that is made.
WANTING = re.compile(r"grown \d|enter |realloc |postreturn |resume |trapped ")
UNREAD = ("no row", "no memory")
SIZED = re.compile(r"\d+ bytes")
DRIVEN = re.compile(r"misuse (Busy|Closed|Idle)( seats .*)?")
TRAPPED = re.compile(r"(?:.*; )?trapped (?:EngineMemory \(last\)|20)(?: .*)?")


def lacks_within(line, wanted):
    """Whether a list of answers has `Memory@PLACE`, and else what is wanted."""
    words, others = line.split(" "), wanted.split(" ")
    return len(words) == len(others) and all(
        word == other or word.startswith("Memory@") for word, other in zip(words, others))


def lacks_in_list(got, wanted):
    """Whether the first of a list of answers that is not the wanted one is `fault Memory`."""
    differing = [ours for ours, whole in zip(got.split(" ; "), wanted.split(" ; ")) if ours != whole]
    return differing[:1] == ["fault Memory"]


def lacks_in_drive(got, wanted):
    """Whether a drive, or a run to its last event, was refused at its second time: the first found
    no memory for its events, and left the set as its moves had left it."""
    is_driven = " seats " in wanted or wanted.endswith("(last)")
    return is_driven and bool(DRIVEN.fullmatch(got))


def lacks_in_move(got, wanted):
    """Whether a move, or the last one of a run, ends in trap 20 where its event may want memory."""
    if not TRAPPED.fullmatch(got):
        return False
    before = got.split("; ")[:-1]
    events = wanted.split("; ")
    return events[:len(before)] == before and len(events) > len(before) and bool(
        WANTING.match(events[len(before)]))


def lacks_in_cuts(got, wanted):
    """Whether beginnings of a file, of which each is read, ended otherwise for one of them."""
    return wanted.startswith("below ") and got.startswith("below ")


def lacks_in_text(got, wanted):
    """Whether a text that rows make line by line has part of a line that found no memory."""
    return bool(SIZED.fullmatch(got) and SIZED.fullmatch(wanted))


def lacks_in_words(got, wanted):
    """Whether the words of a fault lack what would follow a colon, which found no memory."""
    return ": " in got and wanted.startswith(f"{got}: ")


# What shows the refusal, so that the rows behind it are not judged.
LAST = (
    lacks_in_move, lacks_in_list, lacks_in_drive, lacks_in_cuts, lacks_in_text, lacks_in_words,
)


def are_right(differing, rows):
    """Whether the rows that differ show the refusal."""
    for number, line in sorted(differing.items()):
        wanted = rows[number - 1][1]
        got = line.removeprefix(f"wanted {wanted}, got ")
        if got in UNREAD or any(it(got, wanted) for it in LAST):
            return True
        if not lacks_within(got, wanted):
            return False
    return True


def judge(done, block):
    """Whether what was printed may be, whether all was, and whether a row differs."""
    rows, differing, counted = block.all(), {}, []
    for line in done.lines:
        differs = re.match(rf"{block.family}\.rows:(\d+): (.*)", line)
        if differs:
            differing[int(differs[1])] = differs[2]
        elif line not in ("-", "."):
            counted.append(line)
    passed = len(rows) - len(differing)
    of_family = f"{passed} of {len(rows)} rows pass" if differing else f"{len(rows)} rows pass"
    wanted = [f"{block.family}: {of_family}"]
    is_whole = counted == wanted
    is_right = are_right(differing, rows) and counted in ([], wanted)
    return is_right and done.status == (bool(differing) if is_whole else 1), is_whole, differing


def sweep(program, folder, block, most):
    """Refuses each allocation of a block, or `most` of them at equal distances where it has more:
    how many were refused, how many of these showed, how many ended the program, how many answers
    were wrong, and how many allocations were left out."""
    write_block(folder, block)
    first = block.rows[-1][0][:160]
    done = run(program, folder, block.family)
    is_right, is_whole, differing = judge(done, block)
    if not is_right or not is_whole or differing:
        print(f"{program}: not as wanted with all memory: {first}")
        return 0, 0, 0, 1, 0
    step = -(-done.asked // most)
    numbers = range(1, done.asked + 1, step)
    shown = ended = wrong = 0
    for refused in numbers:
        done = run(program, folder, block.family, refused)
        is_right, is_whole, differing = judge(done, block)
        shown += is_whole and bool(differing)
        ended += not is_whole
        if not is_right:
            print(f"{program}: allocation {refused} refused, status {done.status}: {first}")
            wrong += 1
    return len(numbers), shown, ended, wrong, (numbers.stop - 1) - len(numbers)

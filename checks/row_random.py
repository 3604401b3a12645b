"""Answers to rows on lines that look random: junk, which is refused, and transcripts."""

import subprocess
from collections import Counter

from row_played import Mirror, replies_of
from row_runs import LARGE, SECONDS, is_sanitized

# More bytes of a memory than random lines name.
NAMED = 8_192
# Of so many transcripts one is held by a play where a program has a sanitizer, which starts slowly.
HELD_OF = 10


class Numbers:
    """Numbers that look random: a linear congruence of 64 bits, its upper half."""

    def __init__(self, seed):
        self.state = seed

    def below(self, bound):
        state = self.state * 6_364_136_223_846_793_005 + 1_442_695_040_888_963_407
        self.state = state % (1 << 64)
        return (self.state >> 33) % bound


def junk_line(played, seed, count):
    """Each line of bytes that look random is refused. Memories are not looked at."""
    numbers = Numbers(int(seed))
    junk = bytes(numbers.below(256) for _ in range(int(count)))
    with played.folder() as folder:
        answers, _ = played.serve(folder, junk)
    replies = answers.splitlines()[1:]
    lines = junk.count(b"\n") + (junk[-1:] != b"\n")
    is_refused = len(replies) == lines and all(it.startswith(b"error: ") for it in replies)
    return f"{'' if is_refused else 'not each line is refused, '}{lines} lines"


class Talk:
    """A run of `hux live` that is told a line at a time. It is quiet about traps: nobody reads its
    standard error meanwhile, and where that is full the program waits."""

    def __init__(self, played, folder):
        self.made = played.start(folder, subprocess.PIPE, "-q", stdin=subprocess.PIPE)
        while self.made.stdout.readline() not in (b"ready\n", b""):
            pass

    def say(self, line):
        """What was written into memories, and the answer."""
        self.made.stdin.write(line.encode() + b"\n")
        self.made.stdin.flush()
        lines = [self.made.stdout.readline()]
        while lines[-1].startswith(b"mem "):
            lines.append(self.made.stdout.readline())
        return next(replies_of(b"\n" + b"".join(lines)))


def filled(form, numbers):
    """A line in which `?` is a multiple of 8 below 4,096, and `!` a number below 16."""
    signs = {"?": lambda: str(numbers.below(512) * 8), "!": lambda: str(numbers.below(16))}
    return "".join(signs[it]() if it in signs else it for it in form)


def transcript(talk, played, root, numbers, seen):
    """A root call of at most 64 lines that look random, beside the memories that a client keeps."""
    forms = played.lines.decode().split("\n")
    mirror, said = Mirror(played.pages.split(",")), f"begin {root}"
    for left in range(64, -1, -1):
        told, reply = talk.say(said)
        mirror.add(said, told, reply, NAMED)
        seen.update([reply.split(" ")[0], *["mem" for _ in told]])
        if left == 0 or reply.startswith(("ended", "trapped")):
            break
        said = filled(forms[numbers.below(len(forms))], numbers)
    mirror.hold(LARGE)
    return mirror


def random_line(played, seed, count, root):
    """So many transcripts, each held by a play."""
    numbers, seen, step = Numbers(int(seed)), Counter(), HELD_OF if is_sanitized("hux") else 1
    with played.folder() as folder:
        talk = Talk(played, folder)
        for number in range(int(count)):
            mirror = transcript(talk, played, root, numbers, seen)
            wrong = mirror.differences(played) if number % step == 0 else ""
            if wrong:
                return f"transcript {number}: {wrong}"
            talk.say(f"pages {played.pages.replace(',', ' ')}")
        talk.made.communicate(timeout=SECONDS)
    return f"{count} transcripts" if seen["mem"] and seen["ended"] and seen["trapped"] else "few"

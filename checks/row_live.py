"""Answers to rows of sets that `hux live` plays line by line."""

from row_played import Mirror, Played, replies_of
from row_random import junk_line, random_line
from row_runs import LARGE
from row_streams import broken_line, cuts_line, full_line, pieces_line
from row_texts import shown, text_of


def answer_live(family, words):
    """The answer to a call on a set: `CALL OWN.. FILES PAGES LINES..`."""
    own = {"limit": 1, "junk": 2, "random": 3}.get(words[0], 0)
    options, (files, pages, *lines) = words[1:1 + own], words[1 + own:]
    files = [family.bytes_of(it) for it in files.split(",")]
    played = Played(files, pages, text_of(lines).encode())
    by_call = {"live": live_line, "recorded": recorded_line, "cut": cuts_line, "full": full_line,
               "pieces": pieces_line, "broken": broken_line, "limit": limited_line,
               "junk": junk_line, "random": random_line}
    return lambda: by_call[words[0]](played, *options)


def live_line(played):
    with played.folder() as folder:
        answers, _ = played.serve(folder, played.lines)
    return shown(answers) + differing_memories(played, answers)


def differing_memories(played, answers):
    """Where the memories are not as a client's mirrors, in the sets up to each `pages`."""
    mirror, wrong = Mirror(played.pages.split(",")), ""
    lines = played.lines.decode().split("\n")
    for said, (told, reply) in zip(lines, replies_of(answers)):
        if said.startswith("pages ") and reply == "ready":
            wrong += mirror.differences(played)
            mirror = Mirror(said.split(" ")[1:])
        else:
            mirror.add(said, told, reply, LARGE)
    return wrong + mirror.differences(played)


def recorded_line(played):
    """What is recorded, and the first event to which the record does not lead."""
    with played.folder() as folder:
        answers, _ = played.serve(folder, played.lines, "--record", "s")
        script = folder.read("s")
        again = folder.run("component_tool", "play", "--script", "s", *played.names).out
    events = iter(again.decode().splitlines())
    for event in answers.decode().splitlines():
        if not event.startswith(("ready", "mem ", "error: ")) and next(events, None) != event:
            return f"{shown(script)} other event {event}"
    return shown(script)


def limited_line(played, limit):
    with played.folder() as folder:
        answers, ran = played.serve(folder, played.lines, "--limit", limit)
    return f"{shown(answers)} {end_of(ran)}"


# What standard error says of an end, and what rows call it.
ENDS = {b"limit:": "Limit", b"standard input ends while": "Open", b"standard input: a line": "Long"}


def end_of(ran):
    lines = ran.err.splitlines()
    said = [name for text, name in ENDS.items()
            if any(line.startswith(b"error: " + text) for line in lines)]
    return {0: "Ended", 1: said and said[0], 3: "Trapped", 4: "Err"}[ran.status]

"""Answers to rows of `component_tool`: commands, words, scripts, and what plays leave behind."""

import re

from row_commands import Command, named_in
from row_runs import Folder
from row_texts import shown_memory, text_of

PAGE = 65_536
# A valid component without imports and exports.
NOTHING = bytes.fromhex("0061736d0d000100")


def answer_tool(family, words):
    """`tool run WORD..`, `tool cut WORD..`, `tool told WORD..` or `tool words WORD..`."""
    rest = [text_of([it]) for it in words[2:]]
    if words[1] == "words":
        return lambda: words_line(rest)
    command = Command("component_tool", rest, dict(family.files))
    return {"run": command, "cut": command.cut, "told": command.told}[words[1]]


def words_line(words):
    """The command that words are, by the files that it asks for, one after the other."""
    asked, err = [], ""
    with Folder({}) as folder:
        while len(asked) < len(words):
            err = folder.run("component_tool", *words).err.decode()
            found = re.fullmatch(r"error: (.*): Read: there is no such file\n", err)
            if not found:
                break
            asked.append(found[1])
            is_text = words[0] == "conform" and len(asked) == 2
            folder.put(found[1], b"package a:b;" if is_text else NOTHING)
    if words[0] == "play":
        return f"play of {asked[-1]} on {' '.join(asked[:-1])}"
    if words[0] == "conform":
        world = re.search(r" in world (.*): there is no such world", err)[1]
        return f"conform of {asked[0]} to {world} of {asked[1]}"
    return f"{words[0]} of {' '.join(asked)}"


def answer_play(family, words):
    """`play script SCRIPT FILE..`; what rows ask of the set behind it is asked of further plays."""
    family.played = (words[2], words[3:], dict(family.files))
    return Command("component_tool", ["play", "--script", *words[2:]], family.played[2])


def answer_set(family, words):
    """`set acting`, `set closed` or `set memory INSTANCE`, behind a play."""
    played = family.played
    calls = {"acting": lambda: acting_line(*played), "closed": lambda: closed_line(*played),
             "memory": lambda: memory_line(int(words[2]), *played)}
    return calls[words[1]]


def begun_again(number, script, names, files):
    """The fault of a drive more, behind those of a script."""
    longer = files[script].rstrip(b"\n") + b"\nbegin %d\n" % number
    with Folder({**named_in(names, files), script: longer}) as folder:
        err = folder.run("component_tool", "play", "--script", script, *names).err.decode()
    return err.rstrip("\n").rpartition("\n")[2].removeprefix("error: ")


def acting_line(*played):
    return "someone" if begun_again(0, *played).startswith("misuse 2: ") else "none"


def closed_line(*played):
    """The closed instances, each by a drive more that it refuses."""
    numbers = range(len(played[1]))
    closed = [it for it in numbers if begun_again(it, *played).startswith("misuse 3: ")]
    return " ".join(["closed", *map(str, closed)])


def memory_line(number, script, names, files):
    """A memory behind the last drive, by statements of `hux` that print it, page for page."""
    memory, held = b"", named_in(names, files)
    with Folder(held) as folder:
        while True:
            asked = b"\nprint %d %d %d\n" % (number, len(memory), PAGE)
            folder.put(script, files[script].rstrip(b"\n") + asked)
            ran = folder.run("hux", "play", "--script", script, *names)
            told = re.search(rb"(?m)^%d %d ([0-9a-f]+)$" % (number, len(memory)), ran.out)
            if not told:
                break
            memory += bytes.fromhex(told[1].decode())
    return "none" if b"no such component" in ran.err else shown_memory(memory)


def answer_script(_, words):
    """`script parse COUNT TEXT`, `script bytes WORD`, `script form LINE`, or `script u32 WORD` and
    `script u64 WORD`."""
    call, text = words[1], text_of(words[2:])
    if call == "parse":
        count, _, script = text.partition(" ")
        return lambda: parsed_line(int(count), script)
    if call == "bytes":
        return lambda: spelled_line(text)
    if call == "form":
        return lambda: told_of(text)[0].partition(": expected ")[2]
    kind = {"u32": "i32", "u64": "i64"}[call]
    return lambda: told_of(f"return {kind}:{text}")[1].partition(f"return {kind}:")[2] or "none"


def parsed_line(count, script):
    """The fault of a script, for so many components."""
    names = [str(it) for it in range(count)]
    with Folder({**{it: NOTHING for it in names}, "s": script.encode()}) as folder:
        err = folder.run("component_tool", "play", "--script", "s", *names).err.decode()
    found = re.match(r"error: script (line \d+: [^:\n]*)", err)
    return found[1] if found else "no fault of a line"


def spelled_line(word):
    """The bytes that a word of a script spells, as `hux` prints them where they were written."""
    size = 0 if word == "-" else len(word) // 2
    script = f"pages 1\nguest 0\nwrite 0 {word}\nprint 0 0 {size}\nprint 0 {size} 1\nbegin 0\n"
    with Folder({"p": NOTHING, "s": script.encode()}) as folder:
        out = folder.run("hux", "play", "--script", "s", "p").out.decode()
    found = re.search(r"^0 0 (.*)\n0 \d+ 00$", out, re.M)
    return found[1] if found else "bad hex"


def told_of(said):
    """What a line to a set of one component is answered, and what is recorded last."""
    with Folder({"p": NOTHING}) as folder:
        ran = folder.run("hux", "live", "--record", "s", "p", given=f"begin 0\n{said}\n".encode())
        return (ran.out.decode().splitlines()[-1], folder.read("s").decode().splitlines()[-1])

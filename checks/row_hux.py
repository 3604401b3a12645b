"""Answers to rows of `hux`: commands, plans of a set, names of core functions, and stubs."""

import json
import sys
from pathlib import Path

from row_commands import Command
from row_runs import Folder
from row_texts import shown, text_of

sys.path.insert(0, str(Path(__file__).resolve().parent.parent / "bench"))
from second_names import judged  # noqa: E402


def answer_hux(family, words):
    """`hux run WORD..` or `hux cut WORD..`."""
    command = Command("hux", [text_of([it]) for it in words[2:]], dict(family.files))
    return {"run": command, "cut": command.cut}[words[1]]


def answer_plan(family, words):
    """`plan NAME FILE`: the plan of a file, over the stub that serves its imports."""
    name, file = words[1], family.bytes_of(words[2])

    def line():
        with Folder({name: file}) as folder:
            folder.run("hux", "stub", name, "-o", "below")
            out = folder.run("hux", "live", "below", name).out
        plan = out.partition(b"ready\n")[0]
        return shown(plan[plan.rindex(b"component "):])

    return line


def answer_core(family, words):
    """`core FILE NAME`: the number of the core function that `hux core` says is lifted as NAME."""
    file, name = family.bytes_of(words[1]), words[2]

    def line():
        with Folder({"f": file}) as folder:
            lines = folder.run("hux", "core", "f").out.decode().splitlines()
        rows = [it.split("\t") for it in lines]
        return next((it[0] for it in rows if f"lifted as {name}" in it[-1].split(", ")), "none")

    return line


def answer_stub(family, words):
    """`provider FILE..` tells what the stub exports, `caller FILE..` what it imports, and `hosted
    FILE..` what the caller imports over the files and their provider; `bytes` before them tells the
    file of the stub, and `others` what the second reader of names says of it."""
    told = words[0] if words[0] in ("bytes", "others") else "names"
    what, *sources = words if told == "names" else words[1:]
    files = [family.bytes_of(it) for it in sources]
    return lambda: stub_line(what, files, told)


def stub_line(what, files, told):
    names = [f"{it}.wasm" for it in range(len(files))]
    with Folder(dict(zip(names, files))) as folder:
        if what == "hosted":
            folder.run("hux", "stub", *names, "-o", "below")
            names = ["below", *names]
        words = [] if what == "provider" else ["--caller"]
        ran = folder.run("hux", "stub", "--json", *words, *names, "-o", "made")
        made = folder.read("made")
        if made is None:
            return stub_fault(json.loads(ran.out.decode())["fault"])
        if told != "names":
            return made.hex() if told == "bytes" else judged(made)
        lines = folder.run("hux", "show", "made").out.decode().splitlines()
    named = [it.split(" ")[1] for it in lines if it.startswith(("import ", "export "))]
    return " ".join(["links", *(it.removesuffix(":").removeprefix("%") for it in named)])


def stub_fault(fault):
    """The fault of a stub by the object that tells it."""
    name, kind = fault["name"], fault.get("kind")
    place = "".join(f"{it}: {fault[it]}, " for it in ("component", "import", "section", "item")
                    if it in fault and not (kind == "ValidReason" and it == "component"))
    if kind == "LinkReason":
        return f"fault NotLinked(LinkFault {{ {place}reason: {name} }})"
    if kind == "ValidReason":
        inner = f"ValidFault {{ {place}reason: {name} }}"
        if "component" not in fault:
            return f"fault NotValid({inner})"
        return f"fault Component {{ component: {fault['component']}, fault: {inner} }}"
    return f"fault {name}"

"""Holds the rows of the examples to their folders; with --write the rows are written anew.

Each folder of examples/ with a script has a README.md whose first command plays it, `output`, which
is what is printed then, and, where something is said on standard error, `errors`. The README says
the exit status. `rows/tool/examples.rows` plays the same files. The page of examples/live has a
command for each NAME.script, which is to print NAME.events, and on standard error NAME.errors,
where that is there; `rows/hux/programs.rows` plays those. What the page shows is what was recorded.
The values and the picture that end a page are what `rows/hux/plays.rows` wants of `hux`.
"""

import re
import sys
from pathlib import Path

TOP = Path(__file__).resolve().parent.parent
ROWS = TOP / "rows" / "tool" / "examples.rows"
LIVE = TOP / "examples" / "live"
PROGRAM_ROWS = TOP / "rows" / "hux" / "programs.rows"
HEAD = "# {}: written by checks/examples --write, of the files in examples/.\n"
STATUS = {"ended": 0, "trapped": 3}


def spelled(text):
    """A text as rows spell it."""
    return text.replace("\n", "\\n") or "-"


def printed(folder, name):
    file = folder / name
    return spelled(file.read_text(encoding="utf-8")) if file.is_file() else "-"


def file_row(word, file, is_script):
    read = file.read_bytes()
    text = f"text {spelled(read.decode())}" if is_script else f"bytes {read.hex()}"
    return f"file {word} {text} => {len(read)} bytes"


def rows_of(folder):
    """The rows of an example, by the first command of its page."""
    page = (folder / "README.md").read_text(encoding="utf-8")
    command = re.search(r"^ {4}\./component_tool (play (?:[^\\\n]|\\\n)*)", page, re.M)[1]
    words = command.replace("\\\n", " ").split()
    status = re.search(r"(?:exit|with)\s+status\s+(\d)", page)[1]
    rows = [f"# {folder.name}"]
    rows += [file_row(word, TOP / word, word.endswith("/script")) for word in words[2:]]
    out, err = printed(folder, "output"), printed(folder, "errors")
    rows.append(f"tool run {' '.join(words)} => status {status}, out {out}, err {err}")
    return rows


def live_rows():
    """The rows of the recorded scripts, by the commands of their page."""
    page = (LIVE / "README.md").read_text(encoding="utf-8")
    commands = re.findall(r"^ {4}\.\./\.\./hux (play --script .*)$", page, re.M)
    if sorted(it.split()[2] for it in commands) != sorted(it.name for it in LIVE.glob("*.script")):
        sys.exit("checks/played.py: the page of examples/live does not play each script")
    rows, known = [], set()
    for words in map(str.split, commands):
        new = [word for word in words[2:] if word not in known]
        rows += [file_row(word, LIVE / word, word.endswith(".script")) for word in new]
        known.update(new)
        events = (LIVE / words[2]).with_suffix(".events").read_text(encoding="utf-8")
        status = STATUS[events.splitlines()[-1].split()[0]]
        err = printed(LIVE, Path(words[2]).with_suffix(".errors").name)
        rows.append(f"hux run {' '.join(words)} => status {status}, out {spelled(events)}, err {err}")
    return rows


def unrecorded():
    """The lines of an engine (`>`) and of `hux live` (`<`) that the page of examples/live shows, and
    that are not in the recordings. What was written for a guest (`mem`) is not recorded."""
    known = {mark: (LIVE / name).read_text(encoding="utf-8").splitlines()
             for mark, name in ((">", "shelves.script"), ("<", "shelves.events"))}
    for line in (LIVE / "README.md").read_text(encoding="utf-8").splitlines():
        mark, _, said = re.split(" {2,}", line.strip())[0].partition(" ")
        if mark in known and said not in known[mark] and not said.startswith("mem "):
            yield line


def shown_on(page, before, behind):
    """The lines of a page between two, those that go on with eight blanks joined, as rows spell
    them: a byte that is no ASCII is `?`."""
    text = page.partition(before)[2].partition(behind)[0].replace("\n" + 12 * " ", " ")
    text = re.sub(r"^    (?! )", "", text, flags=re.M) if before.endswith(":\n\n") else text
    return spelled(text.encode().decode("ascii", "replace").replace("\ufffd", "?"))


def unshown(folders):
    """The folders whose page does not end with the values and the picture that the rows want."""
    rows = (TOP / "rows" / "hux" / "plays.rows").read_text(encoding="utf-8")
    for folder in folders:
        page = (folder / "README.md").read_text(encoding="utf-8")
        for option, before, behind in (
            ("values", "say to one another:\n\n", "\nand with"),
            ("mermaid", "```mermaid\n", "```"),
        ):
            words = f"hux run play --{option} --script {folder.name}/script "
            wanted = [it.split(", out ", 1)[1] for it in rows.splitlines() if it.startswith(words)]
            said = shown_on(page, before, behind) + ", err "
            if not wanted or not wanted[0].startswith(said):
                yield f"{folder.name}/README.md: not what hux play --{option} has"


def hold(file, title, rows, writes):
    """Whether a file has these rows, which are written where that is asked."""
    text = HEAD.format(title) + "".join(f"{row}\n" for row in rows)
    if writes:
        file.write_text(text, encoding="utf-8")
    elif not file.is_file() or file.read_text(encoding="utf-8") != text:
        print(f"{file.relative_to(TOP)} is stale: checks/examples --write writes it")
        return False
    return True


def main():
    writes = "--write" in sys.argv[1:]
    folders = sorted(it.parent for it in TOP.glob("examples/*/script"))
    rows = [row for folder in folders for row in rows_of(folder)]
    held = [
        hold(ROWS, "The examples", rows, writes),
        hold(PROGRAM_ROWS, "Programs that ran in an engine", live_rows(), writes),
    ]
    for line in unrecorded():
        held.append(False)
        print(f"examples/live/README.md: not as recorded: {line.strip()}")
    for line in unshown(folders):
        held.append(False)
        print(f"examples/{line}")
    return 0 if all(held) else 1


if __name__ == "__main__":
    sys.exit(main())

#!/usr/bin/env python3
"""Holds the second resolver to what public tools say of projects.

`compare.py FOLDER` takes a folder with `expected.json`, `projects/` and `cases/`. Of an accepted
text the names that a world imports and exports are compared, and the items of each interface; of a
refused one the file and the line. Rows that are `open` are printed and not counted.
"""

import json
import sys
from pathlib import Path

from reading import Fault, line_and_column
from resolving import resolve, signature


def groups_of(folder):
    """The files of a project, folder by folder: its own, and each package of `deps`."""
    def files(paths):
        found = sorted(it for it in paths if it.suffix == ".wit" and it.is_file())
        return [(str(it.relative_to(folder)), it.read_bytes().decode()) for it in found]

    groups, deps = [files(folder.iterdir())], folder / "deps"
    for one in sorted(deps.iterdir()) if deps.is_dir() else []:
        groups.append(files(one.iterdir() if one.is_dir() else [one]))
    return groups


def names(listed, key):
    """Imports or exports of `expected.json` as a table."""
    return {it.get("interface") or it["func"]: it.get("items") for it in listed if key in it}


def wanted_of(row, side):
    listed = row.get(f"world_{side}", [])
    return {**names(listed, "interface"), **names(listed, "func")}


def sorted_items(table):
    return {name: sorted(items) if items is not None else None for name, items in table.items()}


def said(folder, world, features):
    """The imports and exports of a world, or the fault."""
    groups = groups_of(folder)
    texts = {name: text for files in groups for name, text in files}
    try:
        project = resolve(groups, features)
        for declared in project.everything():
            if declared.item.kind == "world" and project.is_there(declared.item.gates):
                signature(project, declared)
        if world is None:
            return {}, {}
        found = next(it for it in project.everything() if it.full() == world)
        return signature(project, found)
    except Fault as fault:
        line, column = line_and_column(texts.get(fault.file, ""), fault.at)
        return f"{fault.file}:{line}:{column}: {fault.reason}"


def is_right(row, answer):
    if isinstance(answer, str):
        if row.get("accepted", True):
            return False
        if row["line"] is None:
            return True
        file, line, *_ = answer.split(":")
        return file.endswith(row["file"]) and (int(line) == row["line"] or "Cycle" in answer)
    wanted = [sorted_items(wanted_of(row, side)) for side in ("imports", "exports")]
    return row.get("accepted", True) and [sorted_items(it) for it in answer] == wanted


def main():
    top = Path(sys.argv[1])
    data = json.loads((top / "expected.json").read_text(encoding="utf-8"))
    rows = [
        (project["name"], top / project["wit"], world)
        for project in data["projects"]
        for world in project["worlds"]
    ]
    rows += [(it["name"], top / it["wit"], it) for it in data["cases"]]
    wrong = count = 0
    for name, folder, row in rows:
        answer = said(folder, row.get("world"), row.get("features", []))
        if "left_out" in row:
            right = isinstance(answer, str) and answer.endswith("Unsupported")
        else:
            right = is_right(row, answer)
        if "open" in row:
            print(f"open: {name}: {row['open']}: here {answer}")
            continue
        count += 1
        wrong += not right
        if not right:
            print(f"WRONG: {name}: {answer}, wanted {row.get('tool') or row}")
    print(f"{count - wrong} of {count} right")
    return wrong > 0


if __name__ == "__main__":
    sys.exit(main())

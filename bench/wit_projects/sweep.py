#!/usr/bin/env python3
"""Holds `hux wit` to the second resolver on random projects of WIT texts.

`sweep.py HUX [COUNT [SEED]]` writes COUNT projects (100), each with several packages, and asks both
of each world what it imports and exports: the names, and the items of each interface; or the fault,
its file, line, column and reason. A project that they answer otherwise is printed whole, and the
status is 1. What is random here is known to be neither valid nor wrong: most names lead somewhere.
"""

import json
import random
import re
import subprocess
import sys
import tempfile
from pathlib import Path

from compare import said, sorted_items

NAMES = ["ant", "bee", "cat", "dog", "elk", "fox"]
TYPES = ["u8", "s32", "string", "list<u16>", "option<bool>", "tuple<u8, char>"]


class Writer:
    """Writes random packages."""

    def __init__(self, rng):
        self.rng = rng
        self.interfaces = {}
        self.is_released = False

    def often(self, chance):
        return self.rng.random() < chance

    def type(self, known):
        return self.rng.choice(TYPES + 2 * known) if known else self.rng.choice(TYPES)

    def gate(self, chance=0.2):
        if not self.often(chance):
            return ""
        since = ["@since(version = 1.0.0)"] if self.is_released or self.often(0.05) else []
        return self.rng.choice(["@unstable(feature = on)", *since]) + "\n  "

    def func(self, known):
        params = ", ".join(f"p{it}: {self.type(known)}" for it in range(self.rng.randrange(3)))
        result = f" -> {self.type(known)}" if self.often(0.5) else ""
        return f"func({params}){result};"

    def declared(self, name, known):
        kind = self.rng.randrange(4)
        if kind == 0:
            return f"record {name} {{ x: {self.type(known)}, y: u8 }}"
        if kind == 1:
            return f"enum {name} {{ one, two }}"
        if kind == 2:
            return f"type {name} = {self.type(known)};"
        return f"resource {name} {{\n    constructor(n: u8);\n    get: {self.func(known)}\n  }}"

    def path(self, package, before):
        """The path to an interface of an earlier package, of this one, or rarely to none."""
        if self.often(0.03):
            return "nowhere", []
        choices = [(package, it) for it in before] + list(self.interfaces)
        if not choices:
            return None, []
        owner, name = self.rng.choice(choices)
        types = self.interfaces.get((owner, name), before.get(name, []))
        if owner == package:
            return name, types
        bare, _, version = owner.partition("@")
        return f"{bare}/{name}" + (f"@{version}" if version else ""), types

    def uses(self, package, before):
        path, types = self.path(package, before)
        if not path or not types:
            return "", []
        taken = self.rng.sample(types, self.rng.randint(1, len(types)))
        renamed = [(it, f"u-{it}" if self.often(0.5) else it) for it in taken]
        names = ", ".join(it if it == to else f"{it} as {to}" for it, to in renamed)
        return f"use {path}.{{{names}}};", [to for _, to in renamed]

    def interface(self, package, name, before):
        lines, known = [], []
        for _ in range(self.rng.randrange(2)):
            line, names = self.uses(package, before)
            if line:
                lines.append(line)
                known += names
        for it in self.rng.sample(NAMES, self.rng.randrange(4)):
            gate = self.gate(0.1)
            lines.append(gate + self.declared(f"t-{it}", known))
            if not gate:
                known.append(f"t-{it}")
        lines += [self.gate() + f"f-{it}: {self.func(known)}"
                  for it in self.rng.sample(NAMES, self.rng.randrange(1, 4))]
        before[name] = known
        return [f"interface {name} {{", *(f"  {it}" for it in lines), "}"]

    def world(self, package, name, before, worlds):
        lines, known = [], []
        paths = {self.path(package, before)[0] for _ in range(self.rng.randrange(4))}
        for path in sorted(it for it in paths if it):
            side = self.rng.choice(["import", "import", "export"])
            lines.append(self.gate() + f"{side} {path};")
        if self.often(0.4):
            line, names = self.uses(package, before)
            lines += [line] if line else []
            known += names
        if self.often(0.3):
            lines.append(f"type t-{name} = {self.type(known)};")
            known.append(f"t-{name}")
        lines += [self.gate() + f"{self.rng.choice(['import', 'export'])} {name}-{it}: "
                  + self.func(known) for it in self.rng.sample(NAMES, self.rng.randrange(3))]
        if worlds and self.often(0.5):
            lines.append(f"include {self.rng.choice(worlds)};")
        worlds.append(name)
        return [f"world {name} {{", *(f"  {it}" for it in lines), "}"]

    def package(self, name, has_worlds):
        """The lines of the interfaces and worlds of a package."""
        before, blocks, worlds = {}, [], []
        self.is_released = "@" in name
        for it in range(self.rng.randint(1, 3)):
            blocks.append(self.interface(name, f"i{it}", before))
        for it in range(self.rng.randint(1, 3) if has_worlds else 0):
            blocks.append(self.world(name, f"w{it}", before, worlds))
        self.interfaces |= {(name, it): types for it, types in before.items()}
        if self.often(0.5):
            self.rng.shuffle(blocks)
        return blocks, worlds


def write_project(rng, folder):
    """Writes a project, and answers the full names of its worlds."""
    writer = Writer(rng)
    for number, name in enumerate(["dep:one", "dep:two@1.2.0"][:rng.randrange(3)]):
        blocks, _ = writer.package(name, False)
        path = folder / "deps" / (f"d{number}.wit" if rng.random() < 0.5 else f"d{number}/all.wit")
        path.parent.mkdir(parents=True, exist_ok=True)
        path.write_text(f"package {name};\n" + "\n".join(sum(blocks, [])) + "\n")
    own = "mine:all@1.0.0" if rng.random() < 0.8 else "mine:all"
    blocks, worlds = writer.package(own, True)
    cut = rng.randint(0, len(blocks))
    head = f"package {own};\n"
    for file, part, front in (("a.wit", blocks[:cut], ""), ("b.wit", blocks[cut:], head)):
        (folder / file).write_text(front + "\n".join(sum(part, [])) + "\n")
    bare, _, version = own.partition("@")
    return [f"{bare}/{it}" + (f"@{version}" if version else "") for it in worlds]


def names_of(owner, items, firsts):
    """The functions and resources of an interface; a resource that has a name already, here or in
    an interface before, is a type there."""
    for it in items:
        firsts.setdefault(it.get("resource"), (owner, it["name"]))
    return [it["name"] for it in items
            if "func" in it or "resource" in it and firsts[it["resource"]] == (owner, it["name"])]


def told(hux, folder, world, features):
    """What `hux wit` answers, as the second resolver has it."""
    words = ["wit", "--json", str(folder), "--world", world, "--features", ",".join(features)]
    ran = subprocess.run([hux, *words], capture_output=True, text=True, check=False)
    if ran.returncode:
        found = re.match(rf"error: {re.escape(str(folder))}/(\S+?:\d+:\d+): (\w+)", ran.stderr)
        return f"{found[1]}: {found[2]}" if found else ran.stderr
    sides, firsts = {"import": {}, "export": {}}, {}
    for line in map(json.loads, ran.stdout.splitlines()):
        for side, table in sides.items():
            if side in line:
                name, items = line[side], line.get("items")
                table[name] = None if items is None else names_of((side, name), items, firsts)
    return sides["import"], sides["export"]


def shape(answer):
    if isinstance(answer, str):
        return answer
    return [sorted_items({name: items for name, items in side.items()}) for side in answer]


def main():
    hux = sys.argv[1]
    count = int(sys.argv[2]) if len(sys.argv) > 2 else 100
    seed = int(sys.argv[3]) if len(sys.argv) > 3 else 1
    asked = wrong = faults = 0
    for number in range(count):
        with tempfile.TemporaryDirectory() as room:
            folder = Path(room)
            worlds = write_project(random.Random(f"{seed} {number}"), folder)
            shown = [shape(told(hux, folder, it, ["on"])) for it in worlds]
            # `hux` says of a world that its includes do not fit, the other resolver of the project.
            fault = next((it for it in shown if isinstance(it, str)), None)
            for world, one in zip(worlds, shown):
                other = shape(said(folder, world, ["on"]))
                answers = (fault if isinstance(other, str) else one, other)
                asked += 1
                faults += isinstance(answers[1], str)
                if answers[0] != answers[1]:
                    wrong += 1
                    print(f"project {number}, {world}:\n  {answers[0]}\n  {answers[1]}")
                    for it in sorted(folder.rglob("*.wit")):
                        print(f"-- {it.relative_to(folder)}\n{it.read_text()}")
    print(f"{asked} worlds, {faults} of them refused; {wrong} answered otherwise")
    return wrong > 0


if __name__ == "__main__":
    sys.exit(main())

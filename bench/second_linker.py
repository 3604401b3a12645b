#!/usr/bin/env python3
"""A second linker, written from the rules of docs/RULES.md alone, and random sets for both.

Sets of up to 17 components are put into groups, some of which are hidden, and links are chosen for
some of their imports. The second linker goes through a set group by group and keeps a list of what
is seen; it knows neither tables nor relations. What it answers, the plan or the first fault, is
what the program of rows has to answer to the same set.

bench/second_linker.py [COUNT [SEED]] links 2,000 sets, or so many, and prints how many had a plan,
and which faults the others had. crates/rows_library is to be built (`rt run` there).
"""

import random
import subprocess
import sys
import tempfile
from pathlib import Path

TOP = Path(__file__).resolve().parent.parent
PROGRAM = TOP / "crates" / "rows_library" / "out" / "rows_library"
PREAMBLE = bytes.fromhex("0061736d0d000100")
# A core module, an instance of it, and a core function of that.
CORE = bytes.fromhex("01080061736d01000000 020401000000 0607010000010001 66")
# Functions of two types and an instance type with no item; lifts to both types; such an instance.
TYPES = bytes.fromhex("0711 03 4001017879 0079 4001017979 0079 4200")
DEFINED = bytes.fromhex("080b 02 0000000000 0000000001 0503 01 0100")
# How an import and an export of a sort is written, and of which of the types above it is.
SORTS = {"x": (1, 0), "y": (1, 1), "instance": (5, 2)}
PLAIN = ("inc", "dec")
VERSIONS = ("1.0.0", "1.2.0", "1.2.0+b", "1.10.0", "2.0.0", "0.1.0", "0.1.3", "0.2.0", "0.0.1")
FACES = ("a:b/i", "a:b/j")
MOST = 16
# How many components a set has.
SIZES = (*range(1, 9), *range(2, 8), *range(3, 7), 12, 16, 0, 17)


def section(number, parts):
    """A section of so many items; none where there is none."""
    if not parts:
        return b""
    body = bytes([len(parts)]) + b"".join(parts)
    return bytes([number]) + leb(len(body)) + body


def leb(number):
    out = bytearray()
    while number > 0x7F:
        out.append(number & 0x7F | 0x80)
        number >>= 7
    return bytes([*out, number])


def spelled(name):
    return b"\0" + bytes([len(name)]) + name.encode()


class Component:
    """What a component imports and exports, by name and sort, and its bytes."""

    def __init__(self, rng):
        self.imports = named(rng, rng.choice((0, 1, 1, 2, 3)))
        self.exports = named(rng, rng.choice((0, 1, 1, 2, 3)))
        # The middle of a chain exports what it imports, under the same name.
        self.again = rng.random() < 0.4
        if self.again:
            self.exports = list(self.imports)

    def index(self, number):
        """The index that an export is of: a definition's, or that of the import of its number."""
        sort, kind = SORTS[self.exports[number][1]]
        if not self.again:
            return kind if sort == 1 else 0
        before = sum(1 for _, it in self.imports[:number] if SORTS[it][0] == sort)
        return before + (2 if sort == 1 else 1)

    def spelling(self):
        imports = [spelled(name) + bytes(SORTS[sort]) for name, sort in self.imports]
        exports = [
            spelled(name) + bytes([SORTS[sort][0], self.index(number), 0])
            for number, (name, sort) in enumerate(self.exports)
        ]
        return PREAMBLE + CORE + TYPES + DEFINED + section(10, imports) + section(11, exports)


def named(rng, count):
    """So many names, no two of which are one, each with a sort."""
    found = {}
    for _ in range(count):
        if rng.random() < 0.5:
            found[rng.choice(PLAIN)] = rng.choice("xxxy")
        else:
            version = rng.choice(("", "@1.0.0", "@1.0.0", "@1.2.0", f"@{rng.choice(VERSIONS)}"))
            found[rng.choice(FACES) + version] = "instance"
    return list(found.items())


def numbers(version):
    return [int(it) for it in version.partition("+")[0].split(".")]


def fits(wanted, have):
    """Whether an export of a name may serve an import of another, by the requirement `^`."""
    if wanted == have:
        return True
    (face, _, wanted), (other, _, have) = wanted.partition("@"), have.partition("@")
    if face != other or not wanted or not have:
        return False
    wanted, have = numbers(wanted), numbers(have)
    fixed = next((at for at, it in enumerate(wanted) if it), 2) + 1
    return wanted[:fixed] == have[:fixed] and wanted <= have


def groups(count, places):
    """The numbers of components, group by group."""
    found = []
    for number in range(count):
        if number == 0 or number >= len(places) or places[number][0] == "b":
            found.append([])
        found[-1].append(number)
    return found


class Unlinked(Exception):
    """Why a set has no plan."""


def provider(components, seen, chosen, importer, number):
    """The export that serves an import: by its link, or of what is seen."""
    name, sort = components[importer].imports[number]
    if chosen is None:
        fitting = [it for it in seen if fits(name, it[2])]
    else:
        component, export = chosen
        there = component < importer and export < len(components[component].exports)
        fitting = [(component, export, *components[component].exports[export])] if there else []
        fitting = [it for it in fitting if fits(name, it[2])]
    where = f"in component {importer}, import {number}"
    if len(fitting) != 1:
        raise Unlinked(f"fault {'TwoProviders' if fitting else 'NoProvider'} {where}")
    if fitting[0][3] != sort:
        raise Unlinked(f"fault DifferentType {where}")
    return fitting[0][:2]


def plan(components, places, links):
    """The lines of the plan of a set."""
    seen, lines = [], []
    for group in groups(len(components), places):
        for importer in group:
            for number in range(len(components[importer].imports)):
                chosen = links.get((importer, number))
                found = provider(components, seen, chosen, importer, number)
                lines.append(f"{importer}.{number} <- {found[0]}.{found[1]}")
        for number in group:
            if number >= len(places) or places[number][1] == "+":
                exports = components[number].exports
                seen += [(number, at, *it) for at, it in enumerate(exports)]
    return ", ".join(lines) or "nothing"


def answer(components, places, links):
    if not components:
        return "fault Empty in component 0, import 0"
    if len(components) > MOST:
        return "fault TooMany in component 0, import 0"
    try:
        return plan(components, places, links)
    except Unlinked as fault:
        return str(fault)


def likely(rng, components, importer, number):
    """A link that may serve an import: mostly to an export that fits it."""
    name = components[importer].imports[number][0]
    fitting = [
        (component, export)
        for component in range(importer)
        for export, (have, _) in enumerate(components[component].exports)
        if fits(name, have)
    ]
    if fitting and rng.random() < 0.97:
        return rng.choice(fitting)
    return rng.randrange(len(components) + 1), rng.randrange(3)


def likely_set(rng, pool):
    """Components that mostly find what they import: each is taken of several, where one does."""
    components = []
    for _ in range(rng.choice(SIZES)):
        have = [name for it in components for name, _ in it.exports]
        tries = [rng.choice(pool) for _ in range(8)]
        served = [
            it for it in tries if all(any(fits(name, e) for e in have) for name, _ in it.imports)
        ]
        served.sort(key=lambda it: -len(it.imports))
        components.append(served[0] if served and rng.random() < 0.97 else tries[0])
    return components


def random_set(rng, pool):
    """Components, their places, and links that are chosen for some of their imports."""
    components = likely_set(rng, pool)
    places = []
    if rng.random() < 0.5:
        count = rng.randrange(len(components) + 3)
        places = [rng.choice("bbbc") + rng.choice("+++++-") for _ in range(count)]
    share = rng.choice((0, 0.3, 0.9, 1, 1))
    links = {
        (importer, number): likely(rng, components, importer, number)
        for importer, it in enumerate(components)
        for number in range(len(it.imports))
        if rng.random() < share
    }
    if rng.random() < 0.1:
        links[rng.randrange(20), rng.randrange(5) + 5] = (0, 0)
    return components, places, links


def row(pool, components, places, links):
    chosen = ",".join(f"{a}.{b}={c}.{d}" for (a, b), (c, d) in sorted(links.items()))
    files = " ".join(f"@k{pool.index(it)}" for it in components)
    return f"by {','.join(places) or '-'} {chosen or '-'} {files}".rstrip()


def main():
    count = int(sys.argv[1]) if len(sys.argv) > 1 else 2_000
    rng = random.Random(int(sys.argv[2]) if len(sys.argv) > 2 else 1)
    pool = [Component(rng) for _ in range(60)]
    lines = []
    for number, it in enumerate(pool):
        data = it.spelling()
        lines.append(f"files name k{number} {data.hex()} => {len(data)} bytes")
    kinds = {}
    for _ in range(count):
        one = random_set(rng, pool)
        wanted = answer(*one)
        kind = wanted.split()[1] if wanted.startswith("fault") else "plan"
        kinds[kind] = kinds.get(kind, 0) + 1
        lines.append(f"{row(pool, *one)} => {wanted}")
    with tempfile.TemporaryDirectory() as folder:
        (Path(folder) / "data").mkdir()
        rows = Path(folder) / "data" / "links.rows"
        rows.write_text("\n".join(lines) + "\n", encoding="utf-8")
        ran = subprocess.run([PROGRAM, "links"], cwd=folder, capture_output=True, text=True)
    print(ran.stdout[-3_000:] + ran.stderr[-1_000:], end="")
    print(", ".join(f"{name}: {many}" for name, many in sorted(kinds.items())))
    return ran.returncode


if __name__ == "__main__":
    sys.exit(main())

#!/usr/bin/env python3
"""A second reader of the words that choose who serves whom, written from docs/COMMAND.md alone, and
random sets for both.

Sets of up to 16 components get names, some of them twice, words for `--serve` that mostly mean
something, and in half of the sets `--nearest`. In some, files in a row that link by themselves are
a bundle, which `hux link -o` has written, or leave imports open in one that `hux link --open` has.
What this reader answers, the plan or how the line of the fault begins, is what `hux link` has to
answer to the same words.

bench/second_chooser.py [COUNT [SEED]] links 1,000 sets, or so many, and prints how many had a plan,
and which faults the others had. HUX names a program for ../hux.
"""

import os
import random
import subprocess
import sys
import tempfile
from dataclasses import dataclass, field
from pathlib import Path

from second_linker import MOST, TOP, Component, Unlinked, fits, likely_set, numbers, provider

NAMES = ("host", "log", "cache", "user", "a")


class Refused(Exception):
    """Why words are refused: the status, and what the line says of the word."""

    def __init__(self, status, word, why):
        super().__init__(status, f"error: --serve {word}: {why}")


@dataclass
class Files:
    """The components of files, in order, and what the files are called. A bundle is called as its
    last part, whose exports it has; its other parts have no name, and are not seen. Links are those
    inside of bundles, by component and import, parts what those are called, and opens the names of
    what bundles import in the place of imports of parts."""

    components: list
    names: list
    parts: dict = field(default_factory=dict)
    links: dict = field(default_factory=dict)
    inside: set = field(default_factory=set)
    opens: dict = field(default_factory=dict)

    def exports(self, number):
        """What those behind a component see of it."""
        return self.components[number].exports if self.names[number] else []

    def front(self, number):
        """The first component that does not stand before this one, or before its bundle."""
        return min(self.inside) if number in self.inside else number

    def callers(self, number):
        """The numbers by which words name a component as an importer."""
        return (number, max(self.inside)) if number in self.inside else (number,)

    def is_lone(self):
        """Whether all are the parts of one bundle, and there is no other file."""
        return len(self.inside) == len(self.names)


def called(files, word):
    """The number of the component that a word means; none, or more than one, as a text."""
    names = files.names
    found = [at for at, name in enumerate(names) if word in (name or None, files.parts.get(at))]
    if not found and word.isdecimal() and int(word) < len(names):
        found = [int(word)]
    return found[0] if len(found) == 1 else ("several" if found else "none")


SEVERAL = "more than one file is called so"
NOBODY = "no file is called as its provider"


def read_word(files, word):
    """Importer, import, provider and export of a word."""
    left, sign, right = word.partition("=")
    if not sign:
        raise Refused(2, word, "no = stands")
    if not left or not right:
        raise Refused(2, word, "nothing stands on one side")
    importer, export = None, None
    if "/" in left:
        number = called(files, left.split("/", 1)[0])
        if number == "several":
            raise Refused(2, word, SEVERAL)
        if number != "none":
            importer, left = number, left.split("/", 1)[1]
    number = called(files, right)
    if number == "none" and "/" in right:
        right, export = right.split("/", 1)
        number = called(files, right)
    if not isinstance(number, int):
        raise Refused(2, word, SEVERAL if number == "several" else NOBODY)
    return importer, left, number, export


def one_export(exports, name):
    """The number of the export that may serve a name: its own, or else the only one that fits."""
    exact = [at for at, (have, _) in enumerate(exports) if have == name]
    fitting = [at for at, (have, _) in enumerate(exports) if fits(name, have)]
    return exact or fitting


def by_word(files, read, words, importer, name, used):
    """The link of an import by a word, if one is of it."""
    own = [
        at for at, it in enumerate(read) if it[0] in files.callers(importer) and it[1] == name
    ]
    if len(own) > 1:
        raise Refused(2, words[own[1]], "another word is of this import already")
    front = files.front(importer)
    before = [
        (it[2], at) for at, it in enumerate(read) if it[:2] == (None, name) and it[2] < front
    ]
    if not own and not before:
        return None
    at = own[0] if own else max(before)[1]
    _, _, number, export = read[at]
    if number >= front:
        raise Refused(1, words[at], "its provider does not stand before")
    used.add(at)
    if export is not None:
        there = [e for e, (have, _) in enumerate(files.exports(number)) if have == export]
        if not there:
            raise Refused(1, words[at], "its provider has no export of this name")
        return number, there[0]
    there = one_export(files.exports(number), name)
    if len(there) != 1:
        raise Refused(1, words[at], "its provider has no export that fits")
    return number, there[0]


def without_word(files, importer, name, is_nearest):
    """The link of an import without a word: to the nearest, or the only one; to its own component,
    where nothing serves it."""
    front = files.front(importer)
    before = [(number, one_export(files.exports(number), name)) for number in range(front)]
    before = [it for it in before if it[1]]
    if not before:
        return importer, 0
    if not is_nearest and len(before) > 1:
        return None
    number, there = before[-1]
    return (number, there[0]) if len(there) == 1 else None


def choices(files, words, is_nearest):
    """The links that the words choose, and those inside of bundles."""
    if words and files.is_lone():
        raise Refused(1, words[0], "a bundle is linked by its own arguments")
    read = [read_word(files, word) for word in words]
    used, links = set(), dict(files.links)
    for importer, component in enumerate(files.components):
        for number, (name, _) in enumerate(component.imports):
            if importer in files.inside and (importer, number) not in files.opens:
                continue
            name = files.opens.get((importer, number), name)
            link = by_word(files, read, words, importer, name, used)
            links[importer, number] = link or without_word(files, importer, name, is_nearest)
    for at, word in enumerate(words):
        if at not in used:
            raise Refused(1, word, "no import of this name stands behind its provider")
    return links


def plan(files, links):
    """The export that serves each import, by component and import."""
    found, seen = {}, []
    for importer, component in enumerate(files.components):
        for number, import_ in enumerate(component.imports):
            if import_ is None:
                continue
            link = links.get((importer, number))
            found[importer, number] = provider(files.components, seen, link, importer, number)
        seen += [(importer, at, *it) for at, it in enumerate(files.exports(importer))]
    return found


def answer(files, words, is_nearest):
    """The status, and standard output or how standard error begins."""
    components = files.components
    try:
        found = plan(files, choices(files, words, is_nearest))
        lines = [
            f"{importer} {components[importer].imports[number][0]}"
            f" <- {component} {components[component].exports[export][0]}\n"
            for (importer, number), (component, export) in found.items()
        ]
        return 0, "".join(lines)
    except Refused as fault:
        return fault.args
    except Unlinked as fault:
        return 1, f"error: {str(fault).removeprefix('fault ')}:"


def random_word(rng, files):
    """A word that mostly means something; none where no import has what fits before it."""
    components, names = files.components, files.names
    served = [
        (importer, files.opens.get((importer, number), name), at, have)
        for importer, component in enumerate(components)
        for number, (name, _) in enumerate(component.imports)
        for at, it in enumerate(components[:importer])
        for have, _ in it.exports
        if fits(name, have) and (names[at] or rng.random() < 0.1)
    ]
    if not served:
        return rng.choice((None, None, "inc=0"))
    importer, name, number, export = rng.choice(served)
    if rng.random() < 0.03:
        number = rng.randrange(len(components) + 1)
    known = number < len(names) and names.count(names[number]) == 1
    right = names[number % len(names)] if known and rng.random() < 0.7 else str(number)
    if number in files.parts and rng.random() < 0.5:
        right = files.parts[number]
    left = name
    if rng.random() < 0.4:
        own = names[importer]
        left = f"{own if names.count(own) == 1 else importer}/{name}"
    if rng.random() < 0.25:
        right += f"/{export}"
    return rng.choice((f"{left}={right}",) * 99 + (rng.choice((left, f"={right}", f"{left}=")),))


def write(folder, number, name, spelling):
    """Writes a file, and answers its word."""
    path = Path(folder) / str(number) / f"{name}.wasm"
    path.parent.mkdir(exist_ok=True)
    path.write_bytes(spelling)
    return f"{number}/{name}.wasm"


def spelling(component):
    return component.spelling()


def series(name):
    """What compatible versions of an interface have alike, and the version."""
    face, sign, version = name.partition("@")
    if not sign:
        return name, []
    version = numbers(version)
    fixed = next((at for at, it in enumerate(version) if it), 2) + 1
    return (face, *version[:fixed]), version


def open_names(components, opens):
    """What a bundle imports in the place of these imports: the latest of compatible versions. None
    where one name is of two sorts."""
    names, sorts = {}, {}
    for importer, number in opens:
        name, sort = components[importer].imports[number]
        key, version = series(name)
        if sorts.setdefault(key, sort) != sort:
            return None
        if key not in names or version > series(names[key])[1]:
            names[key] = name
    return {at: names[series(components[at[0]].imports[at[1]][0])[0]] for at in opens}


def open_part(rng, components):
    """From which component to which some in a row are linked, how, and what they leave open."""
    first = rng.randrange(len(components))
    end = min(first + rng.choice((1, 2, 2, 3)), len(components))
    part = Files(components[first:end], [str(it) for it in range(first, end)])
    links = choices(part, [], True)
    opens = [at for at, link in links.items() if link == (at[0], 0)]
    try:
        found = plan(without(part, opens), {at: it for at, it in links.items() if at not in opens})
    except Unlinked:
        return 0, 0, None, {}
    names = open_names(part.components, opens)
    return (0, 0, None, {}) if names is None else (first, end, found, names)


@dataclass
class Left:
    """A component with some of its imports gone, each of which keeps its number."""

    imports: list
    exports: list


def without(files, opens):
    """These files without some imports."""
    kept = []
    for importer, it in enumerate(files.components):
        imports = [
            None if (importer, at) in opens else name for at, name in enumerate(it.imports)
        ]
        kept.append(Left(imports, it.exports))
    return Files(kept, files.names)


def linked_part(rng, components):
    """From which component to which some in a row link by themselves, and how, if any were found."""
    for _ in range(8):
        first = rng.randrange(len(components))
        end = min(first + rng.choice((1, 2, 2, 3)), len(components))
        part = Files(components[first:end], [str(it) for it in range(first, end)])
        try:
            return first, end, plan(part, choices(part, [], True))
        except Unlinked:
            pass
    return 0, 0, None


def random_files(rng, hux, folder, components):
    """Files of these components, some in a row a bundle, where they link by themselves; and the
    words that name them."""
    names = [rng.choice(NAMES) + rng.choice(("", "2", "3")) for _ in components]
    words = [write(folder, at, *it) for at, it in enumerate(zip(names, map(spelling, components)))]
    files = Files(components, names)
    opens = {}
    if rng.random() < 0.5:
        first, end, found, opens = open_part(rng, components)
    else:
        first, end, found = linked_part(rng, components)
    if found is None or rng.random() < 0.3:
        return files, words
    bundle = f"{first}/{names[end - 1]}.set.wasm"
    made = [hux, "link", "--open", "--nearest", *words[first:end], "-o", bundle]
    subprocess.run(made, cwd=folder, capture_output=True, check=True)
    files.opens = {(importer + first, number): name for (importer, number), name in opens.items()}
    files.inside = set(range(first, end))
    files.links = {
        (importer + first, number): (component + first, export)
        for (importer, number), (component, export) in found.items()
    }
    name = f"{names[end - 1]}.set"
    for at in range(first, end):
        is_only = names[first:end].count(names[at]) == 1
        files.parts[at] = f"{name}/{names[at] if is_only else at - first}"
    files.names[first:end] = [""] * (end - first - 1) + [name]
    return files, [*words[:first], bundle, *words[end:]]


def main():
    count = int(sys.argv[1]) if len(sys.argv) > 1 else 1_000
    rng = random.Random(int(sys.argv[2]) if len(sys.argv) > 2 else 1)
    hux = os.environ.get("HUX") or TOP / "hux"
    pool = [Component(rng) for _ in range(60)]
    kinds, wrong = {}, 0
    with tempfile.TemporaryDirectory() as folder:
        for at in range(count):
            components = likely_set(rng, pool)[:MOST] or [pool[0]]
            files, named = random_files(rng, hux, folder, components)
            words = [random_word(rng, files) for _ in range(rng.choice((0, 1, 1, 1, 2, 3)))]
            words = [it for it in words if it is not None]
            is_nearest = rng.random() < 0.5
            status, text = answer(files, words, is_nearest)
            options = [it for word in words for it in ("--serve", word)]
            options += ["--nearest"] * is_nearest
            ran = subprocess.run(
                [hux, "link", *options, *named], cwd=folder, capture_output=True, text=True
            )
            said = ran.stdout if status == 0 else ran.stderr[: len(text)]
            kind = "plan" if status == 0 else text.split(": ", 2)[-1].split(" in ")[0].strip(":")
            kind += " with an open bundle" if files.opens else " with a bundle" * bool(files.inside)
            kinds[kind] = kinds.get(kind, 0) + 1
            if (ran.returncode, said) != (status, text):
                wrong += 1
                print(f"set {at}: hux link {' '.join(options + named)}: wanted {status} {text}")
                print(f"    got {ran.returncode} {ran.stdout}{ran.stderr}")
    print(f"{count} sets, {wrong} wrong; ", end="")
    print(", ".join(f"{name}: {many}" for name, many in sorted(kinds.items())))
    return bool(wrong)


if __name__ == "__main__":
    sys.exit(main())

#!/usr/bin/env python3
"""A second reader of bundles, written from Binary.md alone.

It reads a component that nests components, counts its index spaces, and holds each instantiation
against what the nested component imports: each import is given once, under its name and with its
sort, by an alias of what an instance before it exports; nothing else is given. What the component
itself imports is counted too; types are not looked at, and what an imported instance exports is
taken on trust. It knows nothing of the form in which bundles are written, so any order of these
sections is read.

bench/second_bundle.py BUNDLE [FILE..] prints how many components, arguments and exports there are.
Where files are named, the nested components must be these, byte for byte and in this order.
"""

import sys
from pathlib import Path

PREAMBLE = bytes.fromhex("0061736d0d000100")
SORTS = {0x01: "func", 0x02: "value", 0x03: "type", 0x04: "component", 0x05: "instance"}
COUNTED = ("func", "type", "component", "instance")
# What an instance exports that is imported: not known here.
IMPORTED = {}


class Fault(Exception):
    """Why bytes are no bundle, and at which byte."""


class Reader:
    """A place in bytes, up to their end."""

    def __init__(self, data, at=0, end=None):
        self.data, self.at, self.end = data, at, len(data) if end is None else end

    def fault(self, reason):
        raise Fault(f"{reason} at {self.at}")

    def take(self, count):
        if self.end - self.at < count:
            self.fault("bytes end")
        self.at += count
        return self.data[self.at - count : self.at]

    def byte(self):
        return self.take(1)[0]

    def number(self):
        value = 0
        for shift in range(0, 35, 7):
            byte = self.byte()
            value |= (byte & 0x7F) << shift
            if byte < 0x80:
                break
        else:
            self.fault("a number of more than five bytes")
        if value >= 2**32:
            self.fault("a number of more than 32 bits")
        return value

    def text(self):
        return self.take(self.number()).decode("utf-8")

    def extern_name(self):
        """`importname'` and `exportname'`: a plain name, or one with what it hints at."""
        kind = self.byte()
        if kind not in (0x00, 0x01):
            self.fault("no name of an import or export")
        return self.text()

    def vector(self, item):
        return [item() for _ in range(self.number())]

    def section(self):
        """The id of a section, and its contents."""
        kind, size = self.byte(), self.number()
        if self.end - self.at < size:
            self.fault("a section ends")
        inside = Reader(self.data, self.at, self.at + size)
        self.at += size
        return kind, inside

    def finish(self):
        if self.at != self.end:
            self.fault("a section is longer than its items")


def sections(data):
    if data[:8] != PREAMBLE:
        raise Fault("no preamble of a component")
    reader = Reader(data, 8)
    while reader.at != reader.end:
        yield reader.section()


def extern_desc(reader):
    """The sort of an `externdesc`."""
    kind = reader.byte()
    if kind == 0x00:
        if reader.byte() != 0x11:
            reader.fault("no core module")
        reader.number()
        return "module"
    if kind in (0x02, 0x03):
        bound = reader.byte()
        if bound == 0x00 or kind == 0x02:
            reader.number()
        return SORTS[kind]
    if kind not in SORTS:
        reader.fault("no description")
    reader.number()
    return SORTS[kind]


def sort_of(reader):
    kind = reader.byte()
    if kind == 0x00:
        reader.byte()
        return "core"
    if kind not in SORTS:
        reader.fault("no sort")
    return SORTS[kind]


def exported(reader):
    """The name, the sort and the index of an `export`."""
    name, sort, index = reader.extern_name(), sort_of(reader), reader.number()
    described = reader.byte()
    if described == 0x01:
        extern_desc(reader)
    elif described != 0x00:
        reader.fault("no description and no lack of one")
    return name, sort, index


class Nested:
    """What a nested component imports and exports: sorts by names."""

    def __init__(self, data):
        self.data, self.imports, self.exports = data, {}, {}
        for kind, inside in sections(data):
            if kind == 0x0A:
                self.add(self.imports, inside, lambda: (inside.extern_name(), extern_desc(inside)))
            elif kind == 0x0B:
                self.add(self.exports, inside, lambda: exported(inside)[:2])

    @staticmethod
    def add(names, inside, item):
        for name, sort in inside.vector(item):
            if name in names:
                inside.fault(f"{name} stands twice")
            names[name] = sort
        inside.finish()


class Bundle:
    """The index spaces of a bundle. An instance is known by the sorts that it exports, or not, and
    one that is imported as that."""

    def __init__(self, data):
        self.components, self.instances, self.counts = [], [], dict.fromkeys(COUNTED, 0)
        self.nested, self.arguments, self.exports, self.imports = [], 0, {}, {}
        self.made = 0
        for kind, inside in sections(data):
            self.section(kind, inside)

    def section(self, kind, inside):
        if kind == 0x00:
            return
        if kind == 0x04:
            self.nested.append(Nested(inside.take(inside.end - inside.at)))
            self.define("component", None)
        elif kind == 0x05:
            inside.vector(lambda: self.instance(inside))
        elif kind == 0x06:
            inside.vector(lambda: self.alias(inside))
        elif kind == 0x07:
            self.counts["type"] += inside.number()
            inside.at = inside.end
        elif kind == 0x0A:
            inside.vector(lambda: self.imported(inside))
        elif kind == 0x0B:
            inside.vector(lambda: self.export(inside))
        else:
            inside.fault(f"a section of the kind {kind}")
        inside.finish()

    def define(self, sort, exports):
        self.counts[sort] += 1
        if sort == "instance":
            self.instances.append(exports)

    def known(self, inside, sort, index):
        if sort not in self.counts or index >= self.counts[sort]:
            inside.fault(f"no {sort} {index}")

    def alias(self, inside):
        """An export of an instance, under the next index of its sort."""
        sort = sort_of(inside)
        if inside.byte() != 0x00:
            inside.fault("an alias of something else than an export")
        index, name = inside.number(), inside.text()
        self.known(inside, "instance", index)
        exports = self.instances[index]
        if exports is None:
            inside.fault(f"instance {index} is not made here")
        if exports is not IMPORTED and exports.get(name) != sort:
            inside.fault(f"instance {index} exports no {sort} {name}")
        self.define(sort, None)

    def argument(self, inside):
        name, sort, index = inside.text(), sort_of(inside), inside.number()
        self.known(inside, sort, index)
        return name, sort

    def imported(self, inside):
        """What the bundle itself imports."""
        name, sort = inside.extern_name(), extern_desc(inside)
        if name in self.imports:
            inside.fault(f"{name} stands twice")
        self.imports[name] = sort
        self.define(sort, IMPORTED)

    def item(self, inside):
        """What stands under a name in an instance that is made of other definitions."""
        name, sort, index = inside.extern_name(), sort_of(inside), inside.number()
        self.known(inside, sort, index)
        return name, sort

    def instance(self, inside):
        """An instance of a component, given all that the component imports and nothing else; or one
        of definitions that are there."""
        form = inside.byte()
        if form == 0x01:
            items = inside.vector(lambda: self.item(inside))
            if len(dict(items)) != len(items):
                inside.fault("a name stands twice")
            self.define("instance", dict(items))
            return
        if form != 0x00:
            inside.fault("an instance of an unknown form")
        index = inside.number()
        self.known(inside, "component", index)
        given = inside.vector(lambda: self.argument(inside))
        nested = self.nested[index]
        if len(dict(given)) != len(given):
            inside.fault("an argument stands twice")
        if dict(given) != nested.imports:
            inside.fault(f"component {index} imports {nested.imports} and is given {dict(given)}")
        self.arguments += len(given)
        self.made += 1
        self.define("instance", nested.exports)

    def export(self, inside):
        name, sort, index = exported(inside)
        self.known(inside, sort, index)
        if name in self.exports:
            inside.fault(f"{name} stands twice")
        self.exports[name] = sort
        self.define(sort, None)


def main():
    path, *files = map(Path, sys.argv[1:])
    try:
        bundle = Bundle(path.read_bytes())
    except (Fault, UnicodeDecodeError) as fault:
        print(f"{path}: {fault}")
        return 1
    parts = [nested.data for nested in bundle.nested]
    if files and parts != [file.read_bytes() for file in files]:
        print(f"{path}: the nested components are not these files")
        return 1
    imports = f", {len(bundle.imports)} imports" if bundle.imports else ""
    print(
        f"{path}: {len(parts)} components, {bundle.made} instances, {bundle.arguments} arguments,"
        f" {len(bundle.exports)} exports{imports}"
    )
    return 0


if __name__ == "__main__":
    sys.exit(main())

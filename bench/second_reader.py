#!/usr/bin/env python3
"""A second reader of component files, written from Binary.md and from docs/RULES.md alone.

It reads files with shims and without, byte by byte, and names the first fault. Nothing of the
library is used: rows of `crates/rows_library/data/sweeps.rows` hold the library's answers to those of
this reader.

bench/second_reader.py FILE.. prints for each file what `shims sweep` wants of it: how many damaged
files there are (each cut, and each byte with one bit changed, by three masks), how many of them
still are components, and checksums of all answers: of files with shims, and of those without.
"""

import re
import sys

PREAMBLE = bytes.fromhex("0061736d0d000100")
MODULE = bytes.fromhex("0061736d01000000")
MASKS = (0x01, 0x10, 0x80)
MOST_TYPES = 4_096
MOST_BYTES = 16_777_216
PRIMITIVES = set(range(0x73, 0x80)) - {0x75, 0x76}
FLOATS = (0x75, 0x76)

FRAGMENT = r"(?:[a-z][0-9a-z]*|[A-Z][0-9A-Z]*)"
LABEL = re.compile(rf"{FRAGMENT}(?:-{FRAGMENT})*\Z")
NUMBER = r"(?:0|[1-9][0-9]*)"
WORD = r"(?:0|[1-9][0-9]*|[0-9]*[A-Za-z-][0-9A-Za-z-]*)"
VERSION = re.compile(
    rf"({NUMBER})\.({NUMBER})\.({NUMBER})(?:-{WORD}(?:\.{WORD})*)?"
    r"(?:\+[0-9A-Za-z-]+(?:\.[0-9A-Za-z-]+)*)?\Z"
)


class Fault(Exception):
    """Why bytes are no file, and at which byte."""

    def __init__(self, reason, at):
        super().__init__(f"{reason} at {at}")


class Refused(Exception):
    """Why a file is refused that its bytes spell."""


def is_label(text):
    return LABEL.match(text) is not None


def is_version(text):
    found = VERSION.match(text)
    return found is not None and all(int(part) < 2**64 for part in found.groups())


def is_extern_name(text):
    for front in ("[method]", "[static]"):
        if text.startswith(front):
            resource, dot, name = text.removeprefix(front).partition(".")
            return dot == "." and is_label(resource) and is_label(name)
    if text.startswith("[constructor]"):
        return is_label(text.removeprefix("[constructor]"))
    if not any(mark in text for mark in ":/@"):
        return is_label(text)
    path, has_version, version = text.partition("@")
    space, _, rest = path.partition(":")
    package, _, name = rest.partition("/")
    return all(map(is_label, (space, package, name))) and (not has_version or is_version(version))


class Reader:
    """A place in bytes, up to their end; what a byte that is missing there means."""

    def __init__(self, data, at, end, missing, wide):
        self.data, self.at, self.end, self.missing, self.wide = data, at, end, missing, wide

    def want(self):
        raise Fault(self.missing, self.end)

    def byte(self):
        if self.at == self.end:
            self.want()
        self.at += 1
        return self.data[self.at - 1]

    def code(self, known, unsupported=()):
        """A byte of a table."""
        found = self.byte()
        if found in unsupported:
            raise Fault("Unsupported", self.at - 1)
        if found not in known:
            raise Fault("UnknownCode", self.at - 1)
        return found

    def number(self, bits=32, has_sign=False):
        """A number in LEB128."""
        first, value, size = self.at, 0, -(-bits // 7)
        for place in range(size):
            found = self.byte()
            value |= (found & 0x7F) << 7 * place
            if found < 0x80:
                break
        else:
            raise Fault("BadNumber", first)
        if not has_sign:
            if value >= 1 << bits:
                raise Fault("BadNumber", first)
            return value
        used = 7 * (self.at - first)
        if value >> (used - 1) & 1:
            value -= 1 << used
        if not -(1 << bits - 1) <= value < 1 << bits - 1:
            raise Fault("BadNumber", first)
        return value

    def vec(self, item):
        return [item() for _ in range(self.number())]

    def text(self, test=None):
        first, size = self.at, self.number()
        first = self.at
        if self.end - self.at < size:
            self.want()
        self.at += size
        try:
            found = self.data[first : self.at].decode("utf-8")
        except UnicodeDecodeError:
            raise Fault("BadUtf8", first) from None
        if test is not None and not test(found):
            raise Fault("BadName", first)
        return found

    def label(self):
        return self.text(is_label)

    def name(self):
        self.code((0x00,))
        return self.text(is_extern_name)

    def optional(self, item):
        return item() if self.code((0x00, 0x01)) else None

    # ---- types

    def value_type(self):
        """A primitive, or the index of a type."""
        if self.at == self.end:
            self.want()
        if 0x40 <= self.data[self.at] <= 0x7F:
            self.code(PRIMITIVES, FLOATS)
            return None
        first, index = self.at, self.number(33, has_sign=True)
        if index < 0:
            raise Fault("BadNumber", first)
        return index

    def field(self):
        self.label()
        return self.value_type()

    def case(self):
        self.label()
        payload = self.optional(self.value_type)
        self.code((0x00,))
        return payload

    def defined(self, code):
        """The indices of types in a value type that is defined, behind its code."""
        if code == 0x72:
            return self.vec(self.field)
        if code == 0x71:
            return self.vec(self.case)
        if code in (0x70, 0x6B):
            return [self.value_type()]
        if code == 0x6F:
            return self.vec(self.value_type)
        if code in (0x6E, 0x6D):
            self.vec(self.label)
            return []
        if code == 0x6A:
            return [self.optional(self.value_type), self.optional(self.value_type)]
        if code in (0x69, 0x68):
            return [self.number()]
        if code == 0x67:
            element = self.value_type()
            self.number()
            return [element]
        return []

    def func_type(self):
        indices = self.vec(self.field)
        if self.code((0x00, 0x01)):
            self.code((0x00,))
        else:
            indices.append(self.value_type())
        return indices

    FORMS = PRIMITIVES | {0x72, 0x71, 0x70, 0x6F, 0x6E, 0x6D, 0x6B, 0x6A, 0x69, 0x68, 0x67}

    def type_def(self, room):
        """A type definition: its kind, and how many types it takes."""
        code = self.code(self.FORMS | {0x40, 0x3F, 0x42}, (*FLOATS, 0x41))
        if code == 0x40:
            self.func_type()
            return "func", 1
        if code == 0x3F:
            self.code((0x7F,))
            self.optional(self.number)
            return "resource", 1
        if code == 0x42:
            return "instance", 1 + self.declarations(room - 1)
        self.defined(code)
        return "value", 1

    def type_defs(self, room):
        kinds = []
        for _ in range(self.number()):
            if room == 0:
                raise Fault("TooMany", self.at)
            kind, taken = self.type_def(room)
            kinds.append(kind)
            room = max(room - taken, 0)
        return kinds, room

    def declarations(self, room):
        taken = 0
        for _ in range(self.number()):
            code = self.code((0x01, 0x02, 0x04), (0x00,))
            if code == 0x01:
                if taken == room:
                    raise Fault("TooMany", self.at)
                self.declared_type()
                taken += 1
            elif code == 0x02:
                self.declared_alias()
            else:
                self.name()
                self.declared_description()
        return taken

    def declared_type(self):
        code = self.code(self.FORMS | {0x40}, (*FLOATS, 0x3F, 0x41, 0x42))
        if code == 0x40:
            self.func_type()
        else:
            self.defined(code)

    def target(self, known):
        return self.code(known, {0x00, 0x01, 0x02} - set(known))

    def declared_alias(self):
        sort = self.code((0x00, 0x01, 0x03, 0x05), (0x02, 0x04))
        if sort == 0x00:
            self.core_sort()
        self.target((0x02,) if sort == 0x03 else ())
        self.number()
        self.number()

    def declared_description(self):
        """What an instance exports, or a shim imports: its sort, and how it is bound."""
        if self.code((0x01, 0x03), (0x00, 0x02, 0x04, 0x05)) == 0x01:
            return "func", self.number()
        if self.code((0x00, 0x01)) == 0x00:
            return "type", self.number()
        return "resource", None

    # ---- other items

    def core_sort(self):
        return self.code((0x00, 0x01, 0x02, 0x03), (0x10, 0x11, 0x12))

    def core_instance(self):
        if self.code((0x00, 0x01)) == 0x00:
            self.number()
            self.vec(self.core_argument)
        else:
            self.vec(self.core_export)

    def core_argument(self):
        self.text()
        self.code((0x12,))
        self.number()

    def core_export(self):
        self.text()
        self.core_sort()
        self.number()

    def member_sort(self):
        return self.code((0x01, 0x03), (0x00, 0x02, 0x04, 0x05))

    def member(self):
        return self.name(), self.member_sort(), self.number()

    def argument(self):
        return self.text(is_extern_name), self.member_sort(), self.number()

    def instance(self):
        if self.wide and self.code((0x00, 0x01)) == 0x00:
            return self.number(), self.vec(self.argument)
        if not self.wide:
            self.code((0x01,), (0x00,))
        return None, self.vec(self.member)

    def alias(self):
        """Whether it is of a type."""
        sort = self.code((0x00, 0x01, 0x03, 0x05), (0x02, 0x04))
        if sort == 0x00:
            self.core_sort()
            self.target((0x01,))
            self.number()
            self.text()
            return False
        known = {0x01: (0x00,), 0x03: (0x00, 0x02), 0x05: ()}[sort]
        if self.target(known) == 0x02:
            self.number()
            self.number()
        else:
            self.number()
            self.text(is_extern_name)
        return sort == 0x03

    def option(self):
        if self.code(range(6)) > 0x02:
            self.number()

    def canon(self):
        code = self.code(range(5))
        if code > 0x01:
            self.number()
            return
        self.code((0x00,))
        self.number()
        self.vec(self.option)
        if code == 0x00:
            self.number()

    def imported(self):
        """The index of a type that is imported as equal to it."""
        self.name()
        if self.wide:
            sort = self.code((0x01, 0x03, 0x05), (0x00, 0x02, 0x04))
            if sort == 0x03:
                self.code((0x00,), (0x01,))
                return self.number()
        else:
            self.code((0x01, 0x05), (0x00, 0x02, 0x03, 0x04))
        self.number()
        return None

    def exported(self):
        self.name()
        self.code((0x01, 0x05), (0x00, 0x02, 0x03, 0x04))
        self.number()
        self.code((0x00,), (0x01,))

    def shim_import(self):
        return self.name(), self.declared_description()

    def shim_export(self):
        name, sort, index = self.name(), self.member_sort(), self.number()
        if sort == 0x03:
            self.code((0x00,), (0x01,))
            return name, sort, index, None
        if self.code((0x00, 0x01)) == 0x00:
            return name, sort, index, None
        self.code((0x01,))
        return name, sort, index, self.number()

    # ---- sections

    def part(self, contents):
        """A size, and contents of that size."""
        size = self.number()
        behind = self.at + size
        is_whole = behind <= self.end
        inner = Reader(
            self.data,
            self.at,
            behind if is_whole else self.end,
            "SizeMismatch" if is_whole else self.missing,
            self.wide,
        )
        found = contents(inner)
        if inner.at < inner.end:
            raise Fault("SizeMismatch", inner.at)
        if not is_whole:
            self.want()
        self.at = behind
        return found

    def custom(self):
        self.text()
        self.at = self.end

    def module(self):
        first, front = self.at, self.data[self.at : min(self.at + 8, self.end)]
        if not MODULE.startswith(front) or self.missing == "SizeMismatch" and len(front) < 8:
            raise Fault("NotAModule", first)
        if len(front) < 8:
            self.want()
        self.at = self.end

    def section(self, room):
        """An id with what stands in the section, and how many types may follow."""
        known = {0, 1, 2, 5, 6, 7, 8, 10, 11} | ({4} if self.wide else set())
        kind = self.code(known, {3, 4, 9} - known)
        if kind == 7:
            kinds, room = self.part(lambda inner: inner.type_defs(room))
            return (kind, kinds), room
        if kind == 4:
            first = self.at
            sections, room = self.part(lambda inner: inner.shim(room))
            return (kind, (self.size_at(first), sections)), room
        items = {
            0: Reader.custom,
            1: Reader.module,
            2: lambda inner: inner.vec(inner.core_instance),
            5: lambda inner: inner.vec(inner.instance),
            6: lambda inner: inner.vec(inner.alias),
            8: lambda inner: inner.vec(inner.canon),
            10: lambda inner: inner.vec(inner.imported),
            11: lambda inner: inner.vec(inner.exported),
        }[kind]
        return (kind, self.part(items)), room

    def size_at(self, first):
        return Reader(self.data, first, self.end, self.missing, self.wide).number()

    def preamble(self):
        for wanted in PREAMBLE:
            if self.byte() != wanted:
                raise Fault("BadPreamble", self.at - 1)

    def shim(self, room):
        self.preamble()
        sections = []
        while self.at < self.end:
            kind = self.code({0, 7, 10, 11}, set(range(12)) - {0, 7, 10, 11})
            if kind == 7:
                kinds, room = self.part(lambda inner, room=room: inner.type_defs(room))
                sections.append((kind, kinds))
            else:
                items = {
                    0: Reader.custom,
                    10: lambda inner: inner.vec(inner.shim_import),
                    11: lambda inner: inner.vec(inner.shim_export),
                }[kind]
                sections.append((kind, self.part(items)))
        return sections, room

    def file(self):
        self.preamble()
        sections, room = [], MOST_TYPES
        while self.at < self.end:
            section, room = self.section(room)
            sections.append(section)
        return sections


# ---- what a file with shims comes to


def first_twice(keys):
    """The place of the first that stands before it, too."""
    return next((at for at, key in enumerate(keys) if key in keys[:at]), None)


class Plain:
    """How many types and shims stand in a file so far, and what its instances need of them."""

    def __init__(self):
        self.types, self.shims, self.left = 0, [], MOST_BYTES

    def add(self, kind, items):
        """Adds a section. A reason is raised with the item at which it is met."""
        if kind == 4:
            self.add_shim(*items)
        elif kind == 7:
            self.types += len(items)
        elif kind == 6:
            self.types += sum(items)
        elif kind in (5, 10):
            for at, item in enumerate(items):
                try:
                    self.add_instance(*item) if kind == 5 else self.add_import(item)
                except Refused as reason:
                    raise Refused(reason, at) from None

    def add_shim(self, size, sections):
        imports = [item for kind, items in sections if kind == 10 for item in items]
        keys = [(description[0] == "func", name) for name, description in imports]
        if (twice := first_twice(keys)) is not None:
            raise Refused("NameTwice", twice)
        self.shims.append((size, sections))

    def add_import(self, equal):
        if equal is not None:
            if equal >= self.types:
                raise Refused("NoSuchType")
            self.types += 1

    def add_instance(self, shim, given):
        if shim is None:
            return
        if shim >= len(self.shims):
            raise Refused("NoSuchShim")
        size, sections = self.shims[shim]
        if size > self.left:
            raise Refused("TooLong")
        if first_twice([(sort, name) for name, sort, _ in given]) is not None:
            raise Refused("NameTwice")
        self.left -= size
        Instance(self.types, given).add(sections)


class Instance:
    """An instance of a shim: how many types and functions it has so far."""

    def __init__(self, outer, given):
        self.outer, self.given, self.types, self.funcs = outer, given, 0, 0

    def add(self, sections):
        for kind, items in sections:
            if kind == 7:
                self.add_types(items)
            for item in items if kind in (10, 11) else ():
                self.add_import(*item) if kind == 10 else self.add_export(*item)

    def add_types(self, kinds):
        for kind in kinds:
            if kind in ("resource", "instance"):
                raise Refused("OtherType")
            self.types += 1

    def need_type(self, index):
        if index >= self.types:
            raise Refused("NoSuchType")

    def argument(self, wanted_sort, wanted_name):
        for name, sort, index in self.given:
            if (sort, name) == (wanted_sort, wanted_name):
                return index
        raise Refused("MissingArgument")

    def add_import(self, name, description):
        sort, index = description
        if sort == "func":
            self.argument(0x01, name)
            self.need_type(index)
            self.funcs += 1
            return
        if self.argument(0x03, name) >= self.outer:
            raise Refused("NoSuchType")
        if index is not None:
            self.need_type(index)
        self.types += 1

    def add_export(self, _, sort, index, ascribed):
        if sort == 0x03:
            self.need_type(index)
            self.types += 1
            return
        if index >= self.funcs:
            raise Refused("NoSuchFunc")
        if ascribed is not None:
            self.need_type(ascribed)
        self.funcs += 1


def answer(data, wide):
    """What a reader answers: that it is a component, or the first fault."""
    try:
        sections = Reader(data, 0, len(data), "Truncated", wide).file()
    except Fault as fault:
        return f"fault {fault}"
    plain = Plain()
    for at, section in enumerate(sections):
        try:
            plain.add(*section)
        except Refused as refused:
            reason, item = refused.args
            return f"fault {reason} in section {at}, item {item}"
    return "component"


# ---- damaged files


def damaged(data):
    """Each beginning of a file that is not all of it, and each file with one bit changed."""
    for size in range(len(data)):
        yield data[:size]
    for mask in MASKS:
        for at in range(len(data)):
            yield data[:at] + bytes((data[at] ^ mask,)) + data[at + 1 :]


def checksum(lines):
    """FNV-1a of 32 bits, of lines that end with a line feed."""
    found = 0x811C9DC5
    for line in lines:
        for byte in f"{line}\n".encode():
            found = (found ^ byte) * 0x01000193 & 0xFFFFFFFF
    return found


def swept(data):
    files = list(damaged(data))
    wide, narrow = ([answer(it, is_wide) for it in files] for is_wide in (True, False))
    return (
        f"{len(files)} files, {wide.count('component')} components, "
        f"{checksum(wide)} read, {checksum(narrow)} decoded"
    )


def main():
    for path in sys.argv[1:]:
        with open(path, "rb") as file:
            print(f"{path}: {swept(file.read())}")


if __name__ == "__main__":
    main()

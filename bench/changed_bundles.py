#!/usr/bin/env python3
"""bench/changed_bundles.py: writes crates/rows_library/data/changed.rows.

Each byte of four bundles is changed in three ways, and of each the answer is worked out by a second
reader of the grammar of crates/cm_bundle/FORM.md, which is written here from that page and
from Binary.md: what the bytes spell, or the first fault and its place.
"""

from pathlib import Path

TOP = Path(__file__).resolve().parent.parent
ROWS = TOP / "crates" / "rows_library" / "data" / "changed.rows"
PREAMBLE = bytes.fromhex("0061736d0d000100")
BUNDLES = {
    "one": "0061736d0d000100 0401aa 060100 050401000000 060100 0b0100",
    "two": "0061736d0d000100 0401aa 060100 050401000000 0402bbbb 060b 02 0100000166 050000016a"
           " 050c 01 0001 02 0166 01 00 0169 05 01 0606 01 0100020178 0b07 01 000179 01 01 00",
    "named": "0061736d0d000100 060100 0b0100 0002 00ff"
             " 0019 0e 636f6d706f6e656e742d6e616d65 01 08 04 02 00 01 70 01 01 71",
    "open": "0061736d0d000100 0701aa 0a0b 02 0001660100 0001690501 0606 01 030000 0174"
            " 070100 0a06 01 0001670102 060100 0512 0101 03 0001660100 0001690500 0001670101"
            " 0401aa 0606 01 0100010166 0508 01 0000 01 01660102"
            " 0606 01 0100020165 0b07 01 000165010300",
}
FLIPS = (0x01, 0x02, 0x80)


class Fault(Exception):
    pass


def leb(number):
    """The shortest spelling of a number."""
    out = bytearray()
    while number > 0x7F:
        out.append(number & 0x7F | 0x80)
        number >>= 7
    return bytes([*out, number])


class Reader:
    """Reads one thing after another; a fault has its reason and its place."""

    def __init__(self, data):
        self.data, self.at = data, 0

    def byte(self):
        if self.at == len(self.data):
            raise Fault(f"Truncated at {self.at}")
        self.at += 1
        return self.data[self.at - 1]

    def fixed(self, wanted, reason="UnknownCode"):
        for byte in wanted:
            if self.byte() != byte:
                raise Fault(f"{reason} at {self.at - 1}")

    def number(self):
        """An unsigned LEB128 number of at most 32 bits, in its shortest spelling."""
        start, value = self.at, 0
        for place in range(5):
            byte = self.byte()
            if place == 4 and byte > 0x0F:
                raise Fault(f"BadNumber at {start}")
            value |= (byte & 0x7F) << (7 * place)
            if byte < 0x80:
                if place and byte == 0:
                    raise Fault(f"BadNumber at {start}")
                return value
        raise AssertionError

    def this(self, wanted):
        start = self.at
        if self.number() != wanted:
            raise Fault(f"OtherNumber at {start}")

    def raw(self):
        size = self.number()
        if self.at + size > len(self.data):
            raise Fault(f"Truncated at {len(self.data)}")
        self.at += size
        return self.data[self.at - size : self.at]

    def text(self):
        data = self.raw()
        try:
            return data.decode("utf-8")
        except UnicodeDecodeError:
            raise Fault(f"BadUtf8 at {self.at - len(data)}") from None

    def sized(self, read):
        size, start = self.number(), self.at
        thing = read()
        if self.at - start != size:
            raise Fault(f"SizeMismatch at {start}")
        return thing


SORTS = {"func": 0x01, "instance": 0x05}


class Imports(Reader):
    """The contents of a section of imports of functions and instances."""

    def item(self):
        self.fixed([0x00])
        name, start = self.text(), self.at
        sorts = {code: sort for sort, code in SORTS.items()}
        sort = self.byte()
        if sort not in sorts:
            raise Fault(f"UnknownCode at {start}")
        self.number()
        return name, sorts[sort]

    def read(self):
        items = [self.item() for _ in range(self.number())]
        if self.at < len(self.data):
            raise Fault(f"Surplus at {self.at}")
        return items


class TypeAliases(Imports):
    """The contents of a section of aliases of types of instances."""

    def item(self):
        self.fixed([0x03, 0x00])
        return self.number(), self.text()


class Bundle(Reader):
    """A bundle: the instances of its parts, behind that of what it imports, and how many functions
    and instances there are."""

    def __init__(self, data):
        super().__init__(data)
        self.parts, self.counts, self.fronts = [], {"func": 0, "instance": 0}, 0

    def of_front(self, kind):
        """The contents of a section in front, and what is in it."""
        start, contents = self.at, self.raw()
        try:
            return contents, kind(contents).read()
        except Fault:
            raise Fault(f"BadFront at {start}") from None

    def group(self):
        types = self.raw()
        self.fixed([0x0A])
        imports, items = self.of_front(Imports)
        self.fixed([0x06])
        aliases, _ = self.of_front(TypeAliases)
        said = " ".join(["front", *(it.hex() or "-" for it in (types, imports, aliases))])
        return said, items

    def front(self):
        """The groups of sections in front of the parts, and the instance of all that is imported."""
        said, imports = [], []
        while (section := self.byte()) == 0x07:
            words, items = self.group()
            said.append(words)
            imports += items
        if section != 0x05:
            raise Fault(f"UnknownCode at {self.at - 1}")
        body = bytes([1, 1]) + leb(len(imports))
        for name, sort in imports:
            body += b"\0" + leb(len(name.encode())) + name.encode()
            body += bytes([SORTS[sort]]) + leb(self.counts[sort])
            self.counts[sort] += 1
        self.fixed(leb(len(body)) + body)
        self.parts.append(self.counts["instance"])
        self.counts["instance"] += 1
        self.fronts = 1
        return said

    def alias(self):
        sorts = {0x01: "func", 0x05: "instance"}
        sort = self.byte()
        if sort not in sorts:
            raise Fault(f"UnknownCode at {self.at - 1}")
        self.fixed([0x00])
        start = self.at
        index = self.number()
        if index not in self.parts:
            raise Fault(f"NoSuchPart at {start}")
        return sorts[sort], self.parts.index(index), self.text()

    def aliases(self):
        return self.sized(lambda: [self.alias() for _ in range(self.number())])

    def supplies(self, aliases, lead, tail):
        self.this(len(aliases))
        said = []
        for sort, part, name in aliases:
            self.fixed(lead)
            given = self.text()
            self.fixed([{"func": 0x01, "instance": 0x05}[sort]])
            self.this(self.counts[sort])
            self.fixed(tail)
            self.counts[sort] += 1
            said.append(f"{given}={sort}:{part}:{name}")
        return said

    def part(self):
        file = self.raw()
        self.fixed([0x06])
        aliases = self.aliases()
        self.fixed([0x05])
        given = self.sized(lambda: self.instance(aliases))
        self.parts.append(self.counts["instance"])
        self.counts["instance"] += 1
        return " ".join(["part", file.hex() or "-", *given])

    def instance(self, aliases):
        self.fixed([0x01, 0x00])
        self.this(len(self.parts) - self.fronts)
        return self.supplies(aliases, [], [])

    def exports(self):
        aliases = self.aliases()
        self.fixed([0x0B])
        return self.sized(lambda: self.supplies(aliases, [0x00], [0x00]))

    def read(self):
        self.fixed(PREAMBLE, "BadPreamble")
        said = self.front() if self.data[self.at : self.at + 1] == b"\x07" else []
        while (section := self.byte()) == 0x04:
            said.append(self.part())
        if section != 0x06:
            raise Fault(f"UnknownCode at {self.at - 1}")
        said.append(" ".join(["exports", *self.exports()]))
        customs = []
        while self.at < len(self.data):
            self.fixed([0x00], "Surplus")
            customs.append(self.raw())
        said += [f"custom {it.hex() or '-'}" for it in customs]
        said += [it for contents in customs for it in names(contents)]
        return " | ".join(said)


class Names(Reader):
    """The contents of a custom section of names."""

    def read(self):
        self.fixed(b"\x0ecomponent-name\x01")
        named = self.sized(self.map)
        if self.at < len(self.data):
            raise Fault("bytes behind")
        return named

    def map(self):
        self.fixed([0x04])
        return [f"name {self.number()} {self.text()}" for _ in range(self.number())]


def names(contents):
    """The names that a custom section has: none where it is no section of names."""
    try:
        return Names(contents).read()
    except Fault:
        return []


def answer(data):
    try:
        return Bundle(data).read()
    except Fault as fault:
        return f"fault {fault}"


def rows():
    yield "# Each byte of four bundles is another, in three ways: written by bench/changed_bundles.py, which reads"
    yield "# the grammar a second time."
    for name, text in BUNDLES.items():
        data = bytes.fromhex(text.replace(" ", ""))
        yield f"bundles name {name} {data.hex()} => {len(data)} bytes"
        yield f"bundles read @{name} => {answer(data)}"
        for at, byte in enumerate(data):
            for flip in FLIPS:
                changed = bytes([*data[:at], byte ^ flip, *data[at + 1 :]])
                yield f"bundles changed @{name} {at} {byte ^ flip:02x} => {answer(changed)}"


if __name__ == "__main__":
    ROWS.write_text("".join(f"{row}\n" for row in rows()), encoding="utf-8")

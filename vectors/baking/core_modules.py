"""Reads core modules of baked components: the forms that `wasm` writes."""

from .components import Reader

KINDS = {0x7F: "i32", 0x7E: "i64"}
SORTS = ("func", "table", "memory", "global")


def signed_number(reader):
    value, shift, byte = 0, 0, 128
    while byte >= 128:
        byte = reader.byte()
        value, shift = value | (byte & 127) << shift, shift + 7
    return value - (1 << shift) if byte & 64 else value


def index_pair(reader):
    return reader.number(), reader.number()


def body_of(reader):
    """The instructions up to `end`, each (code, immediate); of a block also those inside."""
    found = []
    while (code := reader.byte()) != 0x0B:
        if code == 0xFC:
            code = 0xFC00 + reader.number()
        found.append((code, IMMEDIATES.get(code, lambda _: None)(reader)))
    return found


def inner_body(reader):
    reader.byte()
    return body_of(reader)


def offset_of(reader):
    return index_pair(reader)[1]


IMMEDIATES = {
    **dict.fromkeys((0x02, 0x03, 0x04), inner_body),
    **dict.fromkeys((0x0C, 0x0D, 0x10, 0x20, 0x21, 0x23, 0x24, 0x3F, 0x40), Reader.number),
    **dict.fromkeys((0x28, 0x29, 0x2D, 0x2F, 0x31), offset_of),
    **dict.fromkeys((0x41, 0x42), signed_number),
    **dict.fromkeys((0x11, 0xFC08, 0xFC0A), index_pair), 0xFC0B: Reader.number,
}


class CoreModule:
    """What the sections of a core module say."""

    def __init__(self, data):
        self.types, self.imports, self.kinds, self.exports = [], [], [], []
        self.table = self.pages = None
        self.globals, self.elements, self.bodies, self.data, self.names = [], [], [], [], {}
        reader = Reader(data, 8)
        while reader.at < len(data):
            kind, inside = reader.byte(), Reader(reader.take(reader.number()))
            self.section(kind, inside)

    def section(self, kind, reader):
        items = {1: self.type, 2: self.imported, 3: lambda it: self.kinds.append(it.number()),
                 4: self.read_table, 5: self.memory, 6: self.read_global, 7: self.export,
                 9: self.element, 10: self.body, 11: self.datum}
        if kind == 0:
            self.read_names(reader)
        elif kind in items:
            reader.vector(lambda: items[kind](reader))

    def type(self, reader):
        reader.byte()
        kinds = [reader.vector(lambda: KINDS[reader.byte()]) for _ in range(2)]
        self.types.append(tuple(kinds))

    def imported(self, reader):
        module, name, sort = reader.text(), reader.text(), reader.byte()
        if sort == 1:
            reader.take(2)
        self.imports.append((module, name, SORTS[sort]))
        reader.number()

    def read_table(self, reader):
        reader.take(2)
        self.table = reader.number()

    def memory(self, reader):
        reader.byte()
        self.pages = index_pair(reader)

    def read_global(self, reader):
        reader.take(2)
        self.globals.append(body_of(reader)[0][1])

    def export(self, reader):
        self.exports.append((reader.text(), SORTS[reader.byte()], reader.number()))

    def element(self, reader):
        reader.byte()
        self.elements.append((body_of(reader)[0][1], reader.vector(reader.number)))

    def body(self, reader):
        reader.number()
        kinds = reader.vector(lambda: (reader.number(), reader.byte()))
        self.bodies.append((sum(count for count, _ in kinds), body_of(reader)))

    def datum(self, reader):
        reader.byte()
        self.data.append(reader.take(reader.number()))

    def read_names(self, reader):
        if reader.text() == "name" and reader.byte() == 1:
            reader.number()
            self.names = dict(reader.vector(lambda: (reader.number(), reader.text())))

"""Writes core modules (WebAssembly, binary format). Code is bytes without the last `end`."""

from itertools import groupby

KINDS = {"i32": b"\x7f", "i64": b"\x7e"}

UNREACHABLE, BLOCK, LOOP, IF, END = b"\x00", b"\x02\x40", b"\x03\x40", b"\x04\x40", b"\x0b"
RETURN, DROP, SELECT = b"\x0f", b"\x1a", b"\x1b"
IS_ZERO, LESS, NOT_LESS = b"\x45", b"\x49", b"\x4f"
ADD, SUBTRACT, DIVIDE, AND, SHIFT_LEFT, EQUAL = b"\x6a", b"\x6b", b"\x6d", b"\x71", b"\x74", b"\x46"
DIFFERS = {"i32": b"\x47", "i64": b"\x52"}
MULTIPLY_64, EXCLUSIVE_OR_64, NARROW = b"\x7e", b"\x85", b"\xa7"
PAGES, GROW = b"\x3f\x00", b"\x40\x00"
COPY, FILL = b"\xfc\x0a\x00\x00", b"\xfc\x0b\x00"
LOADS = {8: b"\x29", 4: b"\x28", 2: b"\x2f", 1: b"\x2d"}
LOAD_BYTE_TO_64 = b"\x31\x00\x00"


def unsigned(number):
    """An unsigned number in LEB128."""
    out = b""
    while number > 127:
        out, number = out + bytes([number & 127 | 128]), number >> 7
    return out + bytes([number])


def signed(number):
    """A signed number in LEB128."""
    out = b""
    while not -64 <= number < 64:
        out, number = out + bytes([number & 127 | 128]), number >> 7
    return out + bytes([number & 127])


def vector(items):
    return unsigned(len(items)) + b"".join(items)


def text(name):
    return unsigned(len(name.encode())) + name.encode()


def section(kind, contents):
    return bytes([kind]) + unsigned(len(contents)) + contents


def const(kind, number):
    bits = 64 if kind == "i64" else 32
    number %= 1 << bits
    code = b"\x42" if kind == "i64" else b"\x41"
    return code + signed(number - (number >> bits - 1 << bits))


def get(local):
    return b"\x20" + unsigned(local)


def put(local):
    return b"\x21" + unsigned(local)


def get_global(number):
    return b"\x23" + unsigned(number)


def put_global(number):
    return b"\x24" + unsigned(number)


def call(function):
    return b"\x10" + unsigned(function)


def branch(level):
    return b"\x0c" + unsigned(level)


def branch_if(level):
    return b"\x0d" + unsigned(level)


def load(width, base, offset):
    """Loads so many bytes behind the address in a local; alignment is only a hint."""
    return get(base) + LOADS[width] + b"\x00" + unsigned(offset)


def written_from(datum):
    """Writes a datum: the address, the place in the datum and the count are on the stack."""
    return b"\xfc\x08" + unsigned(datum) + b"\x00"


class Module:
    """A core module. Functions are imported first, then added."""

    def __init__(self):
        self.types, self.imports, self.functions, self.exports, self.data = [], [], [], [], []
        self.names, self.elements, self.globals = [], [], []
        self.memory = self.table = None

    def type(self, params, results):
        form = b"\x60" + vector([KINDS[k] for k in params]) + vector([KINDS[k] for k in results])
        if form not in self.types:
            self.types.append(form)
        return self.types.index(form)

    def call_in_table(self, params, results):
        """Calls the entry of the table whose number is on the stack."""
        return b"\x11" + unsigned(self.type(params, results)) + b"\x00"

    def import_function(self, name, params, results):
        kind = unsigned(self.type(params, results))
        self.imports.append(text("") + text(name) + b"\x00" + kind)

    def import_table(self, name, size):
        self.imports.append(text("") + text(name) + b"\x01\x70\x00" + unsigned(size))

    def function(self, params, results, code, name="", locals_of=()):
        """A function's number; `locals_of` has the kinds of its locals behind the parameters."""
        alike = [(kind, len(list(them))) for kind, them in groupby(locals_of)]
        body = vector([unsigned(count) + KINDS[kind] for kind, count in alike]) + code + END
        kind = unsigned(self.type(params, results))
        self.functions.append((kind, unsigned(len(body)) + body))
        self.names.append(name)
        return len(self.functions) - 1

    def global_number(self, value):
        self.globals.append(b"\x7f\x01" + const("i32", value) + END)
        return len(self.globals) - 1

    def fill_table(self, first, functions):
        entries = vector([unsigned(it) for it in functions])
        self.elements.append(b"\x00" + const("i32", first) + END + entries)

    def export(self, name, sort, index):
        self.exports.append(text(name) + bytes([sort]) + unsigned(index))

    def datum(self, data):
        """The number of a datum of these bytes."""
        kept = b"\x01" + unsigned(len(data)) + data
        if kept not in self.data:
            self.data.append(kept)
        return self.data.index(kept)

    def names_section(self):
        named = [unsigned(n) + text(name) for n, name in enumerate(self.names) if name]
        return text("name") + section(1, vector(named))

    def bytes(self):
        parts = [
            (1, vector(self.types)), (2, vector(self.imports)),
            (3, vector([kind for kind, _ in self.functions])),
            (4, self.table), (5, self.memory), (6, vector(self.globals)),
            (7, vector(self.exports)), (9, vector(self.elements)),
            (12, unsigned(len(self.data)) if self.data else None),
            (10, vector([body for _, body in self.functions])), (11, vector(self.data)),
            (0, self.names_section() if any(self.names) else None),
        ]
        empty = (None, vector([]))
        return b"\0asm\1\0\0\0" + b"".join(section(k, c) for k, c in parts if c not in empty)

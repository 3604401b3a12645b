"""Core modules of integers, interpreted: what clang makes of C for the target wasm32, without
floats. Values are numbers from 0 on. A memory is a bytearray, a table a list, a function a callable."""

PAGE, MOST_PAGES = 65536, 1024
LOADS = {0x28: (4, 0, 32), 0x29: (8, 0, 64), 0x2c: (1, 1, 32), 0x2d: (1, 0, 32), 0x2e: (2, 1, 32),
         0x2f: (2, 0, 32), 0x30: (1, 1, 64), 0x31: (1, 0, 64), 0x32: (2, 1, 64), 0x33: (2, 0, 64),
         0x34: (4, 1, 64), 0x35: (4, 0, 64)}  # bytes, whether signed, bits
STORES = {0x36: 4, 0x37: 8, 0x3a: 1, 0x3b: 2, 0x3c: 1, 0x3d: 2, 0x3e: 4}
EXTENDS = {0xc0: (8, 32), 0xc1: (16, 32), 0xc2: (8, 64), 0xc3: (16, 64), 0xc4: (32, 64),
           0xac: (32, 64), 0xad: (0, 64), 0xa7: (0, 32)}  # bits that are signed, bits
INDEXED = {0x0c, 0x0d, 0x10, 0x20, 0x21, 0x22, 0x23, 0x24, 0x3f, 0x40}


class Stop(Exception):
    """The core code traps."""


def signed(value, bits):
    return value - (1 << bits) if value >> (bits - 1) else value


def divided(a, b, bits):
    if b == 0 or (signed(b, bits) == -1 and signed(a, bits) == -1 << (bits - 1)):
        raise Stop("a division has no result")
    quotient = abs(signed(a, bits)) // abs(signed(b, bits))
    return quotient if a >> (bits - 1) == b >> (bits - 1) else -quotient


def remaining(a, b, bits):
    if signed(nonzero(b), bits) == -1:
        return 0
    return signed(a, bits) - signed(b, bits) * divided(a, b, bits)


def nonzero(b):
    return b or stop("a division by zero")


def stop(why):
    raise Stop(why)


COMPARE = [lambda a, b, n: a == b, lambda a, b, n: a != b,
           lambda a, b, n: signed(a, n) < signed(b, n), lambda a, b, n: a < b,
           lambda a, b, n: signed(a, n) > signed(b, n), lambda a, b, n: a > b,
           lambda a, b, n: signed(a, n) <= signed(b, n), lambda a, b, n: a <= b,
           lambda a, b, n: signed(a, n) >= signed(b, n), lambda a, b, n: a >= b]
COUNT = [lambda a, n: n - a.bit_length(), lambda a, n: (a & -a).bit_length() - 1 if a else n,
         lambda a, n: bin(a).count("1")]
COMPUTE = [lambda a, b, n: a + b, lambda a, b, n: a - b, lambda a, b, n: a * b, divided,
           lambda a, b, n: a // nonzero(b),
           remaining, lambda a, b, n: a % nonzero(b), lambda a, b, n: a & b, lambda a, b, n: a | b,
           lambda a, b, n: a ^ b, lambda a, b, n: a << b % n,
           lambda a, b, n: signed(a, n) >> b % n, lambda a, b, n: a >> b % n,
           lambda a, b, n: a << b % n | a >> n - b % n,
           lambda a, b, n: a >> b % n | a << n - b % n]


def numeric():
    """Of each operation on numbers: how many values it takes, the function, and its bits."""
    table = {}
    for bits, test, count in ((32, 0x45, 0x67), (64, 0x50, 0x79)):
        table[test] = (1, lambda a, n: a == 0, bits)
        table.update({test + 1 + i: (2, it, bits) for i, it in enumerate(COMPARE)})
        table.update({count + i: (1, it, bits) for i, it in enumerate(COUNT)})
        table.update({count + 3 + i: (2, it, bits) for i, it in enumerate(COMPUTE)})
    return table


NUMERIC = numeric()


class Reader:
    def __init__(self, data):
        self.data, self.at = data, 0

    def byte(self):
        self.at += 1
        return self.data[self.at - 1]

    def number(self):
        byte = self.byte()
        return byte & 127 | (self.number() << 7 if byte & 128 else 0)

    def signed(self):
        begin = self.at
        value = self.number()
        return signed(value, 7 * (self.at - begin))

    def bytes(self):
        size = self.number()
        self.at += size
        return self.data[self.at - size:self.at]

    def many(self, read):
        return [read() for _ in range(self.number())]

    def limits(self):
        flags, least = self.byte(), self.number()
        return least, self.number() if flags & 1 else None

    def instruction(self):
        """A code and what stands behind it."""
        code = self.byte()
        if code in (0x02, 0x03, 0x04):
            return code, self.signed()
        if code in (0x41, 0x42):
            return code, self.signed() & (1 << (32 if code == 0x41 else 64)) - 1
        if code in INDEXED:
            return code, self.number()
        if code == 0x11 or 0x28 <= code <= 0x3e:
            return code, (self.number(), self.number())
        if code == 0x0e:
            return code, [*self.many(self.number), self.number()]
        if code == 0xfc:
            code = 0xfc00 + self.number()
            return code, [self.byte() for _ in range(2 if code == 0xfc0a else 1)]
        return code, None

    def code(self):
        """Instructions up to the `end` that closes them."""
        found, depth = [], 1
        while depth:
            found.append(self.instruction())
            depth += {0x02: 1, 0x03: 1, 0x04: 1, 0x0b: -1}.get(found[-1][0], 0)
        return found


def ends_of(code):
    """Of each block where its `else` and its `end` stand."""
    ends, opened = {}, []
    for at, (kind, _) in enumerate(code):
        if kind in (0x02, 0x03, 0x04):
            opened.append(at)
            ends[at] = [None, None]
        elif kind == 0x05:
            ends[opened[-1]][0] = at
        elif kind == 0x0b and opened:
            ends[opened.pop()][1] = at
    return {at: (middle or end, end) for at, (middle, end) in ends.items()}


class Module:
    def __init__(self, data):
        self.parts = {}
        whole = Reader(data)
        whole.at = 8
        while whole.at < len(data):
            kind = whole.byte()
            self.parts[kind] = Reader(whole.bytes())
        self.types = self.part(1, self.read_type)

    def part(self, kind, read):
        reader = self.parts.get(kind)
        return reader.many(lambda: read(reader)) if reader else []

    @staticmethod
    def read_type(reader):
        reader.byte()
        return len(reader.many(reader.byte)), len(reader.many(reader.byte))

    def instantiate(self, imports):
        for reader in self.parts.values():
            reader.at = 0
        self.part(1, self.read_type)
        return Instance(self, imports).exports


class Instance:
    def __init__(self, module, imports):
        self.module, self.types, self.exports = module, module.types, {}
        self.spaces = ([], [], [], [])  # functions, tables, memories, globals
        self.params = {}  # how many values imported functions take
        module.part(2, lambda r: self.take(r, imports))
        kinds = module.part(3, Reader.number)
        module.part(4, lambda r: self.spaces[1].append(
            [None] * (r.byte(), r.limits()[0])[1]))
        module.part(5, lambda r: self.spaces[2].append(bytearray(PAGE * r.limits()[0])))
        module.part(6, lambda r: self.spaces[3].append([self.define(r)]))
        bodies = module.part(10, lambda r: Reader(r.bytes()))
        for kind, body in zip(kinds, bodies):
            self.spaces[0].append(Function(self, *self.types[kind], body))
        module.part(7, self.export)
        module.part(9, self.fill_table)
        module.part(11, self.fill_memory)

    def take(self, reader, imports):
        module, name = reader.bytes().decode(), reader.bytes().decode()
        given, kind = imports[module][name], reader.byte()
        if kind == 0:
            # An import does not know how many values it takes: the type that it is imported with.
            self.params[len(self.spaces[0])] = self.types[reader.number()][0]
        elif kind == 3:
            reader.at += 2
        else:
            reader.at += kind == 1
            reader.limits()
        self.spaces[kind].append(given)

    def define(self, reader):
        """A global's kind, whether it may change, and its constant."""
        reader.byte(), reader.byte()
        return self.constant(reader)

    def constant(self, reader):
        code, value = reader.code()[0]
        return self.spaces[3][value][0] if code == 0x23 else value

    def export(self, reader):
        name, kind = reader.bytes().decode(), reader.byte()
        self.exports[name] = self.spaces[kind][reader.number()]

    def fill_table(self, reader):
        reader.number()
        at = self.constant(reader)
        for i, func in enumerate(reader.many(reader.number)):
            self.spaces[1][0][at + i] = self.spaces[0][func]

    def fill_memory(self, reader):
        reader.number()
        at, data = self.constant(reader), reader.bytes()
        self.spaces[2][0][at:at + len(data)] = data


class Function:
    """A function of a module, which is a callable."""

    def __init__(self, instance, params, results, body):
        self.instance, self.params, self.results = instance, params, results
        counts = body.many(lambda: (body.number(), body.byte())[0])
        self.locals, self.code = sum(counts), body.code()
        self.ends = ends_of(self.code)

    def __call__(self, *values):
        frame = Frame(self, [*values, *[0] * self.locals])
        while frame.at < len(self.code):
            frame.step(*self.code[frame.at])
        return frame.stack.pop() if self.results else None


class Frame:
    """A call of a function: its locals, its stack, and the blocks that it is in."""

    def __init__(self, function, values):
        self.function, self.instance, self.values = function, function.instance, values
        self.stack, self.blocks, self.at = [], [], 0

    def step(self, code, given):
        self.at += 1
        if code in NUMERIC:
            count, compute, bits = NUMERIC[code]
            values = [self.stack.pop() for _ in range(count)][::-1]
            self.stack.append(int(compute(*values, bits)) & (1 << bits) - 1)
        elif code in LOADS:
            size, is_signed, bits = LOADS[code]
            at = self.place(given[1], size)
            value = int.from_bytes(self.memory[at:at + size], "little", signed=bool(is_signed))
            self.stack.append(value & (1 << bits) - 1)
        elif code in STORES:
            value, size = self.stack.pop(), STORES[code]
            at = self.place(given[1], size)
            self.memory[at:at + size] = (value & (1 << 8 * size) - 1).to_bytes(size, "little")
        elif code in EXTENDS:
            few, bits = EXTENDS[code]
            value = self.stack.pop()
            value = signed(value & (1 << few) - 1, few) if few else value
            self.stack.append(value & (1 << bits) - 1)
        else:
            STEPS[code](self, given)

    @property
    def memory(self):
        return self.instance.spaces[2][0]

    def place(self, offset, size):
        at = self.stack.pop() + offset
        return at if at + size <= len(self.memory) else stop("an address beyond the memory")

    def begin(self, kind):
        """Where a branch to the block leads, the height of the stack, and what it leaves there."""
        here = self.at - 1
        is_loop = self.function.code[here][0] == 0x03
        target = here if is_loop else self.function.ends[here][1] + 1
        self.blocks.append((target, len(self.stack), 0 if is_loop or kind == -64 else 1))

    def choose(self, kind):
        here, holds = self.at - 1, self.stack.pop()
        middle, end = self.function.ends[here]
        self.begin(kind)
        if not holds:
            self.at = middle + 1 if middle != end else end

    def skip_else(self, _):
        self.at = self.blocks.pop()[0]

    def branch(self, depth):
        if depth >= len(self.blocks):
            self.at = len(self.function.code)
            return
        target, height, count = self.blocks[-1 - depth]
        left = self.stack[len(self.stack) - count:]
        del self.stack[height:], self.blocks[-1 - depth:]
        self.stack += left
        self.at = target

    def call(self, func, count):
        values = [self.stack.pop() for _ in range(count)][::-1]
        answer = func(*values)
        if answer is not None:
            self.stack.append(answer)

    def call_index(self, index):
        func = self.instance.spaces[0][index]
        self.call(func, self.instance.params.get(index, getattr(func, "params", 0)))

    def call_indirect(self, given):
        func = self.instance.spaces[1][given[1]][self.stack.pop()]
        self.call(func or stop("an empty place"), self.instance.types[given[0]][0])

    def select(self, _):
        chosen, other, first = self.stack.pop(), self.stack.pop(), self.stack.pop()
        self.stack.append(first if chosen else other)

    def grow(self, _):
        before, more = len(self.memory) // PAGE, self.stack.pop()
        fits = before + more <= MOST_PAGES
        self.memory.extend(bytes(PAGE * more if fits else 0))
        self.stack.append(before if fits else 0xFFFFFFFF)

    def move(self, _):
        size, source, target = self.stack.pop(), self.stack.pop(), self.stack.pop()
        if max(source, target) + size > len(self.memory):
            stop("a copy beyond the memory")
        self.memory[target:target + size] = self.memory[source:source + size]

    def fill(self, _):
        size, byte, target = self.stack.pop(), self.stack.pop(), self.stack.pop()
        if target + size > len(self.memory):
            stop("a fill beyond the memory")
        self.memory[target:target + size] = bytes([byte & 255]) * size

    def set(self, place, index):
        place[index] = self.stack.pop()


STEPS = {
    0x00: lambda f, x: stop("unreachable"), 0x01: lambda f, x: None,
    0x02: Frame.begin, 0x03: Frame.begin, 0x04: Frame.choose, 0x05: Frame.skip_else,
    0x0b: lambda f, x: f.blocks.pop() if f.blocks else None,
    0x0c: Frame.branch, 0x0d: lambda f, x: f.branch(x) if f.stack.pop() else None,
    0x0e: lambda f, x: f.branch(x[min(f.stack.pop(), len(x) - 1)]),
    0x0f: lambda f, x: f.branch(len(f.blocks)),
    0x10: Frame.call_index, 0x11: Frame.call_indirect, 0x1a: lambda f, x: f.stack.pop(),
    0x1b: Frame.select, 0x20: lambda f, x: f.stack.append(f.values[x]),
    0x21: lambda f, x: f.set(f.values, x), 0x22: lambda f, x: f.values.__setitem__(x, f.stack[-1]),
    0x23: lambda f, x: f.stack.append(f.instance.spaces[3][x][0]),
    0x24: lambda f, x: f.set(f.instance.spaces[3][x], 0),
    0x3f: lambda f, x: f.stack.append(len(f.memory) // PAGE), 0x40: Frame.grow,
    0x41: lambda f, x: f.stack.append(x), 0x42: lambda f, x: f.stack.append(x),
    0xfc0a: Frame.move, 0xfc0b: Frame.fill,
}

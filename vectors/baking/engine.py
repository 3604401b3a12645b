"""Runs core modules of baked components, instruction by instruction: the few instructions that
`wasm` writes, and no others. It is for judging bakes, where no other engine has to be there.
"""

from .core_modules import SORTS
from .machine import PAGE

RETURN = -1             # what a body ends with, beside None and the level of a branch
BITS_32, BITS_64 = (1 << 32) - 1, (1 << 64) - 1


class Stopped(Exception):
    """A core module has trapped: the name of its function, and why."""


class Function:
    """A function: core kinds, and what it does with arguments."""

    def __init__(self, params, results, call):
        self.params, self.results, self.call = params, results, call


class CoreInstance:
    """An instance of a core module. `imports` answers an item for (module, name); `guest` is told
    of writes and growths (`write`, `grow`).
    """

    def __init__(self, module, imports, guest):
        self.module, self.guest = module, guest
        self.spaces = {sort: [imports(of, name) for of, name, it in module.imports if it == sort]
                       for sort in SORTS}
        self.globals = list(module.globals)
        self.memory = bytearray(module.pages[0] * PAGE) if module.pages else None
        self.spaces["memory"].append(self)
        if module.table is not None:
            self.spaces["table"].append([None] * module.table)
        self.spaces["func"] += [self.function(n) for n in range(len(module.bodies))]
        for first, functions in module.elements:
            made = [self.spaces["func"][it] for it in functions]
            self.spaces["table"][0][first:first + len(made)] = made
        self.exports = {name: self.spaces[sort][n] for name, sort, n in module.exports}

    def function(self, number):
        params, results = self.module.types[self.module.kinds[number]]
        count, body = self.module.bodies[number]
        name = self.module.names.get(number, str(number))
        return Function(params, results, lambda *args: Frame(self, name, args, count).run(body))


class Frame:
    """A call of a function: its locals and its stack of operands, on which numbers are unsigned."""

    def __init__(self, instance, name, args, count):
        self.instance, self.name, self.stack = instance, name, []
        self.locals = list(args) + [0] * count

    def run(self, body):
        """The result, where there is one."""
        self.do_all(body)
        return self.stack[-1] if self.stack else None

    def do_all(self, body):
        for code, immediate in body:
            end = DO[code](self, immediate)
            if end is not None:
                return end
        return None

    def pop(self):
        return self.stack.pop()

    def pop_all(self, count):
        taken = self.stack[len(self.stack) - count:]
        del self.stack[len(self.stack) - count:]
        return taken

    def stop(self, why):
        raise Stopped(f"{self.name}: {why}")

    def block(self, body):
        return outside(self.do_all(body))

    def loop(self, body):
        while (end := self.do_all(body)) == 0:
            pass
        return outside(end)

    def if_true(self, body):
        return self.block(body) if self.pop() else None

    def branch_if(self, level):
        return level if self.pop() else None

    def call(self, number):
        self.call_function(self.instance.spaces["func"][number])

    def call_in_table(self, immediate):
        self.call_function(self.instance.spaces["table"][immediate[1]][self.pop()])

    def call_function(self, function):
        result = function.call(*self.pop_all(len(function.params)))
        if function.results:
            self.stack.append(result)

    def binary(self, operation):
        left, right = self.pop_all(2)
        self.stack.append(operation(left, right))

    def divide(self):
        if self.stack[-1] == 0:
            self.stop("divided by zero")
        self.binary(lambda left, right: left // right)

    def select(self):
        first, second, chosen = self.pop_all(3)
        self.stack.append(first if chosen else second)

    def load(self, offset, width):
        at = self.pop() + offset
        if at + width > len(self.instance.memory):
            self.stop("read behind the end of the memory")
        self.stack.append(int.from_bytes(self.instance.memory[at:at + width], "little"))

    def grow(self):
        self.stack.append(self.instance.guest.grow(self.instance, self.pop()) & BITS_32)

    def initialize(self, immediate):
        to, start, count = self.pop_all(3)
        self.write(to, self.instance.module.data[immediate[0]][start:start + count])

    def copy(self):
        to, start, count = self.pop_all(3)
        if start + count > len(self.instance.memory):
            self.stop("copied from behind the end of the memory")
        self.write(to, bytes(self.instance.memory[start:start + count]))

    def fill(self):
        to, byte, count = self.pop_all(3)
        self.write(to, bytes([byte]) * count)

    def write(self, to, data):
        self.instance.guest.write(self.instance, to, data)

    def set_local(self, number):
        self.locals[number] = self.pop()

    def set_global(self, number):
        self.instance.globals[number] = self.pop()


def outside(end):
    """What a body's end means around its block."""
    return None if end in (None, 0) else end if end == RETURN else end - 1


def pushes(value):
    """An instruction that puts a number on the stack."""
    return lambda frame, immediate: frame.stack.append(value(frame, immediate))


def computes(operation):
    return lambda frame, _: frame.binary(operation)


DO = {
    0x00: lambda frame, _: frame.stop("unreachable"),
    0x02: Frame.block, 0x03: Frame.loop, 0x04: Frame.if_true,
    0x0C: lambda frame, level: level, 0x0D: Frame.branch_if, 0x0F: lambda frame, _: RETURN,
    0x10: Frame.call, 0x11: Frame.call_in_table,
    0x1A: lambda frame, _: frame.stack.pop() and None, 0x1B: lambda frame, _: frame.select(),
    0x20: pushes(lambda frame, n: frame.locals[n]), 0x21: Frame.set_local,
    0x23: pushes(lambda frame, n: frame.instance.globals[n]), 0x24: Frame.set_global,
    0x28: lambda frame, offset: frame.load(offset, 4),
    0x29: lambda frame, offset: frame.load(offset, 8),
    0x2D: lambda frame, offset: frame.load(offset, 1),
    0x2F: lambda frame, offset: frame.load(offset, 2),
    0x31: lambda frame, offset: frame.load(offset, 1),
    0x3F: pushes(lambda frame, _: len(frame.instance.memory) // PAGE),
    0x40: lambda frame, _: frame.grow(),
    0x41: pushes(lambda _, number: number & BITS_32),
    0x42: pushes(lambda _, number: number & BITS_64),
    0x45: pushes(lambda frame, _: int(frame.stack.pop() == 0)),
    0x46: computes(lambda left, right: int(left == right)),
    0x47: computes(lambda left, right: int(left != right)),
    0x49: computes(lambda left, right: int(left < right)),
    0x4F: computes(lambda left, right: int(left >= right)),
    0x52: computes(lambda left, right: int(left != right)),
    0x6A: computes(lambda left, right: left + right & BITS_32),
    0x6B: computes(lambda left, right: left - right & BITS_32),
    0x6D: lambda frame, _: frame.divide(),
    0x71: computes(lambda left, right: left & right),
    0x74: computes(lambda left, right: left << right & BITS_32),
    0x7E: computes(lambda left, right: left * right & BITS_64),
    0x85: computes(lambda left, right: left ^ right),
    0xA7: pushes(lambda frame, _: frame.stack.pop() & BITS_32),
    0xFC08: Frame.initialize,
    0xFC0A: lambda frame, _: frame.copy(),
    0xFC0B: lambda frame, _: frame.fill(),
}

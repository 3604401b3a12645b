"""Functions that the core modules of baked components share: a sum of many bytes, and an allocator
of their own.

The allocator serves any requests. Each answer is a new place, filled with A5, with a guard of eight
bytes behind it; what it takes back is copied and then spoiled with EE. So a runtime is found out
that writes more than it asked for, reads what it was not given, or keeps an old address.
"""

from . import wasm
from .wasm import const, get, get_global, put, put_global

GUARD = 8
FRESH, SPOILED = 0xA5, 0xEE
GUARDED = const("i64", int.from_bytes(bytes([FRESH]) * GUARD, "little"))
SUM_START, SUM_FACTOR = 0xCBF29CE484222325, 0x100000001B3      # FNV-1a of 64 bits
PAGE_BITS = 16


def sum_of(data):
    """The sum that the function of `sum_code` makes."""
    total = SUM_START
    for byte in data:
        total = (total ^ byte) * SUM_FACTOR % (1 << 64)
    return total


def sum_code():
    """A function (address, count) -> i64, with a local of 64 bits for the sum."""
    address, count, total = 0, 1, 2
    stop_at_end = get(count) + wasm.IS_ZERO + wasm.branch_if(1)
    take = get(total) + get(address) + wasm.LOAD_BYTE_TO_64 + wasm.EXCLUSIVE_OR_64
    take += const("i64", SUM_FACTOR) + wasm.MULTIPLY_64 + put(total)
    go_on = get(address) + const("i32", 1) + wasm.ADD + put(address)
    go_on += get(count) + const("i32", 1) + wasm.SUBTRACT + put(count) + wasm.branch(0)
    loop = wasm.BLOCK + wasm.LOOP + stop_at_end + take + go_on + wasm.END + wasm.END
    return const("i64", SUM_START) + put(total) + loop + get(total)


class Allocator:
    """Code of the allocator. `free` and `guard` are globals: where its room begins, and where the
    guard of its last answer stands, or 0. `fail` makes code that stops, of a reason.
    """

    def __init__(self, free, guard, fail):
        self.free, self.guard, self.fail = free, guard, fail

    def check_guard(self):
        """Stops where bytes were written behind the room that was answered last."""
        there = get_global(self.guard) + wasm.IF
        differs = get_global(self.guard) + wasm.LOADS[8] + b"\0\0" + GUARDED + wasm.DIFFERS["i64"]
        stop = self.fail("a room was written past its end")
        return there + differs + stop + wasm.END

    def short_code(self):
        """The same with no guard and no move, where nothing is asked for in the play: a runtime
        may still ask, before it finds a fault in what it was to store.
        """
        answer = 4
        return self.place() + self.grow() + get(answer)

    def code(self):
        """A function (old, old size, alignment, size) -> address, with a local for the answer."""
        size, answer = 3, 4
        return (self.place() + self.grow()
                + get(answer) + const("i32", FRESH) + get(size) + const("i32", GUARD) + wasm.ADD
                + wasm.FILL + self.move() + get(answer))

    def place(self):
        """The answer is the next place of the alignment; the guard and the free room follow."""
        alignment, size, answer = 2, 3, 4
        rounded = get_global(self.free) + get(alignment) + wasm.ADD + const("i32", 1)
        rounded += wasm.SUBTRACT + const("i32", 0) + get(alignment) + wasm.SUBTRACT + wasm.AND
        guarded = get(answer) + get(size) + wasm.ADD + put_global(self.guard)
        # One byte more: the next answer is not aligned to more than was asked for.
        free = get_global(self.guard) + const("i32", GUARD + 1) + wasm.ADD + put_global(self.free)
        return rounded + put(answer) + guarded + free

    def grow(self):
        """Takes pages until the free room begins inside of the memory."""
        memory_end = wasm.PAGES + const("i32", PAGE_BITS) + wasm.SHIFT_LEFT
        full = memory_end + get_global(self.free) + wasm.LESS
        refused = const("i32", 1) + wasm.GROW + const("i32", -1) + wasm.EQUAL
        stop = self.fail("no room is left")
        take = refused + stop + wasm.branch(1)
        return wasm.LOOP + full + wasm.IF + take + wasm.END + wasm.END

    def move(self):
        """Copies what was there to the new place, and spoils the old one."""
        old, old_size, size, answer = 0, 1, 3, 4
        smaller = get(old_size) + get(size) + get(old_size) + get(size) + wasm.LESS + wasm.SELECT
        copied = get(answer) + get(old) + smaller + wasm.COPY
        spoiled = get(old) + const("i32", SPOILED) + get(old_size) + wasm.FILL
        return get(old_size) + wasm.IF + copied + spoiled + wasm.END

"""Writes values as a guest does: core values, and bytes in its memory from a place on.

A record, tuple or list is a tuple or list, flags are their bits, a case is (number, payload) or its
number, a string a text, or (bytes, length) for what is no text; a handle is its index. All else is
a number. What a reader may not look at is not 0: padding, slots that a case leaves unused, and the
upper half of a wider slot.
"""

from baking.expecting import UTF16_TAG
from baking.layouts import (MOST_PARAMS, MOST_RESULTS, SIZES, align, cases, fields, flat, flat_all,
                            has_fields, is_pointed, joined, payload_at, places, size, tag_size, up)

PADDING, UNUSED, UPPER_HALF = b"\xAA", 77, 0xABCD << 32
GAP = 3     # bytes between what is written


def cut(kind, number):
    return number % (1 << (64 if kind == "i64" else 32))


def case_of(it, value):
    """The number, the payload's type or None, and the payload."""
    number, payload = value if isinstance(value, tuple) else (value, None)
    return number, cases(it)[number] if number < len(cases(it)) else None, payload


class Values:
    """A guest that writes values; `moves` has its writes that were not taken yet."""

    def __init__(self, encoding="utf8", at=1024):
        self.encoding, self.at, self.moves = encoding, at, []

    def room(self, count, alignment):
        start = up(self.at, alignment)
        self.at = start + count + GAP
        return start

    def put(self, data, alignment):
        start = self.room(len(data), alignment)
        if data:
            self.moves.append(f"write {start} {data.hex()}")
        return start

    def called(self, core, types, sent, returned=None):
        """The moves of a call. A result that goes through memory gets a place."""
        words = self.words(types, sent, MOST_PARAMS)
        if returned and len(flat(returned)) > MOST_RESULTS:
            words.append(f"i32:{self.room(size(returned), align(returned))}")
        return self.taken(["call", str(core), *words])

    def returns(self, returned=None, value=None):
        """The moves of a return."""
        types, values = ([returned], [value]) if returned else ([], [])
        return self.taken(["return", *self.words(types, values, MOST_RESULTS)])

    def taken(self, words):
        moves, self.moves = self.moves, []
        return moves + [" ".join(words)]

    def words(self, types, values, most):
        if len(flat_all(types)) > most:
            whole = ("tuple", tuple(types))
            return [f"i32:{self.put(self.memory(whole, tuple(values)), align(whole))}"]
        core = [slot for it, value in zip(types, values) for slot in self.flat(it, value)]
        return [f"{kind}:{cut(kind, number)}" for kind, number in core]

    def pointed(self, it, value):
        """The pointer and the length of a string or list."""
        if it[0] == "list":
            data = b"".join(self.memory(it[1], element) for element in value)
            return self.put(data, align(it[1])), len(value)
        alignment = 1 if self.encoding == "utf8" else 2
        data, length = value if isinstance(value, tuple) else self.encoded(value)
        return self.put(data, alignment), length

    def encoded(self, value):
        if self.encoding == "utf8":
            return value.encode(), len(value.encode())
        if self.encoding == "latin1+utf16" and all(ord(it) < 256 for it in value):
            return value.encode("latin-1"), len(value)
        data = value.encode("utf-16-le")
        return data, len(data) // 2 | (UTF16_TAG if self.encoding == "latin1+utf16" else 0)

    def flat(self, it, value):
        """The core values: (kind, number)."""
        if is_pointed(it):
            return [("i32", number) for number in self.pointed(it, value)]
        if has_fields(it):
            return [slot for f, v in zip(fields(it), value) for slot in self.flat(f, v)]
        if it[0] == "list":
            return [slot for v in value for slot in self.flat(it[1], v)]
        if cases(it):
            return self.flat_case(it, value)
        return [("i64" if SIZES.get(it[0]) == 8 else "i32", value)]

    def flat_case(self, it, value):
        number, inner, payload = case_of(it, value)
        core = self.flat(inner, payload) if inner else []
        slots = joined(it)
        used = [(slot, cut(kind, n) | (UPPER_HALF if slot != kind else 0))
                for slot, (kind, n) in zip(slots, core)]
        return [("i32", number), *used, *((kind, UNUSED) for kind in slots[len(core):])]

    def memory(self, it, value):
        """The bytes of a value in memory."""
        if is_pointed(it):
            return b"".join(number.to_bytes(4, "little") for number in self.pointed(it, value))
        if it[0] == "list":
            return b"".join(self.memory(it[1], element) for element in value)
        if has_fields(it):
            parts = [self.memory(f, v) for f, v in zip(fields(it), value)]
            return self.laid(size(it), zip(places(fields(it))[0], parts))
        if not cases(it):
            return (value % (1 << 8 * size(it))).to_bytes(size(it), "little")
        number, inner, payload = case_of(it, value)
        parts = [(0, number.to_bytes(tag_size(it), "little"))]
        if inner:
            parts.append((payload_at(it), self.memory(inner, payload)))
        return self.laid(size(it), parts)

    def laid(self, count, parts):
        out = bytearray(PADDING * count)
        for at, data in parts:
            out[at:at + len(data)] = data
        return bytes(out)

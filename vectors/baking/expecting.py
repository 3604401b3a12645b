"""What a guest is to find when it receives a value."""

from .layouts import (align, cases, fields, flat_all, has_fields, is_pointed, joined, payload_at,
                      places, size, tag_size)

UTF16_TAG = 1 << 31     # of a length of latin1+utf16


def number(data):
    return int.from_bytes(data, "little")


def narrow(slot):
    """The number in a slot (index, (kind, value)) that stands for 32 bits. Where a case shares it
    with a wider one, the upper half does not count.
    """
    return slot[1][1] % (1 << 32)


class Core:
    """A core value that is expected, by its place among the values."""

    def __init__(self, index, kind, value):
        self.index, self.kind, self.value = index, kind, value


class Region:
    """What is behind a pointer, which is a core value (`index`) or stands at a place of the region
    around. Its parts are (place, bytes), next to one another or not, and regions; padding is in
    none.
    """

    def __init__(self, index, kind, place, alignment, count):
        self.index, self.kind, self.place = index, kind, place
        self.alignment, self.size, self.parts = alignment, count, []

    def add(self, place, data):
        last = self.parts[-1] if self.parts else None
        if isinstance(last, tuple) and last[0] + len(last[1]) == place:
            self.parts[-1] = (last[0], last[1] + data)
        elif data:
            self.parts.append((place, bytes(data)))


class Expecting:
    """Reads values in a mirror of the receiver's memory, which the machine wrote."""

    def __init__(self, memory, encoding):
        self.memory, self.encoding = memory, encoding
        self.expected, self.rooms = [], []

    def values(self, types, args, most):
        """What is expected of core values, and behind them, for values of these types."""
        if len(flat_all(types)) > most:
            whole = ("tuple", tuple(types))
            region = self.room(align(whole), size(whole), 0, "i32", None, args[0][1])
            self.at_place(whole, args[0][1], 0, region)
            return [region]
        slots = list(enumerate(args))
        for it in types:
            self.flat(it, slots)
        return self.expected

    def room(self, alignment, count, index, kind, place, start):
        self.rooms.append((start, start + count))
        return Region(index, kind, place, alignment, count)

    def core(self, slot):
        self.expected.append(Core(slot[0], *slot[1]))

    def flat(self, it, slots):
        if has_fields(it):
            self.flat_each(fields(it), slots)
        elif is_pointed(it):
            pointer, length = slots.pop(0), slots.pop(0)
            self.core(length)
            where = (pointer[0], pointer[1][0], None)
            self.expected.append(self.pointed(it, where, narrow(pointer), narrow(length)))
        elif it[0] == "list":
            self.flat_each([it[1]] * it[2], slots)
        else:
            slot = slots.pop(0)
            self.core(slot)
            if cases(it):
                self.flat_case(it, cases(it)[narrow(slot)], slots)

    def flat_each(self, types, slots):
        for it in types:
            self.flat(it, slots)

    def flat_case(self, it, payload, slots):
        """The slots of a case; those behind its payload are expected as they came, which is 0."""
        mine = [slots.pop(0) for _ in joined(it)]
        if payload:
            self.flat(payload, mine)
        for slot in mine:
            self.core(slot)

    def pointed(self, it, where, start, length):
        """The region of a string or list; `where` its pointer is: (index, kind, place)."""
        if it[0] == "list":
            element, count = it[1], length
            region = self.room(align(element), count * size(element), *where, start)
        else:
            element, wide = ("u8",), self.encoding == "utf16" or length & UTF16_TAG
            count = length % UTF16_TAG * (2 if wide else 1)
            region = self.room(1 if self.encoding == "utf8" else 2, count, *where, start)
        self.elements(element, count, start, 0, region)
        return region

    def elements(self, element, count, start, place, region):
        for n in range(count):
            self.at_place(element, start, place + n * size(element), region)

    def at_place(self, it, start, place, region):
        """Adds to a region, which begins at `start`, the parts of a value at a place of it."""
        data = self.memory[start + place:start + place + size(it)]
        if has_fields(it):
            self.fields_at(fields(it), start, place, region)
        elif is_pointed(it):
            region.add(place + 4, data[4:])
            where = (None, "i32", place)
            region.parts.append(self.pointed(it, where, number(data[:4]), number(data[4:])))
        elif it[0] == "list":
            self.elements(it[1], it[2], start, place, region)
        elif cases(it):
            region.add(place, data[:tag_size(it)])
            payload = cases(it)[number(data[:tag_size(it)])]
            if payload:
                self.at_place(payload, start, place + payload_at(it), region)
        else:
            region.add(place, data)

    def fields_at(self, types, start, place, region):
        for it, offset in zip(types, places(types)[0]):
            self.at_place(it, start, place + offset, region)

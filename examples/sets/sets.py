"""Sets by handle, by ctypes: python3 sets.py LIBRARY PAIR STRINGS plays the first pair and a call
with strings. LIBRARY is a shared object of the library, which run makes."""

import ctypes
import sys
from ctypes import POINTER, byref, c_size_t, c_uint8, c_uint32, c_uint64

EMPTY = 27


class Core(ctypes.Structure):
    _fields_ = [("bits", c_uint64), ("kind", c_uint32)]


class Event(ctypes.Structure):
    _fields_ = [(name, c_uint32) for name in ("kind", "instance", "func", "number", "count")]
    _fields_ += [("values", Core * 16)]

    def numbers(self):
        return [value.bits for value in self.values[:self.count]]


class Span(ctypes.Structure):
    _fields_ = [("at", c_size_t), ("length", c_size_t)]


class Region(ctypes.Structure):
    _fields_ = [("at", c_uint32), ("size", c_uint32)]


class Written(ctypes.Structure):
    _fields_ = [("count", c_size_t), ("instance", c_uint32)]


class Verdict(ctypes.Structure):
    _fields_ = [("kind", c_uint32), ("reason", c_uint32), ("file", c_size_t),
                ("place", c_size_t), ("item", c_size_t)]


class Handle(ctypes.Structure):
    _fields_ = [("at", ctypes.c_void_p)]


class Refused(Exception):
    """Why a call did nothing."""

    def __init__(self, verdict):
        super().__init__(f"kind {verdict.kind}, reason {verdict.reason}")
        self.kind, self.reason = verdict.kind, verdict.reason


def load(path):
    """The library, with the types of its calls."""
    library = ctypes.CDLL(path)
    handle, event, data = POINTER(Handle), POINTER(Event), ctypes.c_char_p
    calls = {
        "new": [data, c_size_t, POINTER(Span), c_size_t, POINTER(c_uint32), c_size_t, handle],
        "begin": [handle, c_uint32, event],
        "write": [handle, c_uint32, data, c_size_t, event],
        "grow": [handle, c_uint32, event],
        "call": [handle, c_uint32, POINTER(Core), c_size_t, event],
        "return": [handle, POINTER(Core), c_size_t, event],
        "unreachable": [handle, event],
        "read": [handle, c_uint32, c_size_t, POINTER(c_uint8), c_size_t],
        "written": [handle, POINTER(Written), POINTER(Region), c_size_t],
    }
    for name, types in calls.items():
        function = getattr(library, f"hux_set_{name}")
        function.argtypes, function.restype = types, Verdict
    library.hux_set_free.argtypes, library.hux_set_free.restype = [handle], None
    return library


class Set:
    """A set of the components of files, which is freed behind its `with`. It is the only one that
    has its handle, and is for the thread that made it."""

    def __init__(self, library, files, pages):
        self.library, self.handle = library, Handle()
        parts, at = [], 0
        for file in files:
            parts.append(Span(at, len(file)))
            at += len(file)
        self.ask("new", b"".join(files), at, (Span * len(parts))(*parts), len(parts),
                 (c_uint32 * len(pages))(*pages), len(pages), byref(self.handle))

    def __enter__(self):
        return self

    def __exit__(self, *_):
        self.library.hux_set_free(byref(self.handle))

    def ask(self, name, *words):
        verdict = getattr(self.library, f"hux_set_{name}")(*words)
        if verdict.kind != 0:
            raise Refused(verdict)

    def play(self, name, *words):
        event = Event()
        self.ask(name, byref(self.handle), *words, byref(event))
        return event

    def begin(self, instance):
        return self.play("begin", instance)

    def write(self, at, data):
        return self.play("write", at, data, len(data))

    def call(self, func, *numbers):
        return self.play("call", func, *cores(numbers))

    def give(self, *numbers):
        return self.play("return", *cores(numbers))

    def read(self, instance, at, count):
        into = (c_uint8 * max(count, 1))()
        self.ask("read", byref(self.handle), instance, at, into, count)
        return bytes(into[:count])

    def written(self):
        """What adapters wrote before the latest event: in whose memory, and where."""
        seen = Written()
        self.ask("written", byref(self.handle), byref(seen), (Region * 1)(), 0)
        regions = (Region * max(seen.count, 1))()
        self.ask("written", byref(self.handle), byref(seen), regions, seen.count)
        return seen.instance, [(it.at, it.size) for it in regions[:seen.count]]


def cores(numbers):
    """Core values of 32 bits, and how many there are."""
    return (Core * max(len(numbers), 1))(*(Core(it, 0) for it in numbers)), len(numbers)


def files_of(folder):
    return [open(f"{folder}/{name}.wasm", "rb").read() for name in ("provider", "user")]


def first_pair(library, folder):
    with Set(library, files_of(folder), [0, 0]) as pair:
        pair.begin(1)
        value = pair.call(0, 41).numbers()[0]
        print(f"inc({value}) = {pair.give(value + 1).numbers()[0]}")
        pair.give()


class Guests:
    """What both components do: they allocate behind all that they have, and greet."""

    def __init__(self, played):
        self.played, self.tops = played, [1024, 1024]

    def allocate(self, instance, old, old_size, align, size):
        at = -(-self.tops[instance] // align) * align
        self.tops[instance] = at + size
        if old_size:
            self.played.write(at, self.played.read(instance, old, min(old_size, size)))
        return self.played.give(at)

    def greet(self, instance, at, units):
        name = self.played.read(instance, at, 2 * units).decode("utf-16-le")
        answer = f"Hello, {name}!".encode("utf-16-le")
        self.played.write(64, answer)
        self.played.write(0, b"".join(it.to_bytes(4, "little") for it in (64, len(answer) // 2)))
        return self.played.give(0)

    def go_on(self, event):
        """Plays until the user goes on, and answers what adapters wrote last: in whose memory, and
        where. It is told with the event that is next once a value was handed over."""
        last = None
        while event.kind != 4:
            if event.kind == 3:
                event = self.allocate(event.instance, *event.numbers())
            elif event.kind == 2:
                event = self.greet(event.instance, *event.numbers())
            else:
                event = self.played.give()
            told, regions = self.played.written()
            last = (told, regions[-1]) if regions else last
        return last


def strings(library, folder):
    with Set(library, files_of(folder), [1, 1]) as pair:
        name = "Zoë 🦀".encode()
        pair.begin(1)
        pair.write(0, name)
        last = Guests(pair).go_on(pair.call(1, 0, len(name), 256))
        assert last == (1, (256, 8)), "the place of the result is written last"
        at, size = (int.from_bytes(pair.read(1, it, 4), "little") for it in (256, 260))
        print(pair.read(1, at, size).decode())
        pair.give()
    try:
        pair.begin(1)
    except Refused as refused:
        print("behind its `with`:", "empty" if refused.kind == EMPTY else refused)


if __name__ == "__main__":
    first_pair(load(sys.argv[1]), sys.argv[2])
    strings(load(sys.argv[1]), sys.argv[3])

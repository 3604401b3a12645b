"""Makes the core module of a component: it makes the moves of the script, in their order, and stops
by `unreachable` where what it gets is not what the proved machine says.

What a guest does from an entry to its return, a segment, is a function. A counter picks the next
one, whichever core function is entered, and each holds that it is the right one. What is lowered is
called through a table, whose first entries another module fills in later (`bundling`). Each check
that fails calls a function of its own, whose name says what differs, so that a backtrace shows it.
"""

from . import wasm
from .expecting import Core
from .helpers import Allocator, sum_code, sum_of
from .machine import PAGE, bytes_of, values_of
from .refusals import NotBaked
from .wasm import const, get, get_global, put, put_global, unsigned, vector

MOST_PAGES = 1024
LONG = 64               # so many bytes and fewer are compared one by one
ENTERED = {"enter": "function", "dtor": "destructor", "postreturn": "post-return",
           "realloc": "allocator"}
RECEIVED = {"enter": "argument", "dtor": "representation", "postreturn": "value",
            "realloc": "request"}


class Guest:
    """The core module of one component, of its segments in the order of entries."""

    def __init__(self, component, segments, pages, most_pages, recorded):
        self.core, self.recorded = component.core, recorded
        self.module, self.fails, self.sum = wasm.Module(), {}, None
        self.made = [n for n, it in enumerate(self.core) if it.kind != "guest"]
        self.serves = not recorded and any(it.role == "allocator" for it in self.core)
        self.asked = self.serves and any(it.kind == "realloc" for it in segments)
        if not recorded:
            segments = [it for it in segments if it.kind != "realloc"]
        first = most_pages if self.serves else pages
        self.module.memory = vector([b"\x01" + unsigned(first) + unsigned(MOST_PAGES)])
        self.next, self.entered = self.module.global_number(0), self.module.global_number(0)
        if self.serves:
            free = self.module.global_number(most_pages * PAGE + 1)
            self.allocator = Allocator(free, self.module.global_number(0), self.fail)
        if self.asked:
            self.guard = self.module.function([], [], self.allocator.check_guard())
        self.count = len(segments)
        self.add_segments(segments)
        self.add_entries()
        self.module.export("m", 2, 0)
        self.module.export("t", 1, 0)

    def add_segments(self, segments):
        entries = [self.segment(it, f"entry {n}") for n, it in enumerate(segments)]
        self.module.table = vector([b"\x70\x00" + unsigned(len(self.made) + len(entries))])
        self.module.fill_table(len(self.made), entries)

    def add_entries(self):
        """The core functions that others call, each under its number."""
        for n, it in enumerate(self.core):
            if it.kind == "guest":
                code = self.own_allocator if self.is_replaced(it) else self.entry
                self.module.export(f"f{n}", 0, code(n, it.params or [], it.results or []))

    def is_replaced(self, core):
        return core.role == "allocator" and not self.recorded

    def add_root(self, name, segment):
        self.module.export(name, 0, self.segment(segment, name))

    def add_end(self, name):
        """A function that holds that all segments were entered."""
        code = get_global(self.next) + const("i32", self.count) + wasm.DIFFERS["i32"]
        code += self.fail("entered too seldom")
        self.module.export(name, 0, self.module.function([], [], code))

    def fail(self, why):
        """Behind a condition: a call of a function that stops, and whose name is the reason."""
        if why not in self.fails:
            self.fails[why] = self.module.function([], [], wasm.UNREACHABLE, name=why)
        return wasm.IF + wasm.call(self.fails[why]) + wasm.END

    def entry(self, number, params, results):
        """Goes to the next segment, and notes which core function was entered."""
        code = const("i32", number) + put_global(self.entered)
        code += get_global(self.next) + const("i32", self.count) + wasm.NOT_LESS
        code += self.fail("entered too often")
        code += b"".join(map(get, range(len(params))))
        code += get_global(self.next) + const("i32", len(self.made)) + wasm.ADD
        code += get_global(self.next) + const("i32", 1) + wasm.ADD + put_global(self.next)
        code += self.module.call_in_table(params, results)
        return self.module.function(params, results, code)

    def own_allocator(self, number, params, results):
        if self.asked:
            code = wasm.call(self.guard) + self.allocator.code()
        else:
            code = self.allocator.short_code()
        return self.module.function(params, results, code, locals_of=["i32"])

    # Segments

    def segment(self, segment, name):
        """The function of a segment. What it enters with is held first, then its moves are made."""
        core = self.core[segment.core] if segment.core is not None else None
        params, results = (core.params, core.results) if core else ([], [])
        self.locals, self.params = [], len(params)
        code = self.entered_with(segment, name) if core else b""
        for n, step in enumerate(segment.steps):
            move = getattr(self, "do_" + step.move.words[0])
            code += move(segment, step, f"{name}, move {n}")
        if not segment.steps or segment.steps[-1].move.words[0] != "return":
            code += b"".join(const(kind, 0) for kind in results)     # a trap that did not come
        return self.module.function(params, results, code, locals_of=self.locals)

    def entered_with(self, segment, name):
        code = get_global(self.entered) + const("i32", segment.core) + wasm.DIFFERS["i32"]
        code += self.fail(f"{name} enters {ENTERED[segment.kind]} {segment.core}")
        expected = segment.expected
        if expected is None:
            expected = [Core(n, *arg) for n, arg in enumerate(segment.args)]
        found = range(self.params)
        return code + self.received(expected, found, f"{name}, {RECEIVED[segment.kind]}")

    def local(self, kind):
        self.locals.append(kind)
        return self.params + len(self.locals) - 1

    # Moves

    def do_write(self, segment, step, name):
        data = bytes_of(step.move.words[2])
        place, count = const("i32", int(step.move.words[1])), const("i32", len(data))
        if len(set(data)) == 1:
            return place + const("i32", data[0]) + count + wasm.FILL
        return place + const("i32", 0) + count + wasm.written_from(self.module.datum(data))

    def do_grow(self, segment, step, name):
        if self.serves:
            return b""          # all pages are there from the beginning
        came = step.event[1]
        code = const("i32", int(step.move.words[1])) + wasm.GROW
        code += const("i32", -1 if came == "none" else int(came)) + wasm.DIFFERS["i32"]
        return code + self.fail(f"{name}: a growth is to answer {came}")

    def do_unreachable(self, segment, step, name):
        """Divides by zero: `unreachable` means that something differs."""
        return const("i32", 1) + const("i32", 0) + wasm.DIVIDE + wasm.DROP

    def do_call(self, segment, step, name):
        index, sent = int(step.move.words[1]), values_of(step.move.words[2:])
        core = self.core[index] if index in self.made else None
        if core is None or [kind for kind, _ in sent] != core.params:
            raise NotBaked("no core module can make this call", step.move.line)
        code = b"".join(const(*value) for value in sent) + const("i32", self.made.index(index))
        code += self.module.call_in_table(core.params, core.results)
        into = [self.local(kind) for kind in core.results]
        code += b"".join(map(put, reversed(into)))
        if step.event[0] == "trapped":
            return code
        return code + self.answered(step, sent, into, f"{name}, result")

    def answered(self, step, sent, into, name):
        """Holds what a call answers: core values, or a value at the place given last."""
        if into or not step.expected:
            return self.received(step.expected or [], into, name)
        place = self.local("i32")
        return const(*sent[-1]) + put(place) + self.received(step.expected, [place], name)

    def do_return(self, segment, step, name):
        results = self.core[segment.core].results if segment.core is not None else []
        sent = values_of(step.move.words[1:])
        if [kind for kind, _ in sent] != results:
            raise NotBaked("no core module can return this", step.move.line)
        code = self.moved(segment, sent) if segment.kind == "realloc" else b""
        return code + b"".join(const(*value) for value in sent) + wasm.RETURN

    def moved(self, segment, sent):
        """What an allocator moves, it copies."""
        old, old_size, _, size = (number for _, number in segment.args)
        if not old_size:
            return b""
        places = const(*sent[0]) + const("i32", old)
        return places + const("i32", min(old_size, size)) + wasm.COPY

    # What is received

    def received(self, expected, found, name):
        """Holds core values, which are in the locals `found`, and what is behind them."""
        code = wasm.call(self.guard) if self.asked else b""
        for it in expected:
            if isinstance(it, Core):
                code += get(found[it.index]) + const(it.kind, it.value) + wasm.DIFFERS[it.kind]
                code += self.fail(f"{name} {it.index} is {it.kind}:{it.value}")
            elif it.kind == "i64":
                pointer = get(found[it.index]) + wasm.NARROW
                code += self.behind(pointer, it, f"{name} {it.index}")
            elif it.size:
                code += self.region(it, found[it.index], f"{name} {it.index}")
        return code

    def behind(self, pointer, region, name):
        """Holds a region to which code loads a pointer."""
        if region.size == 0:
            return b""
        base = self.local("i32")
        return pointer + put(base) + self.region(region, base, name)

    def region(self, region, base, name):
        """Holds a region to which a local points: its alignment, its bytes, and the regions behind
        its pointers.
        """
        code = b""
        if region.alignment > 1:
            code += get(base) + const("i32", region.alignment - 1) + wasm.AND
            code += self.fail(f"{name}: aligned to {region.alignment}")
        for part in region.parts:
            if isinstance(part, tuple):
                code += self.bytes(base, *part, name)
            else:
                inner = wasm.load(4, base, part.place)
                code += self.behind(inner, part, f"{name}, at {part.place}")
        return code

    def bytes(self, base, place, data, name):
        if len(data) > LONG:
            return self.many_bytes(base, place, data, name)
        code, at = b"", 0
        while at < len(data):
            width = max(it for it in wasm.LOADS if it <= len(data) - at)
            part = data[at:at + width]
            kind = "i64" if width == 8 else "i32"
            code += wasm.load(width, base, place + at)
            code += const(kind, int.from_bytes(part, "little")) + wasm.DIFFERS[kind]
            code += self.fail(f"{name}: {part.hex()} at {place + at}")
            at += width
        return code

    def many_bytes(self, base, place, data, name):
        if self.sum is None:
            kinds = (["i32", "i32"], ["i64"])
            self.sum = self.module.function(*kinds, sum_code(), locals_of=["i64"])
        code = get(base) + const("i32", place) + wasm.ADD + const("i32", len(data))
        code += wasm.call(self.sum) + const("i64", sum_of(data)) + wasm.DIFFERS["i64"]
        return code + self.fail(f"{name}: {len(data)} bytes at {place}")

"""Makes component files (Binary.md) of functions and resources, with no core code."""

from itertools import groupby
from operator import itemgetter

from baking.components import ENCODINGS, PRIMITIVES
from baking.wasm import section, signed, text, unsigned, vector

CODES = {name: code for code, name in PRIMITIVES.items()}
NAMED = ("record", "variant", "enum", "flags")
FORMS = {"list": b"\x70", "flags": b"\x6e", "enum": b"\x6d", "tuple": b"\x6f", "option": b"\x6b",
         "result": b"\x6a", "record": b"\x72", "variant": b"\x71", "own": b"\x69",
         "borrow": b"\x68", "func": b"\x40"}
SORTS = {"func": b"\1", "type": b"\3"}
NO_RESULT = b"\1\0"
PREAMBLE = b"\0asm\x0d\0\1\0"


class Types:
    """An index space of types. `define` takes a form and answers its index. Records, variants,
    enums and flags get names, as other readers want it; `export`, where it is there, takes a name
    and an index and answers the index that stands for the name.
    """

    def __init__(self, define, export=None):
        self.define, self.export = define, export
        self.known, self.named, self.resources = {}, [], {}

    def value(self, it):
        """A `valtype`: a primitive's code, which is a negative number, or else an index."""
        return bytes([CODES[it[0]]]) if it[0] in CODES else signed(self.index(it))

    def optional(self, it):
        return b"\1" + self.value(it) if it else b"\0"

    def index(self, it):
        if it not in self.known:
            self.known[it] = self.define(self.form(it))
            if it[0] in NAMED:
                self.name(it)
        return self.known[it]

    def name(self, it):
        name = f"t{len(self.named)}"
        if self.export:
            self.known[it] = self.export(name, self.known[it])
        self.named.append((name, self.known[it]))

    def form(self, it):
        kind = it[0]
        if kind == "list" and len(it) == 3:
            return b"\x67" + self.value(it[1]) + unsigned(it[2])
        return FORMS[kind] + getattr(self, kind)(*it[1:])

    def func(self, params, returned):
        return self.record(params) + (b"\0" + self.value(returned) if returned else NO_RESULT)

    def record(self, fields):
        return vector([text(label) + self.value(it) for label, it in fields])

    def variant(self, cases):
        return vector([text(label) + self.optional(it) + b"\0" for label, it in cases])

    def tuple(self, types):
        return vector(list(map(self.value, types)))

    def flags(self, names):
        return vector(list(map(text, names)))

    enum = flags

    def list(self, element):
        return self.value(element)

    option = list

    def result(self, ok, error):
        return self.optional(ok) + self.optional(error)

    def own(self, resource):
        return unsigned(self.resources[resource])

    borrow = own


class Interface:
    """The instance type of an import: its declarations, and the types that it defines."""

    def __init__(self, outer, resources, funcs):
        self.declarations, self.count = [], 0
        self.types = Types(lambda form: self.declare(b"\1" + form), self.export_type)
        self.types.resources = {it: self.resource(it, outer) for it in resources}
        for label, it in funcs.items():
            self.func(label, it)

    def declare(self, declaration):
        self.declarations.append(declaration)
        self.count += 1
        return self.count - 1

    def export_type(self, name, index):
        return self.declare(b"\4\0" + text(name) + b"\3\0" + unsigned(index))

    def resource(self, name, outer):
        """One of its own, or the one that an earlier import of this name brought."""
        known = outer.resources.get(name)
        if known is None:
            return self.declare(b"\4\0" + text(name) + b"\3\1")
        return self.export_type(name, self.declare(b"\2\3\2\1" + unsigned(known)))

    def func(self, label, it):
        index = self.types.index(it)
        self.declarations.append(b"\4\0" + text(label) + b"\1" + unsigned(index))

    def form(self):
        return b"\x42" + vector(self.declarations)


class Build:
    """A component: an allocator (core function 0) and a memory, then what is added."""

    def __init__(self, encoding="utf8"):
        self.encoding, self.items = encoding, []
        self.counts = dict.fromkeys(("type", "func", "instance", "core"), 0)
        self.types = Types(lambda form: self.add(7, form, "type"))
        self.add(2, b"\0\0\0")
        self.guest("realloc")
        self.add(6, b"\0\2\1\0" + text("m"))

    def bytes(self):
        """The file: an empty core module, and the items, a section for each run of one kind."""
        runs = groupby(self.items, itemgetter(0))
        sections = [section(kind, vector([item for _, item in them])) for kind, them in runs]
        return PREAMBLE + section(1, b"\0asm\1\0\0\0") + b"".join(sections)

    def add(self, kind, item, sort=None):
        """Adds an item to the sections of a kind. Its index is answered where it has one."""
        self.items.append((kind, item))
        if sort is None:
            return None
        self.counts[sort] += 1
        return self.counts[sort] - 1

    def guest(self, name):
        """A core function of the core module."""
        return self.add(6, b"\0\0\1\0" + text(name), "core")

    def options(self, post=None):
        found = [bytes([ENCODINGS.index(self.encoding)]), b"\3\0", b"\4\0"]
        return vector(found + ([b"\5" + unsigned(post)] if post is not None else []))

    def resource(self, name, destructor=True):
        """Defines a resource: the core functions new, drop and rep."""
        made = self.guest(f"{name}-dtor") if destructor else None
        called = b"\1" + unsigned(made) if destructor else b"\0"
        index = self.add(7, b"\x3f\x7f" + called, "type")
        self.types.resources[name] = index
        return [self.add(8, bytes([code]) + unsigned(index), "core") for code in (2, 4, 3)]

    def lift(self, it, core, tidy):
        code = b"\0\0" + unsigned(core) + self.options(tidy) + unsigned(self.types.index(it))
        return self.add(8, code, "func")

    def exported(self, name, resources, funcs, post=()):
        """Exports an instance of resources and functions {label: type}; `post` has the labels of
        those with a post-return function.
        """
        cores = [(self.guest(label), self.guest(label + "-post") if label in post else None)
                 for label in funcs]
        for it in funcs.values():
            self.types.index(it)
        lifted = [(label, self.lift(it, *core)) for (label, it), core in zip(funcs.items(), cores)]
        types = [(it, self.types.resources[it]) for it in resources] + self.types.named
        items = [b"\0" + text(it) + b"\3" + unsigned(index) for it, index in types]
        items += [b"\0" + text(label) + b"\1" + unsigned(index) for label, index in lifted]
        instance = self.add(5, b"\1" + vector(items), "instance")
        self.add(11, b"\0" + text(name) + b"\5" + unsigned(instance) + b"\0", "instance")

    def imported(self, name, resources, funcs):
        """Imports such an instance: {label: core function}, also to drop each resource."""
        ty = self.add(7, Interface(self.types, resources, funcs).form(), "type")
        instance = self.add(10, b"\0" + text(name) + b"\5" + unsigned(ty), "instance")
        dropped = {it: self.alias("type", instance, it) for it in resources}
        called = {it: self.alias("func", instance, it) for it in funcs}
        self.types.resources.update(dropped)
        return {**{f"drop-{it}": self.add(8, b"\3" + unsigned(index), "core")
                   for it, index in dropped.items()},
                **{it: self.add(8, b"\1\0" + unsigned(index) + self.options(), "core")
                   for it, index in called.items()}}

    def alias(self, sort, instance, name):
        """What an instance exports."""
        return self.add(6, SORTS[sort] + b"\0" + unsigned(instance) + text(name), sort)

"""Reads a component file (Binary.md, the forms that `hux` reads): its sections, what its core
functions are, and how long its index spaces are. A file comes here that `hux` has accepted.
"""

from .layouts import flat_function
from .refusals import NotBaked

PRIMITIVES = {0x7F: "bool", 0x7E: "s8", 0x7D: "u8", 0x7C: "s16", 0x7B: "u16", 0x7A: "s32",
              0x79: "u32", 0x78: "s64", 0x77: "u64", 0x74: "char", 0x73: "string"}
SORTS = {1: "func", 3: "type", 4: "component", 5: "instance"}
ENCODINGS = ("utf8", "utf16", "latin1+utf16")
HANDLE_CALLS = {2: ("new", ["i32"]), 3: ("drop", []), 4: ("rep", ["i32"])}


class Reader:
    """A place in bytes."""

    def __init__(self, data, at=0):
        self.data, self.at = data, at

    def byte(self):
        self.at += 1
        return self.data[self.at - 1]

    def number(self):
        value, shift, byte = 0, 0, 128
        while byte >= 128:
            byte = self.byte()
            value, shift = value | (byte & 127) << shift, shift + 7
        return value

    def take(self, count):
        self.at += count
        return self.data[self.at - count:self.at]

    def text(self):
        return self.take(self.number()).decode()

    def name(self):
        self.byte()
        return self.text()

    def vector(self, item):
        return [item() for _ in range(self.number())]


class CoreFunction:
    """A core function: `guest`, of a core module, or one that a canonical definition made."""

    def __init__(self, kind, params=None, results=None):
        self.kind, self.params, self.results = kind, params, results
        self.role = self.func = self.options = None


class Scope:
    """Index spaces of a component, or of an instance type in it."""

    def __init__(self, outer=None):
        self.outer = outer
        self.spaces = {"func": [], "type": [], "component": [], "instance": []}

    def type_at(self, index):
        return self.spaces["type"][index]

    def value(self, reader):
        if reader.data[reader.at] in PRIMITIVES:
            return (PRIMITIVES[reader.byte()],)
        return self.type_at(reader.number())

    def optional(self, reader):
        return self.value(reader) if reader.byte() else None

    def labelled(self, reader):
        return reader.text(), self.value(reader)

    def case(self, reader):
        case = reader.text(), self.optional(reader)
        reader.byte()
        return case

    def define_type(self, reader):
        self.spaces["type"].append(self.type_of(reader.byte(), reader))

    def type_of(self, code, reader):
        if code in PRIMITIVES:
            return (PRIMITIVES[code],)
        return {0x3F: self.resource_type, 0x40: self.function_type,
                0x42: self.instance_type}.get(code, lambda it: self.value_type(code, it))(reader)

    def value_type(self, code, reader):
        if code in (0x68, 0x69):
            reader.number()
            return ("borrow",) if code == 0x68 else ("own",)
        if code in (0x6D, 0x6E):
            return "enum" if code == 0x6D else "flags", tuple(reader.vector(reader.text))
        if code == 0x67:
            return "list", self.value(reader), reader.number()
        read = {0x72: ("record", lambda: (tuple(reader.vector(lambda: self.labelled(reader))),)),
                0x71: ("variant", lambda: (tuple(reader.vector(lambda: self.case(reader))),)),
                0x6F: ("tuple", lambda: (tuple(reader.vector(lambda: self.value(reader))),)),
                0x70: ("list", lambda: (self.value(reader),)),
                0x6B: ("option", lambda: (self.value(reader),)),
                0x6A: ("result", lambda: (self.optional(reader), self.optional(reader)))}
        kind, parts = read[code]
        return kind, *parts()

    def function_type(self, reader):
        params = tuple(reader.vector(lambda: self.labelled(reader)))
        if reader.byte() == 0:
            return "func", params, self.value(reader)
        reader.byte()
        return "func", params, None

    def instance_type(self, reader):
        return "instance", InstanceType(self, reader).exports

    def resource_type(self, reader):
        raise NotBaked("a resource is defined in a type")

    def alias_item(self, reader, sort):
        """An alias of a type around this one, or of what an instance exports."""
        if reader.byte() == 2:
            level, index = reader.number(), reader.number()
            self.spaces["type"].append((self.outer if level else self).type_at(index))
        else:
            exports, name = self.spaces["instance"][reader.number()], reader.text()
            self.spaces[SORTS[sort]].append(exports.get(name))

    def describe(self, reader):
        """Adds what an `externdesc` describes to its space."""
        sort = reader.byte()
        if sort == 3:
            item = self.type_at(reader.number()) if reader.byte() == 0 else ("resource",)
        else:
            item = self.type_at(reader.number())
            item = item[1] if sort == 5 else item
        self.spaces[SORTS[sort]].append(item)
        return item


class InstanceType(Scope):
    """What an instance type exports, by name."""

    def __init__(self, outer, reader):
        super().__init__(outer)
        self.exports = {}
        reader.vector(lambda: self.declare(reader))

    def declare(self, reader):
        kind = reader.byte()
        if kind == 1:
            self.define_type(reader)
        elif kind == 2:
            self.alias_item(reader, reader.byte())
        else:
            name = reader.name()
            self.exports[name] = self.describe(reader)


class Component(Scope):
    """A component's sections, as (id, contents); of aliases what was read: bytes, or for one of a
    core module ("func", its number) or ("memory", None). And its core functions.
    """

    def __init__(self, data):
        super().__init__()
        self.sections, self.imports, self.core = [], {}, []
        reader = Reader(data, 8)
        while reader.at < len(data):
            kind, inside = reader.byte(), reader.take(reader.number())
            self.sections.append((kind, self.section(kind, inside)))

    def section(self, kind, inside):
        items = {5: self.instance, 6: self.alias, 7: self.define_type, 8: self.canonical,
                 10: self.import_item, 11: self.export_item}
        if kind == 4:
            self.spaces["component"].append(None)
        if kind not in items:
            return inside
        reader = Reader(inside)
        read = reader.vector(lambda: items[kind](reader))
        return [it for it in read if it is not None] if kind == 6 else inside

    def instance(self, reader):
        if reader.byte() == 0:      # of a component that only renames, as tools write them
            reader.number()
            reader.vector(lambda: (reader.text(), reader.byte(), reader.number()))
            self.spaces["instance"].append({})
        else:
            items = reader.vector(lambda: (reader.name(), reader.byte(), reader.number()))
            exports = {name: self.spaces[SORTS[sort]][index] for name, sort, index in items}
            self.spaces["instance"].append(exports)

    def alias(self, reader):
        start, sort = reader.at, reader.byte()
        if sort != 0:
            self.alias_item(reader, sort)
            return reader.data[start:reader.at]
        sort, _, _, _ = reader.byte(), reader.byte(), reader.number(), reader.text()
        if sort == 0:
            self.core.append(CoreFunction("guest"))
            return "func", len(self.core) - 1
        return ("memory", None) if sort == 2 else None

    def resource_type(self, reader):
        reader.byte()
        if reader.byte():
            self.give_role(reader.number(), "destructor", ["i32"], [])
        return ("resource",)

    def canonical(self, reader):
        code = reader.byte()
        if code > 1:
            reader.number()
            kind, results = HANDLE_CALLS[code]
            self.core.append(CoreFunction(kind, ["i32"], results))
            return
        reader.byte()
        index, options = reader.number(), {"encoding": "utf8"}
        reader.vector(lambda: self.option(reader, options))
        if "realloc" in options:
            self.give_role(options["realloc"], "allocator", ["i32"] * 4, ["i32"])
        if code == 1:
            self.lower(self.spaces["func"][index], options)
        else:
            self.lift(index, self.type_at(reader.number()), options)

    def option(self, reader, options):
        code = reader.byte()
        if code < 3:
            options["encoding"] = ENCODINGS[code]
        else:
            options[("memory", "realloc", "post")[code - 3]] = reader.number()

    def lower(self, func, options):
        made = CoreFunction("lower", *flat_function(func, "lower"))
        made.func, made.options = func, options
        self.core.append(made)

    def lift(self, index, func, options):
        self.spaces["func"].append(func)
        params, results = flat_function(func, "lift")
        self.give_role(index, "lifted", params, results)
        self.core[index].func, self.core[index].options = func, options
        if "post" in options:
            self.give_role(options["post"], "post-return", results, [])

    def give_role(self, index, role, params, results):
        made = self.core[index]
        if made.role and (role == "lifted" or made.role != role):
            raise NotBaked(f"core function {index} is {made.role} and {role}")
        made.role, made.params, made.results = role, params, results

    def import_item(self, reader):
        name, sort = reader.name(), reader.data[reader.at]
        self.imports[name] = sort
        self.describe(reader)

    def export_item(self, reader):
        reader.name()
        space = self.spaces[SORTS[reader.byte()]]
        space.append(space[reader.number()])
        if reader.byte():
            space.pop()
            self.describe(reader)

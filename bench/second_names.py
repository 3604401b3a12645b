#!/usr/bin/env python3
"""A judge of names in component files, written from the standard's rule of names alone.

Named types are records, variants, enums, flags and resources. Each that an imported or exported
function, instance or type mentions has to be, as that very index, one that the same scope has
imported, or exported before, or an alias of an item of an instance that it has imported or
exported; what an instance mentions may be what that instance exports, too. A name like
`[method]r.m` stands behind a resource `r` that the same scope has, and the function's handle is of
that one; an instance that is made of definitions under names is no scope, so that it has none.

bench/second_names.py FILE.. prints for each file `valid`, or the first name or type at fault.
"""

import sys

PREAMBLE = bytes.fromhex("0061736d0d000100")
NAMED = ("record", "variant", "enum", "flags", "resource")
CODES = {0x72: "record", 0x71: "variant", 0x6E: "flags", 0x6D: "enum", 0x70: "list", 0x6B: "option",
         0x6F: "tuple", 0x6A: "result", 0x69: "own", 0x68: "borrow", 0x67: "fixed"}


class Fault(Exception):
    """What is wrong with a name."""


class Type:
    """A type at an index: two of them are one only where they are the same object."""

    def __init__(self, kind, parts=(), labels=(), of=None):
        self.kind, self.parts, self.labels, self.of = kind, list(parts), list(labels), of

    def renamed(self):
        """The type under one more name: another index, whose parts are the same."""
        return Type(self.kind, self.parts, self.labels, self.of or self)

    def resource(self):
        return self.of or self


class Reader:
    """Bytes of a file that is well-formed."""

    def __init__(self, data):
        self.data, self.at = data, 0

    def byte(self):
        self.at += 1
        return self.data[self.at - 1]

    def number(self, has_sign=False):
        value = shift = 0
        while True:
            found = self.byte()
            value |= (found & 0x7F) << shift
            shift += 7
            if found < 0x80:
                break
        if has_sign and found & 0x40:
            value -= 1 << shift
        return value

    def take(self, count):
        self.at += count
        return self.data[self.at - count : self.at]

    def text(self):
        return self.take(self.number()).decode("utf-8")

    def vec(self, item):
        return [item() for _ in range(self.number())]

    def is_done(self):
        return self.at >= len(self.data)

    def name(self):
        self.byte()
        return self.text()

    def optional(self, item):
        return item() if self.byte() else None


def mentioned(types):
    """The named types among these, and in those of them that have no names."""
    found, left = [], [it for it in types if it is not None]
    while left:
        ty = left.pop()
        if ty.kind in NAMED:
            found.append(ty)
        else:
            left += [it for it in ty.parts if it is not None]
    return found


class Scope:
    """A component, or the type of an instance: what it has of each sort, and which types are named
    there."""

    def __init__(self, outer=None):
        self.outer = outer
        self.types, self.funcs, self.instances, self.components = [], [], [], []
        self.named, self.resources, self.exports = set(), {}, {}
        self.imports = []

    def see(self, name, ty):
        self.named.add(id(ty))
        if ty.kind == "resource":
            self.resources.setdefault(name, ty)

    def hold(self, what, types, also=()):
        """Sees to it that what these types mention is named."""
        for ty in mentioned(types):
            if id(ty) not in self.named and id(ty) not in also:
                raise Fault(f"{what}: a {ty.kind} that has no name here")

    def hold_func(self, name, func, also=()):
        self.hold(name, [func], also)
        mark, _, rest = name.partition("]")
        if not name.startswith("["):
            return
        resource = self.resources.get(rest.partition(".")[0])
        if resource is None:
            raise Fault(f"{name}: no such resource before")
        if mark == "[method":
            self.is_handle(name, func.parts[0] if func.labels else None, "borrow", resource)
        if mark == "[constructor":
            answer = func.parts[-1]
            if answer is not None and answer.kind == "result":
                answer = answer.parts[0]
            self.is_handle(name, answer, "own", resource)

    def is_handle(self, name, ty, kind, resource):
        if ty is None or ty.kind != kind or ty.parts[0] is not resource:
            raise Fault(f"{name}: no {kind} of its resource")

    def hold_instance(self, name, items, is_scope):
        """Sees to it that an instance, which is imported or exported, may have these items."""
        also = {id(it) for sort, it in items.values() if sort == "type"}
        for item, (sort, it) in items.items():
            if sort == "func":
                if item.startswith("[") and not is_scope:
                    raise Fault(f"{name}: {item} in an instance that is no scope")
                self.hold(f"{name}: {item}", [it], also)
            elif it.kind in NAMED:
                self.hold(f"{name}: {item}", it.parts, also)
            else:
                self.hold(f"{name}: {item}", [it], also)

    def see_instance(self, items):
        for sort, it in items.values():
            if sort == "type":
                self.named.add(id(it))


class File(Reader):
    """A component file, or a nested one, that is read into a scope."""

    def __init__(self, data, outer=None):
        super().__init__(data)
        self.scope = Scope(outer)

    # ---- types

    def used(self):
        if 0x40 <= self.data[self.at] <= 0x7F:
            self.byte()
            return None
        return self.scope.types[self.number(has_sign=True)]

    def field(self):
        return self.text(), self.used()

    def case(self):
        label, payload = self.text(), self.optional(self.used)
        self.byte()
        return label, payload

    def defined(self, code):
        kind = CODES.get(code, "primitive")
        if kind == "primitive":
            return Type(kind)
        if kind in ("record", "variant"):
            pairs = self.vec(self.field if kind == "record" else self.case)
            return Type(kind, [ty for _, ty in pairs], [label for label, _ in pairs])
        if kind in ("flags", "enum"):
            return Type(kind, (), self.vec(self.text))
        if kind == "tuple":
            return Type(kind, self.vec(self.used))
        if kind == "result":
            return Type(kind, [self.optional(self.used), self.optional(self.used)])
        if kind in ("own", "borrow"):
            return Type(kind, [self.scope.types[self.number()]])
        element = self.used()
        if kind == "fixed":
            self.number()
        return Type(kind, [element])

    def func_type(self):
        pairs = self.vec(self.field)
        answer = None
        if self.byte() == 0x00:
            answer = self.used()
        else:
            self.byte()
        return Type("func", [ty for _, ty in pairs] + [answer], [label for label, _ in pairs])

    def type_def(self):
        code = self.byte()
        if code == 0x40:
            return self.func_type()
        if code == 0x3F:
            self.byte()
            self.optional(self.number)
            return Type("resource")
        if code == 0x42:
            return self.instance_type()
        return self.defined(code)

    def instance_type(self):
        outer = self.scope
        self.scope = Scope(outer)
        for _ in range(self.number()):
            code = self.byte()
            if code == 0x01:
                self.scope.types.append(self.type_def())
            elif code == 0x02:
                self.byte()
                self.byte()
                scope = self.scope
                for _ in range(self.number()):
                    scope = scope.outer
                ty = scope.types[self.number()]
                self.scope.types.append(ty)
                if id(ty) in scope.named:
                    self.scope.named.add(id(ty))
            else:
                self.declared_export()
        items, self.scope = self.scope.exports, outer
        return Type("instance", of=items)

    def declared_export(self):
        name = self.name()
        if self.byte() == 0x01:
            func = self.scope.types[self.number()]
            self.scope.hold_func(name, func)
            self.scope.exports[name] = ("func", func)
        else:
            self.scope.exports[name] = ("type", self.bound(name))

    def bound(self, name):
        """A type that is imported, or that an instance exports."""
        if self.byte() == 0x00:
            ty = self.scope.types[self.number()]
            self.scope.hold(name, ty.parts if ty.kind in NAMED else [ty])
            ty = ty.renamed()
        else:
            ty = Type("resource")
        self.scope.types.append(ty)
        self.scope.see(name, ty)
        return ty

    # ---- other items

    def alias(self):
        sort = self.byte()
        if sort == 0x00:
            self.byte()
            self.byte()
            self.number()
            self.text()
            return
        if self.byte() == 0x02:
            self.number()
            self.scope.types.append(self.scope.outer.types[self.number()])
            return
        items, name = self.scope.instances[self.number()][0], self.text()
        (self.scope.types if sort == 0x03 else self.scope.funcs).append(items[name][1])

    def member(self):
        return self.name(), self.byte(), self.number()

    def given(self, sort, index):
        if sort == 0x03:
            return "type", self.scope.types[index]
        return "func", self.scope.funcs[index]

    def instance(self):
        if self.byte() == 0x00:
            component = self.scope.components[self.number()]
            arguments = {}
            for name, sort, index in self.vec(lambda: (self.text(), self.byte(), self.number())):
                arguments[name] = self.given(sort, index)
            self.scope.instances.append((instantiated(component, arguments), True))
            return
        items = {name: self.given(sort, index) for name, sort, index in self.vec(self.member)}
        self.scope.instances.append((items, False))

    def canon(self):
        code = self.byte()
        if code > 0x01:
            self.number()
            return
        self.byte()
        self.number()
        self.vec(lambda: self.number() if self.byte() > 0x02 else None)
        if code == 0x00:
            self.scope.funcs.append(self.scope.types[self.number()])

    def imported(self):
        name, sort = self.name(), self.byte()
        if sort == 0x01:
            func = self.scope.types[self.number()]
            self.scope.hold_func(name, func)
            self.scope.funcs.append(func)
            self.scope.imports.append((name, func))
        elif sort == 0x03:
            self.scope.imports.append((name, self.bound(name)))
        else:
            items = fresh(self.scope.types[self.number()].of, {})
            self.scope.hold_instance(name, items, True)
            self.scope.instances.append((items, True))
            self.scope.see_instance(items)

    def exported(self):
        name, sort, index = self.name(), self.byte(), self.number()
        if sort == 0x01:
            func = self.scope.funcs[index]
            if self.byte():
                self.byte()
                func = self.scope.types[self.number()]
            self.scope.hold_func(name, func)
            self.scope.funcs.append(func)
            self.scope.exports[name] = ("func", func)
            return
        self.byte()
        if sort == 0x03:
            ty = self.scope.types[index]
            self.scope.hold(name, ty.parts if ty.kind in NAMED else [ty])
            ty = ty.renamed()
            self.scope.types.append(ty)
            self.scope.see(name, ty)
            self.scope.exports[name] = ("type", ty)
            return
        items, is_scope = self.scope.instances[index]
        self.scope.hold_instance(name, items, is_scope)
        if not is_scope:
            self.scope.see_instance(items)
        items = fresh(items, {})
        self.scope.instances.append((items, is_scope))
        self.scope.see_instance(items)
        self.scope.exports[name] = ("instance", items)

    def section(self, kind, data):
        inner = File(data, self.scope.outer)
        inner.scope = self.scope
        if kind == 4:
            self.scope.components.append(File(data, self.scope).read())
        elif kind == 7:
            for _ in range(inner.number()):
                self.scope.types.append(inner.type_def())
        elif kind in (5, 6, 8, 10, 11):
            inner.vec({5: inner.instance, 6: inner.alias, 8: inner.canon, 10: inner.imported,
                       11: inner.exported}[kind])

    def read(self):
        """The scope of the file, whose names are right."""
        if self.take(8) != PREAMBLE:
            raise Fault("no component")
        while not self.is_done():
            kind = self.byte()
            self.section(kind, self.take(self.number()))
        return self.scope


def copied(ty, known):
    """The type over other parts: those that are known, and copies of the others."""
    if ty is None:
        return None
    if id(ty) not in known:
        parts = [copied(part, known) for part in ty.parts]
        same = all(a is b for a, b in zip(parts, ty.parts))
        known[id(ty)] = ty if same else Type(ty.kind, parts, ty.labels, ty.of)
    return known[id(ty)]


def fresh(items, known):
    """The items of an instance that is imported or exported: each type is a new index."""
    fresh_items = {}
    for name, (sort, it) in items.items():
        if sort == "type":
            parts = [copied(part, known) for part in it.parts]
            known[id(it)] = Type(it.kind, parts, it.labels, it.of or it)
            fresh_items[name] = ("type", known[id(it)])
        else:
            fresh_items[name] = ("func", copied(it, known))
    return fresh_items


def instantiated(component, arguments):
    """What an instance of a component exports that is given these arguments."""
    known = {}
    for name, ty in component.imports:
        if name not in arguments:
            raise Fault(f"{name}: nothing is given")
        if ty.kind != "func":
            known[id(ty)] = arguments[name][1]
    return fresh(component.exports, known)


def judged(data):
    try:
        File(data).read()
    except Fault as fault:
        return str(fault)
    return "valid"


def main(names):
    answers = []
    for name in names:
        with open(name, "rb") as file:
            answers.append(judged(file.read()))
        print(f"{name}: {answers[-1]}")
    return 0 if all(it == "valid" for it in answers) else 1


if __name__ == "__main__":
    sys.exit(main(sys.argv[1:]))

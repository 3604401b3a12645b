"""A second resolver of WIT projects, from WIT.md alone: packages, names, gates, worlds.

`resolve(groups, features)` takes the files of each folder, the project's own first, each file as a
name and a text. It gives a Project or raises a Fault with the file, the place and the reason.
"""

from dataclasses import dataclass, field
from typing import Any

from reading import Fault, Name, precedence, read


def full_name(package, name):
    """`ns:pkg/name@version`."""
    namespace, own, version = package
    return f"{namespace}:{own}/{name}" + (f"@{version}" if version else "")


@dataclass
class Scope:
    """A file, or a package in braces: the names that its uses at the top give."""

    file: str
    package: Any
    uses: dict = field(default_factory=dict)


@dataclass
class Declared:
    """An interface or a world: its scope, and its item."""

    scope: Scope
    item: Any

    def full(self):
        return full_name(self.scope.package, self.item.name.text)


class Project:
    """Packages by name, each with its interfaces and worlds by name."""

    def __init__(self, features):
        self.features, self.packages, self.scopes, self.own = set(features), {}, [], None

    # ---- packages

    def add_group(self, files):
        """The files of one folder, which are one package, and the packages in braces in them."""
        named, trees = None, []
        for file, text in files:
            tree = self.in_file(file, lambda text=text: read(text))
            trees.append((file, tree))
            if tree[0] and named and tree[0][0] != named[0]:
                raise Fault("Unexpected", tree[0][1], file)
            named = named or tree[0]
            if tree[0] and named is tree[0]:
                self.add_package(file, named)
        if named is None:
            raise Fault("UnknownName", 0, files[0][0] if files else None)
        self.own = self.own or named[0]
        for file, (_, items) in trees:
            self.add_items(Scope(file, named[0]), [it for it in items if it.kind != "package"])
            for nested in (it for it in items if it.kind == "package"):
                self.add_package(file, nested.name)
                self.add_items(Scope(file, nested.name[0]), nested.body)

    @staticmethod
    def in_file(file, call):
        try:
            return call()
        except Fault as fault:
            raise Fault(fault.reason, fault.at, fault.file or file) from None

    def add_package(self, file, named):
        if named[0] in self.packages:
            raise Fault("Duplicate", named[1], file)
        self.packages[named[0]] = {}

    def add_items(self, scope, items):
        self.scopes.append((scope, [it for it in items if it.kind == "use"]))
        there = self.packages[scope.package]
        for item in items:
            if item.kind != "use":
                if any(it.lower() == item.name.text.lower() for it in there):
                    raise Fault("Duplicate", item.name.at, scope.file)
                there[item.name.text] = Declared(scope, item)

    def everything(self):
        return [it for there in self.packages.values() for it in there.values()]

    # ---- paths

    def at_path(self, scope, path, kinds, top=True):
        """What a path leads to, of these kinds."""
        if path.package is None:
            own = self.packages[scope.package].get(path.name.text)
            found = scope.uses.get(path.name.text, own) if top else own
        else:
            there = self.packages.get(path.package)
            if there is None:
                raise Fault("UnknownName", path.at, scope.file)
            if path.package == scope.package:
                raise Fault("Cycle", path.at, scope.file)
            found = there.get(path.name.text)
        if found is None or found.item.kind not in kinds:
            raise Fault("UnknownName", path.name.at, scope.file)
        return found

    def resolve_uses(self):
        """The uses at the top: of their file alone, and no names for one another."""
        for scope, uses in self.scopes:
            found = {}
            for use in uses:
                kinds = ("interface",) if use.body.package else ("interface", "world")
                target = self.at_path(scope, use.body, kinds, top=False)
                name = use.name or use.body.name
                if any(it.lower() == name.text.lower() for it in found):
                    raise Fault("Duplicate", name.at, scope.file)
                found[name.text] = target
            scope.uses = found

    # ---- faults of names

    def check(self):
        self.resolve_uses()
        views = [self.view(it) for it in self.everything()]
        for view in views:
            view.check_names()
        self.check_packages(views)
        self.check_cycles(views)
        for view in views:
            view.check_types()
        for view in views:
            view.check_gates()
        return self

    def view(self, declared):
        return View(self, declared)

    def check_packages(self, views):
        """No package leads to itself by paths, neither by those of items nor of uses at the top."""
        edges = {it: set() for it in self.packages}
        for scope, uses in self.scopes:
            edges[scope.package] |= {it.body.package for it in uses if it.body.package}
        for view in views:
            edges[view.scope.package] |= {it.package for it in view.paths() if it.package}
        for view in views:
            for path in view.paths():
                if path.package and leads(edges, path.package, view.scope.package):
                    raise Fault("Cycle", path.at, view.scope.file)

    def check_cycles(self, views):
        """No interface uses itself, and no world includes itself, by any number of others."""
        edges = {view.declared.full(): {it.full() for it in view.used()} for view in views}
        for view in views:
            full = view.declared.full()
            if any(leads(edges, it, full) for it in edges[full]):
                raise Fault("Cycle", view.declared.item.name.at, view.scope.file)

    # ---- gates

    def is_there(self, gates):
        return all(kind != "unstable" or value in self.features for kind, value, _ in gates)

    def check_gate_list(self, scope, gates):
        kinds = [kind for kind, _, _ in gates]
        for number, (kind, value, at) in enumerate(gates):
            twice = kind in kinds[:number]
            both = kind != "deprecated" and set(kinds[:number]) & {"since", "unstable"}
            if twice or both or kinds == ["deprecated"]:
                raise Fault("Unexpected", at, scope.file)
            version = scope.package[2]
            if kind == "since" and (not version or precedence(version) < precedence(value)):
                raise Fault("Unexpected", at, scope.file)


def leads(edges, start, end):
    """Whether a node is another one, or leads to it."""
    seen, open_nodes = set(), [start]
    while open_nodes:
        node = open_nodes.pop()
        if node == end:
            return True
        if node not in seen:
            seen.add(node)
            open_nodes += edges.get(node, ())
    return False


def parts(ty):
    """The types that stand directly in a type."""
    kind, held = ty
    if kind in ("list", "option"):
        return [held]
    if kind == "fixed list":
        return [held[0]]
    if kind == "tuple":
        return held
    if kind == "result":
        return [it for it in held if it]
    return []


def leaves(ty):
    """The names in a type, each with whether it is of a borrow; and what is left out."""
    if ty[0] in ("named", "borrow", "left out"):
        return [ty]
    return [leaf for part in parts(ty) for leaf in leaves(part)]


def types_of(body):
    """The types in the declaration of a type that is no resource."""
    kind, held = body
    if kind == "alias":
        return [held]
    if kind in ("record", "variant"):
        return [ty for _, ty in held if ty]
    return []


def func_types(func):
    params, answer, _ = func
    return [ty for _, ty in params] + ([answer] if answer else [])


class View:
    """An interface, a world, or an interface in place, with the names of its types."""

    def __init__(self, project, declared, items=None, outer=None):
        self.project, self.declared, self.scope = project, declared, declared.scope
        self.items = declared.item.body if items is None else items
        self.is_world = items is None and declared.item.kind == "world"
        self.outer = outer
        self.inner = [
            View(project, declared, it.body[1], self)
            for it in self.items
            if it.kind in (("import", "interface"), ("export", "interface"))
        ]

    def fault(self, reason, at):
        return Fault(reason, at, self.scope.file)

    def paths(self):
        """The paths in it, in order."""
        found = []
        for item in self.items:
            if item.kind in ("use", "include"):
                found.append(item.body[0])
            elif item.kind in (("import", "path"), ("export", "path")):
                found.append(item.body[0])
        return found + [path for view in self.inner for path in view.paths()]

    def target(self, item):
        kinds = ("world",) if item.kind == "include" else ("interface",)
        return self.project.at_path(self.scope, item.body[0], kinds)

    def used(self):
        """What it cannot be without: interfaces of uses, worlds that are included."""
        found = [self.target(it) for it in self.items if it.kind in ("use", "include")]
        return found + [it for view in self.inner for it in view.used()]

    # ---- names

    def check_names(self):
        """Names are distinct without case, and each path leads somewhere."""
        seen = {}
        for item in self.items:
            side = "export" if item.kind[0] == "export" else "import"
            for name in self.names_of(item):
                key = side, name.text.lower()
                if key in seen:
                    raise self.fault("Duplicate", name.at)
                seen[key] = name
            if item.kind in ("use", "include") or item.kind[1] == "path":
                self.target(item)
            self.check_parts(item)
        for view in self.inner:
            view.check_names()

    def names_of(self, item):
        """The names that an item declares in its scope."""
        if item.kind == "use":
            return [new or name for name, new in item.body[1]]
        if item.kind[1] == "path":
            full = self.target(item).full()
            return [Name(full, item.body[0].at)]
        return [item.name] if item.name else []

    def check_parts(self, item):
        """The names of fields, cases, parameters and methods are distinct."""
        if item.kind == "type":
            kind, held = item.body
            if kind in ("record", "variant"):
                self.distinct([name for name, _ in held])
            elif kind in ("enum", "flags"):
                self.distinct(held)
            elif kind == "resource":
                self.distinct([it.name for it in held])
                for method in held:
                    own = [Name("self", -1)] if method.kind == "method" else []
                    self.distinct(own + [name for name, _ in method.body[0]])
        elif item.kind == "func" or item.kind[1] == "func":
            func = item.body if item.kind == "func" else item.body[1]
            self.distinct([name for name, _ in func[0]])

    def distinct(self, names):
        seen = set()
        for name in names:
            if name.text.lower() in seen:
                raise self.fault("Duplicate", name.at)
            seen.add(name.text.lower())

    # ---- types

    def type_items(self):
        """The items that declare types by name, with the name that is used, if one is."""
        found = {}
        for item in self.items:
            if item.kind == "type":
                found[item.name.text] = item, None
            elif item.kind == "use":
                for name, new in item.body[1]:
                    found[(new or name).text] = item, name
        return found

    def origin(self, name):
        """Where a type of this name is declared, seen through uses: a view and its item."""
        item, used = self.type_items().get(name, (None, None))
        if item is None or item.kind == "type":
            return self, item
        return View(self.project, self.target(item)).origin(used.text)

    def is_resource(self, name):
        view, item = self.origin(name)
        if item is None:
            return False
        kind, held = item.body
        if kind == "alias" and held[0] == "named":
            return view.is_resource(held[1].text)
        return kind == "resource"

    def texts(self):
        """Each type that stands in an item, with the item and whether it is a result."""
        for item in self.items:
            if item.kind == "type" and item.body[0] != "resource":
                yield from ((it, item, False) for it in types_of(item.body))
            funcs = [item.body] if item.kind == "func" else []
            funcs += [item.body[1]] if item.kind[1] == "func" and item.kind != "func" else []
            for func in funcs:
                yield from self.in_func(func, item)
            if item.kind == "type" and item.body[0] == "resource":
                for method in item.body[1]:
                    yield from self.in_func(method.body, method)

    @staticmethod
    def in_func(func, item):
        params, answer, _ = func
        yield from ((ty, item, False) for _, ty in params)
        if answer:
            yield answer, item, True

    def check_types(self):
        for item in self.items:
            if item.kind == "use":
                for name, _ in item.body[1]:
                    target = View(self.project, self.target(item))
                    if target.origin(name.text)[1] is None:
                        raise self.fault("UnknownName", name.at)
        for ty, _, in_result in self.texts():
            for kind, held in leaves(ty):
                if kind != "left out":
                    self.check_name(kind, held, in_result)
        self.check_type_cycles()
        for view in self.inner:
            view.check_types()

    def check_name(self, kind, name, in_result):
        if self.origin(name.text)[1] is None:
            raise self.fault("UnknownName", name.at)
        if kind == "borrow" and not self.is_resource(name.text):
            raise self.fault("UnknownName", name.at)
        if in_result and self.holds_borrow(name.text, set()):
            raise self.fault("Unexpected", name.at)

    def holds_borrow(self, name, seen):
        view, item = self.origin(name)
        key = id(view.declared.item), name
        if item is None or item.body[0] == "resource" or key in seen:
            return False
        seen.add(key)
        found = [leaf for ty in types_of(item.body) for leaf in leaves(ty)]
        return any(
            kind == "borrow" or kind == "named" and view.holds_borrow(held.text, seen)
            for kind, held in found
        )

    def check_type_cycles(self):
        edges = {
            it.name.text: {
                leaf[1].text
                for ty in types_of(it.body)
                for leaf in leaves(ty)
                if leaf[0] == "named"
            }
            for it in self.items
            if it.kind == "type" and it.body[0] != "resource"
        }
        for item in self.items:
            if item.kind == "type" and any(
                leads(edges, it, item.name.text) for it in edges.get(item.name.text, ())
            ):
                raise self.fault("Cycle", item.name.at)

    # ---- gates

    def check_gates(self):
        """Gates are sound, and what is there names nothing that a gate takes away."""
        if self.outer is None:
            self.project.check_gate_list(self.scope, self.declared.item.gates)
        for item in self.items:
            self.project.check_gate_list(self.scope, item.gates)
            if item.kind == "type" and item.body[0] == "resource":
                for method in item.body[1]:
                    self.project.check_gate_list(self.scope, method.gates)
        if self.is_there():
            self.check_reached()
        for view in self.inner:
            view.check_gates()

    def is_there(self):
        gates = [] if self.outer else self.declared.item.gates
        return self.project.is_there(gates) and (self.outer is None or self.outer.is_there())

    def check_reached(self):
        there = self.project.is_there
        for item in filter(lambda it: there(it.gates), self.items):
            if item.kind in ("use", "include") or item.kind[1] == "path":
                target = self.target(item)
                if not there(target.item.gates):
                    raise self.fault("UnknownName", item.body[0].name.at)
            if item.kind == "use":
                for name, _ in item.body[1]:
                    if not View(self.project, self.target(item)).has_type(name.text):
                        raise self.fault("UnknownName", name.at)
        for ty, item, _ in self.texts():
            if there(item.gates):
                for kind, held in leaves(ty):
                    if kind == "left out":
                        raise self.fault("Unsupported", held[1])
                    if not self.has_type(held.text):
                        raise self.fault("UnknownName", held.at)
        self.check_async()

    def check_async(self):
        for item in self.items:
            for func in [item.body] if item.kind == "func" else []:
                if self.project.is_there(item.gates) and func[2] is not None:
                    raise self.fault("Unsupported", func[2])

    def has_type(self, name):
        """Whether a type of this name is there, gates weighed."""
        item, used = self.type_items().get(name, (None, None))
        if item is None or not self.project.is_there(item.gates):
            return False
        return item.kind == "type" or View(self.project, self.target(item)).has_type(used.text)

    # ---- what an interface has

    def listed(self):
        """The functions and resources that are there, as items of an instance."""
        found = []
        for item in filter(lambda it: self.project.is_there(it.gates), self.items):
            if item.kind == "func":
                found.append(item.name.text)
            elif item.kind == "type" and item.body[0] == "resource":
                found.append(item.name.text)
                for method in filter(lambda it: self.project.is_there(it.gates), item.body[1]):
                    own = "" if method.kind == "constructor" else f".{method.name.text}"
                    found.append(f"[{method.kind}]{item.name.text}{own}")
        return found

    def dependencies(self):
        """The interfaces of which types are used, gates weighed."""
        there = self.project.is_there
        uses = [it for it in self.items if it.kind == "use" and there(it.gates) and it.body[1]]
        return [self.target(it) for it in uses]


def resolve(groups, features=()):
    """The project that these texts are, with the features that are wanted."""
    project = Project(features)
    for files in groups:
        project.add_group(files)
    return project.check()


# ---- worlds


@dataclass
class Elaborated:
    """What a world imports and exports: names with what they are, and interfaces by path."""

    imports: dict = field(default_factory=dict)
    exports: dict = field(default_factory=dict)
    types: dict = field(default_factory=dict)
    needs: list = field(default_factory=list)


def elaborate(project, declared):
    """A world with its includes written out, before interfaces are added that others need."""
    view, out = View(project, declared), Elaborated()
    inner = {id(it.items): it for it in view.inner}
    there = [it for it in view.items if project.is_there(it.gates)]
    for item in there:
        if item.kind in ("use", "type"):
            for name in view.names_of(item):
                out.types[name.text] = None
            if item.kind == "use" and item.body[1]:
                out.needs.append(view.target(item))
        elif item.kind != "include":
            side, kind = item.kind
            into = out.imports if side == "import" else out.exports
            if kind == "path":
                target = view.target(item)
                into[target.full()] = View(project, target)
            else:
                into[item.name.text] = inner[id(item.body[1])] if kind == "interface" else None
    for item in there:
        if item.kind == "include":
            include(project, view, item, out)
    return out


def include(project, view, item, out):
    path, renames = item.body
    inner = elaborate(project, view.target(item))
    news = {name.text: new.text for name, new in renames}
    for name, _ in renames:
        if not any(name.text in it for it in (inner.imports, inner.exports, inner.types)):
            raise view.fault("UnknownName", name.at)
    for own, into in ((inner.imports, out.imports), (inner.exports, out.exports)):
        for name, what in own.items():
            new = news.get(name, name)
            if ":" in new:
                into[new] = what
            elif new in into or into is out.imports and new in out.types:
                raise view.fault("Duplicate", path.at)
            else:
                into[new] = what
    for name in inner.types:
        new = news.get(name, name)
        if new in out.types or new in out.imports:
            raise view.fault("Duplicate", path.at)
        out.types[new] = None
    out.needs += inner.needs


def check_world(project, declared):
    """Names of the elaborated world that differ in case alone are refused."""
    view, out = View(project, declared), elaborate(project, declared)
    for names in (list(out.imports) + list(out.types), list(out.exports)):
        if len({it.lower() for it in names}) != len(names):
            raise view.fault("Duplicate", declared.item.name.at)
    return out


def signature(project, declared):
    """What a world imports and exports, by name: the items of an interface, or None."""
    out = check_world(project, declared)
    imports = dict(out.imports)
    for need in out.needs:
        add_import(project, need, imports)
    for what in list(out.imports.values()):
        for need in what.dependencies() if what else []:
            add_import(project, need, imports)
    for what in out.exports.values():
        for need in what.dependencies() if what else []:
            add_export_need(project, declared, need, out.exports, imports)
    listed = lambda names: {name: it.listed() if it else None for name, it in names.items()}
    return listed(imports), listed(out.exports)


def add_import(project, declared, imports):
    """An interface that others need, and those that it needs."""
    view = View(project, declared)
    if declared.full() not in imports:
        imports[declared.full()] = view
        for need in view.dependencies():
            add_import(project, need, imports)


def add_export_need(project, world, need, exports, imports):
    """An interface that an exported one needs: exported, or else imported. What is imported may not
    need one that is exported."""
    if need.full() in exports:
        return
    for other in View(project, need).dependencies():
        reach = [other]
        while reach:
            one = reach.pop()
            if one.full() in exports:
                raise Fault("Unexpected", world.item.name.at, world.scope.file)
            reach += View(project, one).dependencies()
    add_import(project, need, imports)

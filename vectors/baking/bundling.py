"""Puts baked core modules into their components, and the components into one (Binary.md)."""

from . import wasm
from .wasm import section, text, unsigned, vector

PREAMBLE = b"\0asm\x0d\0\1\0"
CORE_MODULE, CORE_INSTANCE, COMPONENT, INSTANCE, ALIAS, TYPE, CANONICAL, EXPORT = (
    1, 2, 4, 5, 6, 7, 8, 11)
FUNC_SORT, INSTANCE_SORT = 1, 5
NO_PARAMS_NO_RESULT = b"\x40\0\x01\0"


def filler(component, made):
    """The core module that puts what canonical definitions made into the table of a guest."""
    module = wasm.Module()
    for n in made:
        module.import_function(f"f{n}", component.core[n].params, component.core[n].results)
    module.import_table("t", len(made))
    module.fill_table(0, range(len(made)))
    return module.bytes()


def core_alias(sort, name, instance=0):
    return bytes([0, sort, 1]) + unsigned(instance) + text(name)


def aliased(item):
    """An alias of the file, where its item comes from now."""
    if isinstance(item, bytes):
        return item
    return core_alias(2, "m") if item[0] == "memory" else core_alias(0, f"f{item[1]}")


def rebuilt(component, guest, exports):
    """The component's file with its new core modules; it exports these functions too."""
    out = PREAMBLE + section(CORE_MODULE, guest.module.bytes())
    out += section(CORE_INSTANCE, vector([b"\0\0\0"]))
    for kind, contents in component.sections:
        if kind == ALIAS:
            contents = vector(list(map(aliased, contents)))
        if kind not in (CORE_MODULE, CORE_INSTANCE):
            out += section(kind, contents)
    return out + filled(component, guest.made) + exported(component, exports)


def filled(component, made):
    if not made:
        return b""
    given = [text(f"f{n}") + b"\0" + unsigned(n) for n in made] + [text("t") + b"\x01\0"]
    instances = [b"\x01" + vector(given), b"\0\x01" + vector([text("") + b"\x12\x01"])]
    return (section(CORE_MODULE, filler(component, made))
            + section(ALIAS, vector([core_alias(1, "t")]))
            + section(CORE_INSTANCE, vector(instances)))


def exported(component, names):
    """Lifts functions of the guest with no parameters and no result, and exports them."""
    count = len(names)
    types, funcs = len(component.spaces["type"]), len(component.spaces["func"])
    if not count:
        return b""
    first = len(component.core)
    aliases = [core_alias(0, name) for name in names]
    lifts = [b"\0\0" + unsigned(first + n) + b"\0" + unsigned(types) for n in range(count)]
    exports = [b"\0" + text(name) + b"\x01" + unsigned(funcs + n) + b"\0"
               for n, name in enumerate(names)]
    return (section(ALIAS, vector(aliases)) + section(TYPE, vector([NO_PARAMS_NO_RESULT]))
            + section(CANONICAL, vector(lifts)) + section(EXPORT, vector(exports)))


class Bundle:
    """A component of components, in the form of `hux link -o` (crates/cm_bundle/FORM.md)."""

    def __init__(self):
        self.out, self.counts = PREAMBLE, {FUNC_SORT: 0, INSTANCE_SORT: 0}
        self.instances = []

    def alias(self, sort, provider, name):
        """The index of what an instance exports, and its alias."""
        index = self.counts[sort]
        self.counts[sort] += 1
        alias = bytes([sort, 0]) + unsigned(self.instances[provider]) + text(name)
        return index, alias

    def add(self, data, given):
        """A component and its instance, given (import, sort, provider, export)."""
        aliases, arguments = [], []
        for name, sort, provider, export in given:
            index, alias = self.alias(sort, provider, export)
            aliases.append(alias)
            arguments.append(text(name) + bytes([sort]) + unsigned(index))
        made = b"\0" + unsigned(len(self.instances)) + vector(arguments)
        self.out += section(COMPONENT, data) + section(ALIAS, vector(aliases))
        self.out += section(INSTANCE, vector([made]))
        self.instances.append(self.counts[INSTANCE_SORT])
        self.counts[INSTANCE_SORT] += 1

    def end(self, exports):
        """The file, which exports these functions (component, name)."""
        made = [self.alias(FUNC_SORT, component, name) for component, name in exports]
        described = [b"\0" + text(name) + b"\x01" + unsigned(index) + b"\0"
                     for (_, name), (index, _) in zip(exports, made)]
        aliases = section(ALIAS, vector([alias for _, alias in made]))
        return self.out + aliases + section(EXPORT, vector(described))


def bundled(files, components, links, exports):
    """One file of these: `links` has (component, import, provider, export)."""
    bundle = Bundle()
    for n, (data, component) in enumerate(zip(files, components)):
        given = [(name, component.imports[name], provider, export)
                 for user, name, provider, export in links if user == n]
        bundle.add(data, given)
    return bundle.end(exports)

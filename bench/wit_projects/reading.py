"""Reads one WIT text of a project, by the grammar of WIT.md alone ("Packages and Worlds").

A tree has a place, the character from 0, for each name, gate, path and item. Forms that this
project leaves out are read, with the place of their first word.
"""

import re
from dataclasses import dataclass, field
from typing import Any

KEYWORDS = set(
    "as async bool borrow char constructor enum error-context export f32 f64 flags from func future "
    "import include interface list map option own package record resource result s16 s32 s64 s8 "
    "static stream string tuple type u16 u32 u64 u8 use variant with world".split()
)
PRIMITIVES = set("bool s8 s16 s32 s64 u8 u16 u32 u64 char string".split())
LEFT_OUT = set("f32 f64 own stream future error-context map".split())
MOST_DEPTH, MOST_FLAGS = 64, 32
LABEL = re.compile(r"(?:[a-z][a-z0-9]*|[A-Z][A-Z0-9]*)(?:-(?:[a-z][a-z0-9]*|[A-Z][A-Z0-9]*))*")
NUMBER = r"(?:0|[1-9][0-9]*)"
PART = r"(?:[0-9A-Za-z-]+(?:\.[0-9A-Za-z-]+)*)"
SEMVER = re.compile(rf"({NUMBER})\.({NUMBER})\.({NUMBER})(?:-({PART}))?(?:\+({PART}))?")
TOKEN = re.compile(r"%?[A-Za-z][A-Za-z0-9-]*|[0-9]+|->|[=,:;(){}<>/.@_]")
VERSION = re.compile(r"[0-9A-Za-z+-]+(?:\.[0-9A-Za-z+-]+)*")


class Fault(Exception):
    """Why a text is refused: the reason, the place, and later the name of the file."""

    def __init__(self, reason, at, file=None):
        super().__init__(reason)
        self.reason, self.at, self.file = reason, at, file


def version_of(text):
    """The parts of a semantic version, or None."""
    found = SEMVER.fullmatch(text)
    if not found or any(re.fullmatch(r"0[0-9]+", it) for it in (found[4] or "").split(".")):
        return None
    return found.groups()


def precedence(text):
    """A key by which versions are ordered: build metadata counts for nothing."""
    major, minor, patch, before, _ = version_of(text)
    parts = [(0, int(it), "") if it.isdigit() else (1, 0, it) for it in (before or "").split(".")]
    return int(major), int(minor), int(patch), before is None, parts if before else []


@dataclass
class Name:
    text: str
    at: int


@dataclass
class Path:
    """Where an interface or a world is declared; `package` is None for the own package."""

    at: int
    package: Any
    name: Name


@dataclass
class Item:
    """An item of an interface, a world, a package or a file, behind its gates."""

    kind: str
    at: int
    gates: list = field(default_factory=list)
    name: Any = None
    body: Any = None


class Reader:
    """A text, and the place up to which it is read."""

    def __init__(self, text):
        self.text = text
        self.at = 1 if text.startswith("\ufeff") else 0
        self.skip_gaps()

    # ---- tokens

    def skip_gaps(self):
        while self.at < len(self.text):
            if self.text[self.at] in " \t\r\n":
                self.at += 1
            elif self.text.startswith("//", self.at):
                end = self.text.find("\n", self.at)
                self.at = len(self.text) if end < 0 else end
            elif self.text.startswith("/*", self.at):
                self.skip_comment()
            else:
                return

    def skip_comment(self):
        start, depth = self.at, 0
        for mark in re.compile(r"/\*|\*/").finditer(self.text, start):
            depth += 1 if mark[0] == "/*" else -1
            if depth == 0:
                self.at = mark.end()
                return
        raise Fault("BadToken", start)

    def token(self):
        """The next token, or None at the end of the text."""
        if self.at == len(self.text):
            return None
        found = TOKEN.match(self.text, self.at)
        if not found:
            raise Fault("BadToken", self.at)
        word = found[0].lstrip("%")
        if word[:1].isalpha() and not LABEL.fullmatch(word) and found[0] not in KEYWORDS:
            raise Fault("BadToken", self.at)
        return found[0]

    def take(self):
        token = self.token()
        self.at += len(token)
        self.skip_gaps()
        return token

    def fault(self):
        """The fault of the next token where none of what may stand there does."""
        token = self.token()
        left_out = token in LEFT_OUT or token in ("async", "from")
        return Fault("Unsupported" if left_out else "Unexpected", self.at)

    def next_is(self, *wanted):
        return self.token() in wanted

    def expect(self, token):
        if not self.next_is(token):
            raise self.fault()
        self.take()

    def name(self):
        token, at = self.token(), self.at
        if not token or token in KEYWORDS or not token.lstrip("%")[:1].isalpha():
            raise self.fault()
        self.take()
        return Name(token.lstrip("%"), at)

    def version(self):
        found = VERSION.match(self.text, self.at)
        if not found or not version_of(found[0]):
            raise Fault("BadToken", self.at)
        self.at = found.end()
        self.skip_gaps()
        return found[0]

    def optional_version(self):
        if not self.next_is("@"):
            return None
        self.at += 1
        return self.version()

    # ---- lists

    def listed(self, one, closing, least=1, most=None):
        """Things behind commas, up to the mark that closes the list."""
        things = []
        while len(things) < least or not self.next_is(closing):
            things.append(one())
            if not self.next_is(",") or len(things) == most:
                break
            self.take()
        if self.next_is(",") and len(things) == most:
            self.take()
        self.expect(closing)
        return things

    def members(self, one):
        """Things in braces, one behind the other."""
        self.expect("{")
        things = []
        while not self.next_is("}", None):
            things.append(one())
        self.expect("}")
        return things

    # ---- types

    def type(self, borrows=True, room=MOST_DEPTH):
        """A type: a kind, and what it holds."""
        token, at = self.token(), self.at
        known = token in PRIMITIVES | LEFT_OUT | {"list", "option", "tuple", "result"}
        if room == 0 and (known or token == "borrow" and borrows):
            raise Fault("TooDeep", at)
        if token in PRIMITIVES:
            return self.take(), None
        if token in LEFT_OUT:
            return self.left_out_type(room)
        if token == "borrow" and borrows:
            self.take()
            self.expect("<")
            name = self.name()
            self.expect(">")
            return "borrow", name
        if token in ("list", "option", "tuple", "result"):
            self.take()
            return getattr(self, f"{token}_type")(lambda: self.type(borrows, room - 1))
        return "named", self.name()

    def left_out_type(self, room):
        at, word = self.at, self.take()
        if word in ("f32", "f64", "error-context") or not self.next_is("<"):
            return "left out", (word, at)
        self.take()
        while not self.next_is(">"):
            self.type(True, room - 1)
            if self.next_is(","):
                self.take()
        self.take()
        return "left out", (word, at)

    def list_type(self, one):
        self.expect("<")
        element = one()
        if self.next_is(","):
            self.take()
            token = self.token()
            if not token or not token.isdigit() or not 0 < int(token) < 2**32:
                raise self.fault()
            self.take()
            self.expect(">")
            return "fixed list", (element, int(token))
        self.expect(">")
        return "list", element

    def option_type(self, one):
        self.expect("<")
        payload = one()
        self.expect(">")
        return "option", payload

    def tuple_type(self, one):
        self.expect("<")
        return "tuple", self.listed(one, ">")

    def result_type(self, one):
        if not self.next_is("<"):
            return "result", (None, None)
        self.take()
        ok = None
        if self.next_is("_"):
            self.take()
            if not self.next_is(","):
                raise self.fault()
        else:
            ok = one()
        error = None
        if self.next_is(","):
            self.take()
            error = one()
        self.expect(">")
        return "result", (ok, error)

    # ---- functions and types with names

    def named_type(self):
        name = self.name()
        self.expect(":")
        return name, self.type()

    def params(self):
        self.expect("(")
        return self.listed(self.named_type, ")", least=0)

    def func(self):
        """Parameters, the result or None, and the place of `async` or None."""
        at = self.at if self.next_is("async") else None
        if at is not None:
            self.take()
        self.expect("func")
        params, answer = self.params(), None
        if self.next_is("->"):
            self.take()
            answer = self.type(borrows=False)
        self.expect(";")
        return params, answer, at

    def case(self):
        name, payload = self.name(), None
        if self.next_is("("):
            self.take()
            payload = self.type()
            self.expect(")")
        return name, payload

    def method(self):
        item = self.gated()
        if self.next_is("constructor"):
            item.kind, item.name = "constructor", Name(self.token(), self.at)
            self.take()
            item.body = self.params(), None, None
            self.expect(";")
            return item
        item.name = self.name()
        self.expect(":")
        item.kind = "static" if self.next_is("static") else "method"
        if item.kind == "static":
            self.take()
        item.body = self.func()
        return item

    def typedef(self, item):
        """The rest of a type's declaration, behind its keyword."""
        item.kind, keyword = "type", self.take()
        item.name = self.name()
        if keyword == "type":
            self.expect("=")
            item.body = "alias", self.type()
            self.expect(";")
        elif keyword == "resource":
            methods = []
            if self.next_is(";"):
                self.take()
            else:
                methods = self.members(self.method)
            item.body = "resource", methods
        else:
            one = {"record": self.named_type, "variant": self.case}.get(keyword, self.name)
            self.expect("{")
            most = MOST_FLAGS if keyword == "flags" else None
            item.body = keyword, self.listed(one, "}", most=most)
        return item

    # ---- paths and gates

    def path(self, first=None):
        first = first or self.name()
        if not self.next_is(":"):
            return Path(first.at, None, first)
        self.take()
        return self.foreign(first)

    def foreign(self, first):
        """The rest of a path behind its namespace and `:`."""
        package = self.name()
        self.expect("/")
        name = self.name()
        return Path(first.at, (first.text, package.text, self.optional_version()), name)

    def renamed(self, least):
        name, new = self.name(), None
        if least or self.next_is("as"):
            self.expect("as")
            new = self.name()
        return name, new

    def use(self, item):
        self.take()
        item.kind = "use"
        path = self.path()
        self.expect(".")
        self.expect("{")
        item.body = path, self.listed(lambda: self.renamed(False), "}", least=0)
        self.expect(";")
        return item

    def gate(self):
        at = self.at
        if not self.text[at + 1 : at + 2].isalpha():
            raise Fault("BadToken", at + 1)
        self.expect("@")
        kind = self.name()
        wanted = {"since": "version", "deprecated": "version", "unstable": "feature"}
        if kind.text not in wanted:
            raise Fault("Unexpected", kind.at)
        self.expect("(")
        field_name = self.name()
        if field_name.text != wanted[kind.text]:
            raise Fault("Unexpected", field_name.at)
        self.expect("=")
        if field_name.text == "feature":
            value = self.name().text
        elif self.text[self.at : self.at + 1].isdigit():
            value = self.version()
        else:
            raise self.fault()
        self.expect(")")
        return kind.text, value, at

    def gated(self):
        gates = []
        while self.next_is("@"):
            gates.append(self.gate())
        return Item("", self.at, gates)

    # ---- interfaces and worlds

    def interface_item(self):
        item = self.gated()
        if self.next_is("use"):
            return self.use(item)
        if self.next_is("type", "record", "variant", "enum", "flags", "resource"):
            return self.typedef(item)
        item.kind, item.name = "func", self.name()
        self.expect(":")
        item.body = self.func()
        return item

    def world_item(self):
        item = self.gated()
        if self.next_is("use"):
            return self.use(item)
        if self.next_is("type", "record", "variant", "enum", "flags", "resource"):
            return self.typedef(item)
        if self.next_is("include"):
            self.take()
            item.kind = "include"
            path, renames = self.path(), []
            if self.next_is("with"):
                self.take()
                self.expect("{")
                renames = self.listed(lambda: self.renamed(True), "}")
            else:
                self.expect(";")
            item.body = path, renames
            return item
        if not self.next_is("import", "export"):
            raise self.fault()
        side = self.take()
        item.kind, item.body = self.extern()
        item.name = item.body[0]
        item.kind = side, item.kind
        return item

    def extern(self):
        """What is imported or exported: its kind, and its name or path with what it is."""
        name = self.name()
        if not self.next_is(":"):
            self.expect(";")
            return "path", (Path(name.at, None, name),)
        self.take()
        if self.next_is("interface"):
            self.take()
            return "interface", (name, self.members(self.interface_item))
        if self.next_is("func", "async"):
            return "func", (name, self.func())
        path = self.foreign(name)
        self.expect(";")
        return "path", (path,)

    def package_item(self, outer=False):
        item = self.gated()
        if self.next_is("interface", "world"):
            item.kind = self.take()
            item.name = self.name()
            one = self.interface_item if item.kind == "interface" else self.world_item
            item.body = self.members(one)
            return item
        if item.gates or not self.next_is("use", *(["package"] if outer else [])):
            raise self.fault()
        item.kind = self.take()
        if item.kind == "use":
            item.body, item.name = self.path(), None
            if self.next_is("as"):
                self.take()
                item.name = self.name()
            self.expect(";")
        else:
            item.name = self.package_name()
            item.body = self.members(self.package_item)
        return item

    def package_name(self):
        first = self.name()
        self.expect(":")
        name = self.name()
        return (first.text, name.text, self.optional_version()), first.at

    def file(self):
        """The name of the package or None, and the items."""
        package, items = None, []
        if self.next_is("package"):
            start = self.at
            self.take()
            name = self.package_name()
            if self.next_is("{"):
                items.append(Item("package", start, [], name, self.members(self.package_item)))
            else:
                self.expect(";")
                package = name
        while self.token() is not None:
            items.append(self.package_item(outer=True))
        return package, items


def read(text):
    """The tree of a text, or a Fault."""
    return Reader(text).file()


def line_and_column(text, at):
    """Both from 1; a column is a character."""
    before = text[:at]
    return before.count("\n") + 1, at - (before.rfind("\n") + 1) + 1

"""Judges a bake: `engine` runs its core modules, `hux live` does what passes between them, and what
happens is held to what happened in the script's play.
"""

from pathlib import Path

from .core_modules import CoreModule
from .engine import CoreInstance, Function, Stopped
from .machine import PAGE, Machine, value_of


class Misjudged(Exception):
    """A bake does not lead to the events of its script."""


class Trapped(Exception):
    """All calls that were open are over."""


class Guest:
    """A component whose core modules run: its items, by the plan of `hux live`."""

    def __init__(self, session, number, path):
        self.session, self.number, self.data = session, number, Path(path).read_bytes()
        self.modules, self.instances, self.memory, self.lifted = [], [], None, {}
        self.items = {sort: [] for sort in ("func", "table", "memory", "global")}

    # Lines of the plan

    def module(self, at, size):
        self.modules.append(CoreModule(self.data[int(at):int(at) + int(size)]))

    def instance(self, module, *args):
        given = {name: int(instance) for name, instance in (it.split("=") for it in args)}
        self.instances.append(CoreInstance(
            self.modules[int(module)],
            lambda of, name: self.instances[given[hex_of(of)]][name], self).exports)

    def inline(self, *items):
        named = [(name, *item.split(":")) for name, item in (it.split("=") for it in items)]
        exports = {name_of(name): self.items[sort][int(n)] for name, sort, n in named}
        self.instances.append(exports)

    def alias(self, sort, instance, name):
        self.items[sort].append(self.instances[int(instance)][name_of(name)])

    def lower(self, number, _name, params, results, *_):
        self.made(number, kinds_of(params), kinds_of(results))

    def resource(self, kind, number):
        self.made(number, ["i32"], [] if kind == "drop" else ["i32"])

    def made(self, number, params, results):
        def call(*args):
            return self.session.call(self, number, params, args)
        self.items["func"].append(Function(params, results, call))

    def lift(self, number, name, *_):
        self.lifted[name_of(name)] = self.items["func"][int(number)]

    def plan(self, kind, *words):
        if kind == "memory":
            self.memory = self.items["memory"][int(words[0])]
        elif kind not in ("pages", "type", "func"):
            getattr(self, kind)(*words)

    # What its core modules do to their memory

    def write(self, instance, to, data):
        self.session.act(f"write {to} {data.hex() or '-'}")
        instance.memory[to:to + len(data)] = data

    def grow(self, instance, pages):
        before = self.session.act(f"grow {pages}")[1]
        if before == "none":
            return -1
        instance.memory.extend(bytes(pages * PAGE))
        return int(before)


def hex_of(name):
    return name.encode().hex() or "-"


def name_of(digits):
    return "" if digits == "-" else bytes.fromhex(digits).decode()


def kinds_of(word):
    return [] if word == "-" else word.split(",")


class Session:
    """A bake that is played: `told` has its events."""

    def __init__(self, machine):
        self.machine, self.guests, self.told, self.stopped = machine, [], [], None
        for kind, *words in machine.plan:
            if kind == "component":
                self.guests.append(Guest(self, len(self.guests), name_of(words[0])))
            else:
                self.guests[-1].plan(kind, *words)

    def act(self, move):
        """Makes a move: its event, behind what was written for a guest."""
        event, written = self.machine.act(move)
        for instance, at, data in written:
            self.guests[instance].memory.memory[at:at + len(data)] = data
        if event[0] == "error:":
            self.told.append(["closed"])
            raise Trapped
        if event[0] not in ("done", "grown"):
            self.told.append(event)
        if event[0] == "trapped":
            raise Trapped
        return event

    def run(self, function, args):
        """A core function runs and returns: the event that comes of that."""
        try:
            result = function.call(*args)
        except Stopped as why:
            self.stopped = why
            return self.act("unreachable")
        kind = function.results[0] if function.results else None
        return self.act("return" if kind is None else f"return {kind}:{result}")

    def call(self, guest, number, params, args):
        """A guest calls out. What comes of it runs, until the guest goes on with the result."""
        sent = [f"{kind}:{value}" for kind, value in zip(params, args)]
        event = self.act(" ".join(["call", number, *sent]))
        while event[0] != "resume":
            entered = self.guests[int(event[1])].items["func"][int(event[2])]
            received = [value_of(it)[1] if ":" in it else int(it) for it in event[3:]]
            event = self.run(entered, received)
        return value_of(event[2])[1] if len(event) > 2 else None

    def root_call(self, name):
        guest = next(it for it in self.guests if name in it.lifted)
        try:
            self.act(f"begin {guest.number}")
            self.run(guest.lifted[name], [])
        except Trapped:
            pass


def is_alike(wanted, found):
    """Is an event the wanted one, of which words may be left open?"""
    return len(wanted) == len(found) and all(a in ("*", b) for a, b in zip(wanted, found))


def judge(files, trace, roots, ends):
    """Plays the components of a bake, and holds its events to those of the script's play."""
    with Machine(files) as machine:
        session = Session(machine)
        for name in roots:
            session.root_call(name)
        compare(trace.told, session)
        hold_ends(session, ends)


def hold_ends(session, ends):
    for name in ends:
        session.root_call(name)
        if session.told[-1] != ["ended"]:
            raise Misjudged(f"{name}: {session.stopped}")


def compare(wanted, session):
    for n, event in enumerate(wanted):
        found = session.told[n] if n < len(session.told) else ["nothing"]
        if not is_alike(event, found):
            why = f"; {session.stopped}" if session.stopped else ""
            told = f"event {n} is {' '.join(found)}, and was {' '.join(event)}{why}"
            raise Misjudged(told)
    if len(session.told) > len(wanted):
        raise Misjudged(f"more events than in the play: {' '.join(session.told[len(wanted)])}")

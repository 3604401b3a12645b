"""A second engine: python3 engine.py FILE.. plays the core modules of some components, and calls
the first function that the last one exports. It knows of `hux live` what crates/cm_live and
crates/cm_live_plan say, tells each change of a memory, and has an interpreter of its own for core
modules, of integers alone (core.py). HUX names a program for ../../hux."""

import os
import subprocess
import sys

from core import Module, Stop

TOP = os.path.join(os.path.dirname(os.path.abspath(__file__)), "../..")
HUX = os.environ.get("HUX", os.path.join(TOP, "hux"))
PAGE = 65536
MASK = {"i32": 0xFFFFFFFF, "i64": 0xFFFFFFFFFFFFFFFF}


class Trapped(Exception):
    """All that were on the stack are over."""


def text(word):
    return "" if word == "-" else bytes.fromhex(word).decode()


def number(word):
    return int(word.partition(":")[2] or word)


class Guest:
    """A component: its items by index, as the lines of the plan add them."""

    def __init__(self, engine, index, file):
        self.engine, self.index, self.file = engine, index, file
        self.modules, self.instances, self.lifts = [], [], {}
        self.items = {"func": [], "table": [], "memory": [], "global": []}
        self.memory, self.known = None, b""

    def module(self, at, size):
        with open(self.file, "rb") as file:
            self.modules.append(Module(file.read()[int(at):int(at) + int(size)]))

    def instance(self, module, *given):
        pairs = (it.split("=") for it in given)
        imports = {text(name): self.instances[int(at)] for name, at in pairs}
        self.instances.append(self.modules[int(module)].instantiate(imports))

    def inline(self, *given):
        pairs = (it.split("=") for it in given)
        parts = ((text(name), it.split(":")) for name, it in pairs)
        self.instances.append({name: self.items[sort][int(at)] for name, (sort, at) in parts})

    def alias(self, sort, instance, name):
        self.items[sort].append(self.instances[int(instance)][text(name)])

    def lower(self, func, _, params, results, *_encoding):
        kinds = [] if results == "-" else results.split(",")
        self.call_of(func, params.split(",") if params != "-" else [], kinds)

    def resource(self, what, func):
        self.call_of(func, ["i32"], [] if what == "drop" else ["i32"])

    def call_of(self, func, params, results):
        self.items["func"].append(
            lambda *values: self.engine.call(self, func, params, results, values))

    def lift(self, func, name, _, results, *_encoding):
        self.lifts[int(func)] = [] if results == "-" else results.split(",")
        self.first = getattr(self, "first", (int(func), text(name)))

    def set_memory(self, at):
        self.memory = self.items["memory"][int(at)]

    def pages(self, count, *_most):
        self.known = bytes(int(count) * PAGE)

    def skip(self, *_row):
        """A row of types, which who tells each change of a memory need not know."""


class Engine:
    """What plays the guests of a set: it says moves, and hears events."""

    def __init__(self, files):
        self.machine = subprocess.Popen([HUX, "live", *files], text=True, bufsize=1,
                                        stdin=subprocess.PIPE, stdout=subprocess.PIPE)
        self.guests = []
        while (words := self.read())[0] != "ready":
            self.plan(*words)

    def plan(self, kind, *words):
        names = {"memory": "set_memory", "type": "skip", "func": "skip"}
        if kind == "component":
            self.guests.append(Guest(self, len(self.guests), text(words[0])))
        else:
            getattr(self.guests[-1], names.get(kind, kind))(*words)

    def read(self):
        return self.machine.stdout.readline().split() or sys.exit("hux live has ended")

    def play(self, move):
        """Makes a move, and answers the words of the event that comes of it."""
        print(move, file=self.machine.stdin, flush=True)
        while (words := self.read())[0] == "mem":
            guest, at, data = self.guests[int(words[1])], int(words[2]), bytes.fromhex(words[3])
            guest.memory[at:at + len(data)] = data
            guest.known = guest.known[:at] + data + guest.known[at + len(data):]
        if words[0] == "trapped":
            raise Trapped(" ".join(words))
        if words[0] == "error:" or words[-1] == "none":
            sys.exit(" ".join(words))
        return words

    def tell(self, guest):
        """Tells what has changed in a guest's memory."""
        if guest.memory is None:
            return
        now = bytes(guest.memory)
        if len(now) > len(guest.known):
            self.play(f"grow {(len(now) - len(guest.known)) // PAGE}")
            guest.known += bytes(len(now) - len(guest.known))
        for at in range(0, len(now), 256):
            if now[at:at + 256] != guest.known[at:at + 256]:
                self.play(f"write {at} {now[at:at + 256].hex()}")
        guest.known = now

    def call(self, guest, func, params, results, values):
        """A guest calls out: what comes of it runs, until the guest goes on."""
        self.tell(guest)
        words = [f"{kind}:{value & MASK[kind]}" for kind, value in zip(params, values)]
        event = self.play(" ".join(["call", func, *words]))
        while event[0] != "resume":
            event = self.enter(*event)
        return number(event[2]) if results else None

    def enter(self, kind, instance, func, *values):
        """A core function begins, and returns: the event that comes of that."""
        guest, index = self.guests[int(instance)], int(func)
        results = {"enter": guest.lifts.get(index, []), "realloc": ["i32"]}.get(kind, [])
        return self.run(guest, results, guest.items["func"][index], map(number, values))

    def run(self, guest, results, func, values):
        try:
            answer = func(*values)
        except Stop as stop:
            print(stop, file=sys.stderr)
            return self.play("unreachable")
        self.tell(guest)
        words = [f"{kind}:{answer & MASK[kind]}" for kind in results]
        return self.play(" ".join(["return", *words]))

    def root(self):
        """Calls the first function that the last component exports, and prints what it answers."""
        guest = self.guests[-1]
        index, name = guest.first

        def body():
            answer = guest.items["func"][index]()
            print(f"{name} answers {'nothing' if answer is None else answer}")

        self.play(f"begin {guest.index}")
        self.run(guest, [], body, [])


def main():
    engine = Engine(sys.argv[1:])
    try:
        engine.root()
    except Trapped as trapped:
        print(trapped)
        return 3
    finally:
        engine.machine.stdin.close()
        engine.machine.wait()
    return 0


if __name__ == "__main__":
    sys.exit(main())

"""Plays on the proved machine whose allocators answer by themselves; each becomes a script."""

from baking.layouts import up
from baking.machine import Machine

FIRST_ROOM = 32769      # where an allocator's room begins: not aligned


class Play:
    """A play of these components. `bodies` has of each what it does when it is entered next; a
    body is moves, a list or a generator, which sees the last event as `event`.
    """

    def __init__(self, builds, folder, pages=None):
        self.files = [folder / f"{n}.wasm" for n in range(len(builds))]
        for file, build in zip(self.files, builds):
            file.write_bytes(build.bytes())
        self.machine = Machine(self.files)
        pages = pages or [1] * len(builds)
        self.machine.make_set(pages)
        self.lines, self.begins = [" ".join(["pages", *map(str, pages)])], []
        self.bodies, self.rooms = [[] for _ in builds], [FIRST_ROOM] * len(builds)
        self.answers, self.event, self.guest = [], None, None

    def run(self, root, moves):
        """A root call of a component, which makes these moves and returns."""
        self.begins.append(f"begin {root}")
        self.event = self.machine.act(f"begin {root}")[0]
        stack = [(root, iter(moves))]
        while self.event[0] not in ("ended", "trapped", "error:"):
            instance, body = stack[-1]
            move = next(body, "return")
            self.move(instance, move)
            if move.startswith("return"):
                stack.pop()
            if self.event[0] in ("realloc", "enter", "dtor", "postreturn"):
                stack.append(self.entered())

    def move(self, instance, move):
        if instance != self.guest:
            self.lines.append(f"guest {instance}")
            self.guest = instance
        self.lines.append(move)
        self.event = self.machine.act(move)[0]

    def entered(self):
        """The instance that is entered, and what it does."""
        instance = int(self.event[1])
        if self.event[0] == "realloc":
            return instance, iter(self.answer(instance, *map(int, self.event[5:7])))
        return instance, iter(self.bodies[instance].pop(0) if self.bodies[instance] else [])

    def answer(self, instance, alignment, count):
        if self.answers:
            return self.answers.pop(0)
        start = up(self.rooms[instance], alignment)
        self.rooms[instance] = start + count + 1
        return [f"return i32:{start}"]

    def script(self):
        """The script of all that was played; the machine is left."""
        self.machine.__exit__()
        return "\n".join(self.lines + self.begins) + "\n"

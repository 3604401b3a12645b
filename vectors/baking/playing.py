"""Plays a script on the proved machine (`hux live`), and keeps what each guest did and was told."""

from .components import Component
from .expecting import Core, Expecting, Region
from .layouts import MOST_PARAMS, MOST_RESULTS, params_of, results_of
from .machine import PAGE, Machine, bytes_of, values_of
from .refusals import NotBaked
from .scripts import Move

ENTRIES = ("enter", "realloc", "postreturn", "dtor")
CLOSED = 21             # the trap of a call into an instance that a trap has closed
OWN_STOPS = (3, 4)      # traps of what passes the end of a memory


class Segment:
    """What a guest does from an entry to its return: steps, of each the move and what came of it.
    `expected` says what it is to find at the entry.
    """

    def __init__(self, instance, kind, core, args, expected=None):
        self.instance, self.kind, self.core, self.args = instance, kind, core, args
        self.expected, self.steps = expected, []


class Step:
    """A move, its event, and of a call what the guest is to find when it goes on."""

    def __init__(self, move, event):
        self.move, self.event, self.expected = move, event, None


class Trace:
    """The segments of each instance in the order of entries, the root calls, and how each ends:
    None, or the number of a trap. `told` has the events, with `*` for each pointer that an
    allocator decides.
    """

    def __init__(self, files, script):
        self.components = [Component(file.read_bytes()) for file in files]
        self.segments, self.roots, self.ends = [[] for _ in files], [], []
        self.memory = [bytearray(pages * PAGE) for pages in script.pages]
        self.given, self.told = [[] for _ in files], []
        self.moves = [list(moves) for moves in script.moves]
        self.needs_recorded = self.spoils = None
        self.last = {}      # the line of the last move of each root call
        with Machine(files) as machine:
            machine.make_set(script.pages)
            for root, line in script.begins:
                self.ends.append(self.root_call(machine, root, line))

    def component(self, segment):
        return self.components[segment.instance]

    def last_line(self, root, line):
        """The line of the move that ended a root call; that of its `begin` where none did."""
        return self.last.get(self.roots.index(root), line)

    def root_call(self, machine, root, line):
        event, _ = machine.act(f"begin {root}")
        stack = [Segment(root, "root", None, [])]
        self.roots.append(stack[0])
        if event[0] == "error:":
            self.told.append(["closed"])
            return CLOSED
        self.told.append(event)
        while event[0] not in ("ended", "trapped"):
            event = self.move(machine, stack, line)
        return int(event[1]) if event[0] == "trapped" else None

    def move(self, machine, stack, line):
        """Makes the next move of the instance that acts, and answers its event."""
        top = stack[-1]
        left = self.moves[top.instance]
        move = left.pop(0) if left else Move("unreachable", line)
        self.last[len(self.roots) - 1] = move.line
        event, written = machine.act(move.text)
        top.steps.append(Step(move, event))
        self.mirror(top, move, event, written)
        if event[0] == "trapped":
            self.look_at_trap(top, move, int(event[1]))
        else:
            self.look_at_sent(top, move)
        if move.words[0] == "return":
            self.returned(stack.pop(), move)
        self.follow(stack, event)
        return event

    # What the memories hold

    def mirror(self, segment, move, event, written):
        memory = self.memory[segment.instance]
        if move.words[0] == "write" and event[0] == "done":
            data, at = bytes_of(move.words[2]), int(move.words[1])
            memory[at:at + len(data)] = data
            self.look_at_write(segment, move, at, at + len(data))
        elif event[0] == "grown" and event[1] != "none":
            memory.extend(bytes(int(move.words[1]) * PAGE))
        for instance, at, data in written:
            self.memory[instance][at:at + len(data)] = data

    # Where another allocator would change the play

    def look_at_write(self, segment, move, start, end):
        """Does an allocator write over what it moves?"""
        if segment.kind == "realloc":
            old, old_size = segment.args[0][1], segment.args[1][1]
            if start < old + old_size and old < end:
                self.spoils = NotBaked("the allocator writes over what it moves", move.line)

    def want_recorded(self, why, move):
        """Keeps the first reason why the allocator cannot be replaced."""
        if self.needs_recorded is None:
            self.needs_recorded = NotBaked(why, move.line)

    def look_at_trap(self, segment, move, trap):
        has_allocator = any(it.kind == "realloc" for it in self.segments[segment.instance])
        if segment.kind == "realloc":
            self.want_recorded("the allocator makes the move that traps", move)
        elif trap in OWN_STOPS and has_allocator:
            self.want_recorded("where a memory ends decides, which has an allocator", move)

    def look_at_sent(self, segment, move):
        """Does a guest hand on the room that its allocator gave?"""
        words = move.words
        core = self.component(segment).core
        if words[0] == "call" and core[int(words[1])].kind == "lower":
            made = core[int(words[1])]
            types, args, most = params_of(made.func), values_of(words[2:]), MOST_PARAMS
        elif words[0] == "return" and segment.kind == "enter":
            made = core[segment.core]
            types, args, most = results_of(made.func), values_of(words[1:]), MOST_RESULTS
        else:
            return
        sent = Expecting(self.memory[segment.instance], made.options["encoding"])
        sent.values(types, args, most)
        given = self.given[segment.instance]
        if any(start < b and a < end for start, end in sent.rooms for a, b in given):
            self.want_recorded("the guest hands on what its allocator gave", move)

    def returned(self, segment, move):
        """Notes the room that an allocator gave."""
        if segment.kind == "realloc" and segment.args[3][1]:
            start = values_of(move.words[1:])[0][1]
            self.given[segment.instance].append((start, start + segment.args[3][1]))

    # What an event tells

    def follow(self, stack, event):
        """Goes where an event leads: back to a caller, or into a core function."""
        if event[0] == "resume":
            args = values_of(event[2:])
            step = stack[-1].steps[-1]
            step.expected = self.result(stack[-1], step.move, args)
            self.tell(event[:2], step.expected, event[2:])
        elif event[0] in ENTRIES:
            self.enter(stack, event[0], int(event[1]), int(event[2]), event)
        elif event[0] not in ("done", "grown"):
            self.told.append(event)

    def enter(self, stack, kind, instance, core, event):
        if kind in ("enter", "postreturn"):
            args = values_of(event[3:])
        else:
            args = [("i32", int(word)) for word in event[3:]]
        segment = Segment(instance, kind, core, args)
        if kind == "enter":
            segment.expected = self.arguments(stack[-1], instance, core, args)
        stack.append(segment)
        self.segments[instance].append(segment)
        if kind == "realloc":
            event = event[:3] + ["*"] + event[4:]
        self.tell(event[:3], segment.expected, event[3:])

    def tell(self, head, expected, words):
        """Keeps an event; its words that point to regions are left open."""
        pointers = [it.index for it in expected or [] if isinstance(it, Region)]
        self.told.append(head + ["*" if n in pointers else it for n, it in enumerate(words)])

    def arguments(self, caller, instance, core, args):
        """What the callee is to find: `caller` called it by its last move."""
        func = self.component(caller).core[int(caller.steps[-1].move.words[1])].func
        encoding = self.components[instance].core[core].options["encoding"]
        sent = Expecting(self.memory[instance], encoding)
        return sent.values(params_of(func), args, MOST_PARAMS)

    def result(self, caller, move, args):
        """What the caller is to find where its call returns."""
        made = self.component(caller).core[int(move.words[1])]
        if made.kind != "lower":
            return [Core(n, *arg) for n, arg in enumerate(args)]
        if made.func[2] and not args:       # it gave a place for the result, as its last value
            args = values_of(move.words[-1:])
        found = Expecting(self.memory[caller.instance], made.options["encoding"])
        return found.values(results_of(made.func), args, MOST_RESULTS)

"""Bakes a play: component files and a script become one component that checks itself."""

import tempfile
from pathlib import Path

from .bundling import bundled, rebuilt
from .guests import Guest
from .judging import judge
from .machine import PAGE, links_of, unbundled
from .playing import Trace
from .refusals import NotBaked
from .scripts import Script
from .wast import spelled

OWN_LIMIT = "the limit is this project's own"
NOT_OF_OTHERS = {1: "core modules cannot pass other core values", 9: OWN_LIMIT, 14: OWN_LIMIT,
                 17: "the standard has no such rule", 18: OWN_LIMIT,
                 19: "core modules cannot call what they do not import", 20: "it is of no rule"}


class Baked:
    """A component that checks itself: `data`, and what its exports come to, root calls first."""

    def __init__(self, trace, links, pages, recorded):
        self.trace, self.recorded = trace, recorded
        self.roots = [f"run{n}" for n in range(len(trace.roots))]
        self.well = all(end is None for end in trace.ends)
        numbers = range(len(trace.components))
        self.ends = [f"end{n}" for n in numbers if self.well and trace.segments[n]]
        files = [self.file(n, pages[n]) for n in numbers]
        exports = [(root.instance, name) for root, name in zip(trace.roots, self.roots)]
        exports += [(int(name.removeprefix("end")), name) for name in self.ends]
        self.data = bundled(files, trace.components, links, exports)

    def file(self, number, pages):
        """The file of a component, with what it exports: its root calls, and its end."""
        trace, component = self.trace, self.trace.components[number]
        most_pages = len(trace.memory[number]) // PAGE
        guest = Guest(component, trace.segments[number], pages, most_pages, self.recorded)
        exports = []
        for name, root in zip(self.roots, trace.roots):
            if root.instance == number:
                guest.add_root(name, root)
                exports.append(name)
        if f"end{number}" in self.ends:
            guest.add_end(f"end{number}")
            exports.append(f"end{number}")
        return rebuilt(component, guest, exports)

    def wast(self, comments):
        ends = self.trace.ends + [None] * len(self.ends)
        return spelled(comments, self.data, self.roots + self.ends, ends)

    def judge(self):
        with tempfile.TemporaryDirectory() as folder:
            path = Path(folder) / "baked.wasm"
            path.write_bytes(self.data)
            judge(unbundled(path, Path(folder)), self.trace, self.roots, self.ends)


def refuse(trace, begins, recorded):
    """Raises where the play cannot be baked truthfully."""
    for end, root, (_, line) in zip(trace.ends, trace.roots, begins):
        if end in NOT_OF_OTHERS:
            raise NotBaked(f"trap {end}: {NOT_OF_OTHERS[end]}", trace.last_line(root, line))
    if recorded and trace.spoils:
        raise trace.spoils
    if trace.needs_recorded and not recorded:
        why = trace.needs_recorded
        raise NotBaked(f"{why.why}: bake it with --recorded", why.line)


def bake(files, text, recorded=False):
    """Bakes files and a script's text, and judges what was made."""
    script = Script(text, len(files))
    trace = Trace([Path(file) for file in files], script)
    refuse(trace, script.begins, recorded)
    links = links_of(files)
    baked = Baked(trace, links, script.pages, recorded)
    baked.judge()
    return baked

"""Sets that `hux live` plays line by line, and the memories that a client of it keeps.

What a client knows of memories, by its own moves and by what it is told, is held against the set by
`memory` statements of `hux play`.
"""

import re
from dataclasses import dataclass, field

from row_runs import Folder
from row_texts import bytes_of

PAGE = 65_536


@dataclass
class Played:
    """A set that rows play line by line."""

    files: list
    pages: str
    lines: bytes
    names: list = field(init=False)

    def __post_init__(self):
        self.names = [f"{it}.wasm" for it in range(len(self.files))]

    def folder(self):
        return Folder(dict(zip(self.names, self.files)))

    def start(self, folder, out, *options, **others):
        """Starts to play the set."""
        words = ["live", "--pages", self.pages, *options, *self.names]
        return folder.start("hux", words, out, **others)

    def serve(self, folder, given, *options, **others):
        """Serves lines: what was answered to them, behind the plan, and what came of the run."""
        ran = folder.run("hux", "live", "--pages", self.pages, *options, *self.names, given=given,
                         **others)
        _, ready, answers = ran.out.partition(b"ready\n")
        return ready + answers, ran


def replies_of(answers):
    """For each line that was answered, what was written into memories before, and the answer."""
    told = []
    for line in answers.decode().splitlines()[1:]:
        if line.startswith("mem "):
            _, instance, at, digits = line.split(" ")
            told.append((int(instance), int(at), b"" if digits == "-" else bytes.fromhex(digits)))
        else:
            yield told, line
            told = []


class Mirror:
    """The memories that a client keeps, who knows its own moves and what it is told; and a script
    that makes the same moves, and holds the memories of the set to them."""

    def __init__(self, counts):
        self.memories = [bytearray(int(it) * PAGE) for it in counts]
        self.statements, self.actor = [f"pages {' '.join(counts)}"], None

    def add(self, said, told, reply, most):
        """A line that was answered; behind it at most so many bytes of each memory are held."""
        words = said.split(" ")
        if reply.startswith("error: "):
            return
        self.statements.append(said if words[0] == "begin" else f"guest {self.actor}\n{said}")
        if words[0] == "write" and reply == "done":
            held = bytes_of(words[2])
            self.memories[self.actor][int(words[1]):int(words[1]) + len(held)] = held
        if words[0] == "grow" and reply != "grown none":
            self.memories[self.actor] += bytes(int(words[1]) * PAGE)
        for instance, at, held in told:
            self.memories[instance][at:at + len(held)] = held
        found = re.match(r"(?:resume|enter|realloc|postreturn|dtor) (\d+)", reply)
        self.actor = int(found[1]) if found else self.actor
        if words[0] != "begin":
            self.statements.append(f"expect {reply}")
            self.hold(most)

    def hold(self, most):
        self.statements += [
            f"memory {number} {at} {memory[at:min(at + PAGE, most)].hex()}"
            for number, memory in enumerate(self.memories)
            for at in range(0, min(len(memory), most), PAGE)]

    def differences(self, played):
        """What a play says of statements that do not hold."""
        with played.folder() as folder:
            folder.put("s", "\n".join([*self.statements, ""]).encode())
            err = folder.run("hux", "play", "--script", "s", *played.names).err.decode()
        wrong = [it for it in err.splitlines() if "script line" in it]
        return "".join(f" other memory: {it[:80]}" for it in wrong)

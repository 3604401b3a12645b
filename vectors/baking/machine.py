"""Talks with the program `hux`: a session of `hux live`, and what `hux link` says."""

import functools
import os
import subprocess
from pathlib import Path

PAGE = 65536
SCRIPT = Path(__file__).resolve().parents[2] / "hux"
NOT_MADE = ["error:", "misuse", "3:"]       # a root call of an instance that a trap has closed


class Refused(Exception):
    """The program refused files or a statement; it has said why on standard error."""


@functools.cache
def program():
    """The program that HUX names, or else the one that ./hux keeps for these sources."""
    if os.environ.get("HUX"):
        return os.environ["HUX"]
    kept = subprocess.run([SCRIPT, "--path"], stdout=subprocess.PIPE, text=True, check=True)
    return kept.stdout.strip()


def run(*words):
    """The lines that a command of the program prints."""
    done = subprocess.run([program(), *map(str, words)], stdout=subprocess.PIPE, text=True,
                          check=False)
    if done.returncode:
        raise Refused(f"hux {words[0]} ended with status {done.returncode}")
    return done.stdout.splitlines()


def links_of(files):
    """What is imported from where: lines (component, import, provider, export)."""
    lines = [line.split(" ") for line in run("link", *files)] if len(files) > 1 else []
    return [(int(user), name, int(provider), export) for user, name, _, provider, export in lines]


def unbundled(bundle, folder):
    """The components of a bundle as files in a folder."""
    run("unbundle", bundle, "-o", folder / "parts")
    return sorted((folder / "parts").iterdir(), key=lambda it: int(it.stem))


class Machine:
    """A session: a statement goes in; the event, and what adapters wrote before it, come out."""

    def __init__(self, files):
        self.process = subprocess.Popen([program(), "live", "-q", *map(str, files)], text=True,
                                        stdin=subprocess.PIPE, stdout=subprocess.PIPE)
        self.plan = []
        try:
            while (line := self.read()) != "ready":
                self.plan.append(line.split(" "))
        except Refused:
            self.__exit__()
            raise

    def __enter__(self):
        return self

    def __exit__(self, *_):
        self.process.stdin.close()
        self.process.stdout.close()
        self.process.wait()

    def read(self):
        line = self.process.stdout.readline()
        if not line:
            raise Refused("the machine refused the files")
        return line[:-1]

    def act(self, statement):
        """The words of the event, and (instance, address, bytes) of what was written."""
        self.process.stdin.write(statement + "\n")
        self.process.stdin.flush()
        written = []
        while (words := self.read().split(" "))[0] == "mem":
            written.append((int(words[1]), int(words[2]), bytes_of(words[3])))
        if words[0] == "error:" and words[:3] != NOT_MADE:
            raise Refused(f"{statement}: {' '.join(words)}")
        return words, written

    def make_set(self, pages):
        self.act(" ".join(["pages", *map(str, pages)]))


def bytes_of(digits):
    """Bytes as scripts spell them: digits, or `-` for none."""
    return bytes.fromhex(digits.replace("-", ""))


def value_of(word):
    """A core value: (kind, number)."""
    kind, number = word.split(":")
    return kind, int(number)


def values_of(words):
    return [value_of(word) for word in words]

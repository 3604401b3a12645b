"""Reads scripts (docs/COMMAND.md, Scripts), as they are written, or as `hux live` records them."""

import re

from .refusals import NotBaked

NUMBER = r"(?:0|[1-9]\d*)"
VALUES = rf"( i(?:32|64):{NUMBER})*"
MOVES = re.compile(rf"write {NUMBER} (-|([0-9a-fA-F]{{2}})+)|grow {NUMBER}|unreachable"
                   rf"|call {NUMBER}{VALUES}|return{VALUES}")
OTHERS = re.compile(rf"(pages)((?: {NUMBER})+)|(guest|begin) {NUMBER}")


class Move:
    """A move of a guest: its words, and the line of the script in which it stands."""

    def __init__(self, text, line):
        self.text, self.words, self.line = text, text.split(" "), line


class Script:
    """Pages of memory, the moves of each guest, and root calls, each with its line."""

    def __init__(self, text, count):
        self.pages, self.moves, self.begins = None, [[] for _ in range(count)], []
        self.guest = None
        for number, line in enumerate(text.split("\n"), 1):
            self.statement(line, number)
        if self.pages is None or not self.begins:
            raise NotBaked("the script has no `pages` or no `begin`")

    def statement(self, line, number):
        words = line.split(" ")
        if not line:
            return
        if MOVES.fullmatch(line):
            if self.guest is None:
                raise NotBaked("a move stands before the first `guest`", number)
            self.moves[self.guest].append(Move(line, number))
        elif not OTHERS.fullmatch(line):
            raise NotBaked(f"`{line}` is no statement that is baked", number)
        elif words[0] == "pages":
            if self.pages is not None or len(words) != len(self.moves) + 1:
                raise NotBaked("`pages` wants one number a component, once", number)
            self.pages = list(map(int, words[1:]))
        elif int(words[1]) >= len(self.moves):
            raise NotBaked("there is no such component", number)
        elif words[0] == "guest":
            self.guest = int(words[1])
        else:
            self.begins.append((int(words[1]), number))

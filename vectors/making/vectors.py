"""Descriptions: what a vector holds, where the standard says so, and how its play is made."""

from .building import Build
from .plays import Play
from .types import func
from .values import Values

VECTORS = {}


class Vector:
    """A description. `make` takes a folder and answers a Play. `ends` are the traps of its root
    calls, None where one returns. `only` says for which runtimes it holds, where not for all.
    """

    def __init__(self, about, where, make, ends, recorded, only):
        self.about, self.where, self.make = about, where, make
        self.ends, self.recorded, self.only = ends, recorded, only

    def comments(self, name):
        yield f"{name}: {self.about}"
        yield f"CanonicalABI.md, {self.where}"
        if self.only:
            yield f"Holds only where {self.only}"


def describe(name, about, where, make, trap=None, recorded=False, only=None):
    ends = trap if isinstance(trap, list) else [trap]
    VECTORS[name] = Vector(about, where, make, ends, recorded, only)


class Call:
    """A call that passes values: parameters there, and a result back."""

    def __init__(self, types, values, returned=None, value=None):
        self.types, self.values, self.returned, self.value = types, values, returned, value
        self.func = func(types, returned)


def there_and_back(it, values):
    """Each value alone there and back, then all of them in a list."""
    in_list = Call([("list", it)], [values], ("list", it), values)
    return [Call([it], [value], it, value) for value in values] + [in_list]


def tidying(moves):
    """The body of a post-return function: it spoils what a body has written."""
    written = [move.split(" ") for move in moves if move.startswith("write")]
    return [f"write {at} {'ee' * (len(data) // 2)}" for _, at, data in written]


class Passing:
    """A play of calls from a user to a provider, each with an encoding of strings; calls of one
    type are of one function. `post`: functions with a result have post-return functions. `change`
    takes the last move of the user and answers another; `last_return` takes the place of the last
    one of the provider.
    """

    def __init__(self, calls, provider="utf8", user="utf8", post=False, answers=(), change=None,
                 last_return=None, pages=None):
        self.calls, self.provider, self.user, self.post = calls, provider, user, post
        self.answers, self.change, self.pages = answers, change, pages
        self.last_return = last_return

    def __call__(self, folder):
        provider, user = Build(self.provider), Build(self.user)
        kinds = dict.fromkeys(it.func for it in self.calls)
        funcs = {f"f{n}": it for n, it in enumerate(kinds)}
        tidied = [label for label, it in funcs.items() if self.post and it[2]]
        provider.exported("api", [], funcs, tidied)
        lowered = user.imported("api", [], funcs)
        numbers = {it: lowered[label] for label, it in funcs.items()}
        play = Play([provider, user], folder, self.pages)
        play.answers = list(self.answers)
        play.bodies[0] += self.bodies()
        play.run(1, self.moves(numbers))
        return play

    def moves(self, numbers):
        """The user's moves; `numbers` has its core function for each type of a function."""
        values, moves = Values(self.user), []
        for it in self.calls:
            moves += values.called(numbers[it.func], it.types, it.values, it.returned)
        if self.change:
            moves[-1] = self.change(moves[-1])
        return moves

    def bodies(self):
        """What the provider does where it is entered, one after the other."""
        values, bodies = Values(self.provider), []
        for it in self.calls:
            body = values.returns(it.returned, it.value)
            bodies += [body, tidying(body)] if self.post and it.returned else [body]
        if self.last_return:
            bodies[-1][-1] = self.last_return
        return bodies


def passes(name, about, where, calls, trap=None, recorded=False, only=None, **how):
    describe(name, about, where, Passing(calls, **how), trap, recorded, only)


def last_is(number):
    """Changes a call: its last value is this one."""
    return lambda move: f"{move.rpartition(' ')[0]} i32:{number}"


def points_to(start, count):
    """Changes a call of one string or list: its pointer and its length are these."""
    return lambda move: f"{' '.join(move.split(' ')[:2])} i32:{start} i32:{count}"

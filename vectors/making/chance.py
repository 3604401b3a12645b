"""Random vectors: types, values, encodings and handles by a seed."""

import random

from . import types
from .resources import Pair
from .types import list_of, option, record, result, tuple_of, variant
from .vectors import Call, Passing, Vector

NUMBERS = (types.U8, types.S8, types.U16, types.S16, types.U32, types.S32, types.U64, types.S64)
BITS = {"8": 8, "6": 16, "2": 32, "4": 64}      # by the last digit of a number's name
SCALARS = "abc xyz09é߿ࠀ€\uffff😀\U0010ffff\x00\x7f\x80ÿĀ\ud7ff\ue000"
DEEPEST = 3
WHERE = "all of Lifting and Lowering"


class Chance:
    """Makes types and values; strings only where there may be some."""

    def __init__(self, seed, strings=True):
        self.random, self.strings = random.Random(seed), strings

    def type(self, depth=0):
        plain = [*NUMBERS, types.BOOL, types.CHAR, types.U32, types.U8]
        plain += [types.STRING] * 4 if self.strings else []
        if depth == DEEPEST or self.random.random() < 0.4:
            return self.random.choice(plain)
        made = (self.list, self.record, self.tuple, self.variant, self.option, self.result,
                self.flags, self.enum)
        return self.random.choice(made)(depth + 1)

    def some(self, most, depth):
        return [self.type(depth) for _ in range(self.random.randint(1, most))]

    def list(self, depth):
        return list_of(self.type(depth))

    def record(self, depth):
        return record(*self.some(5, depth))

    def tuple(self, depth):
        return tuple_of(*self.some(4, depth))

    def variant(self, depth):
        return variant(*(self.maybe(depth) for _ in range(self.random.randint(1, 5))))

    def option(self, depth):
        return option(self.type(depth))

    def result(self, depth):
        return result(self.maybe(depth), self.maybe(depth))

    def maybe(self, depth):
        return self.type(depth) if self.random.random() < 0.7 else None

    def flags(self, _depth):
        return types.labels("flags", self.random.choice((1, 2, 7, 8, 9, 15, 16, 17, 31, 32)))

    def enum(self, _depth):
        return types.labels("enum", self.random.choice((1, 2, 5, 255, 256, 257)))

    def value(self, it):
        kind = it[0]
        if kind in ("list", "record", "tuple", "variant", "flags", "enum", "option", "result"):
            return getattr(self, "value_of_" + kind)(*it[1:])
        if kind == "string":
            return self.text()
        if kind == "char":
            return ord(self.random.choice(SCALARS))
        if kind == "bool":
            return self.random.choice((0, 1, 1, 2, 255))
        return self.number(BITS[kind[-1]])

    def number(self, bits):
        limits = (0, 1, (1 << bits - 1) - 1, 1 << bits - 1, (1 << bits) - 1)
        return self.random.choice((*limits, self.random.getrandbits(bits)))

    def text(self):
        scalars = SCALARS if self.random.random() < 0.6 else SCALARS[:9]
        return "".join(self.random.choices(scalars, k=self.random.choice((0, 1, 2, 5, 30))))

    def value_of_list(self, element):
        return [self.value(element) for _ in range(self.random.choice((0, 1, 2, 5)))]

    def value_of_record(self, fields):
        return tuple(self.value(it) for _, it in fields)

    def value_of_tuple(self, fields):
        return tuple(map(self.value, fields))

    def value_of_variant(self, cases):
        number = self.random.randrange(len(cases))
        payload = cases[number][1]
        return number, self.value(payload) if payload else None

    def value_of_flags(self, names):
        return self.random.getrandbits(32) if self.random.random() < 0.3 else (
            self.random.getrandbits(len(names)))

    def value_of_enum(self, names):
        return self.random.choice((0, len(names) - 1, self.random.randrange(len(names))))

    def value_of_option(self, payload):
        return self.random.choice(((0, None), (1, self.value(payload))))

    def value_of_result(self, *payloads):
        number = self.random.randrange(2)
        return number, self.value(payloads[number]) if payloads[number] else None

    def call(self, returns):
        """A call with a few parameters, seldom so many that they go through memory."""
        params = self.some(20 if self.random.random() < 0.1 else 4, 0)
        back = self.type() if returns and self.random.random() < 0.8 else None
        value = self.value(back) if back else None
        return Call(params, list(map(self.value, params)), back, value)


# Values that no reader accepts, each with the trap

WRONG = (
    ([types.CHAR], [0xD800], 6), ([types.CHAR], [0x110000], 6),
    ([list_of(types.CHAR)], [[1 << 31]], 6),
    ([types.labels("enum", 3)], [3], 7), ([option(types.U8)], [(2, None)], 7),
    ([list_of(option(types.U8))], [[(255, None)]], 7),
)


def passing(seed, numbers):
    """Calls that pass values, of which the last may pass one that no reader accepts."""
    encodings = ["utf8", "utf16", "latin1+utf16"]
    user, provider = numbers.choice(encodings), numbers.choice(encodings[:2])
    chance = Chance(seed)
    calls = [chance.call(user != "latin1+utf16") for _ in range(numbers.randint(1, 3))]
    trap = None
    if numbers.random() < 0.15:
        *wrong, trap = numbers.choice(WRONG)
        calls.append(Call(*wrong))
    post = trap is None and numbers.random() < 0.5
    passed = Passing(calls, provider=provider, user=user, post=post, pages=[4, 4])
    return Vector(f"{user} to {provider} and back", WHERE, passed, [trap], False, None)


class Handles:
    """A play of handles that are made, lent, given back and dropped, as they are at hand."""

    def __init__(self, numbers):
        self.numbers, self.owned = numbers, []

    def __call__(self, folder):
        pair = Pair(folder)
        pair.play.bodies[0] = self
        self.pair, self.body, self.rep = pair, None, 0
        pair.play.run(1, self.moves())
        return pair.play

    def moves(self):
        for _ in range(self.numbers.randint(4, 14)):
            doing = self.numbers.choice(("make", "make", "get", "pair", "take", "drop-r"))
            yield from self.doing(doing if self.owned else "make")

    def doing(self, doing):
        call, self.body = self.pair.call, doing
        if doing == "make":
            yield call("make", 0)
            self.owned.append(int(self.pair.play.event[2].removeprefix("i32:")))
            return
        handle = self.numbers.choice(self.owned)
        if doing in ("take", "drop-r"):
            self.owned.remove(handle)
        more = [self.numbers.choice(self.owned)] if doing == "pair" else []
        yield call(doing, handle, *more)

    # What the provider does, as `Play` asks for its bodies

    def __bool__(self):
        return True

    def pop(self, _first):
        if self.pair.play.event[0] == "dtor":
            return ["return"]
        return {"make": self.makes, "take": self.takes}.get(self.body, self.answers)()

    def makes(self):
        self.rep += 1
        return self.pair.making(self.rep, self.pair.new)

    def takes(self):
        handle = self.pair.play.event[3]
        return [f"call {self.pair.rep} {handle}", f"call {self.pair.drop} {handle}",
                "return i32:7"]

    def answers(self):
        return ["return i32:5"]


def random_vector(seed, number):
    """The random vector of a number of a seed."""
    numbers = random.Random(f"{seed} {number}")
    if numbers.random() < 0.2:
        return Vector("handles at random", WHERE, Handles(numbers), [None], False, None)
    return passing(f"{seed} {number} values", numbers)

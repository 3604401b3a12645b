"""Descriptions: borrows that a component between two others hands on."""

from .building import Build
from .plays import Play
from .resources import DROP, LIFT_BORROW, LIFT_OWN, some
from .types import BORROW, STRING, U32, func
from .values import Values
from .vectors import describe


def hands_on(name, about, where, called, moves, trap=None):
    """A middle component gets a borrow and a text, and makes these moves of the provider's function
    `called` and of `drop`.
    """
    def make(folder):
        provider, middle, user = Build(), Build("utf16"), Build()
        new, _, _ = provider.resource("r")
        funcs = some("make", called)
        use = {"use": func([BORROW, STRING], U32)}
        provider.exported("api", ["r"], funcs)
        inner = middle.imported("api", ["r"], funcs)
        middle.exported("mid", ["r"], use)
        outer = user.imported("api", ["r"], funcs)
        used = user.imported("mid", ["r"], use)["use"]
        play = Play([provider, middle, user], folder)
        play.bodies[0] += [[f"call {new} i32:500", "return i32:1"], ["return i32:3"],
                           ["return i32:3"], ["return"]]
        play.bodies[1].append([it.format(drop=inner["drop-r"], **inner) for it in moves])
        calls = Values().called(used, [BORROW, STRING], [1, "é"], U32)
        play.run(2, [f"call {outer['make']} i32:0", *calls, f"call {outer['drop-r']} i32:1"])
        return play
    describe(name, about, where, make, trap)


def through_two(folder):
    """A borrow that is handed on twice: each of those between has a handle of its own."""
    provider, low, middle, user = (Build() for _ in range(4))
    new, _, _ = provider.resource("r")
    make = some("make")
    deep, use = {"deep": func([BORROW, BORROW], U32)}, {"use": func([BORROW], U32)}
    provider.exported("api", ["r"], make)
    low_drop = low.imported("api", ["r"], make)["drop-r"]
    low.exported("low", ["r"], deep)
    middle_drop = middle.imported("api", ["r"], make)["drop-r"]
    lower = middle.imported("low", ["r"], deep)["deep"]
    middle.exported("mid", ["r"], use)
    outer = user.imported("api", ["r"], make)
    used = user.imported("mid", ["r"], use)["use"]
    play = Play([provider, low, middle, user], folder)
    play.bodies[0] += [[f"call {new} i32:{n}", "return i32:1"] for n in (7, 8)]
    play.bodies[0] += [["return"]] * 2
    play.bodies[1] += [[f"call {low_drop} i32:1", f"call {low_drop} i32:2", "return i32:3"]] * 2
    play.bodies[2] += [[f"call {lower} i32:1 i32:1"] * 2
                       + [f"call {middle_drop} i32:1", "return i32:4"]]
    play.run(3, [f"call {outer['make']} i32:0"] * 2 + [f"call {used} i32:2"]
             + [f"call {outer['drop-r']} i32:{n}" for n in (2, 1)])
    return play


hands_on("borrow-handed-on", "a borrow is lent on twice, and dropped", LIFT_BORROW, "get",
         ["call {get} i32:1", "call {get} i32:1", "call {drop} i32:1", "return i32:4"])
hands_on("borrow-not-dropped", "a call returns before it has dropped its borrow", "canon lift",
         "get", ["call {get} i32:1", "return i32:4"], 15)
hands_on("borrow-given-as-own", "a borrowed handle is given as an owned one", LIFT_OWN, "take",
         ["call {take} i32:1"], 13)
hands_on("borrow-dropped-twice", "a borrowed handle that was dropped is dropped", DROP, "get",
         ["call {drop} i32:1", "call {drop} i32:1"], 10)
describe("borrow-through-two", "a borrow goes through two components", LIFT_BORROW, through_two)

"""Descriptions: post-return functions, where nothing may be called, and guests that stop."""

from .building import Build
from .plays import Play
from .resources import Pair
from .types import STRING, U32, func
from .values import Values
from .vectors import describe

LEAVE = "Runtime State: ComponentInstance.may_leave; canon "
FUNCS = {"a": func([]), "post": func([], U32), "text": func([STRING]), "tell": func([], STRING)}


def play_of(body, *labels, users=1):
    """Makes a play of a pair with these functions, as `body` does it."""
    funcs = {label: FUNCS[label] for label in labels}
    return lambda folder: body(Pair(folder, funcs=funcs, users=users, post=["post"]))


def stops(it):
    it.bodies.append(["unreachable"])
    return it.run(it.call("a"))


def stops_in_post_return(it):
    it.bodies += [["return i32:8"], ["unreachable"]]
    return it.run(it.call("post"))


def stops_in_allocator(it):
    it.play.answers = [["unreachable"]]
    return it.run(*Values().called(it.user["text"], [STRING], ["ab"]))


def writes_beyond(it):
    it.bodies.append(["write 65535 0102"])
    return it.run(it.call("a"))


def closed(it):
    it.bodies.append(["unreachable"])
    it.play.run(1, [it.call("a")])
    it.play.run(2, [it.call("a")])
    return it.play


def post_returns(it):
    """The post-return function gets what the body has returned, once for each call."""
    it.returns(8)
    it.tidies(1)
    it.returns(9)
    it.tidies(1)
    return it.run(it.call("post"), it.call("post"))


def leaves_in_post_return(call):
    def body(it):
        it.bodies += [[f"call {it.new} i32:1", "return i32:8"], [f"call {call(it)} i32:1"]]
        return it.run(it.call("post"))
    return body


def leaves_in_allocator(it):
    it.play.answers = [[f"call {it.new} i32:1"]]
    return it.run(*Values().called(it.user["text"], [STRING], ["ab"]))


def calls_in_allocator(it):
    """The user's allocator, which is asked for the room of a result, calls the provider."""
    it.bodies.append(Values().returns(STRING, "ab"))
    it.play.answers = [[f"call {it.user['a']}"]]
    return it.run(*Values().called(it.user["tell"], [], [], STRING))


def calls_in_post_return(folder):
    """A component between two others calls the one below it in a post-return function."""
    provider, middle, user = Build(), Build(), Build()
    below, above = {"a": FUNCS["a"]}, {"post": FUNCS["post"]}
    provider.exported("api", [], below)
    lower = middle.imported("api", [], below)["a"]
    middle.exported("mid", [], above, ["post"])
    called = user.imported("mid", [], above)["post"]
    play = Play([provider, middle, user], folder)
    play.bodies[1] += [["return i32:8"], [f"call {lower}"]]
    play.run(2, [f"call {called}"])
    return play


def tells_in_post_return(it):
    it.bodies += [[f"call {it.new} i32:77", "return i32:8"], [f"call {it.rep} i32:1", "return"]]
    return it.run(it.call("post"))


describe("guest-stops", "a trap of a core module ends the call", "canon lift",
         play_of(stops, "a"), 2)
describe("post-return-stops", "a trap in a post-return function ends the call", "canon lift",
         play_of(stops_in_post_return, "post"), 2)
describe("allocator-stops", "a trap in an allocator ends the call", "canon lower",
         play_of(stops_in_allocator, "text"), 2, recorded=True)
describe("guest-writes-beyond", "a write behind the end of a core module's memory",
         "canon lift", play_of(writes_beyond, "a"), 3)
describe("closed-by-a-trap", "an instance that has trapped is not entered again",
         "Runtime State: ComponentInstance", play_of(closed, "a", users=2), [2, 21],
         only="an instance that has trapped can be called again, and traps then; a runtime may "
              "end more than it")
describe("post-return", "post-return functions, each with the values of its body", "canon lift",
         play_of(post_returns, "post"))
for name, called in (("makes-a-handle", "new"), ("drops-a-handle", "drop")):
    describe(f"post-return-{name}", "no handle may be made or dropped in post-return",
             f"{LEAVE}resource.{called}",
             play_of(leaves_in_post_return(lambda it, called=called: getattr(it, called)), "post"),
             16)
describe("post-return-calls", "no import may be called in post-return", LEAVE + "lower",
         calls_in_post_return, 16)
describe("allocator-makes-a-handle", "no handle may be made in an allocator",
         LEAVE + "resource.new", play_of(leaves_in_allocator, "text"), 16, recorded=True)
describe("allocator-calls", "no import may be called in an allocator", LEAVE + "lower",
         play_of(calls_in_allocator, "a", "tell"), 16, recorded=True)
describe("post-return-may-read-handles", "resource.rep may be called in post-return",
         "canon resource.rep", play_of(tells_in_post_return, "post"),
         only="resource.rep has no check that the instance may leave")

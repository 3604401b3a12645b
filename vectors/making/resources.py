"""Descriptions: handles, destructors, borrows."""

from .building import Build
from .plays import Play
from .types import BORROW, OWN, STRING, U8, U32, func, list_of, option, record
from .values import Values
from .vectors import describe

TWINS = record(U8, OWN, OWN)
FUNCS = {"make": func([U32], OWN), "get": func([BORROW], U32), "take": func([OWN], U32),
         "two": func([BORROW, OWN]), "turn": func([OWN, BORROW]),
         "pair": func([BORROW, BORROW], U32), "twins": func([], TWINS),
         "many": func([list_of(OWN), option(BORROW), STRING], list_of(OWN))}
ONE_TABLE = "an instance has one table of handles, not one a resource"
LIFT_OWN, LIFT_BORROW = "Flat Lifting: lift_own", "Flat Lifting: lift_borrow"
DROP, NEW = "canon resource.drop", "canon resource.new"


def some(*labels):
    """The functions of these names."""
    return {label: it for label, it in FUNCS.items() if label in labels}


class Pair:
    """A provider of a resource `r`, and a user of it: core functions by name."""

    def __init__(self, folder, destructor=True, funcs=None, others=(), users=1, post=()):
        provider, user = Build(), Build()
        funcs = FUNCS if funcs is None else funcs
        names = ["r", *others]
        made = {it: provider.resource(it, destructor) for it in names}
        provider.exported("api", names, funcs, post)
        self.user = user.imported("api", names, funcs)
        self.new, self.rep, self.drop = made["r"]
        self.made = made
        self.play = Play([provider, *[user] * users], folder)
        self.bodies = self.play.bodies[0]

    def call(self, name, *handles):
        return " ".join([f"call {self.user[name]}", *(f"i32:{it}" for it in handles)])

    def makes(self, *reps, resource="r"):
        """Bodies of `make`: each makes a handle, and gives it away."""
        for rep in reps:
            self.bodies.append(self.making(rep, self.made[resource][0]))

    def making(self, rep, new):
        yield f"call {new} i32:{rep}"
        yield f"return {self.play.event[2]}"

    def returns(self, *numbers):
        self.bodies.extend([f"return i32:{it}"] for it in numbers)

    def tidies(self, count):
        """Bodies of destructors."""
        self.bodies.extend(["return"] for _ in range(count))

    def run(self, *moves):
        self.play.run(1, moves)
        return self.play


def with_resource(name, about, where, trap=None, only=None, **how):
    """A description: the function takes a Pair and answers its Play."""
    def described(body):
        describe(name, about, where, lambda folder: body(Pair(folder, **how)), trap, only=only)
        return body
    return described


@with_resource("resource", "made, lent, given back and dropped, each with its destructor",
               f"{NEW}; {DROP}; canon resource.rep; {LIFT_OWN}, lift_borrow",
               funcs=some("make", "get", "pair", "take"))
def basic(it):
    it.makes(1000, 2000)
    it.returns(5, 6)
    it.bodies.append([f"call {it.rep} i32:1", f"call {it.drop} i32:1", "return i32:7"])
    it.tidies(2)
    return it.run(it.call("make", 1), it.call("make", 2), it.call("get", 1),
                  it.call("pair", 2, 2), it.call("take", 1), it.call("drop-r", 2))


@with_resource("handles-are-used-again", "the handle that was freed last is used first",
               "Table State: Table.add and Table.remove", funcs=some("make"))
def reused(it):
    first, later = range(100, 103), range(103, 106)
    it.makes(*first)
    it.tidies(2)
    it.makes(*later)
    it.tidies(1)
    it.makes(106)
    make = it.call("make", 0)
    return it.run(*[make] * 3, it.call("drop-r", 1), it.call("drop-r", 3), *[make] * 3,
                  it.call("drop-r", 2), make)


@with_resource("handles-in-lists", "owned handles in lists, a borrow in an option",
               f"{LIFT_OWN}, lift_borrow; Flat Lowering: lower_own, lower_borrow",
               funcs=some("make", "many"))
def in_lists(it):
    it.makes(11, 22, 33)
    reps = [f"call {it.rep} i32:1", f"call {it.rep} i32:2", f"call {it.new} i32:44"]
    it.bodies.append(reps + Values().returns(list_of(OWN), [2, 3, 1]))
    it.tidies(4)
    types = [type_of for _, type_of in FUNCS["many"][1]]
    moves = Values().called(it.user["many"], types, [[3, 1], (1, 2), "zé"], list_of(OWN))
    return it.run(*[it.call("make", 0)] * 3, *moves,
                  *(it.call("drop-r", n) for n in (1, 2, 3, 4)))


@with_resource("handles-in-a-record", "owned handles in a result through memory",
               f"{LIFT_OWN}; Storing: store_record", funcs=some("twins"))
def in_a_record(it):
    made = [f"call {it.new} i32:{n}" for n in (1, 2, 3)]
    it.bodies.append(made + Values().returns(TWINS, (5, 3, 1)))
    it.tidies(2)
    moves = Values().called(it.user["twins"], [], [], TWINS)
    return it.run(*moves, it.call("drop-r", 2), it.call("drop-r", 1))


@with_resource("resource-without-destructor", "a drop with no destructor", DROP,
               destructor=False, funcs=some("make"))
def without_destructor(it):
    it.makes(5)
    return it.run(it.call("make", 0), it.call("drop-r", 1))


@with_resource("destructor-stops", "a trap in a destructor ends the drop", DROP, 2,
               funcs=some("make"))
def stops_in_destructor(it):
    it.makes(5)
    it.bodies.append(["unreachable"])
    return it.run(it.call("make", 0), it.call("drop-r", 1))


MISUSES = (
    ("own-of-what-is-lent", "a borrow and the owned handle itself, in this order", 12, LIFT_OWN,
     [("two", 1, 1)]),
    ("borrow-of-what-is-taken", "an owned handle and then a borrow of it", 10, LIFT_BORROW,
     [("turn", 1, 1)]),
    ("handle-0", "no handle has the number 0", 10, LIFT_BORROW, [("get", 0)]),
    ("handle-not-there", "a handle that was never made", 10, LIFT_BORROW, [("get", 2)]),
    ("owned-handle-not-there", "an owned handle that was never made", 10, LIFT_OWN,
     [("take", 2)]),
    ("dropped-twice", "a handle that was dropped is dropped", 10, DROP,
     [("drop-r", 1), ("drop-r", 1)]),
    ("used-when-dropped", "a handle that was dropped is lent", 10, LIFT_BORROW,
     [("drop-r", 1), ("get", 1)]),
    ("used-when-given-away", "a handle that was given away is lent", 10, LIFT_BORROW,
     [("take", 1), ("get", 1)]),
)


def misused(calls):
    def body(it):
        it.makes(1)
        it.returns(*[0] * (calls[0][0] == "take"))
        it.tidies(1)
        return it.run(it.call("make", 0), *(it.call(*call) for call in calls))
    return body


def provider_misuses():
    """What a provider does wrong with its own handles."""
    for name, call, where in (("rep", "rep", "canon resource.rep"), ("drop", "drop", DROP)):
        @with_resource(f"{name}-of-no-handle", "a provider's handle that is not there", where, 10,
                       funcs=some("make", "get"))
        def body(it, call=call):
            it.makes(1)
            it.bodies.append([f"call {getattr(it, call)} i32:9"])
            return it.run(it.call("make", 0), it.call("get", 1))


TWO_FUNCS = {"make": FUNCS["make"], "make-s": func([U32], ("own", "s")), "get": FUNCS["get"]}
TWO = {"funcs": TWO_FUNCS, "others": ["s"], "only": ONE_TABLE}


def three_made(it):
    it.makes(1)
    it.makes(2, resource="s")
    it.makes(3)
    return [it.call("make", 0), it.call("make-s", 0), it.call("make", 0)]


@with_resource("two-resources-in-one-table", "handles of two resources are numbered together",
               "Runtime State: ComponentInstance", **TWO)
def two_kinds(it):
    made = three_made(it)
    it.tidies(3)
    return it.run(*made, it.call("drop-s", 2), it.call("drop-r", 1), it.call("drop-r", 3))


@with_resource("other-resource", "a handle of another resource", LIFT_BORROW, 11, **TWO)
def other_kind(it):
    return it.run(*three_made(it), it.call("get", 2))


@with_resource("other-resource-dropped", "a handle is dropped as one of another resource", DROP,
               11, **TWO)
def other_dropped(it):
    return it.run(*three_made(it), it.call("drop-s", 1))


def two_providers(folder):
    """A play of two components with equal types, whose resources differ, and a user; and the user's
    core functions of each.
    """
    one, other, user = Build(), Build(), Build()
    funcs = some("make", "get")
    made = [it.resource("r") for it in (one, other)]
    one.exported("one", ["r"], funcs)
    other.exported("other", ["r"], funcs)
    first = user.imported("one", ["r"], funcs)
    user.types.resources, user.types.known = {}, {}
    second = user.imported("other", ["r"], funcs)
    play = Play([one, other, user], folder)
    for n, (new, _, _) in enumerate(made):
        play.bodies[n] += [[f"call {new} i32:{900 + n}", "return i32:1"], ["return i32:1"]]
    return play, first, second


def of_other_instance(folder):
    play, first, second = two_providers(folder)
    play.run(2, [f"call {first['make']} i32:0", f"call {second['make']} i32:0",
                 f"call {first['get']} i32:1", f"call {second['get']} i32:2",
                 f"call {first['get']} i32:2"])
    return play


def one_at_a_time(folder):
    play, *both = two_providers(folder)
    play.run(2, [f"call {used[name]} i32:{handle}" for used in both
                 for name, handle in (("make", 0), ("get", 1), ("drop-r", 1))])
    return play


for name_of, about_it, number, section_of, calls_of in MISUSES:
    with_resource(name_of, about_it, section_of, number,
                  funcs=some("make", *(label for label, *_ in calls_of)))(misused(calls_of))
provider_misuses()
describe("same-resource-of-other-instance", "a resource of another instance of the same type",
         LIFT_BORROW, of_other_instance, 11, only=ONE_TABLE)
describe("two-instances-of-a-resource", "handles of two instances of a type, one at a time",
         f"{NEW}; {DROP}; {LIFT_BORROW}", one_at_a_time)

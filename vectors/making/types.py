"""Short names of types, for descriptions (the form of types is that of `baking.layouts`)."""

BOOL, CHAR, STRING = ("bool",), ("char",), ("string",)
S8, U8, S16, U16, S32, U32, S64, U64 = (
    (name,) for name in ("s8", "u8", "s16", "u16", "s32", "u32", "s64", "u64"))
OWN, BORROW = ("own", "r"), ("borrow", "r")


def list_of(element, count=None):
    return ("list", element) if count is None else ("list", element, count)


def tuple_of(*types):
    return ("tuple", types)


def record(*types):
    return ("record", tuple((f"f{n}", it) for n, it in enumerate(types)))


def variant(*payloads):
    return ("variant", tuple((f"c{n}", it) for n, it in enumerate(payloads)))


def labels(kind, count):
    """An enum or flags, by the number of labels."""
    return (kind, tuple(f"l{n}" for n in range(count)))


def option(payload):
    return ("option", payload)


def result(ok=None, error=None):
    return ("result", ok, error)


def func(params, returned=None):
    return ("func", tuple((f"p{n}", it) for n, it in enumerate(params)), returned)

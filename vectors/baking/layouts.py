"""Lays types out in memory and as core values (CanonicalABI.md: Alignment, Element Size,
Flattening).

A type is a tuple: ("u32",), ("list", T), ("list", T, count), ("record", ((label, T), ..)),
("variant", ((label, T or None), ..)), ("enum", labels), ("flags", labels), ("option", T),
("result", T or None, T or None), ("tuple", (T, ..)), ("own",), ("borrow",), and for functions
("func", ((label, T), ..), T or None). Types of the generator's handles name their resource too.
"""

SIZES = {"bool": 1, "s8": 1, "u8": 1, "s16": 2, "u16": 2, "s32": 4, "u32": 4, "s64": 8, "u64": 8,
         "char": 4, "own": 4, "borrow": 4}
MOST_PARAMS, MOST_RESULTS = 16, 1


def cases(it):
    """The payloads of a type's cases; None where the type has no cases."""
    kind = it[0]
    if kind == "variant":
        return [payload for _, payload in it[1]]
    if kind == "enum":
        return [None] * len(it[1])
    if kind == "option":
        return [None, it[1]]
    return [it[1], it[2]] if kind == "result" else None


def payloads(it):
    return [payload for payload in cases(it) if payload]


def has_fields(it):
    return it[0] in ("record", "tuple")


def fields(it):
    return [field for _, field in it[1]] if it[0] == "record" else list(it[1])


def is_pointed(it):
    """Is its value behind a pointer: a string, or a list of no fixed length?"""
    return it[0] == "string" or it[0] == "list" and len(it) == 2


def up(number, alignment):
    return -(-number // alignment) * alignment


def tag_size(it):
    count = len(cases(it))
    return 1 if count <= 256 else 2 if count <= 65536 else 4


def flags_size(it):
    return 1 if len(it[1]) <= 8 else 2 if len(it[1]) <= 16 else 4


def align(it):
    if it[0] in SIZES:
        return SIZES[it[0]]
    if is_pointed(it):
        return 4
    if it[0] == "flags":
        return flags_size(it)
    if it[0] == "list":
        return align(it[1])
    if has_fields(it):
        return max(map(align, fields(it)))
    return max([tag_size(it)] + [align(payload) for payload in payloads(it)])


def places(types):
    """Where fields of these types lie behind one another, and where the last one ends."""
    at, found = 0, []
    for it in types:
        found.append(up(at, align(it)))
        at = found[-1] + size(it)
    return found, at


def payload_at(it):
    return up(tag_size(it), max([align(payload) for payload in payloads(it)], default=1))


def size(it):
    if it[0] in SIZES:
        return SIZES[it[0]]
    if is_pointed(it):
        return 8
    if it[0] == "flags":
        return flags_size(it)
    if it[0] == "list":
        return it[2] * size(it[1])
    if has_fields(it):
        return up(places(fields(it))[1], align(it))
    return up(payload_at(it) + max(map(size, payloads(it)), default=0), align(it))


def flat(it):
    """The kinds of the core values that a type goes flat as."""
    if it[0] in SIZES:
        return ["i64" if SIZES[it[0]] == 8 else "i32"]
    if is_pointed(it):
        return ["i32", "i32"]
    if it[0] == "flags":
        return ["i32"]
    if it[0] == "list":
        return flat(it[1]) * it[2]
    if has_fields(it):
        return flat_all(fields(it))
    return ["i32"] + joined(it)


def flat_all(types):
    return [kind for it in types for kind in flat(it)]


def joined(it):
    """The kinds behind the discriminant, which serve all cases."""
    slots = []
    for n, kind in ((n, kind) for payload in payloads(it) for n, kind in enumerate(flat(payload))):
        slots[n:n + 1] = ["i64" if n < len(slots) and slots[n] != kind else kind]
    return slots


def params_of(func):
    return [it for _, it in func[1]]


def results_of(func):
    return [func[2]] if func[2] else []


def flat_function(func, side):
    """The core type of a function that is lifted or lowered: (params, results)."""
    params, results = flat_all(params_of(func)), flat_all(results_of(func))
    if len(params) > MOST_PARAMS:
        params = ["i32"]
    if len(results) <= MOST_RESULTS:
        return params, results
    return (params, ["i32"]) if side == "lift" else (params + ["i32"], [])

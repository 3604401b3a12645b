"""Descriptions: pointers of guests, and answers of their allocators."""

from .types import STRING, U16, U32, U64, list_of, tuple_of
from .vectors import Call, last_is, passes, points_to

FROM_RANGE = "Loading: load_list_from_range"
TEXT_RANGE = "Loading: load_string_from_range"
VALUES = "Lifting and Lowering Values"
END = 65536
ONE = [Call([list_of(U32)], [[0]])]


def lists_from_memory():
    for alignment, it in ((2, U16), (4, U32), (8, U64)):
        passes(f"pointer-not-aligned-to-{alignment}", f"a list of {it[0]} at half its alignment",
               FROM_RANGE, [Call([list_of(it)], [[1]])], trap=5,
               change=points_to(1024 + alignment // 2, 1))
    passes("list-ends-at-the-end", "a list whose last byte is the last of the memory", FROM_RANGE,
           ONE, change=points_to(END - 4, 1))
    passes("list-ends-behind-the-end", "a list that ends behind the memory", FROM_RANGE, ONE,
           trap=4, change=points_to(END - 4, 2))
    passes("list-of-2-to-the-32-bytes", "a count whose bytes are 0 modulo 2^32", FROM_RANGE,
           [Call([list_of(U64)], [[0]])], trap=4, change=points_to(8, 1 << 29))
    passes("empty-list-at-the-end", "an empty list behind the last byte of the memory",
           FROM_RANGE, ONE, change=points_to(END, 0))
    passes("empty-list-behind-the-end", "an empty list behind the end of the memory", FROM_RANGE,
           ONE, trap=4, change=points_to(END + 4, 0))
    passes("empty-list-not-aligned", "an empty list of u32 at half its alignment", FROM_RANGE,
           ONE, trap=5, change=points_to(1026, 0))
    passes("end-beyond-2-to-the-32", "a pointer and a count whose end is 4 modulo 2^32",
           FROM_RANGE, ONE, trap=4, change=points_to((1 << 32) - 4, 2))


def texts_from_memory():
    passes("utf16-pointer-not-aligned", "a text of UTF-16 at an odd address", TEXT_RANGE,
           [Call([STRING], [""])], user="utf16", trap=5, change=points_to(1025, 1))
    passes("latin1-pointer-not-aligned", "a text of latin1+utf16 at an odd address", TEXT_RANGE,
           [Call([STRING], [""])], user="latin1+utf16", trap=5, change=points_to(1025, 1))
    passes("text-ends-behind-the-end", "a text that ends behind the memory", TEXT_RANGE,
           [Call([STRING], ["a"])], trap=4, change=points_to(END - 1, 2))
    passes("empty-text-behind-the-end", "an empty text behind the end of the memory", TEXT_RANGE,
           [Call([STRING], ["a"])], trap=4, change=points_to(END + 1, 0))
    passes("utf16-text-ends-behind-the-end", "a text of UTF-16 that ends behind the memory",
           TEXT_RANGE, [Call([STRING], ["a"])], user="utf16", trap=4,
           change=points_to(END - 2, 2))


def spilled():
    back = [Call([], [], tuple_of(U32, U32), (1, 2))]
    passes("place-of-a-result-not-aligned", "a caller's place for a result, not aligned", VALUES,
           back, trap=5, change=last_is(1026))
    passes("place-of-a-result-behind-the-end", "a caller's place for a result, out of bounds",
           VALUES, back, trap=4, change=last_is(END - 4))
    passes("returned-place-not-aligned", "a body's place of its result, not aligned", VALUES, back,
           trap=5, last_return="return i32:1026")
    passes("returned-place-behind-the-end", "a body's place of its result, out of bounds", VALUES,
           back, trap=4, last_return=f"return i32:{END - 4}")
    many = [Call([U32] * 17, [1] * 17)]
    passes("spilled-parameters-not-aligned", "parameters in memory, not aligned", VALUES, many,
           trap=5, change=last_is(1026))
    passes("spilled-parameters-behind-the-end", "parameters in memory, out of bounds", VALUES,
           many, trap=4, change=last_is(END - 64))


def answers():
    stored, texts = "Storing: store_list_into_range", "Storing: store_string_copy"
    two = [Call([list_of(U32)], [[1, 2]])]
    for name, about, start, trap in (
            ("not-aligned", "that is not aligned", 2050, 5),
            ("behind-the-end", "out of bounds", END - 4, 4),
            ("at-the-end", "that ends with the memory", END - 8, None)):
        passes(f"allocator-answers-{name}", f"an allocator's answer for a list {about}", stored,
               two, trap=trap, recorded=True, answers=[[f"return i32:{start}"]])
    passes("allocator-answers-not-aligned-for-utf16", "an odd answer for a text of UTF-16", texts,
           [Call([STRING], ["a"])], provider="utf16", user="utf16", trap=5, recorded=True,
           answers=[["return i32:2049"]])
    passes("allocator-answers-not-aligned-for-a-tuple", "an odd answer for spilled parameters",
           VALUES, [Call([U32] * 17, [1] * 17)], trap=5, recorded=True,
           answers=[["return i32:2049"]])


lists_from_memory()
texts_from_memory()
spilled()
answers()

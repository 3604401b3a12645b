"""Descriptions: numbers, bools, chars, flags and enums."""

from baking.layouts import size

from .types import (BOOL, CHAR, S8, S16, S32, S64, U8, U16, U32, U64, labels, list_of, tuple_of)
from .vectors import Call, passes, there_and_back

LOADING = "Loading and Storing, and Flat Lifting and Lowering"
TO_CHAR = "Loading: convert_i32_to_char"
TO_CASE = "Loading: load_variant, and Flat Lifting: lift_flat_variant"


def numbers():
    for it in (S8, U8, S16, U16, S32, U32, S64, U64):
        bits = 8 * size(it)
        top = 1 << bits
        values = [0, 1, top // 2 - 1, top // 2, top - 1]
        beyond = [top, top + 5, (top << 3) + top // 2] if bits < 32 else []
        about = "at its limits" + (", with upper bits that do not count" if beyond else "")
        passes(it[0], f"{it[0]} {about}, flat and in lists", LOADING,
               there_and_back(it, values + beyond))


def bools():
    calls = [Call([BOOL], [n], BOOL, n) for n in (0, 1, 2, 256, 0xFFFFFFFF)]
    calls.append(Call([list_of(BOOL)], [[0, 1, 2, 255]], list_of(BOOL), [255, 1, 0]))
    passes("bool", "each number but 0 is true, and arrives as 1",
           "Loading: convert_int_to_bool", calls)


def chars():
    limits = [0, 0x41, 0xD7FF, 0xE000, 0xFFFF, 0x10000, 0x10FFFF]
    passes("char", "chars at the limits of scalars, flat and in lists", TO_CHAR,
           there_and_back(CHAR, limits))
    for n in (0xD800, 0xDFFF, 0x110000, 0xFFFFFFFF):
        passes(f"char-{n:x}", f"{n:x} is no char, flat", TO_CHAR, [Call([CHAR], [n])], trap=6)
        passes(f"char-{n:x}-in-memory", f"{n:x} is no char, in a list", TO_CHAR,
               [Call([list_of(CHAR)], [[0x41, n]])], trap=6)
    passes("char-d800-in-a-result", "d800 is no char, as a result", TO_CHAR,
           [Call([], [], CHAR, 0xD800)], trap=6)


def flags():
    for count in (1, 8, 9, 16, 17, 32):
        it, full = labels("flags", count), (1 << count) - 1
        calls = there_and_back(it, [0, 1, full, 1 << count - 1, 0xFFFFFFFF])
        beside = list_of(tuple_of(U8, it, U8))
        calls.append(Call([beside], [[(1, full, 2), (3, 0, 4)]], tuple_of(it, U8), (full, 9)))
        passes(f"flags-{count}", f"the size of flags of {count}, and bits above that do not count",
               "Alignment, Element Size; Loading: load_flags", calls)


def enums():
    for count in (1, 256, 257):
        it = labels("enum", count)
        calls = there_and_back(it, [0, count - 1])
        beside = list_of(tuple_of(it, U8))
        calls.append(Call([beside], [[(count - 1, 7), (0, 8)]], tuple_of(U8, it), (5, count - 1)))
        passes(f"enum-{count}", f"the size of the discriminant of an enum of {count}",
               "Alignment: discriminant_type", calls)
        passes(f"enum-{count}-beyond", f"an enum of {count} has no case {count}", TO_CASE,
               [Call([it], [count])], trap=7)
    passes("enum-3-beyond-in-memory", "an enum of 3 has no case 3, in a list", TO_CASE,
           [Call([list_of(labels("enum", 3))], [[2, 3]])], trap=7)
    passes("enum-257-beyond-in-memory", "a discriminant of 2 bytes that is beyond", TO_CASE,
           [Call([list_of(labels("enum", 257))], [[256, 0x8000]])], trap=7)


numbers()
bools()
chars()
flags()
enums()

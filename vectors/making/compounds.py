"""Descriptions: variants, options, results, records, tuples and lists."""

from baking.layouts import flat_all

from .types import (BOOL, CHAR, S8, S16, S32, S64, STRING, U8, U16, U32, U64, list_of, option,
                    record, result, tuple_of, variant)
from .vectors import Call, passes, points_to

VARIANTS = "Flattening: flatten_variant; Flat Lifting: lift_flat_variant"
SPILLING = "Flattening: flatten_functype, and Lifting and Lowering Values"
RECORDS = "Alignment, Element Size; Loading: load_record"
LISTS = "Loading: load_list, and Storing: store_list"
JOINED = variant(U64, U32, STRING, None, S8, tuple_of(U8, U64), tuple_of(STRING, U32), BOOL)
CASES = [(0, 1 << 63), (1, 0xFFFFFFFF), (2, "zé"), (3, None), (4, -1), (5, (255, 7)),
         (6, ("a", 3)), (7, 1)]


def variants():
    passes("variant-joined", "cases whose flat slots are joined; slots that stay unused are 0",
           VARIANTS, [Call([JOINED, U8], [it, 9], JOINED, it) for it in CASES])
    passes("variant-in-a-list",
           "the cases of variant-joined in memory, each behind its discriminant",
           "Loading: load_variant, and Storing: store_variant",
           [Call([list_of(JOINED)], [CASES], list_of(JOINED), CASES[::-1])])
    passes("variant-beyond", "a variant of 8 has no case 8, flat", VARIANTS,
           [Call([JOINED], [(8, None)])], trap=7)
    passes("variant-beyond-in-a-result", "a variant of 8 has no case 8, in a result's memory",
           "Loading: load_variant", [Call([], [], JOINED, (8, None))], trap=7)
    many = variant(*(U32 if n in (0, 299) else None for n in range(300)))
    passes("variant-of-300", "300 cases: a discriminant of 2 bytes before payloads",
           "Alignment: discriminant_type",
           [Call([list_of(many)], [[(0, 5), (299, 6), (150, None)]], many, (299, 1 << 31))])


def options_and_results():
    deep = option(option(result(option(U8), result(None, STRING))))
    values = [(0, None), (1, (0, None)), (1, (1, (0, (0, None)))), (1, (1, (0, (1, 255)))),
              (1, (1, (1, (0, None)))), (1, (1, (1, (1, "no"))))]
    calls = [Call([deep], [it], deep, it) for it in values]
    numbers = list_of(result(U64, U8))
    calls.append(Call([numbers], [[(0, 1 << 40), (1, 3)]], result(), 1))
    calls.append(Call([option(S16)], [(1, -2)], result(S8), (0, -128)))
    passes("options-and-results", "options and results inside of one another",
           "Despecialization, and " + VARIANTS, calls)


def spilled():
    types = [U8, S16, U32, U64, BOOL, CHAR, STRING, tuple_of(U8, U64), option(U16),
             record(U8, U8), S64, U8]
    values = [255, -1, 7, 1 << 63, 1, 0x1F600, "flat", (1, 2), (1, 65535), (3, 4), -2, 9]
    assert len(flat_all(types)) == 16
    passes("sixteen-core-values", "16 core values go flat", SPILLING,
           [Call(types, values, U32, 5)], post=True)
    passes("seventeen-core-values", "17 core values go through memory", SPILLING,
           [Call(types + [U8], values + [200], S8, -5)], post=True)
    passes("sixteen-and-a-result-in-memory", "16 core values, and a result through memory",
           SPILLING, [Call(types, values, tuple_of(U8, STRING, U64), (1, "zwei", 3))])


def records():
    padded = record(U8, U32, U8, U64, U16)
    five, inner = (1, 2, 3, 4, 5), tuple_of(U8, U32, U8)
    passes("records", "records with padding, alone, in lists and in records", RECORDS, [
        Call([padded], [five], padded, (255, 1 << 31, 254, 1 << 63, 9)),
        Call([list_of(padded)], [[five, (6, 7, 8, 9, 10)]], list_of(padded),
             [(9, 8, 7, 6, 5)] * 3),
        Call([record(padded, U8), list_of(inner)], [(five, 6), [(1, 2, 3), (4, 5, 6)]],
             record(record(U8), U64), ((7,), 8))])


def lists():
    elements = (
        (U8, list(range(256))), (S8, [-1, 0, 1]), (U16, [1, 65535, 3]), (S32, [-1, 1 << 30]),
        (U64, [1, 1 << 63, 3]), (BOOL, [0, 1, 1]), (CHAR, [0x41, 0x1F600]),
        (STRING, ["", "a", "bc", "é€😀"]), (list_of(U16), [[], [1], [2, 3]]),
        (option(U64), [(0, None), (1, 5)]))
    passes("lists", "lists of ten types of elements", LISTS,
           [Call([list_of(it)], [v], list_of(it), v[::-1]) for it, v in elements])
    passes("lists-empty", "empty lists and texts, also in lists", LISTS, [
        Call([list_of(U64), STRING], [[], ""], list_of(STRING), []),
        Call([list_of(list_of(U32))], [[[], [], []]], tuple_of(STRING, list_of(U16)), ("", []))])
    passes("lists-of-lists-of-texts", "lists in lists, with texts that change their encoding",
           LISTS, [Call([list_of(list_of(STRING))], [[["a", "b"], [], ["cdé"]]],
                        list_of(tuple_of(STRING, list_of(U32))),
                        [("x", [1, 2]), ("", []), ("z", [3])])], provider="utf16", user="utf8")
    passes("list-of-70000-bytes", "a list that is longer than a page, with zeros at its end",
           LISTS, [Call([list_of(U8)], [list(range(1, 252))], U32, 1)], pages=[2, 2],
           change=points_to(1024, 70000))


def lists_of_fixed_length():
    threes = list_of(list_of(list_of(U8, 2), 3))
    passes("lists-of-fixed-length", "lists of fixed length lie in place, flat and in memory",
           "Flattening: flatten_list; Loading: load_list", [
               Call([list_of(U16, 3)], [[1, 2, 65535]], list_of(U16, 3), [5, 6, 7]),
               Call([list_of(STRING, 2), U8], [["a", "bé"], 3], list_of(STRING, 2), ["x", ""]),
               Call([threes], [[[[1, 2], [3, 4], [5, 6]]] * 2], list_of(U64, 1), [1 << 63]),
               Call([list_of(U8, 17)], [list(range(17))], list_of(tuple_of(U8, U32), 2),
                    [(1, 2), (3, 4)])],
           only="lists of fixed length are there, a gated feature of the standard")


variants()
options_and_results()
spilled()
records()
lists()
lists_of_fixed_length()

"""Descriptions: strings between the encodings of the profile, and bytes that are no text."""

from itertools import product

from .types import STRING, list_of
from .vectors import Call, passes

LOADS = "Loading: load_string_from_range"
STORES = "Storing: store_string_into_range"
STORED = ("utf8", "utf16")
LATIN1 = ["", "a", "plain text of 22 bytes", "é", "aé", "abcdefghé", "\x00\x7f\x80\xff"]
WIDE = ["\ufeffa", "Ā߿", "ࠀ€", "\ud7ff\ue000\uffff", "😀", "a😀", "ab\U00010000\U0010ffffc",
        "x" * 100 + "€"]
TEXTS = LATIN1 + WIDE
LIST = list_of(STRING)
BACK = ["", "plain", "é", "a😀"]
NOT_UTF8 = {"80": "lone", "c080": "overlong", "eda080": "surrogate", "f4908080": "beyond",
            "61e282": "cut", "ff": "ff"}
NOT_UTF16 = {"00d8": "high", "00dc": "low", "610000d86100": "high-inside", "00dc00d8": "swapped"}
EXACT = "runtimes make exactly the requests of CanonicalABI.md for texts (and they may differ)"


def file_name(encoding):
    return encoding.replace("+", "-or-")


def pairs():
    """From each encoding to each that is stored; and back where it can be stored there."""
    about = "empty, ASCII, Latin-1, the edges of surrogates, astral, a long one"
    for user, provider in product(("utf8", "utf16", "latin1+utf16"), STORED):
        answers = user != "latin1+utf16"
        calls = [Call([STRING], [it]) for it in TEXTS]
        if answers:
            calls += [Call([], [], STRING, it) for it in BACK] + [Call([], [], LIST, TEXTS)]
        else:
            calls.append(Call([LIST], [TEXTS]))
        passes(f"text-{file_name(user)}-to-{provider}", f"{user} to {provider}: {about}",
               STORES, calls, provider=provider, user=user, post=answers)


def results():
    for user in STORED:
        passes(f"text-latin1-or-utf16-in-a-result-to-{user}", f"results, latin1+utf16 to {user}",
               STORES, [Call([], [], STRING, it) for it in TEXTS], provider="latin1+utf16",
               user=user)


def no_texts():
    wrong = [("utf8", 1, *it) for it in NOT_UTF8.items()]
    wrong += [("utf16", 2, *it) for it in NOT_UTF16.items()]
    for provider, (user, unit, digits, why) in product(STORED, wrong):
        data = bytes.fromhex(digits)
        passes(f"bad-{user}-{why}-to-{provider}", f"{digits} is no {user} ({why})", LOADS,
               [Call([STRING], [(data, len(data) // unit)])], provider=provider, user=user,
               trap=8)
    passes("bad-utf16-in-latin1-or-utf16", "a tagged length, and a lone surrogate", LOADS,
           [Call([STRING], [(b"\0\xd8", 1 << 31 | 1)])], user="latin1+utf16", trap=8)


def no_texts_in_results():
    for provider, data in (("utf8", b"\xff"), ("utf16", b"\0\xdc")):
        passes(f"bad-{provider}-in-a-result", f"a result that is no {provider}", LOADS,
               [Call([], [], STRING, (data, 1))], provider=provider, trap=8)


def requests():
    calls = [Call([STRING], ["aé€"], STRING, "plain"), Call([STRING], ["plain"], STRING, "é"),
             Call([list_of(STRING)], [["a", "é"]], list_of(STRING), ["b", "ö"])]
    passes("requests-of-texts", "the requests for texts: sizes, order, growing and shrinking",
           STORES, calls, provider="utf16", user="utf8", post=True, recorded=True, only=EXACT)
    passes("text-grown-and-shrunk-in-place", "an allocator that answers the old place",
           STORES, [Call([STRING], ["aé€"])], user="utf16", recorded=True,
           answers=[["return i32:4097"]] * 3, only=EXACT)
    passes("text-shrunk-in-place", "an allocator that shrinks in place", STORES,
           [Call([STRING], ["aé😀"])], provider="utf16", recorded=True,
           answers=[["return i32:4098"]] * 2, only=EXACT)


pairs()
results()
no_texts()
no_texts_in_results()
requests()
